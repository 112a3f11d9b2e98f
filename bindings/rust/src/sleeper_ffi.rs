//! The functions of the sleeper's static library, as include/sleeper_image.h has them. A slice passes as pointer and
//! length.

unsafe extern "C" {
    pub fn story_image_sleeper_load_words(bytes: *const u8, length: usize) -> usize;

    pub fn story_image_sleeper_load(
        bytes: *const u8,
        length: usize,
        work: *mut u32,
        work_length: usize,
        view: *mut u32,
        view_length: usize,
    ) -> u32;

    pub fn story_image_sleeper_node_view(
        bytes: *const u8,
        length: usize,
        view: *const u32,
        view_length: usize,
        node: u32,
        answer: *mut u32,
        answer_length: usize,
    ) -> u32;

    /// Writes `text` and the first word of `size` with 0 alone.
    pub fn story_image_sleeper_text(
        bytes: *const u8,
        length: usize,
        view: *const u32,
        view_length: usize,
        kind: u32,
        a: u32,
        b: u32,
        text: *mut u8,
        text_length: usize,
        size: *mut u32,
        size_length: usize,
    ) -> u32;

    pub fn story_image_sleeper_text_length(
        bytes: *const u8,
        length: usize,
        view: *const u32,
        view_length: usize,
        kind: u32,
        a: u32,
        b: u32,
        answer: *mut u32,
        answer_length: usize,
    ) -> u32;

    pub fn story_image_sleeper_depth(
        bytes: *const u8,
        length: usize,
        view: *const u32,
        view_length: usize,
        node: u32,
        answer: *mut u32,
        answer_length: usize,
    ) -> u32;

    pub fn story_image_sleeper_child_count(
        bytes: *const u8,
        length: usize,
        view: *const u32,
        view_length: usize,
        node: u32,
        answer: *mut u32,
        answer_length: usize,
    ) -> u32;

    pub fn story_image_sleeper_named_child_count(
        bytes: *const u8,
        length: usize,
        view: *const u32,
        view_length: usize,
        node: u32,
        answer: *mut u32,
        answer_length: usize,
    ) -> u32;

    pub fn story_image_sleeper_child_at(
        bytes: *const u8,
        length: usize,
        view: *const u32,
        view_length: usize,
        node: u32,
        index: u32,
        answer: *mut u32,
        answer_length: usize,
    ) -> u32;

    pub fn story_image_sleeper_named_child_at(
        bytes: *const u8,
        length: usize,
        view: *const u32,
        view_length: usize,
        node: u32,
        index: u32,
        answer: *mut u32,
        answer_length: usize,
    ) -> u32;

    pub fn story_image_sleeper_find_named_child(
        bytes: *const u8,
        length: usize,
        view: *const u32,
        view_length: usize,
        node: u32,
        name: *const u8,
        name_length: usize,
        answer: *mut u32,
        answer_length: usize,
    ) -> u32;

    pub fn story_image_sleeper_list_item_count(
        bytes: *const u8,
        length: usize,
        view: *const u32,
        view_length: usize,
        node: u32,
        answer: *mut u32,
        answer_length: usize,
    ) -> u32;

    pub fn story_image_sleeper_list_origin_count(
        bytes: *const u8,
        length: usize,
        view: *const u32,
        view_length: usize,
        node: u32,
        answer: *mut u32,
        answer_length: usize,
    ) -> u32;

    pub fn story_image_sleeper_list_entry(
        bytes: *const u8,
        length: usize,
        view: *const u32,
        view_length: usize,
        node: u32,
        index: u32,
        answer: *mut u32,
        answer_length: usize,
    ) -> u32;

    pub fn story_image_sleeper_definition_count(
        bytes: *const u8,
        length: usize,
        view: *const u32,
        view_length: usize,
        answer: *mut u32,
        answer_length: usize,
    ) -> u32;

    pub fn story_image_sleeper_definition(
        bytes: *const u8,
        length: usize,
        view: *const u32,
        view_length: usize,
        index: u32,
        answer: *mut u32,
        answer_length: usize,
    ) -> u32;

    pub fn story_image_sleeper_definition_first_item(
        bytes: *const u8,
        length: usize,
        view: *const u32,
        view_length: usize,
        index: u32,
        answer: *mut u32,
        answer_length: usize,
    ) -> u32;

    pub fn story_image_sleeper_definition_item(
        bytes: *const u8,
        length: usize,
        view: *const u32,
        view_length: usize,
        index: u32,
        item: u32,
        answer: *mut u32,
        answer_length: usize,
    ) -> u32;

    /// The count goes into the first word of `searched`, with 18 too.
    pub fn story_image_sleeper_find_list_item(
        bytes: *const u8,
        length: usize,
        view: *const u32,
        view_length: usize,
        name: *const u8,
        name_length: usize,
        answer: *mut u32,
        answer_length: usize,
        searched: *mut u32,
        searched_length: usize,
    ) -> u32;

    /// Three words a component: kind (0 parent, 1 index, 2 name), then index and 0, or offset and length in `names`.
    pub fn story_image_sleeper_resolve_path(
        bytes: *const u8,
        length: usize,
        view: *const u32,
        view_length: usize,
        origin: u32,
        relative: bool,
        path: *const u32,
        path_length: usize,
        names: *const u8,
        names_length: usize,
        answer: *mut u32,
        answer_length: usize,
    ) -> u32;
}
