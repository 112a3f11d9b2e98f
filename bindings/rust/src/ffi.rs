//! The static library's functions, as include/story_image.h has them. A slice passes as pointer and length.

unsafe extern "C" {
    pub fn story_image_load(
        bytes: *const u8,
        length: usize,
        work: *mut u32,
        work_length: usize,
        view: *mut u32,
        view_length: usize,
    ) -> u32;

    pub fn story_image_load_words(bytes: *const u8, length: usize) -> usize;

    pub fn story_image_view_whole(view: *const u32, view_length: usize) -> bool;

    pub fn story_image_node_view(
        bytes: *const u8,
        length: usize,
        view: *const u32,
        view_length: usize,
        node: u32,
        answer: *mut u32,
        answer_length: usize,
    ) -> u32;

    pub fn story_image_page(
        bytes: *const u8,
        length: usize,
        view: *const u32,
        view_length: usize,
        numbers: *const u32,
        numbers_length: usize,
        slots: *mut u32,
        slots_length: usize,
    ) -> u32;

    pub fn story_image_slot_view(
        bytes: *const u8,
        length: usize,
        view: *const u32,
        view_length: usize,
        slot: *const u32,
        slot_length: usize,
        answer: *mut u32,
        answer_length: usize,
    ) -> u32;

    pub fn story_image_text(
        bytes: *const u8,
        length: usize,
        view: *const u32,
        view_length: usize,
        offset: u32,
        text_length: u32,
        answer: *mut u32,
        answer_length: usize,
    ) -> u32;

    pub fn story_image_depth(
        bytes: *const u8,
        length: usize,
        view: *const u32,
        view_length: usize,
        node: u32,
        answer: *mut u32,
        answer_length: usize,
    ) -> u32;

    /// One word a node; words past the nodes stay.
    pub fn story_image_count_targets(
        bytes: *const u8,
        length: usize,
        view: *const u32,
        view_length: usize,
        counts: *mut u32,
        counts_length: usize,
    ) -> u32;

    pub fn story_image_child_count(
        bytes: *const u8,
        length: usize,
        view: *const u32,
        view_length: usize,
        node: u32,
        answer: *mut u32,
        answer_length: usize,
    ) -> u32;

    pub fn story_image_named_child_count(
        bytes: *const u8,
        length: usize,
        view: *const u32,
        view_length: usize,
        node: u32,
        answer: *mut u32,
        answer_length: usize,
    ) -> u32;

    pub fn story_image_child_at(
        bytes: *const u8,
        length: usize,
        view: *const u32,
        view_length: usize,
        node: u32,
        index: u32,
        answer: *mut u32,
        answer_length: usize,
    ) -> u32;

    pub fn story_image_named_child_at(
        bytes: *const u8,
        length: usize,
        view: *const u32,
        view_length: usize,
        node: u32,
        index: u32,
        answer: *mut u32,
        answer_length: usize,
    ) -> u32;

    pub fn story_image_find_named_child(
        bytes: *const u8,
        length: usize,
        view: *const u32,
        view_length: usize,
        node: u32,
        name: *const u8,
        name_length: usize,
        answer: *mut u32,
        answer_length: usize,
    ) -> u32;

    pub fn story_image_list_entry(
        payload: *const u8,
        payload_length: usize,
        strings: *const u8,
        strings_length: usize,
        index: u32,
        answer: *mut u32,
        answer_length: usize,
    ) -> u32;

    pub fn story_image_list_origin(
        payload: *const u8,
        payload_length: usize,
        strings: *const u8,
        strings_length: usize,
        index: u32,
        answer: *mut u32,
        answer_length: usize,
    ) -> u32;

    pub fn story_image_list_payload(
        bytes: *const u8,
        length: usize,
        view: *const u32,
        view_length: usize,
        node: u32,
        answer: *mut u32,
        answer_length: usize,
    ) -> u32;

    pub fn story_image_list_counts(
        bytes: *const u8,
        length: usize,
        view: *const u32,
        view_length: usize,
        node: u32,
        answer: *mut u32,
        answer_length: usize,
    ) -> u32;

    pub fn story_image_node_list_entry(
        bytes: *const u8,
        length: usize,
        view: *const u32,
        view_length: usize,
        node: u32,
        index: u32,
        answer: *mut u32,
        answer_length: usize,
    ) -> u32;

    pub fn story_image_node_list_origin(
        bytes: *const u8,
        length: usize,
        view: *const u32,
        view_length: usize,
        node: u32,
        index: u32,
        answer: *mut u32,
        answer_length: usize,
    ) -> u32;

    pub fn story_image_definition_first_item(
        bytes: *const u8,
        length: usize,
        view: *const u32,
        view_length: usize,
        index: u32,
        answer: *mut u32,
        answer_length: usize,
    ) -> u32;

    pub fn story_image_definition_count(
        bytes: *const u8,
        length: usize,
        view: *const u32,
        view_length: usize,
        answer: *mut u32,
        answer_length: usize,
    ) -> u32;

    pub fn story_image_definition(
        bytes: *const u8,
        length: usize,
        view: *const u32,
        view_length: usize,
        index: u32,
        answer: *mut u32,
        answer_length: usize,
    ) -> u32;

    pub fn story_image_definition_item(
        bytes: *const u8,
        length: usize,
        view: *const u32,
        view_length: usize,
        index: u32,
        item: u32,
        answer: *mut u32,
        answer_length: usize,
    ) -> u32;

    /// The count goes into the first word of `searched`, with 18 too.
    pub fn story_image_find_list_item(
        bytes: *const u8,
        length: usize,
        view: *const u32,
        view_length: usize,
        name: *const u8,
        name_length: usize,
        answer: *mut u32,
        answer_length: usize,
        searched: *mut u32,
        searched_length: usize,
    ) -> u32;

    /// Three words a component: kind (0 parent, 1 index, 2 name), then index and 0, or offset and length in `names`.
    pub fn story_image_resolve_path(
        bytes: *const u8,
        length: usize,
        view: *const u32,
        view_length: usize,
        origin: u32,
        relative: bool,
        path: *const u32,
        path_length: usize,
        names: *const u8,
        names_length: usize,
        answer: *mut u32,
        answer_length: usize,
    ) -> u32;

    /// The length is written with 0, and with 23 where a word can say how long the image is.
    pub fn story_image_write(
        ink_version: u32,
        nodes: *const u32,
        nodes_length: usize,
        children: *const u32,
        children_length: usize,
        named: *const u32,
        named_length: usize,
        definitions: *const u32,
        definitions_length: usize,
        items: *const u32,
        items_length: usize,
        payload: *const u8,
        payload_length: usize,
        strings: *const u8,
        strings_length: usize,
        work: *mut u32,
        work_length: usize,
        output: *mut u8,
        output_length: usize,
        written: *mut u32,
        written_length: usize,
    ) -> u32;

    pub fn story_image_resolve_static_targets(
        ink_version: u32,
        nodes: *mut u32,
        nodes_length: usize,
        children: *const u32,
        children_length: usize,
        named: *const u32,
        named_length: usize,
        definitions: *const u32,
        definitions_length: usize,
        items: *const u32,
        items_length: usize,
        payload: *const u8,
        payload_length: usize,
        strings: *const u8,
        strings_length: usize,
        paths: *const u32,
        paths_length: usize,
        components: *const u32,
        components_length: usize,
        names: *const u8,
        names_length: usize,
        work: *mut u32,
        work_length: usize,
    ) -> u32;

    /// One word a node; words past the nodes stay.
    pub fn story_image_count_draft_targets(
        nodes: *const u32,
        nodes_length: usize,
        children: *const u32,
        children_length: usize,
        named: *const u32,
        named_length: usize,
        definitions: *const u32,
        definitions_length: usize,
        items: *const u32,
        items_length: usize,
        payload: *const u8,
        payload_length: usize,
        strings: *const u8,
        strings_length: usize,
        counts: *mut u32,
        counts_length: usize,
    ) -> u32;

    /// Of the counts at most two words change.
    pub fn story_image_set_target(
        nodes: *mut u32,
        nodes_length: usize,
        children: *const u32,
        children_length: usize,
        named: *const u32,
        named_length: usize,
        definitions: *const u32,
        definitions_length: usize,
        items: *const u32,
        items_length: usize,
        payload: *const u8,
        payload_length: usize,
        strings: *const u8,
        strings_length: usize,
        counts: *mut u32,
        counts_length: usize,
        node: u32,
        target: u32,
    ) -> u32;

    pub fn story_image_write_words(
        nodes: *const u32,
        nodes_length: usize,
        children: *const u32,
        children_length: usize,
        named: *const u32,
        named_length: usize,
        definitions: *const u32,
        definitions_length: usize,
        items: *const u32,
        items_length: usize,
        payload: *const u8,
        payload_length: usize,
    ) -> usize;

    pub fn story_image_total_length(bytes: *const u8, length: usize, answer: *mut u32, answer_length: usize) -> u32;

    pub fn story_image_strings_length(bytes: *const u8, length: usize, answer: *mut u32, answer_length: usize) -> u32;

    pub fn story_image_checksum(bytes: *const u8, length: usize, answer: *mut u32, answer_length: usize) -> u32;

    pub fn story_image_command_name(
        number: u32,
        text: *mut u8,
        text_length: usize,
        size: *mut u32,
        size_length: usize,
    ) -> u32;

    pub fn story_image_operator_name(
        number: u32,
        text: *mut u8,
        text_length: usize,
        size: *mut u32,
        size_length: usize,
    ) -> u32;
}
