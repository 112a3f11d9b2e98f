/* The path index: each container under its canonical path, and under no other text. */
#include "drafts.h"
#include "groups.h"

/* The checksum of IEEE 802.3, bit by bit. */
static uint32_t checksum_of(const struct story_image *image) {
    uint32_t sum = ~UINT32_C(0);
    for (size_t at = 0; at < image->length; at++) {
        if (at >= 84 && at < STORY_IMAGE_HEADER_BYTES)
            continue;
        sum ^= image->bytes[at];
        for (int k = 0; k < 8; k++)
            sum = sum >> 1 ^ (sum & 1 ? UINT32_C(0xedb88320) : 0);
    }
    return ~sum;
}

/* Puts a section of words behind the bytes so far, and its offset and count into the header. */
static void put_section(struct story_image *image, size_t section, const uint32_t *words, size_t count, size_t entry) {
    set_word_at(image, 20 + 8 * section, (uint32_t)image->length);
    set_word_at(image, 24 + 8 * section, (uint32_t)(count / entry));
    for (size_t k = 0; k < count; k++, image->length += 4)
        set_word_at(image, image->length, words[k]);
}

/* Sections 0 to 2 of a draft, an index and the draft's strings, laid out as an image. */
static struct story_image laid_out(const struct story_image_draft *draft, const uint32_t *index, size_t index_words) {
    size_t strings = draft->strings_length;
    struct story_image image;
    memset(&image, 0, sizeof image);
    image.length = STORY_IMAGE_HEADER_BYTES;
    image.bytes =
        (const uint8_t *)room(image.length + strings +
                              4 * (draft->nodes_length + draft->children_length + draft->named_length + index_words));
    put_section(&image, 0, draft->nodes, draft->nodes_length, STORY_IMAGE_DRAFT_NODE_WORDS);
    put_section(&image, 1, draft->children, draft->children_length, 1);
    put_section(&image, 2, draft->named, draft->named_length, 3);
    put_section(&image, 3, NULL, 0, 4);
    put_section(&image, 4, NULL, 0, 3);
    put_section(&image, 5, index, index_words, 3);
    put_section(&image, 6, NULL, 0, 1);
    put_section(&image, 7, NULL, 0, 1);
    set_word_at(&image, 80, (uint32_t)strings);
    memcpy(bytes_of(&image) + image.length, draft->strings, strings);
    image.length += strings;
    memcpy(bytes_of(&image), "BLINKIMG", 8);
    set_word_at(&image, 8, 2);
    set_word_at(&image, 12, STORY_IMAGE_LAST_INK_VERSION);
    set_word_at(&image, 16, (uint32_t)image.length);
    set_word_at(&image, 84, checksum_of(&image));
    return image;
}

/* What a load says of a draft's sections with this index. */
static uint32_t filed(const struct story_image_draft *draft, const uint32_t *index, size_t index_words) {
    struct story_image image = laid_out(draft, index, index_words);
    uint32_t number = load(&image, story_image_load_words(image.bytes, image.length));
    release(&image);
    return number;
}

/* The root alone, and a nameless container in place 3: the path fits, with dots or a 0 in front it does not. */
static void filed_under_places(void) {
    static uint32_t nodes[] = {NONE, NONE, 1, NONE, NONE, 0, 0, 4, 0, 0,    0,    0, 5, 0, 0, 0, 0,
                               0,    0,    0, 0,    1,    5, 0, 0, 0, 0,    0,    0, 0, 0, 2, 5, 0,
                               0,    0,    0, 0,    0,    0, 0, 3, 1, NONE, NONE, 0, 4, 0, 0, 0};
    static const uint32_t children[] = {1, 2, 3, 4};
    static const char texts[] = "..303";
    static const struct {
        uint32_t offset, length, number;
    } table[] = {{2, 1, STORY_IMAGE_OK},
                 {1, 2, STORY_IMAGE_BAD_INDEX},
                 {0, 3, STORY_IMAGE_BAD_INDEX},
                 {3, 2, STORY_IMAGE_BAD_INDEX}};
    struct story_image_draft alone = draft_of(root_node, SIZE(root_node), "."),
                             draft = draft_of(nodes, SIZE(nodes), texts);
    draft.children = children;
    draft.children_length = SIZE(children);
    for (size_t i = 0; i < sizeof table / sizeof table[0]; i++) {
        const uint32_t index[] = {0, 0, 0, table[i].offset, table[i].length, 4};
        CHECK(filed(&draft, index, SIZE(index)) == table[i].number, "place 3, filed as %.*s", (int)table[i].length,
              texts + table[i].offset);
    }
    static const uint32_t empty[] = {0, 0, 0}, dot[] = {0, 1, 0};
    CHECK(filed(&alone, empty, 3) == STORY_IMAGE_OK, "the root, filed under no bytes");
    CHECK(filed(&alone, dot, 3) == STORY_IMAGE_BAD_INDEX, "the root, filed as .");
}

/* A nameless container in place 0, and in it another. */
static void filed_below_places(void) {
    static uint32_t nodes[] = {NONE, NONE, 1, NONE, NONE, 0, 0, 1, 0,    0,    0, 0, 1, NONE, NONE,
                               0,    1,    1, 0,    0,    1, 0, 1, NONE, NONE, 0, 2, 0, 0,    0};
    static const uint32_t children[] = {1, 2}, right[] = {0, 0, 0, 1, 1, 1, 1, 3, 2};
    static const uint32_t dotted[] = {0, 0, 0, 0, 4, 2, 1, 1, 1}, twice[] = {0, 0, 0, 0, 2, 1, 1, 1, 1};
    struct story_image_draft draft = draft_of(nodes, SIZE(nodes), ".0.0");
    draft.children = children;
    draft.children_length = SIZE(children);
    CHECK(filed(&draft, right, 9) == STORY_IMAGE_OK, "places 0 and 0.0");
    CHECK(filed(&draft, dotted, 9) == STORY_IMAGE_BAD_INDEX, "place 0.0, filed as .0.0");
    CHECK(filed(&draft, twice, 9) == STORY_IMAGE_BAD_INDEX, "place 0, filed as 0 and as .0; place 0.0 is not filed");
}

static void written_and_released(const struct story_image_draft *draft) {
    struct story_image image = written(draft, "a named container of place NONE");
    release(&image);
}

/* A container of place NONE, which is only a named child, by the words of its name; `below` puts a nameless one in its
 * place 0. It is filed under its name if it has one that is not empty, and else 4294967295 does not fit it, nor what is
 * below it: 16. The writer takes the same drafts, the others are 22. */
static void filed_without_place(uint32_t name, uint32_t name_length, bool below) {
    uint32_t nodes[] = {NONE, NONE, 1,     NONE, NONE, 0, 0, 0, 0,    1,    0, NONE, 1, name, name_length,
                        0,    0,    below, 1,    0,    1, 0, 1, NONE, NONE, 0, 1,    0, 1,    0};
    static const uint32_t children[] = {2}, named[] = {0, 1, 1};
    static const uint32_t by_name[] = {0, 0, 0, 0, 1, 1, 0, 3, 2}, by_number[] = {0, 0, 0, 3, 10, 1, 3, 12, 2};
    struct story_image_draft draft = draft_of(nodes, below ? 30 : 20, "a.04294967295.0");
    bool has_name = name != NONE && name_length != 0;
    const char *what = has_name ? "named" : name == NONE ? "without a name" : "with the empty name";
    const uint32_t *index = has_name ? by_name : by_number, *other = has_name ? by_number : by_name;
    draft.children = children;
    draft.children_length = below;
    draft.named = named;
    draft.named_length = SIZE(named);
    CHECK(filed(&draft, index, below ? 9 : 6) == (has_name ? STORY_IMAGE_OK : STORY_IMAGE_BAD_INDEX),
          "place NONE, %s, %d below it", what, below);
    CHECK(filed(&draft, other, below ? 9 : 6) == STORY_IMAGE_BAD_INDEX, "place NONE, %s, %d below it: another text",
          what, below);
    const uint32_t lower_first[] = {0, 0, 0, index[6], index[7], index[8], 0, 1, NONE};
    if (below)
        CHECK(filed(&draft, lower_first, 9) == (has_name ? STORY_IMAGE_BAD_NODE : STORY_IMAGE_BAD_INDEX),
              "place NONE, %s: the one below filed first, then no node", what);
    uint8_t none[1] = {0};
    uint32_t length;
    CHECK(put(&draft, 21, write_words(&draft), none, 0, &length) ==
              (has_name ? STORY_IMAGE_NO_ROOM : STORY_IMAGE_DRAFT_PATHS),
          "place NONE, %s, %d below it: the draft", what, below);
    if (has_name)
        written_and_released(&draft);
}

void test_index(void) {
    filed_under_places();
    filed_below_places();
    for (int below = 0; below < 2; below++) {
        filed_without_place(0, 1, below);
        filed_without_place(0, 0, below);
        filed_without_place(NONE, NONE, below);
    }
}
