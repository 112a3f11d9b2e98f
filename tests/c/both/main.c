/* Both readers in one program, on the same images: both SAMPLES. The sleeper's reader shows notes as void and all else
 * as the technician's does: the same numbers, and each text the bytes at the place that the technician's tells. Ends 'N
 * passed, M failed'. Compiles as C11 and as C++17. */
#include "../check.h"
#include "../sleeper/images.h"
#include "sleeper_image.h"
#include "story_image.h"

/* An image under the views of both. */
struct both {
    struct story_image technician;
    struct story_image_sleeper sleeper;
};

static struct both loaded(const uint8_t *bytes, size_t length, const char *what) {
    struct both both;
    memset(&both, 0, sizeof both);
    both.technician.bytes = both.sleeper.bytes = bytes;
    both.technician.length = both.sleeper.length = length;
    uint32_t *work = marked(length / 4);
    CHECK(story_image_load_words_in(&both.technician) == story_image_sleeper_load_words_in(&both.sleeper), "%s", what);
    CHECK(story_image_load_in(&both.technician, work, length / 4) == STORY_IMAGE_OK, "%s is accepted", what);
    CHECK(story_image_sleeper_load_in(&both.sleeper, work, length / 4) == STORY_IMAGE_OK, "%s is accepted", what);
    free(work);
    return both;
}

/* Whether a text of the sleeper's reader is the bytes at a place that the technician's tells, or neither is there. */
static bool same_text(const struct both *both, uint32_t kind, uint32_t a, uint32_t b, uint32_t offset,
                      uint32_t length) {
    uint32_t part[STORY_IMAGE_TEXT_WORDS], told = MARK, size = MARK;
    bool there = story_image_text_in(&both->technician, offset, length, part) == STORY_IMAGE_OK;
    uint8_t *text = (uint8_t *)room(there ? length : 0);
    uint32_t number = story_image_sleeper_text_in(&both->sleeper, kind, a, b, text, there ? length : 0, &size);
    uint32_t due = there ? STORY_IMAGE_OK : STORY_IMAGE_NOT_FOUND;
    bool right = number == due && story_image_sleeper_text_length_in(&both->sleeper, kind, a, b, &told) == due;
    if (there)
        right =
            right && size == length && told == length && memcmp(text, both->technician.bytes + part[0], length) == 0;
    free(text);
    return right;
}

static bool is_note(const struct both *both, const uint32_t *view) {
    uint32_t part[STORY_IMAGE_TEXT_WORDS];
    return view[STORY_IMAGE_NODE_KIND] == STORY_IMAGE_KIND_TAG &&
           story_image_text_in(&both->technician, view[STORY_IMAGE_NODE_TEXT], view[STORY_IMAGE_NODE_TEXT_LENGTH],
                               part) == STORY_IMAGE_OK &&
           part[STORY_IMAGE_TEXT_LENGTH] >= 5 && memcmp(both->technician.bytes + part[0], "tech:", 5) == 0;
}

/* The view of a node, its texts, depth and counts. Whether it is a note. */
static bool same_node(const struct both *both, uint32_t node) {
    uint32_t view[STORY_IMAGE_NODE_WORDS], seen[STORY_IMAGE_SLEEPER_NODE_WORDS], one = MARK, other = MARK;
    CHECK(story_image_node_view_in(&both->technician, node, view) == STORY_IMAGE_OK &&
              story_image_sleeper_node_view_in(&both->sleeper, node, seen) == STORY_IMAGE_OK,
          "views of node %u", (unsigned)node);
    bool note = is_note(both, view), list = view[STORY_IMAGE_NODE_KIND] == STORY_IMAGE_KIND_LIST;
    uint32_t text = note || list ? NONE : view[STORY_IMAGE_NODE_TEXT], variable = view[STORY_IMAGE_NODE_VARIABLE];
    const uint32_t due[] = {view[STORY_IMAGE_NODE_PARENT],
                            view[STORY_IMAGE_NODE_PLACE],
                            note ? (uint32_t)STORY_IMAGE_KIND_VOID : view[STORY_IMAGE_NODE_KIND],
                            text != NONE,
                            variable != NONE,
                            view[STORY_IMAGE_NODE_TARGET],
                            view[STORY_IMAGE_NODE_VALUE],
                            view[STORY_IMAGE_NODE_FLAGS]};
    CHECK(memcmp(seen, due, sizeof due) == 0, "node %u is seen as it is", (unsigned)node);
    CHECK(same_text(both, STORY_IMAGE_SLEEPER_TEXT_OF_NODE, node, 0, text, view[STORY_IMAGE_NODE_TEXT_LENGTH]),
          "the text of node %u", (unsigned)node);
    CHECK(same_text(both, STORY_IMAGE_SLEEPER_TEXT_OF_VARIABLE, node, 0, variable,
                    view[STORY_IMAGE_NODE_VARIABLE_LENGTH]),
          "the variable of node %u", (unsigned)node);
    CHECK(story_image_depth_in(&both->technician, node, &one) ==
                  story_image_sleeper_depth_in(&both->sleeper, node, &other) &&
              one == other,
          "the depth of node %u", (unsigned)node);
    return note;
}

/* Its children and named children, up to one past the last. */
static void same_children(const struct both *both, uint32_t node) {
    uint32_t one = 0, other = 0, named[STORY_IMAGE_NAMED_CHILD_WORDS];
    CHECK(story_image_child_count_in(&both->technician, node, &one) ==
                  story_image_sleeper_child_count_in(&both->sleeper, node, &other) &&
              one == other,
          "children of %u", (unsigned)node);
    for (uint32_t index = 0, count = one; index <= count; index++)
        CHECK(story_image_child_at_in(&both->technician, node, index, &one) ==
                      story_image_sleeper_child_at_in(&both->sleeper, node, index, &other) &&
                  one == other,
              "child %u of %u", (unsigned)index, (unsigned)node);
    one = other = 0;
    CHECK(story_image_named_child_count_in(&both->technician, node, &one) ==
                  story_image_sleeper_named_child_count_in(&both->sleeper, node, &other) &&
              one == other,
          "named children of %u", (unsigned)node);
    for (uint32_t index = 0, count = one; index < count; index++) {
        CHECK(story_image_named_child_at_in(&both->technician, node, index, named) == STORY_IMAGE_OK &&
                  story_image_sleeper_named_child_at_in(&both->sleeper, node, index, &other) == STORY_IMAGE_OK &&
                  other == named[STORY_IMAGE_NAMED_CHILD_NODE],
              "named child %u of %u", (unsigned)index, (unsigned)node);
        CHECK(same_text(both, STORY_IMAGE_SLEEPER_TEXT_OF_NAMED_CHILD, node, index, named[0], named[1]), "its name");
    }
}

/* The items and origins of a list value; 18 of any other node. */
static void same_list(const struct both *both, uint32_t node) {
    uint32_t counts[STORY_IMAGE_LIST_COUNTS_WORDS] = {0, 0}, items = 0, origins = 0;
    uint32_t entry[STORY_IMAGE_LIST_ENTRY_WORDS], seen[STORY_IMAGE_SLEEPER_LIST_ENTRY_WORDS];
    uint32_t number = story_image_list_counts_in(&both->technician, node, counts);
    CHECK(story_image_sleeper_list_item_count_in(&both->sleeper, node, &items) == number &&
              story_image_sleeper_list_origin_count_in(&both->sleeper, node, &origins) == number &&
              items == counts[0] && origins == counts[1],
          "the list value of node %u", (unsigned)node);
    for (uint32_t index = 0; index < items; index++) {
        CHECK(story_image_node_list_entry_in(&both->technician, node, index, entry) == STORY_IMAGE_OK &&
                  story_image_sleeper_list_entry_in(&both->sleeper, node, index, seen) == STORY_IMAGE_OK &&
                  seen[0] == (entry[STORY_IMAGE_LIST_ENTRY_ORIGIN] != NONE) &&
                  seen[1] == entry[STORY_IMAGE_LIST_ENTRY_VALUE],
              "item %u of node %u", (unsigned)index, (unsigned)node);
        CHECK(same_text(both, STORY_IMAGE_SLEEPER_TEXT_OF_ENTRY_NAME, node, index, entry[2], entry[3]), "its name");
        CHECK(same_text(both, STORY_IMAGE_SLEEPER_TEXT_OF_ENTRY_ORIGIN, node, index, entry[0], entry[1]), "its origin");
    }
    for (uint32_t index = 0; index < origins; index++)
        CHECK(story_image_node_list_origin_in(&both->technician, node, index, entry) == STORY_IMAGE_OK &&
                  same_text(both, STORY_IMAGE_SLEEPER_TEXT_OF_ORIGIN, node, index, entry[0], entry[1]),
              "origin %u of node %u", (unsigned)index, (unsigned)node);
}

/* Definitions and their items. */
static void same_definitions(const struct both *both) {
    uint32_t words[STORY_IMAGE_DEFINITION_WORDS], items, first, other, value;
    for (uint32_t d = 0; d < both->technician.view[STORY_IMAGE_DEFINITIONS_COUNT]; d++) {
        CHECK(story_image_definition_in(&both->technician, d, words) == STORY_IMAGE_OK &&
                  story_image_sleeper_definition_in(&both->sleeper, d, &items) == STORY_IMAGE_OK && items == words[2],
              "definition %u", (unsigned)d);
        CHECK(story_image_definition_first_item_in(&both->technician, d, &first) == STORY_IMAGE_OK &&
                  story_image_sleeper_definition_first_item_in(&both->sleeper, d, &other) == STORY_IMAGE_OK &&
                  first == other,
              "its first item");
        CHECK(same_text(both, STORY_IMAGE_SLEEPER_TEXT_OF_DEFINITION, d, 0, words[0], words[1]), "its name");
        for (uint32_t item = 0; item < items; item++) {
            CHECK(story_image_definition_item_in(&both->technician, d, item, words) == STORY_IMAGE_OK &&
                      story_image_sleeper_definition_item_in(&both->sleeper, d, item, &value) == STORY_IMAGE_OK &&
                      value == words[STORY_IMAGE_DEFINITION_ITEM_VALUE],
                  "item %u of definition %u", (unsigned)item, (unsigned)d);
            CHECK(same_text(both, STORY_IMAGE_SLEEPER_TEXT_OF_DEFINITION_ITEM, d, item, words[0], words[1]) &&
                      same_text(both, STORY_IMAGE_SLEEPER_TEXT_OF_ITEM, first + item, 0, words[0], words[1]),
                  "its name");
        }
    }
}

static void same(uint8_t *bytes, size_t length, const char *what, unsigned notes) {
    struct both both = loaded(bytes, length, what);
    for (uint32_t node = 0; node < both.technician.view[STORY_IMAGE_NODES_COUNT]; node++) {
        notes -= same_node(&both, node);
        same_children(&both, node);
        same_list(&both, node);
    }
    CHECK(notes == 0, "%s: as many notes as are due", what);
    same_definitions(&both);
    free(bytes);
}

int main(int count, char **arguments) {
    static const struct guide guide = {"tech:a", "tech:", false};
    static const struct layout layout = {true, true, "unused"};
    size_t length;
    if (count != 2) {
        fprintf(stderr, "both SAMPLES\n");
        return 2;
    }
    static const struct {
        const char *name;
        unsigned notes;
    } samples[] = {{"smallest", 0}, {"step", 0}, {"guide", 0}, {"note-one", 2}, {"note-two", 2}};
    for (size_t k = 0; k < sizeof samples / sizeof samples[0]; k++) {
        uint8_t *bytes = sample_bytes(arguments[1], samples[k].name, &length);
        same(bytes, length, samples[k].name, samples[k].notes);
    }
    uint8_t *bytes = guide_bytes(&guide, &layout, &length);
    same(bytes, length, "a guide with notes", 2);
    printf("%lu passed, %lu failed\n", passed, failed);
    return failed != 0;
}
