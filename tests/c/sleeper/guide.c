/* What every call answers of a guide that has each kind of node, notes among them. */
#include "calls.h"
#include "groups.h"
#include "images.h"

static const struct layout plain = {false, false, ""};
static const struct guide notes = {"tech:a", "tech:", false};

/* The words of each node's view. */
static const uint32_t views[GUIDE_NODES][STORY_IMAGE_SLEEPER_NODE_WORDS] = {
    {NONE, NONE, STORY_IMAGE_KIND_CONTAINER, 0, 0, NONE, 0, 0},
    {0, 0, STORY_IMAGE_KIND_VOID, 0, 0, NONE, 0, 0}, /* the first note */
    {0, 1, STORY_IMAGE_KIND_STRING, 1, 0, NONE, 0, 0},
    {0, 2, STORY_IMAGE_KIND_TAG, 1, 0, NONE, 0, 0},
    {0, 3, STORY_IMAGE_KIND_LIST, 0, 0, NONE, 0, 0},
    {0, 4, STORY_IMAGE_KIND_DIVERT, 1, 1, KNOT, 2, 12},
    {0, 5, STORY_IMAGE_KIND_CHOICE, 0, 0, LEAF, 0, STORY_IMAGE_CHOICE_ONCE_ONLY},
    {0, 6, STORY_IMAGE_KIND_COMMAND, 0, 0, NONE, STORY_IMAGE_COMMAND_DONE, 0},
    {0, 7, STORY_IMAGE_KIND_OPERATOR, 0, 0, NONE, STORY_IMAGE_OPERATOR_HASNT, 0},
    {0, 8, STORY_IMAGE_KIND_BOOL, 0, 0, NONE, 1, 0},
    {0, 9, STORY_IMAGE_KIND_INT, 0, 0, NONE, (uint32_t)-5, 0},
    {0, 10, STORY_IMAGE_KIND_FLOAT, 0, 0, NONE, UINT32_C(0x7fc00001), 0},
    {0, 11, STORY_IMAGE_KIND_DIVERT_TARGET, 1, 0, NONE, 0, 0},
    {0, 12, STORY_IMAGE_KIND_POINTER, 1, 0, NONE, (uint32_t)-1, 0},
    {0, 13, STORY_IMAGE_KIND_ASSIGNMENT, 1, 0, NONE, 0, STORY_IMAGE_ASSIGNMENT_GLOBAL},
    {0, 14, STORY_IMAGE_KIND_REFERENCE, 1, 0, KNOT, 0, 0},
    {0, 15, STORY_IMAGE_KIND_GLUE, 0, 0, NONE, 0, 0},
    {0, 16, STORY_IMAGE_KIND_VOID, 0, 0, NONE, 0, 0},
    {0, 17, STORY_IMAGE_KIND_TAG, 1, 0, NONE, 0, 0},
    {0, 18, STORY_IMAGE_KIND_CONTAINER, 1, 0, NONE, 0, 5},
    {KNOT, NONE, STORY_IMAGE_KIND_CONTAINER, 1, 0, NONE, 0, 0},
    {KNOT, 0, STORY_IMAGE_KIND_VOID, 0, 0, NONE, 0, 0}, /* the second note */
    {KNOT, 1, STORY_IMAGE_KIND_STRING, 1, 0, NONE, 0, 0},
};

/* The text of each node that has one. */
static const char *const texts[GUIDE_NODES] = {NULL, NULL, "hi",     "loud", NULL,   "knot",  NULL,       NULL,
                                               NULL, NULL, NULL,     NULL,   "knot", "where", "tech:",    "seen",
                                               NULL, NULL, "Tech:a", "knot", "leaf", NULL,    "tech:said"};

static void nodes(const struct story_image_sleeper *image) {
    struct asked asked = {0, 0, 0, image->bytes, 0};
    uint32_t words[MOST_WORDS], depth = NONE, length;
    for (; asked.a < GUIDE_NODES; asked.a++) {
        CHECK(ask(NODE_VIEW, image, &asked, words) && memcmp(words, views[asked.a], sizeof views[0]) == 0,
              "the view of node %u", (unsigned)asked.a);
        CHECK(ask(DEPTH, image, &asked, &depth) && depth == (asked.a == 0     ? 0u
                                                             : asked.a < LEAF ? 1u
                                                                              : 2u),
              "the depth of node %u", (unsigned)asked.a);
        if (texts[asked.a] != NULL)
            CHECK(text_is(image, STORY_IMAGE_SLEEPER_TEXT_OF_NODE, asked.a, 7, texts[asked.a]), "the text of node %u",
                  (unsigned)asked.a);
        else
            CHECK(text_of(image, STORY_IMAGE_SLEEPER_TEXT_OF_NODE, asked.a, 7, &length) == NULL, "no text of node %u",
                  (unsigned)asked.a);
    }
    CHECK(!ask(NODE_VIEW, image, &asked, words) && !ask(DEPTH, image, &asked, words), "no node past the last");
}

/* Notes are counted and found as any child is. */
static void children(const struct story_image_sleeper *image) {
    struct asked of_root = {0, 0, 0, (const uint8_t *)"knot", 4}, of_knot = {KNOT, 0, 0, (const uint8_t *)"leaf", 4};
    uint32_t answer = NONE;
    CHECK(ask(CHILD_COUNT, image, &of_root, &answer) && answer == KNOT, "the root's children");
    CHECK(ask(NAMED_COUNT, image, &of_root, &answer) && answer == 1, "its named children");
    CHECK(ask(CHILD, image, &of_root, &answer) && answer == FIRST_NOTE, "a note is a child");
    CHECK(ask(WALK, image, &of_root, &answer) && answer == FIRST_NOTE, "a walk leads to it");
    CHECK(ask(NAMED_CHILD, image, &of_root, &answer) && answer == KNOT, "a named child");
    CHECK(ask(FIND, image, &of_root, &answer) && answer == KNOT, "the same by its name");
    CHECK(ask(FIND, image, &of_knot, &answer) && answer == LEAF, "a leaf by its name");
    CHECK(ask(CHILD, image, &of_knot, &answer) && answer == SECOND_NOTE, "the second note");
    CHECK(text_is(image, STORY_IMAGE_SLEEPER_TEXT_OF_NAMED_CHILD, KNOT, 0, "leaf"), "the leaf's name");
    struct asked note = {FIRST_NOTE, 0, 0, image->bytes, 0};
    CHECK(!ask(CHILD_COUNT, image, &note, &answer) && !ask(NAMED_COUNT, image, &note, &answer), "a note has none");
    CHECK(ask(WALK, image, &note, &answer) && answer == 0, "a relative walk from a note starts at its parent");
}

static void lists(const struct story_image_sleeper *image) {
    struct asked asked = {LIST, 0, 0, (const uint8_t *)"low", 3};
    uint32_t answer[MOST_WORDS], length;
    CHECK(ask(LIST_ITEM_COUNT, image, &asked, answer) && answer[0] == 2, "items of the list value");
    CHECK(ask(LIST_ORIGIN_COUNT, image, &asked, answer) && answer[0] == 2, "its origins");
    CHECK(ask(LIST_ENTRY, image, &asked, answer) && answer[0] == 1 && answer[1] == 1, "an item with an origin");
    CHECK(text_is(image, STORY_IMAGE_SLEEPER_TEXT_OF_ENTRY_NAME, LIST, 0, "low"), "its name");
    CHECK(text_is(image, STORY_IMAGE_SLEEPER_TEXT_OF_ENTRY_ORIGIN, LIST, 0, "red"), "its origin");
    asked.b = 1;
    CHECK(ask(LIST_ENTRY, image, &asked, answer) && answer[0] == 0 && answer[1] == (uint32_t)-7, "one without");
    CHECK(text_is(image, STORY_IMAGE_SLEEPER_TEXT_OF_ENTRY_NAME, LIST, 1, "loose"), "its name");
    CHECK(text_of(image, STORY_IMAGE_SLEEPER_TEXT_OF_ENTRY_ORIGIN, LIST, 1, &length) == NULL, "it has no origin");
    CHECK(text_is(image, STORY_IMAGE_SLEEPER_TEXT_OF_ORIGIN, LIST, 1, "size"), "an origin of the list value");
    CHECK(text_is(image, STORY_IMAGE_SLEEPER_TEXT_OF_VARIABLE, DIVERT, 0, "where"), "the variable of a divert");
    asked.a = 0;
    CHECK(ask(DEFINITION_COUNT, image, &asked, answer) && answer[0] == 2, "definitions");
    CHECK(ask(DEFINITION, image, &asked, answer) && answer[0] == 2, "items of the first");
    CHECK(ask(DEFINITION_ITEM, image, &asked, answer) && answer[0] == 0, "the value of an item");
    CHECK(text_is(image, STORY_IMAGE_SLEEPER_TEXT_OF_DEFINITION, 1, 0, "size"), "the name of the second");
    CHECK(text_is(image, STORY_IMAGE_SLEEPER_TEXT_OF_DEFINITION_ITEM, 0, 1, "tall"), "the name of an item");
    CHECK(text_is(image, STORY_IMAGE_SLEEPER_TEXT_OF_ITEM, 1, 0, "tall"), "the same among all items");
    CHECK(ask(LIST_ITEM, image, &asked, answer) && answer[0] == 1 && answer[1] == 2 && answer[2] == 1,
          "without a dot the last definition answers");
    CHECK(searched_by(image, "low") == 1 && searched_by(image, "tall") == 2 && searched_by(image, "red.low") == 1,
          "how many were searched");
    asked.a = 1;
    CHECK(ask(FIRST_ITEM, image, &asked, answer) && answer[0] == 2, "the first item of the second");
}

/* Numbers that are no kind of text. */
static void no_kinds(const struct story_image_sleeper *image) {
    uint32_t length;
    static const uint32_t kinds[] = {STORY_IMAGE_SLEEPER_TEXT_KINDS, STORY_IMAGE_SLEEPER_TEXT_KINDS + 1, 256, NONE};
    for (size_t k = 0; k < SIZE(kinds); k++)
        for (uint32_t node = 0; node < GUIDE_NODES; node++)
            CHECK(text_of(image, kinds[k], node, 0, &length) == NULL, "kind %u", (unsigned)kinds[k]);
}

void test_guide(void) {
    size_t length;
    uint8_t *bytes = guide_bytes(&notes, &plain, &length);
    struct story_image_sleeper image = accepted(bytes, length, "the guide");
    nodes(&image);
    children(&image);
    lists(&image);
    no_kinds(&image);
    release(&image);
}
