/* Every query of every node of samples that are accepted, and of bytes that are not. */
#include "calls.h"
#include "groups.h"

/* Whether a text of a node is the bytes that its record names: words f0, f1 or f3, f4 of the node. */
static bool text_by_record(const struct story_image_sleeper *image, uint32_t kind, uint32_t node, size_t field) {
    const uint8_t *record = image->bytes + STORY_IMAGE_HEADER_BYTES + 40 * (size_t)node;
    uint32_t offset = word_of(record + 12 + 4 * field), length = word_of(record + 16 + 4 * field), given;
    uint8_t *text = text_of(image, kind, node, 0, &given);
    bool right = text != NULL && given == length &&
                 memcmp(text, image->bytes + word_of(image->bytes + 76) + offset, length) == 0;
    free(text);
    return right;
}

static void texts_of(const struct story_image_sleeper *image, uint32_t node, const uint32_t *words) {
    uint32_t length;
    if (words[STORY_IMAGE_SLEEPER_NODE_HAS_TEXT])
        CHECK(text_by_record(image, STORY_IMAGE_SLEEPER_TEXT_OF_NODE, node, 0), "text of node %u", (unsigned)node);
    else
        CHECK(text_of(image, STORY_IMAGE_SLEEPER_TEXT_OF_NODE, node, 0, &length) == NULL, "no text of node %u",
              (unsigned)node);
    if (words[STORY_IMAGE_SLEEPER_NODE_HAS_VARIABLE])
        CHECK(text_by_record(image, STORY_IMAGE_SLEEPER_TEXT_OF_VARIABLE, node, 3), "variable of node %u",
              (unsigned)node);
    else
        CHECK(text_of(image, STORY_IMAGE_SLEEPER_TEXT_OF_VARIABLE, node, 0, &length) == NULL, "no variable of node %u",
              (unsigned)node);
}

static void list_value(const struct story_image_sleeper *image, uint32_t node) {
    struct asked asked = {node, 0, 0, image->bytes, 0};
    uint32_t items = 0, origins = 0, length, entry[STORY_IMAGE_SLEEPER_LIST_ENTRY_WORDS];
    CHECK(ask(LIST_ITEM_COUNT, image, &asked, &items) && ask(LIST_ORIGIN_COUNT, image, &asked, &origins), "list %u",
          (unsigned)node);
    for (; asked.b < items; asked.b++) {
        CHECK(ask(LIST_ENTRY, image, &asked, entry), "item %u of list %u", (unsigned)asked.b, (unsigned)node);
        uint8_t *name = text_of(image, STORY_IMAGE_SLEEPER_TEXT_OF_ENTRY_NAME, node, asked.b, &length);
        uint8_t *origin = text_of(image, STORY_IMAGE_SLEEPER_TEXT_OF_ENTRY_ORIGIN, node, asked.b, &length);
        CHECK(name != NULL && (origin != NULL) == (entry[STORY_IMAGE_SLEEPER_LIST_ENTRY_HAS_ORIGIN] == 1),
              "texts of item %u of list %u", (unsigned)asked.b, (unsigned)node);
        free(name);
        free(origin);
    }
    CHECK(!ask(LIST_ENTRY, image, &asked, entry), "no item past the last");
    CHECK(text_of(image, STORY_IMAGE_SLEEPER_TEXT_OF_ENTRY_NAME, node, items, &length) == NULL, "nor its name");
    for (uint32_t k = 0; k <= origins; k++) {
        uint8_t *origin = text_of(image, STORY_IMAGE_SLEEPER_TEXT_OF_ORIGIN, node, k, &length);
        CHECK((origin != NULL) == (k < origins), "origin %u of list %u", (unsigned)k, (unsigned)node);
        free(origin);
    }
}

static void children_of(const struct story_image_sleeper *image, uint32_t node) {
    struct asked asked = {node, 0, 0, image->bytes, 0};
    uint32_t count = 0, named = 0, child[1], found[1], length, words[MOST_WORDS];
    CHECK(ask(CHILD_COUNT, image, &asked, &count) && ask(NAMED_COUNT, image, &asked, &named), "counts");
    for (; asked.b < count; asked.b++) {
        CHECK(ask(CHILD, image, &asked, child), "child %u of %u", (unsigned)asked.b, (unsigned)node);
        struct asked of = {child[0], 0, 0, image->bytes, 0};
        CHECK(ask(NODE_VIEW, image, &of, words) && words[STORY_IMAGE_SLEEPER_NODE_PARENT] == node &&
                  words[STORY_IMAGE_SLEEPER_NODE_PLACE] == asked.b,
              "child %u of %u names it", (unsigned)asked.b, (unsigned)node);
        CHECK(ask(WALK, image, &asked, found) && found[0] == child[0], "a walk to the child");
    }
    CHECK(!ask(CHILD, image, &asked, child), "no child past the last");
    for (asked.b = 0; asked.b < named; asked.b++) {
        uint8_t *name = text_of(image, STORY_IMAGE_SLEEPER_TEXT_OF_NAMED_CHILD, node, asked.b, &length);
        CHECK(name != NULL && ask(NAMED_CHILD, image, &asked, child), "a named child");
        struct asked by = {node, 0, 0, name, length};
        CHECK(ask(FIND, image, &by, found) && found[0] == child[0], "found by name");
        free(name);
    }
    CHECK(!ask(NAMED_CHILD, image, &asked, child), "no named child past the last");
    struct asked by = {node, 0, 0, (const uint8_t *)"\xff no such name", 15};
    CHECK(!ask(FIND, image, &by, found), "no such name");
}

/* An item of a definition by its number, by its number among all, and by its name behind the definition's. */
static void item_of(const struct story_image_sleeper *image, const struct asked *asked, uint32_t first,
                    const uint8_t *name, uint32_t name_length) {
    uint32_t value = MARK, length, again_length, found[STORY_IMAGE_SLEEPER_LIST_ITEM_WORDS];
    uint8_t *item = text_of(image, STORY_IMAGE_SLEEPER_TEXT_OF_DEFINITION_ITEM, asked->a, asked->b, &length);
    uint8_t *again = text_of(image, STORY_IMAGE_SLEEPER_TEXT_OF_ITEM, first + asked->b, 0, &again_length);
    CHECK(ask(DEFINITION_ITEM, image, asked, &value) && item != NULL, "item %u", (unsigned)asked->b);
    CHECK(again != NULL && again_length == length && memcmp(again, item, length) == 0, "the same among all items");
    char whole[400];
    int long_as = snprintf(whole, sizeof whole, "%.*s.%.*s", (int)name_length, (const char *)name, (int)length,
                           (const char *)item);
    struct asked by = {0, 0, 0, (const uint8_t *)whole, (size_t)long_as};
    CHECK(ask(LIST_ITEM, image, &by, found) && found[STORY_IMAGE_SLEEPER_LIST_ITEM_DEFINITION] == asked->a &&
              found[STORY_IMAGE_SLEEPER_LIST_ITEM_ITEM] == first + asked->b &&
              found[STORY_IMAGE_SLEEPER_LIST_ITEM_VALUE] == value,
          "item %s by its name", whole);
    CHECK(searched_by(image, whole) == 1, "item %s: its one definition is searched", whole);
    free(item);
    free(again);
}

static void definition_of(const struct story_image_sleeper *image, uint32_t definition, uint32_t *before) {
    struct asked asked = {definition, 0, 0, image->bytes, 0};
    uint32_t items = 0, first = 0, value, length;
    CHECK(ask(DEFINITION, image, &asked, &items) && ask(FIRST_ITEM, image, &asked, &first) && first == *before,
          "definition %u", (unsigned)definition);
    uint8_t *name = text_of(image, STORY_IMAGE_SLEEPER_TEXT_OF_DEFINITION, definition, 0, &length);
    CHECK(name != NULL, "the name of definition %u", (unsigned)definition);
    for (; asked.b < items; asked.b++)
        item_of(image, &asked, first, name, length);
    CHECK(!ask(DEFINITION_ITEM, image, &asked, &value), "no item past the last");
    *before += items;
    free(name);
}

static void definitions_of(const struct story_image_sleeper *image) {
    struct asked asked = {0, 0, 0, image->bytes, 0};
    uint32_t count = 0, answer, before = 0;
    CHECK(ask(DEFINITION_COUNT, image, &asked, &count) && count == image->view[STORY_IMAGE_SLEEPER_DEFINITIONS_COUNT],
          "definitions");
    for (; asked.a < count; asked.a++)
        definition_of(image, asked.a, &before);
    CHECK(!ask(DEFINITION, image, &asked, &answer) && !ask(FIRST_ITEM, image, &asked, &answer), "no more definitions");
    CHECK(searched_by(image, "no such item") == count && searched_by(image, " \t") == 0, "how many were searched");
}

static void node_of(const struct story_image_sleeper *image, uint32_t node) {
    struct asked asked = {node, 0, 0, image->bytes, 0};
    uint32_t count = image->view[STORY_IMAGE_SLEEPER_NODES_COUNT], words[MOST_WORDS], depth = NONE;
    CHECK(ask(NODE_VIEW, image, &asked, words), "view of node %u", (unsigned)node);
    uint32_t kind = words[STORY_IMAGE_SLEEPER_NODE_KIND], target = words[STORY_IMAGE_SLEEPER_NODE_TARGET];
    CHECK(kind >= STORY_IMAGE_KIND_CONTAINER && kind <= STORY_IMAGE_KIND_VOID && kind != 15, "a kind");
    CHECK(target == NONE || target < count, "a target inside");
    CHECK((words[STORY_IMAGE_SLEEPER_NODE_PARENT] == NONE) == (node == 0), "the root alone has no parent");
    CHECK(ask(DEPTH, image, &asked, &depth) && depth < count, "a depth");
    texts_of(image, node, words);
    if (kind == STORY_IMAGE_KIND_LIST)
        list_value(image, node);
    else
        CHECK(!ask(LIST_ITEM_COUNT, image, &asked, words), "no items of a node that is no list");
    if (kind == STORY_IMAGE_KIND_CONTAINER)
        children_of(image, node);
    else
        CHECK(!ask(CHILD_COUNT, image, &asked, words), "no children of a node that is no container");
}

static void queries(const char *folder, const char *name) {
    size_t length;
    uint8_t *bytes = sample_bytes(folder, name, &length);
    struct story_image_sleeper image = accepted(bytes, length, name);
    struct asked asked = {image.view[STORY_IMAGE_SLEEPER_NODES_COUNT], 0, 0, image.bytes, 0};
    uint32_t words[MOST_WORDS];
    for (uint32_t node = 0; node < asked.a; node++)
        node_of(&image, node);
    CHECK(!ask(NODE_VIEW, &image, &asked, words) && !ask(DEPTH, &image, &asked, words), "no node past the last");
    asked.a = NONE;
    CHECK(!ask(NODE_VIEW, &image, &asked, words) && !ask(DEPTH, &image, &asked, words), "NONE is no node");
    definitions_of(&image);
    release(&image);
}

/* The image cut, with other bytes, in every third round also another view. */
static struct story_image_sleeper changed(const struct story_image_sleeper *image, size_t round, uint32_t *seed) {
    struct story_image_sleeper other = *image;
    other.length = image->length - 7 * round;
    uint8_t *bytes = (uint8_t *)copy_of(image->bytes, other.length);
    for (int change = 0; change < 6; change++) {
        uint32_t any = next(seed);
        bytes[(any >> 8) % other.length] ^= (uint8_t)(any >> 3);
        if (round % 3 == 0)
            other.view[any % STORY_IMAGE_SLEEPER_VIEW_WORDS] = any % 5 == 0 ? NONE : (any >> 12) % 100;
    }
    other.bytes = bytes;
    return other;
}

/* Bytes that were not accepted, and views of other bytes: every call ends, and reads only what it is lent. */
static void any_bytes(const char *folder) {
    size_t length;
    uint8_t *bytes = sample_bytes(folder, "step", &length);
    struct story_image_sleeper image = accepted(bytes, length, "step");
    uint32_t answer[MOST_WORDS], seed = 1, long_as;
    for (size_t round = 0; round < 300; round++) {
        struct story_image_sleeper other = changed(&image, round, &seed);
        for (int query = 0; query < QUERIES; query++) {
            next(&seed);
            struct asked asked = {(seed >> 8) % 90, (seed >> 4) % 5, (seed >> 12) % 10, other.bytes, seed % 8};
            ask(query, &other, &asked, answer);
            free(text_of(&other, asked.kind, asked.a, asked.b, &long_as));
        }
        release(&other);
    }
    release(&image);
}

void test_samples(const char *folder) {
    queries(folder, "smallest");
    queries(folder, "step");
    queries(folder, "guide");
    any_bytes(folder);
}
