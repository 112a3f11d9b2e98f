/* Every query of every node of samples that are accepted, and of bytes that are not. */
#include "asked.h"
#include "groups.h"

void list_value(const struct story_image *image, uint32_t node, const uint32_t *words) {
    struct asked asked = {node, 0, 0, 0, image->bytes, 0};
    uint32_t place[STORY_IMAGE_LIST_PAYLOAD_WORDS], counts[STORY_IMAGE_LIST_COUNTS_WORDS], part[2];
    uint32_t entry[STORY_IMAGE_LIST_ENTRY_WORDS], other[STORY_IMAGE_LIST_ENTRY_WORDS];
    const uint8_t *strings = image->bytes + image->view[STORY_IMAGE_STRINGS];
    size_t strings_length = image->view[STORY_IMAGE_STRINGS_COUNT];
    CHECK(ask(LIST_PAYLOAD, image, &asked, place) && ask(LIST_COUNTS, image, &asked, counts), "list %u",
          (unsigned)node);
    CHECK(place[0] == image->view[STORY_IMAGE_PAYLOAD] + words[STORY_IMAGE_NODE_TEXT] &&
              place[1] == words[STORY_IMAGE_NODE_TEXT_LENGTH],
          "the payload of list %u", (unsigned)node);
    const uint8_t *payload = image->bytes + place[0];
    for (; asked.index < counts[STORY_IMAGE_LIST_COUNTS_ITEMS]; asked.index++) {
        CHECK(ask(NODE_ENTRY, image, &asked, entry), "item %u of list %u", (unsigned)asked.index, (unsigned)node);
        CHECK(story_image_list_entry(payload, place[1], strings, strings_length, asked.index, other,
                                     STORY_IMAGE_LIST_ENTRY_WORDS) == 0 &&
                  memcmp(entry, other, sizeof entry) == 0,
              "the same from the payload");
        CHECK(text_inside(image, entry[STORY_IMAGE_LIST_ENTRY_NAME], entry[STORY_IMAGE_LIST_ENTRY_NAME_LENGTH], part),
              "an item's name");
    }
    CHECK(!ask(NODE_ENTRY, image, &asked, entry), "no item past the last");
    for (asked.index = 0; asked.index < counts[STORY_IMAGE_LIST_COUNTS_ORIGINS]; asked.index++) {
        CHECK(ask(NODE_ORIGIN, image, &asked, entry), "origin %u of list %u", (unsigned)asked.index, (unsigned)node);
        CHECK(story_image_list_origin(payload, place[1], strings, strings_length, asked.index, other,
                                      STORY_IMAGE_LIST_ORIGIN_WORDS) == 0 &&
                  memcmp(entry, other, 4 * STORY_IMAGE_LIST_ORIGIN_WORDS) == 0,
              "the same from the payload");
    }
    CHECK(!ask(NODE_ORIGIN, image, &asked, entry), "no origin past the last");
    CHECK(8 + 20 * counts[STORY_IMAGE_LIST_COUNTS_ITEMS] + 8 * counts[STORY_IMAGE_LIST_COUNTS_ORIGINS] == place[1],
          "a list's items and origins fill its payload");
    CHECK(story_image_list_entry(payload, place[1], strings, strings_length, 0, entry, 4) != 0, "a short answer");
    CHECK(story_image_list_origin(payload, place[1], strings, strings_length, 0, entry, 1) != 0, "a short answer");
}

static void texts_of(const struct story_image *image, uint32_t node, const uint32_t *words) {
    uint32_t part[STORY_IMAGE_TEXT_WORDS], kind = words[STORY_IMAGE_NODE_KIND];
    if (kind == STORY_IMAGE_KIND_LIST)
        list_value(image, node, words);
    else if (words[STORY_IMAGE_NODE_TEXT] != STORY_IMAGE_NONE)
        CHECK(text_inside(image, words[STORY_IMAGE_NODE_TEXT], words[STORY_IMAGE_NODE_TEXT_LENGTH], part),
              "text of node %u", (unsigned)node);
    if (words[STORY_IMAGE_NODE_VARIABLE] != STORY_IMAGE_NONE)
        CHECK(text_inside(image, words[STORY_IMAGE_NODE_VARIABLE], words[STORY_IMAGE_NODE_VARIABLE_LENGTH], part),
              "variable of node %u", (unsigned)node);
    if (kind == STORY_IMAGE_KIND_COMMAND)
        CHECK(words[STORY_IMAGE_NODE_VALUE] < STORY_IMAGE_COMMAND_COUNT, "command of node %u", (unsigned)node);
    if (kind == STORY_IMAGE_KIND_OPERATOR)
        CHECK(words[STORY_IMAGE_NODE_VALUE] < STORY_IMAGE_OPERATOR_COUNT, "operator of node %u", (unsigned)node);
    if (kind == STORY_IMAGE_KIND_DIVERT)
        CHECK(words[STORY_IMAGE_NODE_FLAGS] >> STORY_IMAGE_DIVERT_PUSH_SHIFT <= STORY_IMAGE_PUSH_FUNCTION_FROM_GAME,
              "push type of node %u", (unsigned)node);
}

void children_of(const struct story_image *image, uint32_t node) {
    struct asked asked = {node, 0, 0, 0, image->bytes, 0};
    uint32_t count = 0, named = 0, child[1], found[1], entry[3], part[2], words[STORY_IMAGE_NODE_WORDS];
    CHECK(ask(CHILD_COUNT, image, &asked, &count) && ask(NAMED_COUNT, image, &asked, &named), "counts");
    for (asked.index = 0; asked.index < count; asked.index++) {
        struct asked of = {0, 0, 0, 0, image->bytes, 0};
        CHECK(ask(CHILD, image, &asked, child), "child %u of %u", (unsigned)asked.index, (unsigned)node);
        of.node = child[0];
        CHECK(ask(NODE_VIEW, image, &of, words) && words[STORY_IMAGE_NODE_PARENT] == node &&
                  words[STORY_IMAGE_NODE_PLACE] == asked.index,
              "child %u of %u names it", (unsigned)asked.index, (unsigned)node);
        CHECK(ask(WALK, image, &asked, found) && found[0] == child[0], "a walk to the child");
    }
    CHECK(!ask(CHILD, image, &asked, child), "no child past the last");
    for (asked.index = 0; asked.index < named; asked.index++) {
        CHECK(ask(NAMED_CHILD, image, &asked, entry) && text_inside(image, entry[0], entry[1], part), "a named child");
        struct asked by = {node, 0, 0, 0, image->bytes + part[0], part[1]};
        CHECK(ask(FIND, image, &by, found) && found[0] == entry[STORY_IMAGE_NAMED_CHILD_NODE], "found by name");
    }
    CHECK(!ask(NAMED_CHILD, image, &asked, entry), "no named child past the last");
    struct asked by = {node, 0, 0, 0, (const uint8_t *)"\xff no such name", 15};
    CHECK(!ask(FIND, image, &by, found), "no such name");
}

void definitions_of(const struct story_image *image) {
    struct asked asked = {0, 0, 0, 0, image->bytes, 0};
    uint32_t count = 0, words[3], item[3], found[3], part[2], first[1], before = 0, searched;
    CHECK(ask(DEFINITION_COUNT, image, &asked, &count) && count == image->view[STORY_IMAGE_DEFINITIONS_COUNT],
          "definitions");
    for (asked.index = 0; asked.index < count; asked.index++) {
        CHECK(ask(DEFINITION, image, &asked, words), "definition %u", (unsigned)asked.index);
        CHECK(ask(FIRST_ITEM, image, &asked, first) && first[0] == before, "its first item");
        before += words[STORY_IMAGE_DEFINITION_ITEMS];
        if (words[STORY_IMAGE_DEFINITION_ITEMS] == 0)
            continue;
        CHECK(ask(ITEM, image, &asked, item), "first item of definition %u", (unsigned)asked.index);
        char name[200];
        CHECK(text_inside(image, words[0], words[1], part), "a definition's name");
        int length = snprintf(name, sizeof name, "%.*s.", (int)part[1], (const char *)image->bytes + part[0]);
        CHECK(text_inside(image, item[0], item[1], part), "an item's name");
        length += snprintf(name + length, sizeof name - (size_t)length, "%.*s", (int)part[1],
                           (const char *)image->bytes + part[0]);
        struct asked by = {0, 0, 0, 0, (const uint8_t *)name, (size_t)length};
        CHECK(ask(LIST_ITEM, image, &by, found) && found[STORY_IMAGE_LIST_ITEM_DEFINITION] == asked.index &&
                  found[STORY_IMAGE_LIST_ITEM_ITEM] == first[0] &&
                  found[STORY_IMAGE_LIST_ITEM_VALUE] == item[STORY_IMAGE_DEFINITION_ITEM_VALUE],
              "item %s by its name", name);
        CHECK(search(image, STORY_IMAGE_VIEW_WORDS, &by, found, 3, &searched) == 0 && searched == 1,
              "item %s: its one definition is searched", name);
    }
    CHECK(!ask(DEFINITION, image, &asked, words) && !ask(FIRST_ITEM, image, &asked, first),
          "no definition past the last");
    struct asked blank = {0, 0, 0, 0, (const uint8_t *)" \t\xe2\x80\x83", 5};
    CHECK(!ask(LIST_ITEM, image, &blank, found), "a blank name");
    CHECK(search(image, STORY_IMAGE_VIEW_WORDS, &blank, found, 3, &searched) != 0 && searched == 0,
          "a blank name: no definition is searched");
    struct asked none = {0, 0, 0, 0, (const uint8_t *)"no such item", 12};
    CHECK(search(image, STORY_IMAGE_VIEW_WORDS, &none, found, 3, &searched) != 0 && searched == count,
          "no such item: every definition is searched");
}

static void queries(const char *folder, const char *name) {
    struct story_image image = accepted(folder, name);
    uint32_t count = image.view[STORY_IMAGE_NODES_COUNT], words[STORY_IMAGE_NODE_WORDS];
    struct asked asked = {0, 0, 0, 0, image.bytes, 0};
    for (asked.node = 0; asked.node < count; asked.node++) {
        CHECK(ask(NODE_VIEW, &image, &asked, words), "%s: view of node %u", name, (unsigned)asked.node);
        uint32_t kind = words[STORY_IMAGE_NODE_KIND], target = words[STORY_IMAGE_NODE_TARGET];
        CHECK(kind >= STORY_IMAGE_KIND_CONTAINER && kind <= STORY_IMAGE_KIND_VOID && kind != 15, "a kind");
        CHECK(target == STORY_IMAGE_NONE || target < count, "a target inside");
        CHECK((words[STORY_IMAGE_NODE_PARENT] == STORY_IMAGE_NONE) == (asked.node == 0),
              "the root alone has no parent");
        texts_of(&image, asked.node, words);
        if (kind == STORY_IMAGE_KIND_CONTAINER)
            children_of(&image, asked.node);
        else
            CHECK(!ask(CHILD_COUNT, &image, &asked, words), "no children of a node that is no container");
    }
    CHECK(!ask(NODE_VIEW, &image, &asked, words), "no node past the last");
    asked.node = STORY_IMAGE_NONE;
    CHECK(!ask(NODE_VIEW, &image, &asked, words), "NONE is no node");
    definitions_of(&image);
    release(&image);
}

/* Bytes that were not accepted, and views of other bytes: every query ends, with parts inside. */
static void any_bytes(const char *folder) {
    struct story_image image = accepted(folder, "step");
    uint32_t answer[STORY_IMAGE_NODE_WORDS];
    uint32_t seed = 1;
    for (int round = 0; round < ROUNDS; round++) {
        struct story_image other = changed(&image, round, &seed);
        for (int query = 0; query < QUERIES; query++) {
            next(&seed);
            struct asked asked = {(seed >> 8) % 90, (seed >> 4) % 5, seed >> 20,
                                  (seed >> 16) % 9, other.bytes,     seed % 8};
            bool found = ask(query, &other, &asked, answer);
            if (found && query == TEXT)
                CHECK((size_t)answer[0] + answer[1] <= other.length, "a text inside the bytes");
            if (found && query == DEPTH)
                CHECK(answer[0] < other.view[STORY_IMAGE_NODES_COUNT], "a depth smaller than the node count");
        }
        release(&other);
    }
    release(&image);
}

void test_queries(const char *folder) {
    queries(folder, "smallest");
    queries(folder, "step");
    queries(folder, "guide");
    any_bytes(folder);
}
