/* Targets from paths. */
#include "asked.h"
#include "drafts.h"
#include "groups.h"

/* The root with a choice, a divert, a divert-target value and a reference; the named container night with a text and a
 * container as children. */
enum { CHOICE_NODE = 1, DIVERT_NODE, VALUE_NODE, REFERENCE_NODE, NIGHT, NIGHT_TEXT, INNER, STORY_NODES };

static const uint32_t story_nodes[STORY_NODES][10] = {
    {NONE, NONE, STORY_IMAGE_KIND_CONTAINER, NONE, NONE, 0, 0, 4, 0, 1},
    {0, 0, STORY_IMAGE_KIND_CHOICE, 0, 5, NONE, 9, 0, 0, 0},
    {0, 1, STORY_IMAGE_KIND_DIVERT, 0, 5, 99, NONE, NONE, 0, 1},
    {0, 2, STORY_IMAGE_KIND_DIVERT_TARGET, 0, 5, NONE, 0, 0, 0, 0},
    {0, 3, STORY_IMAGE_KIND_REFERENCE, 5, 4, 0, 5, 99, 0, 0},
    {0, NONE, STORY_IMAGE_KIND_CONTAINER, 0, 5, 0, 4, 2, 1, 0},
    {5, 0, STORY_IMAGE_KIND_STRING, 0, 9, 0, 0, 0, 0, 0},
    {5, 1, STORY_IMAGE_KIND_CONTAINER, NONE, NONE, 0, 6, 0, 1, 0},
};

static struct story_image_draft story_draft(uint32_t *nodes) {
    static const uint32_t children[] = {1, 2, 3, 4, 6, 7}, named[] = {0, 5, NIGHT};
    struct story_image_draft draft = draft_of(nodes, 10 * STORY_NODES, "nightseen");
    draft.children = children;
    draft.children_length = SIZE(children);
    draft.named = named;
    draft.named_length = SIZE(named);
    return draft;
}

/* The same with one path for each of the story's four nodes: relative or not, components from `first` on. */
static uint32_t find_four_in(const struct story_image_draft *draft, uint32_t *nodes, uint32_t relative, uint32_t first,
                             uint32_t count, size_t words) {
    /* night; up, night, 1; night, 0; up, 4 */
    static const uint32_t components[] = {2, 0, 5, 0, 7, 7, 2, 0, 5, 1, 1, 7, 2, 0, 5, 1, 0, 7, 0, 7, 7, 1, 4, 7};
    uint32_t entries[16];
    for (uint32_t i = 0; i < 4; i++) {
        entries[4 * i + STORY_IMAGE_PATH_NODE] = i + 1;
        entries[4 * i + STORY_IMAGE_PATH_RELATIVE] = relative;
        entries[4 * i + STORY_IMAGE_PATH_FIRST] = first;
        entries[4 * i + STORY_IMAGE_PATH_COUNT] = count;
    }
    const struct story_image_paths paths = {
        entries, SIZE(entries), components, SIZE(components), (const uint8_t *)"night", 5};
    return find_targets(draft, nodes, &paths, 21, words);
}

static uint32_t find_four(uint32_t (*nodes)[10], uint32_t relative, uint32_t first, uint32_t count) {
    const struct story_image_draft draft = story_draft(nodes[0]);
    return find_four_in(&draft, nodes[0], relative, first, count, write_words(&draft) + 1);
}

/* Whether the four nodes have the target and no path text, but the value its text, and no other word is another than
 * before. */
static bool have_target(uint32_t (*nodes)[10], const uint32_t *before, uint32_t target) {
    uint32_t due[STORY_NODES][10];
    memcpy(due, before, sizeof due);
    due[CHOICE_NODE][3] = due[CHOICE_NODE][4] = due[DIVERT_NODE][3] = due[DIVERT_NODE][4] = NONE;
    due[REFERENCE_NODE][5] = due[REFERENCE_NODE][6] = NONE;
    due[CHOICE_NODE][5] = due[DIVERT_NODE][5] = due[VALUE_NODE][5] = due[REFERENCE_NODE][7] = target;
    return memcmp(nodes, due, sizeof due) == 0;
}

/* The four nodes have the target in the image; a divert-target value shows none. */
static void targets_in(const struct story_image *image, uint32_t target) {
    struct asked asked = {0, 0, 0, 0, image->bytes, 0};
    for (uint32_t node = CHOICE_NODE; node <= REFERENCE_NODE; node++) {
        uint32_t view[STORY_IMAGE_NODE_WORDS];
        asked.node = node;
        uint32_t due = target;
        if (node == VALUE_NODE)
            due = NONE;
        CHECK(ask(NODE_VIEW, image, &asked, view) && view[STORY_IMAGE_NODE_TARGET] == due,
              "the target of node %u in the image", (unsigned)node);
    }
}

static void targets(void) {
    static const struct {
        uint32_t relative, first, count, number, target;
    } table[] = {
        {0, 0, 1, 0, NIGHT},
        {1, 1, 2, 0, NIGHT},
        {1, 1, 3, 0, INNER},
        {0, 2, 2, 0, INNER},
        {0, 0, 0, 0, 0},
        {1, 8, 0, 0, 0},
        {1, 3, 1, 0, 0},
        {0, 4, 2, STORY_IMAGE_NO_CONTAINER, 0},
        {0, 1, 1, STORY_IMAGE_NO_TARGET, 0},
        {1, 6, 2, STORY_IMAGE_NO_TARGET, 0},
        {0, 4, 5, STORY_IMAGE_BAD_DRAFT, 0},
        {2, 0, 1, STORY_IMAGE_BAD_DRAFT, 0},
        {0, 9, 0, STORY_IMAGE_BAD_DRAFT, 0},
        {0, NONE, 2, STORY_IMAGE_BAD_DRAFT, 0},
    };
    uint32_t nodes[STORY_NODES][10];
    for (size_t i = 0; i < sizeof table / sizeof table[0]; i++) {
        memcpy(nodes, story_nodes, sizeof nodes);
        uint32_t number = find_four(nodes, table[i].relative, table[i].first, table[i].count);
        CHECK(number == table[i].number, "targets, row %u: %u", (unsigned)i, (unsigned)number);
        CHECK(number != 0 || have_target(nodes, story_nodes[0], table[i].target), "targets, row %u: the nodes",
              (unsigned)i);
    }
    memcpy(nodes, story_nodes, sizeof nodes);
    CHECK(find_four(nodes, 1, 1, 3) == 0, "targets before writing");
    const struct story_image_draft draft = story_draft(nodes[0]);
    struct story_image image = written(&draft, "the resolved draft");
    targets_in(&image, INNER);
    release(&image);
}

/* Of the story with targets that are right, by a list with names `night`: what is given, and that nodes which follow no
 * path stay. */
static uint32_t find_by(uint32_t (*nodes)[10], const uint32_t *entries, size_t words) {
    static const uint32_t components[] = {2, 0, 5, 1, 0, 7, 2, 0, 6, 2, 0, 4};
    const struct story_image_paths paths = {entries, words, components, SIZE(components), (const uint8_t *)"night", 5};
    const struct story_image_draft draft = story_draft(nodes[0]);
    for (uint32_t node = CHOICE_NODE; node <= REFERENCE_NODE; node++)
        nodes[node][node == REFERENCE_NODE ? 7 : 5] = 0;
    return find_targets(&draft, nodes[0], &paths, 21, write_words(&draft));
}

/* One node of the list at a time, other orders, what is passed over, which node decides. */
static void lists_of_paths(void) {
    static const uint32_t any_order[] = {3, 0, 0, 2, 1, 0, 0, 1}, twice[] = {1, 0, 0, 1, 2, 0, 0, 1, 1, 0, 0, 1};
    static const uint32_t outside[] = {1, 0, 0, 1, STORY_NODES, 0, 0, 1}, others[] = {0, 0, 2, 1, 5, 1, 2, 1};
    static const uint32_t index_end[] = {DIVERT_NODE, 0, 0, 2}, broken[] = {DIVERT_NODE, 0, 2, 1};
    static const uint32_t shorter[] = {DIVERT_NODE, 0, 3, 1}, last_fails[] = {1, 0, 0, 1, REFERENCE_NODE, 0, 0, 2};
    static const uint32_t text_first[] = {4, 0, 2, 1, 1, 0, 0, 2}, none_first[] = {1, 0, 2, 1, 4, 0, 0, 2};
    uint32_t nodes[STORY_NODES][10];
    memcpy(nodes, story_nodes, sizeof nodes);
    CHECK(find_by(nodes, any_order, 8) == 0 && nodes[1][5] == NIGHT && nodes[3][5] == NIGHT_TEXT, "any order");
    CHECK(nodes[1][3] == NONE && nodes[2][3] == 0 && nodes[2][5] == 0, "a node that is not listed stays");
    CHECK(find_by(nodes, any_order, 7) == STORY_IMAGE_BAD_DRAFT, "words left over in the list");
    CHECK(find_by(nodes, twice, SIZE(twice)) == STORY_IMAGE_BAD_DRAFT, "a node twice");
    CHECK(find_by(nodes, outside, SIZE(outside)) == STORY_IMAGE_BAD_DRAFT, "a node outside");
    CHECK(find_by(nodes, text_first, 8) == STORY_IMAGE_NO_CONTAINER, "node 1 decides: no container");
    CHECK(find_by(nodes, none_first, 8) == STORY_IMAGE_NO_TARGET, "node 1 decides: no node");
    CHECK(find_by(nodes, index_end, 4) == 0 && nodes[DIVERT_NODE][5] == NIGHT_TEXT, "a divert that ends in an index");
    CHECK(find_by(nodes, broken, 4) == STORY_IMAGE_NO_TARGET, "a name outside the names");
    CHECK(find_by(nodes, shorter, 4) == STORY_IMAGE_NO_TARGET, "the front of a name");
    CHECK(find_by(nodes, last_fails, 8) == STORY_IMAGE_NO_CONTAINER, "a reference needs a container");
    uint32_t before[STORY_NODES][10];
    CHECK(find_by(nodes, broken, 0) == 0, "no paths");
    memcpy(before, nodes, sizeof before);
    CHECK(find_by(nodes, others, 8) == 0 && memcmp(before, nodes, sizeof before) == 0, "containers are passed over");
    nodes[DIVERT_NODE][9] = before[DIVERT_NODE][9] = 2;
    CHECK(find_by(nodes, broken, 4) == 0 && memcmp(before, nodes, sizeof before) == 0, "so is an external divert");
    nodes[DIVERT_NODE][9] = 0;
    nodes[DIVERT_NODE][6] = 0;
    nodes[DIVERT_NODE][7] = 1;
    CHECK(find_by(nodes, broken, 4) == 0 && nodes[DIVERT_NODE][5] == 0, "and a divert by variable");
}

/* A relative path deeper down starts at the parent of its node. */
static void deeper_target(void) {
    static const uint32_t divert[] = {NIGHT, 0, STORY_IMAGE_KIND_DIVERT, NONE, NONE, NONE, NONE, NONE, 0, 0};
    static const uint32_t entry[] = {NIGHT_TEXT, 1, 0, 2};
    uint32_t nodes[STORY_NODES][10];
    memcpy(nodes, story_nodes, sizeof nodes);
    memcpy(nodes[NIGHT_TEXT], divert, sizeof divert);
    CHECK(find_by(nodes, entry, 4) == 0 && nodes[NIGHT_TEXT][5] == NIGHT_TEXT, "from the parent of the node");
}

/* Names of components lie in the names beside the draft, not in its strings. */
static void names_beside(void) {
    static const uint32_t entry[] = {DIVERT_NODE, 0, 0, 1}, components[] = {STORY_IMAGE_STEP_NAME, 1, 5};
    const struct story_image_paths right = {entry, SIZE(entry), components, 3, (const uint8_t *)"-night", 6};
    const struct story_image_paths others = {entry, SIZE(entry), components, 3, (const uint8_t *)"nightseen", 9};
    uint32_t nodes[STORY_NODES][10];
    memcpy(nodes, story_nodes, sizeof nodes);
    const struct story_image_draft draft = story_draft(nodes[0]);
    for (uint32_t node = CHOICE_NODE; node <= REFERENCE_NODE; node++)
        nodes[node][node == REFERENCE_NODE ? 7 : 5] = 0;
    CHECK(find_targets(&draft, nodes[0], &others, 21, write_words(&draft)) == STORY_IMAGE_NO_TARGET, "no such name");
    CHECK(find_targets(&draft, nodes[0], &right, 21, write_words(&draft)) == 0 && nodes[DIVERT_NODE][5] == NIGHT,
          "a name in the names");
}

/* Numbers in their order; without paths the writer's number but for 22, whatever word is changed. */
static void targets_as_written(void) {
    static const uint32_t list[] = {DIVERT_NODE, 0, 0, 1}, components[] = {3, 0, 0}, words[] = {0, 1, 5, 13, 99, NONE};
    uint32_t nodes[STORY_NODES][10], length;
    memcpy(nodes, story_nodes, sizeof nodes);
    const struct story_image_draft draft = story_draft(nodes[0]);
    const struct story_image_paths none = {list, 0, components, 0, (const uint8_t *)"", 0},
                                   nowhere = {list, 4, components, 3, (const uint8_t *)"", 0};
    const struct story_image_paths broken = {list, 3, components, 3, (const uint8_t *)"", 0};
    const size_t needed = write_words(&draft);
    uint8_t *output = (uint8_t *)room(2000);
    memset(output, 0x77, 2000);
    CHECK(find_four(nodes, 0, 0, 1) == 0, "targets that are right");
    CHECK(find_targets(&draft, nodes[0], &broken, 22, 0) == STORY_IMAGE_BAD_INK_VERSION, "3 before 19");
    CHECK(find_targets(&draft, nodes[0], &broken, 21, 0) == STORY_IMAGE_BAD_DRAFT, "19 before 7");
    CHECK(find_targets(&draft, nodes[0], &nowhere, 21, needed - 1) == STORY_IMAGE_TOO_FEW_WORDS, "7 before 25");
    CHECK(find_targets(&draft, nodes[0], &nowhere, 18, needed) == STORY_IMAGE_NO_TARGET, "25 with all work words");
    nodes[CHOICE_NODE][1] = 1;
    CHECK(find_targets(&draft, nodes[0], &nowhere, 21, needed) == STORY_IMAGE_DRAFT_SHAPE, "21 before 25");
    nodes[CHOICE_NODE][1] = 0;
    nodes[DIVERT_NODE][3] = 0;
    CHECK(find_targets(&draft, nodes[0], &nowhere, 21, needed) == STORY_IMAGE_BAD_DRAFT, "half a path text");
    nodes[DIVERT_NODE][3] = NONE;
    nodes[DIVERT_NODE][5] = 99;
    CHECK(find_targets(&draft, nodes[0], &nowhere, 21, needed) == STORY_IMAGE_NO_TARGET, "the target is not tested");
    nodes[DIVERT_NODE][9] = 2;
    CHECK(find_targets(&draft, nodes[0], &nowhere, 21, needed) == STORY_IMAGE_BAD_DRAFT, "that of an external one is");
    nodes[DIVERT_NODE][5] = 0;
    for (size_t at = 0; at < 10 * STORY_NODES; at++)
        for (size_t i = 0; i < SIZE(words); i++) {
            uint32_t *word = &nodes[at / 10][at % 10], was = *word;
            *word = words[i];
            uint32_t due = put(&draft, 21, needed, output, 2000, &length);
            CHECK(find_targets(&draft, nodes[0], &none, 21, needed) == (due == STORY_IMAGE_DRAFT_PATHS ? 0 : due),
                  "no paths, word %u is %u", (unsigned)at, (unsigned)words[i]);
            *word = was;
        }
    free(output);
}

/* The story with a node more, which is no child: 20, after 7 and before 21 and 25. As a child it is no hindrance. */
static void unreached_targets(void) {
    static const uint32_t glue[] = {0, 4, STORY_IMAGE_KIND_GLUE, 0, 0, 0, 0, 0, 0, 0};
    static const uint32_t with_glue[] = {1, 2, 3, 4, STORY_NODES, 6, 7};
    uint32_t nodes[STORY_NODES + 1][10];
    memcpy(nodes, story_nodes, sizeof story_nodes);
    memcpy(nodes[STORY_NODES], glue, sizeof glue);
    struct story_image_draft draft = story_draft(nodes[0]);
    draft.nodes_length = SIZE(nodes);
    const size_t needed = write_words(&draft);
    CHECK(find_four_in(&draft, nodes[0], 0, 0, 1, needed - 1) == STORY_IMAGE_TOO_FEW_WORDS, "7 before 20");
    CHECK(find_four_in(&draft, nodes[0], 0, 0, 1, needed) == STORY_IMAGE_DRAFT_UNREACHED, "a glue that is not reached");
    CHECK(find_four_in(&draft, nodes[0], 0, 0, 1, needed + 3) == STORY_IMAGE_DRAFT_UNREACHED,
          "20, work words left over");
    CHECK(find_four_in(&draft, nodes[0], 0, 1, 1, needed) == STORY_IMAGE_DRAFT_UNREACHED, "20 before 25");
    CHECK(find_four_in(&draft, nodes[0], 0, 4, 2, needed) == STORY_IMAGE_DRAFT_UNREACHED, "20 before 26");
    CHECK(find_four_in(&draft, nodes[0], 2, 0, 1, needed) == STORY_IMAGE_BAD_DRAFT, "19 before 20");
    nodes[CHOICE_NODE][1] = 1;
    CHECK(find_four_in(&draft, nodes[0], 0, 0, 1, needed) == STORY_IMAGE_DRAFT_UNREACHED, "20 before 21");
    nodes[CHOICE_NODE][1] = 0;
    CHECK(memcmp(nodes, story_nodes, sizeof story_nodes) == 0 && memcmp(nodes[STORY_NODES], glue, sizeof glue) == 0,
          "no node word is another");
    draft.children = with_glue;
    draft.children_length = SIZE(with_glue);
    nodes[0][7] = 5;
    nodes[NIGHT][6] = 5;
    nodes[INNER][6] = 7;
    CHECK(find_four_in(&draft, nodes[0], 0, 0, 1, needed + 4) == 0 && nodes[CHOICE_NODE][5] == NIGHT, "a glue that is");
}

/* Words as the bytes of a payload. */
static void payload_of(const uint32_t *words, size_t count, uint8_t *payload) {
    for (size_t at = 0; at < 4 * count; at++)
        payload[at] = (uint8_t)(words[at / 4] >> 8 * (at % 4));
}

/* A list value's payload: items night.seen 3 and seen -1, origin night. */
static const uint32_t story_list[] = {2, 1, 0, 5, 5, 4, 3, NONE, NONE, 5, 4, UINT32_MAX, 0, 5};

/* The story with all slices in use: definitions night and seen with items, a list value in place of the text. */
static struct story_image_draft full_draft(uint32_t (*nodes)[10], const uint8_t *payload) {
    static const uint32_t definitions[] = {0, 5, 0, 2, 5, 4, 2, 1}, items[] = {0, 5, 1, 5, 4, 3, 5, 4, UINT32_MAX};
    static const uint32_t list[] = {NIGHT, 0, STORY_IMAGE_KIND_LIST, 0, sizeof story_list, 0, 0, 0, 0, 0};
    memcpy(nodes, story_nodes, sizeof story_nodes);
    memcpy(nodes[NIGHT_TEXT], list, sizeof list);
    struct story_image_draft draft = story_draft(nodes[0]);
    draft.definitions = definitions;
    draft.definitions_length = SIZE(definitions);
    draft.items = items;
    draft.items_length = SIZE(items);
    draft.payload = payload;
    draft.payload_length = sizeof story_list;
    return draft;
}

/* What the image of the full draft shows: the list value, with texts where they are now, and the definitions. */
static void full_image(const struct story_image *image) {
    struct asked asked = {NIGHT_TEXT, 0, 0, 0, image->bytes, 0};
    uint32_t view[STORY_IMAGE_NODE_WORDS], entry[STORY_IMAGE_LIST_ENTRY_WORDS], found[STORY_IMAGE_LIST_ITEM_WORDS];
    targets_in(image, INNER);
    CHECK(ask(NODE_VIEW, image, &asked, view) && view[STORY_IMAGE_NODE_KIND] == STORY_IMAGE_KIND_LIST, "a list value");
    list_value(image, NIGHT_TEXT, view);
    CHECK(ask(NODE_ENTRY, image, &asked, entry) && entry[STORY_IMAGE_LIST_ENTRY_VALUE] == 3, "its item 0");
    CHECK(text_is(image, entry[STORY_IMAGE_LIST_ENTRY_NAME], entry[STORY_IMAGE_LIST_ENTRY_NAME_LENGTH], "seen", 4),
          "the name of its item");
    CHECK(text_is(image, entry[STORY_IMAGE_LIST_ENTRY_ORIGIN], entry[STORY_IMAGE_LIST_ENTRY_ORIGIN_LENGTH], "night", 5),
          "the origin of its item");
    asked.index = 1;
    CHECK(ask(NODE_ENTRY, image, &asked, entry) && entry[STORY_IMAGE_LIST_ENTRY_VALUE] == UINT32_MAX &&
              entry[STORY_IMAGE_LIST_ENTRY_ORIGIN] == NONE,
          "its item 1");
    definitions_of(image);
    struct asked by = {0, 0, 0, 0, (const uint8_t *)"night.seen", 10};
    CHECK(ask(LIST_ITEM, image, &by, found) && found[STORY_IMAGE_LIST_ITEM_ITEM] == 1 &&
              found[STORY_IMAGE_LIST_ITEM_VALUE] == 3,
          "an item of a definition");
}

/* Each slice of the full draft is tested, and no refusal changes a node. */
static void full_refused(void) {
    static const uint32_t outside[] = {0, 5, 0, 2, 5, 5, 2, 1}, turned[] = {5, 4, 0, 2, 0, 5, 2, 1};
    static const uint32_t no_name[] = {0, 5, 1, 5, 5, 3, 5, 4, 1}, equal[] = {0, 5, 1, 0, 5, 3, 5, 4, 1};
    uint32_t nodes[STORY_NODES][10];
    uint8_t payload[sizeof story_list];
    payload_of(story_list, SIZE(story_list), payload);
    const struct story_image_draft draft = full_draft(nodes, payload);
    struct story_image_draft other = draft;
    const size_t needed = write_words(&draft);
    other.definitions = outside;
    CHECK(find_four_in(&other, nodes[0], 1, 1, 3, needed) == STORY_IMAGE_BAD_DRAFT, "a definition's name outside");
    other.definitions = turned;
    CHECK(find_four_in(&other, nodes[0], 1, 1, 3, needed) == STORY_IMAGE_DRAFT_SHAPE, "definitions out of order");
    other = draft;
    other.items = no_name;
    CHECK(find_four_in(&other, nodes[0], 1, 1, 3, needed) == STORY_IMAGE_BAD_DRAFT, "an item's name outside");
    other.items = equal;
    CHECK(find_four_in(&other, nodes[0], 1, 1, 3, needed) == STORY_IMAGE_DRAFT_SHAPE, "two items of one name");
    other = draft;
    other.payload_length--;
    CHECK(find_four_in(&other, nodes[0], 1, 1, 3, needed) == STORY_IMAGE_BAD_DRAFT, "a byte of payload too few");
    CHECK(find_four_in(&draft, nodes[0], 1, 1, 3, needed - 1) == STORY_IMAGE_TOO_FEW_WORDS, "a work word too few");
    CHECK(find_four_in(&draft, nodes[0], 0, 4, 2, needed) == STORY_IMAGE_NO_CONTAINER, "a path to the list value");
    payload[20]++;
    CHECK(find_four_in(&draft, nodes[0], 1, 1, 3, needed) == STORY_IMAGE_BAD_DRAFT, "a name in the list outside");
}

/* A draft with all slices in use is resolved and written. */
static void full_targets(void) {
    uint32_t nodes[STORY_NODES][10], before[STORY_NODES][10];
    uint8_t payload[sizeof story_list];
    payload_of(story_list, SIZE(story_list), payload);
    const struct story_image_draft draft = full_draft(nodes, payload);
    memcpy(before, nodes, sizeof before);
    const size_t needed = write_words(&draft);
    uint32_t number = find_four_in(&draft, nodes[0], 1, 1, 3, needed + 2);
    CHECK(number == 0, "all slices in use: %u", (unsigned)number);
    if (number != 0)
        return;
    CHECK(have_target(nodes, before[0], INNER), "all slices in use: the nodes");
    struct story_image image = written(&draft, "the full draft");
    full_image(&image);
    release(&image);
}

void test_targets(void) {
    targets();
    lists_of_paths();
    deeper_target();
    names_beside();
    targets_as_written();
    unreached_targets();
    full_targets();
    full_refused();
}
