/* Writing: each number of a write, its order, and what the image holds. */
#include "asked.h"
#include "drafts.h"
#include "groups.h"

enum { ROOM = 1000 };

static uint8_t *output_room(void) {
    uint8_t *output = (uint8_t *)room(ROOM);
    memset(output, 0x77, ROOM);
    return output;
}

/* The root alone. */
static void smallest_draft(const char *folder) {
    struct story_image_draft draft = draft_of(root_node, SIZE(root_node), "");
    uint8_t *output = output_room();
    uint32_t length, written[1], work[40];
    CHECK(put(&draft, 22, 16, output, 139, &length) == STORY_IMAGE_BAD_INK_VERSION, "ink version 22");
    CHECK(put(&draft, 21, 16, output, 139, &length) == STORY_IMAGE_NO_ROOM && length == 140, "139 bytes, 140 needed");
    CHECK(put(&draft, 21, 15, output, 140, &length) == STORY_IMAGE_TOO_FEW_WORDS, "15 words");
    CHECK(put(&draft, 21, 17, output, ROOM, &length) == STORY_IMAGE_OK && length == STORY_IMAGE_SMALLEST_BYTES,
          "the smallest draft");
    struct story_image smallest = sample(folder, "smallest");
    CHECK(memcmp(output, smallest.bytes, smallest.length) == 0, "the smallest image");
    release(&smallest);
    CHECK(story_image_write(21, root_node, 10, root_node, 0, root_node, 0, root_node, 0, root_node, 0, output, 0,
                            output, 0, work, 40, output, ROOM, written, 0) == STORY_IMAGE_TOO_FEW_WORDS,
          "no word for the length");
    free(output);
}

static void broken_drafts(void) {
    static uint32_t eleven[11] = {NONE};
    static uint32_t two[] = {NONE, NONE, 1, NONE, NONE, 0, 0, 0, 0, 0, 0, 0, 5, 0, 0, 0, 0, 0, 0, 0};
    struct story_image_draft draft = draft_of(eleven, SIZE(eleven), "");
    uint8_t *output = output_room();
    uint32_t length;
    CHECK(put(&draft, 21, 16, output, ROOM, &length) == STORY_IMAGE_BAD_DRAFT, "11 node words");
    draft = draft_of(two, SIZE(two), "");
    CHECK(put(&draft, 21, 40, output, ROOM, &length) == STORY_IMAGE_DRAFT_UNREACHED, "a glue without an entry");
    free(output);
}

/* The root with a glue and two named containers; names in the strings "ab". */
static struct story_image_draft named_draft(void) {
    static uint32_t nodes[] = {NONE, NONE, 1, NONE, NONE, 0, 0, 1, 0, 2, 0, 0,    5, 0, 0, 0, 0, 0, 0, 0,
                               0,    NONE, 1, 0,    1,    0, 1, 0, 2, 0, 0, NONE, 1, 1, 1, 0, 1, 0, 2, 0};
    static const uint32_t children[] = {1};
    static const uint32_t named[] = {0, 1, 2, 1, 1, 3};
    static const uint32_t definitions[] = {0, 1, 0, 1};
    static const uint32_t items[] = {1, 1, 5};
    struct story_image_draft draft = draft_of(nodes, SIZE(nodes), "ab");
    draft.children = children;
    draft.children_length = SIZE(children);
    draft.named = named;
    draft.named_length = SIZE(named);
    draft.definitions = definitions;
    draft.definitions_length = SIZE(definitions);
    draft.items = items;
    draft.items_length = SIZE(items);
    return draft;
}

static void named_children(void) {
    struct story_image_draft draft = named_draft();
    uint8_t *output = output_room();
    uint32_t length, again;
    CHECK(put(&draft, 18, 100, output, ROOM, &length) == STORY_IMAGE_OK, "a draft with named children");
    struct story_image image = image_of(output, length);
    CHECK(load(&image, length / 4) == STORY_IMAGE_OK, "it loads");
    CHECK(image.view[STORY_IMAGE_INK_VERSION] == 18 && image.view[STORY_IMAGE_NODES_COUNT] == 4, "its view");
    children_of(&image, 0);
    definitions_of(&image);
    uint8_t *exact = (uint8_t *)room(length);
    memset(exact, 1, length);
    CHECK(put(&draft, 18, write_words(&draft), exact, length, &again) == 0 && again == length &&
              memcmp(exact, output, length) == 0,
          "the same bytes in exactly as much room");
    CHECK(put(&draft, 18, 100, exact, length - 1, &again) == STORY_IMAGE_NO_ROOM && again == length, "a byte too few");
    CHECK(put(&draft, 18, 100, exact, 0, &again) == STORY_IMAGE_NO_ROOM && again == length,
          "no output asks for the length");
    free(exact);
    release(&image);
    draft.nodes[11] = 1;
    CHECK(put(&draft, 21, 100, output, ROOM, &length) == STORY_IMAGE_DRAFT_SHAPE, "child 0 with place 1");
    draft.nodes[11] = 0;
    draft.nodes[33] = 0;
    CHECK(put(&draft, 21, 100, output, ROOM, &length) == STORY_IMAGE_DRAFT_PATHS, "two containers named a");
    draft.nodes[33] = 1;
    free(output);
}

void test_writes(const char *folder) {
    smallest_draft(folder);
    broken_drafts();
    named_children();
}
