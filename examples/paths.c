/* Finds the targets of a small draft from its paths, writes the image and loads it: paths
 * Prints where the choice and the divert lead in the image; or `no K`, the number of the first rule broken. */
#include <inttypes.h>
#include <stdio.h>

#include "story_image.h"

#define NONE STORY_IMAGE_NONE

enum { NODES = 5, CHILDREN = 3, NAMED = 1, WORK = 16 * NODES + 4 * (CHILDREN + NAMED), ROOM = 1000 };

/* Texts, by offset and length: 0, 5 `night`; 0, 7 `night.0`; 7, 8 `.^.night`; 15, 11 `Good night.` */
static const uint8_t strings[] = "night.0.^.nightGood night.";
enum { STRINGS = sizeof strings - 1 };

/* As in write.c, but for the targets: they are to be found, and may be any word before. */
static uint32_t nodes[NODES][10] = {
    {NONE, NONE, STORY_IMAGE_KIND_CONTAINER, NONE, NONE, 0, 0, 2, 0, 1}, /* 0: children 1 and 2, named child 3 */
    {0, 0, STORY_IMAGE_KIND_CHOICE, 7, 8, NONE, 0},                      /* 1: path .^.night */
    {0, 1, STORY_IMAGE_KIND_DIVERT, 0, 7, NONE, NONE, NONE, 0, 0},       /* 2: path night.0 */
    {0, NONE, STORY_IMAGE_KIND_CONTAINER, 0, 5, 0, 2, 1, 1, 0},          /* 3: night, with child 4 */
    {3, 0, STORY_IMAGE_KIND_STRING, 15, 11},                             /* 4 */
};
static const uint32_t children[CHILDREN] = {1, 2, 4};
static const uint32_t named[NAMED][3] = {{0, 5, 3}};

/* The paths as components, which are the caller's to make of the texts. Names are looked for in lent bytes, here the
 * strings. */
static const uint32_t components[][STORY_IMAGE_STEP_WORDS] = {
    {STORY_IMAGE_STEP_PARENT}, {STORY_IMAGE_STEP_NAME, 0, 5}, {STORY_IMAGE_STEP_INDEX, 0}};
/* Node, relative or not, first component, number of components. Rising nodes are quick. */
static const uint32_t paths[][STORY_IMAGE_PATH_WORDS] = {{1, 1, 0, 2}, {2, 0, 1, 2}};

static uint32_t work[WORK];
static uint8_t output[ROOM];

/* No definitions, items and list values: they stay empty. */
static struct story_image_draft lent_draft(void) {
    struct story_image_draft draft = {0};
    draft.ink_version = 21;
    draft.nodes = nodes[0];
    draft.nodes_length = NODES * 10;
    draft.children = children;
    draft.children_length = CHILDREN;
    draft.named = named[0];
    draft.named_length = NAMED * 3;
    draft.strings = strings;
    draft.strings_length = STRINGS;
    return draft;
}

static struct story_image_paths lent_paths(void) {
    struct story_image_paths beside = {0};
    beside.paths = paths[0];
    beside.paths_length = sizeof paths / 4;
    beside.components = components[0];
    beside.components_length = sizeof components / 4;
    beside.names = strings;
    beside.names_length = STRINGS;
    return beside;
}

static int refused(uint32_t number) {
    printf("no %" PRIu32 "\n", number);
    return 1;
}

int main(void) {
    struct story_image_draft draft = lent_draft();
    struct story_image_paths beside = lent_paths();
    struct story_image image = {0};
    uint32_t length = 0, node[STORY_IMAGE_NODE_WORDS];
    uint32_t number = story_image_draft_resolve(&draft, &beside, work, WORK);
    if (number != 0)
        return refused(number);
    number = story_image_draft_write(&draft, work, WORK, output, ROOM, &length);
    if (number != 0)
        return refused(number);
    image.bytes = output;
    image.length = length;
    number = story_image_load_in(&image, work, WORK);
    if (number != 0)
        return refused(number);
    for (uint32_t n = 0; n < image.view[STORY_IMAGE_NODES_COUNT]; n++)
        if (story_image_node_view_in(&image, n, node) == 0 && node[STORY_IMAGE_NODE_TARGET] != NONE)
            printf("%" PRIu32 " leads to %" PRIu32 "\n", n, node[STORY_IMAGE_NODE_TARGET]);
    return 0;
}
