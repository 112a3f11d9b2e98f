/* Writes the image of a small draft to a file, and loads it again: write IMAGE
 * Prints the image's length, then `ok V N`; or `no K`, the number of the first rule broken. */
#include <inttypes.h>
#include <stdio.h>
#include <stdlib.h>
#include <string.h>

#include "story_image.h"

#define NONE STORY_IMAGE_NONE

enum { CONTAINER = 1, COMMAND = 3, DIVERT = 4, STRING = 11 };
enum { NODES = 6, CHILDREN = 4, NAMED = 1, DEFINITIONS = 1, ITEMS = 2 };

/* Parent, place, tag, f0 to f6. What a kind lacks may be anything; texts are put in by `main`. Node numbers are free,
 * but for the root's: the writer numbers anew. */
static uint32_t nodes[NODES][10] = {
    {NONE, NONE, CONTAINER, NONE, NONE, 0, 0, 2, 0, 1}, /* 0: no name; 2 children from 0 on, 1 named child from 0 on */
    {0, 0, STRING},                                     /* 1: child 0 of node 0 */
    {0, 1, DIVERT, 0, 0, 3, NONE, NONE, 0, 0},          /* 2: child 1 of node 0; leads to node 3 */
    {0, NONE, CONTAINER, 0, 0, 0, 2, 2, 1, 0},          /* 3: 2 children from 2 on; named by node 0, so without place */
    {3, 0, STRING},                                     /* 4 */
    {3, 1, COMMAND},                                    /* 5 */
};
static const uint32_t children[CHILDREN] = {1, 2, 4, 5};
/* Name, node. */
static uint32_t named[NAMED][3] = {{0, 0, 3}};
/* Name, first item, number of items. Name, value; names rise in byte order. */
static uint32_t definitions[DEFINITIONS][4] = {{0, 0, 0, ITEMS}};
static uint32_t items[ITEMS][3] = {{0, 0, 1}, {0, 0, 4}};

static uint8_t strings[128];
static size_t strings_length;

/* Puts a text into the strings: the two words say where it is, and how long. The writer stores equal texts once. */
static void put_text(uint32_t *words, const char *text) {
    size_t length = strlen(text);
    words[0] = (uint32_t)strings_length;
    words[1] = (uint32_t)length;
    memcpy(strings + strings_length, text, length);
    strings_length += length;
}

static void put_texts(void) {
    put_text(&nodes[1][3], "Good evening.");
    put_text(&nodes[2][3], "night");
    put_text(&nodes[3][3], "night");
    put_text(&nodes[4][3], "Good night.");
    put_text(&nodes[5][3], "end");
    put_text(&named[0][0], "night");
    put_text(&definitions[0][0], "sensors");
    put_text(&items[0][0], "belt");
    put_text(&items[1][0], "clip");
}

/* All slices of the draft. There are no list values, so no payload: it stays empty. */
static struct story_image_draft lent_draft(void) {
    struct story_image_draft draft = {0};
    draft.ink_version = 21;
    draft.nodes = nodes[0];
    draft.nodes_length = NODES * 10;
    draft.children = children;
    draft.children_length = CHILDREN;
    draft.named = named[0];
    draft.named_length = NAMED * 3;
    draft.definitions = definitions[0];
    draft.definitions_length = DEFINITIONS * 4;
    draft.items = items[0];
    draft.items_length = ITEMS * 3;
    draft.strings = strings;
    draft.strings_length = strings_length;
    return draft;
}

static int refused(uint32_t number) {
    printf("no %" PRIu32 "\n", number);
    return 1;
}

static int no_memory(void) {
    fprintf(stderr, "write: no memory\n");
    return 2;
}

int main(int count, char **arguments) {
    if (count != 2) {
        fprintf(stderr, "usage: write IMAGE\n");
        return 2;
    }
    put_texts();
    struct story_image_draft draft = lent_draft();
    size_t words = story_image_draft_write_words(&draft);
    uint32_t *work = malloc(4 * words), length = 0;
    if (work == NULL)
        return no_memory();
    /* no output: refused with STORY_IMAGE_NO_ROOM and the length, or with another number and none */
    uint32_t number = story_image_draft_write(&draft, work, words, NULL, 0, &length);
    if (length == 0)
        return refused(number);
    uint8_t *output = malloc(length);
    if (output == NULL)
        return no_memory();
    number = story_image_draft_write(&draft, work, words, output, length, &length);
    if (number != 0)
        return refused(number);
    printf("%" PRIu32 " bytes\n", length);
    struct story_image image = {0};
    image.bytes = output;
    image.length = length;
    number = story_image_load_in(&image, work, words);
    if (number != 0)
        return refused(number);
    printf("ok %" PRIu32 " %" PRIu32 "\n", image.view[STORY_IMAGE_INK_VERSION], image.view[STORY_IMAGE_NODES_COUNT]);
    FILE *file = fopen(arguments[1], "wb");
    if (file == NULL || fwrite(output, 1, length, file) != length || fclose(file) != 0) {
        fprintf(stderr, "write: %s cannot be written\n", arguments[1]);
        return 2;
    }
    return 0;
}
