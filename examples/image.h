/* What nodes.c and screen.c share: an image of up to 65,536 bytes, loaded from a file; the text of a node. */
#include <inttypes.h>
#include <stdio.h>

#include "story_image.h"

enum { MOST = 65536 };

static uint8_t bytes[MOST];
static uint32_t work[MOST / 4];
static struct story_image image;

/* Reads a whole file: its length, MOST + 1 if it is longer than the buffer, or -1. */
static long read_file(const char *name) {
    FILE *file = fopen(name, "rb");
    if (file == NULL)
        return -1;
    size_t got = fread(bytes, 1, MOST, file);
    int longer = got == MOST && fgetc(file) != EOF;
    int failed = ferror(file);
    fclose(file);
    return failed ? -1 : longer ? MOST + 1 : (long)got;
}

/* Loads the image of a file: 0, and `image` has its bytes and view. Else the exit status, once it is said why: 1 and
 * `no K` if the image is refused, 1 and `long` if it is longer, 2 if there is no such file. */
static int load_file(const char *program, const char *name) {
    long got = read_file(name);
    if (got < 0) {
        fprintf(stderr, "%s: %s cannot be read\n", program, name);
        return 2;
    }
    if (got > MOST) {
        printf("long\n");
        return 1;
    }
    image.bytes = bytes;
    image.length = (size_t)got;
    uint32_t number = story_image_load_in(&image, work, MOST / 4);
    if (number != 0)
        printf("no %" PRIu32 "\n", number);
    return number != 0;
}

/* The text that a node's view has, if it has one. */
static void print_text(const uint32_t *node) {
    uint32_t part[STORY_IMAGE_TEXT_WORDS];
    if (node[STORY_IMAGE_NODE_KIND] == STORY_IMAGE_KIND_LIST ||
        story_image_text_in(&image, node[STORY_IMAGE_NODE_TEXT], node[STORY_IMAGE_NODE_TEXT_LENGTH], part) != 0)
        return;
    printf(" \"");
    fwrite(bytes + part[STORY_IMAGE_TEXT_START], 1, part[STORY_IMAGE_TEXT_LENGTH], stdout);
    putchar('"');
}
