/* Prints the nodes of an image as the sleeper's reader sees them: number, parent (-1: none), depth, kind, text if there
 * is one. A note to the technician is void, kind 18, and its text is not there. `sleeper IMAGE`
 *
 * It is linked with libsleeper_image.a alone. `no K` if the image is refused, `long` if it has more than 65,536 bytes:
 * then exit status 1; 2 if there is no such file. */
#include <inttypes.h>
#include <stdio.h>

#include "sleeper_image.h"

enum { MOST = 65536 };

static uint8_t bytes[MOST + 1], text[MOST];
static uint32_t work[MOST / 4];
static struct story_image_sleeper image;

/* The text of a node, if there is one: the call copies it. No text is longer than the image. */
static void print_text(uint32_t node) {
    uint32_t length;
    if (story_image_sleeper_text_in(&image, STORY_IMAGE_SLEEPER_TEXT_OF_NODE, node, 0, text, MOST, &length) != 0)
        return;
    printf(" \"");
    fwrite(text, 1, length, stdout);
    putchar('"');
}

/* A node's line. */
static int print_node(uint32_t node) {
    uint32_t seen[STORY_IMAGE_SLEEPER_NODE_WORDS], depth;
    if (story_image_sleeper_node_view_in(&image, node, seen) != 0 ||
        story_image_sleeper_depth_in(&image, node, &depth) != 0)
        return 1;
    uint32_t parent = seen[STORY_IMAGE_SLEEPER_NODE_PARENT], kind = seen[STORY_IMAGE_SLEEPER_NODE_KIND];
    printf("%" PRIu32 " of %" PRId32 ", depth %" PRIu32 ": %" PRIu32, node, (int32_t)parent, depth, kind);
    print_text(node);
    putchar('\n');
    return 0;
}

/* Reads a whole file into the image; whether that went well. */
static int read_file(const char *name) {
    FILE *file = fopen(name, "rb");
    if (file == NULL)
        return 0;
    image.bytes = bytes;
    image.length = fread(bytes, 1, sizeof bytes, file);
    int failed = ferror(file);
    fclose(file);
    return !failed;
}

int main(int count, char **arguments) {
    if (count != 2 || !read_file(arguments[1])) {
        fprintf(stderr, count != 2 ? "usage: sleeper IMAGE\n" : "sleeper: the file cannot be read\n");
        return 2;
    }
    if (image.length > MOST) {
        printf("long\n");
        return 1;
    }
    uint32_t number = story_image_sleeper_load_in(&image, work, MOST / 4);
    if (number != 0) {
        printf("no %" PRIu32 "\n", number);
        return 1;
    }
    for (uint32_t node = 0; node < image.view[STORY_IMAGE_SLEEPER_NODES_COUNT]; node++)
        if (print_node(node) != 0)
            return 1;
    return 0;
}
