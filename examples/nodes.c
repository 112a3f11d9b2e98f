/* Loads an image of up to 65,536 bytes and prints its nodes: number, parent (-1: none), depth, kind, text if there is
 * one. `nodes IMAGE [ITEM..]`
 *
 * Then a line for each list item that is named, as `item` or as `list.item`: its value, and how many list definitions
 * were searched for it. `no K` if the image is refused, `long` if it is longer: then exit status 1; 2 if there is no
 * such file. */
#include <string.h>

#include "image.h"

/* A node's line. */
static int print_node(uint32_t node) {
    uint32_t shown[STORY_IMAGE_NODE_WORDS], depth;
    if (story_image_node_view_in(&image, node, shown) != 0 || story_image_depth_in(&image, node, &depth) != 0)
        return 1;
    uint32_t parent = shown[STORY_IMAGE_NODE_PARENT], kind = shown[STORY_IMAGE_NODE_KIND];
    printf("%" PRIu32 " of %" PRId32 ", depth %" PRIu32 ": %" PRIu32, node, (int32_t)parent, depth, kind);
    print_text(shown);
    putchar('\n');
    return 0;
}

static int print_nodes(void) {
    for (uint32_t node = 0; node < image.view[STORY_IMAGE_NODES_COUNT]; node++)
        if (print_node(node) != 0)
            return 1;
    return 0;
}

/* A list item's line. The count is there also if there is no such item. */
static void print_item(const char *name) {
    uint32_t item[STORY_IMAGE_LIST_ITEM_WORDS], searched;
    uint32_t number = story_image_find_list_item_in(&image, (const uint8_t *)name, strlen(name), item, &searched);
    printf("%s: ", name);
    if (number == 0)
        printf("%" PRId32, (int32_t)item[STORY_IMAGE_LIST_ITEM_VALUE]);
    else
        printf("no such item");
    printf(", %" PRIu32 " of %" PRIu32 " definitions searched\n", searched, image.view[STORY_IMAGE_DEFINITIONS_COUNT]);
}

int main(int count, char **arguments) {
    if (count < 2) {
        fprintf(stderr, "usage: nodes IMAGE [ITEM..]\n");
        return 2;
    }
    int status = load_file("nodes", arguments[1]);
    if (status == 0)
        status = print_nodes();
    for (int k = 2; status == 0 && k < count; k++)
        print_item(arguments[k]);
    return status;
}
