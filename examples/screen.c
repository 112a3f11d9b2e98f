/* Draws a screen: forty nodes of an image of up to 65,536 bytes, from one call. `screen IMAGE [FIRST]`
 *
 * A line for each number from FIRST on, or from 0: number, kind, parent (-1: none), text if there is one; `-` if there
 * is no such node. `no K` if the image is refused, `long` if it is longer: then exit status 1; 2 if there is no such
 * file. */
#include <stdlib.h>

#include "image.h"

enum { SHOWN = 40 };

/* By number; there is no kind 0 and no 15. */
static const char *const kinds[] = {
    "",      "container", "choice", "command",       "divert",  "glue", "operator",   "tag",       "bool", "int",
    "float", "string",    "list",   "divert target", "pointer", "",     "assignment", "reference", "void"};

/* The line of a number, from its slot on the page. */
static void print_slot(uint32_t number, const uint32_t *slot) {
    uint32_t kind = slot[STORY_IMAGE_SLOT_KIND], node[STORY_IMAGE_NODE_WORDS];
    if (kind == 0) {
        printf("%" PRIu32 " -\n", number);
        return;
    }
    printf("%" PRIu32 " %s of %" PRId32, number, kinds[kind], (int32_t)slot[STORY_IMAGE_SLOT_PARENT]);
    if (story_image_slot_view_in(&image, slot, node) == 0)
        print_text(node);
    putchar('\n');
}

int main(int count, char **arguments) {
    char *end = NULL;
    unsigned long long first = count == 3 ? strtoull(arguments[2], &end, 10) : 0;
    if (count < 2 || count > 3 || (end != NULL && *end != '\0') || first > UINT32_MAX - SHOWN) {
        fprintf(stderr, "usage: screen IMAGE [FIRST]\n");
        return 2;
    }
    int status = load_file("screen", arguments[1]);
    if (status != 0)
        return status;
    uint32_t numbers[SHOWN], slots[SHOWN][STORY_IMAGE_SLOT_WORDS];
    for (uint32_t k = 0; k < SHOWN; k++)
        numbers[k] = (uint32_t)first + k;
    if (story_image_page_in(&image, numbers, SHOWN, slots[0], SHOWN * STORY_IMAGE_SLOT_WORDS) != 0)
        return 1;
    for (uint32_t k = 0; k < SHOWN; k++)
        print_slot(numbers[k], slots[k]);
    return 0;
}
