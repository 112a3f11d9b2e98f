/* A program of the technician's reader: it links with that library, and not with the sleeper's alone. */
#include "story_image.h"

int main(void) {
    static const uint8_t bytes[1] = {0};
    static const uint32_t view[STORY_IMAGE_VIEW_WORDS] = {0};
    uint32_t part[STORY_IMAGE_TEXT_WORDS];
    return (int)story_image_text(bytes, 0, view, STORY_IMAGE_VIEW_WORDS, 0, 0, part, STORY_IMAGE_TEXT_WORDS);
}
