/* Walks along paths. */
#include "groups.h"

static uint32_t walk(const struct story_image *image, uint32_t origin, bool relative, const uint32_t *path,
                     size_t words, const char *names, uint32_t *end) {
    return story_image_resolve_path_in(image, origin, relative, path, words, (const uint8_t *)names, strlen(names),
                                       end);
}

void test_walks(const char *folder) {
    struct story_image image = accepted(folder, "step");
    uint32_t end = MARK;
    static const uint32_t up[] = {STORY_IMAGE_STEP_PARENT, 7, 7};
    static const uint32_t first[] = {STORY_IMAGE_STEP_INDEX, 0, 7};
    static const uint32_t skipped[] = {99, 99, 99, STORY_IMAGE_STEP_INDEX, 0, 0};
    static const uint32_t outside[] = {STORY_IMAGE_STEP_NAME, 1, 2};
    CHECK(walk(&image, 1, true, first, 0, "", &end) == 0 && end == 0, "from a node that is no container: its parent");
    CHECK(walk(&image, 1, true, skipped, 6, "", &end) == 0 && end == 1, "the skipped component is not read");
    CHECK(walk(&image, STORY_IMAGE_NONE, false, first, 3, "", &end) == 0 && end == 1, "the origin is not looked at");
    CHECK(walk(&image, STORY_IMAGE_NONE, true, first, 3, "", &end) == STORY_IMAGE_NOT_FOUND, "no such origin");
    end = MARK;
    CHECK(walk(&image, 0, true, up, 3, "", &end) == STORY_IMAGE_NOT_FOUND, "no step up from the root");
    CHECK(walk(&image, 0, false, skipped, 3, "", &end) == STORY_IMAGE_NOT_FOUND, "an unknown kind");
    CHECK(walk(&image, 0, false, outside, 3, "ab", &end) == STORY_IMAGE_NOT_FOUND, "a name outside the names");
    CHECK(walk(&image, 0, false, first, 2, "", &end) == STORY_IMAGE_NOT_FOUND, "words left over");
    CHECK(end == MARK, "the answer stays");
    release(&image);
}
