/* Loads: samples, every cut, views of too few words. */
#include "calls.h"
#include "groups.h"

static const struct {
    const char *name;
    uint32_t number;
} sample_numbers[] = {
    {"smallest", STORY_IMAGE_OK},
    {"guide", STORY_IMAGE_OK},
    {"largest", STORY_IMAGE_OK},
    {"cut-header", STORY_IMAGE_BAD_HEADER},
    {"version", STORY_IMAGE_BAD_VERSION},
    {"ink-version", STORY_IMAGE_BAD_INK_VERSION},
    {"cut", STORY_IMAGE_BAD_LENGTH},
    {"sections", STORY_IMAGE_BAD_SECTIONS},
    {"bit", STORY_IMAGE_BAD_CHECKSUM},
    {"root", STORY_IMAGE_BAD_ROOT},
    {"choice-target", STORY_IMAGE_BAD_NODE},
    {"text", STORY_IMAGE_BAD_TEXT},
    {"children-start", STORY_IMAGE_BAD_RANGE},
    {"tag", STORY_IMAGE_BAD_TAG},
    {"index-count", STORY_IMAGE_LEFT_OVER},
    {"place", STORY_IMAGE_BAD_CHILD},
    {"circle", STORY_IMAGE_UNREACHED},
    {"dotted", STORY_IMAGE_BAD_INDEX},
    {"item-order", STORY_IMAGE_BAD_DEFINITION},
};

static struct story_image_sleeper sample(const char *folder, const char *name) {
    struct story_image_sleeper image;
    memset(&image, 0, sizeof image);
    image.bytes = sample_bytes(folder, name, &image.length);
    return image;
}

static void samples(const char *folder) {
    for (size_t i = 0; i < sizeof sample_numbers / sizeof sample_numbers[0]; i++) {
        const char *name = sample_numbers[i].name;
        struct story_image_sleeper image = sample(folder, name);
        uint32_t due = sample_numbers[i].number, number = load(&image, image.length / 4);
        CHECK(number == due, "%s: %u in place of %u", name, (unsigned)number, (unsigned)due);
        if (number == 0 || number > STORY_IMAGE_TOO_FEW_WORDS) {
            size_t needed = words_needed(&image);
            CHECK(story_image_sleeper_load_words(image.bytes, image.length) == needed, "%s, the words it needs", name);
            CHECK(load(&image, needed) == number, "%s with as many words as it needs", name);
            CHECK(load(&image, needed - 1) == STORY_IMAGE_TOO_FEW_WORDS, "%s with one word fewer", name);
        }
        release(&image);
    }
}

/* The words of the view are the ink version and the counts of the header. */
static void view_words(const char *folder) {
    struct story_image_sleeper image = sample(folder, "guide");
    CHECK(load(&image, image.length / 4) == STORY_IMAGE_OK, "the guide");
    CHECK(image.view[STORY_IMAGE_SLEEPER_INK_VERSION] == word_of(image.bytes + 12), "the ink version");
    for (size_t k = STORY_IMAGE_SLEEPER_NODES_COUNT; k < STORY_IMAGE_SLEEPER_VIEW_WORDS; k++)
        CHECK(image.view[k] == word_of(image.bytes + 16 + 8 * k), "count %u", (unsigned)k);
    release(&image);
}

/* A view of fewer words counts as a lack of work words, after rows 1 to 6. */
static void short_views(const char *folder) {
    struct story_image_sleeper image = sample(folder, "smallest");
    for (size_t words = 0; words < STORY_IMAGE_SLEEPER_VIEW_WORDS; words++) {
        uint32_t *work = marked(2), *view = marked(words);
        CHECK(story_image_sleeper_load(image.bytes, image.length, work, 2, view, words) == STORY_IMAGE_TOO_FEW_WORDS,
              "a view of %u words", (unsigned)words);
        CHECK(story_image_sleeper_load(image.bytes, 87, work, 2, view, words) == STORY_IMAGE_BAD_HEADER, "row 1 first");
        CHECK(all_are(work, 0, 2, MARK) && all_are(view, 0, words, MARK), "nothing is written");
        free(work);
        free(view);
    }
    release(&image);
}

static void cuts(const char *folder) {
    struct story_image_sleeper whole = sample(folder, "smallest");
    for (size_t length = 0; length < whole.length; length++) {
        struct story_image_sleeper cut = whole;
        cut.bytes = (const uint8_t *)copy_of(whole.bytes, length);
        cut.length = length;
        uint32_t number = load(&cut, length / 4);
        CHECK(number == (length < STORY_IMAGE_HEADER_BYTES ? STORY_IMAGE_BAD_HEADER : STORY_IMAGE_BAD_LENGTH),
              "cut to %u: %u", (unsigned)length, (unsigned)number);
        CHECK(story_image_sleeper_load_words(cut.bytes, length) == 0, "a refused header needs no words");
        release(&cut);
    }
    release(&whole);
}

void test_loads(const char *folder) {
    samples(folder);
    view_words(folder);
    short_views(folder);
    cuts(folder);
}
