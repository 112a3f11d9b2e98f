/* Loads: the samples, every cut and every turned bit. */
#include "groups.h"

/* The samples and the number of each. */
static const struct {
    const char *name;
    uint32_t number;
} sample_numbers[] = {
    {"smallest", STORY_IMAGE_OK},
    {"guide", STORY_IMAGE_OK},
    {"step", STORY_IMAGE_OK},
    {"largest", STORY_IMAGE_OK},
    {"note-one", STORY_IMAGE_OK},
    {"note-two", STORY_IMAGE_OK},
    {"cut-header", STORY_IMAGE_BAD_HEADER},
    {"version", STORY_IMAGE_BAD_VERSION},
    {"ink-version", STORY_IMAGE_BAD_INK_VERSION},
    {"cut", STORY_IMAGE_BAD_LENGTH},
    {"sections", STORY_IMAGE_BAD_SECTIONS},
    {"bit", STORY_IMAGE_BAD_CHECKSUM},
    {"root", STORY_IMAGE_BAD_ROOT},
    {"choice-target", STORY_IMAGE_BAD_NODE},
    {"text", STORY_IMAGE_BAD_TEXT},
    {"children-start", STORY_IMAGE_BAD_RANGE},
    {"tag", STORY_IMAGE_BAD_TAG},
    {"index-count", STORY_IMAGE_LEFT_OVER},
    {"place", STORY_IMAGE_BAD_CHILD},
    {"circle", STORY_IMAGE_UNREACHED},
    {"index-order", STORY_IMAGE_BAD_INDEX},
    {"dotted", STORY_IMAGE_BAD_INDEX},
    {"placeless", STORY_IMAGE_BAD_INDEX},
    {"item-order", STORY_IMAGE_BAD_DEFINITION},
};

static void samples(const char *folder) {
    for (size_t i = 0; i < sizeof sample_numbers / sizeof sample_numbers[0]; i++) {
        const char *name = sample_numbers[i].name;
        struct story_image image = sample(folder, name);
        uint32_t due = sample_numbers[i].number, number = load(&image, image.length / 4);
        CHECK(number == due, "%s: %u in place of %u", name, (unsigned)number, (unsigned)due);
        if (number == 0 || number > STORY_IMAGE_TOO_FEW_WORDS) {
            size_t needed = words_needed(&image);
            CHECK(needed <= image.length / 4, "%s needs no more words than a quarter of its bytes", name);
            CHECK(story_image_load_words(image.bytes, image.length) == needed, "%s, the words it needs", name);
            CHECK(load(&image, needed) == number, "%s with as many words as it needs", name);
            CHECK(load(&image, needed - 1) == STORY_IMAGE_TOO_FEW_WORDS, "%s with one word fewer", name);
        }
        release(&image);
    }
}

/* Every cut, and every bit turned: nothing is accepted. */
static void damaged(const char *folder) {
    struct story_image whole = accepted(folder, "smallest");
    CHECK(whole.length == STORY_IMAGE_SMALLEST_BYTES, "the smallest image");
    for (size_t length = 0; length < whole.length; length++) {
        struct story_image cut = image_of(whole.bytes, length);
        uint32_t number = load(&cut, length / 4);
        CHECK(number == (length < STORY_IMAGE_HEADER_BYTES ? STORY_IMAGE_BAD_HEADER : STORY_IMAGE_BAD_LENGTH),
              "cut to %u: %u", (unsigned)length, (unsigned)number);
        release(&cut);
    }
    for (size_t bit = 0; bit < 8 * whole.length; bit++) {
        struct story_image other = image_of(whole.bytes, whole.length);
        bytes_of(&other)[bit / 8] ^= (uint8_t)(1u << bit % 8);
        CHECK(load(&other, other.length / 4) != 0, "bit %u turned", (unsigned)bit);
        release(&other);
    }
    /* a header that asks for more words than there can be */
    uint8_t hostile[STORY_IMAGE_HEADER_BYTES];
    memset(hostile, 255, sizeof hostile);
    memcpy(hostile, whole.bytes, 20);
    hostile[16] = sizeof hostile;
    struct story_image image = image_of(hostile, sizeof hostile);
    CHECK(load(&image, 22) == STORY_IMAGE_BAD_SECTIONS, "counts of 4294967295");
    CHECK(story_image_load_words(image.bytes, image.length) <= 22, "no more words than a quarter of the bytes");
    release(&image);
    /* a view of fewer words counts as a lack of work words, after rows 1 to 6 */
    uint32_t *work = marked(2), *view = marked(16);
    CHECK(story_image_load(whole.bytes, whole.length, work, 2, view, 16) == STORY_IMAGE_TOO_FEW_WORDS, "a short view");
    CHECK(story_image_load(whole.bytes, 87, work, 2, view, 16) == STORY_IMAGE_BAD_HEADER, "a short view, row 1 first");
    CHECK(all_are(work, 0, 2, MARK) && all_are(view, 0, 16, MARK), "nothing is written");
    CHECK(!story_image_view_whole(view, 16) && story_image_view_whole(whole.view, STORY_IMAGE_VIEW_WORDS),
          "a short view is told apart");
    free(work);
    free(view);
    release(&whole);
}

void test_load(const char *folder) {
    samples(folder);
    damaged(folder);
}
