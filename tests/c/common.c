#include "common.h"

struct story_image image_of(const uint8_t *bytes, size_t length) {
    struct story_image image;
    memset(&image, 0, sizeof image);
    image.bytes = (const uint8_t *)copy_of(bytes, length);
    image.length = length;
    return image;
}

struct story_image copy_of_image(const struct story_image *image) {
    struct story_image copy = *image;
    copy.bytes = (const uint8_t *)copy_of(image->bytes, image->length);
    return copy;
}

uint8_t *bytes_of(struct story_image *image) {
    return (uint8_t *)image->bytes;
}

void release(struct story_image *image) {
    free(bytes_of(image));
}

struct story_image sample(const char *folder, const char *name) {
    struct story_image image;
    memset(&image, 0, sizeof image);
    image.bytes = sample_bytes(folder, name, &image.length);
    return image;
}

uint32_t word_at(const struct story_image *image, size_t at) {
    return word_of(image->bytes + at);
}

void set_word_at(struct story_image *image, size_t at, uint32_t value) {
    put_word(bytes_of(image) + at, value);
}

void set_word(struct story_image *image, uint32_t node, size_t word, uint32_t value) {
    set_word_at(image, image->view[STORY_IMAGE_NODES] + 40 * (size_t)node + 4 * word, value);
}

void view_by_header(struct story_image *image) {
    image->view[STORY_IMAGE_INK_VERSION] = word_at(image, 12);
    for (size_t k = STORY_IMAGE_NODES; k < STORY_IMAGE_VIEW_WORDS; k++)
        image->view[k] = word_at(image, 20 + 4 * (k - STORY_IMAGE_NODES));
}

size_t words_needed(const struct story_image *image) {
    size_t needed = 1;
    if (image->length < STORY_IMAGE_HEADER_BYTES)
        return 0;
    for (size_t at = 24; at <= 40; at += 8)
        needed += word_at(image, at);
    return needed;
}

/* The same load over the struct: number and view, whatever it was before. */
static void load_again(const struct story_image *image, size_t words, uint32_t number, const uint32_t *view) {
    struct story_image other = *image;
    uint32_t *work = marked(words);
    memset(other.view, 0x5a, sizeof other.view);
    CHECK(story_image_load_in(&other, work, words) == number, "%u: the same number over the struct", (unsigned)number);
    CHECK(memcmp(other.view, view, sizeof other.view) == 0, "%u: the same view over the struct", (unsigned)number);
    CHECK(story_image_load_words_in(image) == story_image_load_words(image->bytes, image->length), "its work words");
    free(work);
}

uint32_t load(struct story_image *image, size_t words) {
    uint32_t *work = marked(words), *view = marked(STORY_IMAGE_VIEW_WORDS + 1);
    uint8_t *before = (uint8_t *)room(image->length);
    memcpy(before, image->bytes, image->length);
    uint32_t number = story_image_load(image->bytes, image->length, work, words, view, STORY_IMAGE_VIEW_WORDS + 1);
    CHECK(number <= STORY_IMAGE_BAD_DEFINITION, "a load gives %u", (unsigned)number);
    if (number >= 1 && number <= STORY_IMAGE_TOO_FEW_WORDS) {
        CHECK(all_are(work, 0, words, MARK), "%u leaves the work words", (unsigned)number);
    } else {
        size_t needed = words_needed(image);
        CHECK(needed <= words && all_are(work, 0, needed, 0), "the work words are 0");
        CHECK(all_are(work, needed, words, MARK), "words past them stay");
    }
    CHECK(all_are(view, number == 0 ? STORY_IMAGE_VIEW_WORDS : 0, STORY_IMAGE_VIEW_WORDS + 1, MARK),
          "the view is written where nothing is refused, and not past its words");
    CHECK(memcmp(before, image->bytes, image->length) == 0, "no byte of the image changes");
    if (number == 0)
        memcpy(image->view, view, sizeof image->view);
    load_again(image, words, number, view);
    free(work);
    free(view);
    free(before);
    return number;
}

struct story_image accepted(const char *folder, const char *name) {
    struct story_image image = sample(folder, name);
    CHECK(load(&image, image.length / 4) == STORY_IMAGE_OK, "%s is accepted", name);
    return image;
}

struct story_image changed(const struct story_image *image, int round, uint32_t *seed) {
    struct story_image other = image_of(image->bytes, image->length - (size_t)round * 7);
    memcpy(other.view, image->view, sizeof other.view);
    for (int change = 0; change < 6; change++) {
        uint32_t any = next(seed);
        bytes_of(&other)[(any >> 8) % other.length] ^= (uint8_t)(any >> 3);
        if (round % 3 == 0)
            other.view[any % STORY_IMAGE_VIEW_WORDS] = any % 5 == 0 ? STORY_IMAGE_NONE : any >> 12;
    }
    return other;
}
