/* Words of the header: total length, length of the string section, checksum. */
#include "groups.h"

/* The calls, over slices and over the struct, and where the header has the word. */
static const struct {
    uint32_t (*call)(const uint8_t *bytes, size_t length, uint32_t *answer, size_t answer_length);
    uint32_t (*call_in)(const struct story_image *image, uint32_t *answer);
    size_t at;
} calls[] = {{story_image_total_length, story_image_total_length_in, 16},
             {story_image_strings_length, story_image_strings_length_in, 80},
             {story_image_checksum, story_image_checksum_in, 84}};

enum { TOTAL_LENGTH, STRINGS_LENGTH, CHECKSUM, CALLS };

/* A call with one word, with one more, which stays, with none, and over the struct: all the same. Whether there is an
 * answer. */
static bool told(int k, const struct story_image *image, uint32_t *word) {
    uint32_t *more = marked(2), *exact = marked(1), *none = marked(0), *over = marked(1);
    uint32_t number = calls[k].call(image->bytes, image->length, more, 2);
    CHECK(number == STORY_IMAGE_OK || number == STORY_IMAGE_NOT_FOUND, "call %d gives %u", k, (unsigned)number);
    CHECK(all_are(more, number == 0 ? 1 : 0, 2, MARK), "call %d leaves what is not its answer", k);
    CHECK(calls[k].call(image->bytes, image->length, none, 0) == STORY_IMAGE_NOT_FOUND, "call %d without a word", k);
    CHECK(calls[k].call(image->bytes, image->length, exact, 1) == number && exact[0] == more[0], "call %d, a word", k);
    CHECK(calls[k].call_in(image, over) == number && over[0] == more[0], "call %d over the struct", k);
    *word = more[0];
    free(more);
    free(exact);
    free(none);
    free(over);
    return number == 0;
}

/* Each word as the header has it. */
static void as_the_header(const struct story_image *image, const char *name) {
    uint32_t word;
    for (int k = 0; k < CALLS; k++)
        CHECK(told(k, image, &word) && word == word_at(image, calls[k].at), "%s: call %d", name, k);
}

/* CRC-32 of all bytes but the checksum's, bit by bit. */
static uint32_t crc_of(const struct story_image *image) {
    uint32_t crc = UINT32_MAX;
    for (size_t i = 0; i < image->length; i++) {
        if (84 <= i && i < 88)
            continue;
        crc ^= image->bytes[i];
        for (int bit = 0; bit < 8; bit++)
            crc = crc >> 1 ^ (crc & 1 ? UINT32_C(0xedb88320) : 0);
    }
    return ~crc;
}

static void accepted_images(const char *folder) {
    static const char *const names[] = {"smallest", "step", "guide", "largest"};
    for (size_t i = 0; i < sizeof names / sizeof names[0]; i++) {
        struct story_image image = accepted(folder, names[i]);
        uint32_t word;
        CHECK(told(TOTAL_LENGTH, &image, &word) && word == image.length, "%s: the number of bytes", names[i]);
        CHECK(told(STRINGS_LENGTH, &image, &word) && word == image.view[STORY_IMAGE_STRINGS_COUNT] &&
                  image.view[STORY_IMAGE_STRINGS] + word == image.length,
              "%s: the strings, up to the end", names[i]);
        CHECK(told(CHECKSUM, &image, &word) && word == crc_of(&image), "%s: the CRC-32", names[i]);
        as_the_header(&image, names[i]);
        release(&image);
    }
}

/* Bytes that no load accepts: what the header says, from 88 bytes on. */
static void other_bytes(const char *folder) {
    struct story_image step = sample(folder, "step"), bit = sample(folder, "bit");
    struct story_image header = image_of(step.bytes, STORY_IMAGE_HEADER_BYTES), none;
    struct story_image cut = image_of(step.bytes, STORY_IMAGE_HEADER_BYTES - 1);
    uint32_t word;
    as_the_header(&bit, "a wrong checksum");
    as_the_header(&header, "a header alone");
    memset(&none, 0, sizeof none);
    for (int k = 0; k < CALLS; k++) {
        CHECK(!told(k, &cut, &word), "call %d, 87 bytes", k);
        CHECK(calls[k].call_in(&none, &word) == STORY_IMAGE_NOT_FOUND, "call %d, no bytes", k);
    }
    release(&step);
    release(&bit);
    release(&header);
    release(&cut);
}

void test_header(const char *folder) {
    accepted_images(folder);
    other_bytes(folder);
}
