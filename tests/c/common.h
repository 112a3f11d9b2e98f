/* What the tests of the technician's library share: images. */
#ifndef COMMON_H
#define COMMON_H

#include "check.h"
#include "story_image.h"

/* An image whose bytes are a copy, exactly as long as they are said to be; `release` frees them. */
struct story_image image_of(const uint8_t *bytes, size_t length);
struct story_image copy_of_image(const struct story_image *image);
void release(struct story_image *image);

/* A file of the samples; one that is accepted, with its view. */
struct story_image sample(const char *folder, const char *name);
struct story_image accepted(const char *folder, const char *name);

/* Loads with so many work words, and sees what the call leaves of work words, view and bytes. */
uint32_t load(struct story_image *image, size_t words);

/* How many work words the header asks for; 0 without one. */
size_t words_needed(const struct story_image *image);

/* Bytes and words of an image; the word of a node is one that its slot has in the same place. */
uint8_t *bytes_of(struct story_image *image);
uint32_t word_at(const struct story_image *image, size_t at);
void set_word_at(struct story_image *image, size_t at, uint32_t value);
void set_word(struct story_image *image, uint32_t node, size_t word, uint32_t value);

/* The view as the header has it: what a load writes of accepted bytes. */
void view_by_header(struct story_image *image);

enum { ROUNDS = 300 };

/* An image that is cut and has other bytes, in every third round also another view. */
struct story_image changed(const struct story_image *image, int round, uint32_t *seed);

#endif
