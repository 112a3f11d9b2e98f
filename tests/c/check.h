/* What the tests of both static libraries share: counting of checks, room of exact lengths, bytes of samples. Every
 * slice that is lent has exactly its length, so that an access past it is seen; what must stay as it was is filled with
 * a mark. It calls neither library. */
#ifndef CHECK_H
#define CHECK_H

#include <stddef.h>
#include <stdint.h>
#include <stdio.h>
#include <stdlib.h>
#include <string.h>
#ifndef __cplusplus
#include <stdbool.h>
#endif

#include "story_image_numbers.h"

#define NONE STORY_IMAGE_NONE
#define MARK UINT32_C(0x5a5a5a5a)
#define SIZE(words) (sizeof(words) / 4)
#define CHECK(right, ...) check((right), __FILE__, __LINE__, __VA_ARGS__)

extern unsigned long passed, failed;

void check(bool right, const char *file, int line, const char *what, ...);

void *room(size_t bytes);
void *copy_of(const void *from, size_t bytes);
uint32_t *marked(size_t words);
bool all_are(const uint32_t *words, size_t from, size_t to, uint32_t value);
uint32_t next(uint32_t *seed);

/* A word in the bytes of an image. */
uint32_t word_of(const uint8_t *byte);
void put_word(uint8_t *byte, uint32_t value);

/* The bytes of a file of the samples, to be freed. */
uint8_t *sample_bytes(const char *folder, const char *name, size_t *length);

#endif
