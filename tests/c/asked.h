/* Queries by number, each with what it takes beside image and answer. */
#ifndef ASKED_H
#define ASKED_H

#include "common.h"

struct asked {
    uint32_t node, index, offset, length;
    const uint8_t *name;
    size_t name_length;
};

enum {
    NODE_VIEW,
    TEXT,
    CHILD_COUNT,
    NAMED_COUNT,
    CHILD,
    NAMED_CHILD,
    FIND,
    DEFINITION_COUNT,
    DEFINITION,
    ITEM,
    LIST_ITEM,
    WALK,
    LIST_PAYLOAD,
    LIST_COUNTS,
    NODE_ENTRY,
    NODE_ORIGIN,
    FIRST_ITEM,
    DEPTH,
    SLOT_VIEW, /* of the slot that a page has for the node */
    QUERIES
};

/* A query with an answer of exactly its words; with one word more, that word stays; with one fewer, or a short view,
 * nothing is written; over the struct it is the same. Whether there is an answer. */
bool ask(int query, const struct story_image *image, const struct asked *asked, uint32_t *answer);

/* The query, asked by slices of these lengths; asked over the struct. */
uint32_t call(int query, const struct story_image *image, size_t view_length, const struct asked *asked,
              uint32_t *answer, size_t answer_length);
uint32_t call_in(int query, const struct story_image *image, const struct asked *asked, uint32_t *answer);

/* A page in so many words of slots, which are marked first. */
uint32_t page(const struct story_image *image, size_t view_length, const uint32_t *numbers, size_t count,
              uint32_t *slots, size_t words);

/* The look-up of a list item, and its count. The word behind the count stays; under a short view the count does too. */
uint32_t search(const struct story_image *image, size_t view_length, const struct asked *asked, uint32_t *answer,
                size_t answer_length, uint32_t *searched);

/* Whether a text is inside the bytes, and where; whether it is these bytes. */
bool text_inside(const struct story_image *image, uint32_t offset, uint32_t length, uint32_t *part);
bool text_is(const struct story_image *image, uint32_t offset, uint32_t length, const char *due, size_t due_length);

/* A list value by its node, and from its payload and the strings: the same. */
void list_value(const struct story_image *image, uint32_t node, const uint32_t *words);

/* A container's children name it, and are found by name. */
void children_of(const struct story_image *image, uint32_t node);

/* Definitions, their first items, and these found by name. */
void definitions_of(const struct story_image *image);

#endif
