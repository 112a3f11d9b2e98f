/* Calls of the sleeper's reader by number, each with what it takes beside image and answer. */
#ifndef CALLS_H
#define CALLS_H

#include "../check.h"
#include "sleeper_image.h"

/* A node, a definition, or the first number of a text; an index, or the second number; a name. */
struct asked {
    uint32_t a, b, kind;
    const uint8_t *name;
    size_t name_length;
};

enum {
    NODE_VIEW,
    TEXT_LENGTH,
    DEPTH,
    CHILD_COUNT,
    NAMED_COUNT,
    CHILD,
    NAMED_CHILD,
    FIND,
    LIST_ITEM_COUNT,
    LIST_ORIGIN_COUNT,
    LIST_ENTRY,
    DEFINITION_COUNT,
    DEFINITION,
    FIRST_ITEM,
    DEFINITION_ITEM,
    LIST_ITEM,
    WALK, /* relative, from the node to the child at the index */
    QUERIES
};

enum { MOST_WORDS = STORY_IMAGE_SLEEPER_NODE_WORDS };

/* How many words the answer of a query has. */
size_t words_of(int query);

/* A query with an answer of exactly its words; with one word more, that word stays; with one fewer, or a short view,
 * nothing is written; over the struct it is the same. Whether there is an answer. */
bool ask(int query, const struct story_image_sleeper *image, const struct asked *asked, uint32_t *answer);

/* How many definitions a look-up of a list item searched. */
uint32_t searched_by(const struct story_image_sleeper *image, const char *name);

/* A text, and its length: with exactly as much room as it takes, with more, with one byte less and with none, with two
 * words, one and none for its length, under a short view, over the struct. What is not written stays. The text is to be
 * freed; there is none where the call gives 18. */
uint8_t *text_of(const struct story_image_sleeper *image, uint32_t kind, uint32_t a, uint32_t b, uint32_t *length);

/* Whether there is a text, and it is these bytes. */
bool text_is(const struct story_image_sleeper *image, uint32_t kind, uint32_t a, uint32_t b, const char *due);

/* Loads with so many work words, and sees what the call leaves of work words, view and bytes. */
uint32_t load(struct story_image_sleeper *image, size_t words);

/* An image that is accepted, with its view; `release` frees its bytes. */
struct story_image_sleeper accepted(uint8_t *bytes, size_t length, const char *what);
void release(struct story_image_sleeper *image);

/* How many work words the header asks for. */
size_t words_needed(const struct story_image_sleeper *image);

#endif
