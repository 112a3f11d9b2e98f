/* Drafts: written and resolved with exactly as much room as is said, and what the calls leave. */
#ifndef DRAFTS_H
#define DRAFTS_H

#include "common.h"

/* A draft of nodes and strings alone. */
struct story_image_draft draft_of(uint32_t *nodes, size_t nodes_length, const char *strings);
void set_strings(struct story_image_draft *draft, const char *strings);

/* The root alone. */
extern uint32_t root_node[STORY_IMAGE_DRAFT_NODE_WORDS];

/* Work words that writing needs. */
size_t write_words(const struct story_image_draft *draft);

/* Writes with so much room, and sees what the call leaves. */
uint32_t put(const struct story_image_draft *draft, uint32_t ink, size_t words, uint8_t *output, size_t length,
             uint32_t *long_as);

/* The image of a draft, written into exactly as much room as it takes, and loaded. */
struct story_image written(const struct story_image_draft *draft, const char *name);

/* Finds targets in the nodes, with so many work words, and sees what the call leaves. The numbers that it has given,
 * one bit each. */
uint32_t find_targets(const struct story_image_draft *draft, uint32_t *nodes, const struct story_image_paths *paths,
                      uint32_t ink, size_t words);
extern uint32_t target_numbers;

enum { CHAIN = 300 };

/* Container k + 1 is the only child of container k: an ordered one where k is even, one named a where k is odd. */
struct story_image chain_image(void);

#endif
