/* Images laid out word by word, whose texts can lie anywhere. */
#ifndef IMAGES_H
#define IMAGES_H

#include "../check.h"

enum { MOST_NODES = 40, MOST_TEXTS = 80, STRINGS_ROOM = 4096 };

/* Where texts lie: from the last to the first in place of the first to the last; one that stands in the strings
 * already is not put there again; what stands in front of each text that is put, and belongs to none. */
struct layout {
    bool backwards, shared;
    const char *unused;
};

/* The strings of an image. Texts are named twice in the same order: first they are listed, then they have a place. */
struct strings {
    const char *texts[MOST_TEXTS];
    uint32_t offsets[MOST_TEXTS], count, named, length;
    bool placed;
    uint8_t bytes[STRINGS_ROOM];
};

/* Offset and length of the next text, as two words. */
void put_text(uint32_t *words, struct strings *strings, const char *text);

/* Gives a place to each text that was listed. */
void place_texts(struct strings *strings, const struct layout *layout);

/* The sections but the strings. */
struct tables {
    uint32_t nodes[MOST_NODES][10], children[MOST_NODES], named[8][3], definitions[4][4], items[8][3], index[8][3];
    uint32_t payload[60];
    size_t node_count, child_count, named_count, definition_count, item_count, index_count, payload_words;
};

/* The bytes of an image, to be freed. */
uint8_t *image_bytes(const struct tables *tables, const struct strings *strings, size_t *length);

/* Every kind of node, two notes among them with these texts, a list value, definitions and a path index of three
 * containers; the first note may be a string, or a tag of any text. */
struct guide {
    const char *first, *second;
    bool first_is_string;
};
uint8_t *guide_bytes(const struct guide *guide, const struct layout *layout, size_t *length);

/* The nodes of a guide that a test asks for. */
enum {
    FIRST_NOTE = 1,
    GREETING,
    PLAIN_TAG,
    LIST,
    DIVERT,
    CHOICE,
    COMMAND,
    OPERATOR,
    BOOL,
    INT,
    FLOAT,
    TARGET,
    POINTER,
    ASSIGNMENT,
    REFERENCE,
    GLUE,
    VOID,
    NEAR_NOTE,
    KNOT,
    LEAF,
    SECOND_NOTE,
    STRING_LIKE_A_NOTE,
    GUIDE_NODES
};

/* The root with one node below it, of a kind whose text is f0 f1. */
uint8_t *one_text_bytes(uint32_t kind, const char *text, size_t *length);

/* The root with tags and a string in these parts of one text. */
struct part {
    uint32_t kind, offset, length;
};
uint8_t *parts_bytes(const struct part *parts, size_t count, const char *text, size_t *length);

#endif
