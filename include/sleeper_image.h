/* Story images as the sleeper's reader sees them. A note to the technician, a tag whose text begins with the five bytes
 * `tech:`, is seen as void, with its parent and place, and has no text. All else is seen as story_image.h shows it to
 * the technician. A text is copied into a lent slice: no call gives or takes a place in the image.
 *
 * Two images that a load accepts and that differ only in what notes hold after `tech:`, in where texts lie, and in
 * total length, length of the string section and checksum give every call here the same answers, refusals among them,
 * under the view that the load wrote. That is proved (docs/PROMISES.md, `NoExportLeaks`).
 *
 * The calls stand in an archive of their own, libsleeper_image.a, which needs no other. A player that links it alone
 * has no call for places, pages of raw words, total length, length of the string section and checksum. Both archives
 * link into one program. Numbers, kinds, commands, operators and flags stand in story_image_numbers.h; docs/FORMAT.md
 * has the format whole.
 *
 * A slice is lent as pointer and length (a count of elements, not of bytes). It must not be written by others during
 * the call; its pointer is not null, also where the length is 0, and is aligned for its type. Slices that are written
 * (work, view, answer, searched, text, size) overlap nothing else. That is all that is asked of a caller: every
 * function takes any bytes, any words and any numbers, and ends. No function allocates, keeps what it was lent, has
 * state, or changes a byte of an image; calls from several threads at once are fine. The tables of the checksum take
 * about 5 KB of stack in a load.
 *
 * In short:
 *
 *     struct story_image_sleeper image = {0}; // in C++ {}
 *     uint32_t node[STORY_IMAGE_SLEEPER_NODE_WORDS], size[STORY_IMAGE_SLEEPER_COUNT_WORDS];
 *     uint8_t text[200];
 *     image.bytes = bytes;
 *     image.length = length;
 *     size_t words = story_image_sleeper_load_words_in(&image); // at most length / 4
 *     uint32_t *work = malloc(4 * words + 4);
 *     uint32_t number = story_image_sleeper_load_in(&image, work, words);
 *     if (number != STORY_IMAGE_OK) return refused(number);
 *     for (uint32_t n = 0; n < image.view[STORY_IMAGE_SLEEPER_NODES_COUNT]; n++) {
 *         story_image_sleeper_node_view_in(&image, n, node);
 *         if (node[STORY_IMAGE_SLEEPER_NODE_KIND] != STORY_IMAGE_KIND_STRING) continue;
 *         uint32_t kind = STORY_IMAGE_SLEEPER_TEXT_OF_NODE;
 *         number = story_image_sleeper_text_in(&image, kind, n, 0, text, sizeof text, size);
 *         if (number == STORY_IMAGE_OK) fwrite(text, 1, size[0], stdout);
 *     }
 *
 * The functions of the library lend each slice by itself. At the end of this file stand the same calls over a struct.
 */
#ifndef SLEEPER_IMAGE_H
#define SLEEPER_IMAGE_H

#include <stddef.h>
#include <stdint.h>
#ifndef __cplusplus
#include <stdbool.h>
#endif

#include "story_image_numbers.h"

#if SIZE_MAX < UINT64_MAX
#error "the library is built for 64-bit machines"
#endif

#ifdef __cplusplus
extern "C" {
#endif

/* Words of a view: the ink version, then how many entries each section has, the payload bytes. It is no view of
 * story_image.h, and has no offset. */
enum {
    STORY_IMAGE_SLEEPER_INK_VERSION,
    STORY_IMAGE_SLEEPER_NODES_COUNT,
    STORY_IMAGE_SLEEPER_CHILDREN_COUNT,
    STORY_IMAGE_SLEEPER_NAMED_COUNT,
    STORY_IMAGE_SLEEPER_DEFINITIONS_COUNT,
    STORY_IMAGE_SLEEPER_ITEMS_COUNT,
    STORY_IMAGE_SLEEPER_INDEX_COUNT,
    STORY_IMAGE_SLEEPER_PAYLOAD_COUNT,
    STORY_IMAGE_SLEEPER_VIEW_WORDS
};

/* Words of a node's view. Absent: NONE. What a kind lacks is NONE in the target and 0 elsewhere. */
enum {
    STORY_IMAGE_SLEEPER_NODE_PARENT,       /* NONE for the root alone */
    STORY_IMAGE_SLEEPER_NODE_PLACE,        /* its index among the parent's ordered children; of a container that is only
                                              a named child it says nothing */
    STORY_IMAGE_SLEEPER_NODE_KIND,         /* STORY_IMAGE_KIND_..; of a note STORY_IMAGE_KIND_VOID */
    STORY_IMAGE_SLEEPER_NODE_HAS_TEXT,     /* 1 if there is a name (container, pointer, assignment, reference), path
                                              (divert, divert target) or text (tag, string); a list has none */
    STORY_IMAGE_SLEEPER_NODE_HAS_VARIABLE, /* 1 if a variable holds the target of a divert */
    STORY_IMAGE_SLEEPER_NODE_TARGET,       /* of a choice, a divert; of a reference, the container whose read count it
                                              is */
    STORY_IMAGE_SLEEPER_NODE_VALUE,        /* STORY_IMAGE_COMMAND_.. or STORY_IMAGE_OPERATOR_..; 0 or 1 of a bool; the
                                              32 bits of an int or a float; number of arguments of a divert; context of
                                              a pointer */
    STORY_IMAGE_SLEEPER_NODE_FLAGS,        /* of a container, choice, divert, assignment: the word */
    STORY_IMAGE_SLEEPER_NODE_WORDS
};

/* Words of the other answers. */
enum { /* a count, a node, a value */
    STORY_IMAGE_SLEEPER_COUNT_WORDS = 1,
    STORY_IMAGE_SLEEPER_FOUND_WORDS = 1,
    STORY_IMAGE_SLEEPER_VALUE_WORDS = 1
};
enum { /* story_image_sleeper_list_entry */
    STORY_IMAGE_SLEEPER_LIST_ENTRY_HAS_ORIGIN,
    STORY_IMAGE_SLEEPER_LIST_ENTRY_VALUE,
    STORY_IMAGE_SLEEPER_LIST_ENTRY_WORDS
};
enum { /* story_image_sleeper_find_list_item */
    STORY_IMAGE_SLEEPER_LIST_ITEM_DEFINITION,
    STORY_IMAGE_SLEEPER_LIST_ITEM_ITEM,
    STORY_IMAGE_SLEEPER_LIST_ITEM_VALUE,
    STORY_IMAGE_SLEEPER_LIST_ITEM_WORDS
};

/* Which text, by a kind and two numbers, a and b; b is not looked at where it is not named. */
enum {
    STORY_IMAGE_SLEEPER_TEXT_OF_NODE,            /* a: node; its name, path or text */
    STORY_IMAGE_SLEEPER_TEXT_OF_VARIABLE,        /* a: node, a divert; the variable that holds its target */
    STORY_IMAGE_SLEEPER_TEXT_OF_NAMED_CHILD,     /* a: node, a container; b: index among its named children */
    STORY_IMAGE_SLEEPER_TEXT_OF_DEFINITION,      /* a: definition */
    STORY_IMAGE_SLEEPER_TEXT_OF_DEFINITION_ITEM, /* a: definition; b: index among its items */
    STORY_IMAGE_SLEEPER_TEXT_OF_ITEM,            /* a: number among the items of all definitions */
    STORY_IMAGE_SLEEPER_TEXT_OF_ENTRY_NAME,      /* a: node, a list value; b: index among its items */
    STORY_IMAGE_SLEEPER_TEXT_OF_ENTRY_ORIGIN,    /* the same; the origin of the item, if it has one */
    STORY_IMAGE_SLEEPER_TEXT_OF_ORIGIN,          /* a: node, a list value; b: index among its origins */
    STORY_IMAGE_SLEEPER_TEXT_KINDS
};

/* Work words that suffice to load the bytes, whatever they are: nodes + children + named entries + 1. Never more than
 * length / 4, whatever the header says; 0 where a load refuses the header (1 to 5), and so needs none. */
size_t story_image_sleeper_load_words(const uint8_t *bytes, size_t length);

/* Tests the whole image, by the rules of story_image_load. 0, and the view's STORY_IMAGE_SLEEPER_VIEW_WORDS words. Or 1
 * to 17, and the view stays as it was. With story_image_sleeper_load_words(bytes) work words, and also with length / 4,
 * 7 is not given. Numbers 1 to 7 leave all work words as they were, else as many as are needed are 0 on return; words
 * past them always stay. A view of fewer words counts as a lack of work words: 7, after rows 1 to 6. */
uint32_t story_image_sleeper_load(const uint8_t *bytes, size_t length, uint32_t *work, size_t work_length,
                                  uint32_t *view, size_t view_length);

/* Queries. Each returns 0 and writes its words at the start of the answer, or returns 18 and leaves the answer as it
 * was; words past those that are written always stay. story_image_sleeper_text, which copies a text, returns 0, 18 or
 * 23. The view is lent as the words that story_image_sleeper_load wrote. A view of fewer than
 * STORY_IMAGE_SLEEPER_VIEW_WORDS words, or an answer too short for the query's words, gives 18, as 'no such node' does.
 * Any bytes and any view may be asked: sections lie one behind the other from the end of the header, by the view's
 * counts, and the strings are what is left of the bytes; where the sections do not fit into the bytes, each counts as
 * empty. On accepted bytes, under the view that their load wrote, a node below the node count has a view, texts are
 * there and UTF-8, and targets are below the node count. A signed value is handed over as its 32 bits: (int32_t)word.
 * A float's bits are copied into one with memcpy. */

/* STORY_IMAGE_SLEEPER_NODE_WORDS words: the view of a node. Or 18: no such node. */
uint32_t story_image_sleeper_node_view(const uint8_t *bytes, size_t length, const uint32_t *view, size_t view_length,
                                       uint32_t node, uint32_t *answer, size_t answer_length);

/* Copies a text, by its kind, STORY_IMAGE_SLEEPER_TEXT_.., and the numbers a and b, to the start of `text`, and writes
 * its length in bytes as the first word of `size`; no byte 0 is put behind a text. Or 18: no such text, a note's among
 * them, or no such kind. Or 23, tested after 18: text or size is too short. But for 0 both stay as they were. */
uint32_t story_image_sleeper_text(const uint8_t *bytes, size_t length, const uint32_t *view, size_t view_length,
                                  uint32_t kind, uint32_t a, uint32_t b, uint8_t *text, size_t text_length,
                                  uint32_t *size, size_t size_length);

/* STORY_IMAGE_SLEEPER_COUNT_WORDS words: the length of a text in bytes, 0 of an empty one. Or 18: no such text, or no
 * such kind. */
uint32_t story_image_sleeper_text_length(const uint8_t *bytes, size_t length, const uint32_t *view, size_t view_length,
                                         uint32_t kind, uint32_t a, uint32_t b, uint32_t *answer, size_t answer_length);

/* STORY_IMAGE_SLEEPER_COUNT_WORDS words: the depth of a node, exactly the number of parent steps from it to node 0. Or
 * 18: no such node. On accepted bytes every node below the node count has a depth, smaller than the node count. On
 * other bytes 18 also where parents lead outside or in a circle. */
uint32_t story_image_sleeper_depth(const uint8_t *bytes, size_t length, const uint32_t *view, size_t view_length,
                                   uint32_t node, uint32_t *answer, size_t answer_length);

/* STORY_IMAGE_SLEEPER_COUNT_WORDS words: how many ordered, how many named children a container has, notes counted. Or
 * 18: no container. */
uint32_t story_image_sleeper_child_count(const uint8_t *bytes, size_t length, const uint32_t *view, size_t view_length,
                                         uint32_t node, uint32_t *answer, size_t answer_length);
uint32_t story_image_sleeper_named_child_count(const uint8_t *bytes, size_t length, const uint32_t *view,
                                               size_t view_length, uint32_t node, uint32_t *answer,
                                               size_t answer_length);

/* STORY_IMAGE_SLEEPER_FOUND_WORDS words: an ordered child of a container, its node; a named child of a container, its
 * node. The name of a named child is a text, and need not be the name that its node has. Or 18: no container, or no
 * such child. */
uint32_t story_image_sleeper_child_at(const uint8_t *bytes, size_t length, const uint32_t *view, size_t view_length,
                                      uint32_t node, uint32_t index, uint32_t *answer, size_t answer_length);
uint32_t story_image_sleeper_named_child_at(const uint8_t *bytes, size_t length, const uint32_t *view,
                                            size_t view_length, uint32_t node, uint32_t index, uint32_t *answer,
                                            size_t answer_length);

/* STORY_IMAGE_SLEEPER_FOUND_WORDS words: the named child of a container that bears the name, its node. The name is
 * compared byte by byte. Or 18: no container, or no such name. */
uint32_t story_image_sleeper_find_named_child(const uint8_t *bytes, size_t length, const uint32_t *view,
                                              size_t view_length, uint32_t node, const uint8_t *name,
                                              size_t name_length, uint32_t *answer, size_t answer_length);

/* STORY_IMAGE_SLEEPER_COUNT_WORDS words: how many items, how many origins the list value has that a node is. Or 18: no
 * list value. */
uint32_t story_image_sleeper_list_item_count(const uint8_t *bytes, size_t length, const uint32_t *view,
                                             size_t view_length, uint32_t node, uint32_t *answer,
                                             size_t answer_length);
uint32_t story_image_sleeper_list_origin_count(const uint8_t *bytes, size_t length, const uint32_t *view,
                                               size_t view_length, uint32_t node, uint32_t *answer,
                                               size_t answer_length);

/* STORY_IMAGE_SLEEPER_LIST_ENTRY_WORDS words: of item `index` of a list value whether it has an origin, and its value.
 * Name and origin are texts. Or 18: no list value, or no such item. */
uint32_t story_image_sleeper_list_entry(const uint8_t *bytes, size_t length, const uint32_t *view, size_t view_length,
                                        uint32_t node, uint32_t index, uint32_t *answer, size_t answer_length);

/* STORY_IMAGE_SLEEPER_COUNT_WORDS words: how many list definitions there are. On accepted bytes never 18; on others,
 * where a word cannot say how many. */
uint32_t story_image_sleeper_definition_count(const uint8_t *bytes, size_t length, const uint32_t *view,
                                              size_t view_length, uint32_t *answer, size_t answer_length);

/* STORY_IMAGE_SLEEPER_COUNT_WORDS words: how many items a list definition has; the number, among the items of all
 * definitions, of its first item. What story_image_sleeper_find_list_item gives, less this, is the item's index in its
 * definition. The name is a text. Or 18: no such definition. */
uint32_t story_image_sleeper_definition(const uint8_t *bytes, size_t length, const uint32_t *view, size_t view_length,
                                        uint32_t index, uint32_t *answer, size_t answer_length);
uint32_t story_image_sleeper_definition_first_item(const uint8_t *bytes, size_t length, const uint32_t *view,
                                                   size_t view_length, uint32_t index, uint32_t *answer,
                                                   size_t answer_length);

/* STORY_IMAGE_SLEEPER_VALUE_WORDS words: the value of an item of a definition, counted from the definition's first. The
 * name is a text. Or 18: no such definition, or no such item. */
uint32_t story_image_sleeper_definition_item(const uint8_t *bytes, size_t length, const uint32_t *view,
                                             size_t view_length, uint32_t index, uint32_t item, uint32_t *answer,
                                             size_t answer_length);

/* STORY_IMAGE_SLEEPER_LIST_ITEM_WORDS words: the list item that a name means. What stands before the first dot is the
 * definition's name; without a dot the last definition that has the item answers. Or 18: no such item, or a name that
 * is empty or White_Space alone. The number of the item is among the items of all definitions.
 * STORY_IMAGE_SLEEPER_COUNT_WORDS words of `searched`: how many definitions' items were searched, with 18 too, also
 * where the answer is too short, as story_image_find_list_item counts them. Where no word is lent no count is written.
 * Under a view of too few words 18, and neither answer nor count is written. */
uint32_t story_image_sleeper_find_list_item(const uint8_t *bytes, size_t length, const uint32_t *view,
                                            size_t view_length, const uint8_t *name, size_t name_length,
                                            uint32_t *answer, size_t answer_length, uint32_t *searched,
                                            size_t searched_length);

/* STORY_IMAGE_SLEEPER_FOUND_WORDS words: the node at the end of a path of STORY_IMAGE_STEP_WORDS words a component. Not
 * relative: the walk starts at the root, and `origin` is not looked at. Relative: the walk starts at `origin` if that
 * is a container. From any other node it starts at that node's parent, and the first component is skipped without
 * being read: a relative path of such a node begins with the step up to its parent. Then each component leads on: to
 * the parent, to the ordered child at an index, to the named child that bears a name. Or 18: a step leads nowhere, an
 * unknown kind, a name outside the lent names, or one or two words left over at the end. */
uint32_t story_image_sleeper_resolve_path(const uint8_t *bytes, size_t length, const uint32_t *view, size_t view_length,
                                          uint32_t origin, bool relative, const uint32_t *path, size_t path_length,
                                          const uint8_t *names, size_t names_length, uint32_t *answer,
                                          size_t answer_length);

/* ---- The same calls over a struct
 *
 * story_image_sleeper_X_in(image, ..) is story_image_sleeper_X with the image's bytes and view in front and, where it
 * has an answer, as many words for it as it needs: the answer is lent by its pointer alone. Numbers, answers and what a
 * refusal leaves are those of the function that is called. All of them are defined here, in C; the library exports
 * none, and no function that it exports ends in _in or begins with story_image_sleeper_lent_.
 *
 * The struct is all zero at first, `= {0}` in C and `{}` in C++, and then its fields are set. Later versions may add
 * fields, whose 0 means what is done without them. The pointer of a slice of length 0 may be null in the struct and in
 * these calls. */

/* An image, lent. A load sets its view; under a view of zeros there is no node. */
struct story_image_sleeper {
    const uint8_t *bytes;
    size_t length;
    uint32_t view[STORY_IMAGE_SLEEPER_VIEW_WORDS];
};

/* For the calls below alone: a pointer that is not null for a slice of length 0, and what is lent of a struct. */
static inline const uint8_t *story_image_sleeper_lent_bytes(const uint8_t *bytes, size_t length) {
    static const uint8_t none[1] = {0};
    return length == 0 ? none : bytes;
}
static inline const uint32_t *story_image_sleeper_lent_words(const uint32_t *words, size_t length) {
    static const uint32_t none[1] = {0};
    return length == 0 ? none : words;
}

#define STORY_IMAGE_SLEEPER_LENT_IMAGE \
    story_image_sleeper_lent_bytes(image->bytes, image->length), image->length, image->view, \
    STORY_IMAGE_SLEEPER_VIEW_WORDS

static inline size_t story_image_sleeper_load_words_in(const struct story_image_sleeper *image) {
    return story_image_sleeper_load_words(story_image_sleeper_lent_bytes(image->bytes, image->length), image->length);
}

/* The view is the image's own: where nothing is refused it is set, else it stays. */
static inline uint32_t story_image_sleeper_load_in(struct story_image_sleeper *image, uint32_t *work,
                                                   size_t work_length) {
    uint32_t none[1] = {0};
    return story_image_sleeper_load(story_image_sleeper_lent_bytes(image->bytes, image->length), image->length,
                                    work_length == 0 ? none : work, work_length, image->view,
                                    STORY_IMAGE_SLEEPER_VIEW_WORDS);
}

static inline uint32_t story_image_sleeper_node_view_in(const struct story_image_sleeper *image, uint32_t node,
                                                        uint32_t answer[STORY_IMAGE_SLEEPER_NODE_WORDS]) {
    return story_image_sleeper_node_view(STORY_IMAGE_SLEEPER_LENT_IMAGE, node, answer, STORY_IMAGE_SLEEPER_NODE_WORDS);
}

/* One word is written for the length. */
static inline uint32_t story_image_sleeper_text_in(const struct story_image_sleeper *image, uint32_t kind, uint32_t a,
                                                   uint32_t b, uint8_t *text, size_t text_length,
                                                   uint32_t size[STORY_IMAGE_SLEEPER_COUNT_WORDS]) {
    uint8_t none[1] = {0};
    return story_image_sleeper_text(STORY_IMAGE_SLEEPER_LENT_IMAGE, kind, a, b, text_length == 0 ? none : text,
                                    text_length, size, STORY_IMAGE_SLEEPER_COUNT_WORDS);
}

static inline uint32_t story_image_sleeper_text_length_in(const struct story_image_sleeper *image, uint32_t kind,
                                                          uint32_t a, uint32_t b,
                                                          uint32_t answer[STORY_IMAGE_SLEEPER_COUNT_WORDS]) {
    return story_image_sleeper_text_length(STORY_IMAGE_SLEEPER_LENT_IMAGE, kind, a, b, answer,
                                           STORY_IMAGE_SLEEPER_COUNT_WORDS);
}

static inline uint32_t story_image_sleeper_depth_in(const struct story_image_sleeper *image, uint32_t node,
                                                    uint32_t answer[STORY_IMAGE_SLEEPER_COUNT_WORDS]) {
    return story_image_sleeper_depth(STORY_IMAGE_SLEEPER_LENT_IMAGE, node, answer, STORY_IMAGE_SLEEPER_COUNT_WORDS);
}

static inline uint32_t story_image_sleeper_child_count_in(const struct story_image_sleeper *image, uint32_t node,
                                                          uint32_t answer[STORY_IMAGE_SLEEPER_COUNT_WORDS]) {
    return story_image_sleeper_child_count(STORY_IMAGE_SLEEPER_LENT_IMAGE, node, answer,
                                           STORY_IMAGE_SLEEPER_COUNT_WORDS);
}

static inline uint32_t story_image_sleeper_named_child_count_in(const struct story_image_sleeper *image, uint32_t node,
                                                                uint32_t answer[STORY_IMAGE_SLEEPER_COUNT_WORDS]) {
    return story_image_sleeper_named_child_count(STORY_IMAGE_SLEEPER_LENT_IMAGE, node, answer,
                                                 STORY_IMAGE_SLEEPER_COUNT_WORDS);
}

static inline uint32_t story_image_sleeper_child_at_in(const struct story_image_sleeper *image, uint32_t node,
                                                       uint32_t index,
                                                       uint32_t answer[STORY_IMAGE_SLEEPER_FOUND_WORDS]) {
    return story_image_sleeper_child_at(STORY_IMAGE_SLEEPER_LENT_IMAGE, node, index, answer,
                                        STORY_IMAGE_SLEEPER_FOUND_WORDS);
}

static inline uint32_t story_image_sleeper_named_child_at_in(const struct story_image_sleeper *image, uint32_t node,
                                                             uint32_t index,
                                                             uint32_t answer[STORY_IMAGE_SLEEPER_FOUND_WORDS]) {
    return story_image_sleeper_named_child_at(STORY_IMAGE_SLEEPER_LENT_IMAGE, node, index, answer,
                                              STORY_IMAGE_SLEEPER_FOUND_WORDS);
}

static inline uint32_t story_image_sleeper_find_named_child_in(const struct story_image_sleeper *image, uint32_t node,
                                                               const uint8_t *name, size_t name_length,
                                                               uint32_t answer[STORY_IMAGE_SLEEPER_FOUND_WORDS]) {
    return story_image_sleeper_find_named_child(STORY_IMAGE_SLEEPER_LENT_IMAGE, node,
                                                story_image_sleeper_lent_bytes(name, name_length), name_length, answer,
                                                STORY_IMAGE_SLEEPER_FOUND_WORDS);
}

static inline uint32_t story_image_sleeper_list_item_count_in(const struct story_image_sleeper *image, uint32_t node,
                                                              uint32_t answer[STORY_IMAGE_SLEEPER_COUNT_WORDS]) {
    return story_image_sleeper_list_item_count(STORY_IMAGE_SLEEPER_LENT_IMAGE, node, answer,
                                               STORY_IMAGE_SLEEPER_COUNT_WORDS);
}

static inline uint32_t story_image_sleeper_list_origin_count_in(const struct story_image_sleeper *image, uint32_t node,
                                                                uint32_t answer[STORY_IMAGE_SLEEPER_COUNT_WORDS]) {
    return story_image_sleeper_list_origin_count(STORY_IMAGE_SLEEPER_LENT_IMAGE, node, answer,
                                                 STORY_IMAGE_SLEEPER_COUNT_WORDS);
}

static inline uint32_t story_image_sleeper_list_entry_in(const struct story_image_sleeper *image, uint32_t node,
                                                         uint32_t index,
                                                         uint32_t answer[STORY_IMAGE_SLEEPER_LIST_ENTRY_WORDS]) {
    return story_image_sleeper_list_entry(STORY_IMAGE_SLEEPER_LENT_IMAGE, node, index, answer,
                                          STORY_IMAGE_SLEEPER_LIST_ENTRY_WORDS);
}

static inline uint32_t story_image_sleeper_definition_count_in(const struct story_image_sleeper *image,
                                                               uint32_t answer[STORY_IMAGE_SLEEPER_COUNT_WORDS]) {
    return story_image_sleeper_definition_count(STORY_IMAGE_SLEEPER_LENT_IMAGE, answer,
                                                STORY_IMAGE_SLEEPER_COUNT_WORDS);
}

static inline uint32_t story_image_sleeper_definition_in(const struct story_image_sleeper *image, uint32_t index,
                                                         uint32_t answer[STORY_IMAGE_SLEEPER_COUNT_WORDS]) {
    return story_image_sleeper_definition(STORY_IMAGE_SLEEPER_LENT_IMAGE, index, answer,
                                          STORY_IMAGE_SLEEPER_COUNT_WORDS);
}

static inline uint32_t story_image_sleeper_definition_first_item_in(const struct story_image_sleeper *image,
                                                                    uint32_t index,
                                                                    uint32_t answer[STORY_IMAGE_SLEEPER_COUNT_WORDS]) {
    return story_image_sleeper_definition_first_item(STORY_IMAGE_SLEEPER_LENT_IMAGE, index, answer,
                                                     STORY_IMAGE_SLEEPER_COUNT_WORDS);
}

static inline uint32_t story_image_sleeper_definition_item_in(const struct story_image_sleeper *image, uint32_t index,
                                                              uint32_t item,
                                                              uint32_t answer[STORY_IMAGE_SLEEPER_VALUE_WORDS]) {
    return story_image_sleeper_definition_item(STORY_IMAGE_SLEEPER_LENT_IMAGE, index, item, answer,
                                               STORY_IMAGE_SLEEPER_VALUE_WORDS);
}

/* Without a count where `searched` is null. */
static inline uint32_t story_image_sleeper_find_list_item_in(const struct story_image_sleeper *image,
                                                             const uint8_t *name, size_t name_length,
                                                             uint32_t answer[STORY_IMAGE_SLEEPER_LIST_ITEM_WORDS],
                                                             uint32_t searched[STORY_IMAGE_SLEEPER_COUNT_WORDS]) {
    uint32_t none[1] = {0};
    return story_image_sleeper_find_list_item(STORY_IMAGE_SLEEPER_LENT_IMAGE,
                                              story_image_sleeper_lent_bytes(name, name_length), name_length, answer,
                                              STORY_IMAGE_SLEEPER_LIST_ITEM_WORDS, searched ? searched : none,
                                              searched ? STORY_IMAGE_SLEEPER_COUNT_WORDS : 0);
}

static inline uint32_t story_image_sleeper_resolve_path_in(const struct story_image_sleeper *image, uint32_t origin,
                                                           bool relative, const uint32_t *path, size_t path_length,
                                                           const uint8_t *names, size_t names_length,
                                                           uint32_t answer[STORY_IMAGE_SLEEPER_FOUND_WORDS]) {
    return story_image_sleeper_resolve_path(STORY_IMAGE_SLEEPER_LENT_IMAGE, origin, relative,
                                            story_image_sleeper_lent_words(path, path_length), path_length,
                                            story_image_sleeper_lent_bytes(names, names_length), names_length, answer,
                                            STORY_IMAGE_SLEEPER_FOUND_WORDS);
}

#undef STORY_IMAGE_SLEEPER_LENT_IMAGE

#ifdef __cplusplus
}
#endif

#endif
