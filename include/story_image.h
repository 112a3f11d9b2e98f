/* Story images: loading, reading and writing. docs/FORMAT.md has the format whole; this file and story_image_numbers.h,
 * which it includes, are enough to call the library. This is the technician's reader, which sees every node as it is;
 * the sleeper's, which does not see notes to the technician, is a library of its own: sleeper_image.h.
 *
 * A slice is lent as pointer and length (a count of elements, not of bytes). It must not be written by others during
 * the call; its pointer is not null, also where the length is 0, and is aligned for its type. Slices that are written
 * (work, view, answer, searched, slots, counts, output, written; the nodes of a draft where targets are set) overlap
 * nothing else. That is all that is asked of a caller: every function takes any bytes, any words and any numbers, and
 * ends. No function allocates, keeps what it was lent, has state, or changes a byte of an image; calls from several
 * threads at once are fine. The tables of the checksum take about 5 KB of stack in a load and in a write.
 *
 * In short:
 *
 *     struct story_image image = {0}; // in C++ {}
 *     uint32_t node[STORY_IMAGE_NODE_WORDS], part[STORY_IMAGE_TEXT_WORDS];
 *     image.bytes = bytes;
 *     image.length = length;
 *     size_t words = story_image_load_words_in(&image); // at most length / 4
 *     uint32_t *work = malloc(4 * words + 4);
 *     uint32_t number = story_image_load_in(&image, work, words);
 *     if (number != STORY_IMAGE_OK) return refused(number);
 *     for (uint32_t n = 0; n < image.view[STORY_IMAGE_NODES_COUNT]; n++) {
 *         story_image_node_view_in(&image, n, node);
 *         if (node[STORY_IMAGE_NODE_KIND] == STORY_IMAGE_KIND_STRING) {
 *             story_image_text_in(&image, node[STORY_IMAGE_NODE_TEXT], node[STORY_IMAGE_NODE_TEXT_LENGTH], part);
 *             fwrite(bytes + part[STORY_IMAGE_TEXT_START], 1, part[STORY_IMAGE_TEXT_LENGTH], stdout);
 *         }
 *     }
 *
 * The functions of the library lend each slice by itself. At the end of this file stand calls over three structs, an
 * image, a draft and the paths beside it; they are the same functions with fewer arguments.
 */
#ifndef STORY_IMAGE_H
#define STORY_IMAGE_H

#include <stddef.h>
#include <stdint.h>
#ifndef __cplusplus
#include <stdbool.h>
#endif

#include "story_image_numbers.h"

#if SIZE_MAX < UINT64_MAX
#error "the library is built for 64-bit machines"
#endif

#ifdef __cplusplus
extern "C" {
#endif

/* Words of a view: the ink version, then offset and count of each section. An offset counts from the image's first
 * byte; a count is of entries, of bytes for payload and strings. */
enum {
    STORY_IMAGE_INK_VERSION,
    STORY_IMAGE_NODES,
    STORY_IMAGE_NODES_COUNT,
    STORY_IMAGE_CHILDREN,
    STORY_IMAGE_CHILDREN_COUNT,
    STORY_IMAGE_NAMED,
    STORY_IMAGE_NAMED_COUNT,
    STORY_IMAGE_DEFINITIONS,
    STORY_IMAGE_DEFINITIONS_COUNT,
    STORY_IMAGE_ITEMS,
    STORY_IMAGE_ITEMS_COUNT,
    STORY_IMAGE_INDEX,
    STORY_IMAGE_INDEX_COUNT,
    STORY_IMAGE_PAYLOAD,
    STORY_IMAGE_PAYLOAD_COUNT,
    STORY_IMAGE_STRINGS,
    STORY_IMAGE_STRINGS_COUNT,
    STORY_IMAGE_VIEW_WORDS
};

/* Words of a node's view. Absent: NONE. What a kind lacks is NONE in texts and target, 0 in value and flags. */
enum {
    STORY_IMAGE_NODE_PARENT,          /* NONE for the root alone */
    STORY_IMAGE_NODE_PLACE,           /* its index among the parent's ordered children; of a container that is only a
                                         named child it says nothing */
    STORY_IMAGE_NODE_KIND,            /* STORY_IMAGE_KIND_.. */
    STORY_IMAGE_NODE_TEXT,            /* offset in the strings of the name (container, pointer, assignment, reference),
                                         path (divert, divert target) or text (tag, string). Of a list, its offset in
                                         the payload, not in the strings */
    STORY_IMAGE_NODE_TEXT_LENGTH,     /* its length in bytes; of a list, that of its part of the payload */
    STORY_IMAGE_NODE_VARIABLE,        /* of a divert: the variable that holds its target */
    STORY_IMAGE_NODE_VARIABLE_LENGTH,
    STORY_IMAGE_NODE_TARGET,          /* of a choice, a divert; of a reference, the container whose read count it is */
    STORY_IMAGE_NODE_VALUE,           /* STORY_IMAGE_COMMAND_.. or STORY_IMAGE_OPERATOR_..; 0 or 1 of a bool; the 32
                                         bits of an int or a float; number of arguments of a divert; context of a
                                         pointer */
    STORY_IMAGE_NODE_FLAGS,           /* of a container, choice, divert, assignment: the word */
    STORY_IMAGE_NODE_WORDS
};

/* Words of a page's slot: a node as the image holds it, then two zeros. docs/FORMAT.md has the fields of each kind;
 * what they mean, story_image_slot_view tells. */
enum {
    STORY_IMAGE_SLOT_PARENT,
    STORY_IMAGE_SLOT_PLACE,
    STORY_IMAGE_SLOT_KIND,            /* STORY_IMAGE_KIND_..; 0, which is none, for a number without a view */
    STORY_IMAGE_SLOT_F0,
    STORY_IMAGE_SLOT_F1,
    STORY_IMAGE_SLOT_F2,
    STORY_IMAGE_SLOT_F3,
    STORY_IMAGE_SLOT_F4,
    STORY_IMAGE_SLOT_F5,
    STORY_IMAGE_SLOT_F6,
    STORY_IMAGE_SLOT_WORDS = 12
};

/* Words of the other answers. */
enum { /* story_image_text: where a text lies in the image's bytes */
    STORY_IMAGE_TEXT_START,
    STORY_IMAGE_TEXT_LENGTH,
    STORY_IMAGE_TEXT_WORDS
};
enum { /* a count, a node */
    STORY_IMAGE_COUNT_WORDS = 1,
    STORY_IMAGE_FOUND_WORDS = 1
};
enum { /* story_image_named_child_at */
    STORY_IMAGE_NAMED_CHILD_NAME,
    STORY_IMAGE_NAMED_CHILD_NAME_LENGTH,
    STORY_IMAGE_NAMED_CHILD_NODE,
    STORY_IMAGE_NAMED_CHILD_WORDS
};
enum { /* story_image_list_entry */
    STORY_IMAGE_LIST_ENTRY_ORIGIN,
    STORY_IMAGE_LIST_ENTRY_ORIGIN_LENGTH,
    STORY_IMAGE_LIST_ENTRY_NAME,
    STORY_IMAGE_LIST_ENTRY_NAME_LENGTH,
    STORY_IMAGE_LIST_ENTRY_VALUE,
    STORY_IMAGE_LIST_ENTRY_WORDS
};
enum { /* story_image_list_origin */
    STORY_IMAGE_LIST_ORIGIN_TEXT,
    STORY_IMAGE_LIST_ORIGIN_TEXT_LENGTH,
    STORY_IMAGE_LIST_ORIGIN_WORDS
};
enum { /* story_image_list_payload: where the payload of a list value lies in the image's bytes */
    STORY_IMAGE_LIST_PAYLOAD_START,
    STORY_IMAGE_LIST_PAYLOAD_LENGTH,
    STORY_IMAGE_LIST_PAYLOAD_WORDS
};
enum { /* story_image_list_counts */
    STORY_IMAGE_LIST_COUNTS_ITEMS,
    STORY_IMAGE_LIST_COUNTS_ORIGINS,
    STORY_IMAGE_LIST_COUNTS_WORDS
};
enum { /* story_image_definition */
    STORY_IMAGE_DEFINITION_NAME,
    STORY_IMAGE_DEFINITION_NAME_LENGTH,
    STORY_IMAGE_DEFINITION_ITEMS,
    STORY_IMAGE_DEFINITION_WORDS
};
enum { /* story_image_definition_item */
    STORY_IMAGE_DEFINITION_ITEM_NAME,
    STORY_IMAGE_DEFINITION_ITEM_NAME_LENGTH,
    STORY_IMAGE_DEFINITION_ITEM_VALUE,
    STORY_IMAGE_DEFINITION_ITEM_WORDS
};
enum { /* story_image_find_list_item */
    STORY_IMAGE_LIST_ITEM_DEFINITION,
    STORY_IMAGE_LIST_ITEM_ITEM,
    STORY_IMAGE_LIST_ITEM_VALUE,
    STORY_IMAGE_LIST_ITEM_WORDS
};

/* The longest text of a command or an operator, in bytes. */
#define STORY_IMAGE_NAME_BYTES 11

/* Words of a draft's entries: of a node, a named entry, a definition, an item. A child is one word. */
enum {
    STORY_IMAGE_DRAFT_NODE_WORDS = 10, /* parent, place, kind, f0 to f6: docs/FORMAT.md has the fields of each kind */
    STORY_IMAGE_DRAFT_NAMED_WORDS = 3, /* offset and length of the name, node */
    STORY_IMAGE_DRAFT_DEFINITION_WORDS = 4, /* offset and length of the name, first item, number of items */
    STORY_IMAGE_DRAFT_ITEM_WORDS = 3   /* offset and length of the name, value */
};

/* Words of a path beside a draft. */
enum {
    STORY_IMAGE_PATH_NODE,            /* whose path it is */
    STORY_IMAGE_PATH_RELATIVE,        /* 0 absolute, 1 relative */
    STORY_IMAGE_PATH_FIRST,           /* its first component */
    STORY_IMAGE_PATH_COUNT,           /* how many components it has */
    STORY_IMAGE_PATH_WORDS
};

/* How many work words are needed is said at each call; those that are needed are zero on return, or as they were.
 * Words past them, and words of an answer, a count, a view or an output past what is written, always stay as they
 * were. */

/* Work words that suffice to load the bytes, whatever they are: nodes + children + named entries + 1. Never more than
 * length / 4, whatever the header says; 0 where a load refuses the header (1 to 5), and so needs none. */
size_t story_image_load_words(const uint8_t *bytes, size_t length);

/* Tests the whole image. 0, and the view's STORY_IMAGE_VIEW_WORDS words. Or 1 to 17, and the view stays as it was.
 * With story_image_load_words(bytes) work words, and also with length / 4, 7 is not given. Numbers 1 to 7 leave all
 * work words as they were, else as many as are needed are 0 on return. A view of fewer words counts as a lack of work
 * words: 7, after rows 1 to 6. */
uint32_t story_image_load(const uint8_t *bytes, size_t length, uint32_t *work, size_t work_length, uint32_t *view,
                          size_t view_length);

/* Queries. Each returns 0 and writes its words at the start of the answer, or returns 18 and leaves the answer as it
 * was; story_image_page, which has slots for its answer, returns 0, 18 or 24, and story_image_count_targets, which has
 * counts, 0, 18 or 27. The view is lent as the words that story_image_load wrote. A view of fewer than
 * STORY_IMAGE_VIEW_WORDS words, or an answer too short for the query's words, gives 18, as 'no such node' does:
 * story_image_view_whole tells the first apart, and how many words an answer has is fixed for each query. Any bytes and
 * any view may be asked: a section outside the bytes counts as empty, and an answer's parts lie inside the bytes. On
 * accepted bytes a node below the node count has a view, texts are there and UTF-8, targets are below the node count,
 * and the path index, section 5, has one entry for each container, its path. A text is an offset and a length in the
 * strings; story_image_text gives its place in the bytes. A signed value is handed over as its 32 bits: (int32_t)word.
 * A float's bits are copied into one with memcpy. */

/* Whether a view has at least STORY_IMAGE_VIEW_WORDS words. On accepted bytes, under the view that their load wrote,
 * and with an answer that holds the query's words, a query returns 18 only if there is nothing to answer. */
bool story_image_view_whole(const uint32_t *view, size_t view_length);

/* STORY_IMAGE_NODE_WORDS words: the view of a node. */
uint32_t story_image_node_view(const uint8_t *bytes, size_t length, const uint32_t *view, size_t view_length,
                               uint32_t node, uint32_t *answer, size_t answer_length);

/* Many nodes in one call: for each number, in their order, a slot of STORY_IMAGE_SLOT_WORDS words: parent, place, kind
 * and f0 to f6 as the image holds them, then 0 and 0. For a number without a view (story_image_node_view gives 18; on
 * accepted bytes one that is not below the node count) the slot is 18 and eleven zeros: its kind, 0, tells it from
 * every other, its first word does not, since a node's parent may be 18. Numbers may repeat. Returns 0; words after the
 * last slot stay as they were. 24 where slots_length is less than STORY_IMAGE_SLOT_WORDS a number, before any node is
 * looked at. 18, before all else, under a view that is too short. With 24 and 18 nothing is written. No numbers: 0. */
uint32_t story_image_page(const uint8_t *bytes, size_t length, const uint32_t *view, size_t view_length,
                          const uint32_t *numbers, size_t numbers_length, uint32_t *slots, size_t slots_length);

/* STORY_IMAGE_NODE_WORDS words: the view of a slot's words, the very one that story_image_node_view gives for the
 * slot's number; 18 where that gives 18. Words that are of no slot are taken as a node's too, on the image's strings
 * and payload; fewer than ten give 18, and those past the tenth are not looked at. */
uint32_t story_image_slot_view(const uint8_t *bytes, size_t length, const uint32_t *view, size_t view_length,
                               const uint32_t *slot, size_t slot_length, uint32_t *answer, size_t answer_length);

/* STORY_IMAGE_TEXT_WORDS words: of a text, its start and its length in the image's bytes, where it is present
 * (neither word NONE) and inside the strings. No byte 0 is put behind a text. */
uint32_t story_image_text(const uint8_t *bytes, size_t length, const uint32_t *view, size_t view_length,
                          uint32_t offset, uint32_t text_length, uint32_t *answer, size_t answer_length);

/* STORY_IMAGE_COUNT_WORDS words: the depth of a node, exactly the number of parent steps from it to node 0; node 0
 * itself has depth 0. 18 for a node outside, STORY_IMAGE_NONE among them. On accepted bytes every node below the node
 * count has a depth, smaller than the node count. On other bytes 18 also where parents lead outside or in a circle. The
 * call takes as many steps as it counts, never more than there are nodes. */
uint32_t story_image_depth(const uint8_t *bytes, size_t length, const uint32_t *view, size_t view_length, uint32_t node,
                           uint32_t *answer, size_t answer_length);

/* A word for each node, in number order: how many choices, diverts and divert-target values have it as their target,
 * and how many references name it for its read count. A target that is absent names no node; named entries and the path
 * index do not count. On accepted bytes the words add up to the number of targets that are present. Returns 0; words
 * past the nodes stay as they were. 27 where counts_length is less than the number of nodes, before any is counted. 18,
 * before all else, under a view that is too short. With 27 and 18 nothing is written. On other bytes a target that is
 * no node counts for nothing, and where the nodes lie outside the bytes there is none. The call goes over the nodes
 * once. */
uint32_t story_image_count_targets(const uint8_t *bytes, size_t length, const uint32_t *view, size_t view_length,
                                   uint32_t *counts, size_t counts_length);

/* STORY_IMAGE_COUNT_WORDS words: how many ordered, how many named children a container has. 18 for a node that is no
 * container. */
uint32_t story_image_child_count(const uint8_t *bytes, size_t length, const uint32_t *view, size_t view_length,
                                 uint32_t node, uint32_t *answer, size_t answer_length);
uint32_t story_image_named_child_count(const uint8_t *bytes, size_t length, const uint32_t *view, size_t view_length,
                                       uint32_t node, uint32_t *answer, size_t answer_length);

/* STORY_IMAGE_FOUND_WORDS words: an ordered child of a container, its node. */
uint32_t story_image_child_at(const uint8_t *bytes, size_t length, const uint32_t *view, size_t view_length,
                              uint32_t node, uint32_t index, uint32_t *answer, size_t answer_length);

/* STORY_IMAGE_NAMED_CHILD_WORDS words: a named child of a container. Its name here need not be the name in its own
 * view. */
uint32_t story_image_named_child_at(const uint8_t *bytes, size_t length, const uint32_t *view, size_t view_length,
                                    uint32_t node, uint32_t index, uint32_t *answer, size_t answer_length);

/* STORY_IMAGE_FOUND_WORDS words: the named child of a container that bears the name, its node. The name is compared
 * byte by byte. */
uint32_t story_image_find_named_child(const uint8_t *bytes, size_t length, const uint32_t *view, size_t view_length,
                                      uint32_t node, const uint8_t *name, size_t name_length, uint32_t *answer,
                                      size_t answer_length);

/* Of the list value that a node is; 18 for another node. Where its payload lies in the image's bytes; how many items
 * and origins it has; STORY_IMAGE_LIST_ENTRY_WORDS words: item `index`, the origin NONE, NONE if there is none;
 * STORY_IMAGE_LIST_ORIGIN_WORDS words: origin `index`. */
uint32_t story_image_list_payload(const uint8_t *bytes, size_t length, const uint32_t *view, size_t view_length,
                                  uint32_t node, uint32_t *answer, size_t answer_length);
uint32_t story_image_list_counts(const uint8_t *bytes, size_t length, const uint32_t *view, size_t view_length,
                                 uint32_t node, uint32_t *answer, size_t answer_length);
uint32_t story_image_node_list_entry(const uint8_t *bytes, size_t length, const uint32_t *view, size_t view_length,
                                     uint32_t node, uint32_t index, uint32_t *answer, size_t answer_length);
uint32_t story_image_node_list_origin(const uint8_t *bytes, size_t length, const uint32_t *view, size_t view_length,
                                      uint32_t node, uint32_t index, uint32_t *answer, size_t answer_length);

/* The same from the list value's payload (as story_image_list_payload gives it) and the whole strings section.
 * STORY_IMAGE_LIST_ENTRY_WORDS words: item `index`; the origin is NONE, NONE if there is none.
 * STORY_IMAGE_LIST_ORIGIN_WORDS words: origin `index`. */
uint32_t story_image_list_entry(const uint8_t *payload, size_t payload_length, const uint8_t *strings,
                                size_t strings_length, uint32_t index, uint32_t *answer, size_t answer_length);
uint32_t story_image_list_origin(const uint8_t *payload, size_t payload_length, const uint8_t *strings,
                                 size_t strings_length, uint32_t index, uint32_t *answer, size_t answer_length);

/* STORY_IMAGE_COUNT_WORDS words: how many list definitions there are. */
uint32_t story_image_definition_count(const uint8_t *bytes, size_t length, const uint32_t *view, size_t view_length,
                                      uint32_t *answer, size_t answer_length);

/* STORY_IMAGE_DEFINITION_WORDS words: a list definition. STORY_IMAGE_DEFINITION_ITEM_WORDS words: an item of a
 * definition, counted from the definition's first. */
uint32_t story_image_definition(const uint8_t *bytes, size_t length, const uint32_t *view, size_t view_length,
                                uint32_t index, uint32_t *answer, size_t answer_length);
uint32_t story_image_definition_item(const uint8_t *bytes, size_t length, const uint32_t *view, size_t view_length,
                                     uint32_t index, uint32_t item, uint32_t *answer, size_t answer_length);

/* STORY_IMAGE_COUNT_WORDS words: the number, among the items of all definitions, of a definition's first item. What
 * story_image_find_list_item gives, less this, is the item's index in its definition. */
uint32_t story_image_definition_first_item(const uint8_t *bytes, size_t length, const uint32_t *view,
                                           size_t view_length, uint32_t index, uint32_t *answer, size_t answer_length);

/* STORY_IMAGE_LIST_ITEM_WORDS words: the list item that a name means. What stands before the first dot is the
 * definition's name; without a dot the last definition that has the item answers. A name that is empty or White_Space
 * alone gives 18. The number of the item is among the items of all definitions, not among those of its own.
 * STORY_IMAGE_COUNT_WORDS words of `searched`: how many definitions' items were searched, with 18 too, also where the
 * answer is too short. Without a dot they are those from the last down to the one that answers, or all; with a dot 1 if
 * what stands before the first dot is the name of a definition, else 0; 0 for a name that is empty or White_Space
 * alone. A definition without items counts as searched. Where no word is lent no count is written. Under a view of too
 * few words 18, and neither answer nor count is written. */
uint32_t story_image_find_list_item(const uint8_t *bytes, size_t length, const uint32_t *view, size_t view_length,
                                    const uint8_t *name, size_t name_length, uint32_t *answer, size_t answer_length,
                                    uint32_t *searched, size_t searched_length);

/* STORY_IMAGE_FOUND_WORDS words: the node at the end of a path of STORY_IMAGE_STEP_WORDS words a component. Not
 * relative: the walk starts at the root, and `origin` is not looked at. Relative: the walk starts at `origin` if that
 * is a container. From any other node it starts at that node's parent, and the first component is skipped without
 * being read: a relative path of such a node begins with the step up to its parent. Then each component leads on: to
 * the parent (18 at the root), to the ordered child at an index, to the named child that bears a name. An unknown
 * kind, a name outside the lent names, or one or two words left over at the end give 18 when the walk comes to them. On
 * accepted bytes the node is below the node count. */
uint32_t story_image_resolve_path(const uint8_t *bytes, size_t length, const uint32_t *view, size_t view_length,
                                  uint32_t origin, bool relative, const uint32_t *path, size_t path_length,
                                  const uint8_t *names, size_t names_length, uint32_t *answer, size_t answer_length);

/* STORY_IMAGE_COUNT_WORDS words, of the bytes alone: the image's total length and the length of its string section, in
 * bytes, and its checksum, as the header has them. Or 18: fewer than STORY_IMAGE_HEADER_BYTES bytes, or no word for the
 * answer, which stays as it was. On accepted bytes they are the number of bytes, the count of the strings in the view,
 * and the CRC-32 of all bytes but the checksum's own. The sleeper's reader has none of these calls. */
uint32_t story_image_total_length(const uint8_t *bytes, size_t length, uint32_t *answer, size_t answer_length);
uint32_t story_image_strings_length(const uint8_t *bytes, size_t length, uint32_t *answer, size_t answer_length);
uint32_t story_image_checksum(const uint8_t *bytes, size_t length, uint32_t *answer, size_t answer_length);

/* The text of a command's, of an operator's number at the start of `text`, and its length as the first word of `size`;
 * STORY_IMAGE_NAME_BYTES bytes suffice, and no byte 0 is written behind it. 0; 18 for a number that is none; 23 where
 * text or size is too short. But for 0 both stay as they were. */
uint32_t story_image_command_name(uint32_t number, uint8_t *text, size_t text_length, uint32_t *size,
                                  size_t size_length);
uint32_t story_image_operator_name(uint32_t number, uint8_t *text, size_t text_length, uint32_t *size,
                                   size_t size_length);

/* Work words that suffice to write a draft: 16 a node, 4 for each child, named entry, definition, item and payload
 * byte; SIZE_MAX where that is less, and no slice has as many. */
size_t story_image_write_words(const uint32_t *nodes, size_t nodes_length, const uint32_t *children,
                               size_t children_length, const uint32_t *named, size_t named_length,
                               const uint32_t *definitions, size_t definitions_length, const uint32_t *items,
                               size_t items_length, const uint8_t *payload, size_t payload_length);

/* Writes the image of a draft at the start of the output: sections 0 to 4 as words (nodes, children, named entries,
 * definitions, items; lengths are counts of words), payload and strings as bytes; any numbering with root 0, texts
 * anywhere in the strings. Children, named entries and payloads lie in the order of the nodes that have them. 0, and
 * the image's length as the first of the written words. Or 3, 7, 19 to 23, and the output stays as it was. With 23 the
 * first of the written words is the length that the image needs, so a call with an output of length 0 asks for it; an
 * image of more than 4294967295 bytes and every other number leave the word as it was (0 before the call tells this
 * apart: no image is empty). Work words needed: story_image_write_words; numbers 3, 19 and 7 leave all work words as
 * they were, else as many as are needed are 0 on return. No word for the length counts as a lack of work words: 7,
 * after 3 and 19. */
uint32_t story_image_write(uint32_t ink_version, const uint32_t *nodes, size_t nodes_length, const uint32_t *children,
                           size_t children_length, const uint32_t *named, size_t named_length,
                           const uint32_t *definitions, size_t definitions_length, const uint32_t *items,
                           size_t items_length, const uint8_t *payload, size_t payload_length, const uint8_t *strings,
                           size_t strings_length, uint32_t *work, size_t work_length, uint8_t *output,
                           size_t output_length, uint32_t *written, size_t written_length);

/* Sets the targets of a draft that its paths give, in its node words. Nodes, children, named entries, definitions,
 * items, payload and strings are a draft's, as story_image_write takes them. Paths come beside it: `paths` has
 * STORY_IMAGE_PATH_WORDS words a path (node, 0 for an absolute path or 1 for a relative one, first component, number
 * of components), `components` STORY_IMAGE_STEP_WORDS words a component and `names` the bytes of names, as
 * story_image_resolve_path takes them. A path is followed if its node is a choice, a divert-target value, a reference,
 * or a divert that is neither external nor by variable; other nodes are passed over. The target word of a node that
 * follows a path may be any word. 0: each such node has the node at the end of its path as target, and its path text
 * is absent, but a divert-target value keeps its text; no other word changes. Or a number, and every word of the draft
 * stays: 3; 19, also for broken entries of `paths`, a node outside or twice, a flag above 1, components outside; 7;
 * 20; 21; then of the first node in number order that fails 25 (no node at its path) or 26 (no container, where a
 * choice, a reference, or a divert whose last component is no index needs one). Work words as for story_image_write:
 * numbers 3, 19 and 7 leave them, else as many as are needed are 0 on return. Following takes time by the components
 * of all paths, each path's counted. The tests go over the draft once; where the nodes of `paths` do not rise, 19 also
 * goes over `paths` twice for each 32,768 nodes, and has 4,096 bytes of the stack for it. */
uint32_t story_image_resolve_static_targets(uint32_t ink_version, uint32_t *nodes, size_t nodes_length,
                                            const uint32_t *children, size_t children_length, const uint32_t *named,
                                            size_t named_length, const uint32_t *definitions,
                                            size_t definitions_length, const uint32_t *items, size_t items_length,
                                            const uint8_t *payload, size_t payload_length, const uint8_t *strings,
                                            size_t strings_length, const uint32_t *paths, size_t paths_length,
                                            const uint32_t *components, size_t components_length,
                                            const uint8_t *names, size_t names_length, uint32_t *work,
                                            size_t work_length);

/* What story_image_count_targets counts, of a draft, whose slices are as story_image_write takes them: a word for each
 * of its nodes. Returns 0; words past the nodes stay as they were. 19 where the draft's tables are broken, as
 * story_image_write tests them; 20 to 22 are not tested, and there is no ink version and no work word. Then 27 where
 * counts_length is less than the number of nodes, before any is counted, or, last, where more than 4294967295 targets
 * name one node, for which a draft has to have more nodes than that. With 19 and 27 nothing is written. The test of 19
 * goes over the whole draft once, the counting over its nodes. */
uint32_t story_image_count_draft_targets(const uint32_t *nodes, size_t nodes_length, const uint32_t *children,
                                         size_t children_length, const uint32_t *named, size_t named_length,
                                         const uint32_t *definitions, size_t definitions_length, const uint32_t *items,
                                         size_t items_length, const uint8_t *payload, size_t payload_length,
                                         const uint8_t *strings, size_t strings_length, uint32_t *counts,
                                         size_t counts_length);

/* Changes the target of one node of a draft, in its node words, and the draft's counts with it. 0: the node's target
 * word (f2; of a reference f4) is `target`, the word of the node that was the target is less by 1 and that of `target`
 * more by 1. STORY_IMAGE_NONE clears the target of a divert or a reference; it has no word, so where there was no
 * target, or is none now, one step alone is taken. To the target that is there no step is taken, whatever the counts
 * hold. No other word changes: of the nodes path texts stay too, of the counts those past the nodes. Or a number, the
 * first of these, and every word of nodes and counts stays:
 *   19  the draft's tables are broken, as story_image_write tests them; 20 to 22 are not tested;
 *   27  counts_length is less than the number of nodes;
 *   18  `node` is no node (STORY_IMAGE_NONE among them), or of a kind that has no target, or may not have this one: a
 *       choice has a container, a divert any node or NONE, a divert-target value any node, a reference a container or
 *       NONE;
 *   27  the word of the node that was the target is 0, or that of `target` is 4294967295: it cannot take the step.
 * Counts are lent as story_image_count_draft_targets wrote them for this draft, and are not counted again: right ones
 * are right after every change, and a draft that passes 19 passes it after every change. The last 27 is given where
 * they are not right; for right ones only in a draft of more than 4294967295 nodes. Nodes and counts may not overlap.
 * What it costs: each call goes over the whole draft once for 19, strings and payload too, however little is changed.
 * Many changes take the time of the draft as often as there are changes. Who makes many sets the target words in the
 * nodes and calls story_image_count_draft_targets once, which tests them all. */
uint32_t story_image_set_target(uint32_t *nodes, size_t nodes_length, const uint32_t *children, size_t children_length,
                                const uint32_t *named, size_t named_length, const uint32_t *definitions,
                                size_t definitions_length, const uint32_t *items, size_t items_length,
                                const uint8_t *payload, size_t payload_length, const uint8_t *strings,
                                size_t strings_length, uint32_t *counts, size_t counts_length, uint32_t node,
                                uint32_t target);

/* ---- The same calls over structs
 *
 * story_image_X_in(image, ..) is story_image_X with the image's bytes and view in front and, where it has an answer,
 * as many words for it as it needs: the answer is lent by its pointer alone. story_image_draft_write, _write_words,
 * _resolve, _count_targets and _set_target are story_image_write, story_image_write_words,
 * story_image_resolve_static_targets, story_image_count_draft_targets and story_image_set_target with a draft's slices.
 * Numbers, answers and what a refusal leaves are those of the function that is called. All of them are defined here,
 * in C; the library exports none, and no function that it exports ends in _in or begins with story_image_draft_ or
 * story_image_lent_.
 *
 * A struct is all zero at first, `= {0}` in C and `{}` in C++, and then its fields are set. Later versions may add
 * fields, whose 0 means what is done without them. The pointer of a slice of length 0 may be null in a struct and in
 * these calls. */

/* An image, lent. A load sets its view; under a view of zeros there is no node. */
struct story_image {
    const uint8_t *bytes;
    size_t length;
    uint32_t view[STORY_IMAGE_VIEW_WORDS];
};

/* A draft, lent: lengths of nodes, children, named entries, definitions and items count words, those of payload and
 * strings bytes. Only story_image_draft_resolve and story_image_draft_set_target write nodes. */
struct story_image_draft {
    uint32_t ink_version;
    uint32_t *nodes;
    size_t nodes_length;
    const uint32_t *children;
    size_t children_length;
    const uint32_t *named;
    size_t named_length;
    const uint32_t *definitions;
    size_t definitions_length;
    const uint32_t *items;
    size_t items_length;
    const uint8_t *payload;
    size_t payload_length;
    const uint8_t *strings;
    size_t strings_length;
};

/* Paths beside a draft, lent: STORY_IMAGE_PATH_WORDS words a path, STORY_IMAGE_STEP_WORDS words a component, and the
 * bytes of names. */
struct story_image_paths {
    const uint32_t *paths;
    size_t paths_length;
    const uint32_t *components;
    size_t components_length;
    const uint8_t *names;
    size_t names_length;
};

/* For the calls below alone: a pointer that is not null for a slice of length 0, and what is lent of a struct. */
static inline const uint8_t *story_image_lent_bytes(const uint8_t *bytes, size_t length) {
    static const uint8_t none[1] = {0};
    return length == 0 ? none : bytes;
}
static inline const uint32_t *story_image_lent_words(const uint32_t *words, size_t length) {
    static const uint32_t none[1] = {0};
    return length == 0 ? none : words;
}

#define STORY_IMAGE_LENT_BYTES(of, slice) story_image_lent_bytes(of->slice, of->slice##_length), of->slice##_length
#define STORY_IMAGE_LENT_WORDS(of, slice) story_image_lent_words(of->slice, of->slice##_length), of->slice##_length
#define STORY_IMAGE_LENT_IMAGE \
    story_image_lent_bytes(image->bytes, image->length), image->length, image->view, STORY_IMAGE_VIEW_WORDS
#define STORY_IMAGE_LENT_TABLES \
    STORY_IMAGE_LENT_WORDS(draft, children), STORY_IMAGE_LENT_WORDS(draft, named), \
    STORY_IMAGE_LENT_WORDS(draft, definitions), STORY_IMAGE_LENT_WORDS(draft, items), \
    STORY_IMAGE_LENT_BYTES(draft, payload)

static inline size_t story_image_load_words_in(const struct story_image *image) {
    return story_image_load_words(story_image_lent_bytes(image->bytes, image->length), image->length);
}

/* The view is the image's own: where nothing is refused it is set, else it stays. */
static inline uint32_t story_image_load_in(struct story_image *image, uint32_t *work, size_t work_length) {
    uint32_t none[1] = {0};
    return story_image_load(story_image_lent_bytes(image->bytes, image->length), image->length,
                            work_length == 0 ? none : work, work_length, image->view, STORY_IMAGE_VIEW_WORDS);
}

static inline uint32_t story_image_node_view_in(const struct story_image *image, uint32_t node,
                                                uint32_t answer[STORY_IMAGE_NODE_WORDS]) {
    return story_image_node_view(STORY_IMAGE_LENT_IMAGE, node, answer, STORY_IMAGE_NODE_WORDS);
}

static inline uint32_t story_image_page_in(const struct story_image *image, const uint32_t *numbers,
                                           size_t numbers_length, uint32_t *slots, size_t slots_length) {
    uint32_t none[1] = {0};
    return story_image_page(STORY_IMAGE_LENT_IMAGE, story_image_lent_words(numbers, numbers_length), numbers_length,
                            slots_length == 0 ? none : slots, slots_length);
}

/* Of a slot of a page. */
static inline uint32_t story_image_slot_view_in(const struct story_image *image,
                                                const uint32_t slot[STORY_IMAGE_SLOT_WORDS],
                                                uint32_t answer[STORY_IMAGE_NODE_WORDS]) {
    return story_image_slot_view(STORY_IMAGE_LENT_IMAGE, slot, STORY_IMAGE_SLOT_WORDS, answer, STORY_IMAGE_NODE_WORDS);
}

static inline uint32_t story_image_text_in(const struct story_image *image, uint32_t offset, uint32_t text_length,
                                           uint32_t answer[STORY_IMAGE_TEXT_WORDS]) {
    return story_image_text(STORY_IMAGE_LENT_IMAGE, offset, text_length, answer, STORY_IMAGE_TEXT_WORDS);
}

static inline uint32_t story_image_depth_in(const struct story_image *image, uint32_t node,
                                            uint32_t answer[STORY_IMAGE_COUNT_WORDS]) {
    return story_image_depth(STORY_IMAGE_LENT_IMAGE, node, answer, STORY_IMAGE_COUNT_WORDS);
}

/* One word at least for each node. */
static inline uint32_t story_image_count_targets_in(const struct story_image *image, uint32_t *counts,
                                                    size_t counts_length) {
    uint32_t none[1] = {0};
    return story_image_count_targets(STORY_IMAGE_LENT_IMAGE, counts_length == 0 ? none : counts, counts_length);
}

static inline uint32_t story_image_child_count_in(const struct story_image *image, uint32_t node,
                                                  uint32_t answer[STORY_IMAGE_COUNT_WORDS]) {
    return story_image_child_count(STORY_IMAGE_LENT_IMAGE, node, answer, STORY_IMAGE_COUNT_WORDS);
}

static inline uint32_t story_image_named_child_count_in(const struct story_image *image, uint32_t node,
                                                        uint32_t answer[STORY_IMAGE_COUNT_WORDS]) {
    return story_image_named_child_count(STORY_IMAGE_LENT_IMAGE, node, answer, STORY_IMAGE_COUNT_WORDS);
}

static inline uint32_t story_image_child_at_in(const struct story_image *image, uint32_t node, uint32_t index,
                                               uint32_t answer[STORY_IMAGE_FOUND_WORDS]) {
    return story_image_child_at(STORY_IMAGE_LENT_IMAGE, node, index, answer, STORY_IMAGE_FOUND_WORDS);
}

static inline uint32_t story_image_named_child_at_in(const struct story_image *image, uint32_t node, uint32_t index,
                                                     uint32_t answer[STORY_IMAGE_NAMED_CHILD_WORDS]) {
    return story_image_named_child_at(STORY_IMAGE_LENT_IMAGE, node, index, answer, STORY_IMAGE_NAMED_CHILD_WORDS);
}

static inline uint32_t story_image_find_named_child_in(const struct story_image *image, uint32_t node,
                                                       const uint8_t *name, size_t name_length,
                                                       uint32_t answer[STORY_IMAGE_FOUND_WORDS]) {
    return story_image_find_named_child(STORY_IMAGE_LENT_IMAGE, node, story_image_lent_bytes(name, name_length),
                                        name_length, answer, STORY_IMAGE_FOUND_WORDS);
}

static inline uint32_t story_image_list_payload_in(const struct story_image *image, uint32_t node,
                                                   uint32_t answer[STORY_IMAGE_LIST_PAYLOAD_WORDS]) {
    return story_image_list_payload(STORY_IMAGE_LENT_IMAGE, node, answer, STORY_IMAGE_LIST_PAYLOAD_WORDS);
}

static inline uint32_t story_image_list_counts_in(const struct story_image *image, uint32_t node,
                                                  uint32_t answer[STORY_IMAGE_LIST_COUNTS_WORDS]) {
    return story_image_list_counts(STORY_IMAGE_LENT_IMAGE, node, answer, STORY_IMAGE_LIST_COUNTS_WORDS);
}

static inline uint32_t story_image_node_list_entry_in(const struct story_image *image, uint32_t node, uint32_t index,
                                                      uint32_t answer[STORY_IMAGE_LIST_ENTRY_WORDS]) {
    return story_image_node_list_entry(STORY_IMAGE_LENT_IMAGE, node, index, answer, STORY_IMAGE_LIST_ENTRY_WORDS);
}

static inline uint32_t story_image_node_list_origin_in(const struct story_image *image, uint32_t node, uint32_t index,
                                                       uint32_t answer[STORY_IMAGE_LIST_ORIGIN_WORDS]) {
    return story_image_node_list_origin(STORY_IMAGE_LENT_IMAGE, node, index, answer, STORY_IMAGE_LIST_ORIGIN_WORDS);
}

static inline uint32_t story_image_definition_count_in(const struct story_image *image,
                                                       uint32_t answer[STORY_IMAGE_COUNT_WORDS]) {
    return story_image_definition_count(STORY_IMAGE_LENT_IMAGE, answer, STORY_IMAGE_COUNT_WORDS);
}

static inline uint32_t story_image_definition_in(const struct story_image *image, uint32_t index,
                                                 uint32_t answer[STORY_IMAGE_DEFINITION_WORDS]) {
    return story_image_definition(STORY_IMAGE_LENT_IMAGE, index, answer, STORY_IMAGE_DEFINITION_WORDS);
}

static inline uint32_t story_image_definition_item_in(const struct story_image *image, uint32_t index, uint32_t item,
                                                      uint32_t answer[STORY_IMAGE_DEFINITION_ITEM_WORDS]) {
    return story_image_definition_item(STORY_IMAGE_LENT_IMAGE, index, item, answer, STORY_IMAGE_DEFINITION_ITEM_WORDS);
}

static inline uint32_t story_image_definition_first_item_in(const struct story_image *image, uint32_t index,
                                                            uint32_t answer[STORY_IMAGE_COUNT_WORDS]) {
    return story_image_definition_first_item(STORY_IMAGE_LENT_IMAGE, index, answer, STORY_IMAGE_COUNT_WORDS);
}

/* Without a count where `searched` is null. */
static inline uint32_t story_image_find_list_item_in(const struct story_image *image, const uint8_t *name,
                                                     size_t name_length, uint32_t answer[STORY_IMAGE_LIST_ITEM_WORDS],
                                                     uint32_t searched[STORY_IMAGE_COUNT_WORDS]) {
    uint32_t none[1] = {0};
    return story_image_find_list_item(STORY_IMAGE_LENT_IMAGE, story_image_lent_bytes(name, name_length), name_length,
                                      answer, STORY_IMAGE_LIST_ITEM_WORDS, searched ? searched : none,
                                      searched ? STORY_IMAGE_COUNT_WORDS : 0);
}

static inline uint32_t story_image_resolve_path_in(const struct story_image *image, uint32_t origin, bool relative,
                                                   const uint32_t *path, size_t path_length, const uint8_t *names,
                                                   size_t names_length, uint32_t answer[STORY_IMAGE_FOUND_WORDS]) {
    return story_image_resolve_path(STORY_IMAGE_LENT_IMAGE, origin, relative, story_image_lent_words(path, path_length),
                                    path_length, story_image_lent_bytes(names, names_length), names_length, answer,
                                    STORY_IMAGE_FOUND_WORDS);
}

/* Of the bytes alone: the image need not be loaded. */
static inline uint32_t story_image_total_length_in(const struct story_image *image,
                                                   uint32_t answer[STORY_IMAGE_COUNT_WORDS]) {
    return story_image_total_length(story_image_lent_bytes(image->bytes, image->length), image->length, answer,
                                    STORY_IMAGE_COUNT_WORDS);
}

static inline uint32_t story_image_strings_length_in(const struct story_image *image,
                                                     uint32_t answer[STORY_IMAGE_COUNT_WORDS]) {
    return story_image_strings_length(story_image_lent_bytes(image->bytes, image->length), image->length, answer,
                                      STORY_IMAGE_COUNT_WORDS);
}

static inline uint32_t story_image_checksum_in(const struct story_image *image,
                                               uint32_t answer[STORY_IMAGE_COUNT_WORDS]) {
    return story_image_checksum(story_image_lent_bytes(image->bytes, image->length), image->length, answer,
                                STORY_IMAGE_COUNT_WORDS);
}

static inline size_t story_image_draft_write_words(const struct story_image_draft *draft) {
    return story_image_write_words(STORY_IMAGE_LENT_WORDS(draft, nodes), STORY_IMAGE_LENT_TABLES);
}

/* One word is written for the length. No output, of length 0, asks for it. */
static inline uint32_t story_image_draft_write(const struct story_image_draft *draft, uint32_t *work,
                                               size_t work_length, uint8_t *output, size_t output_length,
                                               uint32_t written[STORY_IMAGE_COUNT_WORDS]) {
    uint32_t no_work[1] = {0};
    uint8_t no_output[1] = {0};
    return story_image_write(draft->ink_version, STORY_IMAGE_LENT_WORDS(draft, nodes), STORY_IMAGE_LENT_TABLES,
                             STORY_IMAGE_LENT_BYTES(draft, strings), work_length == 0 ? no_work : work, work_length,
                             output_length == 0 ? no_output : output, output_length, written, STORY_IMAGE_COUNT_WORDS);
}

/* Sets targets in the draft's nodes. */
static inline uint32_t story_image_draft_resolve(struct story_image_draft *draft,
                                                 const struct story_image_paths *beside, uint32_t *work,
                                                 size_t work_length) {
    uint32_t no_nodes[1] = {0}, no_work[1] = {0};
    return story_image_resolve_static_targets(
        draft->ink_version, draft->nodes_length == 0 ? no_nodes : draft->nodes, draft->nodes_length,
        STORY_IMAGE_LENT_TABLES, STORY_IMAGE_LENT_BYTES(draft, strings), STORY_IMAGE_LENT_WORDS(beside, paths),
        STORY_IMAGE_LENT_WORDS(beside, components), STORY_IMAGE_LENT_BYTES(beside, names),
        work_length == 0 ? no_work : work, work_length);
}

/* The draft's ink version is not looked at; one word at least for each node. */
static inline uint32_t story_image_draft_count_targets(const struct story_image_draft *draft, uint32_t *counts,
                                                       size_t counts_length) {
    uint32_t none[1] = {0};
    return story_image_count_draft_targets(STORY_IMAGE_LENT_WORDS(draft, nodes), STORY_IMAGE_LENT_TABLES,
                                           STORY_IMAGE_LENT_BYTES(draft, strings), counts_length == 0 ? none : counts,
                                           counts_length);
}

/* Sets one target in the draft's nodes; the draft's ink version is not looked at. Each call takes the time of the whole
 * draft. */
static inline uint32_t story_image_draft_set_target(struct story_image_draft *draft, uint32_t *counts,
                                                    size_t counts_length, uint32_t node, uint32_t target) {
    uint32_t no_nodes[1] = {0}, no_counts[1] = {0};
    return story_image_set_target(draft->nodes_length == 0 ? no_nodes : draft->nodes, draft->nodes_length,
                                  STORY_IMAGE_LENT_TABLES, STORY_IMAGE_LENT_BYTES(draft, strings),
                                  counts_length == 0 ? no_counts : counts, counts_length, node, target);
}

#undef STORY_IMAGE_LENT_BYTES
#undef STORY_IMAGE_LENT_WORDS
#undef STORY_IMAGE_LENT_IMAGE
#undef STORY_IMAGE_LENT_TABLES

#ifdef __cplusplus
}
#endif

#endif
