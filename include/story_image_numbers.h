/* Numbers that story images are read and written with: what a call returns, kinds of nodes, commands, operators, flags,
 * components of a path. Both readers have them; story_image.h and sleeper_image.h include this file. It declares no
 * call.
 */
#ifndef STORY_IMAGE_NUMBERS_H
#define STORY_IMAGE_NUMBERS_H

#include <stdint.h>

/* An absent node, place or text. */
#define STORY_IMAGE_NONE UINT32_C(4294967295)

/* The length of a header; the length of the smallest image. */
#define STORY_IMAGE_HEADER_BYTES 88
#define STORY_IMAGE_SMALLEST_BYTES 140

/* Ink versions that are loaded and written. */
#define STORY_IMAGE_FIRST_INK_VERSION 18
#define STORY_IMAGE_LAST_INK_VERSION 21

/* Numbers that a function returns: the first rule that is broken, in the fixed order of docs/FORMAT.md. Which of them a
 * function can return is said at each; that it returns no other is proved (docs/PROMISES.md, `ExportNumbers`,
 * `SleeperExportNumbers`). */
enum {
    STORY_IMAGE_OK = 0,              /* nothing is refused */
    /* of a load */
    STORY_IMAGE_BAD_HEADER = 1,      /* fewer than 88 bytes, or no BLINKIMG in front */
    STORY_IMAGE_BAD_VERSION = 2,     /* the format version is not 2 */
    STORY_IMAGE_BAD_INK_VERSION = 3, /* the ink version is not 18 to 21; also of a write */
    STORY_IMAGE_BAD_LENGTH = 4,      /* the header's total length is not the number of bytes */
    STORY_IMAGE_BAD_SECTIONS = 5,    /* a section does not begin where the one before ends, runs past the end, leaves
                                        bytes over, or there is no node */
    STORY_IMAGE_BAD_CHECKSUM = 6,
    STORY_IMAGE_TOO_FEW_WORDS = 7,   /* too few work words are lent; also of a write */
    STORY_IMAGE_BAD_ROOT = 8,        /* node 0 is not a container without parent and place */
    STORY_IMAGE_BAD_NODE = 9,        /* a node number is outside, or not a container where one is due, or a node is its
                                        own parent */
    STORY_IMAGE_BAD_TEXT = 10,       /* a text of a node, a list value, the index or a definition is bad */
    STORY_IMAGE_BAD_RANGE = 11,      /* a range, a start or a list's length is wrong */
    STORY_IMAGE_BAD_TAG = 12,        /* unknown tag, flag, command or operator */
    STORY_IMAGE_LEFT_OVER = 13,      /* children, named entries or payload are left over, or the path index has not as
                                        many entries as there are containers */
    STORY_IMAGE_BAD_CHILD = 14,      /* a child does not name its parent and place, or a named entry's text, order or
                                        parent is wrong */
    STORY_IMAGE_UNREACHED = 15,      /* a node is not reached from node 0 */
    STORY_IMAGE_BAD_INDEX = 16,      /* the path index is out of order, a text is not its container's path (`.3` for
                                        place 3), or a container below the root has neither name nor place */
    STORY_IMAGE_BAD_DEFINITION = 17, /* definitions or items are out of order, an item's text is bad, or items are left over */
    /* of a query */
    STORY_IMAGE_NOT_FOUND = 18,      /* no such node, child, name, step or item; also of a change of a target: no such
                                        node, or one that may not have the target */
    /* of a write */
    STORY_IMAGE_BAD_DRAFT = 19,      /* a draft's tables are broken, or the list of paths beside it */
    STORY_IMAGE_DRAFT_UNREACHED = 20, /* a draft has a node that is not reached */
    STORY_IMAGE_DRAFT_SHAPE = 21,    /* a draft's root, parents, tree or order of definitions is wrong */
    STORY_IMAGE_DRAFT_PATHS = 22,    /* two containers of a draft have one path, or one has neither name nor place */
    STORY_IMAGE_NO_ROOM = 23,        /* the output is too short, or the image would have more than 4294967295 bytes */
    /* of a page */
    STORY_IMAGE_TOO_FEW_SLOTS = 24,  /* fewer words are lent than a slot for each number takes */
    /* of a path beside a draft */
    STORY_IMAGE_NO_TARGET = 25,      /* no node is at the path of a node of the draft */
    STORY_IMAGE_NO_CONTAINER = 26,   /* the node at a path is no container where one is due */
    /* of a summary of targets */
    STORY_IMAGE_BAD_SUMMARY = 27     /* it has fewer words than there are nodes, or a word cannot take the step */
};

/* Kinds of nodes: the tags of an image. There is no 0 and no 15. */
enum {
    STORY_IMAGE_KIND_CONTAINER = 1,
    STORY_IMAGE_KIND_CHOICE = 2,
    STORY_IMAGE_KIND_COMMAND = 3,
    STORY_IMAGE_KIND_DIVERT = 4,
    STORY_IMAGE_KIND_GLUE = 5,
    STORY_IMAGE_KIND_OPERATOR = 6,
    STORY_IMAGE_KIND_TAG = 7,
    STORY_IMAGE_KIND_BOOL = 8,
    STORY_IMAGE_KIND_INT = 9,
    STORY_IMAGE_KIND_FLOAT = 10,
    STORY_IMAGE_KIND_STRING = 11,
    STORY_IMAGE_KIND_LIST = 12,
    STORY_IMAGE_KIND_DIVERT_TARGET = 13,
    STORY_IMAGE_KIND_POINTER = 14,
    STORY_IMAGE_KIND_ASSIGNMENT = 16,
    STORY_IMAGE_KIND_REFERENCE = 17,
    STORY_IMAGE_KIND_VOID = 18
};

/* Numbers of commands, with the text by which an image names each. */
enum {
    STORY_IMAGE_COMMAND_EVAL_START = 0,                 /* ev */
    STORY_IMAGE_COMMAND_EVAL_OUTPUT,                    /* out */
    STORY_IMAGE_COMMAND_EVAL_END,                       /* /ev */
    STORY_IMAGE_COMMAND_DUPLICATE,                      /* du */
    STORY_IMAGE_COMMAND_POP_EVALUATED_VALUE,            /* pop */
    STORY_IMAGE_COMMAND_POP_FUNCTION,                   /* ~ret */
    STORY_IMAGE_COMMAND_POP_TUNNEL,                     /* ->-> */
    STORY_IMAGE_COMMAND_BEGIN_STRING,                   /* str */
    STORY_IMAGE_COMMAND_END_STRING,                     /* /str */
    STORY_IMAGE_COMMAND_NO_OP,                          /* nop */
    STORY_IMAGE_COMMAND_CHOICE_COUNT,                   /* choiceCnt */
    STORY_IMAGE_COMMAND_TURNS,                          /* turn */
    STORY_IMAGE_COMMAND_TURNS_SINCE,                    /* turns */
    STORY_IMAGE_COMMAND_READ_COUNT,                     /* readc */
    STORY_IMAGE_COMMAND_RANDOM,                         /* rnd */
    STORY_IMAGE_COMMAND_SEED_RANDOM,                    /* srnd */
    STORY_IMAGE_COMMAND_VISIT_INDEX,                    /* visit */
    STORY_IMAGE_COMMAND_SEQUENCE_SHUFFLE_INDEX,         /* seq */
    STORY_IMAGE_COMMAND_START_THREAD,                   /* thread */
    STORY_IMAGE_COMMAND_DONE,                           /* done */
    STORY_IMAGE_COMMAND_END,                            /* end */
    STORY_IMAGE_COMMAND_LIST_FROM_INT,                  /* listInt */
    STORY_IMAGE_COMMAND_LIST_RANGE,                     /* range */
    STORY_IMAGE_COMMAND_LIST_RANDOM,                    /* lrnd */
    STORY_IMAGE_COMMAND_BEGIN_TAG,                      /* # */
    STORY_IMAGE_COMMAND_END_TAG,                        /* /# */
    STORY_IMAGE_COMMAND_COUNT
};

/* Numbers of operators, with the text by which an image names each. */
enum {
    STORY_IMAGE_OPERATOR_ADD = 0,                       /* + */
    STORY_IMAGE_OPERATOR_SUBTRACT,                      /* - */
    STORY_IMAGE_OPERATOR_DIVIDE,                        /* / */
    STORY_IMAGE_OPERATOR_MULTIPLY,                      /* * */
    STORY_IMAGE_OPERATOR_MOD,                           /* % */
    STORY_IMAGE_OPERATOR_NEGATE,                        /* _ */
    STORY_IMAGE_OPERATOR_EQUAL,                         /* == */
    STORY_IMAGE_OPERATOR_GREATER,                       /* > */
    STORY_IMAGE_OPERATOR_LESS,                          /* < */
    STORY_IMAGE_OPERATOR_GREATER_THAN_OR_EQUALS,        /* >= */
    STORY_IMAGE_OPERATOR_LESS_THAN_OR_EQUALS,           /* <= */
    STORY_IMAGE_OPERATOR_NOT_EQUALS,                    /* != */
    STORY_IMAGE_OPERATOR_NOT,                           /* ! */
    STORY_IMAGE_OPERATOR_AND,                           /* && */
    STORY_IMAGE_OPERATOR_OR,                            /* || */
    STORY_IMAGE_OPERATOR_MIN,                           /* MIN */
    STORY_IMAGE_OPERATOR_MAX,                           /* MAX */
    STORY_IMAGE_OPERATOR_POW,                           /* POW */
    STORY_IMAGE_OPERATOR_FLOOR,                         /* FLOOR */
    STORY_IMAGE_OPERATOR_CEILING,                       /* CEILING */
    STORY_IMAGE_OPERATOR_INT,                           /* INT */
    STORY_IMAGE_OPERATOR_FLOAT,                         /* FLOAT */
    STORY_IMAGE_OPERATOR_HAS,                           /* ? */
    STORY_IMAGE_OPERATOR_HASNT,                         /* !? */
    STORY_IMAGE_OPERATOR_INTERSECT,                     /* ^ */
    STORY_IMAGE_OPERATOR_LIST_MIN,                      /* LIST_MIN */
    STORY_IMAGE_OPERATOR_LIST_MAX,                      /* LIST_MAX */
    STORY_IMAGE_OPERATOR_LIST_ALL,                      /* LIST_ALL */
    STORY_IMAGE_OPERATOR_LIST_COUNT,                    /* LIST_COUNT */
    STORY_IMAGE_OPERATOR_LIST_VALUE,                    /* LIST_VALUE */
    STORY_IMAGE_OPERATOR_LIST_INVERT,                   /* LIST_INVERT */
    STORY_IMAGE_OPERATOR_COUNT
};

/* Flags of a divert; its push type is the flags word shifted right by STORY_IMAGE_DIVERT_PUSH_SHIFT. */
enum {
    STORY_IMAGE_DIVERT_CONDITIONAL = 1,
    STORY_IMAGE_DIVERT_EXTERNAL = 2,
    STORY_IMAGE_DIVERT_PUSHES = 4,
    STORY_IMAGE_DIVERT_PUSH_SHIFT = 3
};
enum {
    STORY_IMAGE_PUSH_TUNNEL,
    STORY_IMAGE_PUSH_FUNCTION,
    STORY_IMAGE_PUSH_FUNCTION_FROM_GAME
};

/* Flags of an assignment. */
enum {
    STORY_IMAGE_ASSIGNMENT_GLOBAL = 1,
    STORY_IMAGE_ASSIGNMENT_NEW = 2
};

/* Flags of a container and of a choice, as the published player reads them. An image may hold any word here. */
enum {
    STORY_IMAGE_CONTAINER_COUNTS_VISITS = 1,
    STORY_IMAGE_CONTAINER_COUNTS_TURNS = 2,
    STORY_IMAGE_CONTAINER_COUNTS_AT_START = 4
};
enum {
    STORY_IMAGE_CHOICE_CONDITION = 1,
    STORY_IMAGE_CHOICE_START_CONTENT = 2,
    STORY_IMAGE_CHOICE_ONLY_CONTENT = 4,
    STORY_IMAGE_CHOICE_INVISIBLE_DEFAULT = 8,
    STORY_IMAGE_CHOICE_ONCE_ONLY = 16
};

/* Components of a path, three words each. */
enum {
    STORY_IMAGE_STEP_PARENT,          /* any, any */
    STORY_IMAGE_STEP_INDEX,           /* index, any */
    STORY_IMAGE_STEP_NAME,            /* offset and length in the lent names */
    STORY_IMAGE_STEP_WORDS
};

#endif
