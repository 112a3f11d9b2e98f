/* Texts of drafts: which are taken, wherever they stand. */
#include "asked.h"
#include "drafts.h"
#include "groups.h"

/* The root with a value of a text and a container that bears it as a named child. */
static struct story_image_draft text_draft(uint32_t (*nodes)[10], uint32_t *named, const char *strings) {
    static const uint32_t all[3][10] = {
        {NONE, NONE, STORY_IMAGE_KIND_CONTAINER, NONE, NONE, 0, 0, 2, 0, 1},
        {0, 0, STORY_IMAGE_KIND_STRING, 0, 0, NONE, 0, 0, 0, 0},
        {0, 1, STORY_IMAGE_KIND_CONTAINER, NONE, NONE, 0, 2, 0, 1, 0},
    };
    static const uint32_t children[] = {1, 2}, entry[] = {0, 0, 2};
    memcpy(nodes, all, sizeof all);
    memcpy(named, entry, sizeof entry);
    struct story_image_draft draft = draft_of(nodes[0], SIZE(all), strings);
    draft.children = children;
    draft.children_length = SIZE(children);
    draft.named = named;
    draft.named_length = SIZE(entry);
    return draft;
}

/* Whether the writer takes the text of a string value, which then stands in the image; 19 if not. */
static bool text_of_value(const char *strings, uint32_t offset, uint32_t length) {
    uint32_t nodes[3][10], named[3], view[STORY_IMAGE_NODE_WORDS], long_as;
    uint8_t none[1] = {0};
    const struct story_image_draft draft = text_draft(nodes, named, strings);
    nodes[1][3] = offset;
    nodes[1][4] = length;
    uint32_t number = put(&draft, 21, write_words(&draft), none, 0, &long_as);
    CHECK(number == STORY_IMAGE_NO_ROOM || number == STORY_IMAGE_BAD_DRAFT, "a value's text: %u", (unsigned)number);
    if (number != STORY_IMAGE_NO_ROOM)
        return false;
    struct story_image image = written(&draft, "a value's text");
    struct asked asked = {1, 0, 0, 0, image.bytes, 0};
    CHECK(ask(NODE_VIEW, &image, &asked, view), "a value's view");
    CHECK(text_is(&image, view[STORY_IMAGE_NODE_TEXT], view[STORY_IMAGE_NODE_TEXT_LENGTH], strings + offset, length),
          "a value's text in the image");
    release(&image);
    return true;
}

/* The same of a named entry. */
static bool text_of_entry(const char *strings, uint32_t offset, uint32_t length) {
    uint32_t nodes[3][10], named[3], found[STORY_IMAGE_FOUND_WORDS], long_as;
    uint8_t none[1] = {0};
    const struct story_image_draft draft = text_draft(nodes, named, strings);
    named[0] = offset;
    named[1] = length;
    uint32_t number = put(&draft, 21, write_words(&draft), none, 0, &long_as);
    CHECK(number == STORY_IMAGE_NO_ROOM || number == STORY_IMAGE_BAD_DRAFT, "an entry's text: %u", (unsigned)number);
    if (number != STORY_IMAGE_NO_ROOM)
        return false;
    struct story_image image = written(&draft, "an entry's text");
    struct asked asked = {0, 0, 0, 0, (const uint8_t *)strings + offset, length};
    CHECK(ask(FIND, &image, &asked, found) && found[0] == 2, "a child by an entry's text");
    release(&image);
    return true;
}

/* Whether targets are found where a divert-target value with a path has the text, which then stays; 19 if not. */
static bool text_of_target(const char *strings, uint32_t offset, uint32_t length) {
    static const uint32_t list[] = {1, 0, 0, 1}, components[] = {STORY_IMAGE_STEP_INDEX, 1, 7};
    const struct story_image_paths paths = {list, SIZE(list), components, SIZE(components), (const uint8_t *)"", 0};
    uint32_t nodes[3][10], named[3], due[3][10];
    const struct story_image_draft draft = text_draft(nodes, named, strings);
    nodes[1][2] = STORY_IMAGE_KIND_DIVERT_TARGET;
    nodes[1][3] = offset;
    nodes[1][4] = length;
    memcpy(due, nodes, sizeof due);
    due[1][5] = 2;
    uint32_t number = find_targets(&draft, nodes[0], &paths, 21, write_words(&draft));
    CHECK(number == STORY_IMAGE_OK || number == STORY_IMAGE_BAD_DRAFT, "a target's text: %u", (unsigned)number);
    if (number != STORY_IMAGE_OK)
        return false;
    CHECK(memcmp(nodes, due, sizeof due) == 0, "a target's text: the nodes");
    struct story_image image = written(&draft, "a target's text");
    release(&image);
    return true;
}

static void text_everywhere(const char *strings, uint32_t offset, uint32_t length, bool good) {
    CHECK(text_of_value(strings, offset, length) == good, "text (%u, %u) of %u bytes, a value's", (unsigned)offset,
          (unsigned)length, (unsigned)strlen(strings));
    CHECK(text_of_entry(strings, offset, length) == good, "text (%u, %u) of %u bytes, an entry's", (unsigned)offset,
          (unsigned)length, (unsigned)strlen(strings));
    CHECK(text_of_target(strings, offset, length) == good, "text (%u, %u) of %u bytes, a target's", (unsigned)offset,
          (unsigned)length, (unsigned)strlen(strings));
}

/* A text is bad if it is outside the strings or is not UTF-8, whatever stands beside it; the empty text is UTF-8 also
 * between the bytes of a sequence. */
static void cut_texts(void) {
    static const struct {
        uint32_t offset, length;
        bool good;
    } table[] = {
        {0, 1, false}, {1, 1, false}, {0, 2, true},  {0, 0, true},     {1, 0, true},        {2, 0, true},
        {0, 4, false}, {1, 3, false}, {4, 0, false}, {1, NONE, false}, {NONE, NONE, false}, {NONE, 0, false},
    };
    for (size_t i = 0; i < sizeof table / sizeof table[0]; i++) {
        text_everywhere("\xc3\xa9", table[i].offset, table[i].length, table[i].good);
        text_everywhere("\xc3\xa9\xff", table[i].offset, table[i].length, table[i].good);
    }
    /* the end of the strings, or the byte ff, which is no UTF-8 */
    text_everywhere("\xc3\xa9", 3, 0, false);
    text_everywhere("\xc3\xa9\xff", 3, 0, true);
    text_everywhere("\xc3\xa9", 2, 1, false);
    text_everywhere("\xc3\xa9\xff", 2, 1, false);
    text_everywhere("\xc3\xa9\xff", 0, 3, false);
    text_everywhere("\xc3\xa9\xff", 1, 2, false);
}

/* All texts of strings with sequences of one to four bytes, alone and with a byte ff before or behind them. A text is
 * good if it is empty or begins and ends where a sequence does. */
static void all_texts(void) {
    static const char *const strings[] = {"z\xc3\xa9\xe2\x82\xac\xf0\x9f\x98\x80z",
                                          "z\xc3\xa9\xe2\x82\xac\xf0\x9f\x98\x80z\xff",
                                          "\xffz\xc3\xa9\xe2\x82\xac\xf0\x9f\x98\x80z"};
    /* where a sequence begins, or the last one ends */
    static const uint32_t ends[] = {0, 1, 3, 6, 10, 11};
    for (uint32_t which = 0; which < 3; which++) {
        const uint32_t first = which == 2, count = (uint32_t)strlen(strings[which]);
        for (uint32_t from = 0; from <= count + 1; from++)
            for (uint32_t to = from; to <= count + 1; to++) {
                bool begins = false, stops = false;
                for (size_t i = 0; i < SIZE(ends); i++) {
                    begins = begins || from == first + ends[i];
                    stops = stops || to == first + ends[i];
                }
                text_everywhere(strings[which], from, to - from, to <= count && (from == to || (begins && stops)));
            }
    }
}

/* Strings longer than the blocks by which they are tested, all of sequences of two bytes, the first of them at an even
 * or an odd place; alone and with a byte ff behind them. Texts of up to three bytes, and to the end. */
static void long_texts(void) {
    enum { SEQUENCES = 150 };
    char strings[2 * SEQUENCES + 3];
    for (uint32_t which = 0; which < 4; which++) {
        const uint32_t first = which % 2, end = first + 2 * SEQUENCES;
        memset(strings, 0, sizeof strings);
        strings[0] = 'z';
        for (uint32_t at = first; at < end; at += 2)
            memcpy(strings + at, "\xc3\xa9", 2);
        if (which >= 2)
            strings[end] = '\xff';
        for (uint32_t from = first; from <= end; from++) {
            const bool begins = (from - first) % 2 == 0;
            for (uint32_t to = from; to <= from + 3 && to <= end; to++)
                text_everywhere(strings, from, to - from, from == to || (begins && (to - from) % 2 == 0));
            text_everywhere(strings, from, end - from, begins);
            text_everywhere(strings, from, end + 1 - from, false);
        }
    }
}

/* Each number that finding targets may give has come up, and no other. */
static void all_target_numbers(void) {
    static const uint32_t due[] = {STORY_IMAGE_OK,        STORY_IMAGE_BAD_INK_VERSION, STORY_IMAGE_TOO_FEW_WORDS,
                                   STORY_IMAGE_BAD_DRAFT, STORY_IMAGE_DRAFT_UNREACHED, STORY_IMAGE_DRAFT_SHAPE,
                                   STORY_IMAGE_NO_TARGET, STORY_IMAGE_NO_CONTAINER};
    uint32_t others = target_numbers;
    for (size_t i = 0; i < SIZE(due); i++) {
        CHECK(target_numbers >> due[i] & 1, "targets: %u has not come up", (unsigned)due[i]);
        others &= ~(UINT32_C(1) << due[i]);
    }
    CHECK(others == 0, "targets: numbers that are none of theirs, %x", (unsigned)others);
}

void test_texts(void) {
    cut_texts();
    all_texts();
    long_texts();
    all_target_numbers();
}
