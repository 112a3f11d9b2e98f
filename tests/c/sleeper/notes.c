/* What is a note and what is none. */
#include "calls.h"
#include "groups.h"
#include "images.h"

static const struct {
    uint32_t kind;
    const char *text;
    bool note;
} table[] = {
    {STORY_IMAGE_KIND_TAG, "tech:", true},
    {STORY_IMAGE_KIND_TAG, "tech:a", true},
    {STORY_IMAGE_KIND_TAG, "tech: left electrode loose", true},
    {STORY_IMAGE_KIND_TAG, "tech:tech:", true},
    {STORY_IMAGE_KIND_TAG, "tech:\xc3\xa9", true},
    {STORY_IMAGE_KIND_TAG, "", false},
    {STORY_IMAGE_KIND_TAG, "t", false},
    {STORY_IMAGE_KIND_TAG, "tech", false},
    {STORY_IMAGE_KIND_TAG, "tech;", false},
    {STORY_IMAGE_KIND_TAG, "tech a", false},
    {STORY_IMAGE_KIND_TAG, "Tech:", false},
    {STORY_IMAGE_KIND_TAG, "TECH:a", false},
    {STORY_IMAGE_KIND_TAG, " tech:", false},
    {STORY_IMAGE_KIND_TAG, "#tech:", false},
    {STORY_IMAGE_KIND_TAG, "a tech:", false},
    {STORY_IMAGE_KIND_TAG, "tec:h", false},
    {STORY_IMAGE_KIND_STRING, "tech:", false},
    {STORY_IMAGE_KIND_STRING, "tech:a", false},
    {STORY_IMAGE_KIND_DIVERT_TARGET, "tech:a", false},
    {STORY_IMAGE_KIND_POINTER, "tech:a", false},
    {STORY_IMAGE_KIND_ASSIGNMENT, "tech:a", false},
    {STORY_IMAGE_KIND_REFERENCE, "tech:a", false},
};

/* A note is void with its parent and place, and has no text; any other text is shown. */
static void seen(const struct story_image_sleeper *image, uint32_t node, uint32_t kind, const char *text, bool note) {
    struct asked asked = {node, 0, 0, image->bytes, 0};
    uint32_t words[MOST_WORDS], length, shown = note ? (uint32_t)STORY_IMAGE_KIND_VOID : kind;
    CHECK(ask(NODE_VIEW, image, &asked, words), "'%s' has a view", text);
    CHECK(words[STORY_IMAGE_SLEEPER_NODE_KIND] == shown, "'%s' of kind %u: %u", text, (unsigned)kind,
          (unsigned)words[STORY_IMAGE_SLEEPER_NODE_KIND]);
    CHECK(words[STORY_IMAGE_SLEEPER_NODE_PARENT] == 0 && words[STORY_IMAGE_SLEEPER_NODE_PLACE] == node - 1,
          "'%s' keeps its parent and place", text);
    CHECK(words[STORY_IMAGE_SLEEPER_NODE_HAS_TEXT] == !note, "'%s': whether there is a text", text);
    if (note)
        CHECK(text_of(image, STORY_IMAGE_SLEEPER_TEXT_OF_NODE, node, 0, &length) == NULL, "'%s' is not shown", text);
    else
        CHECK(text_is(image, STORY_IMAGE_SLEEPER_TEXT_OF_NODE, node, 0, text), "'%s' is shown", text);
}

/* Texts that share bytes with a note, and with one another. */
static void shared(void) {
    static const struct part parts[] = {
        {STORY_IMAGE_KIND_TAG, 0, 8},    {STORY_IMAGE_KIND_STRING, 0, 8}, {STORY_IMAGE_KIND_STRING, 5, 3},
        {STORY_IMAGE_KIND_TAG, 0, 5},    {STORY_IMAGE_KIND_TAG, 0, 4},    {STORY_IMAGE_KIND_TAG, 4, 4},
        {STORY_IMAGE_KIND_STRING, 0, 5}, {STORY_IMAGE_KIND_TAG, 8, 0},    {STORY_IMAGE_KIND_TAG, 5, 3},
    };
    static const char *const due[] = {"tech:abc", "tech:abc", "abc", "tech:", "tech", ":abc", "tech:", "", "abc"};
    static const bool note[] = {true, false, false, true, false, false, false, false, false};
    size_t length, count = sizeof parts / sizeof parts[0];
    uint8_t *bytes = parts_bytes(parts, count, "tech:abc", &length);
    struct story_image_sleeper image = accepted(bytes, length, "shared bytes");
    for (uint32_t k = 0; k < count; k++)
        seen(&image, k + 1, parts[k].kind, due[k], note[k]);
    release(&image);
}

void test_notes(void) {
    for (size_t i = 0; i < sizeof table / sizeof table[0]; i++) {
        size_t length;
        uint8_t *bytes = one_text_bytes(table[i].kind, table[i].text, &length);
        struct story_image_sleeper image = accepted(bytes, length, table[i].text);
        seen(&image, 1, table[i].kind, table[i].text, table[i].note);
        release(&image);
    }
    shared();
}
