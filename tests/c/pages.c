/* Pages and views of slots. */
#include "asked.h"
#include "drafts.h"
#include "groups.h"

enum { SCREEN = 40 };

static const uint32_t no_slot[STORY_IMAGE_SLOT_WORDS] = {STORY_IMAGE_NOT_FOUND};

/* The slot that is due: 18 and eleven zeros for a node without a view, else its ten words in the image and two zeros.
 * The view of a slot's words is the node's. */
static void slot_due(const struct story_image *image, uint32_t node, uint32_t *slot) {
    struct asked asked = {node, 0, 0, 0, image->bytes, 0};
    uint32_t lone[STORY_IMAGE_NODE_WORDS], by_slot[STORY_IMAGE_NODE_WORDS];
    size_t at = image->view[STORY_IMAGE_NODES] + 40 * (size_t)node;
    bool found = ask(NODE_VIEW, image, &asked, lone);
    CHECK(ask(SLOT_VIEW, image, &asked, by_slot) == found && memcmp(lone, by_slot, sizeof lone) == 0,
          "the view of the slot of node %u", (unsigned)node);
    memcpy(slot, no_slot, sizeof no_slot);
    for (size_t k = 0; found && k <= STORY_IMAGE_SLOT_F6; k++)
        slot[k] = word_at(image, at + 4 * k);
}

/* A page of these numbers in more and in fewer words: each slot is the one that is due and words after the last stay,
 * or it is 24 and all words stay. Under a short view it is 18 in any case, and all words stay. */
static void page_of(const struct story_image *image, const char *name, const uint32_t *numbers, size_t count) {
    size_t needed = STORY_IMAGE_SLOT_WORDS * count, fewer = needed == 0 ? 0 : needed - 1;
    const size_t rooms[] = {needed, needed + 1, needed + 12, needed + 500, fewer, needed / 2, 1, 0};
    uint32_t *due = marked(needed);
    for (size_t k = 0; k < count; k++)
        slot_due(image, numbers[k], due + STORY_IMAGE_SLOT_WORDS * k);
    for (size_t i = 0; i < sizeof rooms / sizeof rooms[0]; i++) {
        size_t words = rooms[i];
        uint32_t *slots = marked(words);
        CHECK(page(image, STORY_IMAGE_VIEW_WORDS - 1, numbers, count, slots, words) == STORY_IMAGE_NOT_FOUND &&
                  all_are(slots, 0, words, MARK),
              "%s: a short view, %u words", name, (unsigned)words);
        uint32_t number = page(image, STORY_IMAGE_VIEW_WORDS, numbers, count, slots, words);
        bool fits = words >= needed;
        CHECK(number == (fits ? STORY_IMAGE_OK : STORY_IMAGE_TOO_FEW_SLOTS), "%s: %u numbers in %u words give %u", name,
              (unsigned)count, (unsigned)words, (unsigned)number);
        CHECK(!fits || memcmp(slots, due, 4 * needed) == 0, "%s: the slots of %u numbers", name, (unsigned)count);
        CHECK(all_are(slots, fits ? needed : 0, words, MARK), "%s: other words stay, %u of them", name,
              (unsigned)words);
        CHECK(story_image_page_in(image, numbers, count, slots, words) == number, "%s: the same over the struct", name);
        CHECK(!fits || memcmp(slots, due, 4 * needed) == 0, "%s: the same slots over the struct", name);
        free(slots);
    }
    free(due);
}

/* All nodes of an image, and the number past the last. */
static void page_of_all(const struct story_image *image, const char *name) {
    uint32_t count = image->view[STORY_IMAGE_NODES_COUNT], *numbers = marked((size_t)count + 1);
    for (uint32_t node = 0; node <= count; node++)
        numbers[node] = node;
    page_of(image, name, numbers, (size_t)count + 1);
    free(numbers);
}

/* Node 0 twice, then two numbers that are no nodes. */
static void page_of_four(const struct story_image *image, const char *name) {
    const uint32_t numbers[] = {0, 0, NONE, image->view[STORY_IMAGE_NODES_COUNT]};
    uint32_t slots[4][STORY_IMAGE_SLOT_WORDS];
    CHECK(page(image, STORY_IMAGE_VIEW_WORDS, numbers, 4, slots[0], SIZE(slots)) == STORY_IMAGE_OK, "%s: four", name);
    for (size_t k = 0; k < 10; k++)
        CHECK(slots[0][k] == word_at(image, image->view[STORY_IMAGE_NODES] + 4 * k), "%s: word %u of node 0", name,
              (unsigned)k);
    CHECK(slots[0][10] == 0 && slots[0][11] == 0, "%s: two zeros", name);
    CHECK(memcmp(slots[0], slots[1], sizeof slots[0]) == 0, "%s: a repeated number", name);
    for (size_t i = 2; i < 4; i++)
        CHECK(slots[i][0] == 18 && all_are(slots[i], 1, STORY_IMAGE_SLOT_WORDS, 0), "%s: no node", name);
    page_of(image, name, numbers, 4);
}

static void pages(const char *folder) {
    static const char *const names[] = {"smallest", "step", "guide", "largest"};
    uint32_t *screen = marked(SCREEN), *many = marked(1000000), slot[STORY_IMAGE_SLOT_WORDS];
    for (size_t i = 0; i < sizeof names / sizeof names[0]; i++) {
        struct story_image image = accepted(folder, names[i]);
        page_of_all(&image, names[i]);
        page_of_four(&image, names[i]);
        page_of(&image, names[i], screen, 0);
        /* a screen: from the last node down, each twice */
        for (uint32_t k = 0; k < SCREEN; k++)
            screen[k] = image.view[STORY_IMAGE_NODES_COUNT] - 1 - k / 2;
        page_of(&image, names[i], screen, SCREEN);
        CHECK(page(&image, STORY_IMAGE_VIEW_WORDS, many, 1000000, slot, SIZE(slot)) == STORY_IMAGE_TOO_FEW_SLOTS &&
                  all_are(slot, 0, SIZE(slot), MARK),
              "%s: a million numbers, one slot", names[i]);
        release(&image);
    }
    free(screen);
    free(many);
}

/* A node's parent may be 18: its kind tells its slot from an empty one. */
static void page_of_chain(void) {
    static const uint32_t numbers[] = {19, CHAIN};
    struct story_image image = chain_image();
    uint32_t slots[2][STORY_IMAGE_SLOT_WORDS];
    page_of_all(&image, "chain");
    CHECK(page(&image, STORY_IMAGE_VIEW_WORDS, numbers, 2, slots[0], SIZE(slots)) == STORY_IMAGE_OK, "two slots");
    CHECK(slots[0][STORY_IMAGE_SLOT_PARENT] == 18 && slots[1][0] == 18, "parent 18 beside an empty slot");
    CHECK(slots[0][STORY_IMAGE_SLOT_KIND] == STORY_IMAGE_KIND_CONTAINER && slots[1][STORY_IMAGE_SLOT_KIND] == 0,
          "the kind tells them apart");
    release(&image);
}

static bool has_no_slot(const struct story_image *image, uint32_t node) {
    uint32_t slot[STORY_IMAGE_SLOT_WORDS];
    CHECK(page(image, STORY_IMAGE_VIEW_WORDS, &node, 1, slot, SIZE(slot)) == STORY_IMAGE_OK, "a page of one number");
    return memcmp(slot, no_slot, sizeof slot) == 0;
}

/* Nodes that no load accepts: those without a view have empty slots, the others their words. */
static void damaged_pages(const char *folder) {
    struct story_image image = accepted(folder, "step");
    const uint32_t past = image.view[STORY_IMAGE_STRINGS_COUNT] + 1, numbers[] = {3};
    /* node 1 is a string, node 3 a divert with a path, node 6 a command, node 13 a list */
    set_word(&image, 1, STORY_IMAGE_SLOT_F1, past);
    set_word(&image, 3, STORY_IMAGE_SLOT_F0, past);
    set_word(&image, 6, STORY_IMAGE_SLOT_KIND, 15);
    set_word(&image, 13, STORY_IMAGE_SLOT_F0, image.view[STORY_IMAGE_PAYLOAD_COUNT] + 1);
    CHECK(has_no_slot(&image, 1), "a text outside the strings");
    CHECK(has_no_slot(&image, 6), "tag 15");
    CHECK(has_no_slot(&image, 13), "a list outside the payload");
    uint32_t slot[STORY_IMAGE_SLOT_WORDS], view[STORY_IMAGE_NODE_WORDS];
    CHECK(page(&image, STORY_IMAGE_VIEW_WORDS, numbers, 1, slot, SIZE(slot)) == STORY_IMAGE_OK &&
              slot[STORY_IMAGE_SLOT_KIND] == STORY_IMAGE_KIND_DIVERT && slot[STORY_IMAGE_SLOT_F0] == past,
          "an optional text outside stands in the slot");
    struct asked asked = {3, 0, 0, 0, image.bytes, 0};
    CHECK(ask(SLOT_VIEW, &image, &asked, view) && view[STORY_IMAGE_NODE_TEXT] == NONE, "and is not in its view");
    CHECK(!has_no_slot(&image, 0) && !has_no_slot(&image, 2) && !has_no_slot(&image, 14), "nodes beside them");
    page_of_all(&image, "damaged");
    release(&image);
}

/* Samples that are refused, under the view that their header says; a nodes section that ends outside; any bytes. */
static void refused_pages(const char *folder) {
    static const char *const names[] = {"tag", "text", "root", "circle", "place", "choice-target", "sections", "cut"};
    for (size_t i = 0; i < sizeof names / sizeof names[0]; i++) {
        struct story_image refused = sample(folder, names[i]);
        view_by_header(&refused);
        page_of_all(&refused, names[i]);
        release(&refused);
    }
    struct story_image image = accepted(folder, "step");
    uint32_t seed = 2;
    for (int round = 0; round < ROUNDS; round++) {
        struct story_image other = changed(&image, round, &seed);
        const uint32_t any = next(&seed), numbers[] = {any >> 8 & 63, 0, any >> 16 & 63, any};
        page_of(&other, "any bytes", numbers, SIZE(numbers));
        release(&other);
    }
    const uint32_t count = image.view[STORY_IMAGE_NODES_COUNT], last = (uint32_t)image.length - 40 * count;
    const uint32_t outside[] = {last + 1, (uint32_t)image.length, NONE};
    for (size_t i = 0; i < SIZE(outside); i++) {
        image.view[STORY_IMAGE_NODES] = outside[i];
        for (uint32_t node = 0; node < count; node++)
            CHECK(has_no_slot(&image, node), "node %u of a section outside the bytes", (unsigned)node);
        page_of_all(&image, "nodes outside");
    }
    release(&image);
}

/* Number and words of a slot's view, in an answer of one word more. */
static uint32_t slot_view(const struct story_image *image, const uint32_t *slot, size_t words, uint32_t *answer) {
    for (size_t i = 0; i <= STORY_IMAGE_NODE_WORDS; i++)
        answer[i] = MARK;
    return story_image_slot_view(image->bytes, image->length, image->view, STORY_IMAGE_VIEW_WORDS, slot, words, answer,
                                 STORY_IMAGE_NODE_WORDS + 1);
}

/* Any ten words have the view of a node of these words; nine have none; words past the tenth are not looked at. Whether
 * there is a view. */
static bool view_of_words(const struct story_image *image, const uint32_t *words) {
    struct story_image other = copy_of_image(image);
    for (size_t k = 0; k < 10; k++)
        set_word(&other, 7, k, words[k]);
    uint32_t lone[STORY_IMAGE_NODE_WORDS + 1], answer[STORY_IMAGE_NODE_WORDS + 1];
    memset(lone, 0x5a, sizeof lone);
    uint32_t number = story_image_node_view_in(&other, 7, lone);
    for (size_t length = 0; length < 15; length++) {
        uint32_t *slot = marked(length);
        memcpy(slot, words, 4 * (length < 10 ? length : 10));
        uint32_t given = slot_view(image, slot, length, answer);
        if (length < 10)
            CHECK(given == STORY_IMAGE_NOT_FOUND && all_are(answer, 0, SIZE(answer), MARK), "a slot of %u words",
                  (unsigned)length);
        else
            CHECK(given == number && memcmp(answer, lone, sizeof lone) == 0,
                  "a slot of %u words has the view of a node", (unsigned)length);
        free(slot);
    }
    release(&other);
    return number == STORY_IMAGE_OK;
}

static void views_of_words(const char *folder) {
    struct story_image image = accepted(folder, "step");
    uint32_t words[STORY_IMAGE_SLOT_WORDS] = {0}, shown = 0, seed = 3;
    CHECK(!view_of_words(&image, words), "zeros have no view");
    CHECK(!view_of_words(&image, no_slot), "an empty slot has no view");
    for (uint32_t node = 0; node < image.view[STORY_IMAGE_NODES_COUNT]; node++) {
        slot_due(&image, node, words);
        CHECK(view_of_words(&image, words), "the words of node %u", (unsigned)node);
        words[STORY_IMAGE_SLOT_KIND] = 15;
        CHECK(!view_of_words(&image, words), "the words of node %u with tag 15", (unsigned)node);
    }
    for (int round = 0; round < 2000; round++) {
        /* short texts near the start of the strings, words above all sections, NONE */
        for (size_t k = 0; k < 10; k++)
            words[k] = next(&seed) >> 30 == 0 ? NONE : seed >> 29 == 2 ? seed : seed >> 8 & 31;
        words[STORY_IMAGE_SLOT_KIND] = (next(&seed) >> 8) % 21;
        shown += view_of_words(&image, words);
    }
    CHECK(shown > 200 && shown < 1800, "%u of 2000 have a view", (unsigned)shown);
    release(&image);
}

void test_pages(const char *folder) {
    pages(folder);
    page_of_chain();
    damaged_pages(folder);
    refused_pages(folder);
    views_of_words(folder);
}
