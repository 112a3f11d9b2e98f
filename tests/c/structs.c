/* Structs: slices of length 0 with null pointers, an image that is not loaded, no word for a count. */
#include "asked.h"
#include "drafts.h"
#include "groups.h"

/* No bytes, no work words, no view: every call takes them. */
static void empty_image(void) {
    struct story_image image;
    uint32_t slots[1] = {MARK}, answer[STORY_IMAGE_NODE_WORDS];
    struct asked asked = {0, 0, 0, 0, NULL, 0};
    memset(&image, 0, sizeof image);
    CHECK(story_image_lent_bytes(NULL, 0) != NULL && story_image_lent_words(NULL, 0) != NULL, "no null is lent");
    CHECK(story_image_load_words_in(&image) == 0, "no bytes need no words");
    CHECK(story_image_load_in(&image, NULL, 0) == STORY_IMAGE_BAD_HEADER, "no bytes");
    for (int query = 0; query < QUERIES; query++)
        if (query != DEFINITION_COUNT && query != TEXT)
            CHECK(call_in(query, &image, &asked, answer) == STORY_IMAGE_NOT_FOUND, "query %d of no bytes", query);
    CHECK(story_image_definition_count_in(&image, answer) == STORY_IMAGE_OK && answer[0] == 0, "no definitions");
    CHECK(story_image_text_in(&image, 0, 0, answer) == STORY_IMAGE_OK && answer[0] == 0 && answer[1] == 0,
          "the empty text");
    CHECK(story_image_page_in(&image, NULL, 0, NULL, 0) == STORY_IMAGE_OK, "a page of no numbers");
    CHECK(story_image_page_in(&image, slots, 1, NULL, 0) == STORY_IMAGE_TOO_FEW_SLOTS, "no slots");
    CHECK(story_image_count_targets_in(&image, NULL, 0) == STORY_IMAGE_OK, "counts of no nodes");
}

/* A refused load leaves the view; then there is no node under a view of zeros, and all under that of another load. */
static void refused_image(const char *folder) {
    struct story_image image = sample(folder, "smallest");
    uint32_t work[2] = {MARK, MARK}, node[STORY_IMAGE_NODE_WORDS], end[STORY_IMAGE_FOUND_WORDS];
    CHECK(story_image_load_in(&image, work, 1) == STORY_IMAGE_TOO_FEW_WORDS && work[0] == MARK, "a word too few");
    CHECK(all_are(image.view, 0, STORY_IMAGE_VIEW_WORDS, 0), "the view stays");
    CHECK(story_image_node_view_in(&image, 0, node) == STORY_IMAGE_NOT_FOUND, "no node before a load");
    CHECK(story_image_load_in(&image, work, 2) == STORY_IMAGE_OK && image.view[STORY_IMAGE_NODES_COUNT] == 1, "a load");
    CHECK(story_image_node_view_in(&image, 0, node) == STORY_IMAGE_OK, "the root after it");
    CHECK(story_image_load_in(&image, NULL, 0) == STORY_IMAGE_TOO_FEW_WORDS, "no work words");
    CHECK(image.view[STORY_IMAGE_NODES_COUNT] == 1, "the view stays");
    CHECK(story_image_resolve_path_in(&image, 0, false, NULL, 0, NULL, 0, end) == STORY_IMAGE_OK && end[0] == 0,
          "no components lead to the root");
    CHECK(story_image_find_named_child_in(&image, 0, NULL, 0, end) == STORY_IMAGE_NOT_FOUND, "no name");
    release(&image);
}

/* The count of a look-up is left out where its word is null. */
static void no_count(const char *folder) {
    struct story_image image = accepted(folder, "step");
    uint32_t item[STORY_IMAGE_LIST_ITEM_WORDS], other[STORY_IMAGE_LIST_ITEM_WORDS], searched = MARK;
    const uint8_t *name = (const uint8_t *)"lamp.red";
    CHECK(story_image_find_list_item_in(&image, name, 8, item, &searched) == STORY_IMAGE_OK && searched == 1,
          "lamp.red");
    CHECK(story_image_find_list_item_in(&image, name, 8, other, NULL) == STORY_IMAGE_OK, "lamp.red without a count");
    CHECK(memcmp(item, other, sizeof item) == 0, "the same item");
    CHECK(story_image_find_list_item_in(&image, NULL, 0, other, NULL) == STORY_IMAGE_NOT_FOUND, "no name");
    CHECK(memcmp(item, other, sizeof item) == 0, "the answer stays");
    release(&image);
}

/* A draft without slices, and the root alone with all others left out. */
static void empty_drafts(const char *folder) {
    struct story_image_draft draft = draft_of(NULL, 0, "");
    struct story_image_paths paths;
    struct story_image smallest = sample(folder, "smallest");
    uint32_t work[16] = {0}, length = 0, count = MARK;
    memset(&paths, 0, sizeof paths);
    draft.strings = NULL;
    CHECK(story_image_draft_write_words(&draft) == 0, "a draft without slices needs no words");
    CHECK(story_image_draft_write(&draft, NULL, 0, NULL, 0, &length) == STORY_IMAGE_BAD_INK_VERSION, "ink version 0");
    CHECK(story_image_draft_resolve(&draft, &paths, NULL, 0) == STORY_IMAGE_BAD_INK_VERSION, "the same of its targets");
    draft.ink_version = STORY_IMAGE_LAST_INK_VERSION;
    CHECK(story_image_draft_write(&draft, NULL, 0, NULL, 0, &length) == STORY_IMAGE_BAD_DRAFT, "no nodes");
    CHECK(story_image_draft_resolve(&draft, &paths, NULL, 0) == STORY_IMAGE_BAD_DRAFT, "the same of its targets");
    CHECK(story_image_draft_count_targets(&draft, NULL, 0) == STORY_IMAGE_BAD_DRAFT, "the same of its counts");
    CHECK(story_image_draft_set_target(&draft, NULL, 0, 0, 0) == STORY_IMAGE_BAD_DRAFT, "and of a change");
    CHECK(length == 0, "no length is told");
    draft.nodes = root_node;
    draft.nodes_length = SIZE(root_node);
    CHECK(story_image_draft_write_words(&draft) == 16, "the words of a root");
    CHECK(story_image_draft_resolve(&draft, &paths, NULL, 0) == STORY_IMAGE_TOO_FEW_WORDS, "no work words");
    CHECK(story_image_draft_resolve(&draft, &paths, work, 16) == STORY_IMAGE_OK, "no paths");
    CHECK(story_image_draft_count_targets(&draft, NULL, 0) == STORY_IMAGE_BAD_SUMMARY, "no counts");
    CHECK(story_image_draft_set_target(&draft, NULL, 0, 0, 0) == STORY_IMAGE_BAD_SUMMARY, "no counts to change");
    CHECK(story_image_draft_count_targets(&draft, &count, 1) == STORY_IMAGE_OK && count == 0, "the count of a root");
    CHECK(story_image_draft_set_target(&draft, &count, 1, 0, 0) == STORY_IMAGE_NOT_FOUND, "a root has no target");
    CHECK(story_image_draft_write(&draft, work, 16, NULL, 0, &length) == STORY_IMAGE_NO_ROOM, "no output");
    CHECK(length == smallest.length, "its length is told");
    uint8_t *output = (uint8_t *)room(length);
    CHECK(story_image_draft_write(&draft, work, 16, output, length, &length) == STORY_IMAGE_OK, "a root is written");
    CHECK(memcmp(output, smallest.bytes, length) == 0, "the smallest image");
    free(output);
    release(&smallest);
}

void test_structs(const char *folder) {
    empty_image();
    refused_image(folder);
    no_count(folder);
    empty_drafts(folder);
}
