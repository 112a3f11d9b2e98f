#include "asked.h"

static const size_t answer_words[QUERIES] = {STORY_IMAGE_NODE_WORDS,         STORY_IMAGE_TEXT_WORDS,
                                             STORY_IMAGE_COUNT_WORDS,        STORY_IMAGE_COUNT_WORDS,
                                             STORY_IMAGE_FOUND_WORDS,        STORY_IMAGE_NAMED_CHILD_WORDS,
                                             STORY_IMAGE_FOUND_WORDS,        STORY_IMAGE_COUNT_WORDS,
                                             STORY_IMAGE_DEFINITION_WORDS,   STORY_IMAGE_DEFINITION_ITEM_WORDS,
                                             STORY_IMAGE_LIST_ITEM_WORDS,    STORY_IMAGE_FOUND_WORDS,
                                             STORY_IMAGE_LIST_PAYLOAD_WORDS, STORY_IMAGE_LIST_COUNTS_WORDS,
                                             STORY_IMAGE_LIST_ENTRY_WORDS,   STORY_IMAGE_LIST_ORIGIN_WORDS,
                                             STORY_IMAGE_COUNT_WORDS,        STORY_IMAGE_COUNT_WORDS,
                                             STORY_IMAGE_NODE_WORDS};

uint32_t page(const struct story_image *image, size_t view_length, const uint32_t *numbers, size_t count,
              uint32_t *slots, size_t words) {
    for (size_t i = 0; i < words; i++)
        slots[i] = MARK;
    return story_image_page(image->bytes, image->length, image->view, view_length, numbers, count, slots, words);
}

/* The view of the slot that a page has for the node. */
static uint32_t view_by_page(const struct story_image *image, size_t view_length, uint32_t node, uint32_t *answer,
                             size_t answer_length) {
    uint32_t *slot = marked(STORY_IMAGE_SLOT_WORDS);
    uint32_t number = page(image, STORY_IMAGE_VIEW_WORDS, &node, 1, slot, STORY_IMAGE_SLOT_WORDS);
    CHECK(number == STORY_IMAGE_OK, "a page of one number gives %u", (unsigned)number);
    number = story_image_slot_view(image->bytes, image->length, image->view, view_length, slot, STORY_IMAGE_SLOT_WORDS,
                                   answer, answer_length);
    free(slot);
    return number;
}

/* The same over the struct. */
static uint32_t slot_view_in(const struct story_image *image, uint32_t node, uint32_t *answer) {
    uint32_t *slot = marked(STORY_IMAGE_SLOT_WORDS);
    uint32_t number = story_image_page_in(image, &node, 1, slot, STORY_IMAGE_SLOT_WORDS);
    CHECK(number == STORY_IMAGE_OK, "a page of one number over the struct gives %u", (unsigned)number);
    number = story_image_slot_view_in(image, slot, answer);
    free(slot);
    return number;
}

uint32_t search(const struct story_image *image, size_t view_length, const struct asked *asked, uint32_t *answer,
                size_t answer_length, uint32_t *searched) {
    uint32_t *words = marked(2);
    uint32_t number = story_image_find_list_item(image->bytes, image->length, image->view, view_length, asked->name,
                                                 asked->name_length, answer, answer_length, words, 2);
    if (view_length < STORY_IMAGE_VIEW_WORDS)
        CHECK(words[0] == MARK, "a short view leaves the count");
    else
        CHECK(words[0] <= image->view[STORY_IMAGE_DEFINITIONS_COUNT], "%u definitions searched", (unsigned)words[0]);
    CHECK(words[1] == MARK, "the word behind the count stays");
    *searched = words[0];
    free(words);
    return number;
}

/* A query of lists. */
static uint32_t call_list(int query, const struct story_image *image, size_t view_length, const struct asked *asked,
                          uint32_t *answer, size_t answer_length) {
    const uint8_t *bytes = image->bytes;
    const uint32_t *view = image->view;
    size_t length = image->length;
    uint32_t searched;
    switch (query) {
    case DEFINITION_COUNT:
        return story_image_definition_count(bytes, length, view, view_length, answer, answer_length);
    case DEFINITION:
        return story_image_definition(bytes, length, view, view_length, asked->index, answer, answer_length);
    case ITEM:
        return story_image_definition_item(bytes, length, view, view_length, asked->index, 0, answer, answer_length);
    case LIST_ITEM:
        return search(image, view_length, asked, answer, answer_length, &searched);
    case LIST_PAYLOAD:
        return story_image_list_payload(bytes, length, view, view_length, asked->node, answer, answer_length);
    case LIST_COUNTS:
        return story_image_list_counts(bytes, length, view, view_length, asked->node, answer, answer_length);
    case NODE_ENTRY:
        return story_image_node_list_entry(bytes, length, view, view_length, asked->node, asked->index, answer,
                                           answer_length);
    case NODE_ORIGIN:
        return story_image_node_list_origin(bytes, length, view, view_length, asked->node, asked->index, answer,
                                            answer_length);
    default:
        return story_image_definition_first_item(bytes, length, view, view_length, asked->index, answer, answer_length);
    }
}

uint32_t call(int query, const struct story_image *image, size_t view_length, const struct asked *asked,
              uint32_t *answer, size_t answer_length) {
    const uint8_t *bytes = image->bytes;
    const uint32_t *view = image->view;
    size_t length = image->length;
    uint32_t path[STORY_IMAGE_STEP_WORDS] = {STORY_IMAGE_STEP_INDEX, asked->index, 0};
    switch (query) {
    case NODE_VIEW:
        return story_image_node_view(bytes, length, view, view_length, asked->node, answer, answer_length);
    case TEXT:
        return story_image_text(bytes, length, view, view_length, asked->offset, asked->length, answer, answer_length);
    case CHILD_COUNT:
        return story_image_child_count(bytes, length, view, view_length, asked->node, answer, answer_length);
    case NAMED_COUNT:
        return story_image_named_child_count(bytes, length, view, view_length, asked->node, answer, answer_length);
    case CHILD:
        return story_image_child_at(bytes, length, view, view_length, asked->node, asked->index, answer, answer_length);
    case NAMED_CHILD:
        return story_image_named_child_at(bytes, length, view, view_length, asked->node, asked->index, answer,
                                          answer_length);
    case FIND:
        return story_image_find_named_child(bytes, length, view, view_length, asked->node, asked->name,
                                            asked->name_length, answer, answer_length);
    case DEPTH:
        return story_image_depth(bytes, length, view, view_length, asked->node, answer, answer_length);
    case SLOT_VIEW:
        return view_by_page(image, view_length, asked->node, answer, answer_length);
    case WALK:
        return story_image_resolve_path(bytes, length, view, view_length, asked->node, true, path,
                                        STORY_IMAGE_STEP_WORDS, asked->name, asked->name_length, answer, answer_length);
    default:
        return call_list(query, image, view_length, asked, answer, answer_length);
    }
}

/* A query of lists, over the struct. */
static uint32_t call_list_in(int query, const struct story_image *image, const struct asked *asked, uint32_t *answer) {
    uint32_t searched;
    switch (query) {
    case DEFINITION_COUNT:
        return story_image_definition_count_in(image, answer);
    case DEFINITION:
        return story_image_definition_in(image, asked->index, answer);
    case ITEM:
        return story_image_definition_item_in(image, asked->index, 0, answer);
    case LIST_ITEM:
        return story_image_find_list_item_in(image, asked->name, asked->name_length, answer, &searched);
    case LIST_PAYLOAD:
        return story_image_list_payload_in(image, asked->node, answer);
    case LIST_COUNTS:
        return story_image_list_counts_in(image, asked->node, answer);
    case NODE_ENTRY:
        return story_image_node_list_entry_in(image, asked->node, asked->index, answer);
    case NODE_ORIGIN:
        return story_image_node_list_origin_in(image, asked->node, asked->index, answer);
    default:
        return story_image_definition_first_item_in(image, asked->index, answer);
    }
}

uint32_t call_in(int query, const struct story_image *image, const struct asked *asked, uint32_t *answer) {
    uint32_t path[STORY_IMAGE_STEP_WORDS] = {STORY_IMAGE_STEP_INDEX, asked->index, 0};
    switch (query) {
    case NODE_VIEW:
        return story_image_node_view_in(image, asked->node, answer);
    case TEXT:
        return story_image_text_in(image, asked->offset, asked->length, answer);
    case CHILD_COUNT:
        return story_image_child_count_in(image, asked->node, answer);
    case NAMED_COUNT:
        return story_image_named_child_count_in(image, asked->node, answer);
    case CHILD:
        return story_image_child_at_in(image, asked->node, asked->index, answer);
    case NAMED_CHILD:
        return story_image_named_child_at_in(image, asked->node, asked->index, answer);
    case FIND:
        return story_image_find_named_child_in(image, asked->node, asked->name, asked->name_length, answer);
    case DEPTH:
        return story_image_depth_in(image, asked->node, answer);
    case SLOT_VIEW:
        return slot_view_in(image, asked->node, answer);
    case WALK:
        return story_image_resolve_path_in(image, asked->node, true, path, STORY_IMAGE_STEP_WORDS, asked->name,
                                           asked->name_length, answer);
    default:
        return call_list_in(query, image, asked, answer);
    }
}

bool ask(int query, const struct story_image *image, const struct asked *asked, uint32_t *answer) {
    size_t words = answer_words[query];
    uint32_t *more = marked(words + 1), *fewer = marked(words - 1);
    uint32_t number = call(query, image, STORY_IMAGE_VIEW_WORDS, asked, more, words + 1);
    CHECK(number == STORY_IMAGE_OK || number == STORY_IMAGE_NOT_FOUND, "query %d gives %u", query, (unsigned)number);
    CHECK(all_are(more, number == 0 ? words : 0, words + 1, MARK), "query %d leaves the words past its answer", query);
    memcpy(answer, more, 4 * words);
    CHECK(call(query, image, STORY_IMAGE_VIEW_WORDS, asked, fewer, words - 1) != 0, "query %d, a short answer", query);
    CHECK(all_are(fewer, 0, words - 1, MARK), "query %d, a short answer stays", query);
    uint32_t *other = marked(words);
    CHECK(call(query, image, STORY_IMAGE_VIEW_WORDS - 1, asked, other, words) != 0, "query %d, a short view", query);
    CHECK(all_are(other, 0, words, MARK), "query %d, a short view leaves the answer", query);
    CHECK(call(query, image, STORY_IMAGE_VIEW_WORDS, asked, other, words) == number, "query %d, an exact answer",
          query);
    CHECK(number != 0 || memcmp(other, more, 4 * words) == 0, "query %d, the same words", query);
    for (size_t k = 0; k < words; k++)
        other[k] = MARK;
    CHECK(call_in(query, image, asked, other) == number, "query %d, the same number over the struct", query);
    CHECK(memcmp(other, more, 4 * words) == 0, "query %d, the same words over the struct", query);
    free(more);
    free(fewer);
    free(other);
    return number == 0;
}

bool text_inside(const struct story_image *image, uint32_t offset, uint32_t length, uint32_t *part) {
    struct asked asked = {0, 0, offset, length, image->bytes, 0};
    return ask(TEXT, image, &asked, part) && (size_t)part[0] + part[1] <= image->length && part[1] == length;
}

bool text_is(const struct story_image *image, uint32_t offset, uint32_t length, const char *due, size_t due_length) {
    uint32_t part[STORY_IMAGE_TEXT_WORDS];
    return text_inside(image, offset, length, part) && length == due_length &&
           memcmp(image->bytes + part[0], due, due_length) == 0;
}
