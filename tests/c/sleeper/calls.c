#include "calls.h"

#define VIEW STORY_IMAGE_SLEEPER_VIEW_WORDS

size_t words_of(int query) {
    switch (query) {
    case NODE_VIEW:
        return STORY_IMAGE_SLEEPER_NODE_WORDS;
    case LIST_ENTRY:
        return STORY_IMAGE_SLEEPER_LIST_ENTRY_WORDS;
    case LIST_ITEM:
        return STORY_IMAGE_SLEEPER_LIST_ITEM_WORDS;
    default:
        return 1;
    }
}

/* The look-up of a list item. Under a short view the count stays; the word behind it always does. */
static uint32_t search(const struct story_image_sleeper *image, size_t view_length, const struct asked *asked,
                       uint32_t *answer, size_t answer_length) {
    uint32_t *count = marked(2), none[1] = {MARK};
    uint32_t number =
        story_image_sleeper_find_list_item(image->bytes, image->length, image->view, view_length, asked->name,
                                           asked->name_length, answer, answer_length, count, 2);
    CHECK(view_length < VIEW ? count[0] == MARK : count[0] <= image->view[STORY_IMAGE_SLEEPER_DEFINITIONS_COUNT],
          "%u definitions searched", (unsigned)count[0]);
    CHECK(count[1] == MARK, "the word behind the count stays");
    uint32_t *again = marked(answer_length);
    CHECK(story_image_sleeper_find_list_item(image->bytes, image->length, image->view, view_length, asked->name,
                                             asked->name_length, again, answer_length, none, 0) == number,
          "the same number without a count");
    CHECK(none[0] == MARK, "no count is written");
    free(again);
    free(count);
    return number;
}

/* A query of lists. */
static uint32_t call_list(int query, const struct story_image_sleeper *image, size_t view_length,
                          const struct asked *asked, uint32_t *answer, size_t answer_length) {
    const uint8_t *bytes = image->bytes;
    const uint32_t *view = image->view;
    size_t length = image->length;
    switch (query) {
    case LIST_ITEM_COUNT:
        return story_image_sleeper_list_item_count(bytes, length, view, view_length, asked->a, answer, answer_length);
    case LIST_ORIGIN_COUNT:
        return story_image_sleeper_list_origin_count(bytes, length, view, view_length, asked->a, answer, answer_length);
    case LIST_ENTRY:
        return story_image_sleeper_list_entry(bytes, length, view, view_length, asked->a, asked->b, answer,
                                              answer_length);
    case DEFINITION_COUNT:
        return story_image_sleeper_definition_count(bytes, length, view, view_length, answer, answer_length);
    case DEFINITION:
        return story_image_sleeper_definition(bytes, length, view, view_length, asked->a, answer, answer_length);
    case FIRST_ITEM:
        return story_image_sleeper_definition_first_item(bytes, length, view, view_length, asked->a, answer,
                                                         answer_length);
    case DEFINITION_ITEM:
        return story_image_sleeper_definition_item(bytes, length, view, view_length, asked->a, asked->b, answer,
                                                   answer_length);
    default:
        return search(image, view_length, asked, answer, answer_length);
    }
}

static uint32_t call(int query, const struct story_image_sleeper *image, size_t view_length, const struct asked *asked,
                     uint32_t *answer, size_t answer_length) {
    const uint8_t *bytes = image->bytes;
    const uint32_t *view = image->view;
    size_t length = image->length;
    const uint32_t path[STORY_IMAGE_STEP_WORDS] = {STORY_IMAGE_STEP_INDEX, asked->b, 0};
    switch (query) {
    case NODE_VIEW:
        return story_image_sleeper_node_view(bytes, length, view, view_length, asked->a, answer, answer_length);
    case TEXT_LENGTH:
        return story_image_sleeper_text_length(bytes, length, view, view_length, asked->kind, asked->a, asked->b,
                                               answer, answer_length);
    case DEPTH:
        return story_image_sleeper_depth(bytes, length, view, view_length, asked->a, answer, answer_length);
    case CHILD_COUNT:
        return story_image_sleeper_child_count(bytes, length, view, view_length, asked->a, answer, answer_length);
    case NAMED_COUNT:
        return story_image_sleeper_named_child_count(bytes, length, view, view_length, asked->a, answer, answer_length);
    case CHILD:
        return story_image_sleeper_child_at(bytes, length, view, view_length, asked->a, asked->b, answer,
                                            answer_length);
    case NAMED_CHILD:
        return story_image_sleeper_named_child_at(bytes, length, view, view_length, asked->a, asked->b, answer,
                                                  answer_length);
    case FIND:
        return story_image_sleeper_find_named_child(bytes, length, view, view_length, asked->a, asked->name,
                                                    asked->name_length, answer, answer_length);
    case WALK:
        return story_image_sleeper_resolve_path(bytes, length, view, view_length, asked->a, true, path,
                                                STORY_IMAGE_STEP_WORDS, asked->name, asked->name_length, answer,
                                                answer_length);
    default:
        return call_list(query, image, view_length, asked, answer, answer_length);
    }
}

/* A query of lists, over the struct. */
static uint32_t call_list_in(int query, const struct story_image_sleeper *image, const struct asked *asked,
                             uint32_t *answer) {
    switch (query) {
    case LIST_ITEM_COUNT:
        return story_image_sleeper_list_item_count_in(image, asked->a, answer);
    case LIST_ORIGIN_COUNT:
        return story_image_sleeper_list_origin_count_in(image, asked->a, answer);
    case LIST_ENTRY:
        return story_image_sleeper_list_entry_in(image, asked->a, asked->b, answer);
    case DEFINITION_COUNT:
        return story_image_sleeper_definition_count_in(image, answer);
    case DEFINITION:
        return story_image_sleeper_definition_in(image, asked->a, answer);
    case FIRST_ITEM:
        return story_image_sleeper_definition_first_item_in(image, asked->a, answer);
    case DEFINITION_ITEM:
        return story_image_sleeper_definition_item_in(image, asked->a, asked->b, answer);
    default:
        return story_image_sleeper_find_list_item_in(image, asked->name, asked->name_length, answer, NULL);
    }
}

static uint32_t call_in(int query, const struct story_image_sleeper *image, const struct asked *asked,
                        uint32_t *answer) {
    const uint32_t path[STORY_IMAGE_STEP_WORDS] = {STORY_IMAGE_STEP_INDEX, asked->b, 0};
    switch (query) {
    case NODE_VIEW:
        return story_image_sleeper_node_view_in(image, asked->a, answer);
    case TEXT_LENGTH:
        return story_image_sleeper_text_length_in(image, asked->kind, asked->a, asked->b, answer);
    case DEPTH:
        return story_image_sleeper_depth_in(image, asked->a, answer);
    case CHILD_COUNT:
        return story_image_sleeper_child_count_in(image, asked->a, answer);
    case NAMED_COUNT:
        return story_image_sleeper_named_child_count_in(image, asked->a, answer);
    case CHILD:
        return story_image_sleeper_child_at_in(image, asked->a, asked->b, answer);
    case NAMED_CHILD:
        return story_image_sleeper_named_child_at_in(image, asked->a, asked->b, answer);
    case FIND:
        return story_image_sleeper_find_named_child_in(image, asked->a, asked->name, asked->name_length, answer);
    case WALK:
        return story_image_sleeper_resolve_path_in(image, asked->a, true, path, STORY_IMAGE_STEP_WORDS, asked->name,
                                                   asked->name_length, answer);
    default:
        return call_list_in(query, image, asked, answer);
    }
}

bool ask(int query, const struct story_image_sleeper *image, const struct asked *asked, uint32_t *answer) {
    size_t words = words_of(query);
    uint32_t *more = marked(words + 1), *fewer = marked(words - 1), *other = marked(words);
    uint32_t number = call(query, image, VIEW, asked, more, words + 1);
    CHECK(number == STORY_IMAGE_OK || number == STORY_IMAGE_NOT_FOUND, "query %d gives %u", query, (unsigned)number);
    CHECK(all_are(more, number == 0 ? words : 0, words + 1, MARK), "query %d leaves the words past its answer", query);
    memcpy(answer, more, 4 * words);
    CHECK(call(query, image, VIEW, asked, fewer, words - 1) == STORY_IMAGE_NOT_FOUND, "query %d, a short answer",
          query);
    CHECK(all_are(fewer, 0, words - 1, MARK), "query %d, a short answer stays", query);
    CHECK(call(query, image, VIEW - 1, asked, other, words) == STORY_IMAGE_NOT_FOUND, "query %d, a short view", query);
    CHECK(call(query, image, 0, asked, other, words) == STORY_IMAGE_NOT_FOUND, "query %d, no view", query);
    CHECK(all_are(other, 0, words, MARK), "query %d, a short view leaves the answer", query);
    CHECK(call(query, image, VIEW, asked, other, words) == number, "query %d, an exact answer", query);
    CHECK(memcmp(other, more, 4 * words) == 0, "query %d, the same words", query);
    for (size_t k = 0; k < words; k++)
        other[k] = MARK;
    CHECK(call_in(query, image, asked, other) == number, "query %d, the same number over the struct", query);
    CHECK(memcmp(other, more, 4 * words) == 0, "query %d, the same words over the struct", query);
    free(more);
    free(fewer);
    free(other);
    return number == 0;
}

uint32_t searched_by(const struct story_image_sleeper *image, const char *name) {
    uint32_t answer[STORY_IMAGE_SLEEPER_LIST_ITEM_WORDS], count[STORY_IMAGE_SLEEPER_COUNT_WORDS] = {MARK};
    story_image_sleeper_find_list_item_in(image, (const uint8_t *)name, strlen(name), answer, count);
    return count[0];
}

/* The text in so many bytes, its length in so many words, under so many words of a view. What is not written stays. */
static uint32_t copy(const struct story_image_sleeper *image, size_t view_length, const uint32_t *which, uint8_t *text,
                     size_t text_length, size_t size_length, uint32_t *length) {
    uint32_t *size = marked(size_length);
    memset(text, 0x5a, text_length);
    uint32_t number = story_image_sleeper_text(image->bytes, image->length, image->view, view_length, which[0],
                                               which[1], which[2], text, text_length, size, size_length);
    size_t written = number == STORY_IMAGE_OK ? size[0] : 0, at = written;
    while (at < text_length && text[at] == 0x5a)
        at++;
    CHECK(at == text_length, "text %u of %u: bytes past it stay", (unsigned)which[0], (unsigned)which[1]);
    CHECK(all_are(size, number == STORY_IMAGE_OK ? 1 : 0, size_length, MARK), "words past its length stay");
    *length = (uint32_t)written;
    free(size);
    return number;
}

/* The same with other room, other words for the length, a short view, and over the struct. */
static void copies(const struct story_image_sleeper *image, const uint32_t *which, const uint8_t *text, uint32_t length,
                   bool there) {
    const uint32_t due = there ? STORY_IMAGE_OK : STORY_IMAGE_NOT_FOUND;
    const uint32_t none = there ? STORY_IMAGE_NO_ROOM : STORY_IMAGE_NOT_FOUND;
    uint8_t *other = (uint8_t *)room(length + 1);
    uint32_t long_as;
    CHECK(copy(image, VIEW, which, other, length, 1, &long_as) == due && memcmp(other, text, long_as) == 0,
          "text %u of %u, as much room as it takes", (unsigned)which[0], (unsigned)which[1]);
    CHECK(copy(image, VIEW, which, other, length + 1, 2, &long_as) == due && memcmp(other, text, long_as) == 0,
          "one byte and one word more");
    CHECK(length == 0 || copy(image, VIEW, which, other, length - 1, 1, &long_as) == none, "one byte less");
    CHECK(copy(image, VIEW, which, other, 0, 1, &long_as) == (length == 0 ? due : none), "no room");
    CHECK(copy(image, VIEW, which, other, length, 0, &long_as) == none, "no word for the length");
    CHECK(copy(image, VIEW - 1, which, other, length, 1, &long_as) == STORY_IMAGE_NOT_FOUND, "a short view");
    memset(other, 0x5a, length + 1);
    long_as = MARK;
    CHECK(story_image_sleeper_text_in(image, which[0], which[1], which[2], other, length, &long_as) == due,
          "the same number over the struct");
    CHECK(there ? long_as == length && memcmp(other, text, length) == 0 : long_as == MARK, "the same over the struct");
    CHECK(other[length] == 0x5a, "no byte behind it");
    CHECK(length != 0 || story_image_sleeper_text_in(image, which[0], which[1], which[2], NULL, 0, &long_as) == due,
          "no room over the struct");
    free(other);
}

uint8_t *text_of(const struct story_image_sleeper *image, uint32_t kind, uint32_t a, uint32_t b, uint32_t *length) {
    const uint32_t which[3] = {kind, a, b};
    struct asked asked = {a, b, kind, image->bytes, 0};
    uint32_t told[STORY_IMAGE_SLEEPER_COUNT_WORDS];
    uint8_t *text = (uint8_t *)room(image->length);
    bool there = ask(TEXT_LENGTH, image, &asked, told);
    uint32_t number = copy(image, VIEW, which, text, image->length, 1, length);
    CHECK(number == (there ? STORY_IMAGE_OK : STORY_IMAGE_NOT_FOUND), "text %u of %u: %u", (unsigned)kind, (unsigned)a,
          (unsigned)number);
    CHECK(!there || told[0] == *length, "text %u of %u is as long as is told", (unsigned)kind, (unsigned)a);
    copies(image, which, text, *length, there);
    if (there)
        return text;
    free(text);
    return NULL;
}

bool text_is(const struct story_image_sleeper *image, uint32_t kind, uint32_t a, uint32_t b, const char *due) {
    uint32_t length;
    uint8_t *text = text_of(image, kind, a, b, &length);
    bool right = text != NULL && length == strlen(due) && memcmp(text, due, length) == 0;
    free(text);
    return right;
}

size_t words_needed(const struct story_image_sleeper *image) {
    size_t needed = 1;
    for (size_t at = 24; at <= 40; at += 8)
        needed += word_of(image->bytes + at);
    return needed;
}

/* The same load over the struct: number and view, whatever it was before. */
static void load_again(const struct story_image_sleeper *image, size_t words, uint32_t number, const uint32_t *view) {
    struct story_image_sleeper other = *image;
    uint32_t *work = marked(words);
    memset(other.view, 0x5a, sizeof other.view);
    CHECK(story_image_sleeper_load_in(&other, work, words) == number, "%u: the same over the struct", (unsigned)number);
    CHECK(memcmp(other.view, view, sizeof other.view) == 0, "%u: the same view over the struct", (unsigned)number);
    CHECK(story_image_sleeper_load_words_in(image) == story_image_sleeper_load_words(image->bytes, image->length),
          "its work words");
    free(work);
}

uint32_t load(struct story_image_sleeper *image, size_t words) {
    uint32_t *work = marked(words), *view = marked(VIEW + 1);
    uint8_t *before = (uint8_t *)copy_of(image->bytes, image->length);
    uint32_t number = story_image_sleeper_load(image->bytes, image->length, work, words, view, VIEW + 1);
    CHECK(number <= STORY_IMAGE_BAD_DEFINITION, "a load gives %u", (unsigned)number);
    if (number >= 1 && number <= STORY_IMAGE_TOO_FEW_WORDS) {
        CHECK(all_are(work, 0, words, MARK), "%u leaves the work words", (unsigned)number);
    } else {
        size_t needed = words_needed(image);
        CHECK(needed <= words && all_are(work, 0, needed, 0), "the work words are 0");
        CHECK(all_are(work, needed, words, MARK), "words past them stay");
    }
    CHECK(all_are(view, number == 0 ? VIEW : 0, VIEW + 1, MARK),
          "the view is written where nothing is refused, and not past its words");
    CHECK(memcmp(before, image->bytes, image->length) == 0, "no byte of the image changes");
    if (number == 0)
        memcpy(image->view, view, sizeof image->view);
    load_again(image, words, number, view);
    free(work);
    free(view);
    free(before);
    return number;
}

struct story_image_sleeper accepted(uint8_t *bytes, size_t length, const char *what) {
    struct story_image_sleeper image;
    memset(&image, 0, sizeof image);
    image.bytes = bytes;
    image.length = length;
    uint32_t number = load(&image, length / 4);
    CHECK(number == STORY_IMAGE_OK, "%s is accepted: %u", what, (unsigned)number);
    return image;
}

void release(struct story_image_sleeper *image) {
    free((void *)image->bytes);
}
