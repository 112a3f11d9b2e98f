#include "drafts.h"

uint32_t root_node[STORY_IMAGE_DRAFT_NODE_WORDS] = {NONE, NONE, STORY_IMAGE_KIND_CONTAINER, NONE, NONE, 0, 0, 0, 0, 0};

uint32_t target_numbers;

void set_strings(struct story_image_draft *draft, const char *strings) {
    draft->strings = (const uint8_t *)strings;
    draft->strings_length = strlen(strings);
}

struct story_image_draft draft_of(uint32_t *nodes, size_t nodes_length, const char *strings) {
    struct story_image_draft draft;
    memset(&draft, 0, sizeof draft);
    draft.nodes = nodes;
    draft.nodes_length = nodes_length;
    set_strings(&draft, strings);
    return draft;
}

size_t write_words(const struct story_image_draft *draft) {
    size_t words = 16 * (draft->nodes_length / 10) +
                   4 * (draft->children_length + draft->named_length / 3 + draft->definitions_length / 4 +
                        draft->items_length / 3 + draft->payload_length);
    CHECK(story_image_draft_write_words(draft) == words, "the words that writing needs");
    return words;
}

/* Whether work words that were marked are as writing, or finding targets, leaves them: 3, 19 and 7 leave all of them,
 * else as many as are needed are 0, and those past them stay. */
static bool work_is_left(const struct story_image_draft *draft, const uint32_t *work, size_t words, uint32_t number) {
    if (number == STORY_IMAGE_BAD_INK_VERSION || number == STORY_IMAGE_BAD_DRAFT || number == STORY_IMAGE_TOO_FEW_WORDS)
        return all_are(work, 0, words, MARK);
    size_t needed = write_words(draft);
    return needed <= words && all_are(work, 0, needed, 0) && all_are(work, needed, words, MARK);
}

/* A write by its slices, with two words for the length. */
static uint32_t write_by_slices(const struct story_image_draft *draft, uint32_t *work, size_t words, uint8_t *output,
                                size_t length, uint32_t *written) {
    static const uint32_t none[1] = {0};
    return story_image_write(
        draft->ink_version, draft->nodes, draft->nodes_length, draft->children ? draft->children : none,
        draft->children_length, draft->named ? draft->named : none, draft->named_length,
        draft->definitions ? draft->definitions : none, draft->definitions_length, draft->items ? draft->items : none,
        draft->items_length, draft->payload, draft->payload_length, draft->strings, draft->strings_length, work, words,
        output, length, written, 2);
}

/* The same write over the struct: number, length and output. */
static void put_again(const struct story_image_draft *draft, size_t words, const uint8_t *before, const uint8_t *due,
                      size_t length, uint32_t number, uint32_t long_as) {
    uint32_t *work = marked(words), written[2] = {MARK, MARK};
    uint8_t *output = (uint8_t *)copy_of(before, length);
    CHECK(story_image_draft_write(draft, work, words, output, length, written) == number,
          "%u: the same over the struct", (unsigned)number);
    CHECK(memcmp(output, due, length) == 0, "%u: the same output over the struct", (unsigned)number);
    CHECK(written[0] == long_as && written[1] == MARK, "%u: the same length over the struct", (unsigned)number);
    CHECK(work_is_left(draft, work, words, number), "%u: the work words over the struct", (unsigned)number);
    free(output);
    free(work);
}

uint32_t put(const struct story_image_draft *draft, uint32_t ink, size_t words, uint8_t *output, size_t length,
             uint32_t *long_as) {
    struct story_image_draft lent = *draft;
    uint32_t *work = marked(words), written[2] = {MARK, MARK};
    uint8_t *before = (uint8_t *)copy_of(output, length);
    uint8_t *payload = (uint8_t *)copy_of(draft->payload, draft->payload_length);
    uint8_t *strings = (uint8_t *)copy_of(draft->strings, draft->strings_length);
    lent.ink_version = ink;
    lent.payload = payload;
    lent.strings = strings;
    uint32_t number = write_by_slices(&lent, work, words, output, length, written);
    CHECK(work_is_left(draft, work, words, number), "%u: the work words", (unsigned)number);
    CHECK(number == 0 || memcmp(before, output, length) == 0, "%u leaves the output", (unsigned)number);
    CHECK(number != 0 || memcmp(before + written[0], output + written[0], length - written[0]) == 0,
          "bytes past the image stay");
    CHECK(written[1] == MARK, "one word for the length");
    CHECK((written[0] == MARK) == (number != 0 && number != STORY_IMAGE_NO_ROOM), "%u: the length", (unsigned)number);
    put_again(&lent, words, before, output, length, number, written[0]);
    *long_as = written[0];
    free(strings);
    free(payload);
    free(work);
    free(before);
    return number;
}

struct story_image written(const struct story_image_draft *draft, const char *name) {
    uint32_t length, written;
    size_t words = write_words(draft);
    uint8_t none[1] = {0};
    CHECK(put(draft, 21, words, none, 0, &length) == STORY_IMAGE_NO_ROOM, "%s: its length", name);
    if (length == MARK) /* it is refused: no bytes, which no load accepts */
        length = 0;
    uint8_t *output = (uint8_t *)room(length);
    memset(output, 0x77, length);
    CHECK(put(draft, 21, words, output, length, &written) == STORY_IMAGE_OK && written == length, "%s is written",
          name);
    struct story_image image = image_of(output, length);
    CHECK(load(&image, length / 4) == STORY_IMAGE_OK, "%s loads", name);
    free(output);
    return image;
}

uint32_t find_targets(const struct story_image_draft *draft, uint32_t *nodes, const struct story_image_paths *paths,
                      uint32_t ink, size_t words) {
    struct story_image_draft given = *draft;
    struct story_image_paths beside = *paths;
    uint32_t *work = marked(words), *lent = (uint32_t *)copy_of(nodes, 4 * draft->nodes_length);
    uint32_t *entries = (uint32_t *)copy_of(paths->paths, 4 * paths->paths_length);
    uint32_t *components = (uint32_t *)copy_of(paths->components, 4 * paths->components_length);
    uint8_t *names = (uint8_t *)copy_of(paths->names, paths->names_length);
    uint8_t *payload = (uint8_t *)copy_of(draft->payload, draft->payload_length);
    uint8_t *strings = (uint8_t *)copy_of(draft->strings, draft->strings_length);
    given.ink_version = ink;
    given.nodes = lent;
    given.payload = payload;
    given.strings = strings;
    beside.paths = entries;
    beside.components = components;
    beside.names = names;
    uint32_t number = story_image_draft_resolve(&given, &beside, work, words);
    CHECK(number <= STORY_IMAGE_NO_CONTAINER, "targets: %u", (unsigned)number);
    target_numbers |= UINT32_C(1) << (number & 31);
    CHECK(work_is_left(draft, work, words, number), "targets, %u: the work words", (unsigned)number);
    CHECK(number == 0 || memcmp(lent, nodes, 4 * draft->nodes_length) == 0, "%u leaves the draft", (unsigned)number);
    memcpy(nodes, lent, 4 * draft->nodes_length);
    free(strings);
    free(payload);
    free(names);
    free(components);
    free(entries);
    free(lent);
    free(work);
    return number;
}

static struct story_image_draft chain_draft(void) {
    static uint32_t nodes[CHAIN][STORY_IMAGE_DRAFT_NODE_WORDS], children[CHAIN], named[CHAIN][3];
    uint32_t ordered = 0, entries = 0;
    for (uint32_t k = 0; k < CHAIN; k++) {
        bool even = k % 2 == 0, is_named = even && k > 0;
        uint32_t count = k + 1 < CHAIN;
        const uint32_t node[] = {k == 0 ? NONE : k - 1,
                                 even ? NONE : 0,
                                 STORY_IMAGE_KIND_CONTAINER,
                                 is_named ? 0 : NONE,
                                 is_named ? 1 : NONE,
                                 0,
                                 ordered,
                                 even ? count : 0,
                                 entries,
                                 even ? 0 : count};
        const uint32_t entry[] = {0, 1, k + 1};
        memcpy(nodes[k], node, sizeof node);
        if (even && count == 1)
            children[ordered++] = k + 1;
        else if (count == 1)
            memcpy(named[entries++], entry, sizeof entry);
    }
    struct story_image_draft draft = draft_of(nodes[0], SIZE(nodes), "a");
    draft.children = children;
    draft.children_length = ordered;
    draft.named = named[0];
    draft.named_length = 3 * (size_t)entries;
    return draft;
}

struct story_image chain_image(void) {
    struct story_image_draft draft = chain_draft();
    struct story_image image = written(&draft, "a chain");
    CHECK(image.view[STORY_IMAGE_NODES_COUNT] == CHAIN, "the nodes of a chain");
    return image;
}
