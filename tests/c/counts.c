/* Who points at a node: counts of an image, of a draft, and one target of a draft changed with its counts. */
#include "drafts.h"
#include "groups.h"

/* ---- Counts of an image */

/* Where the target stands among the ten words of a node; 0 for a kind without one. */
static size_t target_place(uint32_t kind) {
    if (kind == STORY_IMAGE_KIND_CHOICE || kind == STORY_IMAGE_KIND_DIVERT || kind == STORY_IMAGE_KIND_DIVERT_TARGET)
        return STORY_IMAGE_SLOT_F2;
    return kind == STORY_IMAGE_KIND_REFERENCE ? STORY_IMAGE_SLOT_F4 : 0;
}

/* Nodes of an image: none where they do not lie in the bytes. */
static size_t node_count(const struct story_image *image) {
    uint64_t start = image->view[STORY_IMAGE_NODES], count = image->view[STORY_IMAGE_NODES_COUNT];
    return start + 40 * count <= image->length ? (size_t)count : 0;
}

/* The words of all nodes of an image. */
static uint32_t *node_words(const struct story_image *image) {
    size_t count = node_count(image);
    uint32_t *words = marked(10 * count);
    for (size_t i = 0; i < 10 * count; i++)
        words[i] = word_at(image, image->view[STORY_IMAGE_NODES] + 4 * i);
    return words;
}

/* A plain count over the words of nodes; gives how many targets are nodes. */
static size_t plain_count(const uint32_t *nodes, size_t count, uint32_t *counts) {
    size_t present = 0;
    memset(counts, 0, 4 * count);
    for (size_t node = 0; node < count; node++) {
        size_t place = target_place(nodes[10 * node + STORY_IMAGE_SLOT_KIND]);
        uint32_t target = place == 0 ? NONE : nodes[10 * node + place];
        if (target == NONE || target >= count)
            continue;
        counts[target]++;
        present++;
    }
    return present;
}

static size_t sum_of(const uint32_t *words, size_t count) {
    size_t sum = 0;
    for (size_t i = 0; i < count; i++)
        sum += words[i];
    return sum;
}

/* Counts in so many words, which are marked first; over the struct the same number and words. */
static uint32_t counts_in(const struct story_image *image, size_t view_length, uint32_t *counts, size_t words) {
    for (size_t i = 0; i < words; i++)
        counts[i] = MARK;
    uint32_t number = story_image_count_targets(image->bytes, image->length, image->view, view_length, counts, words);
    if (view_length < STORY_IMAGE_VIEW_WORDS)
        return number;
    uint32_t *other = marked(words);
    CHECK(story_image_count_targets_in(image, other, words) == number, "counts over the struct: the same number");
    CHECK(memcmp(other, counts, 4 * words) == 0, "counts over the struct: the same words");
    free(other);
    return number;
}

/* In more and in fewer words: each count is the one that is due and words past the nodes stay, or it is 27 and all
 * words stay. Under a short view it is 18 in any case, and all words stay. Gives the sum of the counts. */
static size_t counts_of(const struct story_image *image, const char *name) {
    size_t count = node_count(image), fewer = count == 0 ? 0 : count - 1;
    const size_t rooms[] = {count, count + 1, count + 12, count + 500, fewer, count / 2, 1, 0};
    uint32_t *due = marked(count), *nodes = node_words(image);
    size_t present = plain_count(nodes, count, due);
    CHECK(sum_of(due, count) == present, "%s: the counts add up", name);
    for (size_t i = 0; i < sizeof rooms / sizeof rooms[0]; i++) {
        size_t words = rooms[i];
        bool fits = words >= count;
        uint32_t *counts = marked(words);
        CHECK(counts_in(image, STORY_IMAGE_VIEW_WORDS - 1, counts, words) == STORY_IMAGE_NOT_FOUND &&
                  counts_in(image, 0, counts, words) == STORY_IMAGE_NOT_FOUND && all_are(counts, 0, words, MARK),
              "%s: a short view, %u words", name, (unsigned)words);
        uint32_t number = counts_in(image, STORY_IMAGE_VIEW_WORDS, counts, words);
        CHECK(number == (fits ? STORY_IMAGE_OK : STORY_IMAGE_BAD_SUMMARY), "%s: counts in %u words give %u", name,
              (unsigned)words, (unsigned)number);
        CHECK(!fits || memcmp(counts, due, 4 * count) == 0, "%s: the counts", name);
        CHECK(all_are(counts, fits ? count : 0, words, MARK), "%s: other words stay, %u of them", name,
              (unsigned)words);
        free(counts);
    }
    free(nodes);
    free(due);
    return present;
}

static void image_counts(const char *folder) {
    static const struct {
        const char *name;
        size_t targets;
    } table[] = {{"smallest", 0}, {"step", 9}, {"guide", 69}, {"largest", 0}};
    for (size_t i = 0; i < sizeof table / sizeof table[0]; i++) {
        struct story_image image = accepted(folder, table[i].name);
        size_t present = counts_of(&image, table[i].name);
        CHECK(present == table[i].targets, "%s: %u targets", table[i].name, (unsigned)present);
        release(&image);
    }
    struct story_image chain = chain_image();
    CHECK(counts_of(&chain, "chain") == 0, "containers, named entries and the index count for nothing");
    release(&chain);
}

/* Samples that are refused, under the view that their header says; any bytes; nodes that end outside them. */
static void refused_counts(const char *folder) {
    static const char *const names[] = {"tag", "text", "root", "circle", "place", "choice-target", "sections", "cut"};
    for (size_t i = 0; i < sizeof names / sizeof names[0]; i++) {
        struct story_image refused = sample(folder, names[i]);
        view_by_header(&refused);
        counts_of(&refused, names[i]);
        release(&refused);
    }
    struct story_image image = accepted(folder, "step");
    uint32_t seed = 7;
    for (int round = 0; round < ROUNDS; round++) {
        struct story_image other = changed(&image, round, &seed);
        counts_of(&other, "any bytes");
        release(&other);
    }
    const uint32_t count = image.view[STORY_IMAGE_NODES_COUNT], last = (uint32_t)image.length - 40 * count;
    const uint32_t outside[] = {last + 1, (uint32_t)image.length, NONE};
    uint32_t none[1] = {MARK};
    for (size_t i = 0; i < SIZE(outside); i++) {
        image.view[STORY_IMAGE_NODES] = outside[i];
        CHECK(counts_in(&image, STORY_IMAGE_VIEW_WORDS, none, 0) == STORY_IMAGE_OK, "nodes outside need no word");
        CHECK(counts_of(&image, "nodes outside") == 0, "nodes outside name none");
    }
    release(&image);
}

/* Targets that are no nodes: they count for nothing, and no word is written past the nodes. */
static void targets_outside(const char *folder) {
    struct story_image image = accepted(folder, "step");
    const uint32_t count = image.view[STORY_IMAGE_NODES_COUNT], words[] = {count, count + 1, 0x7fffffff, NONE - 1};
    size_t present = counts_of(&image, "step");
    for (size_t i = 0; i < SIZE(words); i++) {
        /* node 3 is a divert with a target */
        set_word(&image, 3, STORY_IMAGE_SLOT_F2, words[i]);
        CHECK(counts_of(&image, "a target outside") == present - 1, "target %u counts for nothing", (unsigned)words[i]);
    }
    set_word(&image, 3, STORY_IMAGE_SLOT_F2, count - 1);
    CHECK(counts_of(&image, "the last node") == present, "the last node is one");
    release(&image);
}

/* ---- Counts of a draft */

/* The root with a choice, a divert, a divert-target value, a reference and a glue; the named container night with a
 * container and a divert without target as children. Words that are no target hold numbers of nodes. It is in reading
 * order, so that its image has the same numbers. */
enum { CHOICE_NODE = 1, DIVERT_NODE, VALUE_NODE, REFERENCE_NODE, OTHER_NODE, NIGHT, INNER, LAST_NODE, STORY_NODES };

static const uint32_t story_nodes[STORY_NODES][10] = {
    {NONE, NONE, STORY_IMAGE_KIND_CONTAINER, NONE, NONE, NIGHT, 0, 5, 0, 1},
    {0, 0, STORY_IMAGE_KIND_CHOICE, 3, 5, NIGHT, INNER, INNER, INNER, INNER},
    {0, 1, STORY_IMAGE_KIND_DIVERT, 3, 5, INNER, NONE, NONE, INNER, 1},
    {0, 2, STORY_IMAGE_KIND_DIVERT_TARGET, 3, 5, NIGHT, INNER, INNER, INNER, INNER},
    {0, 3, STORY_IMAGE_KIND_REFERENCE, 8, 4, 3, 5, NIGHT, INNER, INNER},
    {0, 4, STORY_IMAGE_KIND_GLUE, INNER, INNER, INNER, INNER, INNER, INNER, INNER},
    {0, NONE, STORY_IMAGE_KIND_CONTAINER, 3, 5, 1, 5, 2, 1, 0},
    {NIGHT, 0, STORY_IMAGE_KIND_CONTAINER, NONE, NONE, INNER, 7, 0, 1, 0},
    {NIGHT, 1, STORY_IMAGE_KIND_DIVERT, NONE, NONE, NONE, NONE, NONE, INNER, 0},
};

static const uint32_t story_counts[STORY_NODES] = {0, 0, 0, 0, 0, 0, 3, 1, 0};

/* The draft in these nodes, which are set. */
static struct story_image_draft story_draft(uint32_t (*nodes)[10]) {
    static const uint32_t children[] = {1, 2, 3, 4, 5, 7, 8}, named[] = {3, 5, NIGHT};
    static const uint32_t definitions[] = {3, 5, 0, 1}, items[] = {8, 4, 1};
    memcpy(nodes, story_nodes, sizeof story_nodes);
    struct story_image_draft draft = draft_of(nodes[0], 10 * STORY_NODES, "ev+nightseen");
    draft.children = children;
    draft.children_length = SIZE(children);
    draft.named = named;
    draft.named_length = SIZE(named);
    draft.definitions = definitions;
    draft.definitions_length = SIZE(definitions);
    draft.items = items;
    draft.items_length = SIZE(items);
    draft.payload = draft.strings;
    return draft;
}

/* Counts of a draft in so many words, which are marked first; over the struct the same number and words. */
static uint32_t counts_in_draft(const struct story_image_draft *draft, uint32_t *counts, size_t words) {
    for (size_t i = 0; i < words; i++)
        counts[i] = MARK;
    uint32_t number = story_image_count_draft_targets(
        draft->nodes, draft->nodes_length, draft->children, draft->children_length, draft->named, draft->named_length,
        draft->definitions, draft->definitions_length, draft->items, draft->items_length, draft->payload,
        draft->payload_length, draft->strings, draft->strings_length, counts, words);
    uint32_t *other = marked(words);
    CHECK(story_image_draft_count_targets(draft, other, words) == number, "a draft over the struct: the same number");
    CHECK(memcmp(other, counts, 4 * words) == 0, "a draft over the struct: the same words");
    CHECK(number == 0 || all_are(counts, 0, words, MARK), "%u leaves the counts", (unsigned)number);
    free(other);
    return number;
}

/* A draft's counts are its plain count and no other word; with a word fewer it is 27. */
static void counts_of_draft(const struct story_image_draft *draft, const char *name) {
    size_t count = draft->nodes_length / 10;
    const size_t rooms[] = {count, count + 1, count + 500, count - 1, count / 2, 0};
    uint32_t *due = marked(count), *nodes = (uint32_t *)copy_of(draft->nodes, 4 * draft->nodes_length);
    size_t present = plain_count(nodes, count, due);
    for (size_t i = 0; i < sizeof rooms / sizeof rooms[0]; i++) {
        size_t words = rooms[i];
        uint32_t *counts = marked(words), number = counts_in_draft(draft, counts, words);
        CHECK(number == (words >= count ? STORY_IMAGE_OK : STORY_IMAGE_BAD_SUMMARY), "%s: %u words give %u", name,
              (unsigned)words, (unsigned)number);
        CHECK(number != 0 || (memcmp(counts, due, 4 * count) == 0 && sum_of(counts, count) == present),
              "%s: the counts", name);
        CHECK(number != 0 || all_are(counts, count, words, MARK), "%s: words past the nodes stay", name);
        free(counts);
    }
    CHECK(memcmp(nodes, draft->nodes, 4 * draft->nodes_length) == 0, "%s: no node word changes", name);
    free(nodes);
    free(due);
}

static void draft_counts(void) {
    uint32_t nodes[STORY_NODES][10], counts[STORY_NODES + 1];
    struct story_image_draft draft = story_draft(nodes);
    counts_of_draft(&draft, "the draft");
    CHECK(counts_in_draft(&draft, counts, STORY_NODES) == 0 && memcmp(counts, story_counts, sizeof story_counts) == 0,
          "the counts of each kind");
    struct story_image image = written(&draft, "the draft");
    CHECK(counts_of(&image, "its image") == 4, "four targets");
    CHECK(counts_in(&image, STORY_IMAGE_VIEW_WORDS, counts, STORY_NODES) == 0 &&
              memcmp(counts, story_counts, sizeof story_counts) == 0,
          "its image has the same counts");
    release(&image);
    nodes[DIVERT_NODE][5] = nodes[REFERENCE_NODE][7] = NONE;
    counts_of_draft(&draft, "absent targets");
    nodes[DIVERT_NODE][5] = nodes[VALUE_NODE][5] = nodes[LAST_NODE][5] = LAST_NODE;
    counts_of_draft(&draft, "the last node");
    draft = draft_of(root_node, SIZE(root_node), "");
    draft.children = draft.named = draft.definitions = draft.items = root_node;
    draft.payload = draft.strings;
    counts_of_draft(&draft, "the root");
}

/* Drafts that the writer refuses with 20, 21 and 22 are counted, and their targets are changed. */
static void other_drafts(void) {
    static const uint32_t two[] = {1, 2};
    uint32_t nodes[STORY_NODES][10], length, counts[STORY_NODES];
    uint8_t output[1] = {0};
    struct story_image_draft draft = story_draft(nodes);
    const size_t needed = write_words(&draft);
    nodes[CHOICE_NODE][1] = 1;
    CHECK(put(&draft, 21, needed, output, 0, &length) == STORY_IMAGE_DRAFT_SHAPE, "a place that is wrong");
    counts_of_draft(&draft, "21");
    CHECK(story_image_draft_count_targets(&draft, counts, STORY_NODES) == 0 &&
              story_image_draft_set_target(&draft, counts, STORY_NODES, CHOICE_NODE, INNER) == 0 &&
              counts[NIGHT] == 2 && counts[INNER] == 2,
          "21, a change");
    /* a root without children, and a divert */
    draft = story_draft(nodes);
    draft.nodes_length = 20;
    draft.children_length = draft.named_length = 0;
    nodes[0][7] = nodes[0][9] = 0;
    memcpy(nodes[1], story_nodes[LAST_NODE], sizeof nodes[1]);
    nodes[1][0] = 0;
    CHECK(put(&draft, 21, needed, output, 0, &length) == STORY_IMAGE_DRAFT_UNREACHED, "a node unreached");
    counts_of_draft(&draft, "20");
    CHECK(story_image_draft_count_targets(&draft, counts, 2) == 0 &&
              story_image_draft_set_target(&draft, counts, 2, 1, 1) == 0 && counts[0] == 0 && counts[1] == 1,
          "20, a divert to itself");
    /* a root with two children of one name */
    draft = story_draft(nodes);
    draft.nodes_length = 30;
    draft.children = two;
    draft.children_length = 2;
    draft.named_length = 0;
    nodes[0][7] = 2;
    nodes[0][9] = 0;
    for (uint32_t node = 1; node < 3; node++) {
        const uint32_t container[] = {0, node - 1, STORY_IMAGE_KIND_CONTAINER, 3, 5, 0, 2, 0, 0, 0};
        memcpy(nodes[node], container, sizeof container);
    }
    CHECK(put(&draft, 21, needed, output, 0, &length) == STORY_IMAGE_DRAFT_PATHS, "two of one path");
    counts_of_draft(&draft, "22");
}

/* ---- A target changed */

/* The number that is due of a draft whose tables are right, and what is due in nodes and counts. */
static uint32_t due_change(uint32_t *nodes, size_t count, uint32_t *counts, size_t words, uint32_t node,
                           uint32_t target) {
    if (words < count)
        return STORY_IMAGE_BAD_SUMMARY;
    uint32_t kind = node < count ? nodes[10 * node + STORY_IMAGE_SLOT_KIND] : 0;
    bool inside = target < count, absent = target == NONE;
    bool container = inside && nodes[10 * target + STORY_IMAGE_SLOT_KIND] == STORY_IMAGE_KIND_CONTAINER;
    bool allowed = (kind == STORY_IMAGE_KIND_CHOICE && container) ||
                   (kind == STORY_IMAGE_KIND_DIVERT && (inside || absent)) ||
                   (kind == STORY_IMAGE_KIND_DIVERT_TARGET && inside) ||
                   (kind == STORY_IMAGE_KIND_REFERENCE && (container || absent));
    if (!allowed)
        return STORY_IMAGE_NOT_FOUND;
    uint32_t *word = &nodes[10 * node + target_place(kind)];
    if (*word == target)
        return STORY_IMAGE_OK;
    if ((*word != NONE && counts[*word] == 0) || (!absent && counts[target] == NONE))
        return STORY_IMAGE_BAD_SUMMARY;
    if (*word != NONE)
        counts[*word]--;
    if (!absent)
        counts[target]++;
    *word = target;
    return STORY_IMAGE_OK;
}

static uint32_t set_by_slices(const struct story_image_draft *draft, uint32_t *nodes, uint32_t *counts, size_t words,
                              uint32_t node, uint32_t target) {
    return story_image_set_target(nodes, draft->nodes_length, draft->children, draft->children_length, draft->named,
                                  draft->named_length, draft->definitions, draft->definitions_length, draft->items,
                                  draft->items_length, draft->payload, draft->payload_length, draft->strings,
                                  draft->strings_length, counts, words, node, target);
}

/* Sets a target in the draft's nodes and in so many counts, by slices of exactly these lengths: the number is the one
 * that is due, nodes and counts are as is due, and a refusal leaves them. Over the struct it is the same. */
static uint32_t set(struct story_image_draft *draft, bool broken, uint32_t *counts, size_t words, uint32_t node,
                    uint32_t target) {
    size_t length = 4 * draft->nodes_length;
    uint32_t *nodes = (uint32_t *)copy_of(draft->nodes, length), *lent = (uint32_t *)copy_of(counts, 4 * words);
    uint32_t *due_nodes = (uint32_t *)copy_of(nodes, length), *due = (uint32_t *)copy_of(counts, 4 * words);
    uint32_t due_number = broken ? (uint32_t)STORY_IMAGE_BAD_DRAFT
                                 : due_change(due_nodes, draft->nodes_length / 10, due, words, node, target);
    uint32_t number = set_by_slices(draft, nodes, lent, words, node, target);
    CHECK(number == due_number, "node %u to %u: %u, not %u", (unsigned)node, (unsigned)target, (unsigned)number,
          (unsigned)due_number);
    CHECK(memcmp(nodes, due_nodes, length) == 0, "%u: the nodes, node %u to %u", (unsigned)number, (unsigned)node,
          (unsigned)target);
    CHECK(memcmp(lent, due, 4 * words) == 0, "%u: the counts, node %u to %u", (unsigned)number, (unsigned)node,
          (unsigned)target);
    CHECK(story_image_draft_set_target(draft, counts, words, node, target) == number, "%u over the struct",
          (unsigned)number);
    CHECK(memcmp(draft->nodes, due_nodes, length) == 0 && memcmp(counts, due, 4 * words) == 0,
          "%u over the struct: nodes and counts", (unsigned)number);
    free(due);
    free(due_nodes);
    free(lent);
    free(nodes);
    return number;
}

/* Each node with each target, from right counts, which are right afterwards. */
static void each_kind(void) {
    static const uint32_t targets[] = {0,     1,         2,           3,          4,        5,   NIGHT,
                                       INNER, LAST_NODE, STORY_NODES, 0x7fffffff, NONE - 1, NONE};
    uint32_t nodes[STORY_NODES][10], counts[STORY_NODES + 2], plain[STORY_NODES], given[STORY_NODES] = {0};
    struct story_image_draft draft = story_draft(nodes);
    for (uint32_t node = 0; node < STORY_NODES; node++)
        for (size_t i = 0; i < SIZE(targets); i++) {
            draft = story_draft(nodes);
            CHECK(counts_in_draft(&draft, counts, SIZE(counts)) == 0, "counts before a change");
            uint32_t number = set(&draft, false, counts, SIZE(counts), node, targets[i]);
            CHECK(number == STORY_IMAGE_OK || number == STORY_IMAGE_NOT_FOUND, "node %u to %u gives %u", (unsigned)node,
                  (unsigned)targets[i], (unsigned)number);
            given[node] += number == 0;
            size_t present = plain_count(nodes[0], STORY_NODES, plain);
            CHECK(memcmp(plain, counts, sizeof plain) == 0 && sum_of(counts, STORY_NODES) == present,
                  "node %u to %u: right counts", (unsigned)node, (unsigned)targets[i]);
        }
    /* containers; all nodes and none; all nodes; containers and none */
    CHECK(given[CHOICE_NODE] == 3 && given[DIVERT_NODE] == STORY_NODES + 1 && given[VALUE_NODE] == STORY_NODES &&
              given[REFERENCE_NODE] == 4 && given[LAST_NODE] == STORY_NODES + 1,
          "how many targets each kind may have");
    CHECK(given[0] + given[OTHER_NODE] + given[NIGHT] + given[INNER] == 0, "containers and a glue have no target");
}

/* A target set where there was none and cleared: one step each. */
static void absent_targets(void) {
    uint32_t nodes[STORY_NODES][10], counts[STORY_NODES];
    struct story_image_draft draft = story_draft(nodes);
    memcpy(counts, story_counts, sizeof counts);
    CHECK(set(&draft, false, counts, STORY_NODES, LAST_NODE, NONE) == 0, "none stays none");
    CHECK(memcmp(counts, story_counts, sizeof counts) == 0, "that is no step");
    CHECK(set(&draft, false, counts, STORY_NODES, LAST_NODE, LAST_NODE) == 0 && nodes[LAST_NODE][5] == LAST_NODE &&
              counts[LAST_NODE] == 1 && sum_of(counts, STORY_NODES) == 5,
          "a target set");
    CHECK(set(&draft, false, counts, STORY_NODES, LAST_NODE, NONE) == 0 && nodes[LAST_NODE][5] == NONE &&
              memcmp(counts, story_counts, sizeof counts) == 0,
          "a target cleared");
    CHECK(set(&draft, false, counts, STORY_NODES, REFERENCE_NODE, NONE) == 0 && nodes[REFERENCE_NODE][7] == NONE &&
              counts[NIGHT] == 2,
          "a reference cleared");
    CHECK(set(&draft, false, counts, STORY_NODES, REFERENCE_NODE, 0) == 0 && counts[0] == 1, "and set again");
    CHECK(nodes[REFERENCE_NODE][5] == 3 && nodes[DIVERT_NODE][3] == 3, "path texts stay");
    CHECK(set(&draft, false, counts, STORY_NODES, CHOICE_NODE, NONE) == STORY_IMAGE_NOT_FOUND, "a choice needs one");
    CHECK(set(&draft, false, counts, STORY_NODES, VALUE_NODE, NONE) == STORY_IMAGE_NOT_FOUND, "so does a value");
}

/* Words that cannot take the step, and those that can though they are at an end; to itself there is no step. */
static void words_at_ends(void) {
    static const struct {
        uint32_t old, new_, number;
    } table[] = {{0, 5, STORY_IMAGE_BAD_SUMMARY},       {0, 0, STORY_IMAGE_BAD_SUMMARY},
                 {0, NONE, STORY_IMAGE_BAD_SUMMARY},    {1, NONE, STORY_IMAGE_BAD_SUMMARY},
                 {NONE, NONE, STORY_IMAGE_BAD_SUMMARY}, {NONE, 0, STORY_IMAGE_OK},
                 {1, NONE - 1, STORY_IMAGE_OK},         {1, 0, STORY_IMAGE_OK}};
    uint32_t nodes[STORY_NODES][10], counts[STORY_NODES];
    for (size_t i = 0; i < sizeof table / sizeof table[0]; i++)
        for (uint32_t node = CHOICE_NODE; node <= REFERENCE_NODE; node++) {
            struct story_image_draft draft = story_draft(nodes);
            uint32_t old = nodes[node][node == REFERENCE_NODE ? 7 : 5], other = old == NIGHT ? INNER : NIGHT;
            memset(counts, 0, sizeof counts);
            counts[old] = table[i].old;
            counts[other] = table[i].new_;
            CHECK(set(&draft, false, counts, STORY_NODES, node, old) == 0 && counts[old] == table[i].old,
                  "row %u: node %u to the target it has", (unsigned)i, (unsigned)node);
            CHECK(set(&draft, false, counts, STORY_NODES, node, other) == table[i].number, "row %u: node %u moved",
                  (unsigned)i, (unsigned)node);
        }
    struct story_image_draft draft = story_draft(nodes);
    memset(counts, 0, sizeof counts);
    CHECK(set(&draft, false, counts, STORY_NODES, DIVERT_NODE, NONE) == STORY_IMAGE_BAD_SUMMARY, "a 0 to go down");
    memset(counts, 255, sizeof counts);
    CHECK(set(&draft, false, counts, STORY_NODES, LAST_NODE, 0) == STORY_IMAGE_BAD_SUMMARY, "a top to go up");
    CHECK(set(&draft, false, counts, STORY_NODES, LAST_NODE, NONE) == 0, "none to none, whatever the words hold");
    CHECK(set(&draft, false, counts, STORY_NODES, DIVERT_NODE, NONE) == 0 && counts[INNER] == NONE - 1,
          "a top goes down");
}

/* 19, then 27 for too few words, then 18, then 27 for a step: each where all that come later apply too. */
static void order_of_tests(void) {
    uint32_t nodes[STORY_NODES][10], counts[STORY_NODES + 1];
    struct story_image_draft draft = story_draft(nodes);
    memset(counts, 0, sizeof counts);
    nodes[VALUE_NODE][5] = NONE;
    for (size_t words = 0; words <= SIZE(counts); words++) {
        CHECK(counts_in_draft(&draft, counts, words) == STORY_IMAGE_BAD_DRAFT, "19 before 27");
        CHECK(set(&draft, true, counts, words, OTHER_NODE, NONE) == STORY_IMAGE_BAD_DRAFT, "19 before 27 and 18");
        CHECK(set(&draft, true, counts, words, DIVERT_NODE, NIGHT) == STORY_IMAGE_BAD_DRAFT, "19 before 27, last");
        CHECK(set(&draft, true, counts, words, VALUE_NODE, NIGHT) == STORY_IMAGE_BAD_DRAFT, "19 is not mended");
    }
    draft = story_draft(nodes);
    memset(counts, 0, sizeof counts);
    for (size_t words = 0; words < STORY_NODES; words++) {
        CHECK(set(&draft, false, counts, words, NONE, NIGHT) == STORY_IMAGE_BAD_SUMMARY, "27 before 18");
        CHECK(set(&draft, false, counts, words, DIVERT_NODE, INNER) == STORY_IMAGE_BAD_SUMMARY, "27 before no step");
        CHECK(set(&draft, false, counts, words, DIVERT_NODE, NONE) == STORY_IMAGE_BAD_SUMMARY, "27 before 27");
    }
    for (size_t words = STORY_NODES; words <= SIZE(counts); words++) {
        CHECK(set(&draft, false, counts, words, STORY_NODES, NIGHT) == STORY_IMAGE_NOT_FOUND, "a node outside");
        CHECK(set(&draft, false, counts, words, NONE, NONE) == STORY_IMAGE_NOT_FOUND, "no node");
        CHECK(set(&draft, false, counts, words, CHOICE_NODE, OTHER_NODE) == STORY_IMAGE_NOT_FOUND, "18 before 27");
        CHECK(set(&draft, false, counts, words, CHOICE_NODE, INNER) == STORY_IMAGE_BAD_SUMMARY, "27, last");
        CHECK(set(&draft, false, counts, words, CHOICE_NODE, NIGHT) == STORY_IMAGE_OK, "to itself");
    }
}

/* Kinds without target, whatever their words hold. */
static void other_kinds(void) {
    static const uint32_t kinds[][6] = {
        {STORY_IMAGE_KIND_COMMAND, 0, 2, NIGHT, NIGHT, NIGHT},  {STORY_IMAGE_KIND_GLUE, 0, 0, NIGHT, NIGHT, NIGHT},
        {STORY_IMAGE_KIND_OPERATOR, 2, 1, NIGHT, NIGHT, NIGHT}, {STORY_IMAGE_KIND_TAG, 3, 5, NIGHT, NIGHT, NIGHT},
        {STORY_IMAGE_KIND_BOOL, 1, 0, NIGHT, NIGHT, NIGHT},     {STORY_IMAGE_KIND_INT, 7, 0, NIGHT, NIGHT, NIGHT},
        {STORY_IMAGE_KIND_FLOAT, 7, 0, NIGHT, NIGHT, NIGHT},    {STORY_IMAGE_KIND_STRING, 3, 5, NIGHT, NIGHT, NIGHT},
        {STORY_IMAGE_KIND_LIST, 0, 8, NIGHT, NIGHT, NIGHT},     {STORY_IMAGE_KIND_POINTER, 8, 4, NIGHT, NIGHT, NIGHT},
        {STORY_IMAGE_KIND_ASSIGNMENT, 8, 4, 1, NIGHT, NIGHT},   {STORY_IMAGE_KIND_VOID, 0, 0, NIGHT, NIGHT, NIGHT}};
    static const uint8_t no_items[8] = {0};
    uint32_t nodes[STORY_NODES][10], counts[STORY_NODES];
    for (size_t i = 0; i < sizeof kinds / sizeof kinds[0]; i++) {
        struct story_image_draft draft = story_draft(nodes);
        memcpy(nodes[OTHER_NODE] + STORY_IMAGE_SLOT_KIND, kinds[i], sizeof kinds[i]);
        draft.payload = no_items;
        draft.payload_length = kinds[i][0] == STORY_IMAGE_KIND_LIST ? 8 : 0;
        CHECK(counts_in_draft(&draft, counts, STORY_NODES) == 0 && memcmp(counts, story_counts, sizeof counts) == 0,
              "kind %u counts for nothing", (unsigned)kinds[i][0]);
        CHECK(set(&draft, false, counts, STORY_NODES, OTHER_NODE, INNER) == STORY_IMAGE_NOT_FOUND,
              "kind %u has no target", (unsigned)kinds[i][0]);
        CHECK(set(&draft, false, counts, STORY_NODES, DIVERT_NODE, OTHER_NODE) == 0 && counts[OTHER_NODE] == 1,
              "kind %u as a target", (unsigned)kinds[i][0]);
    }
}

/* 19 is the writer's, whatever word is changed, of the counts and of a change. */
static void draft_tested(void) {
    static const uint32_t words[] = {0, 1, 5, 13, 99, NONE};
    uint32_t nodes[STORY_NODES][10], counts[STORY_NODES], length;
    uint8_t output[1] = {0};
    struct story_image_draft draft = story_draft(nodes);
    const size_t needed = write_words(&draft);
    for (size_t at = 0; at < 10 * STORY_NODES; at++)
        for (size_t i = 0; i < SIZE(words); i++) {
            draft = story_draft(nodes);
            nodes[at / 10][at % 10] = words[i];
            bool broken = put(&draft, 21, needed, output, 0, &length) == STORY_IMAGE_BAD_DRAFT;
            uint32_t number = counts_in_draft(&draft, counts, STORY_NODES);
            CHECK(number == (broken ? (uint32_t)STORY_IMAGE_BAD_DRAFT : 0), "counts, word %u is %u: %u", (unsigned)at,
                  (unsigned)words[i], (unsigned)number);
            set(&draft, broken, counts, STORY_NODES, DIVERT_NODE, 0);
        }
    draft = story_draft(nodes);
    draft.nodes_length++;
    CHECK(counts_in_draft(&draft, counts, 0) == STORY_IMAGE_BAD_DRAFT, "a word left over");
    draft.nodes_length = 0;
    CHECK(counts_in_draft(&draft, counts, STORY_NODES) == STORY_IMAGE_BAD_DRAFT, "no node");
    CHECK(set(&draft, true, counts, STORY_NODES, 0, 0) == STORY_IMAGE_BAD_DRAFT, "no node to change");
}

/* Chains of any changes: from right counts they stay right, and the draft is still good; from any counts each change
 * does what is due. */
static void chains(void) {
    uint32_t nodes[STORY_NODES][10], counts[STORY_NODES + 3], plain[STORY_NODES], seed = 11, numbers[28] = {0};
    struct story_image_draft draft = story_draft(nodes);
    CHECK(counts_in_draft(&draft, counts, SIZE(counts)) == 0, "counts before a chain");
    for (int round = 0; round < 4000; round++) {
        uint32_t any = next(&seed), node = (any >> 8) % (STORY_NODES + 1), target = (any >> 20) % (STORY_NODES + 2);
        if (round == 3000) /* from here on counts that are not right */
            for (size_t i = 0; i < STORY_NODES; i++)
                counts[i] = i % 3 == 0 ? 0 : i % 3 == 1 ? NONE : 2;
        numbers[set(&draft, false, counts, SIZE(counts), node, target == STORY_NODES + 1 ? NONE : target) % 28]++;
        if (round >= 3000)
            continue;
        size_t present = plain_count(nodes[0], STORY_NODES, plain);
        CHECK(memcmp(plain, counts, sizeof plain) == 0 && sum_of(counts, STORY_NODES) == present,
              "round %d: the counts are right", round);
        CHECK(numbers[STORY_IMAGE_BAD_SUMMARY] == 0, "round %d: right counts take every step", round);
    }
    CHECK(counts_in_draft(&draft, plain, STORY_NODES) == 0, "the draft is still good");
    CHECK(numbers[STORY_IMAGE_OK] > 500 && numbers[STORY_IMAGE_NOT_FOUND] > 500 &&
              numbers[STORY_IMAGE_BAD_SUMMARY] > 50,
          "%u changed, %u with 18, %u with 27", (unsigned)numbers[0], (unsigned)numbers[18], (unsigned)numbers[27]);
}

void test_counts(const char *folder) {
    image_counts(folder);
    refused_counts(folder);
    targets_outside(folder);
    draft_counts();
    other_drafts();
    each_kind();
    absent_targets();
    words_at_ends();
    order_of_tests();
    other_kinds();
    draft_tested();
    chains();
}
