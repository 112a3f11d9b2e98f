/* Depths: of all nodes of the samples, of a chain, of parents that lead outside or in a circle. */
#include "asked.h"
#include "drafts.h"
#include "groups.h"

static bool has_depth(const struct story_image *image, uint32_t node, uint32_t depth) {
    struct asked asked = {node, 0, 0, 0, image->bytes, 0};
    uint32_t answer[STORY_IMAGE_COUNT_WORDS];
    return ask(DEPTH, image, &asked, answer) && answer[0] == depth;
}

/* 18, and the answer stays, which `ask` sees. */
static bool no_depth(const struct story_image *image, uint32_t node) {
    struct asked asked = {node, 0, 0, 0, image->bytes, 0};
    uint32_t answer[STORY_IMAGE_COUNT_WORDS];
    return !ask(DEPTH, image, &asked, answer);
}

/* The parent steps from a node to node 0, counted over views of nodes; NONE if they are not fewer than the nodes. */
static uint32_t steps_of(const struct story_image *image, uint32_t node) {
    uint32_t words[STORY_IMAGE_NODE_WORDS];
    for (uint32_t steps = 0; steps < image->view[STORY_IMAGE_NODES_COUNT]; steps++) {
        if (node == 0)
            return steps;
        if (story_image_node_view_in(image, node, words) != 0)
            return NONE;
        node = words[STORY_IMAGE_NODE_PARENT];
    }
    return NONE;
}

/* Every node's depth is its parent steps; outside there is none. Gives how many containers below the root are without
 * a place, and so only named children. */
static uint32_t depths_of(const struct story_image *image, const char *name) {
    uint32_t count = image->view[STORY_IMAGE_NODES_COUNT], only_named = 0, words[STORY_IMAGE_NODE_WORDS];
    for (uint32_t node = 0; node < count; node++) {
        uint32_t steps = steps_of(image, node);
        CHECK(steps < count && has_depth(image, node, steps), "%s: depth of node %u", name, (unsigned)node);
        struct asked asked = {node, 0, 0, 0, image->bytes, 0};
        CHECK(ask(NODE_VIEW, image, &asked, words), "%s: view of node %u", name, (unsigned)node);
        if (node == 0 || words[STORY_IMAGE_NODE_KIND] != STORY_IMAGE_KIND_CONTAINER ||
            words[STORY_IMAGE_NODE_PLACE] != NONE)
            continue;
        only_named++;
        CHECK(has_depth(image, words[STORY_IMAGE_NODE_PARENT], steps - 1), "%s: named child %u, one below its parent",
              name, (unsigned)node);
    }
    CHECK(no_depth(image, count) && no_depth(image, NONE), "%s: no depth outside", name);
    return only_named;
}

static void depths(const char *folder) {
    static const struct {
        const char *name;
        uint32_t only_named;
    } table[] = {{"smallest", 0}, {"step", 6}, {"guide", 36}, {"largest", 0}};
    for (size_t i = 0; i < sizeof table / sizeof table[0]; i++) {
        struct story_image image = accepted(folder, table[i].name);
        uint32_t only_named = depths_of(&image, table[i].name);
        CHECK(only_named == table[i].only_named, "%s: %u containers are only named children", table[i].name,
              (unsigned)only_named);
        release(&image);
    }
    struct story_image smallest = accepted(folder, "smallest");
    CHECK(has_depth(&smallest, 0, 0) && no_depth(&smallest, 1) && no_depth(&smallest, NONE), "the root alone");
    release(&smallest);
}

/* Bytes that no load accepts: parents in a circle, parents outside. */
static void no_depths(const char *folder) {
    struct story_image circle = sample(folder, "circle"), image = accepted(folder, "step"),
                       other = sample(folder, "step");
    view_by_header(&other);
    CHECK(memcmp(image.view, other.view, sizeof image.view) == 0, "the view by the header");
    view_by_header(&circle);
    CHECK(circle.view[STORY_IMAGE_NODES_COUNT] == 3 && has_depth(&circle, 0, 0), "the root beside a circle");
    CHECK(no_depth(&circle, 1) && no_depth(&circle, 2), "a circle of two");
    CHECK(no_depth(&circle, 3) && no_depth(&circle, NONE), "outside");
    /* nodes 6 and 7 are children of node 5, and that one of the root */
    const uint32_t count = image.view[STORY_IMAGE_NODES_COUNT], strange[] = {count, NONE, 5, 6};
    CHECK(has_depth(&image, 5, 1) && has_depth(&image, 6, 2), "parents that lead to the root");
    for (size_t i = 0; i < SIZE(strange); i++) {
        set_word(&image, 5, STORY_IMAGE_SLOT_PARENT, strange[i]);
        CHECK(no_depth(&image, 5) && no_depth(&image, 6) && no_depth(&image, 7), "parent %u", (unsigned)strange[i]);
        CHECK(has_depth(&image, 0, 0) && has_depth(&image, 1, 1), "nodes beside it");
    }
    release(&circle);
    release(&image);
    release(&other);
}

static void chain(void) {
    struct story_image image = chain_image();
    CHECK(depths_of(&image, "chain") == CHAIN / 2 - 1, "every other container is only a named child");
    for (uint32_t node = 0; node < CHAIN; node++)
        CHECK(has_depth(&image, node, node), "depth of container %u", (unsigned)node);
    release(&image);
}

void test_depths(const char *folder) {
    depths(folder);
    no_depths(folder);
    chain();
}
