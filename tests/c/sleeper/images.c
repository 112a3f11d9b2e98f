#include "images.h"

void put_text(uint32_t *words, struct strings *strings, const char *text) {
    uint32_t at = strings->named++;
    if (!strings->placed) {
        strings->texts[at] = text;
        strings->count = strings->named;
    }
    words[0] = strings->offsets[at];
    words[1] = (uint32_t)strlen(text);
}

/* Where bytes stand in the strings; their length if nowhere. */
static uint32_t place_of(const struct strings *strings, const char *text, size_t length) {
    for (uint32_t at = 0; at + length <= strings->length; at++)
        if (memcmp(strings->bytes + at, text, length) == 0)
            return at;
    return strings->length;
}

static void append(struct strings *strings, const char *text) {
    size_t length = strlen(text);
    if (strings->length + length > STRINGS_ROOM)
        abort();
    memcpy(strings->bytes + strings->length, text, length);
    strings->length += (uint32_t)length;
}

void place_texts(struct strings *strings, const struct layout *layout) {
    for (uint32_t k = 0; k < strings->count; k++) {
        uint32_t at = layout->backwards ? strings->count - 1 - k : k;
        const char *text = strings->texts[at];
        uint32_t place = place_of(strings, text, strlen(text));
        if (!layout->shared || place == strings->length) {
            append(strings, layout->unused);
            place = strings->length;
            append(strings, text);
        }
        strings->offsets[at] = place;
    }
    strings->named = 0;
    strings->placed = true;
}

/* The checksum of an image: every byte except 84 to 87. */
static uint32_t checksum_of(const uint8_t *bytes, size_t length) {
    uint32_t sum = UINT32_MAX;
    for (size_t i = 0; i < length; i++) {
        if (i >= 84 && i < 88)
            continue;
        sum ^= bytes[i];
        for (int bit = 0; bit < 8; bit++)
            sum = sum >> 1 ^ (sum & 1 ? UINT32_C(0xedb88320) : 0);
    }
    return ~sum;
}

uint8_t *image_bytes(const struct tables *tables, const struct strings *strings, size_t *length) {
    const struct {
        const uint32_t *words;
        size_t count, size;
    } sections[7] = {
        {tables->nodes[0], tables->node_count, 40},      {tables->children, tables->child_count, 4},
        {tables->named[0], tables->named_count, 12},     {tables->definitions[0], tables->definition_count, 16},
        {tables->items[0], tables->item_count, 12},      {tables->index[0], tables->index_count, 12},
        {tables->payload, 4 * tables->payload_words, 1},
    };
    size_t at = STORY_IMAGE_HEADER_BYTES;
    uint8_t head[STORY_IMAGE_HEADER_BYTES] = "BLINKIMG";
    uint8_t *bytes = (uint8_t *)room(sizeof *tables + sizeof *strings);
    for (size_t k = 0; k < 7; k++) {
        put_word(head + 20 + 8 * k, (uint32_t)at);
        put_word(head + 24 + 8 * k, (uint32_t)sections[k].count);
        for (size_t word = 0; word < sections[k].count * sections[k].size / 4; word++, at += 4)
            put_word(bytes + at, sections[k].words[word]);
    }
    put_word(head + 76, (uint32_t)at);
    put_word(head + 80, strings->length);
    memcpy(bytes + at, strings->bytes, strings->length);
    *length = at + strings->length;
    put_word(head + 8, 2);
    put_word(head + 12, STORY_IMAGE_LAST_INK_VERSION);
    put_word(head + 16, (uint32_t)*length);
    memcpy(bytes, head, sizeof head);
    put_word(bytes + 84, checksum_of(bytes, *length));
    uint8_t *whole = (uint8_t *)copy_of(bytes, *length);
    free(bytes);
    return whole;
}

/* A node without fields. */
static uint32_t *add_node(struct tables *tables, uint32_t parent, uint32_t place, uint32_t kind) {
    uint32_t *node = tables->nodes[tables->node_count++];
    node[0] = parent;
    node[1] = place;
    node[2] = kind;
    for (int word = 3; word < 10; word++)
        node[word] = NONE;
    return node;
}

/* A node whose text is f0 f1. */
static uint32_t *add_text(struct tables *tables, struct strings *strings, uint32_t parent, uint32_t place,
                          uint32_t kind, const char *text) {
    uint32_t *node = add_node(tables, parent, place, kind);
    put_text(node + 3, strings, text);
    return node;
}

/* A container's flags, and starts and counts of its children and named children. */
static void set_container(uint32_t *node, uint32_t flags, uint32_t child, uint32_t children, uint32_t entry,
                          uint32_t entries) {
    const uint32_t words[5] = {flags, child, children, entry, entries};
    memcpy(node + 5, words, sizeof words);
}

/* Two items, one with an origin, and two origins. */
static void add_list(struct tables *tables, struct strings *strings) {
    uint32_t *payload = tables->payload, *node = add_node(tables, 0, LIST - 1, STORY_IMAGE_KIND_LIST);
    payload[0] = 2;
    payload[1] = 2;
    put_text(payload + 2, strings, "red");
    put_text(payload + 4, strings, "low");
    payload[6] = 1;
    payload[7] = payload[8] = NONE;
    put_text(payload + 9, strings, "loose");
    payload[11] = (uint32_t)-7;
    put_text(payload + 12, strings, "red");
    put_text(payload + 14, strings, "size");
    tables->payload_words = 16;
    node[3] = 0;
    node[4] = 64;
}

/* Nodes from the divert on that the root has as children. */
static void add_values(struct tables *tables, struct strings *strings) {
    uint32_t *divert = add_text(tables, strings, 0, DIVERT - 1, STORY_IMAGE_KIND_DIVERT, "knot");
    divert[5] = KNOT;
    put_text(divert + 6, strings, "where");
    divert[8] = 2;
    divert[9] = STORY_IMAGE_DIVERT_PUSHES | 1 << STORY_IMAGE_DIVERT_PUSH_SHIFT;
    uint32_t *choice = add_text(tables, strings, 0, CHOICE - 1, STORY_IMAGE_KIND_CHOICE, "knot.leaf");
    choice[5] = LEAF;
    choice[6] = STORY_IMAGE_CHOICE_ONCE_ONLY;
    add_text(tables, strings, 0, COMMAND - 1, STORY_IMAGE_KIND_COMMAND, "done");
    add_text(tables, strings, 0, OPERATOR - 1, STORY_IMAGE_KIND_OPERATOR, "!?");
    add_node(tables, 0, BOOL - 1, STORY_IMAGE_KIND_BOOL)[3] = 1;
    add_node(tables, 0, INT - 1, STORY_IMAGE_KIND_INT)[3] = (uint32_t)-5;
    add_node(tables, 0, FLOAT - 1, STORY_IMAGE_KIND_FLOAT)[3] = UINT32_C(0x7fc00001);
    add_text(tables, strings, 0, TARGET - 1, STORY_IMAGE_KIND_DIVERT_TARGET, "knot")[5] = KNOT;
    add_text(tables, strings, 0, POINTER - 1, STORY_IMAGE_KIND_POINTER, "where")[5] = (uint32_t)-1;
    add_text(tables, strings, 0, ASSIGNMENT - 1, STORY_IMAGE_KIND_ASSIGNMENT, "tech:")[5] =
        STORY_IMAGE_ASSIGNMENT_GLOBAL;
    uint32_t *reference = add_text(tables, strings, 0, REFERENCE - 1, STORY_IMAGE_KIND_REFERENCE, "seen");
    put_text(reference + 5, strings, "knot");
    reference[7] = KNOT;
    add_node(tables, 0, GLUE - 1, STORY_IMAGE_KIND_GLUE);
    add_node(tables, 0, VOID - 1, STORY_IMAGE_KIND_VOID);
}

/* The definitions `red` and `size`, which both have an item `low`; the paths of the three containers. */
static void add_entries(struct tables *tables, struct strings *strings) {
    static const char *const paths[] = {"", "knot", "knot.leaf"}, *const items[] = {"low", "tall", "low"};
    static const uint32_t containers[] = {0, KNOT, LEAF}, first[] = {0, 2, 3};
    put_text(tables->named[0], strings, "knot");
    tables->named[0][2] = KNOT;
    put_text(tables->named[1], strings, "leaf");
    tables->named[1][2] = LEAF;
    for (uint32_t d = 0; d < 2; d++) {
        put_text(tables->definitions[d], strings, d == 0 ? "red" : "size");
        tables->definitions[d][2] = first[d];
        tables->definitions[d][3] = first[d + 1] - first[d];
    }
    for (uint32_t k = 0; k < 3; k++) {
        put_text(tables->items[k], strings, items[k]);
        tables->items[k][2] = k - 1;
        put_text(tables->index[k], strings, paths[k]);
        tables->index[k][2] = containers[k];
    }
    tables->named_count = tables->definition_count = 2;
    tables->item_count = tables->index_count = 3;
}

static void fill_guide(struct tables *tables, struct strings *strings, const struct guide *guide) {
    memset(tables, 0, sizeof *tables);
    set_container(add_node(tables, NONE, NONE, STORY_IMAGE_KIND_CONTAINER), 0, 0, KNOT, 0, 1);
    add_text(tables, strings, 0, 0, guide->first_is_string ? STORY_IMAGE_KIND_STRING : STORY_IMAGE_KIND_TAG,
             guide->first);
    add_text(tables, strings, 0, GREETING - 1, STORY_IMAGE_KIND_STRING, "hi");
    add_text(tables, strings, 0, PLAIN_TAG - 1, STORY_IMAGE_KIND_TAG, "loud");
    add_list(tables, strings);
    add_values(tables, strings);
    add_text(tables, strings, 0, NEAR_NOTE - 1, STORY_IMAGE_KIND_TAG, "Tech:a");
    set_container(add_text(tables, strings, 0, KNOT - 1, STORY_IMAGE_KIND_CONTAINER, "knot"), 5, KNOT, 2, 1, 1);
    set_container(add_text(tables, strings, KNOT, NONE, STORY_IMAGE_KIND_CONTAINER, "leaf"), 0, KNOT + 2, 0, 2, 0);
    add_text(tables, strings, KNOT, 0, STORY_IMAGE_KIND_TAG, guide->second);
    add_text(tables, strings, KNOT, 1, STORY_IMAGE_KIND_STRING, "tech:said");
    for (uint32_t child = 0; child < KNOT; child++)
        tables->children[child] = child + 1;
    tables->children[KNOT] = SECOND_NOTE;
    tables->children[KNOT + 1] = STRING_LIKE_A_NOTE;
    tables->child_count = KNOT + 2;
    add_entries(tables, strings);
}

uint8_t *guide_bytes(const struct guide *guide, const struct layout *layout, size_t *length) {
    static struct tables tables;
    static struct strings strings;
    memset(&strings, 0, sizeof strings);
    fill_guide(&tables, &strings, guide);
    place_texts(&strings, layout);
    fill_guide(&tables, &strings, guide);
    return image_bytes(&tables, &strings, length);
}

uint8_t *parts_bytes(const struct part *parts, size_t count, const char *text, size_t *length) {
    static struct tables tables;
    static struct strings strings;
    memset(&strings, 0, sizeof strings);
    memset(&tables, 0, sizeof tables);
    append(&strings, text);
    set_container(add_node(&tables, NONE, NONE, STORY_IMAGE_KIND_CONTAINER), 0, 0, (uint32_t)count, 0, 0);
    for (uint32_t k = 0; k < count; k++) {
        uint32_t *node = add_node(&tables, 0, k, parts[k].kind);
        node[3] = parts[k].offset;
        node[4] = parts[k].length;
        if (parts[k].kind == STORY_IMAGE_KIND_ASSIGNMENT || parts[k].kind == STORY_IMAGE_KIND_DIVERT_TARGET)
            node[5] = 0;
        tables.children[k] = k + 1;
    }
    tables.child_count = count;
    tables.index_count = 1;
    return image_bytes(&tables, &strings, length);
}

uint8_t *one_text_bytes(uint32_t kind, const char *text, size_t *length) {
    const struct part part = {kind, 0, (uint32_t)strlen(text)};
    return parts_bytes(&part, 1, text, length);
}
