/* Two images that differ only in what notes hold after `tech:`, in where texts lie, and in lengths and checksum give
 * every call the same answers, byte for byte; a third, with a tag in place of a note, does not. */
#include "calls.h"
#include "groups.h"
#include "images.h"

/* Everything that was answered, in the order of the calls. */
struct transcript {
    uint8_t *bytes;
    size_t length, room;
};

static void write_down(struct transcript *all, const void *bytes, size_t length) {
    if (all->length + length > all->room) {
        all->room = 2 * (all->length + length);
        all->bytes = (uint8_t *)realloc(all->bytes, all->room);
        if (all->bytes == NULL)
            abort();
    }
    if (length != 0)
        memcpy(all->bytes + all->length, bytes, length);
    all->length += length;
}

static void write_number(struct transcript *all, uint32_t number) {
    write_down(all, &number, sizeof number);
}

/* The load with so many work words, for a view of so many words: number, work words, view. */
static void ask_load(struct transcript *all, const struct story_image_sleeper *image, size_t words, size_t view_words) {
    uint32_t *work = marked(words), *view = marked(view_words);
    write_number(all, story_image_sleeper_load(image->bytes, image->length, work, words, view, view_words));
    write_down(all, work, 4 * words);
    write_down(all, view, 4 * view_words);
    free(work);
    free(view);
}

static void ask_loads(struct transcript *all, const struct story_image_sleeper *image) {
    size_t needed = story_image_sleeper_load_words(image->bytes, image->length);
    write_number(all, (uint32_t)needed);
    for (size_t words = 0; words <= needed + 2; words++)
        ask_load(all, image, words, STORY_IMAGE_SLEEPER_VIEW_WORDS + 1);
    for (size_t words = 0; words <= STORY_IMAGE_SLEEPER_VIEW_WORDS; words++)
        ask_load(all, image, needed, words);
}

/* A text with so many bytes of room: number, text, length. */
static void ask_text(struct transcript *all, const struct story_image_sleeper *image, const struct asked *asked,
                     size_t text_length) {
    uint8_t text[40];
    uint32_t size = MARK;
    memset(text, 0x5a, sizeof text);
    write_number(all, story_image_sleeper_text_in(image, asked->kind, asked->a, asked->b, text, text_length, &size));
    write_down(all, text, sizeof text);
    write_number(all, size);
}

static void ask_texts(struct transcript *all, const struct story_image_sleeper *image, struct asked asked) {
    for (asked.kind = 0; asked.kind <= STORY_IMAGE_SLEEPER_TEXT_KINDS; asked.kind++) {
        uint32_t length[STORY_IMAGE_SLEEPER_COUNT_WORDS] = {MARK};
        write_number(all, ask(TEXT_LENGTH, image, &asked, length));
        write_number(all, length[0]);
        for (size_t room = 0; room <= 40; room += room < 10 ? 1 : 10)
            ask_text(all, image, &asked, room);
    }
}

static void ask_query(struct transcript *all, const struct story_image_sleeper *image, int query,
                      const struct asked *asked) {
    uint32_t words[MOST_WORDS] = {0};
    write_number(all, ask(query, image, asked, words));
    write_down(all, words, 4 * words_of(query));
}

/* Every query for two numbers, without a name. */
static void ask_queries(struct transcript *all, const struct story_image_sleeper *image, const struct asked *asked) {
    for (int query = 0; query < QUERIES; query++)
        ask_query(all, image, query, asked);
}

/* The queries that take a name. */
static void ask_names(struct transcript *all, const struct story_image_sleeper *image, uint32_t node) {
    static const char *const names[] = {"",      " ",       "knot",     "leaf", "low",   "tall",
                                        "loose", "red.low", "size.low", "red.", "tech:a"};
    for (size_t k = 0; k < sizeof names / sizeof names[0]; k++) {
        const struct asked asked = {node, 0, 0, (const uint8_t *)names[k], strlen(names[k])};
        ask_query(all, image, FIND, &asked);
        ask_query(all, image, LIST_ITEM, &asked);
        write_number(all, searched_by(image, names[k]));
    }
}

/* Walks along none, one and two components of a path, and along words left over. */
static void ask_walk(struct transcript *all, const struct story_image_sleeper *image, uint32_t node,
                     const uint32_t *path) {
    for (size_t words = 0; words <= 6; words++) {
        uint32_t found[2] = {MARK, MARK};
        write_number(all, story_image_sleeper_resolve_path_in(image, node, true, path, words,
                                                              (const uint8_t *)"knotleaf", 8, found));
        write_number(all, story_image_sleeper_resolve_path_in(image, node, false, path, words,
                                                              (const uint8_t *)"knotleaf", 8, found + 1));
        write_down(all, found, sizeof found);
    }
}

/* Paths that lead up, to children and to names, one outside the lent ones. */
static void ask_walks(struct transcript *all, const struct story_image_sleeper *image, uint32_t node) {
    static const uint32_t steps[][3] = {{STORY_IMAGE_STEP_PARENT, 0, 0}, {STORY_IMAGE_STEP_INDEX, 0, 0},
                                        {STORY_IMAGE_STEP_INDEX, 18, 0}, {STORY_IMAGE_STEP_NAME, 0, 4},
                                        {STORY_IMAGE_STEP_NAME, 4, 4},   {STORY_IMAGE_STEP_NAME, 5, 9}};
    for (size_t first = 0; first < 6; first++)
        for (size_t second = 0; second < 6; second++) {
            uint32_t path[6];
            memcpy(path, steps[first], sizeof steps[0]);
            memcpy(path + 3, steps[second], sizeof steps[0]);
            ask_walk(all, image, node, path);
        }
}

static struct transcript everything(const struct story_image_sleeper *image) {
    struct transcript all = {NULL, 0, 0};
    static const uint32_t indices[] = {0, 1, 2, 18, NONE};
    ask_loads(&all, image);
    write_down(&all, image->view, sizeof image->view);
    uint32_t count = image->view[STORY_IMAGE_SLEEPER_NODES_COUNT];
    for (uint32_t node = 0; node <= count + 1; node++) {
        uint32_t a = node > count ? NONE : node;
        ask_walks(&all, image, a);
        ask_names(&all, image, a);
        for (size_t k = 0; k < SIZE(indices); k++) {
            const struct asked asked = {a, indices[k], 0, (const uint8_t *)"", 0};
            ask_texts(&all, image, asked);
            ask_queries(&all, image, &asked);
        }
    }
    return all;
}

/* Where two transcripts differ first; their length if nowhere. */
static size_t first_difference(const struct transcript *one, const struct transcript *other) {
    size_t at = 0;
    while (at < one->length && at < other->length && one->bytes[at] == other->bytes[at])
        at++;
    return at;
}

/* Whether an image gives these answers; its bytes are freed. */
static bool answers_are(uint8_t *bytes, size_t length, const struct transcript *due) {
    struct story_image_sleeper image = accepted(bytes, length, "one of two");
    struct transcript given = everything(&image);
    bool equal = given.length == due->length && first_difference(&given, due) == due->length;
    free(given.bytes);
    release(&image);
    return equal;
}

static bool same(const struct guide *guide, const struct layout *layout, const struct transcript *due) {
    size_t length;
    uint8_t *bytes = guide_bytes(guide, layout, &length);
    return answers_are(bytes, length, due);
}

/* The two samples with notes; a third sample. */
static void samples(const char *folder) {
    size_t one_length, length;
    uint8_t *one = sample_bytes(folder, "note-one", &one_length), *two = sample_bytes(folder, "note-two", &length);
    struct story_image_sleeper image = accepted(one, one_length, "note-one");
    struct transcript due = everything(&image);
    CHECK(one_length != length && answers_are(two, length, &due), "note-two is read as note-one is");
    uint8_t *step = sample_bytes(folder, "step", &length);
    CHECK(!answers_are(step, length, &due), "step is not");
    free(due.bytes);
    release(&image);
}

void test_unseen(const char *folder) {
    static const struct layout plain = {false, false, ""};
    static const struct layout layouts[] = {
        {true, false, ""}, {false, true, ""}, {true, true, ""}, {false, false, "\xff"}, {true, true, "unused tech:"}};
    static const struct guide one = {"tech:a", "tech:", false};
    static const struct guide two = {"tech:left electrode loose", "tech:hi knot", false};
    static const struct guide tag = {"tech;a", "tech:", false}, string = {"tech:a", "tech:", true};
    size_t length;
    uint8_t *bytes = guide_bytes(&one, &plain, &length);
    struct story_image_sleeper image = accepted(bytes, length, "the guide");
    struct transcript due = everything(&image);
    CHECK(due.length > 100000, "%u bytes of answers", (unsigned)due.length);
    CHECK(same(&two, &plain, &due), "other notes");
    for (size_t k = 0; k < sizeof layouts / sizeof layouts[0]; k++) {
        CHECK(same(&one, &layouts[k], &due), "layout %u", (unsigned)k);
        CHECK(same(&two, &layouts[k], &due), "layout %u, other notes", (unsigned)k);
    }
    CHECK(!same(&tag, &plain, &due), "a tag in place of a note is seen");
    CHECK(!same(&string, &plain, &due), "a string in place of a note is seen");
    free(due.bytes);
    release(&image);
    samples(folder);
}
