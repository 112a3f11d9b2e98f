/* List items by name. */
#include "asked.h"
#include "drafts.h"
#include "groups.h"

/* A name and what is due of its look-up: the answer, if the item is found, and how many definitions are searched. */
struct look_up {
    const char *name;
    bool found;
    uint32_t answer[STORY_IMAGE_LIST_ITEM_WORDS], searched;
};

static uint32_t by_name(const struct story_image *image, size_t view_length, const char *name, uint32_t *answer,
                        size_t answer_length, uint32_t *searched, size_t searched_length) {
    size_t length = strlen(name);
    uint8_t *bytes = (uint8_t *)room(length);
    memcpy(bytes, name, length);
    uint32_t number = story_image_find_list_item(image->bytes, image->length, image->view, view_length, bytes, length,
                                                 answer, answer_length, searched, searched_length);
    free(bytes);
    return number;
}

/* With so many words lent, what is due of answer and count is written, and every other word stays. */
static void look_up_within(const struct story_image *image, const struct look_up *due, size_t view_length,
                           size_t answer_length, size_t searched_length) {
    uint32_t *answer = marked(answer_length), *searched = marked(searched_length);
    bool whole = view_length >= STORY_IMAGE_VIEW_WORDS;
    size_t answered = whole && due->found && answer_length >= SIZE(due->answer) ? SIZE(due->answer) : 0;
    size_t counted = whole && searched_length > 0;
    uint32_t number = by_name(image, view_length, due->name, answer, answer_length, searched, searched_length);
    CHECK(number == (answered > 0 ? STORY_IMAGE_OK : STORY_IMAGE_NOT_FOUND), "'%s' gives %u", due->name,
          (unsigned)number);
    CHECK(memcmp(answer, due->answer, 4 * answered) == 0, "'%s': definition, item and value", due->name);
    CHECK(all_are(answer, answered, answer_length, MARK), "'%s': other words of the answer stay", due->name);
    CHECK(all_are(searched, 0, counted, due->searched), "'%s': not %u definitions are searched", due->name,
          (unsigned)due->searched);
    CHECK(all_are(searched, counted, searched_length, MARK), "'%s': words behind the count stay", due->name);
    free(answer);
    free(searched);
}

/* A whole view and a short one, answers of 0 to 4 words, 0 to 2 words for the count. */
static void look_up(const struct story_image *image, const struct look_up *due) {
    for (size_t k = 0; k < 30; k++)
        look_up_within(image, due, STORY_IMAGE_VIEW_WORDS - k % 2, k / 2 % 5, k / 10);
}

static void look_up_all(const struct story_image *image, const struct look_up *table, size_t rows) {
    for (size_t i = 0; i < rows; i++)
        look_up(image, &table[i]);
}

#define LOOK_UP(image, table) look_up_all(image, table, sizeof table / sizeof table[0])

/* The root alone, and these definitions. */
static struct story_image_draft list_draft(const uint32_t *definitions, size_t definition_words, const uint32_t *items,
                                           size_t item_words, const char *strings) {
    struct story_image_draft draft = draft_of(root_node, SIZE(root_node), strings);
    draft.definitions = definitions;
    draft.definitions_length = definition_words;
    draft.items = items;
    draft.items_length = item_words;
    return draft;
}

/* Definition 0 is red: high 4, low 1; definition 1 is size: low 2, wide -1. */
static struct story_image two_lists(void) {
    static const uint32_t definitions[] = {0, 3, 0, 2, 3, 4, 2, 2};
    static const uint32_t items[] = {7, 4, 4, 11, 3, 1, 11, 3, 2, 14, 4, UINT32_MAX};
    struct story_image_draft draft =
        list_draft(definitions, SIZE(definitions), items, SIZE(items), "redsizehighlowwide");
    return written(&draft, "two lists");
}

/* Answers and counts written out. */
static void list_items(void) {
    static const struct look_up table[] = {
        {"low", true, {1, 2, 2}, 1},
        {"wide", true, {1, 3, UINT32_MAX}, 1},
        {"high", true, {0, 0, 4}, 2},
        {"red.low", true, {0, 1, 1}, 1},
        {"red.high", true, {0, 0, 4}, 1},
        {"size.low", true, {1, 2, 2}, 1},
        /* no such item: every definition, or the one named before the dot */
        {"lo", false, {0}, 2},
        {"lows", false, {0}, 2},
        {"red", false, {0}, 2},
        {" low", false, {0}, 2},
        {"size.high", false, {0}, 1},
        {"red.low ", false, {0}, 1},
        /* no such definition */
        {"no.low", false, {0}, 0},
        {"re.low", false, {0}, 0},
        {"reds.low", false, {0}, 0},
        {" red.low", false, {0}, 0},
        {"low.red", false, {0}, 0},
    };
    struct story_image image = two_lists();
    LOOK_UP(&image, table);
    definitions_of(&image);
    release(&image);
}

/* Names that are empty or blank, that begin or end with a dot or have two, that are not UTF-8. */
static void strange_names(void) {
    static const struct look_up table[] = {
        {"", false, {0}, 0},
        {" ", false, {0}, 0},
        {" \t\xe3\x80\x80", false, {0}, 0},
        {"\n\v\f\r\xc2\x85\xc2\xa0\xe2\x80\xa8", false, {0}, 0},
        /* nothing before the dot, nothing behind it */
        {".", false, {0}, 0},
        {" . ", false, {0}, 0},
        {".x", false, {0}, 0},
        {".low", false, {0}, 0},
        {"x.", false, {0}, 0},
        {"low.", false, {0}, 0},
        {"red.", false, {0}, 1},
        {"red. ", false, {0}, 1},
        /* the first of two dots */
        {"red..low", false, {0}, 1},
        {"red.low.", false, {0}, 1},
        {"red.size.low", false, {0}, 1},
        {"..", false, {0}, 0},
        /* not blank: U+200B is no White_Space; a part of U+3000 and byte ff are no characters */
        {"\xe2\x80\x8b", false, {0}, 2},
        {"\xe3\x80", false, {0}, 2},
        {" \xff", false, {0}, 2},
        {"red.\xff", false, {0}, 1},
        {"\xff.low", false, {0}, 0},
    };
    struct story_image image = two_lists();
    LOOK_UP(&image, table);
    release(&image);
}

/* Definitions with the empty name, with a dot in it, without items; items with the empty name and with a dot in it. */
static void strange_lists(void) {
    /* definition 0 has the empty name, 1 is a, 2 is a.b, 3 is e */
    static const uint32_t definitions[] = {0, 0, 0, 2, 0, 1, 2, 1, 0, 3, 3, 1, 6, 1, 4, 0};
    /* the empty name 3, x 4; b.c 5; c 6; none */
    static const uint32_t items[] = {0, 0, 3, 5, 1, 4, 2, 3, 5, 4, 1, 6};
    static const struct look_up table[] = {
        {"", false, {0}, 0},           {" ", false, {0}, 0},      {".", true, {0, 0, 3}, 1}, {".x", true, {0, 1, 4}, 1},
        {".c", false, {0}, 1},         {"x", true, {0, 1, 4}, 4}, {"x.", false, {0}, 0},     {"c", true, {2, 3, 6}, 2},
        {"a.b.c", true, {1, 2, 5}, 1}, {"b.c", false, {0}, 0},    {"a.c", false, {0}, 1},    {"a.", false, {0}, 1},
        {"e.x", false, {0}, 1},        {"e.", false, {0}, 1},     {"y", false, {0}, 4},
    };
    struct story_image_draft draft = list_draft(definitions, SIZE(definitions), items, SIZE(items), "a.b.cxe");
    struct story_image image = written(&draft, "strange lists");
    LOOK_UP(&image, table);
    release(&image);
}

/* Words that are not lent stay, also those that stand right behind the ones that are. */
static void words_not_lent(void) {
    struct story_image image = two_lists();
    uint32_t answer[] = {MARK, MARK, MARK, MARK}, searched[] = {MARK, MARK};
    CHECK(by_name(&image, 16, "low", answer, 3, searched, 1) == 18 && all_are(searched, 0, 2, MARK),
          "a view of 16 words: no count");
    CHECK(by_name(&image, 17, "low", answer, 2, searched, 0) == 18 && all_are(searched, 0, 2, MARK),
          "no word for the count, a short answer");
    CHECK(by_name(&image, 17, "mid", answer, 3, searched, 0) == 18 && all_are(searched, 0, 2, MARK),
          "no word for the count, no such item");
    CHECK(by_name(&image, 17, "high", answer, 2, searched, 1) == 18 && searched[0] == 2 && searched[1] == MARK,
          "a short answer: the count is written");
    CHECK(by_name(&image, 17, "no.low", answer, 3, searched, 2) == 18 && searched[0] == 0 && searched[1] == MARK,
          "no such item: the count is written");
    CHECK(all_are(answer, 0, 4, MARK), "with 18 the answer stays");
    searched[0] = MARK;
    CHECK(by_name(&image, 17, "high", answer, 3, searched, 0) == 0 && all_are(searched, 0, 2, MARK),
          "no word for the count: the answer is written");
    CHECK(answer[0] == 0 && answer[1] == 0 && answer[2] == 4 && answer[3] == MARK, "high in red");
    CHECK(by_name(&image, 17, "low", answer, 3, searched, 2) == 0 && searched[0] == 1 && searched[1] == MARK,
          "one definition searched");
    CHECK(answer[0] == 1 && answer[1] == 2 && answer[2] == 2 && answer[3] == MARK, "low in size");
    release(&image);
}

/* An image without definitions. */
static void no_lists(const char *folder) {
    static const struct look_up table[] = {
        {"low", false, {0}, 0}, {"red.low", false, {0}, 0}, {".", false, {0}, 0}, {"", false, {0}, 0}};
    struct story_image image = accepted(folder, "smallest");
    LOOK_UP(&image, table);
    release(&image);
}

/* Definitions, items of each, and where the name of one more stands. */
enum { MANY = 60, EACH = 20, SPECIAL = 3 * (MANY + EACH) };

/* The texts d00 to d59, i00 to i19, special. */
static const char *many_names(void) {
    static char names[SPECIAL + sizeof "special"];
    for (int k = 0; k < MANY + EACH; k++) {
        int number = k < MANY ? k : k - MANY;
        names[3 * k] = k < MANY ? 'd' : 'i';
        names[3 * k + 1] = (char)('0' + number / 10);
        names[3 * k + 2] = (char)('0' + number % 10);
    }
    memcpy(names + SPECIAL, "special", sizeof "special");
    return names;
}

/* Items i00 to i19 of a definition, of values 100 d on, and, if it has it, the item special of value 7777. How many
 * they are. */
static uint32_t many_items(uint32_t (*items)[3], uint32_t d, bool has_special) {
    static const uint32_t special[] = {SPECIAL, 7, 7777};
    for (uint32_t j = 0; j < EACH; j++) {
        const uint32_t item[] = {3 * (MANY + j), 3, 100 * d + j};
        memcpy(items[j], item, sizeof item);
    }
    if (has_special)
        memcpy(items[EACH], special, sizeof special);
    return has_special ? EACH + 1 : EACH;
}

/* Definitions d00 to d59, of which one, if there is one of that number, also has the item special. */
static struct story_image many_lists(uint32_t special) {
    static uint32_t definitions[MANY][4], items[MANY * EACH + 1][3];
    uint32_t first = 0;
    for (uint32_t d = 0; d < MANY; d++) {
        uint32_t count = many_items(items + first, d, d == special);
        const uint32_t definition[] = {3 * d, 3, first, count};
        memcpy(definitions[d], definition, sizeof definition);
        first += count;
    }
    struct story_image_draft draft =
        list_draft(definitions[0], SIZE(definitions), items[0], 3 * (size_t)first, many_names());
    return written(&draft, "many lists");
}

/* Special in the first definition, in the last, in one between, in none. */
static void many_definitions(void) {
    static const struct look_up first[] = {{"special", true, {0, 20, 7777}, 60},
                                           {"d00.special", true, {0, 20, 7777}, 1},
                                           {"d59.special", false, {0}, 1},
                                           {"d07.i03", true, {7, 144, 703}, 1},
                                           {"zz.i03", false, {0}, 0},
                                           {"i03", true, {59, 1184, 5903}, 1},
                                           {" ", false, {0}, 0}};
    static const struct look_up last[] = {{"special", true, {59, 1200, 7777}, 1},
                                          {"d59.special", true, {59, 1200, 7777}, 1},
                                          {"d00.special", false, {0}, 1},
                                          {"d07.i03", true, {7, 143, 703}, 1},
                                          {"i19", true, {59, 1199, 5919}, 1}};
    static const struct look_up between[] = {{"special", true, {23, 480, 7777}, 37}};
    static const struct look_up none[] = {{"special", false, {0}, 60},
                                          {"d00.special", false, {0}, 1},
                                          {"d07.i03", true, {7, 143, 703}, 1},
                                          {"zz.i03", false, {0}, 0},
                                          {"d60.i03", false, {0}, 0}};
    struct story_image images[] = {many_lists(0), many_lists(MANY - 1), many_lists(23), many_lists(MANY)};
    LOOK_UP(&images[0], first);
    LOOK_UP(&images[1], last);
    LOOK_UP(&images[2], between);
    LOOK_UP(&images[3], none);
    for (size_t i = 0; i < 4; i++)
        release(&images[i]);
}

/* Two words of a definition: from word 0 on the place of its name, from word 2 on first item and number of items. */
static void set_definition(struct story_image *image, uint32_t definition, size_t word, uint32_t first,
                           uint32_t second) {
    size_t at = image->view[STORY_IMAGE_DEFINITIONS] + 16 * (size_t)definition + 4 * word;
    set_word_at(image, at, first);
    set_word_at(image, at + 4, second);
}

/* Names that no load accepts: where both definitions are named size the last decides; a name that is not in the strings
 * is empty. */
static void damaged_names(void) {
    static const struct look_up equal[] = {{"size.low", true, {1, 2, 2}, 1}, {"size.high", false, {0}, 1},
                                           {"red.low", false, {0}, 0},       {"high", true, {0, 0, 4}, 2},
                                           {"low", true, {1, 2, 2}, 1},      {"mid", false, {0}, 2}};
    static const struct look_up absent[] = {
        {".low", true, {1, 2, 2}, 1}, {".high", false, {0}, 1}, {"size.low", true, {0, 1, 1}, 1},
        {"low", true, {1, 2, 2}, 1},  {"", false, {0}, 0},      {"size.wide", false, {0}, 1}};
    struct story_image image = two_lists();
    size_t size = image.view[STORY_IMAGE_DEFINITIONS] + 16;
    set_definition(&image, 0, 0, word_at(&image, size), word_at(&image, size + 4));
    LOOK_UP(&image, equal);
    set_definition(&image, 1, 0, image.view[STORY_IMAGE_STRINGS_COUNT], 1);
    LOOK_UP(&image, absent);
    set_definition(&image, 1, 0, NONE, NONE);
    LOOK_UP(&image, absent);
    release(&image);
}

/* A definition whose items are not all there is searched, and holds none. */
static void damaged_ranges(void) {
    static const struct look_up table[] = {{"low", true, {0, 1, 1}, 2},
                                           {"wide", false, {0}, 2},
                                           {"size.low", false, {0}, 1},
                                           {"size.wide", false, {0}, 1},
                                           {"red.low", true, {0, 1, 1}, 1}};
    static const uint32_t outside[][2] = {{2, 3}, {3, 2}, {4, 1}, {NONE, 1}, {NONE, 2}, {2, NONE}, {NONE, NONE}};
    struct story_image image = two_lists();
    for (size_t i = 0; i < sizeof outside / sizeof outside[0]; i++) {
        set_definition(&image, 1, 2, outside[i][0], outside[i][1]);
        LOOK_UP(&image, table);
    }
    release(&image);
}

/* The last definition whose name in the image is so many bytes of this text; NONE if there is none. */
static uint32_t definition_named(const struct story_image *image, uint32_t count, const char *text, size_t length) {
    const uint8_t *strings = image->bytes + image->view[STORY_IMAGE_STRINGS];
    for (uint32_t d = count; d > 0; d--) {
        size_t at = image->view[STORY_IMAGE_DEFINITIONS] + 16 * (size_t)(d - 1), offset = word_at(image, at);
        if (word_at(image, at + 4) == length && offset + length <= image->view[STORY_IMAGE_STRINGS_COUNT] &&
            memcmp(strings + offset, text, length) == 0)
            return d - 1;
    }
    return NONE;
}

/* Answer and count agree, whatever the words of definitions and items are: with a dot the last definition of that name
 * is searched, without one those from the last to the one that answers, or all. Whether there is an answer. */
static bool any_item(const struct story_image *image, const char *name) {
    struct asked asked = {0, 0, 0, 0, (const uint8_t *)name, strlen(name)};
    uint32_t answer[STORY_IMAGE_LIST_ITEM_WORDS] = {0}, count = 0, searched;
    CHECK(ask(DEFINITION_COUNT, image, &asked, &count), "the definitions");
    bool found = search(image, STORY_IMAGE_VIEW_WORDS, &asked, answer, SIZE(answer), &searched) == 0;
    const char *dot = strchr(name, '.');
    if (dot != NULL) {
        uint32_t origin = definition_named(image, count, name, (size_t)(dot - name));
        CHECK(searched == (origin != NONE), "'%s': the one definition, or none", name);
        CHECK(!found || answer[STORY_IMAGE_LIST_ITEM_DEFINITION] == origin, "'%s': of its definition", name);
    } else {
        CHECK(searched == (found ? count - answer[STORY_IMAGE_LIST_ITEM_DEFINITION] : count),
              "'%s': from the last definition on", name);
    }
    CHECK(answer[STORY_IMAGE_LIST_ITEM_ITEM] < image->view[STORY_IMAGE_ITEMS_COUNT], "'%s': an item inside", name);
    CHECK(ask(LIST_ITEM, image, &asked, answer) == found, "'%s' again", name);
    return found;
}

/* Two lists with four other words in definitions and items: words of other entries, small ones, NONE. */
static struct story_image other_lists(const struct story_image *image, uint32_t *seed) {
    const uint32_t start = image->view[STORY_IMAGE_DEFINITIONS], words = (image->view[STORY_IMAGE_INDEX] - start) / 4;
    struct story_image other = copy_of_image(image);
    for (int change = 0; change < 4; change++) {
        uint32_t any = next(seed), at = start + 4 * ((any >> 8) % words), from = start + 4 * ((any >> 16) % words);
        set_word_at(&other, at, any >> 30 == 0 ? any >> 28 : any >> 28 == 4 ? NONE : word_at(image, from));
    }
    return other;
}

static void any_lists(void) {
    static const char *const names[] = {"low", "high", "wide", "mid", "red.low", "size.low", "size.wide", "no.low"};
    struct story_image image = two_lists();
    uint32_t seed = 4, found = 0;
    for (uint32_t round = 0; round < 8 * ROUNDS; round++) {
        struct story_image other = other_lists(&image, &seed);
        found += any_item(&other, names[round % 8]);
        release(&other);
    }
    CHECK(found > 400 && found < 1400, "%u of 2400 are found", (unsigned)found);
    release(&image);
}

void test_lists(const char *folder) {
    list_items();
    strange_names();
    strange_lists();
    words_not_lent();
    no_lists(folder);
    many_definitions();
    damaged_names();
    damaged_ranges();
    any_lists();
}
