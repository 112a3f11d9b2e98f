/* The texts of commands and operators. */
#include "groups.h"

void test_names(void) {
    uint8_t text[STORY_IMAGE_NAME_BYTES + 1];
    uint32_t size[2];
    for (uint32_t kind = 0; kind < 2; kind++)
        for (uint32_t number = 0; number < 40; number++) {
            uint32_t (*name)(uint32_t, uint8_t *, size_t, uint32_t *, size_t) =
                kind == 0 ? story_image_command_name : story_image_operator_name;
            uint32_t count = kind == 0 ? (uint32_t)STORY_IMAGE_COMMAND_COUNT : (uint32_t)STORY_IMAGE_OPERATOR_COUNT;
            memset(text, '?', sizeof text);
            size[0] = size[1] = MARK;
            uint32_t answer = name(number, text, STORY_IMAGE_NAME_BYTES, size, 1);
            CHECK(answer == (number < count ? STORY_IMAGE_OK : STORY_IMAGE_NOT_FOUND), "name %u", (unsigned)number);
            if (answer != 0) {
                CHECK(text[0] == '?' && size[0] == MARK, "nothing is written");
                continue;
            }
            CHECK(size[0] <= STORY_IMAGE_NAME_BYTES && text[size[0]] == '?' && size[1] == MARK, "its length");
            uint32_t length = size[0];
            memset(text, '?', sizeof text);
            size[0] = MARK;
            CHECK(name(number, text, length - 1, size, 1) == STORY_IMAGE_NO_ROOM && text[0] == '?' && size[0] == MARK,
                  "a byte too few");
            CHECK(name(number, text, length, size, 0) == STORY_IMAGE_NO_ROOM && text[0] == '?',
                  "no word for the length");
            CHECK(name(number, text, length, size, 1) == 0 && size[0] == length, "exactly its length");
        }
    CHECK(story_image_command_name(STORY_IMAGE_COMMAND_POP_TUNNEL, text, 11, size, 1) == 0 && size[0] == 4 &&
              memcmp(text, "->->", 4) == 0,
          "the name of a command");
    CHECK(story_image_operator_name(STORY_IMAGE_OPERATOR_LIST_INVERT, text, 11, size, 1) == 0 && size[0] == 11 &&
              memcmp(text, "LIST_INVERT", 11) == 0,
          "the name of an operator");
}
