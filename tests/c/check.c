#include "check.h"

#include <stdarg.h>

unsigned long passed, failed;

void check(bool right, const char *file, int line, const char *what, ...) {
    if (right) {
        passed++;
        return;
    }
    failed++;
    va_list words;
    va_start(words, what);
    printf("%s, line %d: ", file, line);
    vprintf(what, words);
    putchar('\n');
    va_end(words);
}

void *room(size_t bytes) {
    void *start = malloc(bytes == 0 ? 1 : bytes);
    if (start == NULL)
        abort();
    return start;
}

void *copy_of(const void *from, size_t bytes) {
    void *copy = room(bytes);
    if (bytes != 0)
        memcpy(copy, from, bytes);
    return copy;
}

uint32_t *marked(size_t words) {
    uint32_t *start = (uint32_t *)room(4 * words);
    for (size_t i = 0; i < words; i++)
        start[i] = MARK;
    return start;
}

bool all_are(const uint32_t *words, size_t from, size_t to, uint32_t value) {
    for (size_t i = from; i < to; i++)
        if (words[i] != value)
            return false;
    return true;
}

uint32_t next(uint32_t *seed) {
    return *seed = *seed * 1664525 + 1013904223;
}

uint32_t word_of(const uint8_t *byte) {
    return byte[0] | (uint32_t)byte[1] << 8 | (uint32_t)byte[2] << 16 | (uint32_t)byte[3] << 24;
}

void put_word(uint8_t *byte, uint32_t value) {
    for (int k = 0; k < 4; k++)
        byte[k] = (uint8_t)(value >> 8 * k);
}

uint8_t *sample_bytes(const char *folder, const char *name, size_t *length) {
    static uint8_t bytes[70000];
    char path[4096];
    snprintf(path, sizeof path, "%s/%s.image", folder, name);
    FILE *file = fopen(path, "rb");
    if (file == NULL) {
        printf("%s: cannot be read\n", path);
        exit(2);
    }
    *length = fread(bytes, 1, sizeof bytes, file);
    fclose(file);
    return (uint8_t *)copy_of(bytes, *length);
}
