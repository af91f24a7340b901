/* Text that is written to the caller's memory. */
#ifndef PELGAISTI_TEXT_H
#define PELGAISTI_TEXT_H

#include "pelgaisti.h"

/* MemorySanitizer, which can't see what the archive writes. A program that is built with it has this function. */
__attribute__((weak)) void __msan_unpoison(const volatile void *at, size_t size);

/* A text of the caller's, and how long it would be with room for all. */
struct text {
    char *at;
    size_t room;
    size_t length;
};

static inline void put(struct text *out, char letter) {
    if (out->length + 1 < out->room) out->at[out->length] = letter;
    out->length++;
}

static inline void put_words(struct text *out, const char *words) {
    for (; *words; words++) put(out, *words);
}

static inline void put_number(struct text *out, uint64_t number) {
    char digits[20]; /* the last digit first */
    int count = 0;
    do {
        digits[count++] = (char)('0' + number % 10);
        number /= 10;
    } while (number > 0);
    while (count > 0) put(out, digits[--count]);
}

static inline void put_words_and_number(struct text *out, const char *words, uint64_t number) {
    put_words(out, words);
    put_number(out, number);
}

/* The numbers of the path, as traces write them. */
static inline void put_resource(struct text *out, const pelgaisti_resource *resource) {
    uint32_t level;
    for (level = 0; level < resource->level && level < PELGAISTI_LEVELS; level++)
        put_words_and_number(out, level == 0 ? "" : "/", resource->numbers[level]);
}

/* Ends the text by a null byte, if there is room for any. Returns how long it would be with room for all. */
static inline size_t end_text(struct text *out) {
    if (out->room > 0) {
        const size_t end = out->length < out->room ? out->length : out->room - 1;
        out->at[end] = 0;
        if (__builtin_expect(__msan_unpoison != NULL, 0)) __msan_unpoison(out->at, end + 1);
    }
    return out->length;
}

#endif
