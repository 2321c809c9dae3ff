/*
 * Shared by tests/c/replay.c and scripts/calls.c: the words of a script's line,
 * as docs/SCRIPTS.md has them, read and written.
 */
#ifndef WORDS_H
#define WORDS_H

#include <stdbool.h>
#include <stddef.h>
#include <stdint.h>
#include <stdio.h>
#include <string.h>

/* Of a HEX word and of an area. */
#define MOST_BYTES 1024

struct bytes {
    uint8_t at[MOST_BYTES];
    size_t length;
};

/* "a decimal number without sign or leading zero" */
static inline bool number(const char *word, uint32_t most, uint32_t *value)
{
    uint64_t v = 0;
    if (word[0] == '\0' || (word[0] == '0' && word[1] != '\0'))
        return false;
    for (const char *p = word; *p != '\0'; p++) {
        if (*p < '0' || *p > '9' || v > UINT32_MAX)
            return false;
        v = 10 * v + (uint64_t)(*p - '0');
    }
    *value = (uint32_t)v;
    return v <= most;
}

static inline int hex_digit(char c)
{
    static const char digits[] = "0123456789ABCDEFabcdef";
    const char *at = c == '\0' ? NULL : strchr(digits, c);
    if (at == NULL)
        return -1;
    return (int)(at - digits) < 16 ? (int)(at - digits) : (int)(at - digits) - 6;
}

/* "an even number of hex digits, either case, or a lone `-` for no bytes" */
static inline bool hex(const char *word, struct bytes *bytes)
{
    bytes->length = 0;
    if (strcmp(word, "-") == 0)
        return true;
    if (word[0] == '\0')
        return false;
    for (const char *p = word; *p != '\0'; p += 2) {
        int high = hex_digit(p[0]), low = high < 0 ? -1 : hex_digit(p[1]);
        if (low < 0 || bytes->length == MOST_BYTES)
            return false;
        bytes->at[bytes->length++] = (uint8_t)(high * 16 + low);
    }
    return true;
}

static inline void put_hex(const uint8_t *bytes, size_t n)
{
    if (n == 0)
        printf("-");
    for (size_t i = 0; i < n; i++)
        printf("%02X", bytes[i]);
}

/* The number, and behind it the place that goes with it; 0 is none. */
static inline void put_answer(unsigned answer, unsigned place)
{
    printf("answer %u", answer);
    if (place != 0)
        printf(" at %u", place);
}

#endif
