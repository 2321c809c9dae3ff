/*
 * Shared by the C programs of this folder that read SDCP off the wire: streams
 * full of what looks like the front of a packet, and how they are cut. Document
 * 02, §1, has what a front and an overlong header are.
 */
#ifndef STREAMS_H
#define STREAMS_H

#include "areas.h"
#include "messages.h"

static inline int is_same(const void *a, const void *b, size_t n) { return n == 0 || memcmp(a, b, n) == 0; }

static inline size_t at_most(size_t n, size_t most) { return n < most ? n : most; }

/* ---- parts */

#define B(text) (const uint8_t *)(text), sizeof(text) - 1
#define FRONT "\x03\x0BSONY"
/* A header that says no data, and one that says 500 bytes of it. */
#define PACKET FRONT "\x00\x00\x00\xB0\x00\x00\x00"
#define OVERLONG FRONT "\x00\x00\x00\xB0\x00\x01\xF4"

/* ---- streams */

/* So many bytes of which most could be part of a front, or of a header. */
static inline void near_fronts(uint8_t *bytes, size_t n)
{
    static const uint8_t letters[] = "\x03\x0BSONYsony\x00\x01\xF3\xF4";
    for (size_t i = 0; i < n; i++)
        bytes[i] = next() % 8 == 0 ? (uint8_t)next() : letters[next() % (sizeof letters - 1)];
}

/* A header with one of these lengths; 0/0, request 00h and item B000h, but now and then another byte. */
static inline void header(uint8_t *bytes)
{
    static const uint16_t lengths[] = { 0, 1, 2, 13, 17, 40, 486, 498, 499, 500, 501, 512, 756, 65535 };
    uint16_t length = next() % 4 == 0 ? (uint16_t)(next() % 520) : lengths[next() % LENGTH_OF(lengths)];
    memcpy(bytes, PACKET, 13);
    bytes[11] = (uint8_t)(length / 256);
    bytes[12] = (uint8_t)(length % 256);
    if (next() % 8 == 0)
        bytes[next() % 13] = (uint8_t)next();
}

/* The next part of a stream, of 600 bytes at most; gives its length. */
static inline size_t part(uint8_t *bytes)
{
    static const char *const words[] = { "STATset VOLUME 40", "STATset LED ON", "STATget VOLUME", "STATset PHASE 101", "STATget LED" };
    struct message m = sdcp_packet(0, 0, words[next() % LENGTH_OF(words)]);
    size_t n;
    switch (next() % 8) {
    case 0: /* any bytes */
        n = next() % 30;
        randomise(bytes, n);
        return n;
    case 1: /* a front that is cut off */
        n = next() % 7;
        memcpy(bytes, FRONT, n);
        return n;
    case 2: /* what looks like fronts */
        n = next() % 60;
        near_fronts(bytes, n);
        return n;
    case 3: /* a header with what follows it */
    case 4:
        header(bytes);
        n = next() % 2 == 0 ? (256u * bytes[11] + bytes[12]) % 500 : next() % 500;
        near_fronts(bytes + 13, n);
        return 13 + n;
    case 5: /* a header alone */
        header(bytes);
        return 13;
    default: /* a packet that the box understands, or nearly */
        memcpy(bytes, m.bytes, m.length);
        return m.length;
    }
}

/* So many bytes in parts, the last of them cut off. */
static inline void stream_of(uint8_t *bytes, size_t length)
{
    uint8_t one[600];
    for (size_t at = 0, n; at < length; at += n) {
        n = at_most(part(one), length - at);
        memcpy(bytes + at, one, n);
    }
}

/* ---- cuttings */

enum cutting { WHOLE, BYTE_BY_BYTE, ANYHOW, CUTTINGS };

/* How long the next piece is, of what is left. */
static inline size_t piece_of(enum cutting cutting, size_t left)
{
    if (cutting == WHOLE || left == 0)
        return left;
    if (cutting == BYTE_BY_BYTE)
        return 1;
    return next() % 4 == 0 ? 0 : 1 + next() % at_most(left, next() % 2 == 0 ? 8 : 300);
}

#endif
