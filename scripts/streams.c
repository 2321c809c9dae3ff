/*
 * What a byte off the wire costs the receiver, for ./bench streams. Reads a stream
 * in the words of scripts/streams.txt, HEX or HEX*N, and feeds it so many times to
 * one receiver in pieces of that length (the last of a round is what is left), each
 * piece's rest until a call hands out nothing, with nothing else in the loop.
 * Prints how many times, the nanoseconds that the loop took, how many bytes were
 * fed, how many packets came out and how many bytes they have together, and what is
 * held at the end:
 *
 *     streams 1000 1 030B534F4E59000000B00001F3 20*499
 *     1000 95324014 fed 512000 packets 1000 bytes 512000 held 0
 *
 * second/src/bin/streams.rs is the same for the second program. And with `at N` in
 * place of a stream, one byte at a time to a receiver that holds N bytes of a
 * packet of 512, so that it can be seen what those cost that are held. With `plain N`
 * in place of the pieces' length, the stream N times over, a megabyte at most, is one
 * buffer for the plain reader: what it lists are the packets, and the bytes behind
 * its end are those held.
 */
#define _POSIX_C_SOURCE 200809L
#include "../tests/c/words.h"
#include "display_box.h"

#include <stdlib.h>
#include <time.h>

/* Of the plain reader's buffer. */
#define MOST_READ (1024 * MOST_BYTES)

static struct box_receiver receiver;
static uint64_t packets, packet_bytes;

static _Noreturn void unread(void)
{
    fputs("usage: streams TIMES PIECE WORD.. | streams TIMES plain N WORD.. | streams TIMES at N\n", stderr);
    exit(2);
}

static uint32_t number_of(const char *word, uint32_t most)
{
    uint32_t value;
    if (!number(word, most, &value))
        unread();
    return value;
}

/* HEX or HEX*N, behind what is there. */
static void add_word(struct bytes *stream, char *word)
{
    struct bytes part;
    char *star = strchr(word, '*');
    if (star != NULL)
        *star = '\0';
    uint32_t times = star == NULL ? 1 : number_of(star + 1, MOST_BYTES);
    if (!hex(word, &part) || part.length * times > MOST_BYTES - stream->length)
        unread();
    for (uint32_t i = 0; i < times; i++, stream->length += part.length)
        memcpy(stream->at + stream->length, part.at, part.length);
}

static void feed(const uint8_t *piece, size_t length)
{
    uint8_t packet[BOX_PACKET_LENGTH];
    for (;;) {
        struct box_received got = box_receive(&receiver, piece, length, packet);
        piece += got.taken;
        length -= got.taken;
        if (got.length == 0)
            return;
        packets++;
        packet_bytes += got.length;
    }
}

/* The stream once, in its pieces. */
static void feed_all(const struct bytes *stream, size_t piece)
{
    for (size_t at = 0; at < stream->length; at += piece)
        feed(stream->at + at, stream->length - at < piece ? stream->length - at : piece);
}

/* One byte to a receiver that holds so many. What the call before has stored behind them counts for nothing. */
static void feed_one(size_t held)
{
    receiver.held = held;
    feed((const uint8_t *)" ", 1);
}

/* The whole buffer to the plain reader. Gives how many bytes are behind its end. */
static size_t list(const uint8_t *buffer, size_t length)
{
    struct box_listing listing;
    box_plain(buffer, length, &listing);
    packets += listing.count;
    for (size_t i = 0; i < listing.count; i++)
        packet_bytes += listing.lengths[i];
    return length - listing.end;
}

static uint64_t nanoseconds(void)
{
    struct timespec now;
    clock_gettime(CLOCK_MONOTONIC, &now);
    return (uint64_t)now.tv_sec * 1000000000 + (uint64_t)now.tv_nsec;
}

int main(int count, char **words)
{
    static struct bytes stream;
    static uint8_t buffer[MOST_READ];
    if (count < 4)
        unread();
    uint32_t times = number_of(words[1], UINT32_MAX);
    bool is_at = count == 4 && strcmp(words[2], "at") == 0, is_plain = strcmp(words[2], "plain") == 0;
    size_t piece = 1, held = 0, length = 1;
    if (is_at) {
        add_word(&stream, (char[]){ "030B534F4E59000000B00001F3" });
        held = number_of(words[3], BOX_PACKET_LENGTH - 2);
        memset(receiver.store, ' ', sizeof receiver.store);
        memcpy(receiver.store, stream.at, stream.length);
    } else {
        uint32_t copies = is_plain ? number_of(words[3], MOST_READ / MOST_BYTES) : 1;
        piece = is_plain ? 1 : number_of(words[2], MOST_BYTES);
        for (int i = is_plain ? 4 : 3; i < count; i++)
            add_word(&stream, words[i]);
        length = copies * stream.length;
        for (size_t at = 0; at < length; at += stream.length)
            memcpy(buffer + at, stream.at, stream.length);
    }
    if (times == 0 || piece == 0)
        unread();

    uint64_t start = nanoseconds();
    for (uint32_t i = 0; i < times; i++) {
        if (is_at)
            feed_one(held);
        else if (is_plain)
            held = list(buffer, length);
        else
            feed_all(&stream, piece);
    }
    unsigned long long took = nanoseconds() - start, fed = (uint64_t)times * length;
    printf("%lu %llu fed %llu packets %llu bytes %llu held %zu\n", (unsigned long)times, took, fed, (unsigned long long)packets,
           (unsigned long long)packet_bytes, is_plain ? held : receiver.held);
    return 0;
}
