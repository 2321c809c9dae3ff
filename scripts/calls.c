/*
 * What one call costs, for ./bench calls. Makes a box of eight panels, reads one
 * order in the words of docs/SCRIPTS.md, and makes its call so many times, with
 * nothing else in the loop. Prints how many calls, the nanoseconds that the loop
 * took, and what the last call gave:
 *
 *     calls 200000 rs232 1 512 020301416E4D
 *     200000 58324014 answer 0 reply 020441017E013B
 *
 * second/src/bin/calls.rs is the same for the second program.
 */
#define _POSIX_C_SOURCE 200809L
#include "../tests/c/words.h"
#include "display_box.h"

#include <stdio.h>
#include <stdlib.h>
#include <string.h>
#include <time.h>

/* The panels of the script that ./bench instructions counts. */
static const uint8_t panels[] = {
    BOX_FAMILY_W, 1, 1, BOX_FAMILY_W, 1, 2, BOX_FAMILY_W, 2, 1, BOX_FAMILY_W, 2, 2,
    BOX_FAMILY_W, 3, 1, BOX_FAMILY_W, 3, 2, BOX_FAMILY_K, 0, 0, BOX_FAMILY_W, 4, 1,
};

static _Noreturn void unread(void)
{
    fputs("usage: calls TIMES ORDER.., the order being rs232, kjw, tcp, udp, advert or write with its words\n", stderr);
    exit(2);
}

static uint32_t number_of(const char *word, uint32_t most)
{
    uint32_t value;
    if (!number(word, most, &value))
        unread();
    return value;
}

static struct bytes bytes_of(const char *word)
{
    struct bytes bytes;
    if (!hex(word, &bytes))
        unread();
    return bytes;
}

static uint64_t nanoseconds(void)
{
    struct timespec now;
    clock_gettime(CLOCK_MONOTONIC, &now);
    return (uint64_t)now.tv_sec * 1000000000 + (uint64_t)now.tv_nsec;
}

static void tell(uint32_t times, uint64_t took, uint8_t answer, uint16_t place)
{
    printf("%lu %llu ", (unsigned long)times, (unsigned long long)took);
    put_answer(answer, place);
}

static void tell_reply(const uint8_t *reply, size_t length)
{
    printf(" reply ");
    put_hex(reply, length);
}

/* LINK AREA HEX; by UDP HEX alone. */
static void take(uint32_t times, uint8_t way, char **words)
{
    bool has_area = way != BOX_WAY_UDP;
    size_t link = has_area ? number_of(words[0], UINT32_MAX) : 0;
    size_t area_length = has_area ? number_of(words[1], MOST_BYTES) : 0;
    struct bytes message = bytes_of(words[has_area ? 2 : 0]);
    uint8_t area[MOST_BYTES];
    struct display_box box;
    if (box_configure(&box, panels, sizeof panels) != BOX_DONE)
        exit(1);

    struct box_outcome outcome = { 0, 0, 0 };
    uint64_t start = nanoseconds();
    for (uint32_t i = 0; i < times; i++)
        outcome = box_take(&box, way, link, message.at, message.length, area, area_length);
    tell(times, nanoseconds() - start, outcome.answer, outcome.place);
    if (has_area)
        tell_reply(area, outcome.length);
}

/* HEX. */
static void read_advert(uint32_t times, char **words)
{
    struct bytes advert = bytes_of(words[0]);

    uint8_t answer = 0;
    uint64_t start = nanoseconds();
    for (uint32_t i = 0; i < times; i++)
        answer = box_advert_read(advert.at, advert.length);
    tell(times, nanoseconds() - start, answer, 0);
}

/* AREA CATEGORY PRODUCT SERIAL POWER LOCATION IP IP1 IP2 IP3 IP4 ERROR REGION NAME GROUP UNIT. */
static void write_advert(uint32_t times, char **words)
{
    size_t area_length = number_of(words[0], MOST_BYTES);
    uint8_t category = (uint8_t)number_of(words[1], UINT8_MAX);
    struct bytes product = bytes_of(words[2]), location = bytes_of(words[5]), region = bytes_of(words[12]), name = bytes_of(words[13]);
    uint32_t serial = number_of(words[3], UINT32_MAX);
    uint16_t power = (uint16_t)number_of(words[4], UINT16_MAX), error = (uint16_t)number_of(words[11], UINT16_MAX);
    uint32_t ip[5];
    for (size_t i = 0; i < 5; i++)
        ip[i] = number_of(words[6 + i], UINT32_MAX);
    uint8_t group = (uint8_t)number_of(words[14], UINT8_MAX), unit = (uint8_t)number_of(words[15], UINT8_MAX);
    uint8_t area[MOST_BYTES];

    uint8_t answer = 0;
    uint64_t start = nanoseconds();
    for (uint32_t i = 0; i < times; i++)
        answer = box_advert_write(category, product.at, product.length, serial, power, location.at, location.length,
                                  ip[0], ip[1], ip[2], ip[3], ip[4], error, region.at, region.length,
                                  name.at, name.length, group, unit, area, area_length);
    tell(times, nanoseconds() - start, answer, 0);
    tell_reply(area, answer == BOX_DONE ? BOX_ADVERT_LENGTH : 0);
}

static void carry_out(uint32_t times, const char *order, char **words, int count)
{
    static const struct { const char *order; int count; uint8_t way; } ways[] = {
        { "rs232", 3, BOX_WAY_RS232C }, { "kjw", 3, BOX_WAY_KJW }, { "tcp", 3, BOX_WAY_TCP }, { "udp", 1, BOX_WAY_UDP },
    };
    for (size_t i = 0; i < sizeof ways / sizeof ways[0]; i++)
        if (strcmp(order, ways[i].order) == 0 && count == ways[i].count) {
            take(times, ways[i].way, words);
            return;
        }
    if (strcmp(order, "advert") == 0 && count == 1)
        read_advert(times, words);
    else if (strcmp(order, "write") == 0 && count == 16)
        write_advert(times, words);
    else
        unread();
}

int main(int count, char **words)
{
    if (count < 3)
        unread();
    uint32_t times = number_of(words[1], UINT32_MAX);
    if (times == 0)
        unread();
    carry_out(times, words[2], words + 3, count - 3);
    putchar('\n');
    return 0;
}
