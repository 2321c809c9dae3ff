/*
 * The plain reader, from C: buffers full of what looks like the front of a packet,
 * lists that are empty, full and more than full, and a megabyte that holds nothing.
 * Buffer and listing stand alone in memory with their exact sizes. Each list is held
 * against one that is made another way, from document 02, §7; the sentences of §7
 * have examples that were worked out by hand; and what §7 wants proved is tried:
 * box_receive hands out the same things in the same order.
 */
#include "areas.h"
#include "messages.h"
#include "streams.h"

#include <ucontext.h>

static struct place buffer_place, listing_place, receiver_place, piece_place, packet_place;

/* ---- document 02, §7, another way */

/*
 * The two rules of §7 pass the rest of the bytes to each other. This reads each byte
 * once instead, and knows how many bytes of a packet it has read. Of a front the
 * first byte alone is 03h, so a byte that does not go on can only begin anew.
 */
static struct box_listing list_of(const uint8_t *bytes, size_t length)
{
    struct box_listing l = { .end = length };
    size_t start = 0, count = 0, whole = 13;
    for (size_t i = 0; i < length; i++) {
        if (count < 6 && bytes[i] != (uint8_t)FRONT[count])
            count = 0;
        if (count == 0 && bytes[i] != 0x03)
            continue;
        if (count == 0)
            start = i;
        count++;
        if (count == 13) {
            size_t data = 256u * bytes[i - 1] + bytes[i];
            whole = data > 499 ? 13 : 13 + data;
        }
        if (count < 13 || count < whole)
            continue;
        /* "The list holds 64 entries, and the plain reader stops at the start of a 65th and says where." */
        if (l.count == 64) {
            l.end = start;
            l.stopped = 1;
            return l;
        }
        l.starts[l.count] = start;
        l.lengths[l.count] = whole;
        l.count++;
        count = 0;
    }
    /* "where an unfinished tail begins, else the buffer's end" */
    if (count > 0)
        l.end = start;
    return l;
}

/* ---- a call */

static struct {
    const uint8_t *buffer;
    size_t length;
    struct box_listing *listing;
    uint8_t answer;
} given;

static void enter(void) { given.answer = box_plain(given.buffer, given.length, given.listing); }

/*
 * Every call is made on a stack of its own that has 16 KB, behind a page that nobody
 * may touch: the first byte more ends the program, under memcheck too. How many bytes
 * they are tests/c/stack.c sees, which paints them; memcheck would not let it look.
 */
static void call(void)
{
    static ucontext_t here, there;
    static uint8_t *stack;
    if (stack == NULL)
        stack = guarded();
    if (getcontext(&there) != 0)
        exit(2);
    there.uc_stack.ss_sp = stack;
    there.uc_stack.ss_size = BOX_PLAIN_STACK_LENGTH;
    there.uc_link = &here;
    makecontext(&there, enter, 0);
    if (swapcontext(&here, &there) != 0)
        exit(2);
}
_Static_assert(BOX_PLAIN_STACK_LENGTH == 16 * 1024, "16 KB");

/* The listing comes with this in every byte, now one and now the other. */
static uint8_t fill = 0xA5;
static unsigned long entries;

/* The answer is 0, every byte of the listing is the one wanted, and the buffer is left. */
static void lists_as(const uint8_t *bytes, size_t length, const struct box_listing *want, const char *what)
{
    given.buffer = stand_copy(&buffer_place, bytes, length);
    given.length = length;
    given.listing = stand_filled(&listing_place, fill, sizeof *given.listing);
    given.answer = fill;
    call();
    expect(given.answer == BOX_DONE, "the answer", given.answer, (long)length);
    expect(memcmp(given.listing, want, sizeof *want) == 0, what, (long)given.listing->count, (long)given.listing->end);
    expect(is_same(given.buffer, bytes, length), "the buffer is left as it was", (long)length, 0);
    entries += given.listing->count;
    fill ^= 0xFF;
}

static void lists(const uint8_t *bytes, size_t length)
{
    struct box_listing want = list_of(bytes, length);
    lists_as(bytes, length, &want, "the list");
}

/* ---- the sentences of §7 */

/* The list in words: start and length of each entry, and where it ended or stopped. */
static void words_of(const struct box_listing *l, char *words, size_t room)
{
    size_t at = 0;
    for (size_t i = 0; i < l->count && i < BOX_LISTED; i++)
        at += (size_t)snprintf(words + at, room - at, "%zu:%zu ", l->starts[i], l->lengths[i]);
    snprintf(words + at, room - at, "%s %zu", l->stopped == 0 ? "end" : "stop", l->end);
}

static void example(const char *what, const uint8_t *bytes, size_t length, const char *wanted)
{
    char words[64 * 44 + 32];
    lists(bytes, length);
    words_of(given.listing, words, sizeof words);
    expect(strcmp(words, wanted) == 0, what, (long)given.listing->count, (long)given.listing->end);
}

static void sentences(void)
{
    example("no bytes", B(""), "end 0");
    example("noise", B("noise"), "end 5");
    example("a packet", B(PACKET), "0:13 end 13");
    example("packets with noise around them", B("a" PACKET "bc" PACKET "d"), "1:13 16:13 end 30");
    example("a packet with data", B(FRONT "\x00\x00\x00\xB0\x00\x00\x02hi" PACKET), "0:15 15:13 end 28");
    example("nothing but the front and the length is looked at", B(FRONT "\xFF\x01\x01\x00\x00\x00\x01!"), "0:14 end 14");
    example("data that looks like a packet", B(FRONT "\x00\x00\x00\xB0\x00\x00\x0D" PACKET), "0:26 end 26");
    example("an overlong header, and its data is searched", B(OVERLONG "data" PACKET), "0:13 17:13 end 30");
    example("a length of 65535", B(FRONT "\x00\x00\x00\xB0\x00\xFF\xFF" PACKET), "0:13 13:13 end 26");
    example("an overlong header is not searched itself", B(FRONT FRONT "\xF4" FRONT), "0:13 end 13");
    example("a tail without its length", B(PACKET "x" FRONT "\x00\x00\x00\xB0\x00\x00"), "0:13 end 14");
    example("a tail without its data", B(FRONT "\x00\x00\x00\xB0\x00\x01\xF3 "), "end 0");
    example("a tail is not searched", B(FRONT "\x00\x00\x00\xB0\x00\x00\x0E" PACKET), "end 0");
    example("a tail of one byte", B(PACKET "\x03"), "0:13 end 13");
    example("a front within a front", B("\x03\x03\x0B\x03\x0BSON\x03\x0BSON"), "end 8");
    example("sony", B("\x03\x0Bsony\x00\x00\x00\xB0\x00\x00\x00"), "end 13");
}

/* ---- many packets */

/* Room for a thousand entries with noise, and for a tail. */
static uint8_t many[1000 * 64 + 64];

/*
 * So many packets and overlong headers, with so many bytes of noise behind each, and
 * at the end so many bytes of a packet that is not whole. The list is known by how
 * they are laid. Gives how many bytes they are.
 */
static size_t lay_many(size_t count, size_t noise, size_t tail, struct box_listing *want)
{
    size_t at = 0;
    memset(want, 0, sizeof *want);
    for (size_t i = 0; i < count; i++) {
        size_t data = i % 5 == 0 ? 500 : i % 32, length = i % 5 == 0 ? 13 : 13 + data;
        if (i < 64) {
            want->starts[i] = at;
            want->lengths[i] = length;
            want->count++;
        } else if (i == 64) {
            want->end = at;
            want->stopped = 1;
        }
        memset(many + at, 'd', length + noise);
        memcpy(many + at, PACKET, 11);
        many[at + 11] = (uint8_t)(data / 256);
        many[at + 12] = (uint8_t)(data % 256);
        at += length + noise;
    }
    memcpy(many + at, FRONT "\x00\x00\x00\xB0\x00\x01\xF3", tail);
    if (want->stopped == 0)
        want->end = at;
    return at + tail;
}

/* "The list holds 64 entries": none, fewer, just so many and more, and a 65th that is a tail. */
static void counts(void)
{
    static const size_t packets[] = { 0, 1, 63, 64, 65, 66, 1000 }, noises[] = { 0, 1, 7 }, tails[] = { 0, 1, 6, 13 };
    struct box_listing want;
    for (size_t p = 0; p < LENGTH_OF(packets); p++)
        for (size_t n = 0; n < LENGTH_OF(noises); n++)
            for (size_t t = 0; t < LENGTH_OF(tails); t++) {
                size_t length = lay_many(packets[p], noises[n], tails[t], &want);
                lists_as(many, length, &want, "the list of so many packets");
                want = list_of(many, length);
                lists_as(many, length, &want, "the same list made another way");
            }
}

/* The loop of the header: the list goes on where it stopped, until all thousand are found. */
static void goes_on(void)
{
    struct box_listing want;
    size_t length = lay_many(1000, 3, 5, &want), at = 0, count = 0, calls = 0;
    do {
        lists(many + at, length - at);
        count += given.listing->count;
        at += given.listing->end;
        calls++;
    } while (given.listing->stopped == 1 && calls < 1000);
    expect(count == 1000 && calls == (1000 + 63) / 64, "a thousand entries, 64 a call", (long)count, (long)calls);
    expect(at == length - 5, "and then the tail", (long)at, (long)length);
}

/* ---- "§1's receiver .. hands out the same things in the same order" */

/* Empty at first and fed, in that cutting, "the bytes up to where the plain reader stops". */
static void hands_out_the_same(enum cutting cutting, const uint8_t *bytes, const struct box_listing *l)
{
    struct box_receiver *receiver = stand_filled(&receiver_place, 0, sizeof *receiver);
    uint8_t *packet = stand(&packet_place, BOX_PACKET_LENGTH);
    size_t at = 0, entry = 0;
    do {
        size_t left = piece_of(cutting, l->end - at);
        const uint8_t *rest = stand_copy(&piece_place, bytes + at, left);
        at += left;
        /* one more than are listed is wrong already: it need not end */
        while (entry <= l->count) {
            struct box_received got = box_receive(receiver, rest, left, packet);
            if (got.length == 0 || got.taken > left)
                break;
            expect(entry < l->count && got.length == l->lengths[entry] && is_same(packet, bytes + l->starts[entry], got.length),
                   "handed out as listed", (long)entry, (long)got.length);
            entry++;
            left -= got.taken;
            rest += got.taken;
        }
    } while (at < l->end);
    expect(entry == l->count, "as many as are listed", (long)entry, (long)l->count);
}

/* Any buffers: many short ones, and some that have more than 64 entries. */
static void any_buffers(size_t turns)
{
    static uint8_t bytes[24000];
    for (size_t turn = 0; turn < turns; turn++) {
        size_t length = next() % (turn % 64 == 0 ? sizeof bytes : turn % 8 == 0 ? 1500 : 200);
        stream_of(bytes, length);
        lists(bytes, length);
        struct box_listing l = *given.listing;
        for (enum cutting c = WHOLE; c < CUTTINGS; c++)
            hands_out_the_same(c, bytes, &l);
    }
}

/* ---- very long buffers */

/* A megabyte, the pattern again and again: nothing is listed, and so many bytes at the end are a tail. */
static void megabyte(const void *pattern, size_t n, size_t tail)
{
    static uint8_t bytes[PLACE_ROOM];
    struct box_listing want = { .end = PLACE_ROOM - tail };
    for (size_t i = 0; i < PLACE_ROOM; i++)
        bytes[i] = ((const uint8_t *)pattern)[i % n];
    lists_as(bytes, PLACE_ROOM, &want, "the list of a megabyte");
}

/* A call for each byte of noise, or for each broken front, would be far too deep. 5 goes into a megabyte with 1 left. */
static void megabytes(void)
{
    megabyte(B("\x00"), 0);
    megabyte(B("\x03"), 1);
    megabyte(B("\x03\x0BSON"), 1);
}

int main(void)
{
    for (standing = 0; standing < STANDINGS; standing++) {
        sentences();
        counts();
        goes_on();
        any_buffers(1000);
        megabytes();
    }
    printf("%lu entries\n", entries);
    return verdict();
}
