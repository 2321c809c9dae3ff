/*
 * How much stack the calls of the archive need: no more than the header says.
 * A call is made on a stack of its own that was painted before, and the lowest
 * byte that lost its paint tells. Each call is tried with good and with hostile
 * arguments, and with two paints, since a byte may be stored that looks like one.
 */
#include "areas.h"
#include "messages.h"

#include <ucontext.h>

#define LONGEST 65535

/* ---- the calls, with the arguments that are given */

static struct {
    struct display_box box;
    uint8_t way;
    size_t link;
    uint8_t bytes[LONGEST];
    size_t length;
    uint8_t area[600];
    size_t room;
    struct box_panel panel;
    struct box_receiver receiver;
    uint8_t packet[BOX_PACKET_LENGTH];
    struct box_listing listing;
} given;

static void take(void) { box_take(&given.box, given.way, given.link, given.bytes, given.length, given.area, given.room); }
static void configure(void) { box_configure(&given.box, given.bytes, given.length); }
static void show(void) { box_panel_at(&given.box, given.link, &given.panel); }
static void receive(void) { box_receive(&given.receiver, given.bytes, given.length, given.packet); }
static void list(void) { box_plain(given.bytes, given.length, &given.listing); }
static void sum(void) { box_checksum_ok(given.bytes, given.length); }
static void read_advert(void) { box_advert_read(given.bytes, given.length); }

/* The texts are parts of the bytes, which may be those of an advert. */
static void write_advert(void)
{
    const uint8_t *b = given.bytes;
    box_advert_write(b[3], b + 8, BOX_ADVERT_PRODUCT_LENGTH, 1, b[25], b + 26, BOX_ADVERT_TEXT_LENGTH, 2, 3, 4, 5, 6, b[71],
                     b + 72, BOX_ADVERT_TEXT_LENGTH, b + 96, BOX_ADVERT_TEXT_LENGTH, b[120], b[121], given.area, given.room);
}

/* ---- how deep they go */

static uint8_t stack[2 * BOX_PLAIN_STACK_LENGTH];
static void (*called)(void);
static uint8_t *from;
static size_t deepest, deepest_list;

static void enter(void)
{
    from = __builtin_frame_address(0);
    called();
}

/* What is set of a context stands at its front on every machine, so this holds under an emulator too. */
static void measure(uint8_t paint)
{
    static ucontext_t here, there;
    memset(stack, paint, sizeof stack);
    if (getcontext(&there) != 0)
        exit(2);
    there.uc_stack.ss_sp = stack;
    there.uc_stack.ss_size = sizeof stack;
    there.uc_link = &here;
    makecontext(&there, enter, 0);
    if (swapcontext(&here, &there) != 0)
        exit(2);
    size_t kept = 0;
    while (kept < sizeof stack && stack[kept] == paint)
        kept++;
    size_t depth = (size_t)(from - stack) - kept, most = called == list ? BOX_PLAIN_STACK_LENGTH : BOX_STACK_LENGTH;
    size_t *record = called == list ? &deepest_list : &deepest;
    expect(depth <= most, "bytes of stack, and those of the header", (long)depth, (long)most);
    if (depth > *record)
        *record = depth;
}

static void makes(void (*call)(void))
{
    called = call;
    measure(0xA5);
    measure(0x5A);
}

/* ---- what is handed in */

static void give(const void *bytes, size_t n)
{
    memcpy(given.bytes, bytes, n);
    given.length = n;
}

/* To the first panel, which is of family W, and to the second, of family K: to the wrong one too, and by numbers that are no way in. */
static void takes(const struct display_box *box, struct message m)
{
    given.room = BOX_AREA_LENGTH;
    for (given.way = 0; given.way <= BOX_WAY_UDP + 1; given.way++)
        for (given.link = 1; given.link <= 2; given.link++) {
            given.box = *box;
            give(m.bytes, m.length);
            makes(take);
        }
}

static void takes_words(const struct display_box *box, const char *words)
{
    static const uint8_t ids[][2] = { { 0, 0 }, { 0xFF, 0xFF } };
    for (size_t i = 0; i < LENGTH_OF(ids); i++)
        takes(box, sdcp_packet(ids[i][0], ids[i][1], words));
}

/* Every name is set and asked, and every kind of value. */
static void takes_packets(const struct display_box *box)
{
    static const char *const words[] = {
        "", "STATset", "STATset VOLUME 100", "STATset PHASE 101", "STATset SHIFTV -30", "STATset SHIFTH +31", "STATset RESET",
        "STATset MODE2", "STATset RGB RANGE LIMITED", "STATget VOLUME", "STATget SHIFTV", "STATget MODE", "STATget NTSC",
        "STATget RGB RANGE", "STATget NOTHING", "STATset VOLUME 99999999999999999999999999999999",
    };
    char data[64];
    for (size_t i = 0; i < LENGTH_OF(words); i++)
        takes_words(box, words[i]);
    for (size_t i = 0; i < SWITCHES + FLIPS; i++) {
        const char *name = i < SWITCHES ? switch_names[i] : flip_words[i - SWITCHES];
        snprintf(data, sizeof data, "STATset %s ON", name);
        takes_words(box, data);
        snprintf(data, sizeof data, "STATget %s", name);
        takes_words(box, data);
    }
}

static void takes_frames(const struct display_box *box)
{
    static const uint8_t blocks[][14] = {
        { 0x21, 0x03, 0x32 }, { 0x22, 0x30 }, { 0x61, 0x01 }, { 0x61, 0x02 }, { 0x6E }, { 0x10 },
        { 0x40, 0x3F, 0xFF, 0xFF, 0xFF, 0xFF, 0xFF, 0xFF, 0xFF, 0xFF, 0xFF, 0xFF, 0xFF, 0xFF },
    };
    static const size_t lengths[] = { 3, 2, 2, 2, 1, 1, 14 };
    static const char *const frames[] = {
        "CPOWR0000000000000001", "CTPOW################", "CTPMU################", "CVOLU0000000000000100", "CVOLU9999999999999999",
        "CINPT0000000500009999", "CSCENauto24pSync#####", "EPOWR################", "EVOLU################", "EINPT################",
        "ESCEN################", "CZOOM0000000000000001", "APOWR0000000000000001", "CIRCC0000000000000030", "CIRCC0000000000000127",
        "CIRCC0000000000000028",
    };
    for (size_t i = 0; i < LENGTH_OF(blocks); i++)
        takes(box, rs232c_frame(blocks[i], lengths[i]));
    for (size_t i = 0; i < LENGTH_OF(frames); i++)
        takes(box, kjw_frame(frames[i]));
}

/* Bytes of no meaning, few and very many, and areas and links that are none. */
static void takes_anything(const struct display_box *box)
{
    static const size_t lengths[] = { 0, 5, 13, 24, 258, 512, 600, LONGEST }, links[] = { 0, 1, 8, 9, SIZE_MAX };
    for (size_t i = 0; i < LENGTH_OF(lengths); i++)
        for (size_t l = 0; l < LENGTH_OF(links); l++) {
            given.box = *box;
            given.way = (uint8_t)next();
            given.link = links[l];
            given.room = next() % sizeof given.area;
            given.length = lengths[i];
            randomise(given.bytes, lengths[i]);
            makes(take);
            makes(show);
            makes(configure);
            makes(sum);
            makes(read_advert);
            makes(write_advert);
        }
}

static void every_message(const struct display_box *box)
{
    takes_packets(box);
    takes_frames(box);
    takes_anything(box);
}

/* A receiver that claims so much, over the front of this stream or over any bits, and the rest of the stream as the piece. */
static void receives(const uint8_t *stream, size_t length, size_t held)
{
    size_t cut = held < length ? held : length;
    if (cut > sizeof given.receiver.store)
        cut = sizeof given.receiver.store;
    called = receive;
    for (int turn = 0; turn < 4; turn++) {
        randomise(&given.receiver, sizeof given.receiver);
        given.receiver.held = held;
        if (turn < 2)
            memcpy(given.receiver.store, stream, cut);
        give(stream + cut, length - cut);
        measure(turn % 2 == 0 ? 0xA5 : 0x5A);
    }
}

/* Packets, one cut in two, an overlong header, noise of the two bytes that a front begins with; few bytes and very many. */
static void receives_pieces(void)
{
    static const size_t helds[] = { 0, 1, 6, 12, 13, 20, 30, 500, 511, 512, 513, SIZE_MAX };
    static uint8_t streams[5][LONGEST];
    struct message m = sdcp_packet(0, 0, "STATset VOLUME 40");
    for (size_t i = 0; i + m.length <= LONGEST; i += m.length)
        memcpy(streams[0] + i, m.bytes, m.length);
    memcpy(streams[1], "\x03\x0BSONY\x00\x00\x00\xB0\x00\x01\xF3", 13);
    memcpy(streams[2], "\x03\x0BSONY\x00\x00\x00\xB0\x00\x01\xF4", 13);
    memset(streams[3], 0x03, LONGEST);
    for (size_t i = 0; i < LONGEST; i++)
        streams[4][i] = "\x03\x0B"[i % 2];
    for (size_t s = 0; s < LENGTH_OF(streams); s++)
        for (size_t h = 0; h < LENGTH_OF(helds); h++) {
            receives(streams[s], 30, helds[h]);
            receives(streams[s], BOX_PACKET_LENGTH, helds[h]);
            receives(streams[s], LONGEST, helds[h]);
        }
}

/* So much of a part again and again; few bytes and very many. */
static void lists(const void *part, size_t n)
{
    static const size_t lengths[] = { 0, 1, 13, 30, 64 * 13, 65 * 13, LONGEST };
    for (size_t i = 0; i < LONGEST; i++)
        given.bytes[i] = ((const uint8_t *)part)[i % n];
    for (size_t i = 0; i < LENGTH_OF(lengths); i++) {
        given.length = lengths[i];
        randomise(&given.listing, sizeof given.listing);
        makes(list);
    }
}

/* A full list is the deepest: of packets, of overlong headers, with noise between them or none. Noise alone is passed over by a loop. */
static void lists_buffers(void)
{
    lists("\x03\x0BSONY\x00\x00\x00\xB0\x00\x00\x00", 13);
    lists("\x03\x0BSONY\x00\x00\x00\xB0\x00\x00\x02hi..", 17);
    lists("\x03\x0BSONY\x00\x00\x00\xB0\x00\xFF\xFF", 13);
    lists("\x03\x0BSONY\x00\x00\x00\xB0\x00\x01\xF4 \x03", 15);
    lists("\x00", 1);
    lists("\x03", 1);
    lists("\x03\x0BSON", 5);
}

/* Eight panels are made; an advert is written, read and summed, whole and with a byte too many. */
static void every_other_call(void)
{
    given.length = configuration_of("WWWWWWWW", given.bytes);
    makes(configure);
    makes(show);
    memset(given.bytes, 0, BOX_ADVERT_LENGTH);
    memcpy(given.bytes, "DA\x04\x0BSONYLMD3250MD", 17);
    given.room = sizeof given.area;
    for (given.length = BOX_ADVERT_LENGTH; given.length <= BOX_ADVERT_LENGTH + 1; given.length++) {
        makes(write_advert);
        makes(read_advert);
        makes(sum);
    }
}

int main(void)
{
    static const char *const families[] = { "WKWWWWWW", "KWKWKWKW", "WK" };
    struct display_box box;
    for (size_t i = 0; i < LENGTH_OF(families); i++) {
        box = box_of(families[i]);
        every_message(&box);
    }
    box.panels[0].group.id = 100;
    every_message(&box);
    memset(&box, 0xFF, sizeof box);
    every_message(&box);
    every_other_call();
    receives_pieces();
    lists_buffers();
    /* a measure that sees nothing would hold every call for small: a message's box is copied */
    expect(deepest > sizeof box, "the depth is seen", (long)deepest, (long)sizeof box);
    expect(deepest_list > sizeof given.listing, "and that of a list", (long)deepest_list, (long)sizeof given.listing);
    printf("%zu bytes of stack at the most, %zu for a list\n", deepest, deepest_list);
    return verdict();
}
