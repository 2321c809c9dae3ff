/*
 * The receiver, from C: records of any bits, streams full of what looks like the
 * front of a packet, cut anywhere, empty pieces and very long ones. Record, piece
 * and packet stand alone in memory with their exact sizes. Each call is held
 * against a byte machine that is written here from document 02, §1, and the
 * sentences of §1 have examples that were worked out by hand.
 */
#include "areas.h"
#include "messages.h"
#include "streams.h"

static struct place receiver_place, piece_place, packet_place, box_place, area_place;

/* ---- document 02, §1, as a machine that reads one byte after the other */

/* The bytes at hand: they begin a packet, or could. */
struct machine {
    uint8_t at_hand[BOX_PACKET_LENGTH];
    size_t count;
};

/* "until the next bytes can begin 03h 0Bh "SONY"" */
static bool can_begin(const struct machine *m) { return is_same(m->at_hand, "\x03\x0BSONY", at_most(m->count, 6)); }

/* "with 13 bytes it knows the length. With a length over 499 just those 13 bytes are handed out as a message" */
static bool is_whole(const struct machine *m)
{
    if (m->count < 13)
        return false;
    size_t data = 256u * m->at_hand[11] + m->at_hand[12];
    return m->count == (data > 499 ? 13 : 13 + data);
}

/* "It drops bytes one by one". Says whether what is at hand is to be handed out. */
static bool read_byte(struct machine *m, uint8_t byte)
{
    m->at_hand[m->count++] = byte;
    while (!can_begin(m))
        memmove(m->at_hand, m->at_hand + 1, --m->count);
    return is_whole(m);
}

/* What a call has to give and to leave. */
struct told {
    struct box_receiver after;
    struct box_received got;
    uint8_t packet[BOX_PACKET_LENGTH];
};

/* "after each call its store is 0 behind the bytes held" */
static struct box_receiver holding(const uint8_t *bytes, size_t count)
{
    struct box_receiver r = { .held = count };
    if (count > 0)
        memcpy(r.store, bytes, count);
    return r;
}

static struct told hands_out(const struct machine *m, size_t taken, const uint8_t *held, size_t count)
{
    struct told t = { holding(held, count), { taken, m->count }, { 0 } };
    memcpy(t.packet, m->at_hand, m->count);
    return t;
}

/*
 * "one that claims to hold more is emptied first, bytes held are read before the
 * piece"; "a call takes no byte past what it hands out and says how many it took;
 * one that hands out nothing has taken the whole piece".
 */
static struct told told_of(const struct box_receiver *r, const uint8_t *piece, size_t length)
{
    struct machine m = { .count = 0 };
    size_t held = r->held > BOX_PACKET_LENGTH ? 0 : r->held;
    for (size_t i = 0; i < held; i++)
        if (read_byte(&m, r->store[i]))
            return hands_out(&m, 0, r->store + i + 1, held - i - 1);
    for (size_t i = 0; i < length; i++)
        if (read_byte(&m, piece[i]))
            return hands_out(&m, i + 1, NULL, 0);
    return (struct told){ holding(m.at_hand, m.count), { length, 0 }, { 0 } };
}

/* ---- a call */

/* The packet's area: it comes with this in every byte, now one and now the other. */
static uint8_t *packet;
static uint8_t fill = 0xA5;

/* The call does as told: the numbers, every byte of the record, every byte of the packet's area. The piece stands alone already. */
static struct box_received receives_as(struct box_receiver *r, const uint8_t *piece, size_t length, const struct told *want, const char *what)
{
    struct box_receiver *receiver = stand_copy(&receiver_place, r, sizeof *r);
    uint8_t area[BOX_PACKET_LENGTH];
    memset(area, fill, sizeof area);
    memcpy(area, want->packet, want->got.length);
    packet = stand_filled(&packet_place, fill, BOX_PACKET_LENGTH);
    struct box_received got = box_receive(receiver, piece, length, packet);
    expect(got.taken == want->got.taken && got.length == want->got.length, what, (long)got.taken, (long)got.length);
    expect(memcmp(packet, area, sizeof area) == 0, "the packet, and its area behind it", (long)r->held, (long)length);
    expect(memcmp(receiver, &want->after, sizeof *receiver) == 0, "the record afterwards", (long)r->held, (long)length);
    *r = *receiver;
    fill ^= 0xFF;
    return got;
}

static struct box_received receives(struct box_receiver *r, const uint8_t *piece, size_t length)
{
    struct told want = told_of(r, piece, length);
    return receives_as(r, piece, length, &want, "taken and length");
}

/* What a stream brought: each packet behind its length in two bytes, and, where there is a box, answer, place and reply in the same way. */
struct brought {
    struct display_box *box;
    uint8_t bytes[8192];
    size_t count;
};

static void note(struct brought *b, const uint8_t *bytes, size_t length)
{
    if (b->count + 2 + length > sizeof b->bytes)
        exit(2);
    b->bytes[b->count++] = (uint8_t)(length / 256);
    b->bytes[b->count++] = (uint8_t)(length % 256);
    memcpy(b->bytes + b->count, bytes, length);
    b->count += length;
}

static unsigned long packets;

static void take_packet(struct brought *b, size_t length)
{
    packets++;
    if (b == NULL)
        return;
    note(b, packet, length);
    if (b->box == NULL)
        return;
    uint8_t *area = stand_filled(&area_place, 0xA5, BOX_AREA_LENGTH);
    struct box_outcome o = box_take_tcp(b->box, 1, packet, length, area, BOX_AREA_LENGTH);
    note(b, (const uint8_t[]){ o.answer, (uint8_t)(o.place / 256), (uint8_t)(o.place % 256) }, 3);
    note(b, area, o.length);
}

/* "each piece's rest being given until a call hands out nothing": the loop of the header. */
static void feed(struct box_receiver *r, const uint8_t *bytes, size_t length, struct brought *b)
{
    const uint8_t *piece = stand_copy(&piece_place, bytes, length), *rest = piece;
    size_t left = length;
    /* a packet has 13 bytes or more: with more calls than this it would never end */
    for (size_t calls = (BOX_PACKET_LENGTH + length) / 13 + 1; calls > 0; calls--) {
        struct box_received got = receives(r, rest, left);
        if (got.taken > left)
            break;
        left -= got.taken;
        if (rest != NULL)
            rest += got.taken;
        if (got.length == 0)
            break;
        take_packet(b, got.length);
    }
    expect(left == 0, "the whole piece is taken", (long)length, (long)left);
    expect(is_same(piece, bytes, length), "the piece is left as it was", (long)length, 0);
}

/* ---- the sentences of §1 */

/* A record that holds these bytes, with FFh behind them in the store. */
static struct box_receiver record_of(const uint8_t *held, size_t count)
{
    struct box_receiver r = { .held = count };
    memset(r.store, 0xFF, sizeof r.store);
    memcpy(r.store, held, count);
    return r;
}

/* One call: what is held, the piece, how many bytes are taken, what is handed out, and what is held then. */
static void example(const char *what, const uint8_t *held, size_t held_length, const uint8_t *piece, size_t length, size_t taken,
                    const uint8_t *handed, size_t handed_length, const uint8_t *after, size_t after_length)
{
    struct box_receiver r = record_of(held, held_length);
    struct told want = { holding(after, after_length), { taken, handed_length }, { 0 } };
    memcpy(want.packet, handed, handed_length);
    receives_as(&r, stand_copy(&piece_place, piece, length), length, &want, what);
}

static void sentences(void)
{
    example("a whole packet", B(""), B(PACKET), 13, B(PACKET), B(""));
    example("no byte past what is handed out", B(""), B(PACKET PACKET "x"), 13, B(PACKET), B(""));
    example("nothing is whole: all is taken", B(""), B(FRONT "\x00\x00\x00\xB0\x00\x00"), 12, B(""), B(FRONT "\x00\x00\x00\xB0\x00\x00"));
    example("the last byte", B(FRONT "\x00\x00\x00\xB0\x00\x00"), B("\x00y"), 1, B(PACKET), B(""));
    example("an empty piece, and nothing held", B(""), B(""), 0, B(""), B(""));
    example("an empty piece", B(FRONT), B(""), 0, B(""), B(FRONT));
    example("noise is dropped at once", B(""), B("noise"), 5, B(""), B(""));
    example("noise before a packet", B(""), B("noise" PACKET), 18, B(PACKET), B(""));
    example("noise that is held", B("noise\x03"), B("\x0BS"), 2, B(""), B("\x03\x0BS"));
    example("a front within a front", B(""), B("\x03\x03\x0B\x03\x0BSON\x03\x0BSON"), 13, B(""), B("\x03\x0BSON"));
    example("a front that is held and does not go on", B("\x03\x0BSON"), B("\x03\x0B"), 2, B(""), B("\x03\x0B"));
    example("sony", B(""), B("\x03\x0Bsony\x00\x00\x00\xB0\x00\x00\x00"), 13, B(""), B(""));
    example("another version", B(""), B("\x02\x0BSONY"), 6, B(""), B(""));
    example("nothing but the front is looked at", B(""), B(FRONT "\xFF\x01\x01\x00\x00\x00\x01!"), 14, B(FRONT "\xFF\x01\x01\x00\x00\x00\x01!"), B(""));
    example("data that looks like a packet", B(""), B(FRONT "\x00\x00\x00\xB0\x00\x00\x0D" PACKET), 26, B(FRONT "\x00\x00\x00\xB0\x00\x00\x0D" PACKET), B(""));
    example("a length of 500: 13 bytes", B(""), B(OVERLONG PACKET), 13, B(OVERLONG), B(""));
    example("a length of 65535: 13 bytes", B(""), B(FRONT "\x00\x00\x00\xB0\x00\xFF\xFF"), 13, B(FRONT "\x00\x00\x00\xB0\x00\xFF\xFF"), B(""));
    example("a length of 499 is waited for", B(""), B(FRONT "\x00\x00\x00\xB0\x00\x01\xF3 "), 14, B(""), B(FRONT "\x00\x00\x00\xB0\x00\x01\xF3 "));
    example("the 13 bytes of an overlong header are not searched again", B(""), B(FRONT FRONT "\xF4" FRONT), 13, B(FRONT FRONT "\xF4"), B(""));
    example("behind an overlong header the search goes on", B(OVERLONG "da\x03"), B("ta"), 0, B(OVERLONG), B("da\x03"));
    example("a packet that is held is read before the piece", B(PACKET), B(OVERLONG), 0, B(PACKET), B(""));
    example("several that are held, one a call", B("noise" PACKET "between" PACKET), B("x"), 0, B(PACKET), B("between" PACKET));
}

/* "It holds at most 512 bytes"; "one that claims to hold more is emptied first". */
static void holds_at_most_512(void)
{
    uint8_t long_one[BOX_PACKET_LENGTH + 1] = FRONT "\x00\x00\x00\xB0\x00\x01\xF3";
    struct box_receiver r = record_of(long_one, BOX_PACKET_LENGTH);
    struct told want = { { .held = 0 }, { 0, BOX_PACKET_LENGTH }, { 0 } };
    memcpy(want.packet, long_one, BOX_PACKET_LENGTH);
    receives_as(&r, stand_copy(&piece_place, "x", 1), 1, &want, "512 bytes that are a packet");
    for (size_t i = 0; i < 3; i++) {
        static const size_t claimed[] = { 513, (size_t)1 << 32, SIZE_MAX };
        r = record_of(long_one, BOX_PACKET_LENGTH);
        r.held = claimed[i];
        want = (struct told){ { .held = 0 }, { 3, 0 }, { 0 } };
        receives_as(&r, stand_copy(&piece_place, "xyz", 3), 3, &want, "one that claims more is empty");
    }
    /* 511 of the 512 bytes are the most that a call leaves */
    r = holding(NULL, 0);
    want = (struct told){ holding(long_one, BOX_PACKET_LENGTH - 1), { BOX_PACKET_LENGTH - 1, 0 }, { 0 } };
    receives_as(&r, stand_copy(&piece_place, long_one, BOX_PACKET_LENGTH - 1), BOX_PACKET_LENGTH - 1, &want, "511 bytes are held");
}

/*
 * Document 02, §8: "9 or 10 if those fields are wrong, else 11", and 4 before these
 * if nobody is addressed: group 7 has no panel, and 0/0 is the link's own.
 */
static void overlong_headers_are_answered(void)
{
    static const struct { uint8_t group, request, item, answer; uint16_t place; size_t length; } headers[] = {
        { 0, 0x00, 0xB0, BOX_DATA_TOO_LONG, 11, 15 }, { 0, 0x01, 0xB0, BOX_REQUEST_WRONG, 8, 15 }, { 0, 0x00, 0xB1, BOX_ITEM_WRONG, 9, 15 },
        { 0, 0x01, 0xB1, BOX_REQUEST_WRONG, 8, 15 },  { 7, 0x01, 0xB1, BOX_NOT_FOR_US, 0, 0 },
    };
    for (size_t i = 0; i < LENGTH_OF(headers); i++) {
        uint8_t header[] = OVERLONG, area[BOX_AREA_LENGTH];
        struct display_box box = box_of("W");
        struct box_receiver r = holding(NULL, 0);
        header[6] = header[7] = headers[i].group;
        header[8] = headers[i].request;
        header[9] = headers[i].item;
        struct box_received got = receives(&r, stand_copy(&piece_place, header, 13), 13);
        struct box_outcome o = box_take_tcp(&box, 1, packet, got.length, area, sizeof area);
        expect(o.answer == headers[i].answer && o.place == headers[i].place, "an overlong header's answer and place", o.answer, o.place);
        expect(o.length == headers[i].length, "an overlong header's reply", o.answer, (long)o.length);
    }
}

/* ---- records of any bits */

static struct box_receiver any_record(void)
{
    static const size_t huge[] = { 513, (size_t)1 << 16, (size_t)1 << 32, (size_t)1 << 63, SIZE_MAX - 600 };
    struct box_receiver r;
    if (next() % 3 == 0)
        randomise(r.store, sizeof r.store);
    else
        stream_of(r.store, sizeof r.store);
    r.held = next() % (next() % 4 == 0 ? 20 : 601);
    if (next() % 8 == 0)
        r.held += huge[next() % LENGTH_OF(huge)];
    return r;
}

/* Any record, and a stream behind it in any pieces. */
static void any_records(size_t turns)
{
    static uint8_t bytes[1500];
    for (size_t turn = 0; turn < turns; turn++) {
        struct box_receiver r = any_record();
        size_t length = next() % 4 == 0 ? next() % sizeof bytes : next() % 100;
        stream_of(bytes, length);
        for (size_t at = 0, n; at < length; at += n) {
            n = 1 + next() % (length - at);
            feed(&r, bytes + at, n, NULL);
        }
        feed(&r, NULL, 0, NULL);
    }
}

/* Every number of bytes held from 0 to 600: an empty piece, one byte, and one that is longer than any packet. */
static void every_held(void)
{
    static const size_t lengths[] = { 0, 1, 600 };
    uint8_t bytes[600];
    for (size_t held = 0; held <= 600; held++)
        for (size_t i = 0; i < LENGTH_OF(lengths); i++) {
            struct box_receiver r = any_record();
            r.held = held;
            stream_of(bytes, lengths[i]);
            feed(&r, bytes, lengths[i], NULL);
        }
}

/* ---- every cutting gives the same */

/* From that record and that box, the stream in one piece or more. */
static void cut_up(enum cutting cutting, struct box_receiver *r, const uint8_t *bytes, size_t length, struct brought *b)
{
    size_t at = 0;
    do {
        size_t n = piece_of(cutting, length - at);
        feed(r, bytes + at, n, b);
        at += n;
    } while (at < length);
}

/*
 * "The packets, replies and receiver state at the end are the same for every
 * cutting into one piece or more": the box too.
 */
static void cuttings(size_t turns)
{
    static uint8_t bytes[1500];
    static struct brought brought[CUTTINGS];
    for (size_t turn = 0; turn < turns; turn++) {
        struct display_box boxes[CUTTINGS];
        struct box_receiver first = any_record(), ends[CUTTINGS];
        size_t length = next() % (turn % 8 == 0 ? sizeof bytes : 200);
        stream_of(bytes, length);
        for (enum cutting c = WHOLE; c < CUTTINGS; c++) {
            struct display_box made = box_of("WWK");
            ends[c] = first;
            brought[c].count = 0;
            brought[c].box = stand_copy(&box_place, &made, sizeof made);
            cut_up(c, &ends[c], bytes, length, &brought[c]);
            boxes[c] = *brought[c].box;
        }
        for (enum cutting c = BYTE_BY_BYTE; c < CUTTINGS; c++) {
            expect(brought[c].count == brought[WHOLE].count && is_same(brought[c].bytes, brought[WHOLE].bytes, brought[c].count),
                   "packets and replies of another cutting", (long)turn, (long)length);
            expect(memcmp(&ends[c], &ends[WHOLE], sizeof ends[c]) == 0, "the receiver after another cutting", (long)turn, (long)length);
            expect(memcmp(&boxes[c], &boxes[WHOLE], sizeof boxes[c]) == 0, "the box after another cutting", (long)turn, (long)length);
        }
    }
}

/* ---- very long pieces */

/* So many bytes, the pattern again and again. */
static void long_piece(size_t length, const void *pattern, size_t n, size_t wanted)
{
    static uint8_t bytes[PLACE_ROOM];
    struct box_receiver r = holding(NULL, 0);
    unsigned long before = packets;
    for (size_t i = 0; i < length; i++)
        bytes[i] = ((const uint8_t *)pattern)[i % n];
    feed(&r, bytes, length, NULL);
    expect(packets - before == wanted, "packets in a very long piece, and those wanted", (long)(packets - before), (long)wanted);
}

static void long_pieces(void)
{
    uint8_t longest[BOX_PACKET_LENGTH] = FRONT "\x00\x00\x00\xB0\x00\x01\xF3";
    long_piece(PLACE_ROOM, B("\x00"), 0);
    long_piece(PLACE_ROOM, B("\x03"), 0);
    long_piece(PLACE_ROOM / 16, B("\x03\x0B"), 0);
    long_piece(PLACE_ROOM / 16, B("\x03\x0BSON"), 0);
    long_piece(PLACE_ROOM, longest, sizeof longest, PLACE_ROOM / sizeof longest);
    long_piece(PLACE_ROOM / 16, B(PACKET), PLACE_ROOM / 16 / 13);
    long_piece(PLACE_ROOM / 16, B(OVERLONG), PLACE_ROOM / 16 / 13);
}

int main(void)
{
    for (standing = 0; standing < STANDINGS; standing++) {
        sentences();
        holds_at_most_512();
        overlong_headers_are_answered();
        every_held();
        any_records(3000);
        cuttings(100);
        long_pieces();
    }
    printf("%lu packets\n", packets);
    return verdict();
}
