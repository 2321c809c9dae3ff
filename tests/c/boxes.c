/*
 * The calls on boxes, from C: boxes that break the rules, two boxes at once,
 * every way in and every number that is none, every length of message, area and
 * configuration, envelopes of which one part is wrong or several, the codes of the
 * remote control, and the bench examples. Box, message and area stand alone in
 * memory with their exact sizes. What is expected is worked out here, from the
 * documents, and not taken from the box.
 */
#include "areas.h"
#include "messages.h"

#define LONGEST 65535

static struct place box_place, other_place, message_place, area_place, panel_place;
static const struct display_box no_panels;

/* ---- what the documents say of a message whose contents are never understood */

struct told {
    uint8_t answer;
    uint16_t place;
    size_t length;
    uint8_t reply[64];
};

static struct told told_at(uint8_t answer, size_t place, const void *reply, size_t length)
{
    struct told t = { answer, (uint16_t)place, length, { 0 } };
    memcpy(t.reply, reply, length);
    return t;
}

/* Document 02, §8: "other answers have place 0" */
static struct told told(uint8_t answer, const void *reply, size_t length) { return told_at(answer, 0, reply, length); }

static struct told quiet(uint8_t answer) { return told(answer, "", 0); }

/* Of an envelope the first part that is wrong: its number, and "the place of the first byte of the guilty field"; number 0 where none is. */
struct part {
    uint8_t number;
    size_t place;
};

/* "13 byte count, 14 checksum; in that order" */
static struct part rs232c_part(const uint8_t *m, size_t n)
{
    if (m[1] != n - 3)
        return (struct part){ 13, 1 };
    if (m[n - 1] != checksum_of(m + 1, n - 2))
        return (struct part){ 14, n - 1 };
    return (struct part){ 0, 0 };
}

/* "9 request, 10 item, 11 over 499, 12 not matching" */
static struct part sdcp_part(const uint8_t *m, size_t n)
{
    size_t length = (size_t)m[11] * 256 + m[12];
    if (m[8] != 0x00)
        return (struct part){ 9, 8 };
    if (m[9] != 0xB0 || m[10] != 0x00)
        return (struct part){ 10, 9 };
    if (length > 499)
        return (struct part){ 11, 11 };
    if (length != n - 13)
        return (struct part){ 12, 11 };
    return (struct part){ 0, 0 };
}

/* "RS-232C NAK" goes with a wrong part and with 6. */
static struct told rs232c_told(const uint8_t *m, size_t n)
{
    if (n < 6)
        return quiet(3);
    if (m[0] != 0x02 || m[2] != 0x01 || m[3] < 0x41 || m[3] > 0x7F)
        return quiet(4);
    struct part part = rs232c_part(m, n);
    struct message nak = frame_between(m[3], 0x01, "\x05", 1);
    return told_at(part.number == 0 ? 6 : part.number, part.place, nak.bytes, nak.length);
}

static struct told kjw_told(const uint8_t *m, size_t n)
{
    if (n != 24)
        return quiet(3);
    if (m[0] != '*' || m[1] != 'S' || (m[2] != 'C' && m[2] != 'E') || m[23] != '\n')
        return quiet(4);
    struct message refusal = kjw_frame("A????FFFFFFFFFFFFFFFF");
    memcpy(refusal.bytes + 3, m + 3, 4);
    return told(6, refusal.bytes, refusal.length);
}

static int is_id(uint8_t id) { return id >= 1 && id <= 99; }

/*
 * "TCP: 0/0 is the link's own panel; 1..99/1..99 is the W panel with that pair.
 * UDP: 1..99/FFh is every W panel of that group; FFh/FFh every W panel."
 */
static int is_anybody_called(const struct display_box *box, uint8_t way, uint8_t group, uint8_t unit)
{
    if (way == BOX_WAY_TCP && group == 0 && unit == 0)
        return 1;
    for (size_t i = 0; i < box->count; i++) {
        const struct box_panel *p = &box->panels[i];
        if (p->family != BOX_FAMILY_W)
            continue;
        if (way == BOX_WAY_TCP && is_id(group) && is_id(unit) && p->group.id == group && p->unit.id == unit)
            return 1;
        if (way == BOX_WAY_UDP && unit == 0xFF && (group == 0xFF || (is_id(group) && p->group.id == group)))
            return 1;
    }
    return 0;
}

/* Document 02, §5: "the trimmed data is STATget alone or begins with STATget and a space"; §2 says what is trimmed */
static int asks_status(const uint8_t *data, size_t n)
{
    if (n > 0 && data[n - 1] == 0x00)
        n--;
    while (n > 0 && data[n - 1] == ' ')
        n--;
    return n >= 7 && memcmp(data, "STATget", 7) == 0 && (n == 7 || data[7] == ' ');
}

/* By TCP NG goes with a wrong part and OK without data with 6; by UDP nothing, and a question is 8 behind the parts and before 6. */
static struct told sdcp_told(const struct display_box *box, uint8_t way, const uint8_t *m, size_t n)
{
    if (n < 13)
        return quiet(3);
    if (memcmp(m, "\x03\x0BSONY", 6) != 0 || !is_anybody_called(box, way, m[6], m[7]))
        return quiet(4);
    struct part part = sdcp_part(m, n);
    int is_whole = part.number == 0;
    if (way == BOX_WAY_UDP)
        return is_whole ? quiet(asks_status(m + 13, n - 13) ? 8 : 6) : told_at(part.number, part.place, "", 0);
    uint8_t reply[15] = { 0, 0, 0, 0, 0, 0, 0, 0, is_whole, m[9], m[10], 0, is_whole ? 0 : 2, 0xF0, 0x50 };
    memcpy(reply, m, 8);
    return told_at(is_whole ? 6 : part.number, part.place, reply, is_whole ? 13 : 15);
}

/* A box that breaks the rules is told as the box of no panels. The numbers that are no way in are 2, by this project's decision. */
static struct told told_of(const struct display_box *box, uint8_t way, size_t link, const uint8_t *m, size_t n, size_t room)
{
    if (way == BOX_WAY_UDP)
        return sdcp_told(box, way, m, n);
    if (way < BOX_WAY_RS232C || way > BOX_WAY_UDP)
        return quiet(2);
    if (room < 512)
        return quiet(1);
    uint8_t family = way == BOX_WAY_KJW ? BOX_FAMILY_K : BOX_FAMILY_W;
    if (link < 1 || link > box->count || box->panels[link - 1].family != family)
        return quiet(2);
    if (way == BOX_WAY_TCP)
        return sdcp_told(box, way, m, n);
    return way == BOX_WAY_KJW ? kjw_told(m, n) : rs232c_told(m, n);
}

/* ---- a message is handed over */

static int is_filled(const uint8_t *bytes, size_t n, uint8_t value)
{
    for (size_t i = 0; i < n; i++)
        if (bytes[i] != value)
            return 0;
    return 1;
}

static int is_same(const void *a, const void *b, size_t n) { return n == 0 || memcmp(a, b, n) == 0; }

/* Answer, place, reply, the area behind it, the message and the box afterwards are as told. */
static void takes(const struct display_box *before, uint8_t way, size_t link, const uint8_t *bytes, size_t n, size_t room,
                  const struct told *want, const struct display_box *after)
{
    struct display_box *box = stand_copy(&box_place, before, sizeof *before);
    const uint8_t *message = stand_copy(&message_place, bytes, n);
    uint8_t *area = stand_filled(&area_place, 0xA5, room);
    struct box_outcome o = box_take(box, way, link, message, n, area, room);
    expect(o.answer == want->answer, "answer, and the one expected", o.answer, want->answer);
    expect(o.place == want->place, "place, and the one expected", o.place, want->place);
    expect(o.length == want->length, "length, and the one expected", (long)o.length, (long)want->length);
    expect(is_same(area, want->reply, want->length), "the reply's bytes", way, (long)n);
    expect(room == 0 || is_filled(area + want->length, room - want->length, 0xA5), "the area behind the reply", way, (long)room);
    expect(is_same(message, bytes, n), "the message is left", way, (long)n);
    expect(is_same(box, after, sizeof *box), "the box afterwards", way, (long)n);
}

/* A message that is never carried out, to a box that is told as the second one: it comes back bit for bit. */
static void refuses(const struct display_box *box, const struct display_box *told_as, uint8_t way, size_t link,
                    const uint8_t *bytes, size_t n, size_t room)
{
    struct told want = told_of(told_as, way, link, bytes, n, room);
    takes(box, way, link, bytes, n, room, &want, box);
}

static void shows(const struct display_box *box, size_t link, const struct box_panel *want)
{
    const struct display_box *b = stand_copy(&box_place, box, sizeof *box);
    struct box_panel *panel = stand_filled(&panel_place, 0xA5, sizeof *panel);
    box_panel_at(b, link, panel);
    expect(is_same(panel, want, sizeof *want), "the panel that is shown", (long)link, panel->family);
    expect(is_same(b, box, sizeof *box), "a look leaves the box", (long)link, 0);
}

/* ---- messages of every length */

enum shape { ZEROS, TWOS, RISING, WHOLE, LENGTH_WRONG, SPOILED, SHAPES };

/* The front that a message of that way has; what follows is no command, no letters and no words. */
static void lay_whole(uint8_t *m, size_t n, uint8_t way)
{
    static const uint8_t fronts[][13] = {
        [BOX_WAY_RS232C] = { 0x02, 0, 0x01, 0x41, 0xFF },
        [BOX_WAY_KJW] = { '*', 'S', 'C' },
        [BOX_WAY_TCP] = { 0x03, 0x0B, 'S', 'O', 'N', 'Y', 0x00, 0x00, 0x00, 0xB0, 0x00 },
        [BOX_WAY_UDP] = { 0x03, 0x0B, 'S', 'O', 'N', 'Y', 0xFF, 0xFF, 0x00, 0xB0, 0x00 },
    };
    memset(m, 0, n);
    memcpy(m, fronts[way], n < 13 ? n : 13);
    if (way == BOX_WAY_RS232C && n >= 6) {
        m[1] = (uint8_t)(n - 3);
        m[n - 1] = checksum_of(m + 1, n - 2);
    }
    if (way == BOX_WAY_KJW && n > 0)
        m[n - 1] = '\n';
    if (way >= BOX_WAY_TCP && n >= 13) {
        m[11] = (uint8_t)((n - 13) >> 8);
        m[12] = (uint8_t)(n - 13);
    }
}

static void lay(uint8_t *m, size_t n, uint8_t way, enum shape shape)
{
    size_t length_at = way == BOX_WAY_RS232C ? 1 : 12;
    lay_whole(m, n, way);
    if (shape < WHOLE)
        for (size_t i = 0; i < n; i++)
            m[i] = shape == ZEROS ? 0 : shape == TWOS ? 2 : (uint8_t)(2 + i);
    if (shape == LENGTH_WRONG && n >= 13) {
        m[length_at]++;
        m[n - 1]--;
    }
    if (shape == SPOILED && n > 0)
        m[n - 1]++;
}

/* Over 258 bytes no byte count fits, over 512 no data length; 24 is a KJW frame's only length. */
static void every_length(void)
{
    static const size_t long_ones[] = { 1024, 4099, 65534, LONGEST };
    static uint8_t m[LONGEST];
    struct display_box box = box_of("WK");
    for (uint8_t way = BOX_WAY_RS232C; way <= BOX_WAY_UDP; way++)
        for (enum shape shape = 0; shape < SHAPES; shape++) {
            size_t link = way == BOX_WAY_KJW ? 2 : 1;
            for (size_t n = 0; n <= 600; n++) {
                lay(m, n, way, shape);
                refuses(&box, &box, way, link, m, n, BOX_AREA_LENGTH);
            }
            for (size_t i = 0; i < LENGTH_OF(long_ones); i++) {
                lay(m, long_ones[i], way, shape);
                refuses(&box, &box, way, link, m, long_ones[i], BOX_AREA_LENGTH);
            }
        }
}

/* ---- ways, links, areas and addresses */

/* The larger ones are links of a panel where 8 or 32 bits are kept, or where the place's offset wraps. */
static const size_t links[] = { 0, 1, 2, 3, 8, 9, 257, ((size_t)1 << 32) + 1, SIZE_MAX / sizeof(struct box_panel) + 2, SIZE_MAX };

/* Every number for a way, on every link, in areas that are too small and in some that are not. */
static void every_way(void)
{
    static const size_t rooms[] = { 0, 1, 511, 512, 600 };
    struct display_box box = box_of("WKW");
    for (unsigned way = 0; way < 256; way++)
        for (size_t l = 0; l < LENGTH_OF(links); l++)
            for (size_t r = 0; r < LENGTH_OF(rooms); r++) {
                struct message none = sdcp_packet(0, 0, ""), set = sdcp_packet(0, 0, "STATset VOLUME 40");
                refuses(&box, &box, (uint8_t)way, links[l], none.bytes, none.length, rooms[r]);
                refuses(&box, &box, (uint8_t)way, links[l], none.bytes, 0, rooms[r]);
                if (way < BOX_WAY_RS232C || way > BOX_WAY_UDP)
                    refuses(&box, &box, (uint8_t)way, links[l], set.bytes, set.length, rooms[r]);
            }
}

/* Too small an area refuses what would be carried out; any other has the reply at its front. */
static void every_area(void)
{
    static const uint8_t volume[] = "\x03\x0BSONY\0\0\x01\xB0\0\0\x09VOLUME 30";
    static const char accepted[] = "*SAPOWR0000000000000000\n*SNPOWR0000000000000001\n";
    struct display_box box = box_of("WK"), on = box;
    on.panels[1].k.power = 1;
    struct message get = sdcp_packet(0, 0, "STATget VOLUME"), power = kjw_frame("CPOWR0000000000000001");
    struct message remote = rs232c_frame("\x6E", 1), is_on = frame_between(0x41, 0x01, "\x7E\x01", 2);
    struct told small = quiet(1), got = told(0, volume, 22), powered = told(0, accepted, 48);
    struct told asked_for = told(0, is_on.bytes, is_on.length);
    for (size_t room = 0; room <= 600; room++) {
        int fits = room >= 512;
        takes(&box, BOX_WAY_TCP, 1, get.bytes, get.length, room, fits ? &got : &small, &box);
        takes(&box, BOX_WAY_RS232C, 1, remote.bytes, remote.length, room, fits ? &asked_for : &small, &box);
        takes(&box, BOX_WAY_KJW, 2, power.bytes, power.length, room, fits ? &powered : &small, fits ? &on : &box);
    }
}

/* "UDP skips 1 and 2": a broadcast is carried out whatever link and area are. */
static void udp_looks_at_neither(void)
{
    static const size_t rooms[] = { 0, 1, 511, 512, 600 };
    struct message m = sdcp_packet(0xFF, 0xFF, "STATset VOLUME 40");
    struct told done = quiet(0);
    struct display_box box = box_of("WKW"), after = box;
    after.panels[0].w.settings[BOX_VOLUME] = 40;
    after.panels[2].w.settings[BOX_VOLUME] = 40;
    for (size_t l = 0; l < LENGTH_OF(links); l++)
        for (size_t r = 0; r < LENGTH_OF(rooms); r++)
            takes(&box, BOX_WAY_UDP, links[l], m.bytes, m.length, rooms[r], &done, &after);
}

/* Groups and units at every edge; 11/21 and 13/23 are the W panels' own. */
static void addresses(void)
{
    static const uint8_t ids[] = { 0, 1, 10, 11, 12, 13, 14, 20, 21, 22, 23, 24, 99, 100, 254, 255 };
    struct display_box box = box_of("WKW");
    for (size_t g = 0; g < sizeof ids; g++)
        for (size_t u = 0; u < sizeof ids; u++) {
            struct message m = sdcp_packet(ids[g], ids[u], "STATset");
            for (size_t link = 0; link <= 4; link++)
                refuses(&box, &box, BOX_WAY_TCP, link, m.bytes, m.length, BOX_AREA_LENGTH);
            refuses(&box, &box, BOX_WAY_UDP, 0, m.bytes, m.length, 0);
        }
}

/* One byte more of data. */
static struct message with_byte(struct message m, uint8_t byte)
{
    m.bytes[m.length++] = byte;
    m.bytes[12]++;
    return m;
}

/* A packet that is refused by UDP, to all, to a group and to a group that nobody has: the box that it is for, and one of garbage. */
static void is_no_broadcast(struct message m)
{
    static const uint8_t groups[] = { 0xFF, 11, 99 };
    struct display_box box = box_of("WKW"), garbage;
    randomise(&garbage, sizeof garbage);
    garbage.count = 9;
    for (size_t g = 0; g < sizeof groups; g++) {
        m.bytes[6] = groups[g];
        refuses(&box, &box, BOX_WAY_UDP, 0, m.bytes, m.length, 0);
        refuses(&garbage, &no_panels, BOX_WAY_UDP, 0, m.bytes, m.length, 0);
    }
}

/* Document 02, §5: known names, others and none, with every end; what only looks like a question; and a wrong length before all of it. */
static void questions_by_broadcast(void)
{
    static const char *const data[] = { "STATget VOLUME", "STATget SHIFTV", "STATget NOTHING", "STATget", "STATget  VOLUME",
                                        "STATget VOLUME 40", "STATgetVOLUME", "STATget\tVOLUME", " STATget VOLUME",
                                        "statget VOLUME", "STATge", "STATset VOLUME 101", "STATset" };
    for (size_t i = 0; i < LENGTH_OF(data); i++) {
        struct message m = sdcp_packet(0xFF, 0xFF, data[i]);
        is_no_broadcast(m);
        is_no_broadcast(with_byte(m, ' '));
        is_no_broadcast(with_byte(m, 0x00));
        is_no_broadcast(with_byte(with_byte(m, ' '), 0x00));
        is_no_broadcast(with_byte(with_byte(m, 0x00), ' '));
        is_no_broadcast(with_byte(with_byte(m, 0x00), 0x00));
        m.bytes[12]++;
        is_no_broadcast(m);
    }
}

/* ---- envelopes of which a part is wrong, or several (document 02, §8) */

/* In areas that are too small and in one that is not, and of a box that breaks a rule too. */
static void refuses_everywhere(const struct display_box *box, uint8_t way, const struct message *m)
{
    static const size_t rooms[] = { 0, 511, BOX_AREA_LENGTH };
    struct display_box garbage = *box;
    garbage.count = 9;
    for (size_t r = 0; r < LENGTH_OF(rooms); r++) {
        refuses(box, box, way, 1, m->bytes, m->length, rooms[r]);
        refuses(&garbage, &no_panels, way, 1, m->bytes, m->length, rooms[r]);
    }
}

/* The packet with that in its envelope, be it true or not: to the link's panel, to all, and to nobody, which is 4 before all of it. */
static void refuses_envelope(const struct display_box *box, struct message m, uint8_t request, unsigned item, size_t length)
{
    static const uint8_t ids[] = { 0x00, 0xFF, 99 };
    m.bytes[8] = request;
    m.bytes[9] = (uint8_t)(item / 256);
    m.bytes[10] = (uint8_t)(item % 256);
    m.bytes[11] = (uint8_t)(length / 256);
    m.bytes[12] = (uint8_t)(length % 256);
    for (size_t i = 0; i < sizeof ids; i++) {
        m.bytes[6] = m.bytes[7] = ids[i];
        refuses_everywhere(box, BOX_WAY_TCP, &m);
        refuses_everywhere(box, BOX_WAY_UDP, &m);
    }
}

/* Each part of the envelope right and wrong, beside each of the others. */
static void every_envelope(const struct display_box *box, const char *data)
{
    static const uint8_t requests[] = { 0x00, 0x01, 0xFF };
    static const unsigned items[] = { 0xB000, 0xB001, 0xB100, 0x00B0 };
    size_t n = strlen(data);
    const size_t lengths[] = { n, n + 1, n + 256, 0, 499, 500, 65535 };
    for (size_t r = 0; r < LENGTH_OF(requests); r++)
        for (size_t i = 0; i < LENGTH_OF(items); i++)
            for (size_t l = 0; l < LENGTH_OF(lengths); l++)
                refuses_envelope(box, sdcp_packet(0, 0, data), requests[r], items[i], lengths[l]);
}

/* In front of a question, of words that say too little, and of as much data as an envelope can have, one byte less and one more. */
static void envelopes(void)
{
    static const char *const words[] = { "", "STATget", "STATset" };
    struct display_box box = box_of("WK");
    for (size_t i = 0; i < LENGTH_OF(words); i++)
        every_envelope(&box, words[i]);
    for (size_t n = 498; n <= 500; n++) {
        char data[501] = { 0 };
        memset(data, 'x', n);
        every_envelope(&box, data);
    }
}

/* Frames of every length: byte counts that are right or not, each beside a checksum that is and one that is not. */
static void every_frame(void)
{
    struct display_box box = box_of("WK");
    for (size_t n = 6; n <= 260; n++) {
        const size_t counts[] = { n - 3, n - 2, n - 4, 0, 255 };
        for (size_t c = 0; c < LENGTH_OF(counts); c++)
            for (uint8_t off = 0; off < 2; off++) {
                struct message m = { { 0 }, n };
                lay_whole(m.bytes, n, BOX_WAY_RS232C);
                m.bytes[1] = (uint8_t)counts[c];
                m.bytes[n - 1] = (uint8_t)(checksum_of(m.bytes + 1, n - 2) + off);
                refuses_everywhere(&box, BOX_WAY_RS232C, &m);
            }
    }
}

/* An empty area is (NULL, 0) everywhere else in this file; here it stands at the end of another. */
static void empty_but_not_null(void)
{
    struct display_box box = box_of("WK");
    struct message m = sdcp_packet(0, 0, "STATget VOLUME");
    uint8_t *area = stand(&area_place, BOX_AREA_LENGTH);
    uint8_t *ends = (uint8_t *)stand(&message_place, 1) + 1;
    expect(box_take_tcp(&box, 1, ends, 0, area, BOX_AREA_LENGTH).answer == 3, "an empty packet", 0, 0);
    expect(box_take_rs232c(&box, 1, ends, 0, area, BOX_AREA_LENGTH).answer == 3, "an empty RS-232C frame", 0, 0);
    expect(box_take_kjw(&box, 2, ends, 0, area, BOX_AREA_LENGTH).answer == 3, "an empty KJW frame", 0, 0);
    expect(box_take_udp(&box, ends, 0).answer == 3, "an empty broadcast", 0, 0);
    expect(box_take_tcp(&box, 1, m.bytes, m.length, ends, 0).answer == 1, "an empty area", 0, 0);
    expect(box_configure(&box, ends, 0) == 7, "an empty configuration", 0, 0);
}

/* ---- boxes that break the rules */

/* One field of the first (W) or the second (K) panel out of its range, or a pair that is shared. */
static void break_a_rule(struct display_box *box, size_t rule)
{
    struct box_panel *w = &box->panels[0], *k = &box->panels[1];
    switch (rule) {
    case 0: w->family = 'X'; break;
    case 1: w->group.id = 0; break;
    case 2: w->unit.id = 100; break;
    case 3: w->w.settings[BOX_PHASE] = 101; break;
    case 4: w->w.settings[BOX_MODE] = 3; break;
    case 5: w->w.settings[BOX_FLIP] = BOX_FLIP_HV + 1; break;
    case 6: w->w.shifts[BOX_SHIFTV] = -31; break;
    case 7: w->w.inputs.used = 1; break;
    case 8: w->w.inputs.preset = 1; break;
    case 9: w->w.inputs.on[9] = 2; break;
    case 10: w->w.balance.gains[0] = 4096; break;
    case 11: w->w.balance.biases[2] = 1024; break;
    case 12: k->family = 0; break;
    case 13: k->group.id = 1; break;
    case 14: k->unit.id = 1; break;
    case 15: k->k.power = 2; break;
    case 16: k->k.volume = 101; break;
    case 17: k->k.scene = 3; break;
    case 18: k->k.kind = 2; break;
    case 19: k->k.port = 0; break;
    case 20: k->k.port = 10000; break;
    case 21: box->panels[7].group = w->group, box->panels[7].unit = w->unit; break;
    default: exit(2);
    }
}
#define RULES 22

/* Through every way in, with messages that a box that keeps the rules would carry out, and such as are too short. */
static void is_a_box_of_no_panels(const struct display_box *box)
{
    static const size_t rooms[] = { 0, 511, 512, 600 };
    static const struct box_panel none;
    const struct message sent[] = {
        [BOX_WAY_RS232C] = rs232c_frame("\x22\x12", 2),
        [BOX_WAY_KJW] = kjw_frame("CPOWR0000000000000001"),
        [BOX_WAY_TCP] = sdcp_packet(0, 0, "STATset VOLUME 40"),
        [BOX_WAY_UDP] = sdcp_packet(0xFF, 0xFF, "STATset VOLUME 40"),
    };
    for (uint8_t way = BOX_WAY_RS232C; way <= BOX_WAY_UDP; way++)
        for (size_t l = 0; l < LENGTH_OF(links); l++)
            for (size_t r = 0; r < LENGTH_OF(rooms); r++) {
                refuses(box, &no_panels, way, links[l], sent[way].bytes, sent[way].length, rooms[r]);
                refuses(box, &no_panels, way, links[l], sent[way].bytes, 5, rooms[r]);
                refuses(box, &no_panels, way, links[l], NULL, 0, rooms[r]);
            }
    for (size_t l = 0; l < LENGTH_OF(links); l++)
        shows(box, links[l], &none);
}

static void broken_boxes(void)
{
    static const size_t counts[] = { 0, 9, 200, SIZE_MAX };
    struct display_box box;
    is_a_box_of_no_panels(&no_panels);
    memset(&box, 0xFF, sizeof box);
    is_a_box_of_no_panels(&box);
    for (size_t i = 0; i < LENGTH_OF(counts); i++) {
        box = box_of("WKWKWKWW");
        box.count = counts[i];
        is_a_box_of_no_panels(&box);
    }
    for (size_t rule = 0; rule < RULES; rule++) {
        box = box_of("WKWKWKWW");
        break_a_rule(&box, rule);
        is_a_box_of_no_panels(&box);
    }
    for (size_t turn = 0; turn < 20; turn++) {
        randomise(&box, sizeof box);
        if (turn % 2 == 0)
            box.count = 1 + turn % BOX_PANELS;
        is_a_box_of_no_panels(&box);
    }
}

/* ---- configurations */

static int breaks_a_rule(const uint8_t *c, size_t n)
{
    if (n == 0 || n % 3 != 0 || n / 3 > BOX_PANELS)
        return 1;
    for (size_t i = 0; i < n; i += 3) {
        int is_w = c[i] == 'W' && is_id(c[i + 1]) && is_id(c[i + 2]);
        int is_k = c[i] == 'K' && c[i + 1] == 0 && c[i + 2] == 0;
        if (!is_w && !is_k)
            return 1;
        for (size_t j = 0; j < i; j += 3)
            if (is_w && c[j] == 'W' && memcmp(c + i + 1, c + j + 1, 2) == 0)
                return 1;
    }
    return 0;
}

/* A box over those bytes; what the box held before is gone. */
static struct display_box configured(const uint8_t *c, size_t n, int answer)
{
    struct display_box *box = stand(&box_place, sizeof *box), first = no_panels;
    int got = box_configure(&first, stand_copy(&message_place, c, n), n);
    expect(got == answer, "configuration", got, (long)n);
    randomise(box, sizeof *box);
    got = box_configure(box, stand_copy(&message_place, c, n), n);
    expect(got == answer, "configuration over random bits", got, (long)n);
    expect(is_same(box, &first, sizeof first), "the box does not hang on what was there", (long)n, answer);
    return first;
}

/* What the start values are is for layout.c; here which panels the box has, and that it is all zeros with 7. */
static void configures(const uint8_t *c, size_t n)
{
    int is_refused = breaks_a_rule(c, n);
    struct display_box box = configured(c, n, is_refused ? 7 : 0);
    if (is_refused) {
        expect(is_same(&box, &no_panels, sizeof box), "with 7 the box is all zeros", (long)n, 0);
        return;
    }
    expect(box.count == n / 3, "count", (long)box.count, (long)n);
    for (size_t i = 0; i < n / 3; i++)
        expect(is_same(&box.panels[i], c + 3 * i, 3), "family, group and unit", (long)i, (long)n);
    for (size_t l = 0; l < LENGTH_OF(links); l++)
        shows(&box, links[l], links[l] >= 1 && links[l] <= box.count ? &box.panels[links[l] - 1] : &no_panels.panels[0]);
}

static void configurations(void)
{
    static uint8_t longest[LONGEST];
    uint8_t c[30];
    size_t panels = configuration_of("WKWKWWWKWK", c) / 3;
    for (size_t n = 0; n <= 3 * panels; n++)
        configures(c, n);
    for (size_t at = 0; at < 24; at++)
        for (int value = 0; value < 256; value++) {
            configuration_of("WKWKWWWKWK", c);
            c[at] = (uint8_t)value;
            configures(c, 24);
            memcpy(c + at - at % 3 + 1, c + (at < 12 ? 19 : 1), 2);
            configures(c, 24);
        }
    for (size_t i = 0; i < LONGEST; i += 3)
        longest[i] = 'K';
    configures(longest, LONGEST);
    configures(longest, LONGEST - 1);
}

/* ---- two boxes at once */

/* A random message on a random link, as the seed gives them: some are carried out, some refused. */
static void random_message(struct display_box *box, uint32_t *seed)
{
    static const char *const data[] = { "STATset VOLUME 40", "STATset VOLUME 7", "STATset SHIFTH -30",
                                        "STATset LED ON", "STATget MODE", "STATset MODE2" };
    static const char *const frames[] = { "CPOWR0000000000000001", "CTPMU################",
                                          "CVOLU0000000000000077", "ESCEN################" };
    static const uint8_t blocks[][4] = { { 0x22, 0x12 }, { 0x22, 0x30 }, { 0x21, 0x03, 0x28 }, { 0x40, 0x01, 0x34, 0x02 } };
    static const size_t block_lengths[] = { 2, 2, 3, 4 };
    state = *seed;
    uint8_t way = (uint8_t)(1 + next() % 4);
    size_t link = next() % 6, which = next() % 4;
    struct message m = kjw_frame(frames[which]);
    if (way == BOX_WAY_RS232C)
        m = rs232c_frame(blocks[which], block_lengths[which]);
    if (way == BOX_WAY_TCP)
        m = sdcp_packet(0, 0, data[next() % LENGTH_OF(data)]);
    if (way == BOX_WAY_UDP)
        m = sdcp_packet(next() % 2 == 0 ? 0xFF : (uint8_t)(11 + next() % 5), 0xFF, data[next() % LENGTH_OF(data)]);
    uint8_t *area = stand_filled(&area_place, 0xA5, BOX_AREA_LENGTH);
    box_take(box, way, link, stand_copy(&message_place, m.bytes, m.length), m.length, area, BOX_AREA_LENGTH);
    *seed = state;
}

/* Messages to two boxes in turn leave the other bit for bit, and each box as if it had been alone. */
static void two_boxes(void)
{
    struct display_box first = box_of("WKWWK"), second = box_of("KWKW");
    struct display_box *boxes[] = { stand_copy(&box_place, &first, sizeof first), stand_copy(&other_place, &second, sizeof second) };
    struct display_box *alone[] = { &first, &second };
    uint32_t seeds[] = { 11, 22 }, seeds_alone[] = { 11, 22 }, turns[] = { 0, 0 }, choice = 33;
    for (int turn = 0; turn < 2000; turn++) {
        state = choice;
        size_t mine = next() % 2;
        choice = state;
        struct display_box other = *boxes[1 - mine];
        random_message(boxes[mine], &seeds[mine]);
        turns[mine]++;
        expect(is_same(boxes[1 - mine], &other, sizeof other), "the other box is left", turn, (long)mine);
    }
    for (size_t i = 0; i < 2; i++) {
        struct display_box start = *alone[i];
        for (uint32_t turn = 0; turn < turns[i]; turn++)
            random_message(alone[i], &seeds_alone[i]);
        expect(is_same(boxes[i], alone[i], sizeof start), "a box among others is as one alone", (long)i, 0);
        expect(!is_same(&start, alone[i], sizeof start), "some messages were carried out", (long)i, 0);
    }
}

/* ---- the remote control (document 02, section 6) */

/*
 * What the button with a code does to a K record. Gives the letters of the state
 * that it is for, "" where it is for none, and NULL where no button has the code.
 */
static const char *pressed(struct box_k_record *k, unsigned code)
{
    static const uint8_t others[] = {
        5, 6, 7, 8, 9, 10, 11, 12, 13, 14, 15, 16, 17, 18, 19, 20, 21, 22, 23, 24, 25, 26, 27, 33, 34, 35, 38, 61, 62, 76,
        77, 78, 79, 80, 81, 82, 84, 86, 87, 99, 101, 104, 105, 108, 110, 121, 129, 130,
    };
    switch (code) {
    case 30:
        k->volume = k->volume == 100 ? 100 : (uint8_t)(k->volume + 1);
        return "VOLU";
    case 31:
        k->volume = k->volume == 0 ? 0 : (uint8_t)(k->volume - 1);
        return "VOLU";
    case 32:
        k->amut = !k->amut;
        return "AMUT";
    case 50:
        k->pmut = !k->pmut;
        return "PMUT";
    case 98:
        k->power = !k->power;
        return "POWR";
    case 124:
    case 125:
    case 126:
    case 127:
        k->kind = 1;
        k->port = (uint16_t)(code - 123);
        return "INPT";
    }
    for (size_t i = 0; i < LENGTH_OF(others); i++)
        if (others[i] == code)
            return "";
    return NULL;
}

/* The answer, and the notice with the state's letters where the record changed. */
static struct told code_told(const struct box_k_record *before, const struct box_k_record *after, const char *letters)
{
    char reply[64];
    if (letters == NULL)
        return told(6, "*SAIRCCFFFFFFFFFFFFFFFF\n", 24);
    int n = sprintf(reply, "*SAIRCC0000000000000000\n");
    if (is_same(before, after, sizeof *after))
        return told(0, reply, (size_t)n);
    if (strcmp(letters, "INPT") == 0) {
        n += sprintf(reply + n, "*SNINPT%08u%08u\n", after->kind, after->port);
        return told(0, reply, (size_t)n);
    }
    unsigned value = letters[0] == 'V' ? after->volume : letters[0] == 'A' ? after->amut : letters[1] == 'M' ? after->pmut : after->power;
    n += sprintf(reply + n, "*SN%s%016u\n", letters, value);
    return told(0, reply, (size_t)n);
}

static void press(const struct display_box *box, unsigned code)
{
    char text[22];
    sprintf(text, "CIRCC%016u", code);
    struct message m = kjw_frame(text);
    struct display_box after = *box;
    const char *letters = pressed(&after.panels[1].k, code);
    struct told want = code_told(&box->panels[1].k, &after.panels[1].k, letters);
    takes(box, BOX_WAY_KJW, 2, m.bytes, m.length, BOX_AREA_LENGTH, &want, &after);
}

/* Every number to 9,999 from the start, and the table's on a panel with no switch and no volume as it starts, and on other inputs. */
static void every_code(void)
{
    static const struct box_k_record other = { 1, 1, 1, 100, 0, 5, 9999 };
    struct display_box box = box_of("WK");
    for (unsigned code = 0; code <= 9999; code++)
        press(&box, code);
    box.panels[1].k = other;
    for (unsigned code = 0; code <= 131; code++)
        press(&box, code);
    for (uint16_t port = 1; port <= 4; port++) {
        box.panels[1].k.kind = 1;
        box.panels[1].k.port = port;
        for (unsigned code = 124; code <= 127; code++)
            press(&box, code);
    }
}

/* ---- what was tried at the bench */

static void nothing(struct display_box *b) { (void)b; }
static void gain_and_bias(struct display_box *b)
{
    b->panels[0].w.balance.gains[0] = 4095;
    b->panels[0].w.balance.biases[2] = -1024;
}
static void volume_40(struct display_box *b) { b->panels[0].w.settings[BOX_VOLUME] = 40; }
static void volume_100(struct display_box *b) { b->panels[0].w.settings[BOX_VOLUME] = 100; }
static void shift_30(struct display_box *b) { b->panels[0].w.shifts[BOX_SHIFTH] = -30; }
static void power(struct display_box *b) { b->panels[1].k.power = 1; }

#define BYTES(text) text, sizeof text - 1
#define SDCP(request, length) "\x03\x0BSONY\0\0" request "\xB0\0\0" length
#define OK SDCP("\1", "\0")

static const struct tried {
    uint8_t way;
    const char *bytes;
    size_t length;
    uint8_t answer;
    uint16_t place;
    const char *reply;
    size_t reply_length;
    void (*change)(struct display_box *);
} bench[] = {
    { BOX_WAY_RS232C, BYTES("\x02\x03\x01\x41\x6E\x4D"), 0, 0, BYTES("\x02\x04\x41\x01\x7E\x01\x3B"), nothing },
    { BOX_WAY_RS232C, BYTES("\x02\x08\x01\x41\x40\x21\xFF\x0F\x00\x04\x43"), 0, 0,
      BYTES("\x02\x03\x41\x01\x04\xB7"), gain_and_bias },
    { BOX_WAY_RS232C, BYTES("\x02\x03\x01\x41\x6E\x4E"), 14, 5, BYTES("\x02\x03\x41\x01\x05\xB6"), nothing },
    { BOX_WAY_TCP, BYTES(SDCP("\0", "\x11") "STATset VOLUME 40"), 0, 0, BYTES(OK), volume_40 },
    { BOX_WAY_TCP, BYTES(SDCP("\0", "\x0E") "STATget VOLUME"), 0, 0, BYTES(SDCP("\1", "\x09") "VOLUME 40"), nothing },
    { BOX_WAY_TCP, BYTES(SDCP("\0", "\x12") "STATset VOLUME 100"), 0, 0, BYTES(OK), volume_100 },
    { BOX_WAY_TCP, BYTES(SDCP("\0", "\x12") "STATset VOLUME 101"), 6, 0, BYTES(OK), nothing },
    { BOX_WAY_TCP, BYTES(SDCP("\0", "\x12") "STATset SHIFTH -30"), 0, 0, BYTES(OK), shift_30 },
    { BOX_WAY_TCP, BYTES(SDCP("\0", "\x12") "STATset SHIFTH -31"), 6, 0, BYTES(OK), nothing },
    { BOX_WAY_TCP, BYTES(SDCP("\0", "\x11") "STATset SHIFTH -0"), 6, 0, BYTES(OK), nothing },
    { BOX_WAY_TCP, BYTES(SDCP("\1", "\x11") "STATset VOLUME 40"), 9, 8, BYTES(SDCP("\0", "\2") "\xF0\x50"), nothing },
    { BOX_WAY_TCP, BYTES("\x03\x0Bsony\0\0\0\xB0\0\0\x11STATset VOLUME 40"), 4, 0, BYTES(""), nothing },
    { BOX_WAY_KJW, BYTES("*SCPOWR0000000000000001\n"), 0, 0,
      BYTES("*SAPOWR0000000000000000\n*SNPOWR0000000000000001\n"), power },
    { BOX_WAY_KJW, BYTES("*SCPOWR0000000000000001\n"), 0, 0, BYTES("*SAPOWR0000000000000000\n"), nothing },
    { BOX_WAY_KJW, BYTES("*SCINPT0000000100000000\n"), 6, 0, BYTES("*SAINPTFFFFFFFFFFFFFFFF\n"), nothing },
};

/* On one box, one after the other. That a data length of 499 passes and 500 does not is in every_length. */
static void at_the_bench(void)
{
    struct display_box box = box_of("WK");
    for (size_t i = 0; i < LENGTH_OF(bench); i++) {
        const struct tried *t = &bench[i];
        struct told want = told_at(t->answer, t->place, t->reply, t->reply_length);
        struct display_box after = box;
        t->change(&after);
        takes(&box, t->way, t->way == BOX_WAY_KJW ? 2 : 1, (const uint8_t *)t->bytes, t->length, BOX_AREA_LENGTH, &want, &after);
        box = after;
    }
}

int main(void)
{
    for (standing = 0; standing < STANDINGS; standing++) {
        every_length();
        every_way();
        every_area();
        udp_looks_at_neither();
        addresses();
        questions_by_broadcast();
        envelopes();
        every_frame();
        empty_but_not_null();
        broken_boxes();
        configurations();
        two_boxes();
        every_code();
        at_the_bench();
    }
    return verdict();
}
