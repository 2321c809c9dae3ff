/*
 * `replay` in C, over the calls of the archive: a script on standard input, and
 * on standard output what docs/SCRIPTS.md says that it writes. tests/from_c holds
 * it against the second program. Message, area, box and receivers stand alone in
 * memory: flush against a guard page behind them, or in front of them with the
 * word `front`, or with their exact size on the heap with the word `heap`, for
 * memcheck.
 */
#include "areas.h"
#include "messages.h"
#include "words.h"

#define LONGEST_LINE 4096
#define MOST_PANELS 16
#define MOST_WORDS (1 + 3 * MOST_PANELS)

/* A TCP link for each panel that a box can have. */
#define LINKS BOX_PANELS

static struct display_box *the_box;
static struct box_receiver *receivers[LINKS];
static struct place box_place, bytes_place, area_place, panel_place, text_places[4], receiver_places[LINKS], piece_place, packet_place, listing_place;

/* ---- the words of a line */

/* Cuts the line at its spaces. Gives 0 where two spaces meet, where one leads or ends it, and where there are too many words. */
static size_t words_of(char *line, char **words)
{
    size_t n = 0;
    for (char *at = line, *space; at != NULL; at = space == NULL ? NULL : space + 1) {
        space = strchr(at, ' ');
        if (space != NULL)
            *space = '\0';
        if (*at == '\0' || n == MOST_WORDS)
            return 0;
        words[n++] = at;
    }
    return n;
}

/* ---- what is written */

/* The reply at the area's front; the area was filled with A5h. */
static void put_reply(const uint8_t *area, size_t length, size_t room)
{
    bool spoiled = false;
    printf(" reply ");
    put_hex(area, length);
    for (size_t i = length; i < room; i++)
        spoiled = spoiled || area[i] != 0xA5;
    printf(spoiled ? " spoiled\n" : "\n");
}

/* As STATget writes it: with a sign save before 0. */
static void put_shift(const char *name, int shift) { printf(shift == 0 ? " %s %d" : " %s %+d", name, shift); }

static void put_w(const struct box_panel *p)
{
    static const char *const ntsc[] = { "NTSC0", "NTSC75" }, *const ranges[] = { "FULL", "LIMITED" };
    const uint8_t *s = p->w.settings;
    const struct box_balance *b = &p->w.balance;
    printf("W %d %d PHASE %d CHROMA %d VOLUME %d", p->group.id, p->unit.id, s[BOX_PHASE], s[BOX_CHROMA], s[BOX_VOLUME]);
    put_shift("SHIFTH", p->w.shifts[BOX_SHIFTH]);
    put_shift("SHIFTV", p->w.shifts[BOX_SHIFTV]);
    printf(" MODE%d %s RGB RANGE %s", s[BOX_MODE], ntsc[s[BOX_NTSC] & 1], ranges[s[BOX_RGB_RANGE] & 1]);
    for (size_t i = 0; i < SWITCHES; i++)
        printf(" %s %s", switch_names[i], s[BOX_REMOTE + i] == 1 ? "ON" : "OFF");
    for (size_t i = 0; i < FLIPS; i++)
        printf(" %s %s", flip_words[i], s[BOX_FLIP] == i + 1 ? "ON" : "OFF");
    printf(" INPUT %d ON", p->w.inputs.used);
    for (size_t i = 0; i < BOX_CONNECTORS; i++)
        if (p->w.inputs.on[i] == 1)
            printf(" %d", connector_codes[i]);
    printf(" PRESET %d GAIN %d %d %d BIAS %d %d %d\n", p->w.inputs.preset, b->gains[0], b->gains[1], b->gains[2],
           b->biases[0], b->biases[1], b->biases[2]);
}

static void put_k(const struct box_k_record *k)
{
    static const char *const scenes[] = { "auto", "auto24pSync", "general", "no scene" };
    printf("K POWR %d INPT %d %d VOLU %d AMUT %d PMUT %d SCEN %s\n", k->power, k->kind, k->port, k->volume,
           k->amut, k->pmut, scenes[k->scene & 3]);
}

static uint32_t high_first(const uint8_t *bytes, size_t n)
{
    uint32_t v = 0;
    for (size_t i = 0; i < n; i++)
        v = v << 8 | bytes[i];
    return v;
}

/* The fields of an advert. To C the reader gives the number alone, so they are read off the bytes, by document 01's layout. */
static void put_fields(const uint8_t *b)
{
    static const struct { const char *name; size_t at, length; int is_text; } fields[] = {
        { " category ", 3, 1, 0 }, { " product ", 8, 12, 1 }, { " serial ", 20, 4, 0 },   { " power ", 24, 2, 0 },
        { " location ", 26, 24, 1 }, { " ip ", 50, 4, 0 },    { " accepted ", 54, 4, 0 }, { " ", 58, 4, 0 },
        { " ", 62, 4, 0 },         { " ", 66, 4, 0 },         { " error ", 70, 2, 0 },    { " region ", 72, 24, 1 },
        { " name ", 96, 24, 1 },   { " group ", 120, 1, 0 },  { " unit ", 121, 1, 0 },
    };
    for (size_t i = 0; i < sizeof fields / sizeof fields[0]; i++) {
        printf("%s", fields[i].name);
        if (fields[i].is_text)
            put_hex(b + fields[i].at, fields[i].length);
        else
            printf("%lu", (unsigned long)high_first(b + fields[i].at, fields[i].length));
    }
}

/* ---- the orders: each gives false, and has done nothing, where a word is not what it should be */

typedef struct box_outcome way_in(struct display_box *, size_t, const uint8_t *, size_t, uint8_t *, size_t);

static void carry(way_in *take, size_t link, const uint8_t *bytes, size_t length, size_t room)
{
    uint8_t *area = stand_filled(&area_place, 0xA5, room);
    struct box_outcome o = take(the_box, link, stand_copy(&bytes_place, bytes, length), length, area, room);
    put_answer(o.answer, o.place);
    put_reply(area, o.length, room);
}

static bool message(char **words, way_in *take)
{
    uint32_t link, room;
    struct bytes m;
    if (!number(words[1], UINT32_MAX, &link) || !number(words[2], MOST_BYTES, &room) || !hex(words[3], &m))
        return false;
    carry(take, link, m.at, m.length, room);
    return true;
}

static bool rs232(char **words, size_t n) { (void)n; return message(words, box_take_rs232c); }
static bool kjw(char **words, size_t n) { (void)n; return message(words, box_take_kjw); }
static bool tcp(char **words, size_t n) { (void)n; return message(words, box_take_tcp); }

static bool piece(char **words, size_t n)
{
    uint32_t link, room;
    struct bytes b;
    (void)n;
    if (!number(words[1], LINKS, &link) || link == 0 || !number(words[2], MOST_BYTES, &room) || !hex(words[3], &b))
        return false;
    const uint8_t *bytes = stand_copy(&piece_place, b.at, b.length);
    for (size_t at = 0;;) {
        uint8_t *packet = stand(&packet_place, BOX_PACKET_LENGTH);
        struct box_received got = box_receive(receivers[link - 1], bytes == NULL ? NULL : bytes + at, b.length - at, packet);
        at += got.taken;
        if (got.length == 0)
            break;
        printf("packet ");
        put_hex(packet, got.length);
        printf("\n");
        carry(box_take_tcp, link, packet, got.length, room);
    }
    printf("held %zu\n", receivers[link - 1]->held);
    return true;
}

static bool plain(char **words, size_t n)
{
    struct bytes b;
    (void)n;
    if (!hex(words[1], &b))
        return false;
    struct box_listing *l = stand_filled(&listing_place, 0xA5, sizeof *l);
    box_plain(stand_copy(&bytes_place, b.at, b.length), b.length, l);
    printf("plain");
    for (size_t i = 0; i < l->count && i < BOX_LISTED; i++)
        printf(" %zu:%zu", l->starts[i], l->lengths[i]);
    printf(" %s %zu\n", l->stopped == 0 ? "end" : "stop", l->end);
    return true;
}

static bool udp(char **words, size_t n)
{
    struct bytes m;
    (void)n;
    if (!hex(words[1], &m))
        return false;
    struct box_outcome o = box_take_udp(the_box, stand_copy(&bytes_place, m.at, m.length), m.length);
    put_answer(o.answer, o.place);
    printf("\n");
    return true;
}

static bool box(char **words, size_t n)
{
    uint8_t configuration[3 * MOST_PANELS];
    if (n % 3 != 1)
        return false;
    for (size_t i = 1; i < n; i += 3) {
        uint32_t group, unit;
        if (strcmp(words[i], "W") != 0 && strcmp(words[i], "K") != 0)
            return false;
        if (!number(words[i + 1], 255, &group) || !number(words[i + 2], 255, &unit))
            return false;
        configuration[i - 1] = (uint8_t)words[i][0];
        configuration[i] = (uint8_t)group;
        configuration[i + 1] = (uint8_t)unit;
    }
    printf("box %d\n", box_configure(the_box, stand_copy(&bytes_place, configuration, n - 1), n - 1));
    return true;
}

static bool show(char **words, size_t n)
{
    uint32_t link;
    (void)n;
    if (!number(words[1], UINT32_MAX, &link))
        return false;
    struct box_panel *panel = stand(&panel_place, sizeof *panel);
    box_panel_at(the_box, link, panel);
    if (panel->family == BOX_FAMILY_W)
        put_w(panel);
    else if (panel->family == BOX_FAMILY_K)
        put_k(&panel->k);
    else
        printf("none\n");
    return true;
}

static bool advert(char **words, size_t n)
{
    struct bytes b;
    (void)n;
    if (!hex(words[1], &b))
        return false;
    uint8_t answer = box_advert_read(stand_copy(&bytes_place, b.at, b.length), b.length);
    put_answer(answer, 0);
    if (answer == BOX_DONE)
        put_fields(b.at);
    printf("\n");
    return true;
}

static bool write_advert(char **words, size_t n)
{
    /* the bound of each word that is a number; 0 where a text stands */
    static const uint32_t most[] = { 0, MOST_BYTES, 255, 0, UINT32_MAX, 65535, 0, UINT32_MAX, UINT32_MAX, UINT32_MAX,
                                     UINT32_MAX, UINT32_MAX, 65535, 0, 0, 255, 255 };
    static struct bytes texts[4];
    uint32_t v[sizeof most / sizeof most[0]];
    uint8_t *t[4];
    size_t text = 0;
    for (size_t i = 1; i < n; i++) {
        if (most[i] != 0 ? !number(words[i], most[i], &v[i]) : !hex(words[i], &texts[text]))
            return false;
        if (most[i] == 0) {
            t[text] = stand_copy(&text_places[text], texts[text].at, texts[text].length);
            text++;
        }
    }
    uint8_t *area = stand_filled(&area_place, 0xA5, v[1]);
    uint8_t answer = box_advert_write((uint8_t)v[2], t[0], texts[0].length, v[4], (uint16_t)v[5], t[1], texts[1].length,
                                      v[7], v[8], v[9], v[10], v[11], (uint16_t)v[12], t[2], texts[2].length,
                                      t[3], texts[3].length, (uint8_t)v[15], (uint8_t)v[16], area, v[1]);
    put_answer(answer, 0);
    put_reply(area, answer == BOX_DONE ? BOX_ADVERT_LENGTH : 0, v[1]);
    return true;
}

static bool sum(char **words, size_t n)
{
    struct bytes b;
    (void)n;
    if (!hex(words[1], &b))
        return false;
    printf(box_checksum_ok(stand_copy(&bytes_place, b.at, b.length), b.length) ? "yes\n" : "no\n");
    return true;
}

/* ---- lines */

static bool is_order(char *line)
{
    static const struct { const char *name; size_t least, most; bool (*run)(char **, size_t); } orders[] = {
        { "box", 1, MOST_WORDS, box }, { "rs232", 4, 4, rs232 },   { "kjw", 4, 4, kjw },
        { "tcp", 4, 4, tcp },          { "udp", 2, 2, udp },       { "show", 2, 2, show },
        { "advert", 2, 2, advert },    { "write", 17, 17, write_advert }, { "sum", 2, 2, sum },
        { "piece", 4, 4, piece },      { "plain", 2, 2, plain },
    };
    char *words[MOST_WORDS];
    size_t n = words_of(line, words);
    for (size_t i = 0; n > 0 && i < sizeof orders / sizeof orders[0]; i++)
        if (strcmp(words[0], orders[i].name) == 0)
            return n >= orders[i].least && n <= orders[i].most && orders[i].run(words, n);
    return false;
}

/* A line without its end, of which one byte more than the longest is kept. Gives false where the input has ended. */
static bool read_line(char *line, size_t *length)
{
    int c = getchar();
    *length = 0;
    if (c == EOF)
        return false;
    for (; c != EOF && c != '\n'; c = getchar())
        if (*length <= LONGEST_LINE)
            line[(*length)++] = (char)c;
    line[*length] = '\0';
    return true;
}

int main(int argc, char **argv)
{
    char line[LONGEST_LINE + 2];
    size_t length;
    standing = BEFORE_A_GUARD;
    if (argc == 2 && strcmp(argv[1], "front") == 0)
        standing = BEHIND_A_GUARD;
    if (argc == 2 && strcmp(argv[1], "heap") == 0)
        standing = ON_THE_HEAP;
    the_box = stand(&box_place, sizeof *the_box);
    box_configure(the_box, NULL, 0);
    for (size_t i = 0; i < LINKS; i++)
        receivers[i] = stand_filled(&receiver_places[i], 0, sizeof *receivers[i]);
    while (read_line(line, &length)) {
        bool is_passed_over = length == 0 || line[0] == '#';
        bool is_text = length <= LONGEST_LINE && strlen(line) == length;
        if (!is_passed_over && !(is_text && is_order(line)))
            printf("unread\n");
    }
    return 0;
}
