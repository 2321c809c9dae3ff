/*
 * The records of include/display_box.h against those of the archive: it fails
 * where a size, an offset or the meaning of a byte drifts. First what the
 * compiler sees, the sizes and offsets as sums of what stands before. Then what
 * the archive does: where the start values stand, which bytes a message sets,
 * which bytes are judged, which bytes a piece sets in a receiver, and which a
 * buffer sets in a listing. What is expected is document 01's, and of receivers,
 * listings and the flip document 02's.
 */
#include "areas.h"
#include "messages.h"

/* ---- sizes and offsets */

#define AT(record, field, sum) _Static_assert(offsetof(struct record, field) == (sum), #record "." #field)
#define SIZE(record, sum) _Static_assert(sizeof(struct record) == (sum), #record)

_Static_assert(BOX_LAYOUT == 2, "the number of the sizes and offsets of a box: another sum, another number");
_Static_assert(BOX_PANELS == 8 && BOX_CONNECTORS == 10, "panels and connectors");
_Static_assert(BOX_SETTINGS == 3 + 3 + 12 + 1 && BOX_SHIFTS == 2, "levels, choices, switches and the flip; shifts");
_Static_assert(BOX_FAMILY_W == 'W' && BOX_FAMILY_K == 'K', "families");
_Static_assert(BOX_AREA_LENGTH == 512 && BOX_ADVERT_LENGTH == 122 && BOX_PACKET_LENGTH == 512, "areas");

AT(box_group, id, 0);
SIZE(box_group, 1);
AT(box_unit, id, 0);
SIZE(box_unit, 1);

AT(box_inputs, used, 0);
AT(box_inputs, preset, 1);
AT(box_inputs, on, 1 + 1);
SIZE(box_inputs, 1 + 1 + 10);

AT(box_balance, gains, 0);
AT(box_balance, biases, 3 * 2);
SIZE(box_balance, 3 * 2 + 3 * 2);

AT(box_w_record, settings, 0);
AT(box_w_record, shifts, 19);
AT(box_w_record, spare, 19 + 2);
AT(box_w_record, inputs, 19 + 2 + 1);
AT(box_w_record, balance, 19 + 2 + 1 + 12);
SIZE(box_w_record, 19 + 2 + 1 + 12 + 12);

AT(box_k_record, power, 0);
AT(box_k_record, amut, 1);
AT(box_k_record, pmut, 2);
AT(box_k_record, volume, 3);
AT(box_k_record, scene, 4);
AT(box_k_record, kind, 5);
AT(box_k_record, port, 6);
SIZE(box_k_record, 6 + 2);

AT(box_panel, family, 0);
AT(box_panel, group, 1);
AT(box_panel, unit, 1 + 1);
AT(box_panel, spare, 1 + 1 + 1);
AT(box_panel, w, 1 + 1 + 1 + 1);
AT(box_panel, k, 4 + 46);
SIZE(box_panel, 4 + 46 + 8);

AT(display_box, count, 0);
AT(display_box, panels, 8);
SIZE(display_box, 8 + 8 * 58);
_Static_assert(_Alignof(struct display_box) == 8, "a box is aligned as its count");

/*
 * The one record with padding: it is handed back by value, and lies in no box. A
 * host that was compiled before there was a place finds answer and length here too.
 */
AT(box_outcome, answer, 0);
AT(box_outcome, place, 2);
AT(box_outcome, length, 8);
SIZE(box_outcome, 8 + 8);

AT(box_receiver, held, 0);
AT(box_receiver, store, 8);
SIZE(box_receiver, 8 + 512);
_Static_assert(_Alignof(struct box_receiver) == 8, "a receiver is aligned as its number");

AT(box_received, taken, 0);
AT(box_received, length, 8);
SIZE(box_received, 8 + 8);

_Static_assert(BOX_LISTED == 64, "entries of a listing");
AT(box_listing, count, 0);
AT(box_listing, starts, 8);
AT(box_listing, lengths, 8 + 64 * 8);
AT(box_listing, end, 8 + 64 * 8 + 64 * 8);
AT(box_listing, stopped, 8 + 64 * 8 + 64 * 8 + 8);
SIZE(box_listing, 8 + 64 * 8 + 64 * 8 + 8 + 8);
_Static_assert(_Alignof(struct box_listing) == 8, "a listing is aligned as its numbers");

/* ---- the fields of a panel */

/* Where a field stands in a panel. */
struct spot { size_t at, size; };
#define SPOT(field) { offsetof(struct box_panel, field), sizeof ((struct box_panel *)0)->field }

/* What document 01 allows: from least to most, without those values v whose bit v is in gaps. */
struct field {
    struct spot spot;
    long is_signed;
    long least, most;
    unsigned long gaps;
    long start;
};

#define LEVEL(field, start) { SPOT(field), 0, 0, 100, 0, start }
#define CHOICE(field, most, start) { SPOT(field), 0, 0, most, 0, start }
#define SWITCH(field, start) CHOICE(field, 1, start)
#define SHIFT(field) { SPOT(field), 1, -30, 30, 0, 0 }
#define GAIN(field) { SPOT(field), 0, 0, 4095, 0, 2048 }
#define BIAS(field) { SPOT(field), 1, -1024, 1023, 0, 0 }
#define BIT(v) (1UL << (v))

static const struct field w_fields[] = {
    LEVEL(w.settings[BOX_PHASE], 50),
    LEVEL(w.settings[BOX_CHROMA], 50),
    LEVEL(w.settings[BOX_VOLUME], 30),
    CHOICE(w.settings[BOX_MODE], 2, 0),
    CHOICE(w.settings[BOX_NTSC], 1, 0),
    CHOICE(w.settings[BOX_RGB_RANGE], 1, 0),
    SWITCH(w.settings[BOX_REMOTE], 1),
    SWITCH(w.settings[BOX_POWERSAVING], 0),
    SWITCH(w.settings[BOX_KEYINHIBIT], 0),
    SWITCH(w.settings[BOX_TALLYGREEN], 0),
    SWITCH(w.settings[BOX_TALLYRED], 0),
    SWITCH(w.settings[BOX_HVDELAY], 0),
    SWITCH(w.settings[BOX_BLUEONLY], 0),
    SWITCH(w.settings[BOX_MONOCHR], 0),
    SWITCH(w.settings[BOX_CAMERA_FOCUS], 0),
    SWITCH(w.settings[BOX_LED], 0),
    SWITCH(w.settings[BOX_SCREENSAVER], 0),
    SWITCH(w.settings[BOX_SILENTMODE], 0),
    CHOICE(w.settings[BOX_FLIP], 3, 0),
    SHIFT(w.shifts[BOX_SHIFTH]),
    SHIFT(w.shifts[BOX_SHIFTV]),
    { SPOT(w.inputs.used), 0, 0, 11, BIT(1) | BIT(3), 0 },
    { SPOT(w.inputs.preset), 0, 0, 3, BIT(1), 3 },
    SWITCH(w.inputs.on[0], 1),
    SWITCH(w.inputs.on[1], 1),
    SWITCH(w.inputs.on[2], 1),
    SWITCH(w.inputs.on[3], 1),
    SWITCH(w.inputs.on[4], 1),
    SWITCH(w.inputs.on[5], 1),
    SWITCH(w.inputs.on[6], 1),
    SWITCH(w.inputs.on[7], 1),
    SWITCH(w.inputs.on[8], 1),
    SWITCH(w.inputs.on[9], 1),
    GAIN(w.balance.gains[0]),
    GAIN(w.balance.gains[1]),
    GAIN(w.balance.gains[2]),
    BIAS(w.balance.biases[0]),
    BIAS(w.balance.biases[1]),
    BIAS(w.balance.biases[2]),
};

/* "K: standby, HDMI port 1, volume 0, no mutes, `general`." */
static const struct field k_fields[] = {
    SWITCH(k.power, 0),
    SWITCH(k.amut, 0),
    SWITCH(k.pmut, 0),
    LEVEL(k.volume, 0),
    CHOICE(k.scene, 2, 2),
    { SPOT(k.kind), 0, 1, 5, BIT(2), 1 },
    { SPOT(k.port), 0, 1, 9999, 0, 1 },
};

/* The IDs: "1 to 99" of a W panel, "0 for both" of a K panel. */
static const struct field w_ids[] = {
    { SPOT(group), 0, 1, 99, 0, 0 },
    { SPOT(unit), 0, 1, 99, 0, 0 },
};
static const struct field k_ids[] = {
    { SPOT(group), 0, 0, 0, 0, 0 },
    { SPOT(unit), 0, 0, 0, 0, 0 },
};

/* A family's fields, and what is free: the spares and the other family's record. */
static const struct family {
    long letter;
    const struct field *ids, *fields;
    size_t count;
    struct spot free[3];
} families[] = {
    { BOX_FAMILY_W, w_ids, w_fields, sizeof w_fields / sizeof w_fields[0], { SPOT(spare), SPOT(w.spare), SPOT(k) } },
    { BOX_FAMILY_K, k_ids, k_fields, sizeof k_fields / sizeof k_fields[0], { SPOT(spare), SPOT(w), { 0, 0 } } },
};

static const struct family *family_of(const struct box_panel *panel)
{
    return &families[panel->family == BOX_FAMILY_W ? 0 : 1];
}

static long value_at(const struct box_panel *panel, const struct field *f)
{
    const uint8_t *p = (const uint8_t *)panel + f->spot.at;
    uint16_t two;
    if (f->spot.size == 1)
        return f->is_signed ? (int8_t)*p : *p;
    memcpy(&two, p, sizeof two);
    return f->is_signed ? (int16_t)two : two;
}

static void put(struct box_panel *panel, struct spot spot, long value)
{
    uint8_t *p = (uint8_t *)panel + spot.at;
    uint16_t two = (uint16_t)value;
    if (spot.size == 1)
        *p = (uint8_t)value;
    else
        memcpy(p, &two, sizeof two);
}

/* Every byte of a panel is a field's or free, and none is both. */
static void every_byte_is_known(const struct family *family)
{
    unsigned char times[sizeof(struct box_panel)] = { 1 };
    for (size_t i = 0; i < 2; i++)
        times[family->ids[i].spot.at]++;
    for (size_t i = 0; i < family->count; i++)
        for (size_t b = 0; b < family->fields[i].spot.size; b++)
            times[family->fields[i].spot.at + b]++;
    for (size_t i = 0; i < 3; i++)
        for (size_t b = 0; b < family->free[i].size; b++)
            times[family->free[i].at + b]++;
    for (size_t at = 0; at < sizeof times; at++)
        expect(times[at] == 1, "a byte of a panel is known once", family->letter, (long)at);
}

/* ---- start values */

static void starts(const char *letters)
{
    uint8_t configuration[3 * BOX_PANELS];
    size_t length = configuration_of(letters, configuration);
    struct display_box box, other;
    memset(&box, 0x00, sizeof box);
    memset(&other, 0xFF, sizeof other);
    expect(box_configure(&box, configuration, length) == 0, "configured", 0, 0);
    expect(box_configure(&other, configuration, length) == 0, "configured over ones", 0, 0);
    expect(memcmp(&box, &other, sizeof box) == 0, "what was there before is gone", 0, 0);
    expect(box.count == BOX_PANELS, "count", (long)box.count, 0);
    for (size_t i = 0; i < BOX_PANELS; i++) {
        const struct box_panel *panel = &box.panels[i];
        const struct family *family = family_of(panel);
        expect(panel->family == (uint8_t)letters[i], "family", (long)i, panel->family);
        expect(panel->group.id == configuration[3 * i + 1], "group", (long)i, panel->group.id);
        expect(panel->unit.id == configuration[3 * i + 2], "unit", (long)i, panel->unit.id);
        for (size_t f = 0; f < family->count; f++)
            expect(value_at(panel, &family->fields[f]) == family->fields[f].start, "start value", (long)i, (long)f);
    }
}

/* ---- which bytes a message sets */

/* The message is carried out; the bytes of that field have another value, this one, and no other byte of the box has. */
static void sets(struct display_box *box, uint8_t way, size_t link, struct message m, struct spot spot, long value)
{
    uint8_t area[BOX_AREA_LENGTH];
    struct display_box before = *box, want = *box;
    put(&want.panels[link - 1], spot, value);
    int answer = box_take(box, way, link, m.bytes, m.length, area, sizeof area).answer;
    expect(answer == 0, "a set is carried out", answer, (long)spot.at);
    expect(memcmp(box, &want, sizeof want) == 0, "a set sets its field alone", (long)link, (long)spot.at);
    const uint8_t *old = (const uint8_t *)&before.panels[link - 1] + spot.at;
    const uint8_t *now = (const uint8_t *)&box->panels[link - 1] + spot.at;
    for (size_t b = 0; b < spot.size; b++)
        expect(old[b] != now[b], "each byte of the field is another", (long)link, (long)(spot.at + b));
}

static void sets_words(struct display_box *box, size_t link, const char *words, struct spot spot, long value)
{
    char data[64];
    snprintf(data, sizeof data, "STATset %s", words);
    sets(box, BOX_WAY_TCP, link, sdcp_packet(0, 0, data), spot, value);
}

/* A set that changes nothing is carried out all the same. */
static void keeps_words(struct display_box *box, size_t link, const char *words)
{
    uint8_t area[BOX_AREA_LENGTH];
    char data[64];
    struct display_box before = *box;
    snprintf(data, sizeof data, "STATset %s", words);
    struct message m = sdcp_packet(0, 0, data);
    int answer = box_take_tcp(box, link, m.bytes, m.length, area, sizeof area).answer;
    expect(answer == 0, "such a set is carried out", answer, (long)link);
    expect(memcmp(box, &before, sizeof before) == 0, "and changes nothing", (long)link, 0);
}

static void sets_levels_and_choices(struct display_box *box, size_t link)
{
    static const struct { struct spot spot; long value; const char *words; } orders[] = {
        { SPOT(w.settings[BOX_PHASE]), 0, "PHASE 0" },
        { SPOT(w.settings[BOX_CHROMA]), 100, "CHROMA 100" },
        { SPOT(w.settings[BOX_VOLUME]), 99, "VOLUME 99" },
        { SPOT(w.settings[BOX_MODE]), 1, "MODE1" },
        { SPOT(w.settings[BOX_MODE]), 2, "MODE2" },
        { SPOT(w.settings[BOX_MODE]), 0, "MODE0" },
        { SPOT(w.settings[BOX_NTSC]), 1, "NTSC75" },
        { SPOT(w.settings[BOX_NTSC]), 0, "NTSC0" },
        { SPOT(w.settings[BOX_RGB_RANGE]), 1, "RGB RANGE LIMITED" },
        { SPOT(w.settings[BOX_RGB_RANGE]), 0, "RGB RANGE FULL" },
        { SPOT(w.shifts[BOX_SHIFTH]), -30, "SHIFTH -30" },
        { SPOT(w.shifts[BOX_SHIFTH]), 30, "SHIFTH +30" },
        { SPOT(w.shifts[BOX_SHIFTV]), 7, "SHIFTV 7" },
        { SPOT(w.shifts[BOX_SHIFTV]), -1, "SHIFTV -1" },
    };
    for (size_t i = 0; i < sizeof orders / sizeof orders[0]; i++)
        sets_words(box, link, orders[i].words, orders[i].spot, orders[i].value);
}

static void sets_switches(struct display_box *box, size_t link)
{
    for (size_t i = 0; i < SWITCHES; i++) {
        const struct field *f = &w_fields[BOX_REMOTE + i];
        for (int turn = 0; turn < 2; turn++) {
            long value = turn == 0 ? 1 - f->start : f->start;
            char words[32];
            snprintf(words, sizeof words, "%s %s", switch_names[i], value == 1 ? "ON" : "OFF");
            sets_words(box, link, words, f->spot, value);
        }
    }
}

/* A question is answered with these words, and the box is as it was. */
static void tells_words(struct display_box *box, size_t link, const char *name, const char *words)
{
    uint8_t area[BOX_AREA_LENGTH];
    char data[64];
    struct display_box before = *box;
    snprintf(data, sizeof data, "STATget %s", name);
    struct message m = sdcp_packet(0, 0, data);
    struct box_outcome o = box_take_tcp(box, link, m.bytes, m.length, area, sizeof area);
    size_t n = strlen(words);
    expect(o.answer == 0 && o.length == 13 + n, "a question is answered", o.answer, (long)o.length);
    expect(memcmp(area + 13, words, n) == 0, "with the words of the value", (long)link, (long)n);
    expect(memcmp(box, &before, sizeof before) == 0, "a question sets nothing", (long)link, 0);
}

/* Document 02, §4: a word ON or OFF where that flip is in force, and what the word says of it before. */
static void sets_flip(struct display_box *box, size_t link, size_t word, bool on, long in_force)
{
    static const struct spot flip = SPOT(w.settings[BOX_FLIP]);
    long own = (long)word + 1, next = on ? own : in_force == own ? BOX_FLIP_NONE : in_force;
    char order[32], said[32];
    snprintf(order, sizeof order, "%s %s", flip_words[word], on ? "ON" : "OFF");
    snprintf(said, sizeof said, "%s %s", flip_words[word], in_force == own ? "ON" : "OFF");
    put(&box->panels[link - 1], flip, in_force);
    tells_words(box, link, flip_words[word], said);
    if (next == in_force)
        keeps_words(box, link, order);
    else
        sets_words(box, link, order, flip, next);
}

static void sets_flips(struct display_box *box, size_t link)
{
    for (long in_force = BOX_FLIP_NONE; in_force <= BOX_FLIP_HV; in_force++)
        for (size_t word = 0; word < FLIPS; word++) {
            sets_flip(box, link, word, true, in_force);
            sets_flip(box, link, word, false, in_force);
        }
}

static void sets_block(struct display_box *box, size_t link, const uint8_t *block, size_t n, struct spot spot, long value)
{
    sets(box, BOX_WAY_RS232C, link, rs232c_frame(block, n), spot, value);
}

/* 22h turns each connector OFF and ON; 21h takes each into use, and each preset. */
static void sets_inputs(struct display_box *box, size_t link)
{
    static const uint8_t presets[] = { 0, 2, 3 };
    static const struct spot used = SPOT(w.inputs.used), preset = SPOT(w.inputs.preset), on = SPOT(w.inputs.on[0]);
    for (size_t i = 0; i < BOX_CONNECTORS; i++) {
        struct spot place = { on.at + i, 1 };
        sets_block(box, link, (uint8_t[]){ 0x22, (uint8_t)(1 << 4 | connector_codes[i]) }, 2, place, 0);
        sets_block(box, link, (uint8_t[]){ 0x22, (uint8_t)(2 << 4 | connector_codes[i]) }, 2, place, 1);
    }
    for (size_t i = 1; i <= BOX_CONNECTORS; i++) {
        uint8_t code = connector_codes[i % BOX_CONNECTORS];
        sets_block(box, link, (uint8_t[]){ 0x21, 1, code }, 3, used, code);
    }
    for (size_t i = 0; i < sizeof presets; i++)
        sets_block(box, link, (uint8_t[]){ 0x21, 2, (uint8_t)(presets[i] << 4) }, 3, preset, presets[i]);
}

/* 40h with one bit of the mask: gains, then biases. Each value has both bytes other than the one before. */
static void sets_balance(struct display_box *box, size_t link)
{
    static const long gains[] = { 4095, 0, 0x321 }, biases[] = { -1, -1024, 1023 };
    for (unsigned bit = 0; bit < 6; bit++) {
        const struct field *f = &w_fields[sizeof w_fields / sizeof w_fields[0] - 6 + bit];
        for (size_t i = 0; i < 3; i++) {
            long value = bit < 3 ? gains[i] : biases[i];
            uint8_t block[] = { 0x40, (uint8_t)(1 << bit), (uint8_t)value, (uint8_t)((uint16_t)value >> 8) };
            sets_block(box, link, block, sizeof block, f->spot, value);
        }
    }
}

static void sets_k_fields(struct display_box *box, size_t link)
{
    static const struct { struct spot spot; long value; const char *frame; } orders[] = {
        { SPOT(k.power), 1, "CPOWR0000000000000001" },
        { SPOT(k.power), 0, "CTPOW################" },
        { SPOT(k.amut), 1, "CAMUT0000000000000001" },
        { SPOT(k.pmut), 1, "CPMUT0000000000000001" },
        { SPOT(k.pmut), 0, "CTPMU################" },
        { SPOT(k.volume), 100, "CVOLU0000000000000100" },
        { SPOT(k.scene), 0, "CSCENauto############" },
        { SPOT(k.scene), 1, "CSCENauto24pSync#####" },
        { SPOT(k.scene), 2, "CSCENgeneral#########" },
        { SPOT(k.kind), 3, "CINPT0000000300000001" },
        { SPOT(k.kind), 4, "CINPT0000000400000001" },
        { SPOT(k.kind), 5, "CINPT0000000500000001" },
        { SPOT(k.port), 9999, "CINPT0000000500009999" },
        { SPOT(k.kind), 1, "CINPT0000000100009999" },
    };
    for (size_t i = 0; i < sizeof orders / sizeof orders[0]; i++)
        sets(box, BOX_WAY_KJW, link, kjw_frame(orders[i].frame), orders[i].spot, orders[i].value);
}

static void messages_set(const char *letters)
{
    struct display_box box = box_of(letters);
    for (size_t link = 1; link <= BOX_PANELS; link++) {
        if (letters[link - 1] == 'K') {
            sets_k_fields(&box, link);
            continue;
        }
        sets_levels_and_choices(&box, link);
        sets_switches(&box, link);
        sets_flips(&box, link);
        sets_inputs(&box, link);
        sets_balance(&box, link);
    }
}

/* ---- which bytes are judged */

/* A box that keeps the rules shows each panel as it lies there; another shows no panel at all. */
static void judged(const struct display_box *box, int keeps_the_rules, const char *what, long a, long b)
{
    static const struct box_panel none;
    for (size_t link = 0; link <= BOX_PANELS + 1; link++) {
        struct box_panel seen;
        int is_there = keeps_the_rules && link >= 1 && link <= box->count;
        box_panel_at(box, link, &seen);
        expect(memcmp(&seen, is_there ? &box->panels[link - 1] : &none, sizeof seen) == 0, what, a, b);
    }
}

static int is_allowed(const struct field *f, long value)
{
    if (value < f->least || value > f->most)
        return 0;
    return f->gaps == 0 || (f->gaps >> value & 1) == 0;
}

/* Every value of a field of one byte; of two bytes those at the edges, and some between. */
static void judges_field(struct display_box *box, size_t place, const struct field *f)
{
    struct box_panel kept = box->panels[place];
    long step = f->spot.size == 1 ? 1 : 1021;
    long values = f->spot.size == 1 ? 256 : 65536;
    for (long bits = 0; bits < values; bits += step) {
        put(&box->panels[place], f->spot, bits);
        judged(box, is_allowed(f, value_at(&box->panels[place], f)), "judged", (long)f->spot.at, bits);
    }
    const long edges[4] = { f->least - 1, f->least, f->most, f->most + 1 };
    for (size_t i = 0; i < 4; i++) {
        put(&box->panels[place], f->spot, edges[i]);
        judged(box, is_allowed(f, value_at(&box->panels[place], f)), "judged at an edge", (long)f->spot.at, edges[i]);
    }
    box->panels[place] = kept;
}

/* The other letter too breaks the rules here: its IDs are not those of that family. */
static void judges_family(struct display_box *box, size_t place)
{
    uint8_t kept = box->panels[place].family;
    for (int letter = 0; letter < 256; letter++) {
        box->panels[place].family = (uint8_t)letter;
        judged(box, letter == kept, "family", (long)place, letter);
    }
    box->panels[place].family = kept;
}

static void judges_free_bytes(struct display_box *box, size_t place, struct spot spot)
{
    for (size_t at = spot.at; at < spot.at + spot.size; at++)
        for (int value = 0; value < 256; value++) {
            ((uint8_t *)&box->panels[place])[at] = (uint8_t)value;
            judged(box, 1, "not judged", (long)at, value);
        }
}

/* The free bytes keep the last value, FFh, while the next are tried. */
static void judges_panels(const char *letters)
{
    struct display_box box = box_of(letters);
    for (size_t place = 0; place < BOX_PANELS; place++) {
        const struct family *family = family_of(&box.panels[place]);
        judges_family(&box, place);
        for (size_t i = 0; i < 2; i++)
            judges_field(&box, place, &family->ids[i]);
        for (size_t i = 0; i < family->count; i++)
            judges_field(&box, place, &family->fields[i]);
        for (size_t i = 0; i < 3; i++)
            judges_free_bytes(&box, place, family->free[i]);
    }
}

/* Places behind the last panel hold any bits; a count is 1 to 8. */
static void judges_count(const char *letters)
{
    static const size_t none[] = { 0, 9, 10, 200, 255, 256, 257, (size_t)1 << 32, SIZE_MAX / 2, SIZE_MAX };
    struct display_box box = box_of(letters);
    for (size_t i = 0; i < sizeof none / sizeof none[0]; i++) {
        box.count = none[i];
        judged(&box, 0, "count", (long)none[i], 0);
    }
    for (size_t count = BOX_PANELS; count >= 1; count--) {
        box.count = count;
        judged(&box, 1, "count", (long)count, 0);
        for (int turn = 0; turn < 200; turn++) {
            randomise(&box.panels[count], (BOX_PANELS - count) * sizeof box.panels[0]);
            judged(&box, 1, "unused places", (long)count, turn);
        }
    }
}

/* "no two W panels share both": a pair shared by each two, and one ID alone shared. */
static void judges_pairs(void)
{
    for (size_t a = 0; a < BOX_PANELS; a++)
        for (size_t b = 0; b < BOX_PANELS; b++) {
            if (a == b)
                continue;
            struct display_box box = box_of("WWWWWWWW");
            box.panels[b].group = box.panels[a].group;
            judged(&box, 1, "a group alone is shared", (long)a, (long)b);
            box.panels[b].unit = box.panels[a].unit;
            judged(&box, 0, "a pair is shared", (long)a, (long)b);
        }
}

/* ---- the bytes of a receiver */

/* The longest packet, no byte of whose data is 0. */
static struct message longest_packet(void)
{
    char data[BOX_PACKET_LENGTH - 13 + 1] = "";
    for (size_t i = 0; i + 1 < sizeof data; i++)
        data[i] = (char)(1 + i % 127);
    return sdcp_packet(0, 0, data);
}

/* A number as it lies in memory: 8 bytes, low byte first. */
static void lay_number(uint8_t *bytes, uint64_t number)
{
    for (size_t i = 0; i < 8; i++)
        bytes[i] = (uint8_t)(number >> 8 * i);
}

/* The record as it lies in memory: the number of bytes held, those bytes, and 0 behind them. */
static void lay_receiver(struct box_receiver *receiver, uint64_t held, const uint8_t *store, size_t n)
{
    uint8_t *bytes = (uint8_t *)receiver;
    memset(bytes, 0, 8 + 512);
    lay_number(bytes, held);
    memcpy(bytes + 8, store, n);
}

/* A call with that piece gives these two numbers, and leaves a receiver that holds these bytes; each byte of both is looked at. */
static void receives(struct box_receiver *receiver, const uint8_t *piece, size_t n, size_t taken, size_t length,
                     const uint8_t *held, size_t held_length, long turn)
{
    uint8_t packet[BOX_PACKET_LENGTH], numbers[8 + 8];
    struct box_receiver want;
    struct box_received got = box_receive(receiver, piece, n, packet);
    lay_number(numbers, taken);
    lay_number(numbers + 8, length);
    lay_receiver(&want, held_length, held, held_length);
    expect(memcmp(&got, numbers, sizeof numbers) == 0, "taken and length of a piece", turn, (long)got.taken);
    expect(memcmp(receiver, &want, sizeof want) == 0, "a receiver's bytes", turn, (long)held_length);
}

/* A packet cut at each place: the number and the store stand where C has them, first as they are left, then as they are read. */
static void receivers_hold(void)
{
    struct message m = longest_packet();
    struct box_receiver receiver;
    for (size_t cut = 0; cut < m.length; cut++) {
        lay_receiver(&receiver, 0, m.bytes, 0);
        receives(&receiver, m.bytes, cut, cut, 0, m.bytes, cut, (long)cut);
        lay_receiver(&receiver, cut, m.bytes, cut);
        receives(&receiver, m.bytes + cut, m.length - cut, m.length - cut, m.length, m.bytes, 0, (long)cut);
    }
}

/* "one that claims to hold more is emptied first": each bit of the number from 512 up counts, and what follows is noise. */
static void receivers_claim(void)
{
    struct message m = longest_packet();
    struct box_receiver receiver;
    for (int bit = 9; bit < 64; bit++) {
        lay_receiver(&receiver, 5 + ((uint64_t)1 << bit), m.bytes, 5);
        receives(&receiver, m.bytes + 5, m.length - 5, m.length - 5, 0, m.bytes, 0, bit);
    }
}

/* ---- the bytes of a listing */

/*
 * So many packets, each a byte longer than the one before, behind so much noise that
 * a start needs three bytes. Every byte of the listing is written, whatever it held:
 * each number stands where C has it, and there are zeros behind the entries.
 */
static void lists(size_t packets, uint8_t held)
{
    static uint8_t buffer[70000 + 65 * 512];
    uint8_t want[8 + 64 * 8 + 64 * 8 + 8 + 8] = { 0 };
    struct box_listing listing;
    size_t at = 70000, end = 0;
    memset(buffer, 'n', at);
    for (size_t i = 0; i < packets; i++) {
        size_t data = 240 + i, length = 13 + data;
        if (i < 64) {
            lay_number(want + 8 + 8 * i, at);
            lay_number(want + 8 + 64 * 8 + 8 * i, length);
        } else {
            end = at;
        }
        memcpy(buffer + at, "\x03\x0BSONY\x00\x00\x00\xB0\x00", 11);
        buffer[at + 11] = (uint8_t)(data / 256);
        buffer[at + 12] = (uint8_t)(data % 256);
        memset(buffer + at + 13, 'd', data);
        at += length;
    }
    lay_number(want, packets < 64 ? packets : 64);
    lay_number(want + 8 + 64 * 8 + 64 * 8, packets > 64 ? end : at);
    lay_number(want + 8 + 64 * 8 + 64 * 8 + 8, packets > 64);
    memset(&listing, held, sizeof listing);
    int answer = box_plain(buffer, at, &listing);
    expect(answer == 0, "a list is answered 0", answer, (long)packets);
    expect(memcmp(&listing, want, sizeof want) == 0, "a listing's bytes", (long)packets, held);
}

int main(void)
{
    static const char *const mixed[] = { "WKWKWKWK", "KWKWKWKW" };
    every_byte_is_known(&families[0]);
    every_byte_is_known(&families[1]);
    for (size_t i = 0; i < 2; i++) {
        starts(mixed[i]);
        messages_set(mixed[i]);
        judges_panels(mixed[i]);
        judges_count(mixed[i]);
    }
    judges_pairs();
    receivers_hold();
    receivers_claim();
    for (size_t packets = 0; packets <= 65; packets++) {
        lists(packets, 0x00);
        lists(packets, 0xFF);
    }
    return verdict();
}
