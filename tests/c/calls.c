/*
 * Calls the advert reader, the advert writer and the checksum test with good,
 * bad, short, very long and empty areas. Each area stands alone in memory with
 * its exact size. What is expected is worked out here, from document 01's
 * layout, and not taken from the box.
 */
#include "areas.h"

#define MILLION ((size_t)1000000)

static struct place read_place, out_place, text_places[4];

/* ---- the checksum test */

static void try_sum(const uint8_t *bytes, size_t n)
{
    unsigned long sum = 0;
    for (size_t i = 0; i < n; i++)
        sum += bytes[i];
    uint8_t *p = stand_copy(&read_place, bytes, n);
    expect(box_checksum_ok(p, n) == (sum % 256 == 0), "sum", (long)n, (long)sum);
}

static void sums(void)
{
    static const uint8_t bench[] = { 0x03, 0x01, 0x41, 0x6E, 0x4D };
    static const uint8_t spoiled[] = { 0x03, 0x01, 0x41, 0x6E, 0x4E };
    try_sum(NULL, 0);
    try_sum(bench, sizeof bench);
    try_sum(spoiled, sizeof spoiled);
    expect(box_checksum_ok((const uint8_t *)"", 0), "empty, not NULL", 0, 0);

    uint8_t bytes[700];
    for (size_t n = 1; n <= sizeof bytes; n++) {
        randomise(bytes, n);
        try_sum(bytes, n);
        unsigned long sum = 0;
        for (size_t i = 0; i + 1 < n; i++)
            sum += bytes[i];
        bytes[n - 1] = (uint8_t)(0 - sum);
        try_sum(bytes, n);
    }

    uint8_t *long_area = stand_filled(&read_place, 0, MILLION);
    expect(box_checksum_ok(long_area, MILLION), "a million zeros", 0, 0);
    long_area[MILLION - 1] = 1;
    expect(!box_checksum_ok(long_area, MILLION), "a one at the end", 0, 0);
    memset(long_area, 255, MILLION);
    expect(box_checksum_ok(long_area, MILLION) == (MILLION * 255 % 256 == 0), "a million 255", 0, 0);
}

/* ---- the advert reader */

struct text_place { size_t at, length; };
static const struct text_place texts[] = { { 8, 12 }, { 26, 24 }, { 72, 24 }, { 96, 24 } };

static int text_is_bad(const uint8_t *t, size_t n)
{
    const uint8_t *end = n ? memchr(t, 0, n) : NULL;
    if (end == NULL)
        return 0;
    for (const uint8_t *p = end; p < t + n; p++)
        if (*p != 0)
            return 1;
    return 0;
}

/* "Wrong length: 3. Wrong fixed bytes or category: 4. Power or error not 0 or 1, or a nonzero byte after a 00h in a text: 5." */
static int reading(const uint8_t *b, size_t n)
{
    if (n != 122)
        return 3;
    if (memcmp(b, "DA\x04", 3) != 0 || memcmp(b + 4, "SONY", 4) != 0)
        return 4;
    if (b[3] != 0x0B && b[3] != 0x0C)
        return 4;
    if (b[24] != 0 || b[25] > 1 || b[70] != 0 || b[71] > 1)
        return 5;
    for (size_t i = 0; i < 4; i++)
        if (text_is_bad(b + texts[i].at, texts[i].length))
            return 5;
    return 0;
}

static void try_read(const uint8_t *bytes, size_t n)
{
    int got = box_advert_read(stand_copy(&read_place, bytes, n), n);
    expect(got == reading(bytes, n), "read", got, (long)n);
}

/* Document 000's example. */
static void example(uint8_t *b)
{
    memset(b, 0, 122);
    memcpy(b, "DA\x04\x0BSONYLMD3250MD", 17);
    memcpy(b + 20, "\x00\x2F\x68\x1E", 4);
    b[120] = 1;
    b[121] = 1;
}

static void reads(void)
{
    uint8_t b[600];
    memset(b, 0, sizeof b);
    example(b);
    expect(box_advert_read(b, 122) == 0, "the example", 0, 0);
    for (size_t n = 0; n <= sizeof b; n++)
        try_read(b, n);

    /* spoiled at every byte with every value, in a bare and in a full advert */
    uint8_t full[122];
    example(full);
    for (size_t i = 0; i < 4; i++)
        memset(full + texts[i].at, 'x', texts[i].length);
    full[25] = 1;
    full[71] = 1;
    for (int at = 0; at < 122; at++)
        for (int v = 0; v < 256; v++) {
            uint8_t one[122];
            memcpy(one, b, 122);
            one[at] = (uint8_t)v;
            try_read(one, 122);
            memcpy(one, full, 122);
            one[at] = (uint8_t)v;
            try_read(one, 122);
        }

    uint8_t *long_area = stand_filled(&read_place, 0, MILLION);
    example(long_area);
    expect(box_advert_read(long_area, MILLION) == 3, "a million bytes", 0, 0);
}

/* ---- the advert writer */

struct fields {
    uint8_t category, group, unit;
    uint16_t power, error;
    uint32_t serial, ip[5];
    uint8_t text[4][32];
    size_t length[4];
};

static void high_first(uint8_t *to, uint32_t v, int n)
{
    for (int i = n - 1; i >= 0; i--) {
        to[i] = (uint8_t)v;
        v >>= 8;
    }
}

static int writing(const struct fields *f, size_t room)
{
    if (room < 122)
        return 1;
    for (size_t i = 0; i < 4; i++)
        if (f->length[i] != texts[i].length)
            return 3;
    if (f->category != 0x0B && f->category != 0x0C)
        return 4;
    if (f->power > 1 || f->error > 1)
        return 5;
    for (size_t i = 0; i < 4; i++)
        if (text_is_bad(f->text[i], f->length[i]))
            return 5;
    return 0;
}

static void laid(const struct fields *f, uint8_t *b)
{
    memcpy(b, "DA\x04", 3);
    b[3] = f->category;
    memcpy(b + 4, "SONY", 4);
    for (size_t i = 0; i < 4; i++)
        memcpy(b + texts[i].at, f->text[i], texts[i].length);
    high_first(b + 20, f->serial, 4);
    high_first(b + 24, f->power, 2);
    for (int i = 0; i < 5; i++)
        high_first(b + 50 + 4 * i, f->ip[i], 4);
    high_first(b + 70, f->error, 2);
    b[120] = f->group;
    b[121] = f->unit;
}

static int call_write(const struct fields *f, uint8_t *out, size_t room)
{
    uint8_t *t[4];
    for (size_t i = 0; i < 4; i++)
        t[i] = stand_copy(&text_places[i], f->text[i], f->length[i]);
    return box_advert_write(f->category, t[0], f->length[0], f->serial, f->power, t[1], f->length[1],
                            f->ip[0], f->ip[1], f->ip[2], f->ip[3], f->ip[4], f->error,
                            t[2], f->length[2], t[3], f->length[3], f->group, f->unit, out, room);
}

static void try_write(const struct fields *f, size_t room)
{
    uint8_t want[512];
    uint8_t *out = stand_filled(&out_place, 0xA5, room);
    memset(want, 0xA5, sizeof want);
    int answer = writing(f, room);
    if (answer == 0)
        laid(f, want);
    int got = call_write(f, out, room);
    expect(got == answer, "write", got, answer);
    expect(room == 0 || memcmp(out, want, room) == 0, "area after write", got, (long)room);
    if (answer == 0)
        expect(box_advert_read(out, 122) == 0, "written, then read", (long)room, 0);
}

static struct fields good(void)
{
    struct fields f;
    memset(&f, 0, sizeof f);
    f.category = 0x0B;
    f.group = 255;
    f.unit = 0;
    f.power = 1;
    f.serial = 0xFEDCBA98;
    for (uint32_t i = 0; i < 5; i++)
        f.ip[i] = 0xC0A80001 + (i << 8);
    f.ip[4] = 0xFFFFFFFF;
    memcpy(f.text[0], "LMD3250MD", 9);
    memcpy(f.text[1], "lounge", 6);
    memset(f.text[2], 'r', 24);
    for (size_t i = 0; i < 4; i++)
        f.length[i] = texts[i].length;
    return f;
}

/* every choice of these eight slips at once, so every order of refusals is seen */
static struct fields slipped(unsigned slips)
{
    struct fields f = good();
    if (slips & 1)
        f.length[0] = 11;
    if (slips & 2)
        f.length[3] = 25;
    if (slips & 4)
        f.category = 0x0D;
    if (slips & 8)
        f.power = 2;
    if (slips & 16)
        f.error = 256;
    if (slips & 32)
        f.text[0][11] = 1;
    if (slips & 64)
        f.text[1][23] = 1;
    if (slips & 128)
        f.text[3][1] = 'x';
    return f;
}

/* every slip in every area, every length of a text, every byte and many flags */
static void walked_writes(void)
{
    static const size_t rooms[] = { 0, 1, 121, 122, 123, 512 };
    for (unsigned slips = 0; slips < 256; slips++) {
        struct fields f = slipped(slips);
        for (size_t r = 0; r < sizeof rooms / sizeof rooms[0]; r++)
            try_write(&f, rooms[r]);
    }
    for (size_t i = 0; i < 4; i++)
        for (size_t n = 0; n <= 32; n++) {
            struct fields f = good();
            f.length[i] = n;
            try_write(&f, 130);
        }
    for (int v = 0; v < 256; v++) {
        struct fields f = good();
        f.category = (uint8_t)v;
        try_write(&f, 122);
        f = good();
        f.group = (uint8_t)v;
        f.unit = (uint8_t)(255 - v);
        try_write(&f, 124);
    }
    static const uint16_t flags[] = { 0, 1, 2, 255, 256, 257, 32768, 65535 };
    for (size_t i = 0; i < 8; i++)
        for (size_t j = 0; j < 8; j++) {
            struct fields f = good();
            f.power = flags[i];
            f.error = flags[j];
            try_write(&f, 122);
        }
}

static void random_writes(void)
{
    for (int i = 0; i < 2000; i++) {
        struct fields f = good();
        f.serial = next();
        for (int k = 0; k < 5; k++)
            f.ip[k] = next();
        for (size_t k = 0; k < 4; k++) {
            size_t n = next() % (texts[k].length + 1);
            memset(f.text[k], 0, sizeof f.text[k]);
            for (size_t j = 0; j < n; j++)
                f.text[k][j] = (uint8_t)(1 + next() % 255);
        }
        if (next() % 8 == 0)
            f.text[next() % 4][next() % 12] = 0;
        try_write(&f, 122 + next() % 8);
    }
}

static int all_kept(const uint8_t *bytes, size_t n)
{
    for (size_t i = 0; i < n; i++)
        if (bytes[i] != 0xA5)
            return 0;
    return 1;
}

static void long_writes(void)
{
    struct fields f = good();
    uint8_t *out = stand_filled(&out_place, 0xA5, MILLION);
    int got = call_write(&f, out, MILLION);
    expect(got == 0 && all_kept(out + 122, MILLION - 122), "a million bytes of room", got, 0);

    out = stand_filled(&out_place, 0xA5, 122);
    got = box_advert_write(0x0B, stand_filled(&text_places[0], 0, MILLION), MILLION, 1, 0, f.text[1], 24,
                           0, 0, 0, 0, 0, 0, f.text[2], 24, f.text[3], 24, 1, 1, out, 122);
    expect(got == 3 && all_kept(out, 122), "a text of a million bytes", got, 0);
}

int main(void)
{
    for (standing = 0; standing < STANDINGS; standing++) {
        sums();
        reads();
        walked_writes();
        random_writes();
        long_writes();
    }
    return verdict();
}
