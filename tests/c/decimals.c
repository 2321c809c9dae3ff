/*
 * Every number that the archive prints, against the C library's printing of it:
 * levels and shifts asked by TCP, volumes and ports asked by KJW and told in its
 * notices. The record in the lent box is written here and not by messages, so
 * that what is printed is the only thing tried. Box, message and area stand
 * alone in memory with their exact sizes.
 */
#include "areas.h"
#include "messages.h"

static struct place box_place, message_place, area_place;

enum { W_LINK = 1, K_LINK = 2 };

/* The message is carried out, and what goes back is that reply. */
static void prints(const struct display_box *before, uint8_t way, struct message m, struct message reply, int value)
{
    struct display_box *box = stand_copy(&box_place, before, sizeof *before);
    const uint8_t *message = stand_copy(&message_place, m.bytes, m.length);
    uint8_t *area = stand_filled(&area_place, 0xA5, BOX_AREA_LENGTH);
    struct box_outcome o = box_take(box, way, way == BOX_WAY_KJW ? K_LINK : W_LINK, message, m.length, area, BOX_AREA_LENGTH);
    expect(o.answer == BOX_DONE, "answer to", o.answer, value);
    expect(o.length == reply.length && memcmp(area, reply.bytes, reply.length) == 0, "print of", value, (long)o.length);
}

/* ---- SDCP by TCP: a name, a space, and the number without leading zeros */

static void prints_by_tcp(const struct display_box *box, const char *name, const char *format, int value)
{
    char asked[32], told[32];
    size_t n = (size_t)snprintf(told, sizeof told, "%s ", name);
    snprintf(told + n, sizeof told - n, format, value);
    snprintf(asked, sizeof asked, "STATget %s", name);
    struct message reply = sdcp_packet(0, 0, told);
    reply.bytes[8] = 0x01;
    prints(box, BOX_WAY_TCP, sdcp_packet(0, 0, asked), reply, value);
}

static void levels(struct display_box box)
{
    static const char *const names[] = { [BOX_PHASE] = "PHASE", [BOX_CHROMA] = "CHROMA", [BOX_VOLUME] = "VOLUME" };
    for (size_t i = 0; i < LENGTH_OF(names); i++)
        for (int level = 0; level <= 100; level++) {
            box.panels[W_LINK - 1].w.settings[i] = (uint8_t)level;
            prints_by_tcp(&box, names[i], "%d", level);
        }
}

static void shifts(struct display_box box)
{
    static const char *const names[] = { [BOX_SHIFTH] = "SHIFTH", [BOX_SHIFTV] = "SHIFTV" };
    for (size_t i = 0; i < LENGTH_OF(names); i++)
        for (int shift = -30; shift <= 30; shift++) {
            box.panels[W_LINK - 1].w.shifts[i] = (int8_t)shift;
            prints_by_tcp(&box, names[i], shift == 0 ? "%d" : "%+d", shift);
        }
}

/* ---- KJW: sixteen digits */

static struct message frame(char type, const char *letters, const char *parameters)
{
    char text[22] = { type };
    memcpy(text + 1, letters, 4);
    memcpy(text + 5, parameters, 16);
    return kjw_frame(text);
}

/* A box that holds the value is asked for it, and a box that holds another is set to it and tells it in a notice. */
static void prints_by_kjw(const struct display_box *holds, const struct display_box *differs, const char *letters, const char *digits, int value)
{
    struct message reply = frame('A', letters, "0000000000000000"), notice = frame('N', letters, digits);
    memcpy(reply.bytes + reply.length, notice.bytes, notice.length);
    reply.length += notice.length;
    prints(holds, BOX_WAY_KJW, frame('E', letters, "################"), frame('A', letters, digits), value);
    prints(differs, BOX_WAY_KJW, frame('C', letters, digits), reply, value);
}

static void volumes(struct display_box box)
{
    struct display_box other = box;
    for (int volume = 0; volume <= 100; volume++) {
        char digits[32];
        snprintf(digits, sizeof digits, "%016d", volume);
        box.panels[K_LINK - 1].k.volume = (uint8_t)volume;
        other.panels[K_LINK - 1].k.volume = volume == 0;
        prints_by_kjw(&box, &other, "VOLU", digits, volume);
    }
}

/* Every port with one of the four types; each digit of a port meets each type. */
static void ports(struct display_box box)
{
    static const int kinds[] = { 1, 3, 4, 5 };
    struct display_box other = box;
    for (int port = 1; port <= 9999; port++) {
        int kind = kinds[(port + port / 10 + port / 100) % 4];
        char digits[32];
        snprintf(digits, sizeof digits, "%08d%08d", kind, port);
        box.panels[K_LINK - 1].k.kind = (uint8_t)kind;
        box.panels[K_LINK - 1].k.port = (uint16_t)port;
        other.panels[K_LINK - 1].k.port = port == 1 ? 9999 : 1;
        prints_by_kjw(&box, &other, "INPT", digits, port);
    }
}

int main(void)
{
    struct display_box box = box_of("WK");
    for (standing = 0; standing < STANDINGS; standing++) {
        levels(box);
        shifts(box);
        volumes(box);
        ports(box);
    }
    return verdict();
}
