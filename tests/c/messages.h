/*
 * Shared by the C programs of this folder: document 01's lists, messages as it
 * lays them out, and boxes to send them to.
 */
#ifndef MESSAGES_H
#define MESSAGES_H

#include "display_box.h"

#include <stdlib.h>
#include <string.h>

/* Document 01's lists, in its order, which is that of the record; the flip words share one place, and the first one's flip is 1. */
static const char *const switch_names[] = {
    "REMOTE", "POWERSAVING", "KEYINHIBIT", "TALLYGREEN", "TALLYRED", "HVDELAY", "BLUEONLY", "MONOCHR",
    "CAMERA FOCUS", "LED", "SCREENSAVER", "SILENTMODE",
};
#define SWITCHES (sizeof switch_names / sizeof switch_names[0])
static const char *const flip_words[] = { "FLIPH", "FLIPV", "FLIPHV" };
#define FLIPS (sizeof flip_words / sizeof flip_words[0])
static const uint8_t connector_codes[] = { 0, 2, 4, 5, 6, 7, 8, 9, 10, 11 };
_Static_assert(SWITCHES == BOX_FLIP - BOX_REMOTE && sizeof connector_codes == BOX_CONNECTORS, "as many as the record has");
_Static_assert(FLIPS == BOX_FLIP_HV && BOX_FLIP_NONE == 0, "a word for each flip but none");

struct message {
    uint8_t bytes[600];
    size_t length;
};

/* The byte that brings the sum of these to 0 modulo 256. */
static inline uint8_t checksum_of(const uint8_t *bytes, size_t n)
{
    unsigned sum = 0;
    for (size_t i = 0; i < n; i++)
        sum += bytes[i];
    return (uint8_t)(0 - sum);
}

/* "02h, byte count, destination, source, command block, checksum", the count being the length less 3 */
static inline struct message frame_between(uint8_t destination, uint8_t source, const void *block, size_t n)
{
    struct message m = { { 0x02, (uint8_t)(n + 2), destination, source }, n + 5 };
    memcpy(m.bytes + 4, block, n);
    m.bytes[n + 4] = checksum_of(m.bytes + 1, n + 3);
    return m;
}

/* To the box, from the first source that there is. */
static inline struct message rs232c_frame(const void *block, size_t n)
{
    return frame_between(0x01, 0x41, block, n);
}

/* "version 03h, category 0Bh, community SONY, group, unit, request, item (2), data length (2), data" */
static inline struct message sdcp_packet(uint8_t group, uint8_t unit, const char *data)
{
    size_t n = strlen(data);
    struct message m = { { 0x03, 0x0B, 'S', 'O', 'N', 'Y', group, unit, 0x00, 0xB0, 0x00 }, 13 + n };
    m.bytes[11] = (uint8_t)(n / 256);
    m.bytes[12] = (uint8_t)(n % 256);
    memcpy(m.bytes + 13, data, n);
    return m;
}

/* "*S, type, four letters, 16 parameters, 0Ah": all but the first two and the last are written out */
static inline struct message kjw_frame(const char *type_letters_parameters)
{
    struct message m = { "*S", 24 };
    if (strlen(type_letters_parameters) != 21)
        exit(2);
    memcpy(m.bytes + 2, type_letters_parameters, 21);
    m.bytes[23] = '\n';
    return m;
}

/*
 * The bytes of a configuration: a panel for each letter, its group 10 and its
 * unit 20 above its number where it is a W panel. Gives their number.
 */
static inline size_t configuration_of(const char *families, uint8_t *bytes)
{
    size_t panels = strlen(families);
    for (size_t i = 0; i < panels; i++) {
        int is_w = families[i] == BOX_FAMILY_W;
        bytes[3 * i] = (uint8_t)families[i];
        bytes[3 * i + 1] = is_w ? (uint8_t)(11 + i) : 0;
        bytes[3 * i + 2] = is_w ? (uint8_t)(21 + i) : 0;
    }
    return 3 * panels;
}

static inline struct display_box box_of(const char *families)
{
    uint8_t bytes[3 * BOX_PANELS];
    struct display_box box;
    if (box_configure(&box, bytes, configuration_of(families, bytes)) != BOX_DONE)
        exit(2);
    return box;
}

#endif
