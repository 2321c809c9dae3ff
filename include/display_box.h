/*
 * The display box, for its C host.
 *
 * The host owns the box's memory, opens the ports, and hands every message in;
 * the box changes its record, writes the reply and gives a number. Every
 * function that the archive has stands here; those declared static inline only
 * give a shorter call.
 *
 * A first host:
 *
 *     static const uint8_t screens[] = { BOX_FAMILY_W, 1, 1, BOX_FAMILY_K, 0, 0 };
 *     struct display_box box;
 *     uint8_t area[BOX_AREA_LENGTH];
 *
 *     if (box_configure(&box, screens, sizeof screens) != BOX_DONE)
 *         .. the configuration breaks a rule ..
 *     struct box_outcome o = box_take_tcp(&box, 1, packet, packet_length, area, sizeof area);
 *     .. write the first o.length bytes of area to the console; o.answer and o.place are for the log ..
 *
 * State. The archive has none: no globals, no heap, no files, no threads. All
 * that is remembered is in the struct display_box that is handed in, and of bytes
 * off a TCP link in that link's struct box_receiver. So there may be as many of
 * them as a host likes, and none knows of another. Two calls may run at the same
 * time in two threads where no area, box, receiver or listing that one of them
 * writes is read or written by the other; calls on one box are for the host to put
 * in order.
 *
 * Areas. An area is a pointer and a length in bytes, in that order.
 *   - An empty area has length 0; its pointer may then be NULL.
 *   - NULL with any other length is forbidden: the call would read or write
 *     through it.
 *   - An area has no alignment: it may start at any byte.
 *   - A length is at most PTRDIFF_MAX, as for every object in C. Every length up
 *     to that is taken, and every content.
 *   - Areas that a call only reads may overlap each other. What a call writes
 *     (the area of box_take, the out of box_advert_write, the box of box_take and
 *     box_configure, the panel of box_panel_at, the receiver and the packet of
 *     box_receive, the listing of box_plain) must not overlap anything else that is
 *     handed to that call. So a message is never its own reply's area, nor a piece
 *     its own packet's, nor does a listing lie in the buffer that it lists.
 *   - The pointers are used during the call only; none is kept.
 *
 * Boxes, panels, receivers and listings. These pointers must not be NULL, and are
 * aligned as their struct is (_Alignof(struct display_box) is 8, as of a receiver
 * and a listing): a variable of that type is, and what malloc gives is. Any bits
 * are a box. One that breaks the rules is answered as a box of no panels, and comes
 * back bit for bit as it was. Any bits are a receiver too; one that claims too much
 * is an empty one. What a listing held is not looked at.
 *
 * Stack. A call needs at most BOX_STACK_LENGTH bytes of it, and box_plain at most
 * BOX_PLAIN_STACK_LENGTH, whatever is handed in and however long it is.
 *
 * Answers (document 01, "Answer numbers", and document 02): enum box_answer.
 * Checks run in the order of the numbers, but that 9 to 14 come where a message
 * would have 5, behind 4 and before 6, and 8 between them and 6; the first that
 * applies is given.
 */
#ifndef DISPLAY_BOX_H
#define DISPLAY_BOX_H

#include <stdbool.h>
#include <stddef.h>
#include <stdint.h>

#ifdef __cplusplus
extern "C" {
#endif

/* ---- numbers */

enum box_answer {
    BOX_DONE = 0,              /* carried out */
    BOX_AREA_TOO_SMALL = 1,    /* the reply area is under 512 bytes; box_advert_write: the area is under 122 */
    BOX_NO_SUCH_PANEL = 2,     /* no panel with that link number, or it is of the other family; no such way in, whatever the area */
    BOX_WRONG_LENGTH = 3,      /* too short to be a message, or a wrong fixed length */
    BOX_NOT_FOR_US = 4,        /* not for us: wrong fixed bytes, or nobody is addressed */
    BOX_ENVELOPE_WRONG = 5,    /* an advert alone: power, error or a text; of a message 9 to 14 say which part of the envelope */
    BOX_NOT_UNDERSTOOD = 6,    /* the contents are not understood */
    BOX_BAD_CONFIGURATION = 7, /* box_configure alone: the configuration breaks a rule */
    BOX_STATUS_BY_BROADCAST = 8, /* BOX_WAY_UDP alone: STATget, which no panel answers by UDP; the console that sent it waits for ever */
    /* a message's envelope; behind each the place that goes with it, of the first byte of the guilty field */
    BOX_REQUEST_WRONG = 9,     /* SDCP: the request byte is not 00h; 8 */
    BOX_ITEM_WRONG = 10,       /* SDCP: the item is not B000h; 9 */
    BOX_DATA_TOO_LONG = 11,    /* SDCP: the data length is over 499; 11 */
    BOX_DATA_NOT_MATCHING = 12, /* SDCP: the data length is not the number of bytes that follow; 11 */
    BOX_COUNT_WRONG = 13,      /* RS-232C: the byte count is not the length less 3; 1 */
    BOX_CHECKSUM_WRONG = 14,   /* RS-232C: the bytes from the byte count to the checksum do not sum to 0; the frame's last byte */
};

/* The ways in. Any other number is no way in, and is answered BOX_NO_SUCH_PANEL, also where the area is too small for a reply. */
enum box_way {
    BOX_WAY_RS232C = 1, /* the RS-232C port of the link's panel, which is of family W */
    BOX_WAY_KJW = 2,    /* the KJW link of the link's panel, which is of family K */
    BOX_WAY_TCP = 3,    /* SDCP by TCP on the link of a W panel */
    BOX_WAY_UDP = 4,    /* SDCP by UDP, to every W panel or every one of a group; no link, no reply */
};

/* The reply area of box_take: at least so many bytes. No reply is longer. */
#define BOX_AREA_LENGTH 512

/*
 * The stack that a call needs at most, with its arguments and with glibc's memcpy
 * and memset; measured on the archive (tests/c/stack.c) and rounded up.
 */
#define BOX_STACK_LENGTH 4096

/* The same of box_plain, whose two rules call each other: each entry of its list is two calls deeper. */
#define BOX_PLAIN_STACK_LENGTH 16384

/* ---- the records, as they lie in memory: no padding anywhere */

/*
 * Grows when the records of a box change. A host that saves a box writes this
 * number in front of it, and loads only what has the number that it was compiled
 * with. A receiver is not saved: its connection is over by then.
 */
#define BOX_LAYOUT 2

#define BOX_PANELS 8

/* The family byte of a panel: the letters. A place that holds no panel has 0. */
#define BOX_FAMILY_W 0x57
#define BOX_FAMILY_K 0x4B

/* A group is never taken for a unit, though each is one byte: 1 to 99 for a W panel, 0 for a K panel. */
struct box_group { uint8_t id; };
struct box_unit { uint8_t id; };

/* The places of settings[] in a W record. */
enum box_setting {
    BOX_PHASE,  /* 0 to 100 */
    BOX_CHROMA, /* 0 to 100 */
    BOX_VOLUME, /* 0 to 100 */
    BOX_MODE,   /* 0, 1, 2: MODE0, MODE1, MODE2 */
    BOX_NTSC,   /* 0, 1: NTSC0, NTSC75 */
    BOX_RGB_RANGE, /* 0, 1: FULL, LIMITED */
    BOX_REMOTE, /* from here to BOX_SILENTMODE switches: 0 OFF, 1 ON */
    BOX_POWERSAVING,
    BOX_KEYINHIBIT,
    BOX_TALLYGREEN,
    BOX_TALLYRED,
    BOX_HVDELAY,
    BOX_BLUEONLY,
    BOX_MONOCHR,
    BOX_CAMERA_FOCUS,
    BOX_LED,
    BOX_SCREENSAVER,
    BOX_SILENTMODE,
    BOX_FLIP,   /* of enum box_flip */
    BOX_SETTINGS /* how many there are: 19 */
};

/* A panel has one flip. FLIPH, FLIPV and FLIPHV set it; each says ON where it is the one in force. */
enum box_flip { BOX_FLIP_NONE, BOX_FLIP_H, BOX_FLIP_V, BOX_FLIP_HV };

/* The places of shifts[] in a W record: -30 to 30. */
enum box_shift { BOX_SHIFTH, BOX_SHIFTV, BOX_SHIFTS };

/*
 * The inputs of a W panel. used is a connector's code: COMPOSITE 0, Y/C 2,
 * RGB 4, COMPONENT 5, OPTION A-1 6, OPTION A-2 7, DVI 8, HD15 9, OPTION B-1 10,
 * OPTION B-2 11. on[] has a place for each connector in that order: 0 OFF, 1 ON.
 * preset is the white balance's: D93 0, USER 2, D65 3.
 */
#define BOX_CONNECTORS 10
struct box_inputs {
    uint8_t used;
    uint8_t preset;
    uint8_t on[BOX_CONNECTORS];
};

/* White balance, R, G, B: gains 0 to 4095, biases -1024 to 1023. */
struct box_balance {
    uint16_t gains[3];
    int16_t biases[3];
};

/* The settings of a W panel. */
struct box_w_record {
    uint8_t settings[BOX_SETTINGS];
    int8_t shifts[BOX_SHIFTS];
    uint8_t spare; /* neither judged nor changed */
    struct box_inputs inputs;
    struct box_balance balance;
};

/*
 * The settings of a K panel: switches 0 or 1, volume 0 to 100, scene 0 auto,
 * 1 auto24pSync, 2 general; the input's type 1, 3, 4 or 5, and its port 1 to 9999.
 */
struct box_k_record {
    uint8_t power;
    uint8_t amut;
    uint8_t pmut;
    uint8_t volume;
    uint8_t scene;
    uint8_t kind;
    uint16_t port;
};

/* A panel has both records; that of the other family is neither judged nor changed. */
struct box_panel {
    uint8_t family;
    struct box_group group;
    struct box_unit unit;
    uint8_t spare; /* neither judged nor changed */
    struct box_w_record w;
    struct box_k_record k;
};

/*
 * A box: 1 to 8 panels, numbered from 1 in the order given; that is also the link
 * number. Places behind the last panel are neither judged nor changed. No two W
 * panels share both IDs.
 */
struct display_box {
    size_t count;
    struct box_panel panels[BOX_PANELS];
};

/* The longest packet: a header of 13 bytes and 499 bytes of data. Its area has so many bytes, whatever comes. */
#define BOX_PACKET_LENGTH 512

/*
 * The receiver of a TCP link: the bytes of a packet that is not whole yet, at the
 * store's front. After each call the store is 0 behind them. All zeros is an empty
 * receiver.
 */
struct box_receiver {
    size_t held;
    uint8_t store[BOX_PACKET_LENGTH];
};

/* The entries of a listing at most. */
#define BOX_LISTED 64

/*
 * What box_plain lists of a buffer. Entry i, of count, is the lengths[i] bytes from
 * starts[i] on: a packet, or the 13 bytes of an overlong header. All places behind
 * the entries are 0. Places are counted from the buffer's front.
 */
struct box_listing {
    size_t count;
    size_t starts[BOX_LISTED];
    size_t lengths[BOX_LISTED];
    size_t end;     /* where an unfinished tail begins, else the buffer's length; where a 65th begins, if it stopped there */
    size_t stopped; /* 1: it stopped at a 65th, which begins at end; else 0 */
};

/* ---- the box */

/*
 * What a message did: an answer of enum box_answer, and how many bytes of the area
 * are the reply. With BOX_REQUEST_WRONG to BOX_CHECKSUM_WRONG goes the place of the
 * first byte of the guilty field, counted from 0; with every other answer the place is
 * 0, which is none of theirs. It stands where C had padding, so answer and length
 * are where they were before there was a place.
 */
struct box_outcome {
    uint8_t answer;
    uint16_t place;
    size_t length;
};

/* What became of a piece: how many of its bytes were taken, and the length of the packet that was handed out, 0 for none. */
struct box_received {
    size_t taken;
    size_t length;
};

/* What crosses a call is as long here as in the archive; elsewhere (32 bits, packed structs) this does not compile. */
#if defined(__cplusplus) && __cplusplus >= 201103L
#define BOX_LENGTH_IS(record, length) static_assert(sizeof(struct record) == (length), #record)
#elif defined(__STDC_VERSION__) && __STDC_VERSION__ >= 201112L
#define BOX_LENGTH_IS(record, length) _Static_assert(sizeof(struct record) == (length), #record)
#else
#define BOX_LENGTH_IS(record, length) typedef char box_length_of_##record[sizeof(struct record) == (length) ? 1 : -1]
#endif
BOX_LENGTH_IS(box_panel, 58);
BOX_LENGTH_IS(display_box, 472);
BOX_LENGTH_IS(box_outcome, 16);
BOX_LENGTH_IS(box_receiver, 520);
BOX_LENGTH_IS(box_received, 16);
BOX_LENGTH_IS(box_listing, 1048);
#undef BOX_LENGTH_IS

/*
 * A new box: three bytes a panel, its family, its group and its unit. Gives
 *   BOX_DONE               the box has those panels, each at its start values
 *   BOX_BAD_CONFIGURATION  the configuration breaks a rule (no panel or more than
 *                          8, another family, an ID out of range, two W panels
 *                          with the same pair, a length that is no multiple of
 *                          3); the box is all zeros then, a box of no panels
 * What the box held before does not matter, and is gone either way.
 */
uint8_t box_configure(struct display_box *box, const uint8_t *configuration, size_t configuration_length);

/*
 * A message. Gives an answer, its place, and the reply's length: the first so many
 * bytes of area are to go back to the console, and 0 is no reply. A message that
 * is not BOX_DONE can have a reply too.
 *
 * Every way gives BOX_DONE, BOX_WRONG_LENGTH, BOX_NOT_FOR_US and BOX_NOT_UNDERSTOOD,
 * and all but UDP BOX_AREA_TOO_SMALL and BOX_NO_SUCH_PANEL; besides
 *   BOX_WAY_RS232C  BOX_COUNT_WRONG, BOX_CHECKSUM_WRONG
 *   BOX_WAY_TCP     BOX_REQUEST_WRONG, BOX_ITEM_WRONG, BOX_DATA_TOO_LONG, BOX_DATA_NOT_MATCHING
 *   BOX_WAY_UDP     the same, and BOX_STATUS_BY_BROADCAST
 *
 * All of the area behind the reply keeps what it held; where the answer is not
 * BOX_DONE, all of the box does too. When BOX_DONE is given, what was set stands
 * in the box, but for two RS-232C orders that are acknowledged and ignored: to
 * use a connector that is OFF, and to turn OFF the last one that is ON.
 *
 * By BOX_WAY_UDP the link and the area are not looked at: the link is any number,
 * the area may be (NULL, 0), and the length is always 0.
 *
 * By BOX_WAY_KJW the codes of the remote control are taken too: IRCC with sixteen
 * decimal digits. A code that changes nothing, as Volume Up at 100, is BOX_DONE
 * with the answer alone, and one that no button has is BOX_NOT_UNDERSTOOD.
 */
struct box_outcome box_take(struct display_box *box, uint8_t way, size_t link,
                            const uint8_t *message, size_t message_length,
                            uint8_t *area, size_t area_length);

/* The ways in by name. */
static inline struct box_outcome box_take_rs232c(struct display_box *box, size_t link,
                                                 const uint8_t *message, size_t message_length,
                                                 uint8_t *area, size_t area_length)
{
    return box_take(box, BOX_WAY_RS232C, link, message, message_length, area, area_length);
}

static inline struct box_outcome box_take_kjw(struct display_box *box, size_t link,
                                              const uint8_t *message, size_t message_length,
                                              uint8_t *area, size_t area_length)
{
    return box_take(box, BOX_WAY_KJW, link, message, message_length, area, area_length);
}

static inline struct box_outcome box_take_tcp(struct display_box *box, size_t link,
                                              const uint8_t *message, size_t message_length,
                                              uint8_t *area, size_t area_length)
{
    return box_take(box, BOX_WAY_TCP, link, message, message_length, area, area_length);
}

/* By UDP there is no reply, so answer and place are all there is. */
static inline struct box_outcome box_take_udp(struct display_box *box, const uint8_t *message, size_t message_length)
{
    return box_take(box, BOX_WAY_UDP, 0, message, message_length, NULL, 0);
}

/*
 * The panel behind a link, 1 to box->count, copied into *panel; all zeros where
 * the box has no such panel or breaks the rules. The family tells: 0 is none.
 */
void box_panel_at(const struct display_box *box, size_t link, struct box_panel *panel);

/* ---- SDCP off the wire */

/*
 * A TCP link delivers bytes in pieces that are cut anywhere. A call takes the next
 * piece and hands out one whole packet at most, at the front of packet; all of
 * packet behind it keeps what it held. A call that hands out a packet takes no
 * byte behind it, and the rest of the piece is for the next call; a call that
 * hands out nothing (length 0) has taken the whole piece. So with each piece:
 *
 *     for (;;) {
 *         struct box_received got = box_receive(&receiver, piece, piece_length, packet);
 *         piece += got.taken;
 *         piece_length -= got.taken;
 *         if (got.length == 0)
 *             break;
 *         struct box_outcome o = box_take_tcp(&box, link, packet, got.length, area, sizeof area);
 *         .. write the first o.length bytes of area to the console ..
 *     }
 *
 * Each packet then reaches the box before the next is looked for, and packets,
 * answers and replies are the same however the bytes were cut.
 *
 * Bytes are dropped until the next can begin 03h 0Bh "SONY"; with 13 bytes the
 * packet's length is known. A header that says more than 499 bytes of data is
 * handed out alone, 13 bytes, which box_take_tcp answers with BOX_DATA_TOO_LONG,
 * with BOX_REQUEST_WRONG or BOX_ITEM_WRONG where that is wrong before it, or with
 * BOX_NOT_FOR_US where nobody is addressed; its data is then searched like any
 * other bytes. Packets that address nobody are handed out too. What is held is read
 * before the piece: a receiver that was handed in with a whole packet gives it with
 * 0 bytes taken.
 *
 * A receiver belongs to one connection. The host empties it, all bytes to 0, when
 * the connection ends: half a packet of one console must not meet the first bytes
 * of the next.
 */
struct box_received box_receive(struct box_receiver *receiver,
                                const uint8_t *piece, size_t piece_length,
                                uint8_t packet[BOX_PACKET_LENGTH]);

/*
 * The plain reader: what stands in a whole buffer, to be followed by eye. Its list
 * names every packet and every overlong header in the order of the bytes, and noise
 * is what lies between them. Always gives BOX_DONE, and all of *listing is written.
 *
 * It finds what box_receive finds: an empty receiver that is fed the first end
 * bytes, cut anywhere, hands out exactly the entries, in their order.
 *
 * With 64 entries and a whole 65th it stops at the start of that one, and the rest
 * of the buffer is not looked at. The list goes on with a further call, whose
 * starts count from there:
 *
 *     box_plain(bytes, length, &listing);
 *     while (listing.stopped == 1) {
 *         bytes += listing.end;
 *         length -= listing.end;
 *         box_plain(bytes, length, &listing);
 *     }
 *
 * An unfinished 65th is a tail like any other. A tail can be as short as a last 03h.
 */
uint8_t box_plain(const uint8_t *buffer, size_t buffer_length, struct box_listing *listing);

/* ---- adverts and checksums */

/* The length of an SDAP advert, and of its texts. */
#define BOX_ADVERT_LENGTH 122
#define BOX_ADVERT_PRODUCT_LENGTH 12
#define BOX_ADVERT_TEXT_LENGTH 24

/*
 * The checksum test: true exactly when the bytes of the area sum to 0 modulo
 * 256. An empty area is a yes.
 */
bool box_checksum_ok(const uint8_t *area, size_t area_length);

/*
 * The advert reader. Gives the answer number alone:
 *   BOX_DONE            an advert
 *   BOX_WRONG_LENGTH    not 122 bytes
 *   BOX_NOT_FOR_US      wrong fixed bytes, or a category that is neither 0Bh
 *                       (monitor) nor 0Ch (controller)
 *   BOX_ENVELOPE_WRONG  power or error is neither 0 nor 1, or a text has a
 *                       nonzero byte after a 00h
 */
uint8_t box_advert_read(const uint8_t *bytes, size_t bytes_length);

/*
 * The advert writer. Gives the reader's answers, BOX_WRONG_LENGTH for a text that
 * is not of its length, or BOX_AREA_TOO_SMALL for an out under 122 bytes.
 *
 * product is 12 bytes; location, region and name are 24 bytes each, filled up
 * with 00h. Addresses are numbers, as 0xC0A80001 for 192.168.0.1. group and
 * unit may be any byte.
 *
 * On BOX_DONE the first 122 bytes of out are the advert, and those after keep
 * what they held. On any other answer every byte of out keeps what it held.
 */
uint8_t box_advert_write(uint8_t category,
                         const uint8_t *product, size_t product_length,
                         uint32_t serial,
                         uint16_t power,
                         const uint8_t *location, size_t location_length,
                         uint32_t connected,
                         uint32_t accepted1, uint32_t accepted2,
                         uint32_t accepted3, uint32_t accepted4,
                         uint16_t error,
                         const uint8_t *region, size_t region_length,
                         const uint8_t *name, size_t name_length,
                         uint8_t group, uint8_t unit,
                         uint8_t *out, size_t out_length);

#ifdef __cplusplus
}
#endif

#endif
