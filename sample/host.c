/*
 * A host for the display box, to start from: one serial device for each panel,
 * and for a W panel a line that carries SDCP beside it.
 *
 * It puts the bytes of each device together into frames or packets, hands every
 * one to the box, writes the reply back and logs a line. A panel is of family W
 * and its device carries RS-232C frames, or of family K with KJW frames (document
 * 01). SDCP comes in pieces that are cut anywhere, and the box's own receiver puts
 * them together. sample/README.md says how to build and run it, and what it leaves
 * out.
 */
#define _DEFAULT_SOURCE /* POSIX, and CRTSCTS beside it */

#include "display_box.h"

#include <errno.h>
#include <fcntl.h>
#include <limits.h>
#include <poll.h>
#include <signal.h>
#include <stdarg.h>
#include <stdio.h>
#include <stdlib.h>
#include <string.h>
#include <sys/socket.h>
#include <termios.h>
#include <time.h>
#include <unistd.h>

/* A byte count of one byte, and the three bytes that it does not count. */
#define LONGEST_FRAME (255 + 3)

/* A console that takes nothing for so long is left, so that the other panels do not wait for it. */
#define PATIENCE_MS 1000

/* A device that was left is opened again after so long, and after so long again where that fails. */
#define PAUSE_MS 1000

/* A W panel has two ports, its serial line and its SDCP. */
#define MOST_PORTS (2 * BOX_PANELS)

/* A panel's device, and the frame or the packet that is being put together from its bytes. */
struct port {
    size_t link; /* the panel's number, from 1 */
    uint8_t way; /* of enum box_way */
    const char *device; /* "-" is none; of SDCP "@N" is a descriptor that the host was started with */
    int fd; /* -1 where there is no device, or where it was left */
    int64_t again; /* when a device that was left is opened again, by now_ms() */
    uint8_t frame[LONGEST_FRAME];
    size_t held;
    struct box_receiver receiver; /* of SDCP, in place of a frame */
};

/* ---- the log */

static const char *way_name(const struct port *port)
{
    return port->way == BOX_WAY_TCP ? "SDCP" : port->way == BOX_WAY_RS232C ? "RS-232C" : "KJW";
}

/* One line on standard error. */
static void log_line(const struct port *port, const char *form, ...)
{
    va_list values;
    va_start(values, form);
    fprintf(stderr, "panel %zu: %s: ", port->link, way_name(port));
    vfprintf(stderr, form, values);
    fputc('\n', stderr);
    va_end(values);
}

/* The words of document 01, "Answer numbers", and of document 02. */
static const char *answer_words(uint8_t answer)
{
    switch (answer) {
    case BOX_DONE: return "carried out";
    case BOX_AREA_TOO_SMALL: return "reply area under 512 bytes";
    case BOX_NO_SUCH_PANEL: return "no panel with that link number, or it is of the other family";
    case BOX_WRONG_LENGTH: return "too short to be a message, or wrong fixed length";
    case BOX_NOT_FOR_US: return "not for us";
    case BOX_ENVELOPE_WRONG: return "envelope wrong";
    case BOX_NOT_UNDERSTOOD: return "contents not understood";
    case BOX_BAD_CONFIGURATION: return "configuration breaks a rule";
    case BOX_STATUS_BY_BROADCAST: return "a status asked for by broadcast";
    case BOX_REQUEST_WRONG: return "request wrong";
    case BOX_ITEM_WRONG: return "item wrong";
    case BOX_DATA_TOO_LONG: return "data length over 499";
    case BOX_DATA_NOT_MATCHING: return "data length not matching";
    case BOX_COUNT_WRONG: return "byte count wrong";
    case BOX_CHECKSUM_WRONG: return "checksum wrong";
    default: return "an answer that this host does not know";
    }
}

/* ---- the arguments */

/* Reads a decimal number of one byte and the comma behind it; gives what follows, or NULL. */
static char *read_id(char *text, uint8_t *id)
{
    char *end;
    if (*text < '0' || *text > '9')
        return NULL;
    unsigned long number = strtoul(text, &end, 10);
    if (number > UINT8_MAX || *end != ',')
        return NULL;
    *id = (uint8_t)number;
    return end + 1;
}

/* The descriptor of "@N", or -1. */
static int descriptor_of(const char *text)
{
    char *end;
    if (text[1] < '0' || text[1] > '9')
        return -1;
    unsigned long number = strtoul(text + 1, &end, 10);
    return number > INT_MAX || *end != '\0' ? -1 : (int)number;
}

static bool is_descriptor(const struct port *port)
{
    return port->way == BOX_WAY_TCP && port->device[0] == '@';
}

/* A port with that device, or with a descriptor that the host has already; false where the text is neither. */
static bool read_device_name(const char *text, uint8_t way, size_t link, struct port *port)
{
    *port = (struct port){ .link = link, .way = way, .device = text, .fd = -1 };
    if (!is_descriptor(port))
        return *text != '\0';
    port->fd = descriptor_of(text);
    return port->fd >= 0;
}

/*
 * W,GROUP,UNIT,DEVICE, with ,SDCP behind it or not, or K,DEVICE: into one port or
 * two, whose number it gives (0 where it is neither), and three bytes of a
 * configuration. Whether the IDs are good is for the box.
 */
static size_t read_argument(char *argument, size_t link, struct port *ports, uint8_t *screen)
{
    memset(screen, 0, 3);
    if (strncmp(argument, "K,", 2) == 0) {
        screen[0] = BOX_FAMILY_K;
        return read_device_name(argument + 2, BOX_WAY_KJW, link, &ports[0]) ? 1 : 0;
    }
    if (strncmp(argument, "W,", 2) != 0)
        return 0;
    screen[0] = BOX_FAMILY_W;
    char *device = read_id(argument + 2, &screen[1]);
    if (device == NULL || (device = read_id(device, &screen[2])) == NULL)
        return 0;
    char *comma = strchr(device, ',');
    if (comma != NULL)
        *comma = '\0';
    if (!read_device_name(device, BOX_WAY_RS232C, link, &ports[0]))
        return 0;
    if (comma == NULL)
        return 1;
    return read_device_name(comma + 1, BOX_WAY_TCP, link, &ports[1]) ? 2 : 0;
}

/* ---- the devices */

static int64_t now_ms(void)
{
    struct timespec now;
    clock_gettime(CLOCK_MONOTONIC, &now);
    return (int64_t)now.tv_sec * 1000 + now.tv_nsec / 1000000;
}

/* tcsetattr is content where the line took anything at all, so it is read back: a line in the log for each part that it did not take. */
static bool report_line(const struct port *port, const struct termios *asked)
{
    static const struct { const char *name; tcflag_t bits; } parts[] = {
        { "data bits", CSIZE }, { "parity", PARENB | PARODD }, { "stop bits", CSTOPB }, { "flow control", CRTSCTS }, { "receiver", CREAD | CLOCAL },
    };
    struct termios got;
    if (tcgetattr(port->fd, &got) != 0)
        return false;
    for (size_t i = 0; i < sizeof parts / sizeof parts[0]; i++)
        if (((got.c_cflag ^ asked->c_cflag) & parts[i].bits) != 0)
            log_line(port, "%s did not take the %s", port->device, parts[i].name);
    if (cfgetispeed(&got) != cfgetispeed(asked) || cfgetospeed(&got) != cfgetospeed(asked))
        log_line(port, "%s did not take the speed", port->device);
    if (got.c_iflag != asked->c_iflag || got.c_oflag != asked->c_oflag || got.c_lflag != asked->c_lflag)
        log_line(port, "%s did not take raw bytes", port->device);
    return true;
}

/*
 * Raw, without flow control, and for RS-232C "38400 bit/sec", "8 bits", "Parity: Even", "Stop bit: 1 bit" (documents
 * 002 and 004, "Communication Format", which names no flow control). A byte of wrong parity comes in as 00h, and the
 * checksum tells the box. Of KJW and SDCP the manuals know no serial line, so speed and parity stay as they are set.
 * What came in before is dropped.
 */
static bool set_line(const struct port *port)
{
    struct termios line;
    if (tcgetattr(port->fd, &line) != 0)
        return false;
    line.c_iflag = 0;
    line.c_oflag = 0;
    line.c_lflag = 0;
    line.c_cflag |= CREAD | CLOCAL;
    line.c_cflag &= ~(tcflag_t)CRTSCTS;
    line.c_cc[VMIN] = 1;
    line.c_cc[VTIME] = 0;
    if (port->way == BOX_WAY_RS232C) {
        line.c_iflag = INPCK;
        line.c_cflag &= ~(tcflag_t)(CSIZE | PARODD | CSTOPB);
        line.c_cflag |= CS8 | PARENB;
        if (cfsetispeed(&line, B38400) != 0 || cfsetospeed(&line, B38400) != 0)
            return false;
    }
    return tcsetattr(port->fd, TCSAFLUSH, &line) == 0 && report_line(port, &line);
}

/*
 * Closes the device, which is opened again after a pause. What it has not sent is dropped: closing would wait for it.
 * So is what came in of a frame or a packet: half of one must not meet the first bytes of the next console.
 */
static void close_device(struct port *port)
{
    tcflush(port->fd, TCOFLUSH);
    close(port->fd);
    port->fd = -1;
    port->again = now_ms() + PAUSE_MS;
    port->held = 0;
    memset(&port->receiver, 0, sizeof port->receiver);
}

static bool is_stream_socket(int fd)
{
    int type;
    socklen_t length = sizeof type;
    return getsockopt(fd, SOL_SOCKET, SO_TYPE, &type, &length) == 0 && type == SOCK_STREAM;
}

/* What the host was started with is used where it is a stream's socket or a terminal; from a FIFO it would read its own replies. */
static bool use_descriptor(const struct port *port)
{
    if (!is_stream_socket(port->fd) && !set_line(port))
        return false;
    int flags = fcntl(port->fd, F_GETFL);
    return flags >= 0 && fcntl(port->fd, F_SETFL, flags | O_NONBLOCK) == 0;
}

/* A device that is no terminal is refused by tcgetattr, for the same reason. */
static bool use_device(struct port *port)
{
    port->fd = open(port->device, O_RDWR | O_NOCTTY | O_NONBLOCK);
    return port->fd >= 0 && set_line(port);
}

static bool open_device(struct port *port)
{
    if (is_descriptor(port) ? use_descriptor(port) : use_device(port)) {
        log_line(port, "listening on %s", port->device);
        return true;
    }
    int why = errno;
    if (port->fd >= 0)
        close_device(port);
    errno = why;
    return false;
}

static void leave_device(struct port *port, const char *why)
{
    log_line(port, "%s", why);
    close_device(port);
}

static bool has_device(const struct port *port)
{
    return strcmp(port->device, "-") != 0;
}

/* A descriptor that hung up is gone; another device is opened again. */
static bool comes_back(const struct port *port)
{
    return has_device(port) && !is_descriptor(port);
}

/* At the start every device has to be there. */
static bool start_device(struct port *port)
{
    if (!has_device(port))
        log_line(port, "no device");
    else if (!open_device(port)) {
        const char *no_line = is_descriptor(port) ? "neither a socket nor a terminal" : "not a terminal";
        log_line(port, "%s: %s", port->device, errno == ENOTTY ? no_line : strerror(errno));
        return false;
    }
    return true;
}

/* Opens again what was left, where its time has come. Gives how long the next one has to wait, or -1 where none has. */
static int open_again(struct port *ports, size_t count)
{
    int64_t least = -1, now = now_ms();
    for (size_t i = 0; i < count; i++) {
        struct port *port = &ports[i];
        if (!comes_back(port) || port->fd >= 0)
            continue;
        if (port->again <= now) {
            port->again = now + PAUSE_MS;
            if (open_device(port))
                continue;
        }
        if (least < 0 || port->again - now < least)
            least = port->again - now;
    }
    return (int)least;
}

/* ---- from bytes to frames */

/* Document 01: the byte count is the length less 3; a KJW frame has 24 bytes. */
static size_t frame_length(const struct port *port)
{
    if (port->way == BOX_WAY_KJW)
        return 24;
    return port->held < 2 ? LONGEST_FRAME : port->frame[1] + 3u;
}

/* Says whether the byte makes a frame whole. Between frames bytes are dropped until one can begin a frame. */
static bool add_byte(struct port *port, uint8_t byte)
{
    uint8_t start = port->way == BOX_WAY_RS232C ? 0x02 : '*';
    if (port->held == 0 && byte != start)
        return false;
    port->frame[port->held++] = byte;
    return port->held == frame_length(port);
}

/* ---- from messages to replies */

/* Writes all of the reply, in as many pieces as the device takes. */
static bool write_reply(int fd, const uint8_t *reply, size_t length)
{
    while (length > 0) {
        ssize_t written = write(fd, reply, length);
        if (written >= 0) {
            reply += written;
            length -= (size_t)written;
        } else if (errno == EAGAIN) {
            struct pollfd room = { .fd = fd, .events = POLLOUT };
            if (poll(&room, 1, PATIENCE_MS) == 0)
                return false;
        } else if (errno != EINTR) {
            return false;
        }
    }
    return true;
}

/* Hands the whole message to the box and the reply to the console; says whether the console took it. */
static bool take_message(struct display_box *box, const struct port *port, const uint8_t *message, size_t length)
{
    uint8_t area[BOX_AREA_LENGTH];
    struct box_outcome outcome = box_take(box, port->way, port->link, message, length, area, sizeof area);
    bool taken = write_reply(port->fd, area, outcome.length);
    char place[16] = "";
    if (outcome.place != 0)
        snprintf(place, sizeof place, " at byte %d", outcome.place);
    log_line(port, "%s%s, %zu bytes %s", answer_words(outcome.answer), place, outcome.length, taken ? "back" : "not taken");
    return taken;
}

/* Part of a frame, or several; says whether the console took its replies. */
static bool take_frames(struct display_box *box, struct port *port, const uint8_t *bytes, size_t count)
{
    for (size_t i = 0; i < count; i++) {
        if (!add_byte(port, bytes[i]))
            continue;
        size_t length = port->held;
        port->held = 0;
        if (!take_message(box, port, port->frame, length))
            return false;
    }
    return true;
}

/* The same of SDCP: the loop of display_box.h. Each packet goes to the box before the next is looked for. */
static bool take_piece(struct display_box *box, struct port *port, const uint8_t *piece, size_t length)
{
    uint8_t packet[BOX_PACKET_LENGTH];
    for (;;) {
        struct box_received got = box_receive(&port->receiver, piece, length, packet);
        piece += got.taken;
        length -= got.taken;
        if (got.length == 0)
            return true;
        if (!take_message(box, port, packet, got.length))
            return false;
    }
}

/* Reads what has come in. */
static void read_device(struct display_box *box, struct port *port)
{
    uint8_t bytes[512];
    ssize_t count = read(port->fd, bytes, sizeof bytes);
    if (count < 0 && (errno == EINTR || errno == EAGAIN))
        return;
    if (count <= 0) {
        leave_device(port, "hung up");
        return;
    }
    bool taken = port->way == BOX_WAY_TCP ? take_piece(box, port, bytes, (size_t)count) : take_frames(box, port, bytes, (size_t)count);
    if (!taken)
        leave_device(port, "left, for it does not take its replies");
}

/* ---- the host */

/* Where the signal handler writes a byte, which ends the poll. */
static int signal_pipe;

static void on_signal(int number)
{
    int kept = errno;
    ssize_t written = write(signal_pipe, "", 1);
    (void)written;
    (void)number;
    errno = kept;
}

/* Gives the end of a pipe that can be read once SIGINT or SIGTERM has come, or -1. A console that is gone ends a write, and not the host. */
static int watch_signals(void)
{
    struct sigaction action = { .sa_handler = on_signal, .sa_flags = SA_RESTART }, ignored = { .sa_handler = SIG_IGN };
    int ends[2];
    if (pipe(ends) != 0)
        return -1;
    signal_pipe = ends[1];
    if (sigaction(SIGINT, &action, NULL) != 0 || sigaction(SIGTERM, &action, NULL) != 0 || sigaction(SIGPIPE, &ignored, NULL) != 0)
        return -1;
    return ends[0];
}

/* Whether anything can still come in. */
static bool is_any_left(const struct port *ports, size_t count)
{
    for (size_t i = 0; i < count; i++)
        if (ports[i].fd >= 0 || comes_back(&ports[i]))
            return true;
    return false;
}

/* Waits for all devices at once, until a signal comes or no device is left. */
static int serve(struct display_box *box, struct port *ports, size_t count, int signals)
{
    while (is_any_left(ports, count)) {
        struct pollfd watched[1 + MOST_PORTS] = { { .fd = signals, .events = POLLIN } };
        int wait = open_again(ports, count);
        for (size_t i = 0; i < count; i++)
            watched[1 + i] = (struct pollfd){ .fd = ports[i].fd, .events = POLLIN };
        if (poll(watched, 1 + count, wait) < 0) {
            if (errno == EINTR)
                continue;
            perror("poll");
            return 1;
        }
        if (watched[0].revents != 0) {
            fputs("ended by a signal\n", stderr);
            return 0;
        }
        for (size_t i = 0; i < count; i++)
            if (watched[1 + i].revents != 0)
                read_device(box, &ports[i]);
    }
    fputs("no panel has a device\n", stderr);
    return 0;
}

/* The descriptors have to be open before the host opens anything itself, which might get their numbers. */
static bool has_descriptors(const struct port *ports, size_t count)
{
    for (size_t i = 0; i < count; i++)
        if (is_descriptor(&ports[i]) && fcntl(ports[i].fd, F_GETFD) < 0) {
            log_line(&ports[i], "%s: %s", ports[i].device, strerror(errno));
            return false;
        }
    return true;
}

/* Makes the box and opens the devices, then serves them. */
static int run(struct port *ports, size_t count, const uint8_t *screens, size_t panels)
{
    struct display_box box;
    uint8_t answer = box_configure(&box, screens, 3 * panels);
    if (answer != BOX_DONE) {
        fprintf(stderr, "%s\n", answer_words(answer));
        return 1;
    }
    if (!has_descriptors(ports, count))
        return 1;
    int signals = watch_signals();
    if (signals < 0) {
        perror("signals");
        return 1;
    }
    for (size_t i = 0; i < count; i++)
        if (!start_device(&ports[i]))
            return 1;
    return serve(&box, ports, count, signals);
}

int main(int argc, char **argv)
{
    static struct port ports[MOST_PORTS];
    uint8_t screens[3 * BOX_PANELS];
    size_t panels = argc < 2 ? 0 : (size_t)argc - 1, count = 0;
    bool readable = panels > 0 && panels <= BOX_PANELS;
    for (size_t i = 0; readable && i < panels; i++) {
        size_t more = read_argument(argv[1 + i], i + 1, &ports[count], &screens[3 * i]);
        count += more;
        readable = more > 0;
    }
    if (!readable) {
        fputs("usage: host PANEL.. (1 to 8, each W,GROUP,UNIT,DEVICE[,SDCP] or K,DEVICE; - is no device, of SDCP @N an open descriptor)\n", stderr);
        return 2;
    }
    return run(ports, count, screens, panels);
}
