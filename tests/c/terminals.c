/*
 * Drives the sample host as consoles would, over pseudo-terminals and sockets; its
 * arguments are the command that starts the host. It sends frames and packets
 * whole, in pieces and with noise, hangs up and comes back, and looks at every byte
 * that comes back and at every line of the log.
 * What is expected is written out from document 01, and of SDCP in pieces from
 * document 02, and not taken from the host. Every wait has an end, so that a host
 * that hangs is a failure.
 */
#define _XOPEN_SOURCE 700
#define _DEFAULT_SOURCE

#include <fcntl.h>
#include <poll.h>
#include <signal.h>
#include <stdint.h>
#include <stdio.h>
#include <stdlib.h>
#include <string.h>
#include <sys/resource.h>
#include <sys/socket.h>
#include <sys/wait.h>
#include <termios.h>
#include <time.h>
#include <unistd.h>

/* Long enough for a host on a busy machine. */
#define PATIENCE_MS 10000

/* Longer than the host's pause, so that it tries in vain. */
#define AWAY_MS 2500

#define MOST_PANELS 8
#define LONGEST_LINE 200

/* A byte string as two arguments: its bytes, and how many. */
#define BYTES(...) (const uint8_t[]){ __VA_ARGS__ }, sizeof((const uint8_t[]){ __VA_ARGS__ })
#define TEXT(text) (const uint8_t *)(text), sizeof(text) - 1

static unsigned long asked, wrong;

/* The host that runs: its process group, and where its log is read. */
static pid_t host;
static int host_log;

static void expect(int holds, const char *what, const char *expected, const char *got)
{
    asked++;
    if (holds)
        return;
    wrong++;
    printf("wrong: %s\n  expected %s\n  got      %s\n", what, expected, got);
}

/* Ends the run: after a wait that came to its end nothing further can be said. */
static void give_up(const char *what)
{
    printf("wrong: %s\n", what);
    if (host > 0)
        kill(-host, SIGKILL);
    exit(1);
}

/* ---- waiting, reading and writing */

static void pause_ms(long ms)
{
    struct timespec time = { .tv_sec = ms / 1000, .tv_nsec = ms % 1000 * 1000000 };
    nanosleep(&time, NULL);
}

/* Reads what is there, once something is; 0 is the end. */
static size_t read_some(int fd, void *bytes, size_t room, const char *what)
{
    struct pollfd waited = { .fd = fd, .events = POLLIN };
    if (poll(&waited, 1, PATIENCE_MS) <= 0)
        give_up(what);
    ssize_t count = read(fd, bytes, room);
    if (count < 0)
        give_up(what);
    return (size_t)count;
}

static void send_bytes(int console, const uint8_t *bytes, size_t length)
{
    if (write(console, bytes, length) != (ssize_t)length)
        give_up("a frame could not be sent");
}

static void send_one_by_one(int console, const uint8_t *bytes, size_t length)
{
    for (size_t i = 0; i < length; i++) {
        send_bytes(console, bytes + i, 1);
        pause_ms(20);
    }
}

static void in_hex(const uint8_t *bytes, size_t length, char *text)
{
    *text = '\0';
    for (size_t i = 0; i < length; i++)
        text += sprintf(text, " %02X", bytes[i]);
}

static void expect_reply(int console, const uint8_t *reply, size_t length)
{
    uint8_t got[64];
    char expected_hex[3 * sizeof got + 1], got_hex[3 * sizeof got + 1];
    size_t held = 0;
    while (held < length)
        held += read_some(console, got + held, length - held, "a reply did not come");
    in_hex(reply, length, expected_hex);
    in_hex(got, length, got_hex);
    expect(memcmp(got, reply, length) == 0, "reply", expected_hex, got_hex);
}

/* Nothing is left over in a console's line. */
static void expect_quiet(int console)
{
    struct pollfd waited = { .fd = console, .events = POLLIN };
    expect(poll(&waited, 1, 200) == 0, "a quiet line", "nothing", "bytes, or a host that hung up");
}

static void read_line(char *line)
{
    for (size_t held = 0; held < LONGEST_LINE; held++) {
        if (read_some(host_log, line + held, 1, "a line of the log did not come") == 0)
            give_up("the log ended too soon");
        if (line[held] == '\n') {
            line[held] = '\0';
            return;
        }
    }
    give_up("a line of the log is too long");
}

static void expect_line(const char *expected)
{
    char line[LONGEST_LINE];
    read_line(line);
    expect(strcmp(line, expected) == 0, "log", expected, line);
}

/* So many lines, in any order: who is first of consoles that speak at once is open. */
static void expect_lines(const char *const *expected, size_t count)
{
    unsigned seen = 0;
    for (size_t i = 0; i < count; i++) {
        char line[LONGEST_LINE];
        read_line(line);
        size_t at = 0;
        while (at < count && ((seen >> at & 1) != 0 || strcmp(line, expected[at]) != 0))
            at++;
        expect(at < count, "log", "one line of each console", line);
        seen |= 1u << at;
    }
}

/* A frame, its reply and its line in the log. */
static void exchange(int console, const uint8_t *frame, size_t frame_length,
                     const uint8_t *reply, size_t reply_length, const char *line)
{
    send_bytes(console, frame, frame_length);
    if (reply_length > 0)
        expect_reply(console, reply, reply_length);
    expect_line(line);
}

/* ---- the host's start and end */

/* The name that the host knows a panel's device by. It stays when another pseudo-terminal takes its place. */
static const char *device_name(size_t panel)
{
    static char names[MOST_PANELS][sizeof "target/c/console-1"];
    snprintf(names[panel], sizeof names[panel], "target/c/console-%u", (unsigned)(panel + 1) % 10);
    return names[panel];
}

/* Whether a pseudo-terminal keeps a parity that it is set to: those of Linux do not. */
static int keeps_parity;

/*
 * A console's end of a new pseudo-terminal, with flow control and a speed that no
 * manual names, so that it can be seen what the host sets. The host must not hold
 * this end, or it would never see it hang up.
 */
static int open_console(size_t panel)
{
    struct termios line;
    int console = posix_openpt(O_RDWR | O_NOCTTY);
    if (console < 0 || grantpt(console) != 0 || unlockpt(console) != 0 || fcntl(console, F_SETFD, FD_CLOEXEC) != 0)
        give_up("no pseudo-terminal");
    if (tcgetattr(console, &line) != 0 || cfsetospeed(&line, B1200) != 0)
        give_up("no speed");
    line.c_cflag |= CRTSCTS | PARENB;
    if (tcsetattr(console, TCSANOW, &line) != 0 || tcgetattr(console, &line) != 0)
        give_up("no settings");
    keeps_parity = (line.c_cflag & PARENB) != 0;
    unlink(device_name(panel));
    if (symlink(ptsname(console), device_name(panel)) != 0)
        give_up("no name for a pseudo-terminal");
    return console;
}

/* "38400 bit/sec" for RS-232C (documents 002 and 004); of KJW no manual names a speed. Neither has flow control. */
static void expect_settings(int console, char family)
{
    struct termios line;
    speed_t expected = family == 'W' ? B38400 : B1200;
    int known = tcgetattr(console, &line) == 0;
    expect(known && cfgetospeed(&line) == expected, "speed", family == 'W' ? "38400" : "1200 as before", "another");
    expect(known && (line.c_cflag & CRTSCTS) == 0, "flow control", "none", "RTS and CTS");
}

/* Runs the words with standard error into host_log, in a process group of their own: a signal reaches all that they start. */
static void start(char **words)
{
    int ends[2];
    if (pipe(ends) != 0 || fcntl(ends[0], F_SETFD, FD_CLOEXEC) != 0)
        give_up("no pipe");
    fflush(stdout);
    host = fork();
    if (host < 0)
        give_up("no process");
    if (host == 0) {
        setpgid(0, 0);
        dup2(ends[1], STDERR_FILENO);
        close(ends[1]);
        execvp(words[0], words);
        _exit(127);
    }
    setpgid(host, host);
    close(ends[1]);
    host_log = ends[0];
}

/* The host's line when it listens to a panel's device, or when the panel has none. */
static void expect_listening_on(size_t panel, const char *way, const char *name)
{
    char line[LONGEST_LINE];
    snprintf(line, sizeof line, "panel %zu: %s: %s%s", panel + 1, way, name == NULL ? "no device" : "listening on ", name == NULL ? "" : name);
    expect_line(line);
}

/* The host's lines when it opens a panel's device; a console of -1 is none. */
static void expect_listening(size_t panel, char family, int console)
{
    char line[LONGEST_LINE];
    const char *way = family == 'W' ? "RS-232C" : "KJW", *name = device_name(panel);
    if (family == 'W' && console >= 0 && !keeps_parity) {
        snprintf(line, sizeof line, "panel %zu: %s: %s did not take the parity", panel + 1, way, name);
        expect_line(line);
    }
    expect_listening_on(panel, way, console < 0 ? NULL : name);
    if (console >= 0)
        expect_settings(console, family);
}

/* Starts the host on these panels. */
static void start_with(char **command, char arguments[][LONGEST_LINE], size_t count)
{
    char *words[64];
    size_t used = 0;
    while (command[used] != NULL && used < 64 - MOST_PANELS - 1) {
        words[used] = command[used];
        used++;
    }
    for (size_t i = 0; i < count; i++)
        words[used++] = arguments[i];
    words[used] = NULL;
    start(words);
}

/*
 * Starts the host on panels of which all but the device is given, as "W,1,1," or
 * "K,"; one that ends with "-" has none. Gives each panel's console, and waits
 * until the host listens to it.
 */
static void start_host(char **command, const char *const *panels, size_t count, int *consoles)
{
    static char arguments[MOST_PANELS][LONGEST_LINE];
    for (size_t i = 0; i < count; i++) {
        int has_device = panels[i][strlen(panels[i]) - 1] != '-';
        consoles[i] = has_device ? open_console(i) : -1;
        snprintf(arguments[i], sizeof arguments[i], "%s%s", panels[i], has_device ? device_name(i) : "");
    }
    start_with(command, arguments, count);
    for (size_t i = 0; i < count; i++)
        expect_listening(i, panels[i][0], consoles[i]);
}

/*
 * A console's end of a new pair of sockets, and the number of the other end, which
 * the next host is started with. As with a pseudo-terminal the host must not hold
 * the console's end.
 */
static int open_socket(int *other)
{
    int ends[2];
    if (socketpair(AF_UNIX, SOCK_STREAM, 0, ends) != 0 || fcntl(ends[0], F_SETFD, FD_CLOEXEC) != 0)
        give_up("no pair of sockets");
    /* a number that nothing else here has */
    *other = fcntl(ends[1], F_DUPFD, 20);
    if (*other < 0)
        give_up("no descriptor");
    close(ends[1]);
    return ends[0];
}

/* Milliseconds of the processor that the hosts took which have ended. */
static long spent_ms(void)
{
    struct rusage used;
    if (getrusage(RUSAGE_CHILDREN, &used) != 0)
        give_up("no times");
    return 1000 * (long)(used.ru_utime.tv_sec + used.ru_stime.tv_sec) + (long)(used.ru_utime.tv_usec + used.ru_stime.tv_usec) / 1000;
}

/* The log ends, and the host with 0. Gives the milliseconds of the processor that the host took. */
static long expect_end(void)
{
    long before = spent_ms();
    char line[LONGEST_LINE];
    int status = 0;
    size_t more = read_some(host_log, line, sizeof line - 1, "the log did not end");
    line[more] = '\0';
    expect(more == 0, "end of the log", "nothing", line);
    close(host_log);
    for (int waited = 0; waitpid(host, &status, WNOHANG) == 0; waited += 10) {
        if (waited >= PATIENCE_MS)
            give_up("the host did not end");
        pause_ms(10);
    }
    host = 0;
    char text[20];
    snprintf(text, sizeof text, "%d", WIFEXITED(status) ? WEXITSTATUS(status) : -1);
    expect(strcmp(text, "0") == 0, "exit status", "0", text);
    return spent_ms() - before;
}

static long end_by(int number)
{
    kill(-host, number);
    expect_line("ended by a signal");
    return expect_end();
}

/* ---- what is sent */

/* The question for REMOTE and its reply at start, and with a wrong checksum: the first and third example of the bench. */
#define REMOTE 0x02, 0x03, 0x01, 0x41, 0x6E, 0x4D
#define REMOTE_REPLY 0x02, 0x04, 0x41, 0x01, 0x7E, 0x01, 0x3B
#define SPOILED 0x02, 0x03, 0x01, 0x41, 0x6E, 0x4E
#define ACK 0x02, 0x03, 0x41, 0x01, 0x04, 0xB7
#define NAK 0x02, 0x03, 0x41, 0x01, 0x05, 0xB6

/* The question for the gains with its reply, R 4095 as the bench sets it or as it starts, G and B 2048; and that for the biases. */
#define GAINS 0x02, 0x04, 0x01, 0x41, 0x61, 0x01, 0x58
#define GAINS_SET 0x02, 0x0A, 0x41, 0x01, 0x71, 0x01, 0xFF, 0x0F, 0x00, 0x08, 0x00, 0x08, 0x24
#define GAINS_AT_START 0x02, 0x0A, 0x41, 0x01, 0x71, 0x01, 0x00, 0x08, 0x00, 0x08, 0x00, 0x08, 0x2A
#define BIASES 0x02, 0x04, 0x01, 0x41, 0x61, 0x02, 0x57

#define POWER_ON "*SCPOWR0000000000000001\n"
#define POWER_TAKEN "*SAPOWR0000000000000000\n"
#define POWER_NOTICE "*SNPOWR0000000000000001\n"
#define POWER_ASKED "*SEPOWR################\n"
#define POWER_IS_ON "*SAPOWR0000000000000001\n"

/* SDCP: what every packet of these begins with, a set and a question with their replies, and the reply to a wrong envelope. */
#define TO(group, unit) "\x03\x0BSONY" group unit
#define OWN TO("\x00", "\x00")
#define NO_DATA "\xB0\x00\x00\x00"
#define VOLUME_SET(n) OWN "\x00\xB0\x00\x00\x11" "STATset VOLUME " n
#define VOLUME_ASKED OWN "\x00\xB0\x00\x00\x0E" "STATget VOLUME"
#define VOLUME_IS(n) OWN "\x01\xB0\x00\x00\x09" "VOLUME " n
#define DONE OWN "\x01" NO_DATA
#define NG OWN "\x00\xB0\x00\x00\x02\xF0\x50"

/* Panel 1, RS-232C: the bench's examples, then one frame for each answer that a frame can have. */
static void frames_rs232c(int console)
{
    exchange(console, BYTES(REMOTE), BYTES(REMOTE_REPLY), "panel 1: RS-232C: carried out, 7 bytes back");
    exchange(console, BYTES(0x02, 0x08, 0x01, 0x41, 0x40, 0x21, 0xFF, 0x0F, 0x00, 0x04, 0x43), BYTES(ACK),
             "panel 1: RS-232C: carried out, 6 bytes back");
    exchange(console, BYTES(GAINS), BYTES(GAINS_SET), "panel 1: RS-232C: carried out, 13 bytes back");
    /* biases 0, 0 and -1024, which is 400h in 11 bits */
    exchange(console, BYTES(BIASES), BYTES(0x02, 0x0A, 0x41, 0x01, 0x71, 0x02, 0x00, 0x00, 0x00, 0x00, 0x00, 0x04, 0x3D),
             "panel 1: RS-232C: carried out, 13 bytes back");
    /* biases 0Dh, 11h and 13h, which a line that is not raw would change or swallow */
    exchange(console, BYTES(0x02, 0x0A, 0x01, 0x41, 0x40, 0x38, 0x0D, 0x00, 0x11, 0x00, 0x13, 0x00, 0x0B), BYTES(ACK),
             "panel 1: RS-232C: carried out, 6 bytes back");
    exchange(console, BYTES(BIASES), BYTES(0x02, 0x0A, 0x41, 0x01, 0x71, 0x02, 0x0D, 0x00, 0x11, 0x00, 0x13, 0x00, 0x10),
             "panel 1: RS-232C: carried out, 13 bytes back");
    exchange(console, BYTES(SPOILED), BYTES(NAK), "panel 1: RS-232C: checksum wrong at byte 5, 6 bytes back");
    /* no command 10h */
    exchange(console, BYTES(0x02, 0x03, 0x01, 0x41, 0x10, 0xAB), BYTES(NAK),
             "panel 1: RS-232C: contents not understood, 6 bytes back");
    /* source 40h; no reply, as the next reply shows */
    exchange(console, BYTES(0x02, 0x03, 0x01, 0x40, 0x6E, 0x4E), NULL, 0, "panel 1: RS-232C: not for us, 0 bytes back");
    /* byte count 0: a frame of three bytes */
    exchange(console, BYTES(0x02, 0x00, 0x01), NULL, 0,
             "panel 1: RS-232C: too short to be a message, or wrong fixed length, 0 bytes back");
    exchange(console, BYTES(REMOTE), BYTES(REMOTE_REPLY), "panel 1: RS-232C: carried out, 7 bytes back");
}

/* The longest frame: byte count 255, 258 bytes, of which 40h has too many data bytes. */
static void longest_frame(int console)
{
    uint8_t frame[258] = { 0x02, 0xFF, 0x01, 0x41, 0x40 };
    /* FFh + 01h + 41h + 40h is 181h, and 7Fh more is 200h */
    frame[257] = 0x7F;
    exchange(console, frame, sizeof frame, BYTES(NAK), "panel 1: RS-232C: contents not understood, 6 bytes back");
}

/* Panel 1 again: noise before a frame, a frame byte by byte, two frames in one write, one and a half. */
static void pieces_rs232c(int console)
{
    exchange(console, BYTES(0x00, 0xFF, 0x41, 0x0A, 0x03, REMOTE), BYTES(REMOTE_REPLY),
             "panel 1: RS-232C: carried out, 7 bytes back");
    send_one_by_one(console, BYTES(GAINS));
    expect_reply(console, BYTES(GAINS_SET));
    expect_line("panel 1: RS-232C: carried out, 13 bytes back");
    exchange(console, BYTES(SPOILED, REMOTE), BYTES(NAK, REMOTE_REPLY), "panel 1: RS-232C: checksum wrong at byte 5, 6 bytes back");
    expect_line("panel 1: RS-232C: carried out, 7 bytes back");
    exchange(console, BYTES(REMOTE, 0x02, 0x03, 0x01), BYTES(REMOTE_REPLY), "panel 1: RS-232C: carried out, 7 bytes back");
    exchange(console, BYTES(0x41, 0x6E, 0x4D), BYTES(REMOTE_REPLY), "panel 1: RS-232C: carried out, 7 bytes back");
}

/* Panel 3, KJW: the bench's examples, an enquiry, a frame that is not for us, and the same pieces. */
static void frames_kjw(int console)
{
    exchange(console, TEXT(POWER_ON), TEXT(POWER_TAKEN POWER_NOTICE), "panel 3: KJW: carried out, 48 bytes back");
    exchange(console, TEXT(POWER_ON), TEXT(POWER_TAKEN), "panel 3: KJW: carried out, 24 bytes back");
    exchange(console, TEXT("*SCINPT0000000100000000\n"), TEXT("*SAINPTFFFFFFFFFFFFFFFF\n"),
             "panel 3: KJW: contents not understood, 24 bytes back");
    exchange(console, TEXT("*SXPOWR0000000000000001\n"), NULL, 0, "panel 3: KJW: not for us, 0 bytes back");
    exchange(console, TEXT("\n0noise\n" POWER_ASKED), TEXT(POWER_IS_ON), "panel 3: KJW: carried out, 24 bytes back");
    send_one_by_one(console, TEXT("*SCVOLU0000000000000040\n"));
    expect_reply(console, TEXT("*SAVOLU0000000000000000\n*SNVOLU0000000000000040\n"));
    expect_line("panel 3: KJW: carried out, 48 bytes back");
    exchange(console, TEXT("*SEVOLU################\n" POWER_ASKED), TEXT("*SAVOLU0000000000000040\n" POWER_IS_ON),
             "panel 3: KJW: carried out, 24 bytes back");
    expect_line("panel 3: KJW: carried out, 24 bytes back");
}

/* Three consoles at once; the panels' own records answer, so panel 2 still has the gains of the start. */
static void at_once(const int *consoles)
{
    static const char *const lines[] = {
        "panel 1: RS-232C: carried out, 13 bytes back",
        "panel 2: RS-232C: carried out, 13 bytes back",
        "panel 3: KJW: carried out, 24 bytes back",
    };
    /* each a part first, so that three frames are in the making at the same time */
    send_bytes(consoles[0], BYTES(0x02, 0x04, 0x01));
    send_bytes(consoles[1], BYTES(0x02, 0x04, 0x01, 0x41));
    send_bytes(consoles[2], TEXT("*SEPOWR####"));
    pause_ms(50);
    send_bytes(consoles[2], TEXT("############\n"));
    send_bytes(consoles[1], BYTES(0x61, 0x01, 0x58));
    send_bytes(consoles[0], BYTES(0x41, 0x61, 0x01, 0x58));
    expect_reply(consoles[0], BYTES(GAINS_SET));
    expect_reply(consoles[1], BYTES(GAINS_AT_START));
    expect_reply(consoles[2], TEXT(POWER_IS_ON));
    expect_lines(lines, 3);
}

/* Panel 1, SDCP: a packet for each answer that one can have, each in one write. */
static void packets_sdcp(int console)
{
    exchange(console, TEXT(VOLUME_SET("40")), TEXT(DONE), "panel 1: SDCP: carried out, 13 bytes back");
    exchange(console, TEXT(VOLUME_ASKED), TEXT(VOLUME_IS("40")), "panel 1: SDCP: carried out, 22 bytes back");
    exchange(console, TEXT(OWN "\x00\xB0\x00\x00\x12" "STATset VOLUME 101"), TEXT(DONE),
             "panel 1: SDCP: contents not understood, 13 bytes back");
    exchange(console, TEXT(OWN "\x01" NO_DATA), TEXT(NG), "panel 1: SDCP: request wrong at byte 8, 15 bytes back");
    exchange(console, TEXT(OWN "\x00\xB0\x01\x00\x00"), TEXT(OWN "\x00\xB0\x01\x00\x02\xF0\x50"),
             "panel 1: SDCP: item wrong at byte 9, 15 bytes back");
    /* 9/9 is no panel; no reply, as the next reply shows */
    exchange(console, TEXT(TO("\x09", "\x09") "\x00" NO_DATA), NULL, 0, "panel 1: SDCP: not for us, 0 bytes back");
    exchange(console, TEXT(VOLUME_ASKED), TEXT(VOLUME_IS("40")), "panel 1: SDCP: carried out, 22 bytes back");
}

/* Panel 1 again: a packet byte by byte, three in one write, one and a half, noise, and what is nearly a packet. */
static void pieces_sdcp(int console)
{
    send_one_by_one(console, TEXT(VOLUME_ASKED));
    expect_reply(console, TEXT(VOLUME_IS("40")));
    expect_line("panel 1: SDCP: carried out, 22 bytes back");
    exchange(console, TEXT(VOLUME_ASKED VOLUME_SET("55") VOLUME_ASKED), TEXT(VOLUME_IS("40") DONE VOLUME_IS("55")),
             "panel 1: SDCP: carried out, 22 bytes back");
    expect_line("panel 1: SDCP: carried out, 13 bytes back");
    expect_line("panel 1: SDCP: carried out, 22 bytes back");
    exchange(console, TEXT(VOLUME_ASKED OWN "\x00\xB0"), TEXT(VOLUME_IS("55")), "panel 1: SDCP: carried out, 22 bytes back");
    exchange(console, TEXT("\x00\x00\x0E" "STATget VOLUME"), TEXT(VOLUME_IS("55")), "panel 1: SDCP: carried out, 22 bytes back");
    exchange(console, TEXT("noise\x03\x0BSON\x03" VOLUME_ASKED), TEXT(VOLUME_IS("55")), "panel 1: SDCP: carried out, 22 bytes back");
    exchange(console, TEXT("\x03\x0Bsony\x00\x00\x00" NO_DATA VOLUME_ASKED), TEXT(VOLUME_IS("55")), "panel 1: SDCP: carried out, 22 bytes back");
}

/* A header that says 500 bytes, its data and a packet behind it; then 499 bytes of data, which are a packet that nobody understands. */
static void long_packets(int console)
{
    uint8_t bytes[13 + 500 + 27] = OWN "\x00\xB0\x00\x01\xF4";
    memset(bytes + 13, ' ', 500);
    memcpy(bytes + 13 + 500, VOLUME_ASKED, 27);
    exchange(console, bytes, sizeof bytes, TEXT(NG VOLUME_IS("55")), "panel 1: SDCP: data length over 499 at byte 11, 15 bytes back");
    expect_line("panel 1: SDCP: carried out, 22 bytes back");
    bytes[12] = 0xF3;
    exchange(console, bytes, 13 + 499, TEXT(DONE), "panel 1: SDCP: contents not understood, 13 bytes back");
}

/*
 * RS-232C and SDCP on one panel, which is one record: REMOTE is turned OFF by the
 * one and asked by the other; from the SDCP of panel 2 it is turned ON by its
 * pair. Then a frame and a packet, each in two parts, in turn.
 */
static void both_lines_of_a_panel(int serial, int sdcp, int other)
{
    exchange(sdcp, TEXT(OWN "\x00\xB0\x00\x00\x12" "STATset REMOTE OFF"), TEXT(DONE), "panel 1: SDCP: carried out, 13 bytes back");
    exchange(serial, BYTES(REMOTE), BYTES(0x02, 0x04, 0x41, 0x01, 0x7E, 0x00, 0x3C), "panel 1: RS-232C: carried out, 7 bytes back");
    exchange(other, TEXT(TO("\x01", "\x01") "\x00\xB0\x00\x00\x11" "STATset REMOTE ON"), TEXT(TO("\x01", "\x01") "\x01" NO_DATA),
             "panel 2: SDCP: carried out, 13 bytes back");
    send_bytes(serial, BYTES(0x02, 0x03, 0x01));
    send_bytes(sdcp, TEXT(OWN "\x00\xB0\x00"));
    pause_ms(50);
    exchange(serial, BYTES(0x41, 0x6E, 0x4D), BYTES(REMOTE_REPLY), "panel 1: RS-232C: carried out, 7 bytes back");
    exchange(sdcp, TEXT("\x00\x0E" "STATget VOLUME"), TEXT(VOLUME_IS("55")), "panel 1: SDCP: carried out, 22 bytes back");
    /* the other panel's own volume is that of the start */
    exchange(other, TEXT(VOLUME_ASKED), TEXT(VOLUME_IS("30")), "panel 2: SDCP: carried out, 22 bytes back");
}

/* ---- the runs of the host */

/* The name goes with the pseudo-terminal, whose number the next one may get. */
static void hang_up(size_t panel, int console, const char *line)
{
    unlink(device_name(panel));
    close(console);
    expect_line(line);
}

/* Another pseudo-terminal in a panel's place, to which the host listens once its pause is over. */
static int come_back(size_t panel, char family)
{
    int console = open_console(panel);
    expect_listening(panel, family, console);
    return console;
}

/*
 * Two W panels, a K panel and a panel without a device. One console after the
 * other hangs up, one inside a frame, and the others go on; two come back, and
 * what was set stands.
 */
static void run_with_hang_ups(char **command)
{
    static const char *const panels[] = { "W,1,1,", "W,1,2,", "K,", "W,2,1,-" };
    int consoles[4];
    start_host(command, panels, 4, consoles);
    frames_rs232c(consoles[0]);
    longest_frame(consoles[0]);
    pieces_rs232c(consoles[0]);
    frames_kjw(consoles[2]);
    at_once(consoles);
    for (size_t i = 0; i < 3; i++)
        expect_quiet(consoles[i]);
    send_bytes(consoles[1], BYTES(0x02, 0x03, 0x01));
    pause_ms(200);
    hang_up(1, consoles[1], "panel 2: RS-232C: hung up");
    exchange(consoles[0], BYTES(REMOTE), BYTES(REMOTE_REPLY), "panel 1: RS-232C: carried out, 7 bytes back");
    hang_up(0, consoles[0], "panel 1: RS-232C: hung up");
    exchange(consoles[2], TEXT(POWER_ASKED), TEXT(POWER_IS_ON), "panel 3: KJW: carried out, 24 bytes back");
    consoles[1] = come_back(1, 'W');
    exchange(consoles[1], BYTES(REMOTE), BYTES(REMOTE_REPLY), "panel 2: RS-232C: carried out, 7 bytes back");
    hang_up(2, consoles[2], "panel 3: KJW: hung up");
    consoles[0] = come_back(0, 'W');
    exchange(consoles[0], BYTES(GAINS), BYTES(GAINS_SET), "panel 1: RS-232C: carried out, 13 bytes back");
    end_by(SIGTERM);
    close(consoles[0]);
    close(consoles[1]);
}

/* Gives the milliseconds of the processor that the host took. */
static long run_to_a_signal(char **command, int number)
{
    static const char *const panels[] = { "K,", "W,99,99," };
    int consoles[2];
    start_host(command, panels, 2, consoles);
    exchange(consoles[1], BYTES(REMOTE), BYTES(REMOTE_REPLY), "panel 2: RS-232C: carried out, 7 bytes back");
    send_bytes(consoles[0], TEXT("*SCPOWR"));
    long spent = end_by(number);
    close(consoles[0]);
    close(consoles[1]);
    return spent;
}

/* A device that stays away is waited for: the host sleeps, and takes little more of the processor than without the wait. */
static void run_while_a_device_is_away(char **command, long spent_else)
{
    static const char *const panels[] = { "W,1,1," };
    int console;
    char text[20];
    start_host(command, panels, 1, &console);
    hang_up(0, console, "panel 1: RS-232C: hung up");
    pause_ms(AWAY_MS);
    console = come_back(0, 'W');
    exchange(console, BYTES(REMOTE), BYTES(REMOTE_REPLY), "panel 1: RS-232C: carried out, 7 bytes back");
    long more = end_by(SIGTERM) - spent_else;
    snprintf(text, sizeof text, "%ld", more);
    expect(more < AWAY_MS / 10, "milliseconds of the processor for the wait", "few", text);
    close(console);
}

/* Reads what a console has not read yet. */
static void catch_up(int console)
{
    uint8_t bytes[4096];
    struct pollfd waited = { .fd = console, .events = POLLIN };
    while (poll(&waited, 1, 200) > 0)
        read_some(console, bytes, sizeof bytes, "what was not read");
}

/*
 * A console that does not read: once its line is full it is left, and the other
 * panel goes on. Its device is opened again, and when it reads it is served.
 */
static void run_with_a_console_that_does_not_read(char **command)
{
    static const char *const panels[] = { "K,", "W,1,1," };
    static const char taken[] = "panel 1: KJW: carried out, 48 bytes back";
    static const char *const lines[] = {
        "panel 1: KJW: listening on target/c/console-1",
        "panel 2: RS-232C: carried out, 7 bytes back",
    };
    int consoles[2], rounds = 0;
    char line[LONGEST_LINE];
    start_host(command, panels, 2, consoles);
    do {
        send_bytes(consoles[0], TEXT("*SCTPOW################\n"));
        read_line(line);
    } while (strcmp(line, taken) == 0 && ++rounds < 5000);
    expect(strcmp(line, "panel 1: KJW: carried out, 48 bytes not taken") == 0, "a full line", "bytes not taken", line);
    expect_line("panel 1: KJW: left, for it does not take its replies");
    send_bytes(consoles[1], BYTES(REMOTE));
    expect_reply(consoles[1], BYTES(REMOTE_REPLY));
    expect_lines(lines, 2);
    catch_up(consoles[0]);
    exchange(consoles[0], TEXT("*SEVOLU################\n"), TEXT("*SAVOLU0000000000000000\n"),
             "panel 1: KJW: carried out, 24 bytes back");
    end_by(SIGTERM);
    close(consoles[0]);
    close(consoles[1]);
}

/*
 * SDCP beside RS-232C: panel 1 has a terminal for it, and panel 2 a socket that
 * the host was started with. Both hang up inside a packet. The terminal comes
 * back, and the half packet is forgotten; the socket does not.
 */
static void run_with_sdcp(char **command)
{
    char arguments[2][LONGEST_LINE], name[LONGEST_LINE];
    int other, serial = open_console(0), sdcp = open_console(1), socket = open_socket(&other);
    snprintf(name, sizeof name, "@%d", other);
    snprintf(arguments[0], sizeof arguments[0], "W,1,1,%s,%s", device_name(0), device_name(1));
    snprintf(arguments[1], sizeof arguments[1], "W,1,2,-,%.20s", name);
    start_with(command, arguments, 2);
    close(other);
    expect_listening(0, 'W', serial);
    expect_listening_on(0, "SDCP", device_name(1));
    expect_settings(sdcp, 'K');
    expect_listening_on(1, "RS-232C", NULL);
    expect_listening_on(1, "SDCP", name);
    packets_sdcp(sdcp);
    pieces_sdcp(sdcp);
    long_packets(sdcp);
    both_lines_of_a_panel(serial, sdcp, socket);
    expect_quiet(serial);
    expect_quiet(sdcp);
    expect_quiet(socket);
    send_bytes(sdcp, TEXT(OWN "\x00\xB0\x00\x00\x11" "STATset"));
    send_bytes(socket, TEXT(OWN "\x00\xB0\x00\x00\x11" "STATset"));
    pause_ms(200);
    hang_up(1, sdcp, "panel 1: SDCP: hung up");
    close(socket);
    expect_line("panel 2: SDCP: hung up");
    exchange(serial, BYTES(REMOTE), BYTES(REMOTE_REPLY), "panel 1: RS-232C: carried out, 7 bytes back");
    sdcp = open_console(1);
    expect_listening_on(0, "SDCP", device_name(1));
    exchange(sdcp, TEXT(VOLUME_ASKED), TEXT(VOLUME_IS("55")), "panel 1: SDCP: carried out, 22 bytes back");
    end_by(SIGTERM);
    close(serial);
    close(sdcp);
}

/* A socket alone: once it hung up there is no device left, and the host ends. */
static void run_to_the_end_of_a_socket(char **command)
{
    char arguments[1][LONGEST_LINE], name[20];
    int other, socket = open_socket(&other);
    snprintf(name, sizeof name, "@%d", other);
    snprintf(arguments[0], sizeof arguments[0], "W,1,1,-,%s", name);
    start_with(command, arguments, 1);
    close(other);
    expect_listening_on(0, "RS-232C", NULL);
    expect_listening_on(0, "SDCP", name);
    exchange(socket, TEXT(VOLUME_ASKED VOLUME_SET("4")), TEXT(VOLUME_IS("30")), "panel 1: SDCP: carried out, 22 bytes back");
    /* the set's length is 17 and it has 16 bytes: the digit that is missing */
    exchange(socket, TEXT("1"), TEXT(DONE), "panel 1: SDCP: carried out, 13 bytes back");
    /* a console that is gone before its reply is no end of the host, but of its socket */
    kill(-host, SIGSTOP);
    send_bytes(socket, TEXT(VOLUME_ASKED));
    close(socket);
    kill(-host, SIGCONT);
    expect_line("panel 1: SDCP: carried out, 22 bytes not taken");
    expect_line("panel 1: SDCP: left, for it does not take its replies");
    expect_line("no panel has a device");
    expect_end();
}

int main(int argc, char **argv)
{
    if (argc < 2) {
        fputs("usage: terminals COMMAND..\n", stderr);
        return 2;
    }
    run_with_hang_ups(argv + 1);
    run_to_a_signal(argv + 1, SIGINT);
    run_while_a_device_is_away(argv + 1, run_to_a_signal(argv + 1, SIGTERM));
    run_with_a_console_that_does_not_read(argv + 1);
    run_with_sdcp(argv + 1);
    run_to_the_end_of_a_socket(argv + 1);
    printf("%lu replies, lines and ends checked, %lu wrong\n", asked, wrong);
    return wrong == 0 ? 0 : 1;
}
