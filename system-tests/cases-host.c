// The host of console cases, loaded before the C library (LD_PRELOAD). What a socket receives are the lines of standard input,
// and the clocks go by them; some calls fail, as cases/README.md says. The script `cases` sets the environment:
// CASE_COMMAND is serve or check, CASE_LINES how many lines a record takes, and CASE_WORD the file of a long argument.
#include <arpa/inet.h>
#include <errno.h>
#include <fcntl.h>
#include <netinet/in.h>
#include <stdarg.h>
#include <stdio.h>
#include <stdlib.h>
#include <string.h>
#include <sys/ioctl.h>
#include <sys/socket.h>
#include <sys/syscall.h>
#include <time.h>
#include <unistd.h>

enum {
    NO_ADDRESS = 0xcb007101, // 203.0.113.1
    LOOPBACK = 0x7f000001,
    SENDER = 0xc000024d, // 192.0.2.77
    TAKEN_PORT = 66,
    LAST_DENIED_PORT = 32,
    CHECKED_AT = 1000,
    // Offsets in a DHCP message (RFC 2131, section 2).
    FLAGS = 10,
    YIADDR = 16,
};

static int is_check;
// How many lines the record still takes, or -1 for any number.
static long record_lines = -1;
// The next line of standard input, if there is one.
static char *line;
static size_t line_size;
static int has_line;
// The time of the line that came last, or of the first before any came, and how many came.
static long long moment, came;
// The address and how many datagrams come together at its port; how many of these are still to come.
static unsigned address;
static unsigned long together, left;
static int waits = 1;

static int fails(int error) {
    errno = error;
    return -1;
}

static void look_ahead(void) { has_line = getline(&line, &line_size, stdin) > 0; }

// The bytes of a file, ended by a zero.
static char *content_of(const char *path) {
    char *text = NULL;
    size_t size = 0;
    FILE *file = fopen(path, "r");
    if (!file || getdelim(&text, &size, 0, file) < 0)
        abort();
    fclose(file);
    return text;
}

__attribute__((constructor)) static void begin(int count, char **words) {
    const char *command = getenv("CASE_COMMAND"), *lines = getenv("CASE_LINES"), *word = getenv("CASE_WORD");
    for (int i = 1; word && i < count; i++)
        if (!strcmp(words[i], word))
            words[i] = content_of(word);
    if (lines)
        record_lines = atol(lines);
    is_check = command && !strcmp(command, "check");
    if (command && !is_check) {
        look_ahead();
        moment = has_line ? atoll(line) : 0;
    }
}

// The value of a hexadecimal digit, or -1.
static int digit(char sign) {
    const char *digits = "0123456789abcdefABCDEF", *at = sign ? strchr(digits, sign) : NULL;
    return at ? (int)(at - digits < 16 ? at - digits : at - digits - 6) : -1;
}

// Decodes hexadecimal digits up to the end of a line, and returns the number of bytes, or -1 if they are none.
static ssize_t decode(const char *digits, unsigned char *bytes, size_t most) {
    size_t count = strcspn(digits, "\n");
    for (size_t i = 0; i < count; i += 2) {
        int high = digit(digits[i]), low = digit(digits[i + 1]);
        if (high < 0 || low < 0)
            return -1;
        if (i / 2 < most)
            bytes[i / 2] = 16 * high + low;
    }
    return count / 2 < most ? count / 2 : most;
}

// Takes the next line, and returns the length of its datagram, or -1 if it has none.
static ssize_t take_line(unsigned char *bytes, size_t most) {
    const char *blank = has_line ? strchr(line, ' ') : NULL;
    ssize_t count = -1;
    if (blank) {
        moment = atoll(line);
        came++;
        count = decode(blank + 1, bytes, most);
    }
    if (has_line)
        look_ahead();
    return count;
}

int bind(int socket, const struct sockaddr *place, socklen_t size) {
    struct sockaddr_in at;
    (void)socket, (void)size;
    memcpy(&at, place, sizeof at);
    address = ntohl(at.sin_addr.s_addr);
    unsigned port = ntohs(at.sin_port);
    if (is_check && port > 0 && port <= LAST_DENIED_PORT)
        return fails(EACCES);
    if (is_check && port == TAKEN_PORT)
        return fails(EADDRINUSE);
    if (address == (unsigned)NO_ADDRESS)
        return fails(EADDRNOTAVAIL);
    together = port <= 32 ? port : -1ul;
    return 0;
}

// Only `check` connects, to find out whether there is a route to all hosts.
int connect(int socket, const struct sockaddr *place, socklen_t size) {
    (void)socket, (void)place, (void)size;
    return address == LOOPBACK ? fails(ENETUNREACH) : 0;
}

int ioctl(int file, unsigned long request, ...) {
    va_list rest;
    va_start(rest, request);
    void *value = va_arg(rest, void *);
    va_end(rest);
    if (request != FIONBIO)
        return syscall(SYS_ioctl, file, request, value);
    waits = !*(int *)value;
    return 0;
}

ssize_t recvfrom(int socket, void *bytes, size_t most, int flags, struct sockaddr *from, socklen_t *size) {
    (void)socket, (void)flags;
    if (waits)
        left = together;
    if (!left)
        return fails(EAGAIN);
    ssize_t count = take_line(bytes, most);
    if (count < 0)
        return fails(waits ? ENETDOWN : EAGAIN);
    left--;
    struct sockaddr_in sender = {.sin_family = AF_INET, .sin_port = htons(68), .sin_addr.s_addr = htonl(SENDER)};
    memcpy(from, &sender, sizeof sender);
    *size = sizeof sender;
    return count;
}

// There is no route to all hosts. A reply to a hardware address, which goes there too, is taken: it has an address for its client
// and no broadcast flag.
ssize_t sendto(int socket, const void *bytes, size_t count, int flags, const struct sockaddr *to, socklen_t size) {
    static const unsigned char no_address[4];
    const unsigned char *message = bytes;
    struct sockaddr_in at;
    (void)socket, (void)flags, (void)size;
    memcpy(&at, to, sizeof at);
    if (at.sin_addr.s_addr == INADDR_BROADCAST && (message[FLAGS] & 0x80 || !memcmp(message + YIADDR, no_address, 4)))
        return fails(ENETUNREACH);
    return count;
}

int clock_gettime(clockid_t clock, struct timespec *time) {
    time->tv_nsec = 0;
    time->tv_sec = clock != CLOCK_REALTIME ? came : is_check ? CHECKED_AT : moment;
    return 0;
}

// How many bytes of a text the record takes.
static size_t fitting(const char *text, size_t count) {
    for (size_t i = 0; i < count; i++) {
        if (!record_lines)
            return i;
        record_lines -= text[i] == '\n';
    }
    return count;
}

ssize_t write(int file, const void *bytes, size_t count) {
    // Only the record is a file that is appended to.
    if (record_lines >= 0 && fcntl(file, F_GETFL) & O_APPEND) {
        count = fitting(bytes, count);
        if (!count)
            return fails(ENOSPC);
    }
    return syscall(SYS_write, file, bytes, count);
}
