/* A scale on a serial port:
 *
 *     controller PORT PLATE COUNTS [LOG]
 *
 * PORT is a terminal device (9600 bits a second, 8 bits, no parity, 1 stop bit), PLATE the text of a plate, COUNTS simulates the load cell:
 * a line for each period of 10 ms, with its counts, or empty if no sample comes. After the last line it continues with the line after
 * `again`, or else stays at its end, with no sample. What happens is written to LOG, if it is given, as rows of a log (docs/LOG.md), so that
 * `wc line` can answer it again. It ends when the other end of the port is gone, by a signal, or if it cannot go on. */
#define _XOPEN_SOURCE 700
#include "narbeddo.h"

#include <errno.h>
#include <fcntl.h>
#include <inttypes.h>
#include <poll.h>
#include <signal.h>
#include <stdio.h>
#include <stdlib.h>
#include <string.h>
#include <termios.h>
#include <time.h>
#include <unistd.h>

#define PERIOD 10            /* milliseconds */
#define NO_SAMPLE INT32_MIN  /* among the counts: no sample in this period */
#define MOST_COUNTS 100000   /* lines of the file of counts */
#define MOST_PLATE 4096      /* bytes of a plate */

/* The program: valve 0 is open while the net weight is below 1000 units and the weight is valid. */
static const char program[] = "PROGRAM Valve\nLD %ID1\nLT 1000\nAND %IX1.5\nST %QX0.0\nEND_PROGRAM\n";

static int32_t load_cell[MOST_COUNTS];
static size_t lines, next_line, again = MOST_COUNTS;

/* The line: bytes that have come and were not taken yet, and what is left to send of an answer. */
typedef struct line {
    int port;
    uint8_t came[64];
    size_t taken, count;
    narbeddo_answer answer;
    uint32_t sent;
} line;

static volatile sig_atomic_t ended;

static void on_signal(int number)
{
    (void)number;
    ended = 1;
}

static int fails(const char *what)
{
    fprintf(stderr, "controller: %s\n", what);
    return 1;
}

static uint64_t clock_ms(void)
{
    struct timespec now = {0, 0};
    clock_gettime(CLOCK_MONOTONIC, &now);
    return (uint64_t)now.tv_sec * 1000 + (uint64_t)now.tv_nsec / 1000000;
}

/* The file of counts. */
static int read_counts(const char *path)
{
    char text[32];
    FILE *file = fopen(path, "r");
    if (file == NULL) {
        return 0;
    }
    while (lines < MOST_COUNTS && fgets(text, sizeof text, file) != NULL) {
        if (strncmp(text, "again", 5) == 0) {
            again = lines;
        } else {
            load_cell[lines++] = text[0] == '\n' ? NO_SAMPLE : (int32_t)strtol(text, NULL, 10);
        }
    }
    fclose(file);
    return lines != 0;
}

static int32_t next_counts(void)
{
    if (next_line == lines) {
        next_line = again;
    }
    return next_line < lines ? load_cell[next_line++] : NO_SAMPLE;
}

/* A port on which each byte comes and goes as it is, and no call waits. */
static int open_port(const char *path)
{
    struct termios mode;
    int port = open(path, O_RDWR | O_NOCTTY | O_NONBLOCK);
    if (port < 0) {
        return -1;
    }
    if (tcgetattr(port, &mode) == 0) {
        mode.c_iflag = 0; /* no byte is mapped or dropped, XON and XOFF are bytes */
        mode.c_oflag = 0;
        mode.c_lflag = 0;
        mode.c_cflag = CS8 | CREAD | CLOCAL;
        mode.c_cc[VMIN] = 0;
        mode.c_cc[VTIME] = 0;
        if (cfsetispeed(&mode, B9600) == 0 && cfsetospeed(&mode, B9600) == 0 && tcsetattr(port, TCSANOW, &mode) == 0) {
            return port;
        }
    }
    close(port);
    return -1;
}

/* Sends what is left of an answer. 0: the port is gone. */
static int send_answer(line *line)
{
    while (line->sent < line->answer.length) {
        ssize_t count = write(line->port, line->answer.bytes + line->sent, line->answer.length - line->sent);
        if (count < 0) {
            return errno == EAGAIN || errno == EINTR;
        }
        line->sent += (uint32_t)count;
    }
    return 1;
}

/* Takes the bytes that have come, one by one, each once the answer before it was sent. A host that does not read its answers makes its own
 * requests wait, and nothing else. 0: the port is gone, or the scale is closed. */
static int converse(line *line, narbeddo_scale *scale, FILE *log, uint64_t now)
{
    if (line->taken == line->count) {
        ssize_t count = read(line->port, line->came, sizeof line->came);
        if (count < 0 && errno != EAGAIN && errno != EINTR) {
            return 0;
        }
        line->taken = 0;
        line->count = count > 0 ? (size_t)count : 0;
    }
    while (send_answer(line) && line->sent == line->answer.length && line->taken < line->count) {
        uint8_t byte = line->came[line->taken++];
        line->answer = narbeddo_byte(scale, byte);
        line->sent = 0;
        if (line->answer.status != NARBEDDO_DONE) {
            return 0;
        }
        if (log != NULL) {
            fprintf(log, "%" PRIu64 ",L,%02x\n", now, byte);
        }
    }
    return send_answer(line);
}

/* What a period brings: a sample, the inputs, a scan. 0: one of them was not done. */
static int period(narbeddo_scale *scale, FILE *log, uint64_t now)
{
    int32_t counts = next_counts();
    narbeddo_scanned scanned;
    if (counts != NO_SAMPLE) {
        if (narbeddo_sample(scale, counts) != NARBEDDO_DONE) {
            return 0;
        }
        if (log != NULL) {
            fprintf(log, "%" PRIu64 ",C,%" PRId32 "\n", now, counts);
        }
    }
    scanned = narbeddo_scan(scale, now); /* your outputs: scanned.bits */
    if (log != NULL) {
        fprintf(log, "%" PRIu64 ",S,\n", now);
    }
    return scanned.status == NARBEDDO_DONE;
}

/* The loop. */
static int control(narbeddo_scale *scale, line *line, FILE *log)
{
    uint64_t start = clock_ms(), now = 0, next = 0;
    while (!ended) {
        struct pollfd port = {0, 0, 0};
        port.fd = line->port;
        port.events = POLLIN;
        if (line->sent < line->answer.length) {
            port.events = POLLOUT;
        }
        if (now < next) {
            poll(&port, 1, (int)(next - now));
        }
        now = clock_ms() - start;
        if ((port.revents & (POLLHUP | POLLERR)) != 0) {
            return 0;
        }
        if (!converse(line, scale, log, now)) {
            return 0;
        }
        if (now >= next) {
            if (!period(scale, log, now)) {
                return fails("a sample or a scan was not done");
            }
            next = now - now % PERIOD + PERIOD; /* a period that was missed is left out */
        }
    }
    return 0;
}

static int run(narbeddo_scale *scale, const char *port, const char *plate, FILE *log)
{
    static uint8_t text[MOST_PLATE];
    static line line;
    size_t length;
    int status;
    FILE *file = fopen(plate, "rb");
    if (file == NULL) {
        return fails("there is no plate");
    }
    length = fread(text, 1, sizeof text, file);
    fclose(file);
    if (length == sizeof text || narbeddo_open(scale, text, length).status != NARBEDDO_DONE) {
        return fails("the plate is refused");
    }
    if (narbeddo_load(scale, (const uint8_t *)program, sizeof program - 1).status != NARBEDDO_DONE) {
        return fails("the program is refused");
    }
    line.port = open_port(port);
    if (line.port < 0) {
        return fails("the port can't be opened");
    }
    status = control(scale, &line, log);
    close(line.port);
    return status;
}

int main(int count, char **words)
{
    static narbeddo_scale scale;
    FILE *log = NULL;
    int status;
    if (count < 4 || count > 5) {
        return fails("PORT PLATE COUNTS [LOG]");
    }
    if (!read_counts(words[3])) {
        return fails("there are no counts");
    }
    if (count == 5) {
        log = fopen(words[4], "w");
        if (log == NULL) {
            return fails("the log can't be written");
        }
        fprintf(log, "ms,kind,data\n");
    }
    signal(SIGTERM, on_signal);
    signal(SIGINT, on_signal);
    narbeddo_make(&scale);
    status = run(&scale, words[1], words[2], log);
    narbeddo_close(&scale);
    if (log != NULL && fclose(log) != 0) {
        return fails("the log can't be written");
    }
    return status;
}
