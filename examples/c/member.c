/* A member over UDP with a record: each line of its input is drawn on page 1/1, which is shown whenever it has changed. If it ends, by its own will or
 * not, it goes on from its record when it is started again.
 *
 *     cc -Iinclude examples/c/member.c out/library/lib/libwb.a -o member && ./member ME PORT RECORD OTHER ..
 *
 * ME is its member number, PORT its own port, RECORD a file that is its own, and each OTHER the port of another member on this machine. It is drawn
 * once the member has listened for some seconds. An input of three lines:
 *
 *     line 0 0 9 0 *
 *     text 0 1 "hello"
 *     delete 2 1
 */
#define _GNU_SOURCE

#include <arpa/inet.h>
#include <inttypes.h>
#include <poll.h>
#include <stdio.h>
#include <stdlib.h>
#include <string.h>
#include <time.h>
#include <unistd.h>

#include "wb.h"

enum { ROOM = 1 << 18, LINE = 1 << 17, LISTENING = 6000000, MINUTE = 60000000 };

static wb_host host = WB_HOST_CLOSED;
static char block[ROOM], line[LINE];
static int network, others[64], many;
static FILE *record;
static uint64_t began;

/* Microseconds of a clock. */
static uint64_t clock_of(clockid_t which) {
    struct timespec at;
    clock_gettime(which, &at);
    return (uint64_t)at.tv_sec * 1000000 + (uint64_t)at.tv_nsec / 1000;
}

static uint64_t now(void) { return clock_of(CLOCK_MONOTONIC) - began; }

static struct sockaddr_in address_of(int port) {
    struct sockaddr_in address = {.sin_family = AF_INET, .sin_port = htons((uint16_t)port), .sin_addr = {htonl(INADDR_LOOPBACK)}};
    return address;
}

static void send_to_all(const char *digits) {
    unsigned char bytes[LINE / 2];
    size_t size = 0;
    for (unsigned byte; sscanf(digits + 2 * size, "%2x", &byte) == 1; size++) bytes[size] = (unsigned char)byte;
    for (int i = 0; i < many; i++) {
        struct sockaddr_in to = address_of(others[i]);
        sendto(network, bytes, size, 0, (struct sockaddr *)&to, sizeof to);
    }
}

/* Tells the host a line, and does what its block says, in its order. Whether the page has changed. */
static int tell(const char *told, int is_old) {
    size_t size, from = 0;
    uint32_t status = wb_line(&host, told, strlen(told), block, sizeof block - 1, &size);
    if (status != WB_DONE) exit(fprintf(stderr, "member: the library answered %" PRIu32 "\n", status));
    block[size] = 0;
    for (char *next = block, *row; (row = strsep(&next, "\n")) && next;) {
        if (!strncmp(row, "record ", 7)) fprintf(record, "%s\n", row + 7);
        if (!strncmp(row, "send ", 5) && !is_old) {
            /* what we drew is on the disk before anybody has it */
            if (fflush(record) || fsync(fileno(record))) exit(fprintf(stderr, "member: the record can't be written\n"));
            send_to_all(row + 5);
        }
        if (!strncmp(row, "refused ", 8)) fprintf(stderr, "%s\n", row + 8);
        from |= !strncmp(row, "drew 1 1 ", 9);
    }
    return from != 0;
}

static void show(void) {
    size_t size;
    if (wb_line(&host, "show 1 1 40 12", 14, block, sizeof block, &size) == WB_DONE) fwrite(block, 1, 12 * 41, stdout);
    fflush(stdout);
}

/* Opens the host, and hands it what its record has. A last line that was cut off was not sent. */
static void open_host(const char *path, int me) {
    uint64_t last = 0;
    size_t room = 0;
    char *held = NULL, board[80];
    ssize_t length;
    long whole = 0;
    if (!(record = fopen(path, "a+")) || wb_open(&host) != WB_DONE) exit(fprintf(stderr, "member: no record, or no memory\n"));
    rewind(record);
    while ((length = getline(&held, &room, record)) > 0 && held[length - 1] == '\n') {
        whole = ftell(record);
        if (!strncmp(held, "tick ", 5)) last = strtoull(held + 5, NULL, 10) + 1;
    }
    if (ftruncate(fileno(record), whole)) exit(fprintf(stderr, "member: the record can't be written\n"));
    began = clock_of(CLOCK_MONOTONIC) - last;
    snprintf(board, sizeof board, "board %d 65535 1 %" PRIu64, me, clock_of(CLOCK_REALTIME) * (uint64_t)getpid());
    rewind(record);
    if (whole && getline(&held, &room, record) > 0) snprintf(board, sizeof board, "%.*s", (int)strcspn(held, "\n"), held);
    else fprintf(record, "%s\n", board);
    long after = ftell(record);
    tell(board, 1);
    snprintf(line, sizeof line, "judge %" PRIu64 " 4000 %d %" PRIu64 " - -", now(), LISTENING, clock_of(CLOCK_REALTIME));
    tell(line, 1);
    for (fseek(record, after, SEEK_SET); (length = getline(&held, &room, record)) > 0;) {
        snprintf(line, sizeof line, "held %.*s", (int)(length - 1), held);
        tell(line, 1);
    }
    fseek(record, 0, SEEK_END);
    free(held);
}

/* A datagram that waits, as a line. */
static void hear(void) {
    unsigned char bytes[LINE / 2 - 64];
    struct sockaddr_in from;
    socklen_t length = sizeof from;
    ssize_t size = recvfrom(network, bytes, sizeof bytes, 0, (struct sockaddr *)&from, &length);
    int at = sprintf(line, "came %" PRIu64 " %" PRIu64 " ", now(), (uint64_t)ntohl(from.sin_addr.s_addr) << 16 | ntohs(from.sin_port));
    for (ssize_t i = 0; i < size; i++) at += sprintf(line + at, "%02x", bytes[i]);
    if (size > 0 && tell(line, 0)) show();
}

int main(int count, char **words) {
    if (count < 4 || count > 68) return fprintf(stderr, "member ME PORT RECORD OTHER ..\n");
    struct sockaddr_in here = address_of(atoi(words[2]));
    network = socket(AF_INET, SOCK_DGRAM, 0);
    if (bind(network, (struct sockaddr *)&here, sizeof here)) return perror("member"), 1;
    for (int i = 4; i < count; i++) others[many++] = atoi(words[i]);
    open_host(words[3], atoi(words[1]));
    uint64_t ready = now() + LISTENING, told = 0;
    char drawing[1024];
    setvbuf(stdin, NULL, _IONBF, 0);
    for (;;) {
        uint64_t due = wb_due(&host), at = now();
        if (due <= at) {
            snprintf(line, sizeof line, "tick %" PRIu64, at);
            if (tell(line, 0)) show();
            continue;
        }
        if (at >= told + MINUTE || !told) {
            snprintf(line, sizeof line, "wall %" PRIu64 " %" PRIu64, at, clock_of(CLOCK_REALTIME));
            told = at;
            tell(line, 0);
            continue;
        }
        struct pollfd ways[2] = {{.fd = network, .events = POLLIN}, {.fd = at < ready ? -1 : 0, .events = POLLIN}};
        uint64_t next = due < told + MINUTE ? due : told + MINUTE;
        if (at < ready && ready < next) next = ready;
        poll(ways, 2, (int)((next - at) / 1000 + 1));
        if (ways[0].revents) hear();
        if (ways[1].revents) {
            if (!fgets(drawing, sizeof drawing, stdin)) return 0;
            snprintf(line, sizeof line, "add %" PRIu64 " 1/1 %.*s", now(), (int)strcspn(drawing, "\n"), drawing);
            if (tell(line, 0)) show();
        }
    }
}
