/* Two members in one process, by bytes: what member 7 draws and sends is handed to member 8, which is then asked what its page shows. No
 * line is read or written but those that open the hosts, and no number is turned into digits or back.
 *
 *     cc -Iinclude examples/c/bytes.c out/library/lib/libwb.a -o bytes && ./bytes
 */
#include <stdio.h>
#include <string.h>

#include "wb.h"

enum { ROOM = 1 << 11 };

/* Opens a self-managing host of this number, by two lines. */
static int open_member(wb_host *host, int number) {
    char line[64], block[64];
    size_t size;
    if (wb_open(host) != WB_DONE) return 0;
    int length = snprintf(line, sizeof line, "board %d 100 1 %d", number, 40 + number);
    wb_line(host, line, (size_t)length, block, sizeof block, &size);
    return wb_line(host, "keep 16000 0", 12, block, sizeof block, &size) == WB_DONE;
}

/* Writes a number at the end of what was written, the greatest byte first. */
static uint8_t *put(uint8_t *at, uint64_t number, int bytes) {
    while (bytes-- > 0) *at++ = (uint8_t)(number >> (8 * bytes));
    return at;
}

/* A drawing as docs/SCRIPTS.md has it: a line of a glyph on page 7/1. Its source and its number are those of no drawop: it gets others. */
static size_t draft(uint8_t *to, uint64_t time, const uint16_t ends[4], char glyph) {
    uint8_t *at = to + 8;
    at = put(put(put(put(at, 0, 4), 7, 4), 1, 4), UINT32_MAX, 4);
    at = put(at, time, 8);
    *at++ = 1; /* a line */
    for (int i = 0; i < 4; i++) at = put(at, ends[i], 2);
    *at++ = (uint8_t)glyph;
    memcpy(to, "WB\1\1", 4);
    put(to + 4, (uint64_t)(at - to - 8), 4);
    return (size_t)(at - to);
}

/* Fetches all events, and hands each datagram that is to be sent to another member, at a moment. */
static void carry(wb_host *from, wb_host *to, uint64_t now) {
    uint8_t bytes[ROOM];
    uint32_t kind;
    size_t size;
    while (wb_event(from, &kind, bytes, sizeof bytes, &size) == WB_DONE)
        if (kind == WB_SENT) wb_came(to, now, bytes, size);
}

int main(void) {
    wb_host seven = WB_HOST_CLOSED, eight = WB_HOST_CLOSED;
    if (!open_member(&seven, 7) || !open_member(&eight, 8)) return 1;
    uint8_t bytes[ROOM];
    const uint16_t across[4] = {0, 0, 4, 0}, down[4] = {2, 0, 2, 2};
    wb_add(&seven, 1000, bytes, draft(bytes, 5, across, '-'));
    wb_add(&seven, 2000, bytes, draft(bytes, 6, down, '|'));
    carry(&seven, &eight, 2500);
    uint32_t kind;
    size_t size;
    int fresh = 0;
    while (wb_event(&eight, &kind, bytes, sizeof bytes, &size) == WB_DONE) fresh += kind == WB_NEW;
    printf("%d drawings came, and a tick is due %s\n", fresh, wb_due(&eight) == WB_NEVER ? "never" : "later");
    wb_ask(&eight, WB_ASK_CANVAS, 7, 1, 5, 3);
    if (wb_event(&eight, &kind, bytes, sizeof bytes, &size) == WB_DONE) fwrite(bytes, 1, size, stdout);
    wb_close(&seven);
    wb_close(&eight);
    return 0;
}
