/* Two members in one process. Member 7 draws, and what it sends is handed to member 8, which shows its page. No socket and no clock: the
 * moments are made up.
 *
 *     cc -Iinclude examples/c/board.c out/library/lib/libwb.a -o board && ./board
 */
#include <stdio.h>
#include <stdlib.h>
#include <string.h>

#include "wb.h"

static char *block;
static size_t room = 64;

/* The block of a line, with a zero byte behind it. It stands until the next line. */
static const char *ask(wb_host *host, const char *line) {
    size_t size;
    uint32_t status = wb_line(host, line, strlen(line), block, room, &size);
    if (status == WB_WAITS) {
        room = size;
        block = realloc(block, room + 1);
        if (!block) exit(1);
        status = wb_block(host, block, room, &size);
    }
    if (status != WB_DONE) {
        fprintf(stderr, "board: the library answered %u\n", (unsigned)status);
        exit(1);
    }
    block[size] = 0;
    return block;
}

/* Hands each datagram that a block sends to another member, at a moment. */
static void carry(const char *printed, wb_host *to, int now) {
    char *copy = strdup(printed), *state = NULL;
    for (char *line = strtok_r(copy, "\n", &state); line; line = strtok_r(NULL, "\n", &state)) {
        if (strncmp(line, "send ", 5) != 0) continue;
        char *came = malloc(strlen(line) + 32);
        sprintf(came, "came %d %s", now, line + 5);
        ask(to, came);
        free(came);
    }
    free(copy);
}

int main(void) {
    wb_host seven = WB_HOST_CLOSED, eight = WB_HOST_CLOSED;
    block = malloc(room + 1);
    if (!block || wb_open(&seven) != WB_DONE || wb_open(&eight) != WB_DONE) return 1;
    ask(&seven, "board 7 100 1 42");
    ask(&eight, "board 8 100 1 43");
    ask(&seven, "keep 16000 0");
    ask(&eight, "keep 16000 0");
    carry(ask(&seven, "add 1000 5 7/1 line 0 0 4 0 *"), &eight, 1500);
    carry(ask(&seven, "add 2000 6 7/1 text 0 1 \"drawn in C\""), &eight, 2500);
    /* the two rows of the page, without the line that closes the block */
    const char *rows = ask(&eight, "show 7 1 10 2");
    printf("%.*s", 22, rows);
    wb_close(&seven);
    wb_close(&eight);
    free(block);
    return 0;
}
