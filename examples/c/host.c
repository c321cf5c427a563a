/* `wb host` by the library: each line of standard input is answered by its block.
 *
 *     cc -Iinclude examples/c/host.c out/library/lib/libwb.a -o host && ./host < examples/session.txt
 */
#define _POSIX_C_SOURCE 200809L

#include <stdio.h>
#include <stdlib.h>
#include <sys/types.h>

#include "wb.h"

int main(void) {
    wb_host host = WB_HOST_CLOSED;
    char *line = NULL, *block = malloc(1);
    size_t had = 0, room = 1, size = 0;
    ssize_t length;
    uint32_t status = wb_open(&host);
    while (block && status == WB_DONE && (length = getline(&line, &had, stdin)) > 0) {
        if (line[length - 1] == '\n') length--;
        status = wb_line(&host, line, (size_t)length, block, room, &size);
        while (status == WB_WAITS && (block = realloc(block, room = size)))
            status = wb_block(&host, block, room, &size);
        if (status == WB_DONE && (fwrite(block, 1, size, stdout) < size || fflush(stdout))) break;
    }
    wb_close(&host);
    free(line);
    free(block);
    return status == WB_DONE && feof(stdin) ? 0 : 1;
}
