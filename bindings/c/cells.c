/* cells.c: prints the cells of a load, a line for each. The reply to the load is on standard input.
 *
 *   cells < REPLY
 *
 * The status is 1 where the bytes are no such reply.
 */
#include "cc2.h"
#include "lines.h"

#include <stdlib.h>

int main(void) {
    struct cc2_cells cells;
    struct cc2_bytes state;
    size_t length;
    int is_read;
    uint8_t *reply = read_all(stdin, &length);
    if (!reply) {
        fputs("error: out of memory\n", stderr);
        return 1;
    }
    is_read = cc2_load_read(reply, length, &cells, &state) && print_lines(cells.rest.at, cells.rest.length, stdout) == 0;
    free(reply);
    if (!is_read) fputs("error: this is no reply to a load\n", stderr);
    return !is_read;
}
