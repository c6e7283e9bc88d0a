/* pipe.c: writes the reply to the request on standard input, as the program cc2_pipe does.
 *
 *   pipe < REQUEST > REPLY
 */
#include "cc2.h"
#include "lines.h"

#include <stdlib.h>

static int fail(const char *line) {
    fputs(line, stderr);
    return 1;
}

int main(void) {
    size_t length, room = 1 << 16, made;
    uint8_t *reply = NULL, *request = read_all(stdin, &length);
    if (!request) return fail("error: out of memory\n");
    for (;;) {
        reply = (uint8_t *)realloc(reply, room);
        made = reply ? cc2_ask(request, length, reply, room) : 0;
        if (made == 0) return fail("error: out of memory\n");
        if (made <= room) break;
        room = made;
    }
    if (fwrite(reply, 1, made, stdout) != made || fflush(stdout)) return fail("error: the output cannot be written\n");
    free(reply);
    free(request);
    return 0;
}
