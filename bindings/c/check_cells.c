/* check_cells.c: reads the cells of a load, and changed ones. */
#define _POSIX_C_SOURCE 200809L
#include "check.h"
#include "cc2.h"
#include "lines.h"

#include <stdio.h>
#include <stdlib.h>
#include <string.h>

/* The cells of the load that check.c asks. */
#define LINES                                                                                             \
    "alias.\"b\" = [\"build\", \"--release\"]\n"                                                          \
    "build.rustc-wrapper = \"/p/q/w/x\"\nbuild.target-dir = \"/p/t\"\nbuild.rustflags = [\"b\", \"a\"]\n" \
    "build.rustdocflags = [\"-d\", \"-e\"]\nbuild.incremental = true\n"                                   \
    "env.\"A\" = { value = \"/p/q/b\", force = false, relative = false }\n"                               \
    "http.proxy = \"p\\x00\"\nnet.retry = 3\n"                                                            \
    "registries.\"r\" = {}\nregistries.\"r\".index = \"i\"\nregistries.\"r\".token = \"k\"\n"             \
    "registry.global-credential-providers = [\"cargo:token\", [\"p\", \"-x\"]]\n"

/* The lines of cells in a block of just their length, so that a sanitizer sees reads after it; NULL where they are malformed. */
static char *lines_of(const uint8_t *cells, size_t length) {
    char *lines = NULL;
    size_t written;
    uint8_t *block = malloc(length ? length : 1);
    FILE *to = open_memstream(&lines, &written);
    if (!block || !to) fail("no memory");
    memcpy(block, cells, length);
    int is_malformed = print_lines(block, length, to) != 0;
    if (fclose(to)) fail("no memory");
    free(block);
    if (!is_malformed) return lines;
    free(lines);
    return NULL;
}

/* Whether the cells are read; what they say doesn't matter. */
static int are_read(const uint8_t *cells, size_t length) {
    char *lines = lines_of(cells, length);
    free(lines);
    return lines != NULL;
}

void check_cells(const uint8_t *reply, size_t reply_length) {
    struct cc2_cells cells;
    struct cc2_bytes state;
    if (!cc2_load_read(reply, reply_length, &cells, &state)) fail("a load isn't read");
    size_t length = cells.rest.length, count = 0, beginnings_read = 0, read = 0;
    char *lines = lines_of(cells.rest.at, length);
    if (!lines || strcmp(lines, LINES)) {
        fprintf(stderr, "the cells:\n%s", lines ? lines : "are malformed\n");
        fail("a load has other cells than expected");
    }
    for (const char *at = lines; *at; at++) count += *at == '\n';
    free(lines);
    for (size_t at = 0; at <= length; at++) beginnings_read += (size_t)are_read(cells.rest.at, at);
    if (beginnings_read != count + 1) fail("a beginning is read that doesn't end with a cell");
    uint8_t *changed = malloc(length);
    if (!changed) fail("no memory");
    memcpy(changed, cells.rest.at, length);
    for (size_t at = 0; at < length; at++) {
        for (unsigned by = 0; by < 256; by++) {
            changed[at] = (uint8_t)by;
            read += (size_t)are_read(changed, length);
        }
        changed[at] = cells.rest.at[at];
    }
    free(changed);
    if (read < length || read == 256 * length) fail("the changes of cells are all of one kind");
    printf("cells: %lu as expected, %lu beginnings of them, and %lu changes of a byte, of which %lu are read\n", (unsigned long)count,
           (unsigned long)length, (unsigned long)(256 * length), (unsigned long)read);
}
