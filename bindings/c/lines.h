/* lines.h: what cells.c, pipe.c and check.c share. */
#ifndef LINES_H
#define LINES_H

#include <stddef.h>
#include <stdint.h>
#include <stdio.h>

/* Prints a line for each cell: its keys, and its value like TOML. Returns 0 at the end of the cells, and -1 where they are malformed. */
int print_lines(const uint8_t *cells, size_t length, FILE *to);

/* Reads a file to its end, into a block of just its length. NULL where memory ran out. */
uint8_t *read_all(FILE *from, size_t *length);

#endif
