/* check.h: what check.c, check_cells.c and check_heap.c have of each other. */
#ifndef CHECK_H
#define CHECK_H

#include <stddef.h>
#include <stdint.h>

/* Says what is wrong, and ends the program. */
_Noreturn void fail(const char *what);

/* How many requests for memory the last watched call of this thread made. */
extern _Thread_local unsigned long requests;

/* Calls cc2_ask with a request for memory refused, none where it is 0. It fails if the call doesn't give back all memory. */
size_t watched_ask(unsigned long refused, const uint8_t *request, size_t length, uint8_t *reply, size_t room);

/* Reads the cells in the reply to check.c's load, all beginnings of them, and all changes of one byte. */
void check_cells(const uint8_t *reply, size_t reply_length);

#endif
