/* check_heap.c: the heap of check.c, which counts what a call asks for. It is linked with --wrap=malloc, --wrap=realloc and --wrap=free. */
#include "check.h"
#include "cc2.h"

#include <stdlib.h>

void *__real_malloc(size_t size);
void *__real_realloc(void *block, size_t size);
void __real_free(void *block);
void *__wrap_malloc(size_t size);
void *__wrap_realloc(void *block, size_t size);
void __wrap_free(void *block);

/* Of this thread, while a call is watched: how many requests there were, which is refused, and how many blocks are taken. */
_Thread_local unsigned long requests;
static _Thread_local int is_watched;
static _Thread_local unsigned long refused_request;
static _Thread_local long taken;

static int is_refused(void) { return is_watched && ++requests == refused_request; }

void *__wrap_malloc(size_t size) {
    void *block = is_refused() ? NULL : __real_malloc(size);
    if (is_watched && block) taken++;
    return block;
}

void *__wrap_realloc(void *block, size_t size) {
    void *moved = is_refused() ? NULL : __real_realloc(block, size);
    if (is_watched && !block && moved) taken++;
    return moved;
}

void __wrap_free(void *block) {
    if (is_watched && block) taken--;
    __real_free(block);
}

size_t watched_ask(unsigned long refused, const uint8_t *request, size_t length, uint8_t *reply, size_t room) {
    requests = 0, refused_request = refused, taken = 0;
    is_watched = 1;
    size_t made = cc2_ask(request, length, reply, room);
    is_watched = 0;
    if (taken) fail("a call didn't give back all memory that it took");
    return made;
}
