/* talc_heap.c: the three functions that the library asks for memory by, with a bound that the host sets.
 *
 * Link this file, or the kit's own libc/c/heap.c (in a kit: c/liblibc_c.a), which sets no bound. With this one a call
 * that would hold more than the bound of its thread ends with TALC_MEMORY, as where malloc fails. A guest that is loaded
 * by one thread and cleared by another is counted in the one and uncounted in the other: set no bound then, or one
 * in each.
 */
#include <stddef.h>
#include <stdint.h>
#include <stdlib.h>
#include "talc_heap.h"

struct got {
    size_t is; /* 1, or 0 for want of memory */
    void *at;
};

/* In front of each block: its size. 16 bytes, so that the block is aligned as malloc's are. */
union head {
    size_t size;
    unsigned char room[16];
};

static char nothing;
static _Thread_local size_t bound = SIZE_MAX;
static _Thread_local size_t held;
static _Thread_local size_t most;

void talc_heap_bound(size_t bytes) { bound = bytes; }
size_t talc_heap_held(void) { return held; }
size_t talc_heap_most(void) {
    size_t was = most;
    most = held;
    return was;
}

static struct got is(union head *head, size_t old, size_t size) {
    if (head == NULL) return (struct got){0, &nothing};
    head->size = size;
    held = held - old + size;
    if (held > most) most = held;
    return (struct got){1, head + 1};
}

struct got rattle_alloc(size_t size, size_t align) {
    (void)align;
    if (held > bound || size > bound - held || size > SIZE_MAX - sizeof(union head)) return is(NULL, 0, 0);
    return is(malloc(sizeof(union head) + size), 0, size);
}

struct got rattle_realloc(void *at, size_t old, size_t size, size_t align) {
    union head *head = (union head *)at - 1;
    (void)align;
    old = head->size;
    if (size > old && (held > bound || size - old > bound - held)) return is(NULL, 0, 0);
    if (size > SIZE_MAX - sizeof(union head)) return is(NULL, 0, 0);
    return is(realloc(head, sizeof(union head) + size), old, size);
}

void rattle_dealloc(void *at) {
    union head *head = (union head *)at - 1;
    held -= head->size;
    free(head);
}
