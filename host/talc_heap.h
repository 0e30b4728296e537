/* talc_heap.h: a bound on the memory that calls of the library hold, for this thread. */
#ifndef TALC_HEAP_H
#define TALC_HEAP_H
#include <stddef.h>
#ifdef __cplusplus
extern "C" {
#endif
/* From now on, at most so many bytes; SIZE_MAX for no bound. */
void talc_heap_bound(size_t bytes);
/* How many bytes are held now, by guests. */
size_t talc_heap_held(void);
/* The most that were held since the last call of this. */
size_t talc_heap_most(void);
#ifdef __cplusplus
}
#endif
#endif
