/* For tests: the memory of heap.c, of which a request can be refused. Of one thread alone. */
#ifndef REFUSING_HEAP_H
#define REFUSING_HEAP_H

#include <stddef.h>

#ifdef __cplusplus
extern "C" {
#endif

/* From here on the request of this number is refused, the first being 1; with 0 none is. */
void refuse_request(size_t number);

/* Whether that request has come. */
int was_refused(void);

/* How many blocks are held that were not given back. */
size_t blocks_held(void);

#ifdef __cplusplus
}
#endif

#endif
