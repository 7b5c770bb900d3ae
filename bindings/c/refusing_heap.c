#include "refusing_heap.h"

/* The functions of heap.c under other names; those of their own names stand below. */
#define rattle_alloc heap_alloc
#define rattle_realloc heap_realloc
#define rattle_dealloc heap_dealloc
#include "heap.c"
#undef rattle_alloc
#undef rattle_realloc
#undef rattle_dealloc

static size_t requests, refused, held;

void refuse_request(size_t number) {
    requests = 0;
    refused = number;
}

int was_refused(void) {
    return refused != 0 && requests >= refused;
}

size_t blocks_held(void) {
    return held;
}

static int is_refused(void) {
    return ++requests == refused;
}

struct given rattle_alloc(size_t size, size_t align) {
    struct given answer = is_refused() ? answer_of(NULL) : heap_alloc(size, align);
    held += answer.is_there;
    return answer;
}

struct given rattle_realloc(void *block, size_t kept, size_t size, size_t align) {
    return is_refused() ? answer_of(NULL) : heap_realloc(block, kept, size, align);
}

void rattle_dealloc(void *block) {
    --held;
    heap_dealloc(block);
}
