/* The memory of the library: the program's malloc, realloc and free. */
#include <stddef.h>
#include <stdint.h>
#include <stdlib.h>

/* What a request answers: whether there is memory, and where. The library reads a bool at the front of the first, and the rest is 0. */
struct given {
    uint64_t is_there;
    void *block;
};

/* What a refused request points to, which has to be a byte. */
static char nothing;

static struct given answer_of(void *block) {
    struct given taken = {1, block}, refused = {0, &nothing};
    return block ? taken : refused;
}

struct given rattle_alloc(size_t size, size_t align) {
    return answer_of(malloc(size ? size : align));
}

struct given rattle_realloc(void *block, size_t kept, size_t size, size_t align) {
    (void)kept;
    return answer_of(realloc(block, size ? size : align));
}

void rattle_dealloc(void *block) {
    free(block);
}
