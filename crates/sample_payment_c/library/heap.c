/* What a library asks of the heap, over malloc, realloc and free. */
#include <stddef.h>
#include <stdlib.h>

struct rattle_block {
    size_t is_there;
    void *at;
};

static char nothing;

struct rattle_block rattle_alloc(size_t size, size_t align) {
    void *at = malloc(size ? size : align);
    return (struct rattle_block){at != 0, at ? at : &nothing};
}

struct rattle_block rattle_realloc(void *old, size_t kept, size_t size, size_t align) {
    (void)kept;
    void *at = realloc(old, size ? size : align);
    return (struct rattle_block){at != 0, at ? at : &nothing};
}

void rattle_dealloc(void *at) {
    free(at);
}
