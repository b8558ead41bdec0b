/* The heap, as the toolchain's crate `libc` declares it: for processors for which the toolchain has no object of it. */
#include <stdbool.h>
#include <stdlib.h>

/* If ok, p is the block. If memory was refused, p is no block, and not null. */
struct tried {
    bool ok;
    void *p;
};

static char nothing;

static struct tried tried(void *p)
{
    return p ? (struct tried){ true, p } : (struct tried){ false, &nothing };
}

/* A block of size bytes. The alignment divides 16, so malloc aligns enough; a block of no bytes is one too. */
struct tried rattle_alloc(size_t size, size_t alignment)
{
    return tried(malloc(size ? size : alignment));
}

/* The block made one of size bytes, which begins with the same bytes. If memory is refused, it stays as it is. */
struct tried rattle_realloc(void *block, size_t kept, size_t size, size_t alignment)
{
    (void)kept;
    return tried(realloc(block, size ? size : alignment));
}

void rattle_dealloc(void *block)
{
    free(block);
}
