/* The memory of the library, over malloc. A program may link its own three functions in place of this file.
 *
 * rattle_alloc      a block of n bytes, or, where n is 0, of `align` bytes. `align` is a power of two, at most 16, that
 *                   divides n, and the block is aligned to it; malloc's blocks are, since they are aligned for every
 *                   type of their size. `ok` is false where there is no memory; `p` is then any pointer but NULL.
 * rattle_realloc    the block at p, made n bytes long (or `align`, where n is 0), with its first `kept` bytes as they
 *                   were, which are all that was written. It may move. Where `ok` is false the block is as it was.
 * rattle_dealloc    frees what either answered.
 *
 * All three belong to one allocator, and may be called from any thread. Refusing is always allowed. */
#include <stdbool.h>
#include <stddef.h>
#include <stdlib.h>

typedef struct rattle_tried {
    bool ok;
    void *p;
} rattle_tried;

rattle_tried rattle_alloc(size_t n, size_t align);
rattle_tried rattle_realloc(void *p, size_t kept, size_t n, size_t align);
void rattle_dealloc(void *p);

static max_align_t nowhere;

static rattle_tried tried(void *p)
{
    rattle_tried it = {p != NULL, p != NULL ? p : &nowhere};
    return it;
}

rattle_tried rattle_alloc(size_t n, size_t align)
{
    return tried(malloc(n != 0 ? n : align));
}

rattle_tried rattle_realloc(void *p, size_t kept, size_t n, size_t align)
{
    (void)kept;
    return tried(realloc(p, n != 0 ? n : align));
}

void rattle_dealloc(void *p)
{
    free(p);
}
