/*
 * Where the library's memory comes from: three functions over malloc. A program that has memory of its own, as a board
 * has, leaves this file out and defines the three itself. They are called by poincare_open and poincare_answers, and by the
 * calls that close.
 *
 * Nothing checks what they owe: blocks that do not overlap, of so many bytes, at a multiple of `align`, which is a power
 * of two up to 16. They are called on whatever thread calls the library, so that sessions on several threads call them
 * at once.
 */
#include <stddef.h>
#include <stdlib.h>

_Static_assert(_Alignof(max_align_t) >= 16, "malloc gives blocks that lie at multiples of 16");

/* Whether there is a block, and where. The address is never null: where there is no block, any other will do. */
struct rattle_block {
    _Bool found;
    void *at;
};

struct rattle_block rattle_alloc(size_t size, size_t align);
struct rattle_block rattle_realloc(void *at, size_t kept, size_t size, size_t align);
void rattle_dealloc(void *at);

static struct rattle_block block_at(void *at) {
    static char none;
    return (struct rattle_block){at != NULL, at != NULL ? at : &none};
}

/* A block of so many bytes. One of none has an address of its own, too. */
struct rattle_block rattle_alloc(size_t size, size_t align) {
    return block_at(malloc(size > 0 ? size : align));
}

/* Makes the block one of so many bytes, the first of which, as many as are kept, stay as they are. Where there is no
 * memory for it, the old block stays. */
struct rattle_block rattle_realloc(void *at, size_t kept, size_t size, size_t align) {
    (void)kept;
    return block_at(realloc(at, size > 0 ? size : align));
}

/* Gives a block back. */
void rattle_dealloc(void *at) {
    free(at);
}
