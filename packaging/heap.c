/*
 * The heap of the library: the three functions that its code calls (`libc::heap` of the toolchain tells what is
 * trusted of each). The toolchain's own liblibc_c.a, for x86-64 alone, has them too, without the margin of large
 * blocks.
 */
#include <stdbool.h>
#include <stddef.h>
#include <stdint.h>
#include <stdlib.h>

/* Whether there is memory, and where. If there is none, `at` points to a byte that nobody owns. */
typedef struct {
    bool found;
    void *at;
} tried;

tried rattle_alloc(size_t size, size_t align);
tried rattle_realloc(void *block, size_t kept, size_t size, size_t align);
void rattle_dealloc(void *block);

static char nothing;

/* A block of so many bytes and more may be used by a thread of its own, so a cache line more is taken for it. Then what two
 * of them use is never on one line. */
static const size_t large = 1024;
static const size_t line = 64;

static size_t with_margin(size_t size) { return size >= large && size <= SIZE_MAX - line ? size + line : size; }

static tried as_tried(void *at) { return at != NULL ? (tried){true, at} : (tried){false, &nothing}; }

/* A block of no bytes is one of `align` bytes, so that it can be freed. No alignment is above that of malloc. */
tried rattle_alloc(size_t size, size_t align) { return as_tried(malloc(size != 0 ? with_margin(size) : align)); }

tried rattle_realloc(void *block, size_t kept, size_t size, size_t align) {
    (void)kept;
    return as_tried(realloc(block, size != 0 ? with_margin(size) : align));
}

void rattle_dealloc(void *block) { free(block); }
