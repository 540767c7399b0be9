/*
 * The heap of the WebAssembly module: the three functions that the library's code calls (packaging/heap.c has those of
 * other processors), over the memory of the module alone. The module imports nothing, so nothing else has them.
 *
 * A block has a header with its class, by which its size is known: 2^k or 3*2^(k-1) bytes with the header. A block that is
 * freed is kept for the next of its class; blocks are neither split nor joined. An instance is made for each call and
 * thrown away, so what is kept lives no longer than that.
 */
#include "types.h"

#define PAGE ((size_t)65536)
#define LEAST ((size_t)32)              /* of the smallest class, with the header */
#define MOST ((size_t)1 << 40)          /* no memory is that large */

/* Before each block; while it is free, with the next free one of its class. Its size keeps blocks at 16 bytes. */
typedef struct header {
    size_t class;
    struct header *next;
} header;

typedef struct {
    _Bool found;
    void *at;
} tried;

tried rattle_alloc(size_t size, size_t align);
tried rattle_realloc(void *block, size_t kept, size_t size, size_t align);
void rattle_dealloc(void *block);
void *ert_memory(size_t size);

extern uint8_t __heap_base;
static uint8_t nothing;
static header *freed[80];
static uintptr_t top, end;              /* memory that no block has had yet */

static size_t size_of(size_t class) { return (class & 1 ? LEAST + LEAST / 2 : LEAST) << (class >> 1); }

static size_t class_of(size_t size) {
    size_t class = size <= LEAST ? 0 : 2 * (size_t)(58 - __builtin_clzl(size - 1));
    while (size_of(class) < size)
        class++;
    return class;
}

/* Grows the module's memory by so many pages. That it did is read from its size: after lowering to 32 bits a refusal is
 * another number. */
static _Bool has_grown(size_t pages) {
    __builtin_wasm_memory_grow(0, pages);
    size_t now = __builtin_wasm_memory_size(0) * PAGE;
    _Bool has = now >= end + pages * PAGE;
    end = now;
    return has;
}

/* Whether there are so many bytes more from `top` on; the memory grows by a megabyte at least where it can. */
static _Bool has_room(size_t size) {
    if (top == 0) {
        top = ((uintptr_t)&__heap_base + 15) & ~(uintptr_t)15;
        end = __builtin_wasm_memory_size(0) * PAGE;
    }
    if (size <= end - top)
        return 1;
    size_t pages = (size - (end - top) + PAGE - 1) / PAGE;
    return (pages < 16 && has_grown(16)) || has_grown(pages);
}

static void *taken(size_t size) {
    if (size > MOST)
        return NULL;
    size_t class = class_of(size + sizeof(header));
    header *block = freed[class];
    if (block != NULL) {
        freed[class] = block->next;
        return block + 1;
    }
    if (!has_room(size_of(class)))
        return NULL;
    block = (header *)top;
    top += size_of(class);
    block->class = class;
    return block + 1;
}

static tried as_tried(void *at) { return at != NULL ? (tried){1, at} : (tried){0, &nothing}; }

/* No alignment is above 16. */
tried rattle_alloc(size_t size, size_t align) { return as_tried(taken(size != 0 ? size : align)); }

void rattle_dealloc(void *block) {
    header *it = (header *)block - 1;
    it->next = freed[it->class];
    freed[it->class] = it;
}

/* The last block grows where it stands, as a long text or list does that is read piece by piece. */
static _Bool has_grown_there(header *it, size_t wanted) {
    size_t old = size_of(it->class), class = class_of(wanted + sizeof(header));
    if ((uintptr_t)it + old != top || !has_room(size_of(class) - old))
        return 0;
    top += size_of(class) - old;
    it->class = class;
    return 1;
}

tried rattle_realloc(void *block, size_t kept, size_t size, size_t align) {
    header *it = (header *)block - 1;
    size_t old = size_of(it->class) - sizeof(header), wanted = size != 0 ? size : align;
    if (wanted <= old ? wanted >= old / 4 : wanted <= MOST && has_grown_there(it, wanted))
        return as_tried(block);
    void *at = taken(wanted);
    if (at != NULL) {
        __builtin_memcpy(at, block, kept < wanted ? kept : wanted);
        rattle_dealloc(block);
    }
    return as_tried(at);
}

/* For the host: memory into which it writes a text, and from which it reads one; NULL if there is none. */
void *ert_memory(size_t size) { return taken(size); }
