/*
 * What the code of the module calls besides the heap, which no library of the toolchain has on WebAssembly: arithmetic of
 * 128 bits, whose divisions clang writes out where they stand, copies, and the one instruction of x86-64 that the code
 * names, PSHUFB.
 */
#include "types.h"

typedef __int128 wide;
typedef uint8_t bytes16 __attribute__((vector_size(16)));

wide __multi3(wide a, wide b);
wide __ashlti3(wide a, int by);
wide __ashrti3(wide a, int by);
wide __lshrti3(wide a, int by);
void *memcpy(void *restrict to, const void *restrict from, size_t count);
void *memmove(void *to, const void *from, size_t count);
void *memset(void *to, int byte, size_t count);
int memcmp(const void *a, const void *b, size_t count);
bytes16 ertime_pshufb(bytes16 from, bytes16 places);

typedef union {
    wide all;
    struct {
        uint64_t low, high;
    } part;
} halves;

/* The product of two numbers of 64 bits, from products of 32. */
static halves product(uint64_t a, uint64_t b) {
    const uint64_t mask = 0xffffffff;
    uint64_t low = (a & mask) * (b & mask), first = (a >> 32) * (b & mask), second = (a & mask) * (b >> 32);
    uint64_t middle = (low >> 32) + (first & mask) + (second & mask);
    halves r;
    r.part.low = (middle << 32) | (low & mask);
    r.part.high = (a >> 32) * (b >> 32) + (first >> 32) + (second >> 32) + (middle >> 32);
    return r;
}

wide __multi3(wide a, wide b) {
    halves x = {a}, y = {b}, r = product(x.part.low, y.part.low);
    r.part.high += x.part.high * y.part.low + x.part.low * y.part.high;
    return r.all;
}

wide __ashlti3(wide a, int by) {
    halves x = {a}, r = x;
    if (by & 64) {
        r.part.low = 0;
        r.part.high = x.part.low << (by & 63);
    } else if (by) {
        r.part.low = x.part.low << by;
        r.part.high = (x.part.high << by) | (x.part.low >> (64 - by));
    }
    return r.all;
}

wide __lshrti3(wide a, int by) {
    halves x = {a}, r = x;
    if (by & 64) {
        r.part.low = x.part.high >> (by & 63);
        r.part.high = 0;
    } else if (by) {
        r.part.low = (x.part.low >> by) | (x.part.high << (64 - by));
        r.part.high = x.part.high >> by;
    }
    return r.all;
}

wide __ashrti3(wide a, int by) {
    halves x = {a}, r = x;
    uint64_t sign = (uint64_t)((int64_t)x.part.high >> 63);
    if (by & 64) {
        r.part.low = (uint64_t)((int64_t)x.part.high >> (by & 63));
        r.part.high = sign;
    } else if (by) {
        r.part.low = (x.part.low >> by) | (x.part.high << (64 - by));
        r.part.high = (uint64_t)((int64_t)x.part.high >> by);
    }
    return r.all;
}

/* Each is one instruction of the module. */
void *memcpy(void *restrict to, const void *restrict from, size_t count) { return __builtin_memcpy(to, from, count); }
void *memmove(void *to, const void *from, size_t count) { return __builtin_memmove(to, from, count); }
void *memset(void *to, int byte, size_t count) { return __builtin_memset(to, byte, count); }

int memcmp(const void *a, const void *b, size_t count) {
    const uint8_t *x = a, *y = b;
    for (size_t at = 0; at < count; at++)
        if (x[at] != y[at])
            return x[at] < y[at] ? -1 : 1;
    return 0;
}

/* Each byte is the one of `from` at the place that the last four bits say, or 0 where the first bit is set. */
bytes16 ertime_pshufb(bytes16 from, bytes16 places) {
    bytes16 r;
    for (int at = 0; at < 16; at++)
        r[at] = places[at] & 0x80 ? 0 : from[places[at] & 15];
    return r;
}
