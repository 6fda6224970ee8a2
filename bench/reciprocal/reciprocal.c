/* Times rounded quotients by a division and by a reciprocal, as main.rt does. gcc -O2 -o reciprocal reciprocal.c */
#include <stdint.h>
#include <stdio.h>
#include <time.h>

typedef __int128 i128;
typedef unsigned __int128 u128;
enum { COUNT = 1024, ROUNDS = 2000 };

typedef struct { i128 d; uint32_t shift; uint64_t inverse; } Divisor;
typedef struct { i128 n; Divisor by; } Quotient;

static int misses;

static inline u128 size_of(i128 n) { return n < 0 ? -(u128)n : (u128)n; }
static inline i128 with_sign(i128 of, u128 m) { return of < 0 ? -(i128)m : (i128)m; }
static inline int bits_of(u128 d) { return (d >> 64) ? 128 - __builtin_clzll(d >> 64) : 64 - __builtin_clzll(d); }

static inline u128 nearest_size(u128 n, u128 d) {
    u128 q = n / d, rest = n - q * d;
    return rest > d - rest ? q + 1 : q;
}

static inline i128 nearest(i128 n, i128 d) { return with_sign(n, nearest_size(size_of(n), size_of(d))); }

static inline Divisor divisor(i128 d) {
    int bits = bits_of(d);
    uint64_t leading = (uint64_t)(((u128)d << (128 - bits)) >> 64);
    return (Divisor){d, bits < 11 ? 0 : bits - 11, (uint64_t)((~(u128)0 >> 1) / leading)};
}

static inline i128 nearest_by(i128 n, const Divisor *by) {
    u128 size = size_of(n), d = (u128)by->d;
    uint64_t guess = (uint64_t)(((u128)(uint64_t)(size >> by->shift) * by->inverse + ((u128)1 << 73)) >> 74);
    u128 product = guess * d, gap = size < product ? product - size : size - product;
    if (gap <= (d - 1) >> 1) return with_sign(n, guess);
    misses++;
    return with_sign(n, nearest_size(size, d));
}

static uint64_t next(uint64_t x) { x ^= x << 13; x ^= x >> 7; return x ^ x << 17; }

static Quotient row(uint64_t x) {
    uint64_t y = next(x);
    i128 d = ((i128)(y >> (x & 7)) + 1) * 512, q = (i128)(next(y) >> 24) - ((i128)1 << 39);
    return (Quotient){q * d + (i128)(y >> 1), divisor(d)};
}

static Quotient entry(uint64_t x) {
    uint64_t y = next(x);
    i128 d = (i128)(y >> 2 >> (x & 15)) + 1, w = (i128)(next(y) >> 2 >> (x & 15)) - (i128)(y >> 3 >> (x & 15));
    return (Quotient){w * ((i128)1 << 32), divisor(d)};
}

static Quotient far(uint64_t x) {
    uint64_t y = next(x);
    return (Quotient){(i128)(next(y) >> 4) * ((i128)1 << 32), divisor((i128)(y >> 44) + 1024)};
}

static __attribute__((noinline)) i128 by_division(const Quotient *t) {
    u128 total = 0;
    for (int k = 0; k < COUNT; k++) total += nearest(t[k].n, t[k].by.d);
    return total;
}

static __attribute__((noinline)) i128 by_reciprocal(const Quotient *t) {
    u128 total = 0;
    for (int k = 0; k < COUNT; k++) total += nearest_by(t[k].n, &t[k].by);
    return total;
}

static __attribute__((noinline)) i128 with_setup(const Quotient *t) {
    u128 total = 0;
    for (int k = 0; k < COUNT; k++) { Divisor by = divisor(t[k].by.d); total += nearest_by(t[k].n, &by); }
    return total;
}

static long now(void) { struct timespec t; clock_gettime(CLOCK_MONOTONIC, &t); return t.tv_sec * 1000000000L + t.tv_nsec; }

static void measure(const char *name, const Quotient *t) {
    long least[3] = {1L << 60, 1L << 60, 1L << 60};
    u128 total = 0;
    misses = 0;
    by_reciprocal(t);
    int missed = misses;
    for (int r = 0; r < ROUNDS; r++) {
        long s0 = now(); u128 a = by_division(t);
        long s1 = now(); u128 b = by_reciprocal(t);
        long s2 = now(); u128 c = with_setup(t);
        long s3 = now(), each[3] = {s1 - s0, s2 - s1, s3 - s2};
        for (int k = 0; k < 3; k++) if (each[k] < least[k]) least[k] = each[k];
        total += a ^ b ^ c;
    }
    printf("c %s: by_division %ld by_reciprocal %ld with_setup %ld low sum %lu missed %d\n", name, least[0], least[1], least[2], (uint64_t)total, missed);
}

int main(void) {
    static Quotient rows[COUNT], entries[COUNT], fars[COUNT];
    uint64_t x = 88172645463325252u;
    for (int k = 0; k < COUNT; k++) { x = next(x); rows[k] = row(x); entries[k] = entry(x); fars[k] = far(x); }
    measure("row", rows);
    measure("entry", entries);
    measure("far", fars);
}
