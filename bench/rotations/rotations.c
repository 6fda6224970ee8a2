/* Times sines, rotations about an axis and quaternions made units, as main.rt does.
   gcc -O2 -o rotations rotations.c */
#include <stdint.h>
#include <stdio.h>
#include <time.h>

typedef __int128 i128;
typedef unsigned __int128 u128;
enum { COUNT = 1024, ROUNDS = 2000 };

typedef struct { int64_t sine, cosine; } Pair;
typedef struct { int64_t w, x, y, z; } Quaternion;

static inline u128 size_of(i128 n) { return n < 0 ? -(u128)n : (u128)n; }
static inline i128 with_sign(i128 of, u128 m) { return of < 0 ? -(i128)m : (i128)m; }
static inline u128 nearest_size(u128 n, u128 d) {
    u128 q = n / d, rest = n - q * d;
    return rest > d - rest ? q + 1 : q;
}
static inline i128 nearest(i128 n, i128 d) { return with_sign(n, nearest_size(size_of(n), size_of(d))); }
static inline int leading_zeros(u128 n) {
    return n >> 64 ? __builtin_clzll(n >> 64) : (uint64_t)n ? 64 + __builtin_clzll((uint64_t)n) : 128;
}
static inline i128 nearest_shift(i128 n, int shift) {
    return with_sign(n, (size_of(n) + ((((u128)1 << shift) - 1) >> 1)) >> shift);
}

/* ---- roots, by Newton's steps for the inverse root */
static inline u128 square(uint64_t s) { return (u128)s * s; }
static inline int is_root(u128 n, uint64_t s) { return square(s) <= n && n - square(s) <= 2 * (u128)s; }
static inline uint64_t high_product(uint64_t a, uint64_t b) { return (u128)a * b >> 64; }
static inline uint64_t closer(uint64_t x, uint64_t y) {
    return high_product(y, 0x2FFFFFFFFFFFFFFE - high_product(x, high_product(y, y))) << 3;
}
static inline uint64_t isqrt(u128 n) {
    int shift = leading_zeros(n) & 126;
    u128 raised = n << shift;
    uint64_t x = raised >> 64;
    uint64_t y = 0xAAEEF78E00000000 - high_product(x, 0xD243486900000000 - high_product(x, 0x68DE4BC300000000));
    y = closer(x, closer(x, closer(x, y)));
    uint64_t root = high_product(x, y) << 2;
    uint64_t rest = (uint64_t)((raised - square(root)) >> 32);
    uint64_t guess = (root + (uint64_t)((u128)rest * y >> 95)) >> (shift >> 1);
    return is_root(n, guess) ? guess : guess + 1;
}

/* ---- sine and cosine */
/* a quarter turn at scale 61, and 2^124 over it */
static const int64_t QUARTER_TURN = 0x3243F6A8885A308D, INVERSE = 0x517CC1B727220A95;

static inline uint64_t next_size(uint64_t size, uint64_t z, uint32_t steps) {
    return (uint64_t)(((u128)size * z + (((u128)steps << 59) - 1)) >> 60) / steps;
}
typedef struct { uint64_t term, total; } Partial;
static inline Partial add_two(Partial p, uint64_t z, uint32_t first, uint32_t second) {
    uint64_t a = next_size(p.term, z, first), b = next_size(a, z, second);
    return (Partial){b, p.total - a + b};
}
static inline uint64_t sine_sum(uint64_t t, uint64_t z) {
    Partial p = {t, t};
    p = add_two(p, z, 6, 20), p = add_two(p, z, 42, 72), p = add_two(p, z, 110, 156), p = add_two(p, z, 210, 272);
    return p.total;
}
static inline uint64_t cosine_sum(uint64_t z) {
    Partial p = {1ull << 60, 1ull << 60};
    p = add_two(p, z, 2, 12), p = add_two(p, z, 30, 56), p = add_two(p, z, 90, 132), p = add_two(p, z, 182, 240);
    return p.total;
}
static inline Pair sin_cos(int64_t angle) {
    i128 fine = (i128)angle << 29;
    int64_t quarters = (int64_t)(((i128)angle * INVERSE + ((i128)1 << 94)) >> 95);
    i128 left = fine - (i128)quarters * QUARTER_TURN;
    if (size_of(left) > (u128)(QUARTER_TURN / 2)) {
        quarters = (int64_t)nearest(fine, QUARTER_TURN);
        left = fine - (i128)quarters * QUARTER_TURN;
    }
    int64_t rest = (int64_t)nearest_shift(left, 1);
    uint64_t t = (uint64_t)(rest < 0 ? -rest : rest);
    uint64_t z = (uint64_t)((square(t) + ((1ull << 59) - 1)) >> 60);
    int64_t s = (int64_t)((sine_sum(t, z) + ((1 << 27) - 1)) >> 28), c = (int64_t)((cosine_sum(z) + ((1 << 27) - 1)) >> 28);
    if (rest < 0) s = -s;
    switch (quarters & 3) {
        case 0: return (Pair){s, c};
        case 1: return (Pair){c, -s};
        case 2: return (Pair){-s, -c};
        default: return (Pair){-c, s};
    }
}

/* ---- rotations */
static inline int64_t round_product(int64_t a, int64_t b) { return (int64_t)nearest_shift((i128)a * b, 32); }
static inline Quaternion axis_angle(int64_t x, int64_t y, int64_t z, int64_t angle) {
    Pair p = sin_cos((int64_t)nearest_shift(angle, 1));
    return (Quaternion){p.cosine, round_product(x, p.sine), round_product(y, p.sine), round_product(z, p.sine)};
}
static inline int64_t over(int64_t n, int64_t length) { return (int64_t)nearest((i128)n * ((i128)1 << 32), length); }
static inline int renorm(const Quaternion *q, int64_t least, int64_t most, Quaternion *out) {
    i128 sum = (i128)q->w * q->w + (i128)q->x * q->x + (i128)q->y * q->y + (i128)q->z * q->z;
    int64_t length = (int64_t)isqrt((u128)sum);
    if (length < least || most < length) return 0;
    *out = (Quaternion){over(q->w, length), over(q->x, length), over(q->y, length), over(q->z, length)};
    return 1;
}

/* ---- the table */
static uint64_t next(uint64_t x) { x ^= x << 13; x ^= x >> 7; return x ^ x << 17; }
static inline int64_t number(uint64_t x, int from) { return (int64_t)((x >> from) % (1ull << 33)) - (1ll << 32); }
static inline int64_t angle(uint64_t x) { return (int64_t)(x >> 24) - (1ll << 39); }

static __attribute__((noinline)) int64_t sines(const uint64_t *t) {
    uint64_t sum = 0;
    for (int k = 0; k < COUNT; k++) { Pair p = sin_cos(angle(t[k])); sum += (uint64_t)(p.sine ^ p.cosine); }
    return (int64_t)sum;
}
static __attribute__((noinline)) int64_t rotations(const uint64_t *t) {
    uint64_t sum = 0;
    for (int k = 0; k < COUNT; k++) {
        Quaternion q = axis_angle(number(t[k], 0), number(t[k], 15), number(t[k], 31), angle(t[k]));
        sum += (uint64_t)(q.w ^ q.x ^ q.y ^ q.z);
    }
    return (int64_t)sum;
}
static __attribute__((noinline)) int64_t units(const uint64_t *t) {
    uint64_t sum = 0;
    for (int k = 0; k < COUNT; k++) {
        Quaternion q = {number(t[k], 7), number(t[k], 0), number(t[k], 15), number(t[k], 31)};
        if (renorm(&q, 1 << 20, 1ll << 34, &q)) sum += (uint64_t)(q.w ^ q.x ^ q.y ^ q.z);
    }
    return (int64_t)sum;
}

static long now(void) { struct timespec t; clock_gettime(CLOCK_MONOTONIC, &t); return t.tv_sec * 1000000000L + t.tv_nsec; }

int main(void) {
    static uint64_t t[COUNT];
    uint64_t x = 88172645463325252u, sum = 0;
    for (int k = 0; k < COUNT; k++) t[k] = x = next(x);
    int64_t (*parts[])(const uint64_t *) = {sines, rotations, units};
    long least[3] = {1L << 60, 1L << 60, 1L << 60};
    for (int r = 0; r < ROUNDS; r++)
        for (int p = 0; p < 3; p++) {
            long start = now();
            sum += (uint64_t)parts[p](t);
            long spent = now() - start;
            if (spent < least[p]) least[p] = spent;
        }
    printf("c: sin_cos %ld axis_angle %ld renorm %ld sum %ld\n", least[0], least[1], least[2], (int64_t)sum);
}
