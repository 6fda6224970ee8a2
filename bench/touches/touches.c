/* Times pairs of capsules that are near to one another and pairs that are far apart, as main.rattle does.
   gcc -O2 -o touches touches.c */
#include <stdint.h>
#include <stdio.h>
#include <time.h>

typedef __int128 i128;
typedef unsigned __int128 u128;
enum { COUNT = 1024, ROUNDS = 2000 };

typedef struct { int64_t x, y, z; } Vector;
typedef struct { int64_t w, x, y, z; } Quaternion;
typedef struct { Vector center; Quaternion turn; int64_t radius, half; } Capsule;

static inline u128 size_of(i128 n) { return n < 0 ? -(u128)n : (u128)n; }
static inline i128 with_sign(i128 of, u128 m) { return of < 0 ? -(i128)m : (i128)m; }
static inline i128 nearest(i128 n, i128 d) {
    u128 size = size_of(n), q = size / (u128)d, rest = size - q * (u128)d;
    return with_sign(n, rest > (u128)d - rest ? q + 1 : q);
}
static inline i128 nearest_shift(i128 n, int shift) {
    return with_sign(n, (size_of(n) + ((((u128)1 << shift) - 1) >> 1)) >> shift);
}
static inline int leading_zeros(u128 n) {
    return n >> 64 ? __builtin_clzll(n >> 64) : (uint64_t)n ? 64 + __builtin_clzll((uint64_t)n) : 128;
}

/* ---- roots, by Newton's steps for the inverse root */
static inline u128 square(uint64_t s) { return (u128)s * s; }
static inline int is_root(u128 n, uint64_t s) { return square(s) <= n && n - square(s) <= 2 * (u128)s; }
static inline uint64_t high_product(uint64_t a, uint64_t b) { return (u128)a * b >> 64; }
static inline uint64_t closer(uint64_t x, uint64_t y) {
    return high_product(y, 0x2FFFFFFFFFFFFFFE - high_product(x, high_product(y, y))) << 3;
}
static inline uint64_t isqrt(u128 n) {
    int shift = leading_zeros(n) & 126;
    u128 raised = n << shift;
    uint64_t x = raised >> 64;
    uint64_t y = 0xAAEEF78E00000000 - high_product(x, 0xD243486900000000 - high_product(x, 0x68DE4BC300000000));
    y = closer(x, closer(x, closer(x, y)));
    uint64_t root = high_product(x, y) << 2;
    uint64_t rest = (uint64_t)((raised - square(root)) >> 32);
    uint64_t guess = (root + (uint64_t)((u128)rest * y >> 95)) >> (shift >> 1);
    return is_root(n, guess) ? guess : guess + 1;
}

/* ---- vectors */
static inline i128 product(int64_t a, int64_t b) { return (i128)a * b; }
static inline int64_t along(Vector a, Vector d) {
    return nearest_shift(product(a.x, d.x) + product(a.y, d.y) + product(a.z, d.z), 32);
}
static inline int64_t moved_one(int64_t c, int64_t n, int64_t k) {
    return nearest_shift(((i128)c << 32) + product(n, k), 32);
}
static inline Vector moved(Vector c, Vector n, int64_t k) {
    return (Vector){moved_one(c.x, n.x, k), moved_one(c.y, n.y, k), moved_one(c.z, n.z, k)};
}
static inline Vector minus(Vector a, Vector b) { return (Vector){a.x - b.x, a.y - b.y, a.z - b.z}; }
static inline Vector axis(Quaternion q) {
    return (Vector){
        nearest_shift(2 * (product(q.x, q.z) + product(q.w, q.y)), 32),
        nearest_shift(2 * (product(q.y, q.z) - product(q.w, q.x)), 32),
        nearest_shift(((i128)1 << 64) - 2 * (product(q.x, q.x) + product(q.y, q.y)), 32)};
}

/* ---- pairs */
static inline int64_t balls(Vector c, int64_t r, Vector e, int64_t s, int64_t margin) {
    Vector d = minus(e, c);
    int64_t length = isqrt(product(d.x, d.x) + product(d.y, d.y) + product(d.z, d.z));
    int64_t dist = length - r - s;
    if (dist >= margin) return 1;
    Vector n = {0, 0, (int64_t)1 << 32};
    if (length > 0)
        n = (Vector){nearest((i128)d.x << 32, length), nearest((i128)d.y << 32, length), nearest((i128)d.z << 32, length)};
    Vector point = moved(c, n, r + (int64_t)nearest_shift(dist, 1));
    /* so that the whole point is computed */
    volatile int64_t y = point.y, z = point.z;
    (void)y, (void)z;
    return dist ^ point.x ^ n.z;
}
static inline int64_t hold(int64_t most, i128 n) { return n < -most ? -most : most < n ? most : (int64_t)n; }
static inline int is_apart(int64_t most, int64_t x, int64_t y) { return most < (y > x ? y - x : x - y); }
static int64_t pair(const Capsule *a, const Capsule *b, int64_t margin) {
    int64_t limit = a->radius + a->half + (1 << 15) + b->radius + b->half + (1 << 15) + margin;
    if (is_apart(limit, a->center.x, b->center.x) || is_apart(limit, a->center.y, b->center.y)
        || is_apart(limit, a->center.z, b->center.z))
        return 1;
    Vector v = axis(a->turn), w = axis(b->turn), d = minus(b->center, a->center);
    int64_t u = along(v, w), p = along(v, d), q = along(w, d);
    i128 spread = ((i128)1 << 64) - product(u, u);
    i128 free = (i128)1 << 44 < spread ? nearest((((i128)p << 32) - product(u, q)) << 32, spread) : p;
    int64_t t = hold(b->half, nearest_shift(product(u, hold(a->half, free)), 32) - q);
    int64_t s = hold(a->half, p + nearest_shift(product(u, t), 32));
    return balls(moved(a->center, v, s), a->radius, moved(b->center, w, t), b->radius, margin);
}

/* ---- a table of capsules */
static uint64_t next(uint64_t x) {
    uint64_t a = x ^ (x << 13), b = a ^ (a >> 7);
    return b ^ (b << 17);
}
static int64_t number(uint64_t x, int from) { return (int64_t)((x >> from) % ((uint64_t)1 << 33)) - ((int64_t)1 << 32); }
static Quaternion turn(uint64_t x) {
    Quaternion q = {number(x, 7), number(x, 0), number(x, 15), number(x, 31)};
    int64_t length = isqrt(product(q.w, q.w) + product(q.x, q.x) + product(q.y, q.y) + product(q.z, q.z));
    if (length < (int64_t)1 << 31 || (int64_t)1 << 34 < length) return (Quaternion){(int64_t)1 << 32, 0, 0, 0};
    return (Quaternion){nearest((i128)q.w << 32, length), nearest((i128)q.x << 32, length),
                        nearest((i128)q.y << 32, length), nearest((i128)q.z << 32, length)};
}
static Capsule capsule(uint64_t x, int64_t times) {
    return (Capsule){{times * number(x, 0), times * number(x, 15), times * number(x, 31)}, turn(next(x)),
                     (int64_t)1 << 29, (int64_t)1 << 31};
}
static int64_t pairs(const Capsule *table, int64_t margin) {
    int64_t sum = 0;
    for (int i = 1; i < COUNT; i++) sum += pair(&table[i - 1], &table[i], margin);
    return sum;
}
static int64_t now(void) {
    struct timespec t;
    clock_gettime(CLOCK_MONOTONIC, &t);
    return t.tv_sec * 1000000000ll + t.tv_nsec;
}

int main(void) {
    static Capsule near[COUNT], far[COUNT];
    uint64_t x = 88172645463325252u;
    for (int k = 0; k < COUNT; k++) {
        x = next(x);
        near[k] = capsule(x, 1);
        far[k] = capsule(x, 1024);
    }
    int64_t least[2] = {INT64_MAX, INT64_MAX}, sum = 0;
    for (int round = 0; round < ROUNDS; round++) {
        int64_t start = now(), a = pairs(near, (int64_t)1 << 32), one = now() - start;
        start = now();
        int64_t b = pairs(far, 1 << 20), two = now() - start;
        if (one < least[0]) least[0] = one;
        if (two < least[1]) least[1] = two;
        sum += a + b;
    }
    printf("c: near %lld far %lld sum %lld\n", (long long)least[0], (long long)least[1], (long long)sum);
}
