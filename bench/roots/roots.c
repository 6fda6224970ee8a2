/* Times integer square roots by divisions and by products, beside main.rt. gcc -O2 -o roots roots.c */
#include <stdint.h>
#include <stdio.h>
#include <time.h>

typedef unsigned __int128 u128;
enum { COUNT = 1024, ROUNDS = 5000 };

static inline int leading_zeros(u128 n) {
    return n >> 64 ? __builtin_clzll(n >> 64) : (uint64_t)n ? 64 + __builtin_clzll((uint64_t)n) : 128;
}
static inline u128 square(uint64_t s) { return (u128)s * s; }
static inline int is_root(u128 n, uint64_t s) { return square(s) <= n && n - square(s) <= 2 * (u128)s; }
static inline uint64_t high_product(uint64_t a, uint64_t b) { return (u128)a * b >> 64; }

/* Newton's steps for the root, four divisions of 64 bits */
static inline uint64_t newton(uint64_t n, uint64_t r) { uint64_t s = (r + n / r) >> 1; return s ? s : 1; }
static inline uint64_t by_divisions(u128 n) {
    if (!n) return 0;
    int shift = leading_zeros(n) & 126;
    u128 raised = n << shift;
    uint64_t high = raised >> 64, low = (uint64_t)raised;
    uint64_t root = newton(high, newton(high, newton(high, (high >> 33) + (high >> 35) + 0x5D000000)));
    if (root * root > high) root--;
    uint64_t rest = high - root * root;
    uint64_t guess = (uint64_t)((((u128)root << 32) + (rest << 31 | low >> 33) / root) >> (shift >> 1));
    if (square(guess) > n) guess--;
    return is_root(n, guess) ? guess : 0;
}

/* Newton's steps for the inverse root, rounded down, so that the root is never too large: no division */
static inline uint64_t closer(uint64_t x, uint64_t y) {
    return high_product(y, 0x2FFFFFFFFFFFFFFE - high_product(x, high_product(y, y))) << 3;
}
static inline uint64_t by_products(u128 n) {
    int shift = leading_zeros(n) & 126;
    u128 raised = n << shift;
    uint64_t x = raised >> 64;
    uint64_t y = 0xAAEEF78E00000000 - high_product(x, 0xD243486900000000 - high_product(x, 0x68DE4BC300000000));
    y = closer(x, closer(x, closer(x, y)));
    uint64_t root = high_product(x, y) << 2;
    uint64_t rest = (uint64_t)((raised - square(root)) >> 32);
    uint64_t guess = (root + (uint64_t)((u128)rest * y >> 95)) >> (shift >> 1);
    return is_root(n, guess) ? guess : is_root(n, guess + 1) ? guess + 1 : 0;
}

static uint64_t next(uint64_t x) { x ^= x << 13; x ^= x >> 7; return x ^ x << 17; }
#define SUM(name, root) \
    static __attribute__((noinline)) uint64_t name(const u128 *t) { \
        uint64_t sum = 0; \
        for (int k = 0; k < COUNT; k++) sum += root(t[k]); \
        return sum; \
    }
SUM(divisions, by_divisions)
SUM(products, by_products)

static long now(void) { struct timespec t; clock_gettime(CLOCK_MONOTONIC, &t); return t.tv_sec * 1000000000L + t.tv_nsec; }

int main(void) {
    static u128 t[COUNT];
    uint64_t x = 88172645463325252u;
    for (int k = 0; k < COUNT; k++) { x = next(x); t[k] = ((u128)x << 64 | next(x)) >> (2 + (x & 63)); }
    uint64_t (*ways[])(const u128 *) = {divisions, products};
    long least[2] = {1L << 60, 1L << 60};
    uint64_t sum[2] = {0, 0};
    for (int r = 0; r < ROUNDS; r++)
        for (int w = 0; w < 2; w++) {
            long start = now();
            sum[w] += ways[w](t);
            long spent = now() - start;
            if (spent < least[w]) least[w] = spent;
        }
    printf("c: divisions %ld sum %lu products %ld sum %lu\n", least[0], sum[0], least[1], sum[1]);
}
