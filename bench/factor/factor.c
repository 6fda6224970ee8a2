/* Times the factor of a mass matrix and solves with it, as main.rt does, in C: gcc -O2 -o factor factor.c; ./factor < MASS, where
   MASS is what main.rt prints. It is for chains: each dof is above all later ones. */
#include <stdint.h>
#include <stdio.h>
#include <stdlib.h>
#include <string.h>
#include <time.h>

typedef __int128 i128;
typedef unsigned __int128 u128;
enum { DOFS = 64, ENTRIES = DOFS * DOFS, ROUNDS = 3000 };

typedef struct { i128 d; uint32_t shift; uint64_t inverse; } Divisor;
typedef struct { int64_t mid; uint64_t rad; } Near;

static size_t nv;
static Near mass[ENTRIES];
static size_t at[DOFS + 1], above[ENTRIES];
static int64_t w[ENTRIES], l[ENTRIES], d[DOFS];

static inline u128 size_of(i128 n) { return n < 0 ? -(u128)n : (u128)n; }
static inline i128 with_sign(i128 of, u128 m) { return of < 0 ? -(i128)m : (i128)m; }
static inline int zeros(u128 x) {
    uint64_t top = x >> 64;
    return top ? __builtin_clzll(top) : 64 + ((uint64_t)x ? __builtin_clzll((uint64_t)x) : 64);
}
static inline i128 nearest_shift(i128 n, int shift) { return with_sign(n, (size_of(n) + ((((u128)1 << shift) - 1) >> 1)) >> shift); }
static inline u128 nearest_size(u128 n, u128 by) {
    u128 q = n / by, rest = n - q * by;
    return rest > by - rest ? q + 1 : q;
}
static inline i128 nearest(i128 n, i128 by) { return with_sign(n, nearest_size(size_of(n), size_of(by))); }
static inline Divisor divisor_of(i128 by) {
    int spare = zeros((u128)by), bits = 128 - spare;
    Divisor v = {by, (bits < 11 ? 11 : bits > 74 ? 74 : bits) - 11, 0};
    v.inverse = (uint64_t)((~(u128)0 >> 1) / (((u128)by << spare) >> 64));
    return v;
}
static inline i128 nearest_by(i128 n, const Divisor *by) {
    u128 size = size_of(n), to = (u128)by->d;
    uint64_t guess = (uint64_t)(((u128)(uint64_t)(size >> by->shift) * by->inverse + ((u128)1 << 73)) >> 74);
    u128 product = (u128)guess * to, off = product > size ? product - size : size - product;
    return with_sign(n, off <= (to - 1) >> 1 ? (u128)guess : nearest_size(size, to));
}

static inline u128 square(uint64_t s) { return (u128)s * s; }
static inline int is_root(u128 n, uint64_t s) { return square(s) <= n && n - square(s) <= 2 * (u128)s; }
static inline uint64_t high_product(uint64_t a, uint64_t b) { return (u128)a * b >> 64; }
static inline uint64_t closer(uint64_t x, uint64_t y) {
    return high_product(y, 0x2FFFFFFFFFFFFFFE - high_product(x, high_product(y, y))) << 3;
}
static uint64_t root_of(u128 n) {
    int shift = zeros(n) & 126;
    u128 raised = n << shift;
    uint64_t x = raised >> 64;
    uint64_t y = 0xAAEEF78E00000000 - high_product(x, 0xD243486900000000 - high_product(x, 0x68DE4BC300000000));
    y = closer(x, closer(x, closer(x, y)));
    uint64_t root = high_product(x, y) << 2;
    uint64_t rest = (uint64_t)((raised - square(root)) >> 32);
    uint64_t guess = (root + (uint64_t)((u128)rest * y >> 95)) >> (shift >> 1);
    if (is_root(n, guess)) return guess;
    if (is_root(n, guess + 1)) return guess + 1;
    uint64_t s = 0;
    for (int k = 63; k >= 0; k--) if (square(s | 1ull << k) <= n) s |= 1ull << k;
    return s;
}

static inline size_t height(size_t k) { return at[k + 1] - at[k]; }
static inline int is_above(size_t i, size_t k) {
    size_t place = at[k] + height(i);
    return place < at[k + 1] && above[place] == i + 1;
}

static int factor_row(size_t k) {
    i128 sums[DOFS + 1] = {0};
    for (size_t j = k + 1; j < nv; j++)
        if (is_above(k, j)) {
            size_t n = height(k) + 1;
            const int64_t *row = w + at[j];
            int64_t by = l[at[j] + height(k)];
            for (size_t c = 0; c < n; c++) sums[c] += (i128)by * row[c];
        }
    size_t last = height(k);
    i128 pivot = (i128)mass[k * nv + k].mid - nearest_shift(sums[last], 32);
    if (pivot < 1 << 10 || pivot > (i128)1 << 60) return 0;
    d[k] = (int64_t)pivot;
    Divisor by = divisor_of(pivot);
    for (size_t c = 0; c < last; c++) {
        size_t place = at[k] + c;
        i128 x = (i128)mass[k * nv + above[place] - 1].mid - nearest_shift(sums[c], 32);
        if (size_of(x) > (u128)1 << 60) return 0;
        i128 q = nearest_by(x << 32, &by);
        if (size_of(q) > (u128)1 << 48) return 0;
        w[place] = (int64_t)x, l[place] = (int64_t)q;
    }
    return 1;
}
static int factor(void) {
    for (size_t s = 0; s < nv; s++) if (!factor_row(nv - 1 - s)) return 0;
    return 1;
}

static inline int back_number(size_t k, int64_t x, int limit, i128 *sums, int64_t *to) {
    i128 y = (i128)x - nearest_shift(sums[k], 32);
    if (size_of(y) > (u128)1 << limit) return 0;
    *to = (int64_t)y;
    if (y) for (size_t c = 0; c < height(k); c++) sums[above[at[k] + c] - 1] += (i128)l[at[k] + c] * (int64_t)y;
    return 1;
}
static int solve(const int64_t *rhs, int64_t *a) {
    i128 sums[DOFS + 1] = {0};
    for (size_t s = 0; s < nv; s++) if (!back_number(nv - 1 - s, rhs[nv - 1 - s], 56, sums, a + nv - 1 - s)) return 0;
    for (size_t i = 0; i < nv; i++) {
        i128 z = nearest((i128)a[i] << 40, d[i]), sum = 0;
        if (size_of(z) > (u128)1 << 56) return 0;
        for (size_t c = 0; c < height(i); c++) sum += (i128)l[at[i] + c] * a[above[at[i] + c] - 1];
        i128 x = z - nearest_shift(sum, 32);
        if (size_of(x) > (u128)1 << 56) return 0;
        a[i] = (int64_t)x;
    }
    return 1;
}
static int half_solve(const int64_t *row, int64_t *g) {
    i128 sums[DOFS + 1] = {0};
    for (size_t s = 0; s < nv; s++) {
        size_t k = nv - 1 - s;
        int64_t y;
        if (!back_number(k, row[k], 48, sums, &y)) return 0;
        i128 x = y ? nearest((i128)y << 24, root_of((u128)d[k] << 24)) : 0;
        if (size_of(x) > (u128)1 << 44) return 0;
        g[k] = (int64_t)x;
    }
    return 1;
}

static uint64_t mixed(uint64_t sum, const int64_t *x, size_t n) {
    for (size_t i = 0; i < n; i++) sum = sum * 31 + (uint64_t)x[i];
    return sum;
}
static long now(void) { struct timespec t; clock_gettime(CLOCK_MONOTONIC, &t); return t.tv_sec * 1000000000L + t.tv_nsec; }

int main(void) {
    static char line[1 << 16];
    static int64_t full[DOFS], end[DOFS], to[DOFS], half[DOFS];
    size_t read = 0;
    while (fgets(line, sizeof line, stdin)) {
        if (sscanf(line, "mass %zu", &nv) == 1) { if (nv > DOFS) return 1; }
        else if (read < nv * nv) mass[read++].mid = strtoll(line, 0, 10);
    }
    for (size_t k = 0; k < nv; k++) {
        at[k + 1] = at[k] + k;
        for (size_t i = 0; i < k; i++) above[at[k] + i] = i + 1;
        full[k] = ((int64_t)(k % 7) - 3) * (1 << 28);
        end[k] = k + 1 == nv ? (int64_t)1 << 32 : 0;
    }
    long least[3] = {1L << 60, 1L << 60, 1L << 60};
    uint64_t sum = 0;
    for (int round = 0; round < ROUNDS; round++) {
        long a = now();
        int made = factor();
        long b = now();
        int done = solve(full, to);
        long c = now();
        int halved = half_solve(end, half);
        long e = now(), each[3] = {b - a, c - b, e - c};
        for (int k = 0; k < 3; k++) if (each[k] < least[k]) least[k] = each[k];
        sum = 0;
        if (made && done) sum = mixed(sum, to, nv);
        if (made && halved) sum = mixed(sum, half, nv);
        sum = mixed(mixed(sum, d, nv), l, at[nv]);
    }
    printf("c: %zu dofs, factor %ld solve %ld half %ld ns, sum %lld\n", nv, least[0], least[1], least[2], (long long)sum);
    return 0;
}
