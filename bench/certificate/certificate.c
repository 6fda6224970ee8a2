/* The certificate of mj_cert in C, for comparison of times: gcc -O2 -o certificate certificate.c; ./certificate < DUMP, where DUMP is
   a block of a trace with its dual. It also says whether cost, bound and box are the ones of the block. */
#include <stdint.h>
#include <stdio.h>
#include <stdlib.h>
#include <string.h>
#include <time.h>

typedef __int128 i128;
typedef unsigned __int128 u128;
enum { ROWS = 1024, DOFS = 64, ROUNDS = 2000 };

static int m, nv;
static i128 r[ROWS];
static int64_t b[ROWS], g[ROWS * DOFS], f[ROWS], u[DOFS], lo[ROWS], hi[ROWS];
static i128 slope[ROWS], depth[ROWS];
static i128 cost2, bound2;

static inline int leading_zeros(u128 n) {
    return n >> 64 ? __builtin_clzll(n >> 64) : (uint64_t)n ? 64 + __builtin_clzll((uint64_t)n) : 128;
}
static inline int bits(u128 n) { return 128 - leading_zeros(n); }
static inline u128 size(i128 n) { return n < 0 ? -(u128)n : (u128)n; }
static inline u128 square(uint64_t s) { return (u128)s * s; }
static inline int is_root(u128 n, uint64_t s) { return square(s) <= n && n - square(s) <= 2 * (u128)s; }
static inline uint64_t high_product(uint64_t a, uint64_t c) { return (u128)a * c >> 64; }
static inline uint64_t closer(uint64_t x, uint64_t y) {
    return high_product(y, 0x2FFFFFFFFFFFFFFEu - high_product(x, high_product(y, y))) << 3;
}
static uint64_t root_of(u128 n) {
    int shift = leading_zeros(n) & 126;
    u128 raised = n << shift;
    uint64_t x = raised >> 64;
    uint64_t y = 0xAAEEF78E00000000u - high_product(x, 0xD243486900000000u - high_product(x, 0x68DE4BC300000000u));
    uint64_t inverse = closer(x, closer(x, closer(x, y)));
    uint64_t root = high_product(x, inverse) << 2;
    uint64_t rest = (uint64_t)((raised - square(root)) >> 32);
    uint64_t guess = (root + (uint64_t)((u128)rest * inverse >> 95)) >> (shift >> 1);
    if (is_root(n, guess)) return guess;
    if (is_root(n, guess + 1)) return guess + 1;
    uint64_t s = 0;
    for (int k = 63; k >= 0; k--) if (square(s | 1ull << k) <= n) s |= 1ull << k;
    return s;
}

typedef struct { i128 g, r, height; } curve;
static inline int has_risen(const curve *c, uint64_t k) {
    i128 last = c->r * k + c->g, h = last + c->g;
    if (last < 0) return 0;
    if (h < 0) return k == 0 && c->height == 0;
    u128 low = (u128)k * (uint64_t)h, high = (u128)k * (uint64_t)((u128)h >> 64) + (low >> 64);
    u128 t = c->height;
    return (t >> 64) < high || ((t >> 64) == high && (uint64_t)t <= (uint64_t)low);
}
static inline uint64_t quotient(u128 n, u128 d) {
    int wide = bits(n) < bits(d) ? bits(d) : bits(n);
    if (wide < 64) wide = 64;
    if (wide > bits(d) + 28) return n / d;
    uint64_t by = d >> (wide - 64);
    return (uint64_t)(n >> (wide - 64)) / (by + 1 ? by + 1 : by);
}
static inline uint64_t guess_of(const curve *c) {
    u128 a = size(c->g), t = size(c->height), r = size(c->r);
    if (c->g > 0 && bits(r) + 2 * bits(t) + 3 < 3 * bits(a)) return quotient(t >> 1, a) + 1;
    int wide = bits(r) + bits(t), over = wide > 124 ? wide - 124 : 0;
    int shift = bits(a) > 62 ? bits(a) - 62 : 0, half = over / 2 + over % 2;
    if (half > shift) shift = half;
    if (shift > 63) shift = 63;
    u128 s = a >> shift, under = (s * s + r * (t >> (2 * shift))) & (~(u128)0 >> 2);
    return quotient(size(((i128)root_of(under) << shift) - c->g), r) + 1;
}
static uint64_t bisect(const curve *c, uint64_t low, uint64_t high) {
    while (high - low > 1) { uint64_t k = low + (high - low) / 2; if (has_risen(c, k)) high = k; else low = k; }
    return high;
}
static long misses;
static inline int rise(const curve *c, uint64_t top, uint64_t *p) {
    if (!has_risen(c, top)) return 0;
    uint64_t k = guess_of(c);
    if (k > top) k = top;
    if (has_risen(c, k)) {
        if (k == 0 || !has_risen(c, k - 1)) *p = k;
        else { misses++; *p = has_risen(c, 0) ? 0 : bisect(c, 0, k - 1); }
    } else if (has_risen(c, k + 1)) *p = k + 1;
    else { misses++; *p = bisect(c, k + 1, top); }
    return 1;
}

static int certify(void) {
    i128 total = 0;
    for (int i = 0; i < m; i++) {
        i128 s = 0;
        for (int k = 0; k < nv; k++) s += (i128)g[i * nv + k] * u[k];
        s += r[i] * f[i] + ((i128)b[i] << 36);
        slope[i] = s;
        u128 a = size(s), e, R = r[i];
        if (s >= 0 && R * (u128)f[i] <= a) { if (f[i] == 0) e = 0; else if (__builtin_mul_overflow((u128)f[i], 2 * a - R * (u128)f[i], &e)) return 1; }
        else if (a == 0) e = 0;
        else if (__builtin_mul_overflow(a, (a + R - 1) / R, &e)) return 1;
        if (e > (u128)1 << 124) return 1;
        depth[i] = e;
        total += e;
        if (total > (i128)1 << 124) return 1;
    }
    for (int i = 0; i < m; i++) {
        curve up = {slope[i], r[i], total - depth[i]}, down = {-slope[i], r[i], total - depth[i]};
        uint64_t p;
        if (!rise(&up, 1ull << 50, &p)) return 2;
        hi[i] = f[i] + p;
        lo[i] = rise(&down, f[i], &p) ? f[i] - (int64_t)p : 0;
    }
    i128 c = 0, pull = 0;
    for (int k = 0; k < nv; k++) c += (i128)u[k] * u[k];
    for (int i = 0; i < m; i++) { c += r[i] * ((i128)f[i] * f[i]); pull += (i128)b[i] * f[i]; }
    cost2 = c + (pull << 37);
    bound2 = cost2 - total;
    return 0;
}

static i128 number(const char *s) {
    int minus = *s == '-';
    i128 n = 0;
    for (s += minus; *s >= '0' && *s <= '9'; s++) n = 10 * n + (*s - '0');
    return minus ? -n : n;
}
static void print(i128 n) {
    char t[48]; int at = 47; t[at] = 0;
    u128 a = size(n);
    do t[--at] = '0' + (int)(a % 10); while (a /= 10);
    if (n < 0) t[--at] = '-';
    printf("%s", t + at);
}

int main(void) {
    static char line[1 << 16];
    static int64_t want_lo[ROWS], want_hi[ROWS];
    i128 want_cost = 0, want_bound = 0;
    int rows = 0;
    while (fgets(line, sizeof line, stdin)) {
        char *w[DOFS + 16]; int n = 0;
        for (char *t = strtok(line, " \n"); t; t = strtok(0, " \n")) w[n++] = t;
        if (!strcmp(w[0], "row") && strcmp(w[n - 1], "idle")) { f[rows] = number(w[n - 3]); want_lo[rows] = number(w[n - 2]); want_hi[rows++] = number(w[n - 1]); }
        if (!strcmp(w[0], "cost")) { want_cost = number(w[1]); want_bound = number(w[2]); }
        if (!strcmp(w[0], "dual")) nv = number(w[2]);
        if (!strcmp(w[0], "d")) { r[m] = number(w[2]); b[m] = number(w[3]); for (int k = 0; k < nv; k++) g[m * nv + k] = number(w[4 + k]); m++; }
    }
    for (int k = 0; k < nv; k++) for (int i = 0; i < m; i++) u[k] += g[i * nv + k] * f[i];
    double least = 1e18;
    int status = 0;
    for (int round = 0; round < ROUNDS; round++) {
        struct timespec s, e;
        clock_gettime(CLOCK_MONOTONIC, &s);
        status = certify();
        clock_gettime(CLOCK_MONOTONIC, &e);
        double t = (e.tv_sec - s.tv_sec) * 1e9 + (e.tv_nsec - s.tv_nsec);
        if (t < least) least = t;
    }
    int wrong = 0;
    for (int i = 0; i < m; i++) wrong += lo[i] != want_lo[i] || hi[i] != want_hi[i];
    printf("c: %.0f ns, %d rows, status %d, %d wrong ends, cost %s bound %s, misses %ld\n", least, m, status, wrong, cost2 == want_cost ? "same" : "other", bound2 == want_bound ? "same" : "other", misses / ROUNDS);
    print(cost2); printf(" "); print(bound2); printf("\n");
    return 0;
}
