// Times the sweeps of a dual, as main.rt does, in C: gcc -O2 -o sweeps sweeps.c
// Each reads the dual that `run --dual yes` prints last, or makes two where there is none.
#include <stdint.h>
#include <stdio.h>
#include <stdlib.h>
#include <string.h>
#include <time.h>

typedef __int128 i128;
typedef unsigned __int128 u128;

enum { ROUNDS = 300, SWEEPS = 100, MOST_ROWS = 1024, MOST_DOFS = 64 };

typedef struct {
    i128 d;
    uint32_t shift;
    uint64_t inverse;
} Divisor;

typedef struct {
    int some;
    int64_t value;
} Bound;

static size_t m, nv;
static int64_t g[MOST_ROWS * MOST_DOFS], b[MOST_ROWS], f[MOST_ROWS], u[MOST_DOFS];
static i128 diag[MOST_ROWS], r[MOST_ROWS];
static Bound low[MOST_ROWS], high[MOST_ROWS];
static Divisor divisor[MOST_ROWS];
static size_t used[MOST_ROWS];

static u128 size_of(i128 n) { return n < 0 ? -(u128)n : (u128)n; }

static int zeros(u128 x) {
    uint64_t top = x >> 64;
    return top ? __builtin_clzll(top) : 64 + ((uint64_t)x ? __builtin_clzll((uint64_t)x) : 64);
}

static Divisor divisor_of(i128 d) {
    int free = zeros((u128)d), bits = 128 - free;
    Divisor v = {d, (bits < 11 ? 11 : bits > 74 ? 74 : bits) - 11, 0};
    v.inverse = (uint64_t)((~(u128)0 >> 1) / (((u128)d << free) >> 64));
    return v;
}

static u128 nearest_size(u128 n, u128 d) {
    u128 quotient = n / d, rest = n - quotient * d;
    return rest > d - rest ? quotient + 1 : quotient;
}

static i128 nearest_by(i128 n, const Divisor *by) {
    u128 size = size_of(n), d = (u128)by->d;
    u128 product = (u128)(uint64_t)(size >> by->shift) * by->inverse;
    uint64_t guess = (uint64_t)((product + ((u128)1 << 73)) >> 74);
    u128 near = (u128)guess * d, off = size > near ? size - near : near - size;
    u128 q = off <= (d - 1) >> 1 ? (u128)guess : nearest_size(size, d);
    return n < 0 ? -(i128)q : (i128)q;
}

// Whether u stays within its limit.
static int shift(const int64_t *row, size_t n, int64_t step) {
    if (size_of(step) <= 1 << 18) {
        for (size_t k = 0; k < n; k++) {
            int64_t x = u[k] + row[k] * step;
            if ((x < 0 ? -(uint64_t)x : (uint64_t)x) > (uint64_t)1 << 59) return 0;
            u[k] = x;
        }
    } else {
        for (size_t k = 0; k < n; k++) {
            i128 x = u[k] + (i128)row[k] * step;
            if (size_of(x) > (u128)1 << 59) return 0;
            u[k] = (int64_t)x;
        }
    }
    return 1;
}

// Whether all stays within its limits; what the cost changes by is added to *total.
static int update(size_t i, u128 *total) {
    const int64_t *row = g + i * nv;
    i128 along = 0, x;
    for (size_t k = 0; k < used[i]; k++) along += (i128)row[k] * u[k];
    i128 slope = along + r[i] * f[i] + ((i128)b[i] << 36);
    if (low[i].some && slope >= 0 && low[i].value == f[i]) {
        x = f[i];
    } else {
        x = f[i] + nearest_by(-slope, &divisor[i]);
        if (low[i].some && x < low[i].value) x = low[i].value;
        if (high[i].some && x > high[i].value) x = high[i].value;
    }
    if (size_of(x) > (u128)1 << 50) return 0;
    int64_t step = (int64_t)x - f[i];
    if (step == 0) return 1;
    if (!shift(row, used[i], step)) return 0;
    f[i] = (int64_t)x;
    *total += (u128)(i128)step * ((u128)slope + (u128)slope + (u128)divisor[i].d * (u128)(i128)step);
    return 1;
}

static int judge(void) {
    u128 weight = 0, pull = 0, term;
    for (size_t i = 0; i < m; i++) {
        if (__builtin_mul_overflow(size_of(r[i]), size_of((i128)f[i] * f[i]), &term)) return 0;
        if (__builtin_add_overflow(weight, term, &weight) || weight > (u128)1 << 124) return 0;
        pull += size_of((i128)b[i] * f[i]);
        if (pull > (u128)1 << 87) return 0;
    }
    return 1;
}

static int solve(int64_t tolerance) {
    memset(f, 0, sizeof f);
    memset(u, 0, sizeof u);
    for (size_t i = 0; i < m; i++) {
        divisor[i] = divisor_of(diag[i] + r[i]);
        used[i] = 0;
        for (size_t k = 0; k < nv; k++)
            if (g[i * nv + k]) used[i] = k + 1;
    }
    for (int s = 0; s < SWEEPS; s++) {
        u128 total = 0;
        for (size_t i = 0; i < m; i++)
            if (!update(i, &total)) return 0;
        if (!judge()) return 0;
        if (-(i128)total <= (i128)tolerance << 56) return s + 1;
    }
    return SWEEPS;
}

static void timed(void) {
    long least = 1L << 60;
    int made = 0;
    for (int round = 0; round < ROUNDS; round++) {
        struct timespec a, z;
        clock_gettime(CLOCK_MONOTONIC, &a);
        made = solve(43);
        clock_gettime(CLOCK_MONOTONIC, &z);
        long t = (z.tv_sec - a.tv_sec) * 1000000000L + z.tv_nsec - a.tv_nsec;
        if (t < least) least = t;
    }
    uint64_t sum = 0;
    for (size_t i = 0; i < m; i++) sum = sum * 31 + (uint64_t)f[i];
    printf("c: %zu rows, %zu dofs, %d sweeps, %ld ns, sum %lld\n", m, nv, made, least, (long long)sum);
}

static uint64_t state;

static uint64_t next(void) {
    state ^= state << 13;
    state ^= state >> 7;
    return state ^= state << 17;
}

static void begin(size_t i) {
    low[i] = (Bound){1, 0};
    high[i] = (Bound){0, 0};
    diag[i] = 0;
}

static void put(size_t i, size_t k, int64_t x) {
    g[i * nv + k] = x;
    diag[i] += (i128)x * x;
}

static void at_random(size_t rows, size_t dofs) {
    m = rows, nv = dofs, state = 88172645463325252u;
    for (size_t i = 0; i < m; i++) {
        begin(i);
        r[i] = (int64_t)(next() >> 16) | 1;
        b[i] = (int64_t)(next() >> 24) - ((int64_t)3 << 38);
        for (size_t k = 0; k < nv; k++) put(i, k, (int64_t)(next() >> 37) - (1 << 26));
    }
}

static int from_input(void) {
    static char line[1 << 16];
    int found = 0;
    while (fgets(line, sizeof line, stdin)) {
        if (sscanf(line, "dual %zu %zu", &m, &nv) == 2) {
            if (m > MOST_ROWS || nv > MOST_DOFS) return 0;
            m = 0, found = 1;
        } else if (found && line[0] == 'd' && line[1] == ' ') {
            char *at = line + 2;
            strtoll(at, &at, 10);
            begin(m);
            r[m] = strtoll(at, &at, 10);
            b[m] = strtoll(at, &at, 10);
            for (size_t k = 0; k < nv; k++) put(m, k, strtoll(at, &at, 10));
            m++;
        }
    }
    return found;
}

int main(void) {
    if (from_input()) {
        timed();
    } else {
        at_random(142, 30);
        timed();
        at_random(1024, 64);
        timed();
    }
    return 0;
}
