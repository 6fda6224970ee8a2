#include <stdint.h>
#include <stdio.h>

typedef __int128 wide;
typedef unsigned __int128 uwide;

static const int64_t ONE = (int64_t)1 << 32;

/* n / 2^32 to the nearest, a tie to the one nearer to zero */
static wide nearest_shift(wide n) {
    uwide size = n < 0 ? -(uwide)n : (uwide)n;
    uwide divisor = (uwide)1 << 32;
    wide whole = (wide)((size + ((divisor - 1) >> 1)) >> 32);
    return n < 0 ? -whole : whole;
}

static int64_t times(int64_t a, int64_t b) {
    wide value = nearest_shift((wide)a * b);
    uwide size = value < 0 ? -(uwide)value : (uwide)value;
    return size <= (uwide)ONE ? (int64_t)value : 0;
}

int main(void) {
    int64_t last = (int64_t)1 << 30, now = 1234567890;
    uint64_t sum = 0;
    for (uint64_t i = 0; i < 100 * 500000ull; i++) {
        int64_t square = times(now, now);
        int64_t cross = times(now, last);
        last = now;
        now = ONE - 2 * square;
        sum += (uint64_t)cross;
    }
    printf("%lld\n", (long long)(int64_t)sum);
    return 0;
}
