// The trace of `mj run --model examples/fine.toml --steps 1000000` with no physics: the two numbers that
// change are moved on by the written rule of one sliding body, and printed two digits at a time into
// pieces of 64 KiB. Beside `cat` of the same bytes it shows what printing alone costs.
#include <stdint.h>
#include <string.h>
#include <unistd.h>

enum { PIECE = 65536, LONGEST = 256, STEPS = 1000000 };
static const int64_t STEP = 42950; // 10 microseconds, at scale 32
static char page[PIECE + LONGEST], pairs[200];
static char *at = page;

static void text(const char *s, size_t n) {
  memcpy(at, s, n);
  at += n;
}

static void number(int64_t x) {
  char digits[20], *first = digits + 20;
  uint64_t n = x < 0 ? -(uint64_t)x : (uint64_t)x;
  if (x < 0) *at++ = '-';
  for (; n >= 100; n /= 100) memcpy(first -= 2, pairs + 2 * (n % 100), 2);
  if (n >= 10) memcpy(first -= 2, pairs + 2 * n, 2);
  else *--first = (char)('0' + n);
  text(first, (size_t)(digits + 20 - first));
}

static int flush(void) {
  for (char *from = page; from < at;) {
    ssize_t n = write(1, from, (size_t)(at - from));
    if (n <= 0) return 1;
    from += n;
  }
  at = page;
  return 0;
}

// x / 2^32 to the nearest, a tie towards zero
static int64_t settle(int64_t x) {
  int64_t size = ((x < 0 ? -x : x) + ((1ll << 31) - 1)) >> 32;
  return x < 0 ? -size : size;
}

#define TEXT(s) text(s, sizeof s - 1)

int main(void) {
  int64_t q = 0, v = 0;
  for (int k = 0; k < 100; k++) {
    pairs[2 * k] = (char)('0' + k / 10);
    pairs[2 * k + 1] = (char)('0' + k % 10);
  }
  TEXT("trace 1 nq=1 nv=1 steps=1000000\n");
  for (int64_t k = 1; k <= STEPS; k++) {
    v -= STEP;
    q += settle(v * STEP);
    TEXT("step ");
    number(k);
    TEXT("\nq ");
    number(q);
    TEXT("\nv ");
    number(v);
    TEXT("\na -4294967296\nresidual 0\nradius 0 0\nrows 0 idle 0\nstop none\ncost 0 0\n");
    if (at - page >= PIECE && flush()) return 1;
  }
  TEXT("end done\n");
  return flush();
}
