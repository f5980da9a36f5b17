// Ways of counting the prices that are ahead of another, as plain C, one for each SHAPE: bench/search.py times each by itself, and in the place
// of the proved one. All take what the proved one takes, and give what it gives on prices in order.
typedef unsigned int u32;
typedef unsigned long place;
typedef unsigned char side_number;

// With all bits of an ask turned the higher number comes first on either side: then nothing asks for the side.
static u32 turn_of(side_number side) { return side ? 0xFFFFFFFFu : 0u; }

static place count_run(const u32 *prices, place from, place to, u32 turn, u32 key) {
  u32 count = 0;
  for (place i = from; i < to; i += 1)
    if (key < (prices[i] ^ turn)) count += 1;
  return count;
}

// The last place of each block of 16, then one run of 16 places.
static place count_by_run(const u32 *prices, place n, u32 turn, u32 key) {
  place from = 0, to = n;
  if (16 <= n) {
    for (place last = 15; last < n; last += 16)
      if (key < (prices[last] ^ turn)) from += 16;
    if (n - 16 < from) from = n - 16;
    to = from + 16;
  }
  return from + count_run(prices, from, to, turn, key);
}

// `from`, or the place `by` further on, but none behind `last`, if the price there is ahead.
static place nearer(const u32 *prices, place last, place from, place by, u32 turn, u32 key) {
  place at = from + by;
  if (last < at) at = last;
  return key < (prices[at] ^ turn) ? at : from;
}

// Three steps, each half as far as the one before, then one run of 16 places.
static place count_by_steps(const u32 *prices, place n, u32 turn, u32 key) {
  if (n < 16) return count_run(prices, 0, n, turn, key);
  place far = nearer(prices, n - 16, 0, 64, turn, key);
  place near = nearer(prices, n - 16, far, 32, turn, key);
  place from = nearer(prices, n - 16, near, 16, turn, key);
  return from + count_run(prices, from, from + 16, turn, key);
}

// Seven steps to one place.
static place count_by_halves(const u32 *prices, place n, u32 turn, u32 key) {
  place at = 0;
  if (n == 0) return 0;
  for (place by = 64; by > 0; by /= 2) at = nearer(prices, n - 1, at, by, turn, key);
  return key < (prices[at] ^ turn) ? at + 1 : at;
}

// One loop for each side, or one for both.
#define NAMED(count) (side ? count(prices, n, ~0u, ~price) : count(prices, n, 0u, price))
#define TURNED(count) count(prices, n, turn_of(side), price ^ turn_of(side))
static place count_all(const u32 *prices, place n, u32 turn, u32 key) { return count_run(prices, 0, n, turn, key); }

place count_ahead(side_number side, const u32 *prices, place n, u32 price) {
#if SHAPE == 0
  return NAMED(count_all);
#elif SHAPE == 1
  return TURNED(count_all);
#elif SHAPE == 2
  return NAMED(count_by_run);
#elif SHAPE == 3
  return TURNED(count_by_run);
#elif SHAPE == 4
  return NAMED(count_by_steps);
#elif SHAPE == 5
  return TURNED(count_by_steps);
#elif SHAPE == 6
  return TURNED(count_by_halves);
#endif
}

// The same as the library hands it on: prices in order, their side before them and their count behind.
struct ordered {
  side_number side;
  const u32 *prices;
  place count;
};

place count_ahead_of(const struct ordered *lent, u32 price) { return count_ahead(lent->side, lent->prices, lent->count, price); }
