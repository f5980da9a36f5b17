// Times one way of counting by itself, where ALONE is defined, else the deltas of a library that has it inside: `search SIZE CALLS ROUNDS`, SIZE
// being levels, or prices a side. Prints nanoseconds a call, the best of the rounds, with calls that do not wait for each other and then with calls
// that do. With one round it prints nothing: then somebody counts instructions.
#include <inttypes.h>
#include <stdio.h>
#include <stdlib.h>
#include <string.h>
#include <time.h>
#include "wermazul.h"

static uint64_t state = 88172645463325252u;
static uint32_t below(uint32_t n) {
  state ^= state << 13;
  state ^= state >> 7;
  state ^= state << 17;
  return (uint32_t)(state >> 20) % n;
}

static double now(void) {
  struct timespec t;
  clock_gettime(CLOCK_THREAD_CPUTIME_ID, &t);
  return t.tv_sec * 1e9 + t.tv_nsec;
}

#ifdef ALONE
unsigned long count_ahead(unsigned char side, const uint32_t *prices, unsigned long n, uint32_t price);

static uint32_t rows[2][128], asked[4096];
static unsigned char sides[4096];

static void fill(unsigned levels, unsigned count) {
  (void)count;
  for (unsigned i = 0; i < levels; i += 1) rows[0][i] = 20000 - 2 * i, rows[1][i] = 30000 + 2 * i;
  for (unsigned i = 0; i < 4096; i += 1) {
    sides[i] = below(2);
    asked[i] = rows[sides[i]][below(levels)] + below(2);
  }
}

// Each answer by the plain definition.
static void compare(unsigned levels) {
  for (unsigned i = 0; i < 4096; i += 1) {
    unsigned long ahead = 0;
    for (unsigned k = 0; k < levels; k += 1) ahead += sides[i] ? rows[1][k] < asked[i] : asked[i] < rows[0][k];
    if (count_ahead(sides[i], rows[sides[i]], levels, asked[i]) != ahead) {
      fprintf(stderr, "another count than the definition's, of %u levels\n", levels);
      exit(1);
    }
  }
}

// One call after the other, where `chained` asks that each waits for the answer of the one before.
static void calls(unsigned levels, unsigned count, int chained) {
  unsigned long answer = 0;
  for (unsigned k = 0; k < count; k += 1) {
    unsigned i = k % 4096;
    unsigned long given = count_ahead(sides[i], rows[sides[i]], levels, asked[i] + (uint32_t)(chained ? answer >> 40 : 0));
    answer = chained ? given : answer + given;
  }
  volatile unsigned long kept = answer;
  (void)kept;
}
#else
typedef struct { uint8_t side, remove; uint32_t price, quantity; } change;
static change changes[1000000];

static void fill(unsigned prices, unsigned count) {
  for (unsigned i = 0; i < count; i += 1) {
    change *c = &changes[i];
    c->side = below(2);
    c->remove = below(10) == 0;
    c->price = c->side ? 10001 + below(prices) : 10000 - below(prices);
    c->quantity = c->remove ? 0 : 1 + below(1000);
  }
}

static void compare(unsigned prices) { (void)prices; }

// So many deltas to a new book, all of which must be taken. Each waits for the one before it in any case.
static void calls(unsigned prices, unsigned count, int chained) {
  static wermazul_book_record book;
  (void)prices, (void)chained;
  memset(&book, 0, sizeof book);
  for (unsigned i = 0; i < count; i += 1) {
    change c = changes[i];
    wermazul_counts counts = {book.bids.count, book.asks.count, book.sequence};
    wermazul_counts_told after = wermazul_apply_delta(book.bids.prices, book.bids.quantities, book.asks.prices, book.asks.quantities, counts, c.side, c.remove, c.price,
                                                      c.quantity, i + 1);
    if (after.told.number != 0) {
      fprintf(stderr, "delta %u refused with %" PRIu64 "\n", i, after.told.number);
      exit(1);
    }
    book.bids.count = after.counts.bids, book.asks.count = after.counts.asks, book.sequence = after.counts.sequence;
  }
}
#endif

int main(int count, char **words) {
  if (count != 4) return fprintf(stderr, "usage: search SIZE CALLS ROUNDS\n"), 2;
  unsigned size = atoi(words[1]), number = atoi(words[2]), rounds = atoi(words[3]);
  if (size < 1 || size > 128 || number < 1 || number > 1000000) return fprintf(stderr, "SIZE is 1 to 128, CALLS 1 to 1000000\n"), 2;
  fill(size, number);
  if (rounds > 1) compare(size);
  for (int chained = 0; chained < 2; chained += 1) {
    double best = 1e18;
    for (unsigned r = 0; r < rounds; r += 1) {
      double start = now();
      calls(size, number, chained);
      double took = (now() - start) / number;
      if (took < best) best = took;
    }
    if (rounds > 1) printf("%.2f\n", best);
  }
  return 0;
}
