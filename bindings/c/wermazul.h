/* The proved library for C and C++, on x86-64 and aarch64 Linux: link the archive whose path `bindings/archive` prints, or that `bindings/install`
   puts beside this header. Ask wermazul_matches(), at the end, once at the start of a program.

   A book or a receiver is lent as its four rows with its counts beside them, a ledger as its three rows with its totals beside them, and each is
   asked and changed where it stands. Any record may be handed in, and each call tests it first.

   An answer is a number of docs/ANSWERS.md, 0 or a refusal, with the count of its values and up to four of them; those behind the count are 0. Sides
   are 0 bid and 1 ask, actions 0 Set and 1 Remove; a number that names nothing gives 2, after 1 for a record that is none. docs/PROMISES.md
   has each call's promise.

   What the caller must keep, since no call can test it:
   - No pointer may be null: no row's, and no slice's, not even with a length of 0.
   - A row of a book has 128 places, a row of a ledger 32. A slice is a pointer and a length, counted in elements and not in bytes: numbers of
     32 bits for listings and prices, numbers of 64 bits for fills, bytes for lines. All places of the length are there.
   - A pointer is aligned as C aligns what it points to: 4 bytes for numbers of 32 bits, 8 bytes for numbers of 64 bits. A record that is declared
     is aligned right.
   - What a call writes to, a row or a buffer, overlaps nothing else that it is lent, and no other thread uses it meanwhile. What it only reads,
     the fills of a list among it, no other thread changes meanwhile.
   wermazul_matches() compares the version with the archive's, and the sizes of the records that wermazul_layout tells; nothing compares the
   functions' own types. */
#ifndef WERMAZUL_H
#define WERMAZUL_H

#include <stdbool.h>
#include <stddef.h>
#include <stdint.h>

#ifdef __cplusplus
extern "C" {
#endif

typedef struct { uint64_t size; bool negative; } wermazul_whole;
typedef struct { uint64_t number, count; wermazul_whole values[4]; } wermazul_told;

/* The book: two sides of two rows each, best level first. Places from count on are 0. */
typedef uint32_t wermazul_row[128];
typedef struct { wermazul_row prices, quantities; uint64_t count; } wermazul_levels;
typedef struct { wermazul_levels bids, asks; uint64_t sequence; } wermazul_book_record;

/* What stands beside the rows. The counts that a call gives back belong to the rows from then on. */
typedef struct { uint64_t bids, asks, sequence; } wermazul_counts;
typedef struct { wermazul_counts counts; wermazul_told told; } wermazul_counts_told;

/* The rows of a book, as the calls below take them. */
#define WERMAZUL_ROWS(book) (book).bids.prices, (book).bids.quantities, (book).asks.prices, (book).asks.quantities

wermazul_book_record wermazul_book(void);
bool wermazul_is_book(
    const wermazul_row bid_prices, const wermazul_row bid_quantities, const wermazul_row ask_prices, const wermazul_row ask_quantities,
    wermazul_counts counts);
wermazul_counts_told wermazul_apply_delta(
    wermazul_row bid_prices, wermazul_row bid_quantities, wermazul_row ask_prices, wermazul_row ask_quantities,
    wermazul_counts counts, uint64_t side, uint64_t action, uint32_t price, uint32_t quantity, uint64_t sequence);
wermazul_counts_told wermazul_clear(
    wermazul_row bid_prices, wermazul_row bid_quantities, wermazul_row ask_prices, wermazul_row ask_quantities, wermazul_counts counts);
wermazul_counts_told wermazul_remove_all(
    wermazul_row bid_prices, wermazul_row bid_quantities, wermazul_row ask_prices, wermazul_row ask_quantities,
    wermazul_counts counts, uint64_t side);

/* A question by its number; it takes what it needs of side, small (a price or a quantity) and large (a count or a volume). */
enum wermazul_question {
    WERMAZUL_BEST, WERMAZUL_BEST_PRICE, WERMAZUL_BEST_QUANTITY, WERMAZUL_BEST_QUOTE, WERMAZUL_SPREAD, WERMAZUL_MID_PRICE,
    WERMAZUL_SPREAD_PCT, WERMAZUL_SPREAD_BPS, WERMAZUL_WEIGHTED_MID, WERMAZUL_DEPTH_AT, WERMAZUL_HAS_PRICE, WERMAZUL_LEVEL_COUNT,
    WERMAZUL_TOTAL_LEVELS, WERMAZUL_SEQUENCE, WERMAZUL_IS_EMPTY, WERMAZUL_IS_CROSSED, WERMAZUL_TOTAL_VOLUME, WERMAZUL_CUMULATIVE_DEPTH,
    WERMAZUL_CUMULATIVE_QUANTITY, WERMAZUL_TICK_SIZE, WERMAZUL_IMBALANCE, WERMAZUL_DEPTH_RATIO, WERMAZUL_BID_ASK_RATIO,
    WERMAZUL_ASK_BID_RATIO, WERMAZUL_BID_DEPTH_SKEW, WERMAZUL_VWAP_FOR_QTY, WERMAZUL_PRICE_IMPACT, WERMAZUL_PRICE_AT_VOLUME
};
wermazul_told wermazul_ask(
    const wermazul_row bid_prices, const wermazul_row bid_quantities, const wermazul_row ask_prices, const wermazul_row ask_quantities,
    wermazul_counts counts, uint64_t question, uint64_t side, uint32_t small, uint64_t large);

/* A listing: 0 the best `from` levels of a side, 1 those of both sides, 2 the levels of a side with prices from `from` to `to`. `places` is
   how many places it fills of `room`; `list` fills them: price, quantity, price, quantity. */
wermazul_told wermazul_places(
    const wermazul_row bid_prices, const wermazul_row bid_quantities, const wermazul_row ask_prices, const wermazul_row ask_quantities,
    wermazul_counts counts, uint64_t listing, uint64_t side, uint64_t from, uint32_t to, uint64_t room);
wermazul_told wermazul_list(
    const wermazul_row bid_prices, const wermazul_row bid_quantities, const wermazul_row ask_prices, const wermazul_row ask_quantities,
    wermazul_counts counts, uint64_t listing, uint64_t side, uint64_t from, uint32_t to, uint32_t *out, size_t length);

/* The ledger: cash and the commission paid so far, and three rows with a place for each of 32 symbols: lots, negative if short; their average
   price, 0 where there are none; and the profit realized so far. */
typedef int64_t wermazul_amounts[32];
typedef uint32_t wermazul_averages[32];
typedef struct {
    int64_t cash, commission;
    wermazul_amounts quantities;
    wermazul_averages averages;
    wermazul_amounts realized;
} wermazul_ledger_record;
typedef struct { wermazul_ledger_record ledger; wermazul_told told; } wermazul_ledger_told;

/* What stands beside the rows. The totals that a call gives back belong to the rows from then on; a refusal gives back those that were handed
   in, and leaves the rows alone; but a list of fills is booked up to the refused one, and `taken` says how many that are. */
typedef struct { int64_t cash, commission; } wermazul_totals;
typedef struct { wermazul_totals totals; wermazul_told told; } wermazul_totals_told;
typedef struct { wermazul_totals totals; uint64_t taken; wermazul_told told; } wermazul_day_told;

/* The rows of a ledger, as the calls below take them. */
#define WERMAZUL_LEDGER_ROWS(ledger) (ledger).quantities, (ledger).averages, (ledger).realized

/* A fill of a list: five numbers of 64 bits in this order. Each goes over whole, so that one outside its limits is refused however large it is,
   where an argument of 32 bits is cut by the caller. WERMAZUL_FILLS lends an array of so many fills as its numbers; `count` is a size_t. There may
   be none, and the pointer is not null then either; that of an empty std::vector may be. Where a fill was refused, `fills + taken` is that one. */
typedef struct { int64_t symbol, side, quantity, price, commission; } wermazul_fill;
#define WERMAZUL_FILLS(fills, count) &(fills)->symbol, (count) * (sizeof(wermazul_fill) / sizeof(int64_t))

/* A list's fills are taken in order until one is refused: `told` is 0, or the refusal of the first that was not taken. 1 comes at once, and 2
   where the length is no multiple of five: no fill is refused then, and `taken` is 0. Numbers that make no fill are 2 in their turn.
   Prices are 32 numbers, 0 for none. A worth: 0 unrealized_pnl_total, 1 net_liquidation_value, 2 net_market_exposure, 3 delta_neutral_check. */
wermazul_ledger_told wermazul_ledger(int64_t cash);
bool wermazul_is_ledger(
    const wermazul_amounts quantities, const wermazul_averages averages, const wermazul_amounts realized, wermazul_totals totals);
wermazul_totals_told wermazul_apply_fill(
    wermazul_amounts quantities, wermazul_averages averages, wermazul_amounts realized, wermazul_totals totals,
    uint32_t symbol, uint64_t side, uint32_t quantity, uint32_t price, int64_t commission);
wermazul_day_told wermazul_apply_fills(
    wermazul_amounts quantities, wermazul_averages averages, wermazul_amounts realized, wermazul_totals totals,
    const int64_t *numbers, size_t length);
wermazul_totals_told wermazul_deposit(
    const wermazul_amounts quantities, const wermazul_averages averages, const wermazul_amounts realized, wermazul_totals totals,
    int64_t amount);
wermazul_told wermazul_unrealized(
    const wermazul_amounts quantities, const wermazul_averages averages, const wermazul_amounts realized, wermazul_totals totals,
    uint32_t symbol, uint32_t price);
wermazul_told wermazul_worth(
    const wermazul_amounts quantities, const wermazul_averages averages, const wermazul_amounts realized, wermazul_totals totals,
    uint64_t worth, const uint32_t *prices, size_t length);

/* Lines, their line feed included. A line is told as 0 and its kind, 1 a delta and 2 a snapshot, or as 12. A delta's numbers and a snapshot's
   book stand behind that; what the line does not have is 0 or empty. */
typedef struct {
    wermazul_told told;
    uint64_t side, action;
    uint32_t price, quantity;
    uint64_t sequence;
    wermazul_book_record book;
} wermazul_line_told;

wermazul_told wermazul_line_kind(const uint8_t *line, size_t length);
wermazul_line_told wermazul_read_line(const uint8_t *line, size_t length);
uint64_t wermazul_line_end(const uint8_t *text, size_t length);
wermazul_told wermazul_write_delta(
    uint64_t side, uint64_t action, uint32_t price, uint32_t quantity, uint64_t sequence, uint8_t *out, size_t length);
wermazul_told wermazul_write_snapshot(
    const wermazul_row bid_prices, const wermazul_row bid_quantities, const wermazul_row ask_prices, const wermazul_row ask_quantities,
    wermazul_counts counts, uint8_t *out, size_t length);

/* The receiver: 0 waiting, 1 live, and the book that it holds. The state and the counts that a call gives back belong to it from then on. */
typedef struct { uint64_t state; wermazul_book_record book; } wermazul_held;
typedef struct { uint64_t state; wermazul_counts counts; wermazul_told told; } wermazul_turn_told;

wermazul_held wermazul_receiver(void);
wermazul_turn_told wermazul_take_line(
    wermazul_row bid_prices, wermazul_row bid_quantities, wermazul_row ask_prices, wermazul_row ask_quantities,
    uint64_t state, wermazul_counts counts, const uint8_t *line, size_t length);
wermazul_told wermazul_receiver_ask(
    const wermazul_row bid_prices, const wermazul_row bid_quantities, const wermazul_row ask_prices, const wermazul_row ask_quantities,
    uint64_t state, wermazul_counts counts, uint64_t question, uint64_t side, uint32_t small, uint64_t large);
wermazul_told wermazul_receiver_places(
    const wermazul_row bid_prices, const wermazul_row bid_quantities, const wermazul_row ask_prices, const wermazul_row ask_quantities,
    uint64_t state, wermazul_counts counts, uint64_t listing, uint64_t side, uint64_t from, uint32_t to, uint64_t room);
wermazul_told wermazul_receiver_list(
    const wermazul_row bid_prices, const wermazul_row bid_quantities, const wermazul_row ask_prices, const wermazul_row ask_quantities,
    uint64_t state, wermazul_counts counts, uint64_t listing, uint64_t side, uint64_t from, uint32_t to, uint32_t *out, size_t length);

/* What the archive says of itself: its version, major * 1000000 + minor * 1000 + patch, and the size in bytes of each of these records there. */
typedef struct {
    uint64_t version, book, ledger, held, told, counts, counts_told, ledger_told, turn_told, line_told;
} wermazul_layout_record;

wermazul_layout_record wermazul_layout(void);

#ifdef __cplusplus
}
#endif

/* The version of this header, as wermazul_layout() tells the archive's: 0.4.0. */
#ifndef WERMAZUL_VERSION
#define WERMAZUL_VERSION 4000
#endif

/* Whether the archive that is linked is of this header's version, and the records that it tells of are as large as those declared here. */
static inline bool wermazul_matches(void)
{
    wermazul_layout_record there = wermazul_layout();
    return there.version == WERMAZUL_VERSION && there.book == sizeof(wermazul_book_record) && there.ledger == sizeof(wermazul_ledger_record) &&
           there.held == sizeof(wermazul_held) && there.told == sizeof(wermazul_told) && there.counts == sizeof(wermazul_counts) &&
           there.counts_told == sizeof(wermazul_counts_told) && there.ledger_told == sizeof(wermazul_ledger_told) &&
           there.turn_told == sizeof(wermazul_turn_told) && there.line_told == sizeof(wermazul_line_told);
}

#endif
