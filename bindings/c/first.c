/* Calls every function of wermazul.h once or more, and holds each answer to the one expected; ends with 1 at the first that is another, and with 2 where
   the archive is not the header's. */
#include "wermazul.h"

#include <stdio.h>
#include <stdlib.h>
#include <string.h>

static int asked;

/* The number, how many values there are, and two of them with their signs. */
static void hold(const char *what, wermazul_told told, uint64_t number, uint64_t count, int64_t first, int64_t second)
{
    int64_t values[2] = {first, second};
    bool same = told.number == number && told.count == count;
    for (int i = 0; i < 2; i++) {
        int64_t value = (int64_t)told.values[i].size;
        same = same && values[i] == (told.values[i].negative ? -value : value);
    }
    asked++;
    if (!same) {
        printf("%s: %lu with %lu values: %lu, %lu\n", what, told.number, told.count, told.values[0].size, told.values[1].size);
        exit(1);
    }
}

static void expect(const char *what, bool holds)
{
    asked++;
    if (!holds) {
        printf("%s\n", what);
        exit(1);
    }
}

/* The sizes that the archive says its records have are those of the header's. */
static void archive(void)
{
    wermazul_layout_record there = wermazul_layout();
    expect("its version", there.version == WERMAZUL_VERSION);
    expect("its book", there.book == sizeof(wermazul_book_record));
    expect("its ledger", there.ledger == sizeof(wermazul_ledger_record));
    expect("its receiver", there.held == sizeof(wermazul_held));
    expect("its answer", there.told == sizeof(wermazul_told));
    expect("its counts", there.counts == sizeof(wermazul_counts));
    expect("its counts after a call", there.counts_told == sizeof(wermazul_counts_told));
    expect("its new ledger", there.ledger_told == sizeof(wermazul_ledger_told));
    expect("its receiver after a line", there.turn_told == sizeof(wermazul_turn_told));
    expect("its line", there.line_told == sizeof(wermazul_line_told));
}

/* The sizes that the archive's records have; the offset of what stands behind a field of another size. */
static void layouts(void)
{
    expect("answers", sizeof(wermazul_whole) == 16 && sizeof(wermazul_told) == 80 && offsetof(wermazul_told, values) == 16);
    expect("books", sizeof(wermazul_levels) == 1032 && sizeof(wermazul_book_record) == 2072);
    expect("counts", sizeof(wermazul_counts) == 24 && sizeof(wermazul_counts_told) == 104);
    expect("totals", sizeof(wermazul_totals) == 16 && sizeof(wermazul_totals_told) == 96);
    expect("days", sizeof(wermazul_day_told) == 104 && offsetof(wermazul_day_told, taken) == 16 && offsetof(wermazul_day_told, told) == 24);
    expect("fills", sizeof(wermazul_fill) == 40 && offsetof(wermazul_fill, side) == 8 && offsetof(wermazul_fill, commission) == 32);
    expect("ledgers", sizeof(wermazul_ledger_record) == 656 && sizeof(wermazul_ledger_told) == 736);
    expect("rows", offsetof(wermazul_ledger_record, averages) == 272 && offsetof(wermazul_ledger_record, realized) == 400);
    expect("lines", sizeof(wermazul_line_told) == 2184 && offsetof(wermazul_line_told, sequence) == 104);
    expect("receivers", sizeof(wermazul_held) == 2080 && sizeof(wermazul_turn_told) == 112);
}

static wermazul_counts counts_of(const wermazul_book_record *book)
{
    wermazul_counts counts = {book->bids.count, book->asks.count, book->sequence};
    return counts;
}

static void set_counts(wermazul_book_record *book, wermazul_counts counts)
{
    book->bids.count = counts.bids;
    book->asks.count = counts.asks;
    book->sequence = counts.sequence;
}

static wermazul_book_record book_k(void)
{
    static const uint32_t levels[5][3] = {{0, 100, 5}, {0, 99, 0}, {0, 98, 10}, {1, 101, 4}, {1, 103, 6}};
    wermazul_book_record book = wermazul_book();
    for (uint64_t i = 0; i < 5; i++) {
        wermazul_counts_told next =
            wermazul_apply_delta(WERMAZUL_ROWS(book), counts_of(&book), levels[i][0], 0, levels[i][1], levels[i][2], i + 1);
        hold("a delta", next.told, 0, 0, 0, 0);
        set_counts(&book, next.counts);
    }
    return book;
}

static void deltas(wermazul_book_record k)
{
    wermazul_counts counts = counts_of(&k);
    wermazul_counts_told next = wermazul_apply_delta(WERMAZUL_ROWS(k), counts, 0, 0, 101, 0, 6);
    hold("crossing", next.told, 5, 2, 101, 101);
    hold("no side", wermazul_apply_delta(WERMAZUL_ROWS(k), counts, 2, 0, 1, 1, 6).told, 2, 0, 0, 0);
    hold("no action", wermazul_apply_delta(WERMAZUL_ROWS(k), counts, 0, 2, 1, 1, 6).told, 2, 0, 0, 0);
    expect("as it was", next.counts.bids == 3 && next.counts.sequence == 5 && k.bids.prices[0] == 100);
    next = wermazul_apply_delta(WERMAZUL_ROWS(k), counts, 0, 1, 99, 0, 6);
    hold("removed", next.told, 0, 0, 0, 0);
    expect("rows", next.counts.bids == 2 && next.counts.sequence == 6 && k.bids.prices[1] == 98 && k.bids.prices[2] == 0);
    expect("a book", wermazul_is_book(WERMAZUL_ROWS(k), next.counts) && !wermazul_is_book(WERMAZUL_ROWS(k), counts));
    hold("no book", wermazul_ask(WERMAZUL_ROWS(k), counts, WERMAZUL_SPREAD, 0, 0, 0), 1, 0, 0, 0);
}

static void books(wermazul_book_record k)
{
    uint32_t out[6] = {7, 7, 7, 7, 7, 7};
    wermazul_counts counts = counts_of(&k);
    hold("vwap_for_qty", wermazul_ask(WERMAZUL_ROWS(k), counts, WERMAZUL_VWAP_FOR_QTY, 1, 7, 0), 0, 2, 713, 7);
    hold("price_at_volume", wermazul_ask(WERMAZUL_ROWS(k), counts, WERMAZUL_PRICE_AT_VOLUME, 0, 0, 6), 0, 1, 98, 0);
    hold("imbalance", wermazul_ask(WERMAZUL_ROWS(k), counts, WERMAZUL_IMBALANCE, 0, 0, 0), 0, 2, 5, 25);
    hold("best_quote", wermazul_ask(WERMAZUL_ROWS(k), counts, WERMAZUL_BEST_QUOTE, 0, 0, 0), 0, 4, 100, 5);
    hold("no question", wermazul_ask(WERMAZUL_ROWS(k), counts, 28, 0, 0, 0), 2, 0, 0, 0);
    hold("places", wermazul_places(WERMAZUL_ROWS(k), counts, 0, 0, 2, 0, 4), 0, 1, 4, 0);
    hold("list", wermazul_list(WERMAZUL_ROWS(k), counts, 2, 0, 98, 99, out, 6), 0, 1, 4, 0);
    expect("listed", out[0] == 98 && out[1] == 10 && out[2] == 99 && out[3] == 0 && out[4] == 7);
    hold("no room", wermazul_list(WERMAZUL_ROWS(k), counts, 1, 0, 9, 0, out, 6), 11, 0, 0, 0);
}

static bool same_counts(wermazul_counts a, wermazul_counts b)
{
    return a.bids == b.bids && a.asks == b.asks && a.sequence == b.sequence;
}

/* A refusal leaves every row as it was; 1 comes before 2. */
static void emptied(wermazul_book_record k)
{
    static const wermazul_counts wrong = {4, 2, 5}, no_asks = {3, 0, 5}, none = {0, 0, 0};
    static const wermazul_row zeros = {0};
    wermazul_book_record before = k;
    wermazul_counts counts = counts_of(&k);
    wermazul_counts_told next = wermazul_remove_all(WERMAZUL_ROWS(k), counts, 2);
    hold("no side", next.told, 2, 0, 0, 0);
    expect("its counts", same_counts(next.counts, counts));
    hold("no book, no side", wermazul_remove_all(WERMAZUL_ROWS(k), wrong, 2).told, 1, 0, 0, 0);
    next = wermazul_remove_all(WERMAZUL_ROWS(k), wrong, 0);
    hold("no book's side", next.told, 1, 0, 0, 0);
    expect("no book's counts", same_counts(next.counts, wrong));
    next = wermazul_clear(WERMAZUL_ROWS(k), wrong);
    hold("no book", next.told, 1, 0, 0, 0);
    expect("as it was", same_counts(next.counts, wrong) && memcmp(&k, &before, sizeof k) == 0);
    next = wermazul_remove_all(WERMAZUL_ROWS(k), counts, 1);
    hold("remove_all", next.told, 0, 0, 0, 0);
    expect("asks gone", !memcmp(k.asks.prices, zeros, sizeof zeros) && !memcmp(k.asks.quantities, zeros, sizeof zeros));
    expect("bids kept", memcmp(&k.bids, &before.bids, sizeof k.bids) == 0 && same_counts(next.counts, no_asks));
    next = wermazul_clear(WERMAZUL_ROWS(k), next.counts);
    hold("clear", next.told, 0, 0, 0, 0);
    expect("all gone", !memcmp(k.bids.prices, zeros, sizeof zeros) && !memcmp(k.bids.quantities, zeros, sizeof zeros));
    expect("from the start", same_counts(next.counts, none));
}

static wermazul_totals totals_of(const wermazul_ledger_record *ledger)
{
    wermazul_totals totals = {ledger->cash, ledger->commission};
    return totals;
}

static bool same_totals(wermazul_totals a, wermazul_totals b)
{
    return a.cash == b.cash && a.commission == b.commission;
}

/* The longer worked example of cash, of symbol 31. */
static wermazul_ledger_record traded(void)
{
    static const uint32_t fills[4][4] = {{0, 3, 100, 2}, {0, 2, 101, 0}, {1, 4, 110, 1}, {1, 3, 90, 0}};
    wermazul_ledger_told made = wermazul_ledger(10000);
    wermazul_ledger_record ledger = made.ledger;
    hold("a ledger", made.told, 0, 0, 0, 0);
    for (int i = 0; i < 4; i++) {
        wermazul_totals_told next = wermazul_apply_fill(
            WERMAZUL_LEDGER_ROWS(ledger), totals_of(&ledger), 31, fills[i][0], fills[i][1], fills[i][2], fills[i][3]);
        hold("a fill", next.told, 0, 0, 0, 0);
        ledger.cash = next.totals.cash;
        ledger.commission = next.totals.commission;
    }
    return ledger;
}

static void ledgers(wermazul_ledger_record l)
{
    uint32_t prices[32] = {0};
    wermazul_totals totals = totals_of(&l), left = {10000, 3};
    expect("its totals", l.cash == 10205 && l.commission == 3);
    expect("its position", l.quantities[31] == -2 && l.averages[31] == 90 && l.realized[31] == 27);
    expect("the others", l.quantities[30] == 0 && l.averages[30] == 0 && l.realized[30] == 0);
    prices[31] = 90;
    hold("unrealized", wermazul_unrealized(WERMAZUL_LEDGER_ROWS(l), totals, 31, 100), 0, 1, -20, 0);
    hold("net_liquidation_value", wermazul_worth(WERMAZUL_LEDGER_ROWS(l), totals, 1, prices, 32), 0, 1, 10025, 0);
    hold("31 prices", wermazul_worth(WERMAZUL_LEDGER_ROWS(l), totals, 1, prices, 31), 2, 0, 0, 0);
    wermazul_totals_told next = wermazul_deposit(WERMAZUL_LEDGER_ROWS(l), totals, -205);
    hold("deposit", next.told, 0, 0, 0, 0);
    expect("deposited", same_totals(next.totals, left) && wermazul_is_ledger(WERMAZUL_LEDGER_ROWS(l), next.totals));
}

/* The same fills in one call; then a list that ends with the second of three, the first of which stands. */
static void days(wermazul_ledger_record l)
{
    static const wermazul_fill fills[4] = {{31, 0, 3, 100, 2}, {31, 0, 2, 101, 0}, {31, 1, 4, 110, 1}, {31, 1, 3, 90, 0}};
    static const wermazul_fill too_dear[3] = {{31, 0, 2, 80, 0}, {7, 0, 2, 5023, 0}, {7, 1, 9, 1, 0}};
    wermazul_ledger_record ledger = wermazul_ledger(10000).ledger;
    wermazul_totals left = {10045, 3};
    wermazul_day_told after = wermazul_apply_fills(WERMAZUL_LEDGER_ROWS(ledger), totals_of(&ledger), WERMAZUL_FILLS(fills, 4));
    hold("a day", after.told, 0, 0, 0, 0);
    expect("its count", after.taken == 4 && same_totals(after.totals, totals_of(&l)));
    ledger.cash = after.totals.cash;
    ledger.commission = after.totals.commission;
    expect("as by single fills", memcmp(&ledger, &l, sizeof l) == 0);
    after = wermazul_apply_fills(WERMAZUL_LEDGER_ROWS(ledger), totals_of(&ledger), WERMAZUL_FILLS(too_dear, 3));
    hold("a day that ends early", after.told, 8, 2, 10046, 10045);
    expect("what it took", after.taken == 1 && same_totals(after.totals, left));
    expect("the first", ledger.quantities[31] == 0 && ledger.averages[31] == 0 && ledger.realized[31] == 47);
    expect("not the others", ledger.quantities[7] == 0 && ledger.averages[7] == 0 && ledger.realized[7] == 0);
}

/* Long 3 of symbol 2 and short 2 of symbol 30, with a commission of 4 and of -1. */
static wermazul_ledger_record pair(void)
{
    wermazul_ledger_record l = wermazul_ledger(1000).ledger;
    wermazul_totals_told next = wermazul_apply_fill(WERMAZUL_LEDGER_ROWS(l), totals_of(&l), 2, 0, 3, 100, 4);
    hold("a purchase", next.told, 0, 0, 0, 0);
    next = wermazul_apply_fill(WERMAZUL_LEDGER_ROWS(l), next.totals, 30, 1, 2, 50, -1);
    hold("a sale", next.told, 0, 0, 0, 0);
    l.cash = next.totals.cash;
    l.commission = next.totals.commission;
    return l;
}

/* Each position has its own place of each row, and each worth is of both. */
static void pairs(wermazul_ledger_record l)
{
    uint32_t prices[32] = {0};
    wermazul_totals totals = totals_of(&l), left = {797, 3}, paid = {1000, 3};
    expect("a pair", wermazul_is_ledger(WERMAZUL_LEDGER_ROWS(l), totals) && same_totals(totals, left));
    expect("the long one", l.quantities[2] == 3 && l.averages[2] == 100 && l.realized[2] == -4);
    expect("the short one", l.quantities[30] == -2 && l.averages[30] == 50 && l.realized[30] == 1);
    hold("unrealized, long", wermazul_unrealized(WERMAZUL_LEDGER_ROWS(l), totals, 2, 90), 0, 1, -30, 0);
    hold("unrealized, short", wermazul_unrealized(WERMAZUL_LEDGER_ROWS(l), totals, 30, 70), 0, 1, -40, 0);
    hold("unrealized, none", wermazul_unrealized(WERMAZUL_LEDGER_ROWS(l), totals, 3, 70), 0, 1, 0, 0);
    hold("no prices", wermazul_worth(WERMAZUL_LEDGER_ROWS(l), totals, 2, prices, 32), 10, 0, 0, 0);
    prices[2] = 90;
    hold("one price", wermazul_worth(WERMAZUL_LEDGER_ROWS(l), totals, 0, prices, 32), 13, 1, 30, 0);
    prices[30] = 70;
    hold("both unrealized", wermazul_worth(WERMAZUL_LEDGER_ROWS(l), totals, 0, prices, 32), 0, 1, -70, 0);
    hold("both and cash", wermazul_worth(WERMAZUL_LEDGER_ROWS(l), totals, 1, prices, 32), 0, 1, 927, 0);
    hold("both exposed", wermazul_worth(WERMAZUL_LEDGER_ROWS(l), totals, 2, prices, 32), 0, 1, 130, 0);
    hold("not neutral", wermazul_worth(WERMAZUL_LEDGER_ROWS(l), totals, 3, prices, 32), 0, 1, 0, 0);
    prices[30] = 135;
    hold("neutral", wermazul_worth(WERMAZUL_LEDGER_ROWS(l), totals, 3, prices, 32), 0, 1, 1, 0);
    hold("no worth", wermazul_worth(WERMAZUL_LEDGER_ROWS(l), totals, 4, prices, 32), 2, 0, 0, 0);
    wermazul_totals_told next = wermazul_deposit(WERMAZUL_LEDGER_ROWS(l), totals, 203);
    hold("a pair's deposit", next.told, 0, 0, 0, 0);
    expect("a pair's cash", same_totals(next.totals, paid));
}

/* A refused change leaves the record as it was, every byte of it, and gives back the totals that were handed in. */
static void kept(const char *what, const wermazul_ledger_record *l, const wermazul_ledger_record *before, wermazul_totals_told after)
{
    expect(what, memcmp(l, before, sizeof *l) == 0 && same_totals(after.totals, totals_of(before)));
}

static void refused_fill(
    const char *what, wermazul_ledger_record l, uint32_t symbol, uint64_t side, uint32_t quantity, uint32_t price, uint64_t number)
{
    wermazul_ledger_record before = l;
    wermazul_totals_told after = wermazul_apply_fill(WERMAZUL_LEDGER_ROWS(l), totals_of(&l), symbol, side, quantity, price, 0);
    hold(what, after.told, number, 0, 0, 0);
    kept(what, &l, &before, after);
}

/* A list of so many fills, the first of which is refused. */
static void refused_list(const char *what, wermazul_ledger_record l, const wermazul_fill *fills, size_t count, uint64_t number)
{
    wermazul_ledger_record before = l;
    wermazul_day_told after = wermazul_apply_fills(WERMAZUL_LEDGER_ROWS(l), totals_of(&l), WERMAZUL_FILLS(fills, count));
    hold(what, after.told, number, 0, 0, 0);
    expect(what, after.taken == 0 && memcmp(&l, &before, sizeof l) == 0 && same_totals(after.totals, totals_of(&before)));
}

static void refused_deposit(const char *what, wermazul_ledger_record l, int64_t amount, uint64_t number)
{
    wermazul_ledger_record before = l;
    wermazul_totals_told after = wermazul_deposit(WERMAZUL_LEDGER_ROWS(l), totals_of(&l), amount);
    hold(what, after.told, number, 0, 0, 0);
    kept(what, &l, &before, after);
}

static const int64_t most_lots = 1000000000, most_paid_in = 1000000000000000000, most_money = 4000000000000000000;

static void refused(wermazul_ledger_record l)
{
    static const wermazul_fill no_side[2] = {{2, 2, 1, 99, 0}, {2, 1, 1, 99, 0}}, cut[1] = {{4294967298, 1, 1, 99, 0}};
    wermazul_ledger_record owing = l, before;
    owing.cash = -5;
    before = owing;
    wermazul_totals_told after = wermazul_apply_fill(WERMAZUL_LEDGER_ROWS(owing), totals_of(&owing), 2, 0, 1, 99, -7);
    hold("short of cash", after.told, 8, 2, 92, -5);
    kept("short of cash, and changed", &owing, &before, after);
    hold("too much cash", wermazul_ledger(INT64_MAX).told, 2, 0, 0, 0);
    refused_fill("no symbol", l, 32, 1, 1, 99, 2);
    refused_fill("no price", l, 2, 1, 1, 0, 2);
    refused_fill("no fill's side", l, 2, 2, 1, 99, 2);
    refused_fill("too short", l, 30, 1, (uint32_t)most_lots, 1, 9);
    refused_list("no side in a list", l, no_side, 2, 2);
    refused_list("a symbol of more than 32 bits", l, cut, 1, 2);
    refused_deposit("too large a deposit", l, most_paid_in + 1, 2);
    refused_deposit("too large a withdrawal", l, INT64_MIN, 2);
    l.cash = most_money;
    refused_fill("too much by a sale", l, 2, 1, 1, 1, 9);
    refused_deposit("too much by a deposit", l, 1, 9);
    l.cash = -most_money;
    refused_deposit("too little by a withdrawal", l, -1, 9);
}

/* Every call answers 1 of such a record, before anything else. */
static void no_ledger(const char *what, wermazul_ledger_record l)
{
    static const wermazul_fill fills[2] = {{2, 1, 1, 1, 0}, {32, 2, -1, 0, INT64_MIN}};
    uint32_t prices[32] = {0};
    wermazul_totals totals = totals_of(&l);
    expect(what, !wermazul_is_ledger(WERMAZUL_LEDGER_ROWS(l), totals));
    for (uint64_t side = 0; side < 3; side++) refused_fill(what, l, 2, side, 1, 1, 1);
    refused_fill(what, l, 32, 1, 1, 1, 1);
    for (size_t count = 0; count < 3; count++) refused_list(what, l, fills, count, 1);
    refused_list(what, l, fills + 1, 1, 1);
    refused_deposit(what, l, 1, 1);
    refused_deposit(what, l, INT64_MIN, 1);
    hold(what, wermazul_unrealized(WERMAZUL_LEDGER_ROWS(l), totals, 2, 1), 1, 0, 0, 0);
    hold(what, wermazul_unrealized(WERMAZUL_LEDGER_ROWS(l), totals, 32, 1), 1, 0, 0, 0);
    for (uint64_t worth = 0; worth < 5; worth++) hold(what, wermazul_worth(WERMAZUL_LEDGER_ROWS(l), totals, worth, prices, 32), 1, 0, 0, 0);
    hold(what, wermazul_worth(WERMAZUL_LEDGER_ROWS(l), totals, 0, prices, 31), 1, 0, 0, 0);
}

/* One number at its limit, on both sides of 0, and past it. */
static void held_to(const char *what, wermazul_ledger_record *l, int64_t *number, int64_t most)
{
    int64_t before = *number;
    for (int64_t sign = -1; sign <= 1; sign += 2) {
        *number = sign * most;
        expect(what, wermazul_is_ledger(WERMAZUL_LEDGER_ROWS(*l), totals_of(l)));
        *number = sign * (most + 1);
        no_ledger(what, *l);
    }
    *number = INT64_MIN;
    no_ledger(what, *l);
    *number = before;
}

/* The same for an average, which is 0 exactly where there are no lots. */
static void average_held(const char *what, wermazul_ledger_record l, int place, uint32_t average, bool holds)
{
    l.averages[place] = average;
    expect(what, wermazul_is_ledger(WERMAZUL_LEDGER_ROWS(l), totals_of(&l)) == holds);
    if (!holds) no_ledger(what, l);
}

/* Each number of the record that a ledger holds to a rule, at the row's ends too. */
static void no_ledgers(wermazul_ledger_record l)
{
    held_to("cash", &l, &l.cash, most_money);
    held_to("commission", &l, &l.commission, most_money);
    held_to("lots, long", &l, &l.quantities[2], most_lots);
    held_to("lots, short", &l, &l.quantities[30], most_lots);
    for (int place = 0; place < 32; place++) held_to("realized", &l, &l.realized[place], most_money);
    average_held("the highest price", l, 30, 100000000, true);
    average_held("past the highest price", l, 30, 100000001, false);
    average_held("lots without an average", l, 2, 0, false);
    average_held("the first average without lots", l, 0, 1, false);
    average_held("the last average without lots", l, 31, UINT32_MAX, false);
    l.quantities[31] = -1;
    no_ledger("the last lots without an average", l);
}

static void lines(wermazul_book_record k)
{
    uint8_t line[4121];
    wermazul_line_told read;
    hold("a snapshot's line", wermazul_write_snapshot(WERMAZUL_ROWS(k), counts_of(&k), line, sizeof line), 0, 1, 105, 0);
    hold("its kind", wermazul_line_kind(line, 105), 0, 1, 2, 0);
    hold("damaged", wermazul_line_kind(line, 104), 12, 0, 0, 0);
    expect("its end", wermazul_line_end(line, sizeof line) == 105);
    read = wermazul_read_line(line, 105);
    expect("its book", read.told.values[0].size == 2 && memcmp(&read.book, &k, sizeof k) == 0);
    hold("a delta's line", wermazul_write_delta(1, 1, 103, 9, 6, line, sizeof line), 0, 1, 41, 0);
    read = wermazul_read_line(line, 41);
    hold("a delta", read.told, 0, 1, 1, 0);
    expect("read", read.side == 1 && read.action == 1 && read.price == 103 && read.quantity == 0 && read.sequence == 6);
}

static void take(wermazul_held *receiver, const uint8_t *line, size_t length)
{
    wermazul_turn_told after =
        wermazul_take_line(WERMAZUL_ROWS(receiver->book), receiver->state, counts_of(&receiver->book), line, length);
    receiver->state = after.state;
    set_counts(&receiver->book, after.counts);
    hold("a line", after.told, 0, 0, 0, 0);
}

static void receivers(wermazul_book_record k)
{
    uint8_t line[4121];
    uint32_t out[4];
    wermazul_held r = wermazul_receiver();
    hold("waiting", wermazul_receiver_ask(WERMAZUL_ROWS(r.book), r.state, counts_of(&r.book), WERMAZUL_SPREAD, 0, 0, 0), 16, 0, 0, 0);
    wermazul_write_snapshot(WERMAZUL_ROWS(k), counts_of(&k), line, sizeof line);
    take(&r, line, 105);
    wermazul_write_delta(1, 1, 103, 9, 6, line, sizeof line);
    take(&r, line, 41);
    expect("live", r.state == 1 && r.book.sequence == 6 && r.book.asks.count == 1);
    wermazul_counts counts = counts_of(&r.book);
    hold("spread", wermazul_receiver_ask(WERMAZUL_ROWS(r.book), 1, counts, WERMAZUL_SPREAD, 0, 0, 0), 0, 1, 1, 0);
    hold("no state", wermazul_receiver_ask(WERMAZUL_ROWS(r.book), 2, counts, WERMAZUL_SPREAD, 0, 0, 0), 1, 0, 0, 0);
    hold("places", wermazul_receiver_places(WERMAZUL_ROWS(r.book), 1, counts, 1, 0, 1, 0, 4), 0, 1, 4, 0);
    hold("listed", wermazul_receiver_list(WERMAZUL_ROWS(r.book), 1, counts, 0, 1, 9, 0, out, 4), 0, 1, 2, 0);
    expect("the ask", out[0] == 101 && out[1] == 4);
}

int main(void)
{
    if (!wermazul_matches()) {
        printf("The archive is of version %lu, or its records have other sizes, and the header is of version %d.\n", wermazul_layout().version,
               WERMAZUL_VERSION);
        return 2;
    }
    archive();
    layouts();
    wermazul_book_record k = book_k();
    deltas(k);
    books(k);
    emptied(k);
    ledgers(traded());
    days(traded());
    wermazul_ledger_record two = pair();
    pairs(two);
    refused(two);
    no_ledgers(two);
    lines(k);
    receivers(k);
    printf("%d answers held\n", asked);
    return 0;
}
