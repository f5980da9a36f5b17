/* A day's fills in one call: worked days, a refusal at each place, records that are no ledger, numbers that make no fill, and random days, each
   held to wermazul_apply_fill in a loop. Ends with 1 at the first answer that is another. */
#include "wermazul.h"

#include <stdio.h>
#include <stdlib.h>
#include <string.h>

static int asked;

static void expect(const char *what, bool holds)
{
    asked++;
    if (!holds) {
        printf("%s\n", what);
        exit(1);
    }
}

static wermazul_totals totals_of(const wermazul_ledger_record *ledger)
{
    wermazul_totals totals = {ledger->cash, ledger->commission};
    return totals;
}

static void set_totals(wermazul_ledger_record *ledger, wermazul_totals totals)
{
    ledger->cash = totals.cash;
    ledger->commission = totals.commission;
}

static wermazul_ledger_record opened(int64_t cash)
{
    wermazul_ledger_told made = wermazul_ledger(cash);
    expect("a ledger", made.told.number == 0);
    return made.ledger;
}

static wermazul_told told_of(uint64_t number)
{
    wermazul_told told = {number, 0, {{0, false}, {0, false}, {0, false}, {0, false}}};
    return told;
}

/* The refusal of a purchase that cash does not reach. */
static wermazul_told short_of(uint64_t need, int64_t have)
{
    wermazul_told told = told_of(8);
    told.count = 2;
    told.values[0].size = need;
    told.values[1].negative = have < 0;
    told.values[1].size = have < 0 ? (uint64_t)-have : (uint64_t)have;
    return told;
}

static bool same_told(wermazul_told a, wermazul_told b)
{
    bool same = a.number == b.number && a.count == b.count;
    for (int i = 0; i < 4; i++) same = same && a.values[i].size == b.values[i].size && a.values[i].negative == b.values[i].negative;
    return same;
}

/* What a list of fills came to. */
typedef struct { wermazul_ledger_record ledger; uint64_t taken; wermazul_told told; } day;

/* Every byte of both ledgers is compared. */
static bool same_day(const day *a, const day *b)
{
    return memcmp(&a->ledger, &b->ledger, sizeof a->ledger) == 0 && a->taken == b->taken && same_told(a->told, b->told);
}

static day by_numbers(wermazul_ledger_record ledger, const int64_t *numbers, size_t length)
{
    day after;
    wermazul_day_told done = wermazul_apply_fills(WERMAZUL_LEDGER_ROWS(ledger), totals_of(&ledger), numbers, length);
    set_totals(&ledger, done.totals);
    after.ledger = ledger;
    after.taken = done.taken;
    after.told = done.told;
    return after;
}

static day in_one_call(wermazul_ledger_record ledger, const wermazul_fill *fills, size_t count)
{
    return by_numbers(ledger, WERMAZUL_FILLS(fills, count));
}

static bool fits(int64_t number)
{
    return number >= 0 && number <= UINT32_MAX;
}

/* One fill by a call of its own. What its arguments would cut is refused here. */
static wermazul_told book(wermazul_ledger_record *ledger, const wermazul_fill *fill)
{
    if (!fits(fill->symbol) || !fits(fill->quantity) || !fits(fill->price)) return told_of(2);
    wermazul_totals_told done = wermazul_apply_fill(
        WERMAZUL_LEDGER_ROWS(*ledger), totals_of(ledger), (uint32_t)fill->symbol, (uint64_t)fill->side, (uint32_t)fill->quantity,
        (uint32_t)fill->price, fill->commission);
    set_totals(ledger, done.totals);
    return done.told;
}

/* The same fills by as many calls, until one is refused. */
static day one_by_one(wermazul_ledger_record ledger, const wermazul_fill *fills, size_t count)
{
    day after;
    after.taken = 0;
    after.told = told_of(wermazul_is_ledger(WERMAZUL_LEDGER_ROWS(ledger), totals_of(&ledger)) ? 0 : 1);
    while (after.told.number == 0 && after.taken < count) {
        after.told = book(&ledger, &fills[after.taken]);
        if (after.told.number == 0) after.taken++;
    }
    after.ledger = ledger;
    return after;
}

/* The day in one call, which is what the loop comes to; so many were taken, and then came this answer. */
static day hold(const char *what, wermazul_ledger_record ledger, const wermazul_fill *fills, size_t count, uint64_t taken, wermazul_told told)
{
    day after = in_one_call(ledger, fills, count), expected = one_by_one(ledger, fills, count);
    expect(what, after.taken == taken && same_told(after.told, told));
    expect(what, same_day(&after, &expected));
    return after;
}

/* Nothing is taken, and the record stays as it is. */
static void hold_numbers(const char *what, wermazul_ledger_record ledger, const int64_t *numbers, size_t length, uint64_t number)
{
    day after = by_numbers(ledger, numbers, length);
    expect(what, after.taken == 0 && same_told(after.told, told_of(number)));
    expect(what, memcmp(&after.ledger, &ledger, sizeof ledger) == 0);
}

static const wermazul_fill worked[4] = {{0, 0, 3, 100, 2}, {0, 0, 2, 101, 0}, {0, 1, 4, 110, 1}, {0, 1, 3, 90, 0}};

static void worked_day(void)
{
    wermazul_ledger_record expected = opened(10205);
    expected.commission = 3;
    expected.quantities[0] = -2;
    expected.averages[0] = 90;
    expected.realized[0] = 27;
    day after = hold("the worked day", opened(10000), worked, 4, 4, told_of(0));
    expect("its ledger", memcmp(&after.ledger, &expected, sizeof expected) == 0);
    expect("a ledger again", wermazul_is_ledger(WERMAZUL_LEDGER_ROWS(after.ledger), totals_of(&after.ledger)));
}

/* A single fill is a list too: each symbol's, in its own place of each row. */
static void single_fills(void)
{
    for (int symbol = 0; symbol < 32; symbol++) {
        wermazul_fill fill = {symbol, symbol % 2, 1 + symbol, 100 + symbol, 7 - symbol};
        wermazul_ledger_record expected = opened(10000);
        int64_t lots = symbol % 2 ? -1 - symbol : 1 + symbol;
        expected.cash -= lots * (100 + symbol) + 7 - symbol;
        expected.commission = 7 - symbol;
        expected.quantities[symbol] = lots;
        expected.averages[symbol] = (uint32_t)(100 + symbol);
        expected.realized[symbol] = symbol - 7;
        day after = hold("a single fill", opened(10000), &fill, 1, 1, told_of(0));
        expect("a single fill's ledger", memcmp(&after.ledger, &expected, sizeof expected) == 0);
    }
}

/* Cash 100: the second purchase needs 101 and there is 98, so that the sale behind it, which would have paid for it, is not booked. */
static void refused_days(void)
{
    static const wermazul_fill fills[3] = {{0, 0, 2, 1, 0}, {1, 0, 1, 101, 0}, {0, 1, 2, 5, 0}};
    static const wermazul_fill owing[2] = {{4, 1, 1, 1, 6}, {4, 0, 1, 99, -7}};
    static const wermazul_fill sold_out[3] = {{5, 1, 1000000000, 1, 0}, {5, 1, 1, 1, 0}, {5, 0, 1, 1, 0}};
    wermazul_ledger_record expected = opened(98);
    expected.quantities[0] = 2;
    expected.averages[0] = 1;
    day after = hold("the middle one refused", opened(100), fills, 3, 1, short_of(101, 98));
    expect("the first stands alone", memcmp(&after.ledger, &expected, sizeof expected) == 0);
    hold("the last one refused", opened(100), fills, 2, 1, short_of(101, 98));
    hold("the first one refused", opened(100), fills + 1, 2, 0, short_of(101, 100));
    hold("short of cash that is owed", opened(0), owing, 2, 1, short_of(92, -5));
    hold("past the limit of a position", opened(0), sold_out, 3, 1, told_of(9));
    expect("the rest by another call", in_one_call(after.ledger, fills + 2, 1).taken == 1);
}

/* A day of eight fills with one that is refused, at each of its places; what it would have changed further on is not changed. */
static void refused_at(const char *what, wermazul_fill refused, uint64_t number)
{
    for (size_t place = 0; place < 8; place++) {
        wermazul_fill fills[8];
        for (size_t i = 0; i < 8; i++) fills[i] = worked[i % 4];
        fills[place] = refused;
        day after = hold(what, opened(10000), fills, 8, place, told_of(number)), before = in_one_call(opened(10000), fills, place);
        expect(what, before.told.number == 0 && memcmp(&after.ledger, &before.ledger, sizeof after.ledger) == 0);
    }
}

static const int64_t most_lots = 1000000000, most_price = 100000000, most_charged = 1000000000000000, most_money = 4000000000000000000;
static const int64_t past_32_bits = 4294967296;

/* The fill with one of its numbers replaced, by its place. */
static wermazul_fill with(wermazul_fill fill, int place, int64_t number)
{
    int64_t *fields[5] = {&fill.symbol, &fill.side, &fill.quantity, &fill.price, &fill.commission};
    *fields[place] = number;
    return fill;
}

/* Each number at its limits, which is taken, and past them, which is refused in its turn; so are both ends of 64 bits, and numbers of which 32 bits
   are a fill's. */
static void limits(void)
{
    static const wermazul_fill sale = {0, 1, 1, 1, 0};
    static const char *const names[5] = {"symbol", "side", "quantity", "price", "commission"};
    const int64_t lowest[5] = {0, 0, 0, 1, -most_charged}, highest[5] = {31, 1, most_lots, most_price, most_charged};
    for (int place = 0; place < 5; place++) {
        const int64_t outside[8] = {lowest[place] - 1, highest[place] + 1, INT64_MIN, INT64_MAX, 1 - 2 * past_32_bits, 1 - past_32_bits,
                                    1 + past_32_bits, 1 + 2 * past_32_bits};
        wermazul_fill low = with(sale, place, lowest[place]), high = with(sale, place, highest[place]);
        hold(names[place], opened(10000), &low, 1, 1, told_of(0));
        hold(names[place], opened(10000), &high, 1, 1, told_of(0));
        for (int i = 0; i < (place == 4 ? 4 : 8); i++) refused_at(names[place], with(sale, place, outside[i]), 2);
    }
}

/* 2 before any fill, where the numbers are not five a fill; the fills that they begin with would all be taken. */
static void lengths(void)
{
    int64_t numbers[25];
    for (int i = 0; i < 25; i++) numbers[i] = i % 5 == 2 || i % 5 == 3;
    for (size_t length = 0; length <= 25; length++) {
        if (length % 5 == 0)
            expect("whole fills", by_numbers(opened(100), numbers, length).taken == length / 5);
        else
            hold_numbers("numbers that are not five a fill", opened(100), numbers, length, 2);
    }
    hold_numbers("no numbers", opened(100), numbers, 0, 0);
    hold("no fills", opened(-100), worked, 0, 0, told_of(0));
}

/* 1 at once, with no fills too, and before 2. */
static void no_ledger(const char *what, wermazul_ledger_record record)
{
    int64_t numbers[10] = {0, 1, 1, 1, 0, 0, 2, 1, 1, 0};
    expect(what, !wermazul_is_ledger(WERMAZUL_LEDGER_ROWS(record), totals_of(&record)));
    for (size_t length = 0; length <= 10; length++) hold_numbers(what, record, numbers, length, 1);
    hold_numbers(what, record, numbers + 5, 5, 1);
}

/* Long 3 of symbol 2 and short 2 of symbol 30. */
static wermazul_ledger_record pair(void)
{
    static const wermazul_fill fills[2] = {{2, 0, 3, 100, 4}, {30, 1, 2, 50, -1}};
    return hold("a pair", opened(1000), fills, 2, 2, told_of(0)).ledger;
}

/* A number that is held to a limit on both sides of 0. */
static void spoilt(const char *what, wermazul_ledger_record *record, int64_t *number, int64_t most)
{
    const int64_t before = *number, outside[4] = {most + 1, -most - 1, INT64_MAX, INT64_MIN};
    for (int i = 0; i < 4; i++) {
        *number = outside[i];
        no_ledger(what, *record);
    }
    *number = before;
}

static void spoilt_average(const char *what, wermazul_ledger_record record, int place, uint32_t average)
{
    record.averages[place] = average;
    no_ledger(what, record);
}

/* Each number of a record, past its limit; and an average with no lots, or lots with no average, at each place. */
static void no_ledgers(void)
{
    wermazul_ledger_record record = pair(), lots = record;
    spoilt("cash", &record, &record.cash, most_money);
    spoilt("commission", &record, &record.commission, most_money);
    for (int place = 0; place < 32; place++) {
        bool open = record.quantities[place] != 0;
        spoilt("lots", &record, &record.quantities[place], most_lots);
        spoilt("realized", &record, &record.realized[place], most_money);
        spoilt_average("an average too high", record, place, (uint32_t)most_price + 1);
        spoilt_average("the highest of 32 bits", record, place, UINT32_MAX);
        spoilt_average("an average or none", record, place, open ? 0 : 1);
        lots.quantities[place] = open ? 0 : -1;
        no_ledger("lots or none", lots);
        lots = record;
    }
    hold("the pair is a ledger still", record, worked, 1, 1, told_of(0));
}

static uint64_t seed = 20261116;

/* A number below the limit, by a multiplication and a mix of bits (splitmix64). */
static int64_t below(uint64_t limit)
{
    uint64_t z = seed += UINT64_C(0x9E3779B97F4A7C15);
    z = (z ^ z >> 30) * UINT64_C(0xBF58476D1CE4E5B9);
    z = (z ^ z >> 27) * UINT64_C(0x94D049BB133111EB);
    return (int64_t)((z ^ z >> 31) % limit);
}

/* An end of some range, or any number. */
static int64_t far_number(void)
{
    static const int64_t ends[] = {-1, 0, 1, 2, 31, 32, 100000000, 100000001, 1000000000, 1000000001, UINT32_MAX, 4294967296, 4294967297,
                                   1000000000000000, -1000000000000000, 1000000000000001, INT64_MAX, INT64_MIN};
    int64_t sign = below(2) ? 1 : -1;
    return below(4) ? ends[below(sizeof ends / sizeof *ends)] : sign * below(INT64_MAX);
}

static wermazul_fill random_fill(void)
{
    wermazul_fill fill;
    fill.symbol = below(8) ? below(3) : below(32);
    fill.side = below(2);
    fill.quantity = below(100);
    fill.price = 1 + below(500);
    fill.commission = below(50) - 10;
    if (below(40) == 0) {
        int place = (int)below(5);
        fill = with(fill, place, far_number());
    }
    return fill;
}

static void spoil(wermazul_ledger_record *record)
{
    int place = (int)below(32);
    switch (below(5)) {
    case 0: record->quantities[place] = far_number(); break;
    case 1: record->averages[place] = (uint32_t)far_number(); break;
    case 2: record->realized[place] = far_number(); break;
    case 3: record->cash = far_number(); break;
    default: record->commission = far_number();
    }
}

/* Days of up to 40 fills, each to what the day before it left, at times with a number replaced: in one call, in two, and in a loop. Every answer
   that a fill can have is seen, behind none and behind many that were taken. */
static void random_days(void)
{
    static const uint64_t numbers[5] = {0, 1, 2, 8, 9};
    int seen[18] = {0}, behind_some[18] = {0};
    wermazul_ledger_record ledger = opened(0);
    for (int left = 5000; left > 0; left--) {
        wermazul_fill fills[40];
        size_t count = (size_t)below(41), part;
        if (below(8) == 0) ledger = opened(below(1000000));
        if (below(16) == 0) spoil(&ledger);
        for (size_t i = 0; i < count; i++) fills[i] = random_fill();
        day expected = one_by_one(ledger, fills, count), after = in_one_call(ledger, fills, count);
        expect("a random day", same_day(&after, &expected));
        part = (size_t)below(count + 1);
        day first = in_one_call(ledger, fills, part), then = first;
        if (first.told.number == 0) then = in_one_call(first.ledger, fills + part, count - part);
        if (first.told.number == 0) then.taken += part;
        expect("a random day in two calls", same_day(&after, &then));
        seen[after.told.number]++;
        behind_some[after.told.number] += after.taken > 1;
        ledger = after.told.number == 1 ? opened(below(1000000)) : after.ledger;
    }
    for (int i = 0; i < 5; i++) expect("an answer that no random day has", seen[numbers[i]] > 10);
    for (int i = 0; i < 5; i++) expect("an answer that no random day has behind others", numbers[i] == 1 || behind_some[numbers[i]] > 10);
}

int main(void)
{
    worked_day();
    single_fills();
    refused_days();
    limits();
    lengths();
    no_ledgers();
    random_days();
    printf("%d answers of days held\n", asked);
    return 0;
}
