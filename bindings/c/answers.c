/* Random calls of every function of wermazul.h, the same at every run, each answer printed as numbers and what it left in lent memory as one
   number: bindings/archive-test compares what this prints over the archives of two processors. A line begins with the function's name. Random
   numbers are drawn one a statement, since C leaves open in which order a call's arguments are worked out. */
#include "wermazul.h"

#include <inttypes.h>
#include <stdio.h>
#include <string.h>

static uint64_t seed = 20260711;

/* A number below the limit, by a multiplication and a mix of bits (splitmix64). */
static uint64_t below(uint64_t limit)
{
    uint64_t z = seed += UINT64_C(0x9E3779B97F4A7C15);
    z = (z ^ z >> 30) * UINT64_C(0xBF58476D1CE4E5B9);
    z = (z ^ z >> 27) * UINT64_C(0x94D049BB133111EB);
    z ^= z >> 31;
    return limit ? z % limit : z;
}

/* Mostly a number below the limit, sometimes an end of its range or any number. */
static uint64_t number(uint64_t limit)
{
    static const uint64_t ends[] = {0, 1, 31, 32, 127, 128, 129, 100000000, 100000001, 1000000000, 1000000001, UINT32_MAX, INT64_MAX, UINT64_MAX};
    uint64_t kind = below(20);
    return kind == 0 ? ends[below(sizeof ends / sizeof *ends)] : kind == 1 ? below(0) : below(limit);
}

static void tell(const char *name, wermazul_told told)
{
    printf("%s %" PRIu64 " %" PRIu64, name, told.number, told.count);
    for (int i = 0; i < 4; i++) printf(" %s%" PRIu64, told.values[i].negative ? "-" : "", told.values[i].size);
    printf("\n");
}

/* What stands in memory that has no holes, as one number. */
static uint64_t sum_of(const void *memory, size_t size)
{
    const uint8_t *bytes = (const uint8_t *)memory;
    uint64_t sum = UINT64_C(14695981039346656037);
    for (size_t i = 0; i < size; i++) sum = (sum ^ bytes[i]) * UINT64_C(1099511628211);
    return sum;
}

static wermazul_counts counts_of(const wermazul_book_record *book)
{
    wermazul_counts counts = {book->bids.count, book->asks.count, book->sequence};
    return counts;
}

static void set_counts(wermazul_book_record *book, wermazul_counts counts)
{
    book->bids.count = counts.bids;
    book->asks.count = counts.asks;
    book->sequence = counts.sequence;
}

static void tell_book(const char *name, const wermazul_book_record *book, wermazul_told told)
{
    printf("%s left %016" PRIx64 "\n", name, sum_of(book, sizeof *book));
    tell(name, told);
}

/* One number of the record is replaced, which makes most books no book. */
static void spoil(wermazul_book_record *book)
{
    wermazul_levels *side = below(2) ? &book->bids : &book->asks;
    uint64_t place = below(128), value = number(200);
    switch (below(5)) {
    case 0: side->prices[place] = (uint32_t)value; break;
    case 1: side->quantities[place] = (uint32_t)value; break;
    case 2: side->count = value; break;
    case 3: book->asks.prices[0] = book->bids.prices[0]; break;
    default: book->sequence = value;
    }
}

static void change(wermazul_book_record *book)
{
    uint64_t side = below(40) ? below(2) : below(4), action = below(40) ? below(9) == 0 : below(4);
    uint64_t level = below(9) ? 1 + 200 * side + below(200) : number(420), lots = number(1000);
    uint64_t sequence = below(20) ? book->sequence + 1 : number(0);
    uint32_t price = (uint32_t)level, quantity = (uint32_t)lots;
    wermazul_counts_told next =
        wermazul_apply_delta(WERMAZUL_ROWS(*book), counts_of(book), side, action, price, quantity, sequence);
    set_counts(book, next.counts);
    tell_book("wermazul_apply_delta", book, next.told);
}

static wermazul_book_record random_book(void)
{
    wermazul_book_record book = wermazul_book();
    printf("wermazul_book %016" PRIx64 "\n", sum_of(&book, sizeof book));
    if (below(8) == 0) book.sequence = UINT64_MAX - below(100);
    for (uint64_t left = below(8) ? below(100) : 700; left > 0; left--) change(&book);
    if (below(4) == 0) spoil(&book);
    printf("wermazul_is_book %d\n", wermazul_is_book(WERMAZUL_ROWS(book), counts_of(&book)));
    return book;
}

/* Every question, and one listing, of the book and of the receiver. */
static void ask(const wermazul_held *held)
{
    uint32_t out[520] = {0};
    uint64_t side = number(2), first = number(300), second = number(3000), listing = number(3), room = below(3) ? 512 : below(520);
    uint32_t small = (uint32_t)first, to = (uint32_t)second;
    wermazul_counts counts = counts_of(&held->book);
    for (uint64_t question = 0; question < 30; question++) {
        tell("wermazul_ask", wermazul_ask(WERMAZUL_ROWS(held->book), counts, question, side, small, second));
        tell("wermazul_receiver_ask",
             wermazul_receiver_ask(WERMAZUL_ROWS(held->book), held->state, counts, question, side, small, second));
    }
    tell("wermazul_places", wermazul_places(WERMAZUL_ROWS(held->book), counts, listing, side, first, to, room));
    tell("wermazul_receiver_places",
         wermazul_receiver_places(WERMAZUL_ROWS(held->book), held->state, counts, listing, side, first, to, room));
    tell("wermazul_list", wermazul_list(WERMAZUL_ROWS(held->book), counts, listing, side, first, to, out, room));
    printf("wermazul_list left %016" PRIx64 "\n", sum_of(out, sizeof out));
    tell("wermazul_receiver_list",
         wermazul_receiver_list(WERMAZUL_ROWS(held->book), held->state, counts, 1, side, first, to, out, room));
    printf("wermazul_receiver_list left %016" PRIx64 "\n", sum_of(out, sizeof out));
}

static void read_line(const uint8_t *line, size_t length)
{
    wermazul_line_told read = wermazul_read_line(line, length);
    tell("wermazul_line_kind", wermazul_line_kind(line, length));
    printf("wermazul_line_end %" PRIu64 "\n", wermazul_line_end(line, length));
    tell_book("wermazul_read_line", &read.book, read.told);
    printf("wermazul_read_line %" PRIu64 " %" PRIu64 " %" PRIu32 " %" PRIu32 " %" PRIu64 "\n", read.side, read.action, read.price,
           read.quantity, read.sequence);
}

/* A delta's line, mostly the next one for this receiver. */
static wermazul_told delta_line(const wermazul_held *held, uint8_t *line)
{
    uint64_t side = below(40) ? below(2) : 2, action = below(4) == 0, price = number(200), quantity = number(1000);
    uint64_t sequence = held->book.sequence + (below(20) ? 1 : below(4)), room = below(9) ? 4200 : below(60);
    wermazul_told told = wermazul_write_delta(side, action, (uint32_t)price, (uint32_t)quantity, sequence, line, room);
    tell("wermazul_write_delta", told);
    return told;
}

static wermazul_told snapshot_line(uint8_t *line)
{
    wermazul_book_record book = random_book();
    uint64_t room = below(9) ? 4200 : below(4200);
    wermazul_told told = wermazul_write_snapshot(WERMAZUL_ROWS(book), counts_of(&book), line, room);
    tell("wermazul_write_snapshot", told);
    return told;
}

/* A line, at times damaged or cut; its length. */
static size_t random_line(const wermazul_held *held, uint8_t *line)
{
    memset(line, 'x', 4200);
    wermazul_told told = below(6) == 0 ? snapshot_line(line) : delta_line(held, line);
    printf("wermazul_write_delta left %016" PRIx64 "\n", sum_of(line, 4200));
    size_t length = told.count == 1 ? (size_t)told.values[0].size : below(4200);
    size_t place = below(length + 1);
    if (below(9) == 0) line[place] = (uint8_t)(line[place] + 1);
    return below(20) ? length : place;
}

static void receive(wermazul_held *held)
{
    uint8_t line[4200];
    size_t length = random_line(held, line);
    read_line(line, length);
    wermazul_turn_told after =
        wermazul_take_line(WERMAZUL_ROWS(held->book), held->state, counts_of(&held->book), line, length);
    held->state = after.state;
    set_counts(&held->book, after.counts);
    printf("wermazul_take_line %" PRIu64 "\n", after.state);
    tell_book("wermazul_take_line", &held->book, after.told);
}

/* One side is emptied, and then both. */
static void empty(wermazul_book_record *book)
{
    wermazul_counts_told after = wermazul_remove_all(WERMAZUL_ROWS(*book), counts_of(book), number(2));
    set_counts(book, after.counts);
    tell_book("wermazul_remove_all", book, after.told);
    after = wermazul_clear(WERMAZUL_ROWS(*book), counts_of(book));
    set_counts(book, after.counts);
    tell_book("wermazul_clear", book, after.told);
}

static wermazul_totals totals_of(const wermazul_ledger_record *ledger)
{
    wermazul_totals totals = {ledger->cash, ledger->commission};
    return totals;
}

static void set_totals(wermazul_ledger_record *ledger, wermazul_totals totals)
{
    ledger->cash = totals.cash;
    ledger->commission = totals.commission;
}

static void tell_ledger(const char *name, const wermazul_ledger_record *ledger, wermazul_told told)
{
    printf("%s %" PRId64 " %" PRId64, name, ledger->cash, ledger->commission);
    for (int i = 0; i < 32; i++) {
        int64_t quantity = ledger->quantities[i], realized = ledger->realized[i];
        uint32_t average = ledger->averages[i];
        if (quantity || average || realized) printf(" %d:%" PRId64 "@%" PRIu32 "=%" PRId64, i, quantity, average, realized);
    }
    printf("\n");
    tell(name, told);
}

static void value(const wermazul_ledger_record *ledger)
{
    uint32_t prices[33];
    for (int i = 0; i < 33; i++) prices[i] = below(5) ? 1 + (uint32_t)below(500) : 0;
    if (below(9) == 0) prices[7] = (uint32_t)number(500);
    uint64_t symbol = below(9) ? number(5) : 30 + below(4), price = number(500), length = below(9) ? 32 : below(34);
    wermazul_totals totals = totals_of(ledger);
    printf("wermazul_is_ledger %d\n", wermazul_is_ledger(WERMAZUL_LEDGER_ROWS(*ledger), totals));
    tell("wermazul_unrealized",
         wermazul_unrealized(WERMAZUL_LEDGER_ROWS(*ledger), totals, (uint32_t)symbol, (uint32_t)price));
    for (uint64_t worth = 0; worth < 5; worth++)
        tell("wermazul_worth", wermazul_worth(WERMAZUL_LEDGER_ROWS(*ledger), totals, worth, prices, length));
}

static void fill(wermazul_ledger_record *ledger)
{
    uint64_t symbol = number(4), side = below(40) ? below(2) : 2, quantity = number(100), price = number(500);
    uint64_t commission = below(9) ? below(50) - 10 : number(0);
    wermazul_totals_told after = wermazul_apply_fill(
        WERMAZUL_LEDGER_ROWS(*ledger), totals_of(ledger), (uint32_t)symbol, side, (uint32_t)quantity, (uint32_t)price, (int64_t)commission);
    set_totals(ledger, after.totals);
    tell_ledger("wermazul_apply_fill", ledger, after.told);
}

/* A list of fills, at times with a number replaced, or with numbers left over. */
static void book_list(wermazul_ledger_record *ledger)
{
    wermazul_fill fills[12];
    for (int i = 0; i < 12; i++) {
        int64_t symbol = (int64_t)below(4), side = (int64_t)below(2), quantity = (int64_t)below(100), price = 1 + (int64_t)below(500);
        int64_t commission = (int64_t)below(50) - 10;
        wermazul_fill next = {symbol, side, quantity, price, commission};
        fills[i] = next;
    }
    uint64_t place = below(12), replaced = below(10), value = below(2) ? number(200) : below(0);
    int64_t *fields[5] = {&fills[place].symbol, &fills[place].side, &fills[place].quantity, &fills[place].price, &fills[place].commission};
    if (replaced < 5) *fields[replaced] = (int64_t)value;
    uint64_t count = below(13), length = below(9) ? 5 * count : below(61);
    wermazul_day_told after = wermazul_apply_fills(WERMAZUL_LEDGER_ROWS(*ledger), totals_of(ledger), &fills->symbol, length);
    set_totals(ledger, after.totals);
    printf("wermazul_apply_fills %" PRIu64 "\n", after.taken);
    tell_ledger("wermazul_apply_fills", ledger, after.told);
}

static void deposit(wermazul_ledger_record *ledger)
{
    int64_t amount = (int64_t)(number(1000000) - 300000);
    wermazul_totals_told after = wermazul_deposit(WERMAZUL_LEDGER_ROWS(*ledger), totals_of(ledger), amount);
    set_totals(ledger, after.totals);
    tell_ledger("wermazul_deposit", ledger, after.told);
}

/* One number of the record is replaced, which makes many a ledger no ledger. */
static void spoil_ledger(wermazul_ledger_record *ledger)
{
    uint64_t place = below(32), value = below(2) ? number(200) : below(0);
    int64_t amount = (int64_t)value;
    switch (below(5)) {
    case 0: ledger->quantities[place] = amount; break;
    case 1: ledger->averages[place] = (uint32_t)value; break;
    case 2: ledger->realized[place] = amount; break;
    case 3: ledger->cash = amount; break;
    default: ledger->commission = amount;
    }
}

/* A ledger's history, with deposits and questions between; at its end copies with a number replaced are asked and changed. */
static void account(void)
{
    wermazul_ledger_told made = wermazul_ledger((int64_t)number(100000000));
    wermazul_ledger_record ledger = made.ledger;
    tell_ledger("wermazul_ledger", &ledger, made.told);
    for (uint64_t left = below(60); left > 0; left--) {
        fill(&ledger);
        if (below(6) == 0) book_list(&ledger);
        if (below(8) == 0) deposit(&ledger);
        if (below(4) == 0) value(&ledger);
    }
    for (int left = 0; left < 8; left++) {
        wermazul_ledger_record spoilt = ledger;
        spoil_ledger(&spoilt);
        value(&spoilt);
        book_list(&spoilt);
        fill(&spoilt);
        deposit(&spoilt);
    }
}

int main(void)
{
    wermazul_layout_record there = wermazul_layout();
    printf("wermazul_layout %016" PRIx64 "\nwermazul_matches %d\n", sum_of(&there, sizeof there), wermazul_matches());
    for (int round = 0; round < 120; round++) {
        wermazul_held held = wermazul_receiver();
        printf("wermazul_receiver %" PRIu64 " %016" PRIx64 "\n", held.state, sum_of(&held.book, sizeof held.book));
        for (uint64_t left = below(40); left > 0; left--) receive(&held);
        ask(&held);
        if (below(4) == 0) spoil(&held.book);
        if (below(9) == 0) held.state = number(3);
        ask(&held);
        empty(&held.book);
        account();
    }
    return 0;
}
