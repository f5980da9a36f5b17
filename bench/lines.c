/* Times the reader of lines beside a plain C decoder of the same lines, in one run: the same delta lines and full snapshots, several rounds.
   Both must answer the same kind for each line, or the run fails. */
#include "../bindings/c/wermazul.h"

#include <stdio.h>
#include <stdlib.h>
#include <string.h>
#include <time.h>

/* The kind that is told, 0 for a damaged line. */
static uint64_t proved_kind(const uint8_t *line, size_t len)
{
    return wermazul_line_kind(line, len).values[0].size;
}

static const char DIGITS[] = "0123456789ABCDEF";

/* The value of each digit, and 0x80 for any other byte. */
static uint8_t VALUES[256];

static void set_values(void)
{
    memset(VALUES, 0x80, sizeof VALUES);
    for (int i = 0; i < 16; i++) VALUES[(uint8_t)DIGITS[i]] = (uint8_t)i;
}

static uint64_t number(const uint8_t *b, int k)
{
    uint64_t n = 0;
    for (int i = 0; i < k; i++) n = n << 8 | b[i];
    return n;
}

static int is_level(const uint8_t *b)
{
    uint64_t p = number(b, 4), q = number(b + 4, 4);
    return p >= 1 && p <= 100000000 && q <= 1000000000;
}

/* 0 damaged, 1 a delta, 2 a snapshot. */
static uint64_t plain_kind(const uint8_t *line, size_t len)
{
    static uint8_t b[2060];
    if (len > 4121 || len < 25 || len % 2 == 0 || line[len - 1] != '\n') return 0;
    size_t n = (len - 1) / 2;
    unsigned sum = 0, bad = 0;
    for (size_t i = 0; i < n; i++) {
        uint8_t h = VALUES[line[2 * i]], l = VALUES[line[2 * i + 1]];
        bad |= h | l;
        b[i] = (uint8_t)(h << 4 | l);
        sum += b[i];
    }
    if (bad & 0x80 || sum % 256) return 0;
    if (b[0] == 1) {
        if (n != 20 || b[1] > 1 || b[2] > 1) return 0;
        if (b[2] == 1 && number(b + 7, 4) != 0) return 0;
        return is_level(b + 3) ? 1 : 0;
    }
    if (b[0] != 2) return 0;
    size_t bids = b[9], asks = b[10];
    if (bids > 128 || asks > 128 || n != 12 + 8 * (bids + asks)) return 0;
    for (size_t i = 0; i < bids + asks; i++) {
        if (!is_level(b + 11 + 8 * i)) return 0;
        if (i + 1 < bids && number(b + 11 + 8 * i, 4) <= number(b + 19 + 8 * i, 4)) return 0;
        if (i >= bids && i + 1 < bids + asks && number(b + 11 + 8 * i, 4) >= number(b + 19 + 8 * i, 4)) return 0;
    }
    if (bids && asks && number(b + 11, 4) >= number(b + 11 + 8 * bids, 4)) return 0;
    return 2;
}

static uint64_t seed = 88172645463325252u;

static uint64_t next(void)
{
    seed ^= seed << 13;
    seed ^= seed >> 7;
    return seed ^= seed << 17;
}

static size_t put(uint8_t *line, const uint8_t *b, size_t n)
{
    unsigned sum = 0;
    for (size_t i = 0; i < n; i++) sum += b[i];
    for (size_t i = 0; i <= n; i++) {
        uint8_t c = i < n ? b[i] : (uint8_t)(256 - sum % 256);
        line[2 * i] = (uint8_t)DIGITS[c >> 4];
        line[2 * i + 1] = (uint8_t)DIGITS[c & 15];
    }
    line[2 * n + 2] = '\n';
    return 2 * n + 3;
}

static void be(uint8_t *b, int k, uint64_t n)
{
    for (int i = k; i-- > 0; n >>= 8) b[i] = (uint8_t)n;
}

static size_t delta(uint8_t *line)
{
    uint8_t b[19];
    uint64_t r = next();
    b[0] = 1, b[1] = r & 1, b[2] = r >> 1 & 1;
    be(b + 3, 4, 1 + next() % 100000000);
    be(b + 7, 4, b[2] ? 0 : next() % 1000000001);
    be(b + 11, 8, next());
    return put(line, b, 19);
}

static size_t snapshot(uint8_t *line)
{
    static uint8_t b[2059];
    b[0] = 2;
    be(b + 1, 8, next());
    b[9] = b[10] = 128;
    for (int i = 0; i < 256; i++) {
        be(b + 11 + 8 * i, 4, i < 128 ? 50000 - i : 50001 + i - 128);
        be(b + 15 + 8 * i, 4, next() % 1000000001);
    }
    return put(line, b, 2059);
}

/* The time that this thread had a processor, so that what else runs on the machine counts little. */
static double seconds(void)
{
    struct timespec t;
    clock_gettime(CLOCK_THREAD_CPUTIME_ID, &t);
    return (double)t.tv_sec + 1e-9 * (double)t.tv_nsec;
}

static uint64_t walk(uint64_t (*kind)(const uint8_t *, size_t), const uint8_t *lines, size_t len, size_t count)
{
    uint64_t sum = 0;
    for (size_t i = 0; i < count; i++) sum += kind(lines + i * len, len);
    return sum;
}

static int compare(const char *name, uint8_t *lines, size_t len, size_t count, uint64_t kind)
{
    double best_plain = 1e9, best_proved = 1e9;
    for (int round = 0; round < 7; round++) {
        double t0 = seconds();
        uint64_t a = walk(plain_kind, lines, len, count);
        double t1 = seconds();
        uint64_t b = walk(proved_kind, lines, len, count);
        double t2 = seconds();
        if (a != b || a != kind * count) {
            printf("%s: the readers differ: %llu and %llu\n", name, (unsigned long long)a, (unsigned long long)b);
            return 1;
        }
        if (t1 - t0 < best_plain) best_plain = t1 - t0;
        if (t2 - t1 < best_proved) best_proved = t2 - t1;
    }
    double p = 1e9 * best_plain / (double)count, q = 1e9 * best_proved / (double)count;
    printf("%s: plain C %.0f ns, proved %.0f ns, ratio %.2f (%zu lines, best of 7 rounds)\n", name, p, q, q / p, count);
    return 0;
}

int main(void)
{
    set_values();
    size_t deltas = 1000000, snapshots = 4000;
    uint8_t *d = malloc(deltas * 41), *s = malloc(snapshots * 4121);
    if (!d || !s) return 1;
    for (size_t i = 0; i < deltas; i++) delta(d + 41 * i);
    for (size_t i = 0; i < snapshots; i++) snapshot(s + 4121 * i);
    int failed = compare("delta line", d, 41, deltas, 1) + compare("full snapshot", s, 4121, snapshots, 2);
    /* damaged copies: both must agree there too */
    size_t agreed = 0, tried = 0;
    for (size_t i = 0; i < 200000; i++) {
        uint8_t line[41];
        memcpy(line, d + 41 * i, 41);
        line[next() % 41] = (uint8_t)next();
        tried++;
        agreed += plain_kind(line, 41) == proved_kind(line, 41);
    }
    printf("damaged delta lines: %zu of %zu read alike\n", agreed, tried);
    return failed || agreed != tried;
}
