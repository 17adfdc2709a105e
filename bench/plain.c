/* Every operation of celduga.h in plain C: linear time, by 64-bit words where that pays. Vertices, places and bits
   count from 0 here; terminals, visit numbers and places of a bit string count from 1 where a caller sees them. */
#include "plain.h"

#include <string.h>

enum { MOST_TERMINALS = 4096, MOST_WIRES = 16384, MOST_LOOKUP = 512, HEADER_BITS = 28, NO_PARENT = 0xFFFF,
       PASSED = 0x8000 };

enum {
    TOO_SHORT = 1,
    OVER_LIMIT,
    WRONG_LENGTH,
    BAD_UNARY,
    SPARE_SET,
    STRAY_NEIGHBOUR,
    ONE_SIDED_WIRE = 8, /* no operation gives 7 */
    SHORT_WORK,
    WRONG_BUFFER,
    NO_TERMINAL,
    BAD_INDEX,
    NO_CHILD,
    NO_START,
    BAD_LIST,
    UNFIT_LISTS,
    WRONG_RECORD
};

static uint32_t refused(uint32_t number)
{
    return number << 16;
}

/* ---- bits ---- */

/* The table of document 01: row b, entry k - 1 is the place of the k-th one of byte b, or 0. */
#define BIT(b, i) ((b) >> (8 - (i)) & 1)
#define UP_TO_4(b, i) (BIT(b, 1) + ((i) > 1) * BIT(b, 2) + ((i) > 2) * BIT(b, 3) + ((i) > 3) * BIT(b, 4))
#define UP_TO_8(b, i) (((i) > 4) * BIT(b, 5) + ((i) > 5) * BIT(b, 6) + ((i) > 6) * BIT(b, 7) + ((i) > 7) * ((b) & 1))
#define AT(b, i, k) ((i) * (BIT(b, i) && UP_TO_4(b, i) + UP_TO_8(b, i) == (k)))
#define PLACE(b, k) (AT(b, 1, k) + AT(b, 2, k) + AT(b, 3, k) + AT(b, 4, k) + AT(b, 5, k) + AT(b, 6, k) + AT(b, 7, k) + AT(b, 8, k))
#define ROW(b) { PLACE(b, 1), PLACE(b, 2), PLACE(b, 3), PLACE(b, 4), PLACE(b, 5), PLACE(b, 6), PLACE(b, 7), PLACE(b, 8) }
#define ROWS_4(b) ROW(b), ROW((b) + 1), ROW((b) + 2), ROW((b) + 3)
#define ROWS_16(b) ROWS_4(b), ROWS_4((b) + 4), ROWS_4((b) + 8), ROWS_4((b) + 12)
#define ROWS_64(b) ROWS_16(b), ROWS_16((b) + 16), ROWS_16((b) + 32), ROWS_16((b) + 48)

static const uint8_t place_in_byte[256][8] = { ROWS_64(0), ROWS_64(64), ROWS_64(128), ROWS_64(192) };

/* Eight bytes in the machine's order, which does for counting: the first byte is the lowest. */
static inline uint64_t load_word(const uint8_t *p)
{
    uint64_t w;
    memcpy(&w, p, 8);
    return w;
}

/* Eight bytes, the first one highest. */
static inline uint64_t load_big(const uint8_t *p)
{
    return __builtin_bswap64(load_word(p));
}

/* The same from byte `at` on, with zeros past the end. */
static inline uint64_t load_big_within(const uint8_t *bytes, size_t len, size_t at)
{
    uint64_t w = 0;
    size_t i;
    if (at + 8 <= len)
        return load_big(bytes + at);
    for (i = 0; i < 8; i++)
        w = w << 8 | (at + i < len ? bytes[at + i] : 0);
    return w;
}

/* Writes eight bytes, the highest first. */
static inline void store_big(uint8_t *p, uint64_t w)
{
    w = __builtin_bswap64(w);
    memcpy(p, &w, 8);
}

/* The ones of each byte of w, in that byte. */
static inline uint64_t ones_by_byte(uint64_t w)
{
    w -= w >> 1 & 0x5555555555555555;
    w = (w & 0x3333333333333333) + (w >> 2 & 0x3333333333333333);
    return (w + (w >> 4)) & 0x0F0F0F0F0F0F0F0F;
}

static inline size_t sum_of_bytes(uint64_t counts)
{
    return counts * 0x0101010101010101 >> 56;
}

static inline size_t ones(uint64_t w)
{
    return sum_of_bytes(ones_by_byte(w));
}

/* The ones among the n bits from bit `start` on. They are counted from the start of its byte, less those before `start`. */
static inline size_t ones_in(const uint8_t *bytes, size_t start, size_t n)
{
    const uint8_t *p = bytes + start / 8;
    size_t off = start % 8;
    size_t sum = 0;
    uint64_t rest = 0;
    if (n == 0)
        return 0;
    sum -= ones(p[0] >> (8 - off));
    for (n += off; n >= 64; n -= 64, p += 8)
        sum += ones(load_word(p));
    for (; n >= 8; n -= 8)
        rest = rest << 8 | *p++;
    if (n > 0)
        rest = rest << n | *p >> (8 - n);
    return sum + ones(rest);
}

/* The first one from bit `from` on, or `end`. */
static inline size_t next_one(const uint8_t *bytes, size_t len, size_t from, size_t end)
{
    size_t at = from / 8;
    uint64_t w;
    if (from >= end)
        return end;
    w = load_big_within(bytes, len, at) & ~(uint64_t)0 >> from % 8;
    while (w == 0) {
        at += 8;
        if (8 * at >= end)
            return end;
        w = load_big_within(bytes, len, at);
    }
    from = 8 * at + (size_t)__builtin_clzll(w);
    return from < end ? from : end;
}

static inline int held(size_t len, size_t start, size_t places)
{
    return start / 8 <= len && start <= 8 * len && places <= 8 * len - start;
}

size_t plain_rank(const uint8_t *bytes, size_t len, size_t start, size_t places, size_t p)
{
    if (!held(len, start, places))
        return 0;
    return ones_in(bytes, start, p < places ? p : places);
}

/* By words, then by bytes, then by the table. The ones of the first byte that lie before the string count as passed. */
size_t plain_select(const uint8_t *bytes, size_t len, size_t start, size_t places, size_t k)
{
    size_t off = start % 8, at = start / 8, last, place, c;
    if (k == 0 || places == 0 || !held(len, start, places))
        return 0;
    last = (start + places - 1) / 8;
    k += ones(bytes[at] >> (8 - off));
    for (; at + 8 <= last + 1; at += 8) {
        uint64_t counts = ones_by_byte(load_word(bytes + at));
        c = sum_of_bytes(counts);
        if (k <= c) {
            for (; k > (counts & 255); counts >>= 8, at++)
                k -= counts & 255;
            place = 8 * at + place_in_byte[bytes[at]][k - 1] - start;
            return place <= places ? place : 0;
        }
        k -= c;
    }
    for (; at <= last; at++) {
        c = ones(bytes[at]);
        if (k <= c) {
            place = 8 * at + place_in_byte[bytes[at]][k - 1] - start;
            return place <= places ? place : 0;
        }
        k -= c;
    }
    return 0;
}

/* The field of 12 bits from bit `start` on, with a branch on two bytes or three. */
static inline size_t read12(const uint8_t *bytes, size_t start)
{
    const uint8_t *p = bytes + start / 8;
    size_t off = start % 8;
    if (off <= 4)
        return ((size_t)p[0] << 8 | p[1]) >> (4 - off) & 4095;
    return ((size_t)p[0] << 16 | (size_t)p[1] << 8 | p[2]) >> (12 - off) & 4095;
}

size_t plain_read12(const uint8_t *bytes, size_t len, size_t start)
{
    (void)len;
    return read12(bytes, start);
}

/* ---- record ---- */

struct sizes {
    size_t n, m;
};

/* An accepted record, taken apart: block v is nbrs[starts[v]] up to nbrs[starts[v + 1]]. */
struct graph {
    size_t n, m;
    uint16_t starts[MOST_TERMINALS + 1];
    uint16_t nbrs[2 * MOST_WIRES];
};

static inline size_t record_length(size_t n, size_t m)
{
    return (HEADER_BITS + n + 26 * m + 7) / 8;
}

/* Order R: the number of the refusal, or 0. */
static inline uint32_t order_r(const uint8_t *record, size_t len, struct sizes *s)
{
    uint32_t head;
    if (len < 4)
        return TOO_SHORT;
    head = (uint32_t)record[0] << 24 | (uint32_t)record[1] << 16 | (uint32_t)record[2] << 8 | record[3];
    s->n = head >> 19;
    s->m = head >> 4 & 0x7FFF;
    if (s->n > MOST_TERMINALS || s->m > MOST_WIRES)
        return OVER_LIMIT;
    if (len != record_length(s->n, s->m))
        return WRONG_LENGTH;
    if (ones_in(record, HEADER_BITS, s->n + 2 * s->m) != s->n || (s->n + 2 * s->m > 0 && (record[3] & 8) == 0))
        return BAD_UNARY;
    return 0;
}

/* Where each block starts, and where the last one ends. */
static void fill_starts(const uint8_t *record, size_t len, size_t n, size_t m, uint16_t *starts)
{
    size_t k = 0, at = 3, bit;
    uint64_t w = load_big_within(record, len, at) & ~(uint64_t)0 >> 4;
    while (k < n) {
        for (; w != 0 && k < n; k++) {
            bit = (size_t)__builtin_clzll(w);
            w ^= (uint64_t)1 << 63 >> bit;
            starts[k] = (uint16_t)(8 * at + bit - HEADER_BITS - k);
        }
        at += 8;
        w = load_big_within(record, len, at);
    }
    starts[n] = (uint16_t)(2 * m);
}

/* `count` fields from bit `start` on, four from a word. Returns the greatest. */
static size_t read_fields(const uint8_t *bytes, size_t len, size_t start, size_t count, uint16_t *list)
{
    size_t at = start / 8, off = start % 8, i = 0;
    uint16_t greatest = 0;
    for (; i + 4 <= count && at + 8 <= len; i += 4, at += 6) {
        uint64_t w = load_big(bytes + at) << off;
        list[i] = (uint16_t)(w >> 52);
        list[i + 1] = w >> 40 & 4095;
        list[i + 2] = w >> 28 & 4095;
        list[i + 3] = w >> 16 & 4095;
    }
    for (; i < count; i++)
        list[i] = (uint16_t)read12(bytes, start + 12 * i);
    for (i = 0; i < count; i++)
        greatest = list[i] > greatest ? list[i] : greatest;
    return greatest;
}

/* Rules 6 and 8 for fields below n. The blocks in which v stands go to v's own part of `mentions`, in ascending order,
   each as often as it has v; they are as many as v's neighbours. Read back in order, each part must meet its blocks
   again. */
static uint32_t pairing(const struct graph *g)
{
    uint16_t next[MOST_TERMINALS], mentions[2 * MOST_WIRES];
    size_t u, p;
    int uneven = 0;
    memcpy(next, g->starts, g->n * sizeof next[0]);
    for (u = 0; u < g->n; u++) {
        for (p = g->starts[u]; p < g->starts[u + 1]; p++) {
            size_t v = g->nbrs[p];
            if (v == u)
                return STRAY_NEIGHBOUR;
            if (next[v] < g->starts[v + 1])
                mentions[next[v]++] = (uint16_t)u;
            else
                uneven = 1;
        }
    }
    if (uneven)
        return ONE_SIDED_WIRE;
    memcpy(next, g->starts, g->n * sizeof next[0]);
    for (u = 0; u < g->n; u++)
        for (p = g->starts[u]; p < g->starts[u + 1]; p++)
            if (mentions[next[mentions[p]]++] != u)
                return ONE_SIDED_WIRE;
    return 0;
}

/* Takes a record apart: the number of Check's refusal, or 0. */
static uint32_t take_apart(const uint8_t *record, size_t len, struct graph *g)
{
    struct sizes s;
    size_t used;
    uint32_t why = order_r(record, len, &s);
    if (why != 0)
        return why;
    g->n = s.n;
    g->m = s.m;
    used = HEADER_BITS + s.n + 26 * s.m;
    if ((record[len - 1] & ((1u << (8 * len - used)) - 1)) != 0)
        return SPARE_SET;
    fill_starts(record, len, s.n, s.m, g->starts);
    if (s.m > 0 && read_fields(record, len, HEADER_BITS + s.n + 2 * s.m, 2 * s.m, g->nbrs) >= s.n)
        return STRAY_NEIGHBOUR;
    return pairing(g);
}

uint32_t plain_check(const uint8_t *record, size_t len)
{
    struct graph g;
    return refused(take_apart(record, len, &g));
}

/* How many looms there are. The queue has the vertices met so far. Every neighbour is written behind them, and stays
   where it is fresh: the processor could not foresee a branch on that. Once all are met, no block is read any more. */
static size_t count_looms(const struct graph *g)
{
    uint8_t fresh[MOST_TERMINALS];
    uint16_t queue[MOST_TERMINALS + 1];
    size_t count = 0, met = 0, read = 0, first, p;
    memset(fresh, 1, g->n);
    for (first = 0; met < g->n; first++) {
        if (!fresh[first])
            continue;
        count++;
        fresh[first] = 0;
        queue[met++] = (uint16_t)first;
        for (; read < met && met < g->n; read++) {
            size_t u = queue[read], end = g->starts[u + 1];
            for (p = g->starts[u]; p < end; p++) {
                size_t v = g->nbrs[p];
                queue[met] = (uint16_t)v;
                met += fresh[v];
                fresh[v] = 0;
            }
        }
    }
    return count;
}

uint32_t plain_loop_figure(const uint8_t *record, size_t len)
{
    struct graph g;
    uint32_t why = take_apart(record, len, &g);
    if (why != 0)
        return refused(why);
    return (uint32_t)(g.m - g.n + count_looms(&g));
}

uint32_t plain_unpack(const uint8_t *record, size_t len, uint16_t *list, size_t list_len)
{
    struct graph g;
    size_t i;
    uint32_t why = take_apart(record, len, &g);
    if (why != 0)
        return refused(why);
    if (list_len != 2 * g.m)
        return refused(WRONG_BUFFER);
    for (i = 0; i < list_len; i++)
        list[i] = (uint16_t)(g.nbrs[i] + 1);
    return 0;
}

/* Where each block starts, and where the last one ends. Returns the sum of the degrees, which may be too great for
   both. */
static size_t sum_up(const uint16_t *degrees, size_t n, uint16_t *starts)
{
    uint32_t sum = 0;
    size_t v;
    for (v = 0; v < n; v++) {
        starts[v] = (uint16_t)sum;
        sum += degrees[v];
    }
    starts[n] = (uint16_t)sum;
    return sum;
}

/* The neighbours less 1; 0, which is no terminal, becomes 65,535. Returns the greatest. */
static size_t take_neighbours(const uint16_t *list, size_t count, uint16_t *nbrs)
{
    uint16_t greatest = 0;
    size_t i;
    for (i = 0; i < count; i++) {
        uint16_t v = (uint16_t)(list[i] - 1);
        nbrs[i] = v;
        greatest = v > greatest ? v : greatest;
    }
    return greatest;
}

/* The header and D by words, then the fields, four to a word. What stands before byte `at` is written; the next `bits`
   bits are the high ones of w, with zeros below. A word with four fields fills six bytes: the two behind them are
   written too, and once more when they are full. */
static void write_record(const struct graph *g, uint8_t *record, size_t len)
{
    size_t count = 2 * g->m, end = HEADER_BITS + g->n + count, at = 0, i = 0, bits, v;
    uint64_t w = (uint64_t)g->n << 51 | (uint64_t)g->m << 36;
    for (v = 0; v < g->n; v++) {
        for (bits = HEADER_BITS + g->starts[v] + v - 8 * at; bits >= 64; bits -= 64, at += 8, w = 0)
            store_big(record + at, w);
        w |= (uint64_t)1 << 63 >> bits;
    }
    for (bits = end - 8 * at; bits >= 64; bits -= 64, at += 8, w = 0)
        store_big(record + at, w);
    for (; bits >= 8; bits -= 8, w <<= 8)
        record[at++] = (uint8_t)(w >> 56);
    for (; i + 4 <= count && at + 8 <= len; i += 4, at += 6, w <<= 48) {
        const uint16_t *f = g->nbrs + i;
        w |= ((uint64_t)f[0] << 36 | (uint64_t)f[1] << 24 | (uint64_t)f[2] << 12 | f[3]) << (16 - bits);
        store_big(record + at, w);
    }
    for (; i < count; i++) {
        w |= (uint64_t)g->nbrs[i] << (52 - bits);
        for (bits += 12; bits >= 8; bits -= 8, w <<= 8)
            record[at++] = (uint8_t)(w >> 56);
    }
    if (bits > 0)
        record[at] = (uint8_t)(w >> 56);
}

uint32_t plain_file(const uint16_t *degrees, size_t degrees_len, const uint16_t *neighbours, size_t neighbours_len,
                    uint8_t *record, size_t record_len)
{
    struct graph g;
    size_t sum;
    uint32_t why;
    if (degrees_len > MOST_TERMINALS)
        return refused(UNFIT_LISTS);
    sum = sum_up(degrees, degrees_len, g.starts);
    if (sum % 2 != 0 || sum > 2 * MOST_WIRES || neighbours_len != sum)
        return refused(UNFIT_LISTS);
    g.n = degrees_len;
    g.m = sum / 2;
    if (sum > 0 && take_neighbours(neighbours, sum, g.nbrs) >= g.n)
        return refused(STRAY_NEIGHBOUR);
    why = pairing(&g);
    if (why != 0)
        return refused(why);
    if (record_len != record_length(g.n, g.m))
        return refused(WRONG_RECORD);
    write_record(&g, record, record_len);
    return 0;
}

/* The places of one block, which D's bits `*from` up to `*to` stand for. */
static inline void find_block(const uint8_t *record, size_t len, const struct sizes *s, size_t v, size_t *from, size_t *to)
{
    size_t places = s->n + 2 * s->m;
    *from = plain_select(record, len, HEADER_BITS, places, v + 1);
    *to = next_one(record, len, HEADER_BITS + *from, HEADER_BITS + places) - HEADER_BITS;
}

uint32_t plain_degree(const uint8_t *record, size_t len, size_t v)
{
    struct sizes s;
    size_t from, to;
    uint32_t why = order_r(record, len, &s);
    if (why != 0)
        return refused(why);
    if (v == 0 || v > s.n)
        return refused(NO_TERMINAL);
    find_block(record, len, &s, v - 1, &from, &to);
    return (uint32_t)(to - from);
}

uint64_t plain_neighbours(const uint8_t *record, size_t len, size_t list_len, size_t v)
{
    struct sizes s;
    size_t from, to;
    if (order_r(record, len, &s) != 0 || v == 0 || v > s.n || list_len != 2 * s.m)
        return 0;
    find_block(record, len, &s, v - 1, &from, &to);
    return (uint64_t)(from - v) << 32 | (to - from);
}

/* ---- forest ---- */

/* Whether the search can't begin at this terminal: without terminals it begins at 0. */
static inline int no_start(size_t n, size_t start)
{
    return n == 0 ? start != 0 : start == 0 || start > n;
}

static inline size_t mark_bytes(size_t n, size_t m)
{
    return (n + 2 * m + 7) / 8;
}

static inline size_t index_length(size_t n, size_t m)
{
    return 3 * mark_bytes(n, m) + (12 * n + 7) / 8;
}

static inline void mark(uint8_t *section, size_t bit)
{
    section[bit / 8] |= (uint8_t)(0x80 >> bit % 8);
}

/* The search from the vertex `first` and then from all in order, with the marks set on the way. Place p of block u is
   bit p + u + 1 of a section. Visit numbers count from 1 here, and 0 is a vertex not visited yet. The edge by which the
   search came has its other end at the first mention of the parent. Once that is passed, `up` has the bit PASSED: a
   later mention is another edge's. A vertex keeps both places of that edge, and while the search is below it, its
   parent, the place to go on from and its lowpoint. */
static void search(const struct graph *g, size_t first, uint16_t *work, uint8_t *e, uint8_t *p, uint8_t *b)
{
    size_t n = g->n, count = 0, root, others = 0;
    uint16_t *number = work, *parent = work + n, *next = work + 2 * n, *low = work + 3 * n;
    uint16_t *down = work + 4 * n, *back = work + 5 * n;
    memset(number, 0, n * sizeof number[0]);
    for (root = first; root < n; root = others++) {
        size_t u = root, up = NO_PARENT, at = g->starts[u], end = g->starts[u + 1], lowest;
        if (number[root] != 0)
            continue;
        number[root] = (uint16_t)(lowest = ++count);
        for (;;) {
            if (at < end) {
                size_t v = g->nbrs[at];
                if (number[v] == 0) {
                    mark(e, at + u + 1);
                    down[v] = (uint16_t)at;
                    parent[u] = (uint16_t)up;
                    next[u] = (uint16_t)(at + 1);
                    low[u] = (uint16_t)lowest;
                    up = u;
                    u = v;
                    at = g->starts[u];
                    end = g->starts[u + 1];
                    number[u] = (uint16_t)(lowest = ++count);
                    continue;
                }
                if (v == up) {
                    mark(p, at + u + 1);
                    back[u] = (uint16_t)at;
                    up |= PASSED;
                } else if (number[v] < lowest) {
                    lowest = number[v];
                }
                at++;
            } else {
                if (up == NO_PARENT)
                    break;
                up -= PASSED;
                if (lowest == number[u]) {
                    mark(b, (size_t)down[u] + up + 1);
                    mark(b, (size_t)back[u] + u + 1);
                }
                u = up;
                up = parent[u];
                at = next[u];
                end = g->starts[u + 1];
                if (low[u] < lowest)
                    lowest = low[u];
            }
        }
    }
}

/* The visit numbers less 1, two in three bytes. */
static void write_numbers(const uint16_t *number, size_t n, uint8_t *out)
{
    size_t v;
    for (v = 0; v + 2 <= n; v += 2, out += 3) {
        unsigned x = number[v] - 1u, y = number[v + 1] - 1u;
        out[0] = (uint8_t)(x >> 4);
        out[1] = (uint8_t)(x << 4 | y >> 8);
        out[2] = (uint8_t)y;
    }
    if (v < n) {
        unsigned x = number[v] - 1u;
        out[0] = (uint8_t)(x >> 4);
        out[1] = (uint8_t)(x << 4);
    }
}

uint32_t plain_build(const uint8_t *record, size_t len, size_t start, uint16_t *work, size_t work_len, uint8_t *index,
                     size_t index_len)
{
    struct graph g;
    size_t k;
    uint32_t why = take_apart(record, len, &g);
    if (why != 0)
        return refused(why);
    if (work_len < 8 * g.n)
        return refused(SHORT_WORK);
    if (index_len != index_length(g.n, g.m))
        return refused(WRONG_BUFFER);
    if (no_start(g.n, start))
        return refused(NO_START);
    k = mark_bytes(g.n, g.m);
    memset(index, 0, 3 * k);
    search(&g, start - 1, work, index, index + k, index + 2 * k);
    write_numbers(work, g.n, index + 3 * k);
    return 0;
}

/* The same search without marks. Parents count from 1 here, and 0 is a root's. Where the parent's first mention would
   not lower the lowpoint, it need not be passed: no later one would either. `open` is a stack of the vertices that have
   no head yet: one that is left without a way back above it is a root or below a bridge, and the head of all that stand
   from it on. */
static void search_table(const struct graph *g, size_t first, uint16_t *work, uint16_t *visits, uint16_t *parents,
                         uint16_t *children, uint16_t *heads)
{
    size_t n = g->n, count = 0, top = 0, root, others = 0;
    uint16_t *parent = work, *next = work + n, *low = work + 2 * n, *open = work + 3 * n;
    memset(visits, 0, n * sizeof visits[0]);
    memset(children, 0, n * sizeof children[0]);
    for (root = first; root < n; root = others++) {
        size_t u = root, up = 0, at = g->starts[u], end = g->starts[u + 1], lowest;
        if (visits[root] != 0)
            continue;
        parents[root] = 0;
        visits[root] = (uint16_t)(lowest = ++count);
        open[top++] = (uint16_t)root;
        for (;;) {
            size_t v = 0, seen = 1;
            while (at < end) {
                v = g->nbrs[at++];
                seen = visits[v];
                if (seen == 0)
                    break;
                if (seen < lowest) {
                    if (v + 1 == up)
                        up |= PASSED;
                    else
                        lowest = seen;
                }
            }
            if (seen == 0) {
                children[u]++;
                parent[u] = (uint16_t)up;
                next[u] = (uint16_t)at;
                low[u] = (uint16_t)lowest;
                up = u + 1;
                u = v;
                parents[u] = (uint16_t)up;
                at = g->starts[u];
                end = g->starts[u + 1];
                visits[u] = (uint16_t)(lowest = ++count);
                open[top++] = (uint16_t)u;
            } else {
                if (lowest == visits[u]) {
                    do {
                        v = open[--top];
                        heads[v] = (uint16_t)(u + 1);
                    } while (v != u);
                }
                if (up == 0)
                    break;
                u = (up & (PASSED - 1)) - 1;
                up = parent[u];
                at = next[u];
                end = g->starts[u + 1];
                if (low[u] < lowest)
                    lowest = low[u];
            }
        }
    }
}

uint32_t plain_table(const uint8_t *record, size_t len, size_t start, uint16_t *work, size_t work_len,
                     uint16_t *visits, size_t visits_len, uint16_t *parents, size_t parents_len, uint16_t *children,
                     size_t children_len, uint16_t *heads, size_t heads_len)
{
    struct graph g;
    uint32_t why = take_apart(record, len, &g);
    if (why != 0)
        return refused(why);
    if (work_len < 8 * g.n)
        return refused(SHORT_WORK);
    if (visits_len != g.n || parents_len != g.n || children_len != g.n || heads_len != g.n)
        return refused(WRONG_BUFFER);
    if (no_start(g.n, start))
        return refused(NO_START);
    search_table(&g, start - 1, work, visits, parents, children, heads);
    return 0;
}

/* ---- queries ---- */

/* Order R and the index's length: the number of the refusal, or 0. */
static inline uint32_t order_i(const uint8_t *record, size_t len, size_t index_len, struct sizes *s)
{
    uint32_t why = order_r(record, len, s);
    if (why != 0)
        return why;
    return index_len != index_length(s->n, s->m) ? WRONG_BUFFER : 0;
}

/* Order Q: the number of the refusal, or 0. */
static inline uint32_t order_q(const uint8_t *record, size_t len, size_t index_len, size_t v, struct sizes *s)
{
    uint32_t why = order_i(record, len, index_len, s);
    if (why != 0)
        return why;
    if (v == 0 || v > s->n)
        return NO_TERMINAL;
    return 0;
}

struct step {
    size_t bit, to;
};

/* One step up from the block of D's bits `from` up to `to`: 0 at a root, 1 with the marked bit and the parent, 2 where the index is bad. */
static inline int step_up(const uint8_t *record, const uint8_t *index, size_t index_len, const struct sizes *s, size_t u, size_t from,
                          size_t to, struct step *up)
{
    size_t base = 8 * mark_bytes(s->n, s->m);
    size_t hit = next_one(index, index_len, base + from, base + to);
    if (hit == base + to)
        return 0;
    if (next_one(index, index_len, hit + 1, base + to) != base + to)
        return 2;
    up->bit = hit - base;
    up->to = read12(record, HEADER_BITS + s->n + 2 * s->m + 12 * (up->bit - u - 1));
    return up->to < s->n ? 1 : 2;
}

uint32_t plain_parent(const uint8_t *record, size_t len, const uint8_t *index, size_t index_len, size_t v)
{
    struct sizes s;
    struct step up;
    size_t from, to;
    uint32_t why = order_q(record, len, index_len, v, &s);
    if (why != 0)
        return refused(why);
    find_block(record, len, &s, v - 1, &from, &to);
    switch (step_up(record, index, index_len, &s, v - 1, from, to, &up)) {
    case 0:
        return 0;
    case 1:
        return (uint32_t)(up.to + 1);
    default:
        return refused(BAD_INDEX);
    }
}

/* One step of Head from vertex u: 0 where the climb stops there, 1 with the parent, 2 where the index is bad. */
static inline int step_to_head(const uint8_t *record, const uint8_t *index, size_t index_len, const struct sizes *s,
                               const uint16_t *starts, size_t u, struct step *up)
{
    size_t base = 16 * mark_bytes(s->n, s->m);
    switch (step_up(record, index, index_len, s, u, starts[u] + u + 1, starts[u + 1] + u + 1, up)) {
    case 0:
        return 0;
    case 1:
        return (index[(base + up->bit) / 8] >> (7 - up->bit % 8) & 1) == 0;
    default:
        return 2;
    }
}

/* The climb from vertex u to its head: that terminal, or 0 where the index is bad. */
static inline size_t climb(const uint8_t *record, const uint8_t *index, size_t index_len, const struct sizes *s,
                           const uint16_t *starts, size_t u)
{
    struct step up;
    size_t steps;
    for (steps = 0; steps < s->n; steps++) {
        switch (step_to_head(record, index, index_len, s, starts, u, &up)) {
        case 0:
            return u + 1;
        case 1:
            u = up.to;
            break;
        default:
            return 0;
        }
    }
    return 0;
}

uint32_t plain_head(const uint8_t *record, size_t len, const uint8_t *index, size_t index_len, size_t v)
{
    struct sizes s;
    uint16_t starts[MOST_TERMINALS + 1];
    size_t head;
    uint32_t why = order_q(record, len, index_len, v, &s);
    if (why != 0)
        return refused(why);
    fill_starts(record, len, s.n, s.m, starts);
    head = climb(record, index, index_len, &s, starts, v - 1);
    return head == 0 ? refused(BAD_INDEX) : (uint32_t)head;
}

uint32_t plain_ancestor(const uint8_t *record, size_t len, const uint8_t *index, size_t index_len, size_t u, size_t v)
{
    struct sizes s;
    struct step up;
    uint16_t starts[MOST_TERMINALS + 1];
    size_t w, steps;
    uint32_t why = order_q(record, len, index_len, u, &s);
    if (why != 0)
        return refused(why);
    if (v == 0 || v > s.n)
        return refused(NO_TERMINAL);
    fill_starts(record, len, s.n, s.m, starts);
    w = v - 1;
    for (steps = 0; steps < s.n; steps++) {
        if (w == u - 1)
            return 1;
        switch (step_up(record, index, index_len, &s, w, starts[w] + w + 1, starts[w + 1] + w + 1, &up)) {
        case 0:
            return 0;
        case 1:
            w = up.to;
            break;
        default:
            return refused(BAD_INDEX);
        }
    }
    return refused(BAD_INDEX);
}

uint32_t plain_children(const uint8_t *record, size_t len, const uint8_t *index, size_t index_len, size_t v)
{
    struct sizes s;
    size_t from, to;
    uint32_t why = order_q(record, len, index_len, v, &s);
    if (why != 0)
        return refused(why);
    find_block(record, len, &s, v - 1, &from, &to);
    return (uint32_t)ones_in(index, from, to - from);
}

uint32_t plain_child(const uint8_t *record, size_t len, const uint8_t *index, size_t index_len, size_t v, size_t j)
{
    struct sizes s;
    size_t from, to, place, child;
    uint32_t why = order_q(record, len, index_len, v, &s);
    if (why != 0)
        return refused(why);
    find_block(record, len, &s, v - 1, &from, &to);
    place = plain_select(index, index_len, from, to - from, j);
    if (place == 0)
        return refused(NO_CHILD);
    child = read12(record, HEADER_BITS + s.n + 2 * s.m + 12 * (from - v + place - 1));
    if (child >= s.n)
        return refused(BAD_INDEX);
    return (uint32_t)(child + 1);
}

uint32_t plain_visit(const uint8_t *record, size_t len, const uint8_t *index, size_t index_len, size_t v)
{
    struct sizes s;
    size_t number;
    uint32_t why = order_q(record, len, index_len, v, &s);
    if (why != 0)
        return refused(why);
    number = read12(index, 24 * mark_bytes(s.n, s.m) + 12 * (v - 1));
    if (number >= s.n)
        return refused(BAD_INDEX);
    return (uint32_t)(number + 1);
}

uint32_t plain_visited(const uint8_t *record, size_t len, const uint8_t *index, size_t index_len, size_t i)
{
    struct sizes s;
    const uint8_t *p;
    size_t v;
    uint32_t why = order_q(record, len, index_len, i, &s);
    if (why != 0)
        return refused(why);
    p = index + 3 * mark_bytes(s.n, s.m);
    for (v = 0; v + 2 <= s.n; v += 2, p += 3) {
        if ((size_t)(p[0] << 4 | p[1] >> 4) == i - 1)
            return (uint32_t)(v + 1);
        if ((size_t)((p[1] & 15) << 8 | p[2]) == i - 1)
            return (uint32_t)(v + 2);
    }
    if (v < s.n && (size_t)(p[0] << 4 | p[1] >> 4) == i - 1)
        return (uint32_t)(v + 1);
    return refused(BAD_INDEX);
}

/* The same climb, which ends at a vertex whose head is known: `known` has that terminal, or 0. All that the climb has
   passed then have the same head. */
static inline size_t climb_to_known(const uint8_t *record, const uint8_t *index, size_t index_len,
                                    const struct sizes *s, const uint16_t *starts, uint16_t *known, size_t u)
{
    struct step up;
    uint16_t way[MOST_TERMINALS];
    size_t count = 0, head;
    while ((head = known[u]) == 0) {
        if (count == s->n)
            return 0;
        way[count++] = (uint16_t)u;
        switch (step_to_head(record, index, index_len, s, starts, u, &up)) {
        case 0:
            known[u] = (uint16_t)(u + 1);
            break;
        case 1:
            u = up.to;
            break;
        default:
            return 0;
        }
    }
    while (count > 0)
        known[way[--count]] = (uint16_t)head;
    return head;
}

/* One order R, one pass for the starts, and one look at each block on the way of any climb. The answers stay here until
   the last one is known. */
uint32_t plain_lookup(const uint8_t *record, size_t len, const uint8_t *index, size_t index_len, const uint16_t *list,
                      size_t list_len, uint16_t *heads, size_t heads_len, uint16_t *visits, size_t visits_len)
{
    struct sizes s;
    uint16_t starts[MOST_TERMINALS + 1], known[MOST_TERMINALS], found_heads[MOST_LOOKUP], found_visits[MOST_LOOKUP];
    size_t i, v, head, number, base;
    uint32_t why = order_i(record, len, index_len, &s);
    if (why != 0)
        return refused(why);
    if (list_len > MOST_LOOKUP || heads_len != list_len || visits_len != list_len)
        return refused(BAD_LIST);
    fill_starts(record, len, s.n, s.m, starts);
    memset(known, 0, s.n * sizeof known[0]);
    base = 24 * mark_bytes(s.n, s.m);
    for (i = 0; i < list_len; i++) {
        v = list[i];
        if (v == 0 || v > s.n)
            return refused(NO_TERMINAL);
        head = climb_to_known(record, index, index_len, &s, starts, known, v - 1);
        if (head == 0)
            return refused(BAD_INDEX);
        number = read12(index, base + 12 * (v - 1));
        if (number >= s.n)
            return refused(BAD_INDEX);
        found_heads[i] = (uint16_t)head;
        found_visits[i] = (uint16_t)(number + 1);
    }
    memcpy(heads, found_heads, list_len * sizeof heads[0]);
    memcpy(visits, found_visits, list_len * sizeof visits[0]);
    return 0;
}
