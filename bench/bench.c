/* Compares the product with plain C on records of several shapes and sizes, first by answers and written buffers, then
   by time.

   bench compare                   compares the answers
   bench measure FILE              times both sides; FILE keeps the least time of each, of this run and of those before
   bench print FILE                the tables of these times, as Markdown
   bench once SIDE OP SHAPE SIZE   what is counted: one call on a record, or for a query one for each argument, but one
                                   of Lookup, with a list of 512. SIDE is product or plain, OP an operation, SIZE 0 to 3
   bench record SHAPE SIZE         that record's bytes
   bench sizes SHAPE SIZE          its n and m

   Both sides run in turn, many times, and the least time of each counts. No buffer is cleared between two timed
   calls. Where the linker puts the code changes its time: bench/run measures with programs that differ in nothing
   else. */
#define _POSIX_C_SOURCE 200809L
#include "celduga.h"
#include "plain.h"
#include "shapes.h"

#include <stdio.h>
#include <stdlib.h>
#include <string.h>
#include <strings.h>
#include <time.h>

enum { MOST_N = 4096, MOST_M = 16384, MOST_INDEX = 3 * 4608 + 6144, ARGUMENTS = 1024, ROUNDS = 40, QUERY_ROUNDS = 50,
       STRING_ROUNDS = 200, LENGTHS = 7, COLUMNS = 4, SHOWN = 3, FIELD_BYTES = 4096, FIELDS = 1 << 18, ORDERS = 2,
       MIXED_COPIES = 100, UNBUILT = 16, MOST_LOOKUP = 512, MOST_ASKED = 2 * MOST_LOOKUP, LISTED = 7,
       LOOKUP_ROUNDS = 10, SINGLES = 4, BESIDE = 5, TRACINGS = 100, HARMS = 3 };

/* The bits at which a field can start in so many bytes. */
enum { FIELD_STARTS = 8 * FIELD_BYTES - 11 };

/* The records of the smallest size, and of all: each size has a quarter as many as the one before, so that they make up
   one volume. */
enum { COPIES = 1 << 2 * (SIZES - 1), RECORDS = (4 * COPIES - 1) / 3 };

/* The product's reader of one field, which is in an archive of its own. */
size_t bits_read12(const uint8_t *bytes, size_t len, size_t start);

/* All operations under one name each. */
struct side {
    uint32_t (*check)(const uint8_t *, size_t);
    uint32_t (*build)(const uint8_t *, size_t, size_t, uint16_t *, size_t, uint8_t *, size_t);
    uint32_t (*unpack)(const uint8_t *, size_t, uint16_t *, size_t);
    uint32_t (*file)(const uint16_t *, size_t, const uint16_t *, size_t, uint8_t *, size_t);
    uint32_t (*loop_figure)(const uint8_t *, size_t);
    uint32_t (*table)(const uint8_t *, size_t, size_t, uint16_t *, size_t, uint16_t *, size_t, uint16_t *, size_t,
        uint16_t *, size_t, uint16_t *, size_t);
    uint32_t (*degree)(const uint8_t *, size_t, size_t);
    uint64_t (*neighbours)(const uint8_t *, size_t, size_t, size_t);
    uint32_t (*one[5])(const uint8_t *, size_t, const uint8_t *, size_t, size_t);
    uint32_t (*two[2])(const uint8_t *, size_t, const uint8_t *, size_t, size_t, size_t);
    uint32_t (*lookup)(const uint8_t *, size_t, const uint8_t *, size_t, const uint16_t *, size_t, uint16_t *, size_t,
        uint16_t *, size_t);
    size_t (*rank)(const uint8_t *, size_t, size_t, size_t, size_t);
    size_t (*select)(const uint8_t *, size_t, size_t, size_t, size_t);
    size_t (*field)(const uint8_t *, size_t, size_t);
};

static const struct side product = { celduga_check, celduga_build, celduga_unpack, celduga_file, celduga_loop_figure,
    celduga_table, celduga_degree, celduga_neighbours,
    { celduga_parent, celduga_head, celduga_children, celduga_visit, celduga_visited },
    { celduga_ancestor, celduga_child }, celduga_lookup,
    celduga_rank, celduga_select, bits_read12 };

static const struct side plain = { plain_check, plain_build, plain_unpack, plain_file, plain_loop_figure, plain_table,
    plain_degree, plain_neighbours,
    { plain_parent, plain_head, plain_children, plain_visit, plain_visited }, { plain_ancestor, plain_child },
    plain_lookup, plain_rank, plain_select, plain_read12 };

/* What is called. BUILD and TABLE have the start that is asked, which is 1 where they are timed; BUILD_LAST is Build
   from the last terminal. FILING is File of the tracing that is asked. PARENT to VISITED are the side's queries of one
   argument, ANCESTOR and CHILD those of two. LOOKUP has two as well: the place in `terminals` where its list starts,
   and the list's length. */
enum op { CHECK, BUILD, BUILD_LAST, UNPACK, FILING, LOOPS, TABLE, WHOLE, DEGREE = WHOLE, NEIGHBOURS, PARENT, HEAD,
          CHILDREN, VISIT, VISITED, ANCESTOR, CHILD, LOOKUP, RANK, SELECT, FIELD, OPS };

static const char *const op_names[OPS] = { "Check", "Build", "Build from n", "Unpack", "File", "Loop figure", "Table",
    "Degree", "Neighbours", "Parent", "Head", "Children", "Visit", "Visited", "Ancestor", "Child", "Lookup", "Rank",
    "Select", "Field" };

/* With each harm a record may have a terminal or a wire more, and its buffer one byte more than that. */
enum { MOST_FILED = MOST_RECORD_BYTES + 4 * HARMS + 1 };

/* What File is lent: the list of degrees, that of neighbours, and the length of the buffer for the record. */
struct tracing {
    size_t degrees_len, neighbours_len, record_len;
    uint16_t degrees[MOST_N + HARMS], neighbours[2 * (MOST_M + HARMS)];
};

/* What one side writes to. The columns are Table's: visit numbers, parents, counts of children and heads. What is found
   is Lookup's: heads and visit numbers. */
struct room {
    uint16_t work[8 * MOST_N], list[2 * MOST_M], columns[COLUMNS][MOST_N + 1], found[2][MOST_ASKED + 1];
    uint8_t index[MOST_INDEX + 1], record[MOST_FILED];
};

static struct room rooms[2];
static size_t arguments[LOOKUP][ARGUMENTS][2], string_arguments[LENGTHS][2][ARGUMENTS][2];
static size_t answers, refusals[18];
static volatile size_t sink;

/* What is asked: a record, the start and its buffers' lengths, a tracing, Lookup's terminals and its answer lists'
   lengths, or a string. Each record that is timed has its tracing. */
static struct record records[RECORDS];
static struct tracing tracings[RECORDS];
static const struct record *asked;
static const struct tracing *traced;
static size_t start, work_len, index_len, list_len, column_lens[COLUMNS], found_lens[2];
static uint16_t terminals[MOST_ASKED];
static const uint8_t *string;
static size_t string_len, string_start, string_places;

/* The records of one size. */
static int copies(int size)
{
    return COPIES >> 2 * size;
}

static void ask(const struct record *r)
{
    int i;
    asked = r;
    start = 1;
    work_len = 8 * r->n;
    index_len = r->index_len;
    list_len = 2 * r->m;
    for (i = 0; i < COLUMNS; i++)
        column_lens[i] = r->n;
}

static int bit(const uint8_t *bytes, size_t at)
{
    return bytes[at / 8] >> (7 - at % 8) & 1;
}

/* The tracing of an accepted record: the degrees as D's bits tell them, and the list that the product unpacks. */
static void trace(const struct record *r, struct tracing *t)
{
    size_t i, v = 0;
    t->degrees_len = r->n;
    t->neighbours_len = 2 * r->m;
    t->record_len = r->len;
    for (i = 0; i < r->n + 2 * r->m; i++) {
        if (bit(r->bytes, 28 + i) != 0)
            t->degrees[v++] = 0;
        else
            t->degrees[v - 1]++;
    }
    celduga_unpack(r->bytes, r->len, t->neighbours, t->neighbours_len);
}

static inline size_t call(const struct side *s, struct room *r, enum op op, size_t a, size_t b)
{
    const uint8_t *bytes = asked->bytes;
    size_t len = asked->len;
    switch (op) {
    case CHECK:
        return s->check(bytes, len);
    case BUILD:
        return s->build(bytes, len, start, r->work, work_len, r->index, index_len);
    case BUILD_LAST:
        return s->build(bytes, len, asked->n, r->work, work_len, r->index, index_len);
    case UNPACK:
        return s->unpack(bytes, len, r->list, list_len);
    case FILING:
        return s->file(traced->degrees, traced->degrees_len, traced->neighbours, traced->neighbours_len, r->record,
            traced->record_len);
    case LOOPS:
        return s->loop_figure(bytes, len);
    case TABLE:
        return s->table(bytes, len, start, r->work, work_len, r->columns[0], column_lens[0], r->columns[1],
            column_lens[1], r->columns[2], column_lens[2], r->columns[3], column_lens[3]);
    case DEGREE:
        return s->degree(bytes, len, a);
    case NEIGHBOURS:
        return s->neighbours(bytes, len, list_len, a);
    case LOOKUP:
        return s->lookup(bytes, len, r->index, index_len, terminals + a, b, r->found[0], found_lens[0], r->found[1],
            found_lens[1]);
    case RANK:
        return s->rank(string, string_len, string_start, string_places, a);
    case SELECT:
        return s->select(string, string_len, string_start, string_places, a);
    case FIELD:
        return s->field(string, string_len, a);
    default:
        if (op < ANCESTOR)
            return s->one[op - PARENT](bytes, len, r->index, index_len, a);
        return s->two[op - ANCESTOR](bytes, len, r->index, index_len, a, b);
    }
}

/* ---- comparing ---- */

static void differ(const char *what, size_t a, size_t b, size_t left, size_t right)
{
    fprintf(stderr, "n = %zu, m = %zu, start %zu: %s(%zu, %zu) differs: product %zx, plain %zx\n", asked->n, asked->m,
        start, what, a, b, left, right);
    exit(1);
}

static size_t same(enum op op, size_t a, size_t b)
{
    size_t left = call(&product, &rooms[0], op, a, b);
    size_t right = call(&plain, &rooms[1], op, a, b);
    if (left != right)
        differ(op_names[op], a, b, left, right);
    answers++;
    if (op < RANK && op != NEIGHBOURS)
        refusals[left >> 16]++;
    return left;
}

/* Build, from the start that is asked or from the last terminal. No wire has two marks in E, so m less their number
   have none: as many as the loop figure says. */
static void compare_build(enum op op, size_t loops, const struct room *before)
{
    size_t m = celduga_wires(asked->bytes), places = celduga_terminals(asked->bytes) + 2 * m, unmarked;
    int s;
    for (s = 0; s < 2; s++)
        memcpy(rooms[s].index, before[s].index, sizeof rooms[s].index);
    if (same(op, 0, 0) == 0) {
        if (memcmp(rooms[0].index, rooms[1].index, index_len) != 0)
            differ("the index written by Build", 0, 0, 0, 0);
        unmarked = m - plain_rank(rooms[0].index, index_len, 0, places, places);
        if (loops != unmarked)
            differ("Loop figure, beside the marks in E,", 0, 0, loops, unmarked);
    } else if (memcmp(rooms[0].index, before[0].index, sizeof rooms[0].index) != 0) {
        differ("the index left by Build", 0, 0, 0, 0);
    }
}

/* Check, Loop figure, Build, Unpack and Table. The two sides' buffers hold different bytes before, so that a byte left
   out shows; a refused call must leave its own. The index that stays is that of the start that is asked. */
static void compare_whole(void)
{
    static struct room before[2];
    size_t loops;
    int s, i;
    for (s = 0; s < 2; s++) {
        memset(rooms[s].index, s == 0 ? 0xAA : 0x55, sizeof rooms[s].index);
        memset(rooms[s].list, s == 0 ? 0xAA : 0x55, sizeof rooms[s].list);
        memset(rooms[s].columns, s == 0 ? 0xAA : 0x55, sizeof rooms[s].columns);
        before[s] = rooms[s];
    }
    same(CHECK, 0, 0);
    loops = same(LOOPS, 0, 0);
    compare_build(BUILD_LAST, loops, before);
    compare_build(BUILD, loops, before);
    if (same(UNPACK, 0, 0) == 0) {
        if (memcmp(rooms[0].list, rooms[1].list, list_len * sizeof rooms[0].list[0]) != 0)
            differ("the list written by Unpack", 0, 0, 0, 0);
    } else if (memcmp(rooms[0].list, before[0].list, sizeof rooms[0].list) != 0) {
        differ("the list left by Unpack", 0, 0, 0, 0);
    }
    if (same(TABLE, 0, 0) == 0) {
        for (i = 0; i < COLUMNS; i++)
            if (memcmp(rooms[0].columns[i], rooms[1].columns[i], asked->n * sizeof rooms[0].columns[i][0]) != 0)
                differ("a list written by Table", (size_t)i, 0, 0, 0);
    } else if (memcmp(rooms[0].columns, before[0].columns, sizeof rooms[0].columns) != 0) {
        differ("a list left by Table", 0, 0, 0, 0);
    }
}

/* What File must answer: 16 where the lists fit no record; else what Check of the product answers on the record that is
   packed bit by bit, and 6 where a number has no field; else 17 where the buffer has another length. */
static size_t by_packing(const struct tracing *t, uint8_t *packed)
{
    size_t n = t->degrees_len, sum = 0, at, i, len, answer;
    for (i = 0; i < n; i++)
        sum += t->degrees[i];
    if (n > MOST_N || sum % 2 != 0 || sum > 2 * MOST_M || t->neighbours_len != sum)
        return (size_t)CELDUGA_BAD_LISTS << 16;
    len = celduga_record_len(n, sum / 2);
    memset(packed, 0, len);
    at = put(packed, put(packed, 0, 13, n), 15, sum / 2);
    for (i = 0; i < n; i++)
        at = put(packed, at, 1, 1) + t->degrees[i];
    for (i = 0; i < sum; i++) {
        if (t->neighbours[i] == 0 || t->neighbours[i] > MOST_N)
            return (size_t)CELDUGA_STRAY_NEIGHBOUR << 16;
        at = put(packed, at, 12, t->neighbours[i] - 1u);
    }
    answer = celduga_check(packed, len);
    return answer == 0 && t->record_len != len ? (size_t)CELDUGA_WRONG_RECORD_BUFFER << 16 : answer;
}

/* File of both sides, and by packing. A refused call must leave its buffer, and one that writes what stands behind the
   record. */
static void compare_file(const struct tracing *t)
{
    static uint8_t packed[MOST_FILED], expected[MOST_FILED];
    size_t left, right;
    int s;
    traced = t;
    for (s = 0; s < 2; s++)
        memset(rooms[s].record, s == 0 ? 0xAA : 0x55, sizeof rooms[s].record);
    left = same(FILING, 0, 0);
    right = by_packing(t, packed);
    if (left != right)
        differ("File, beside Check of the record,", t->degrees_len, t->neighbours_len, left, right);
    for (s = 0; s < 2; s++) {
        memset(expected, s == 0 ? 0xAA : 0x55, sizeof expected);
        if (left == 0)
            memcpy(expected, packed, t->record_len);
        if (memcmp(rooms[s].record, expected, sizeof expected) != 0)
            differ(left == 0 ? "the record written by File" : "the buffer left by File", t->degrees_len,
                t->neighbours_len, 0, 0);
    }
}

/* Breaks a tracing in one of several ways, or makes it that of another record. Without neighbours there are four ways,
   without terminals one. */
static void harm_tracing(struct tracing *t, uint64_t *state)
{
    size_t n = t->degrees_len, count = t->neighbours_len, others[3], at, from, v;
    uint16_t x;
    switch (draw(state, n == 0 ? 1 : count < 2 ? 4 : 11)) {
    case 0: /* one terminal more */
        t->degrees[t->degrees_len++] = 0;
        break;
    case 1: /* one terminal less */
        t->degrees_len--;
        break;
    case 2: /* another degree */
        v = draw(state, n);
        t->degrees[v] = (uint16_t)(draw(state, 4) == 0 ? draw(state, 1 << 16) : t->degrees[v] + 1 + draw(state, 2));
        break;
    case 3: /* one neighbour more or less, or two less */
        t->neighbours[count] = (uint16_t)(1 + draw(state, n));
        t->neighbours_len = count < 2 || draw(state, 2) == 0 ? count + 1 : count - 1 - draw(state, 2);
        break;
    case 4: /* a number that is no terminal's */
        others[0] = 0;
        others[1] = n + 1;
        others[2] = n + 1 + draw(state, 0xFFFF - n);
        t->neighbours[draw(state, count)] = (uint16_t)others[draw(state, 3)];
        break;
    case 5: /* the terminal itself among its neighbours */
        at = draw(state, count);
        for (v = 0, from = t->degrees[0]; from <= at && v + 1 < n; from += t->degrees[v])
            v++;
        t->neighbours[at] = (uint16_t)(v + 1);
        break;
    case 6: /* another neighbour */
        t->neighbours[draw(state, count)] = (uint16_t)(1 + draw(state, n));
        break;
    case 7: /* two neighbours change places, of one block or of any */
        at = draw(state, count);
        from = draw(state, 2) == 0 ? (at + 1) % count : draw(state, count);
        x = t->neighbours[at];
        t->neighbours[at] = t->neighbours[from];
        t->neighbours[from] = x;
        break;
    case 8: /* a block takes over a place of another, of the next one or of any */
        at = draw(state, n);
        from = draw(state, 2) == 0 ? (at + 1) % n : draw(state, n);
        if (t->degrees[from] > 0) {
            t->degrees[from]--;
            t->degrees[at]++;
        }
        break;
    case 9: /* two degrees change by 32,768 each, and the sum in 16 bits not at all */
        t->degrees[draw(state, n)] ^= 0x8000;
        t->degrees[draw(state, n)] ^= 0x8000;
        break;
    default: /* one wire more, between the last two terminals */
        if (n >= 2 && t->degrees[n - 1] <= count) {
            at = count - t->degrees[n - 1];
            memmove(t->neighbours + at + 1, t->neighbours + at, t->degrees[n - 1] * sizeof t->neighbours[0]);
            t->neighbours[at] = (uint16_t)n;
            t->neighbours[count + 1] = (uint16_t)(n - 1);
            t->neighbours_len += 2;
            t->degrees[n - 2]++;
            t->degrees[n - 1]++;
        }
        break;
    }
}

/* The tracing of the record that is asked, with up to three harms, and every second time with a buffer of another
   length. */
static void compare_tracings(int turns, uint64_t *state)
{
    static struct tracing whole, harmed;
    size_t i, len;
    trace(asked, &whole);
    for (; turns > 0; turns--) {
        harmed = whole;
        for (i = draw(state, HARMS + 1); i > 0; i--)
            harm_tracing(&harmed, state);
        len = celduga_record_len(harmed.degrees_len, harmed.neighbours_len / 2);
        switch (draw(state, 6)) {
        case 0:
            len--;
            break;
        case 1:
            len++;
            break;
        case 2:
            len = draw(state, len);
            break;
        }
        harmed.record_len = len;
        compare_file(&harmed);
    }
}

static void compare_queries(size_t v, uint64_t *state)
{
    int op;
    size_t children;
    for (op = DEGREE; op < ANCESTOR; op++)
        same((enum op)op, v, 0);
    children = same(CHILDREN, v, 0) & 0xFFFF;
    same(ANCESTOR, 1 + draw(state, asked->n), v);
    same(ANCESTOR, v, 1 + draw(state, asked->n));
    same(CHILD, v, draw(state, children + 2));
}

/* What single calls of the product answer for the list of the first `count` terminals: the first refusal, or 0 and the
   heads and visit numbers. */
static size_t by_single_calls(size_t count, uint16_t (*found)[MOST_ASKED + 1])
{
    uint16_t heads[MOST_LOOKUP], visits[MOST_LOOKUP];
    size_t i, head = call(&product, &rooms[0], HEAD, 0, 0), visit;
    if (head >> 16 != CELDUGA_NO_TERMINAL)
        return head;
    if (count > MOST_LOOKUP || found_lens[0] != count || found_lens[1] != count)
        return (size_t)CELDUGA_BAD_LIST << 16;
    for (i = 0; i < count; i++) {
        head = call(&product, &rooms[0], HEAD, terminals[i], 0);
        if (head > 0xFFFF)
            return head;
        visit = call(&product, &rooms[0], VISIT, terminals[i], 0);
        if (visit > 0xFFFF)
            return visit;
        heads[i] = (uint16_t)head;
        visits[i] = (uint16_t)visit;
    }
    memcpy(found[0], heads, count * sizeof heads[0]);
    memcpy(found[1], visits, count * sizeof visits[0]);
    return 0;
}

/* Lookup of the first `count` terminals, of both sides and by single calls. A refused call must leave its lists, and
   one that is answered what stands behind the answers. */
static void compare_lookup(size_t count)
{
    static uint16_t single[2][MOST_ASKED + 1];
    size_t left, right;
    int i;
    memset(rooms[0].found, 0xAA, sizeof rooms[0].found);
    memset(rooms[1].found, 0x55, sizeof rooms[1].found);
    memset(single, 0xAA, sizeof single);
    left = same(LOOKUP, 0, count);
    right = by_single_calls(count, single);
    if (left != right)
        differ("Lookup, beside single calls,", 0, count, left, right);
    if (memcmp(rooms[0].found, single, sizeof single) != 0)
        differ(left == 0 ? "a list written by Lookup" : "a list left by Lookup", 0, count, 0, 0);
    for (i = 0; i < 2 && left == 0; i++)
        if (memcmp(rooms[0].found[i], rooms[1].found[i], count * sizeof terminals[0]) != 0)
            differ("a list written by Lookup", 0, count, 0, 0);
}

/* So many drawn terminals, some of them again and again, and answer lists as long. */
static void draw_list(size_t count, uint64_t *state)
{
    size_t i;
    for (i = 0; i < count; i++) {
        terminals[i] = (uint16_t)(1 + draw(state, asked->n));
        if (i > 0 && draw(state, 4) == 0)
            terminals[i] = terminals[draw(state, i)];
    }
    found_lens[0] = found_lens[1] = count;
}

/* Puts numbers that are no terminal's into the list, makes answer lists longer or shorter, or both. */
static void harm_list(size_t count, uint64_t *state)
{
    size_t others[3], i;
    others[0] = 0;
    others[1] = asked->n + 1;
    others[2] = asked->n + 1 + draw(state, 0xFFFF - asked->n);
    if (count > 0)
        for (i = draw(state, 3); i > 0; i--)
            terminals[draw(state, count)] = (uint16_t)others[draw(state, 3)];
    if (draw(state, 3) == 0)
        for (i = 1 + draw(state, 2); i > 0; i--)
            found_lens[draw(state, 2)] = draw(state, 2) == 0 || count == 0 ? count + 1 : count - 1;
}

/* Lists of several lengths, whole and broken, on the indexes that are there. */
static void compare_lists(uint64_t *state)
{
    static const size_t counts[LISTED] = { 0, 1, 2, MOST_LOOKUP - 1, MOST_LOOKUP, MOST_LOOKUP + 1, MOST_ASKED };
    int i, turn;
    for (i = 0; i < LISTED; i++) {
        draw_list(counts[i], state);
        compare_lookup(counts[i]);
        for (turn = 0; turn < 3; turn++) {
            draw_list(counts[i], state);
            harm_list(counts[i], state);
            compare_lookup(counts[i]);
        }
    }
}

/* One list of up to 12 terminals, now and then of some 512; every second one may be broken. */
static void compare_list(uint64_t *state)
{
    size_t count = draw(state, 16) == 0 ? MOST_LOOKUP - 1 + draw(state, 3) : draw(state, 13);
    draw_list(count, state);
    if (draw(state, 2) == 0)
        harm_list(count, state);
    compare_lookup(count);
}

static void turn_bit(uint8_t *bytes, size_t at)
{
    bytes[at / 8] ^= (uint8_t)(0x80 >> at % 8);
}

/* Writes the field at bit `from` at bit `at` too. */
static void copy_field(uint8_t *bytes, size_t at, size_t from)
{
    size_t i;
    for (i = 0; i < 12; i++)
        if (bit(bytes, at + i) != bit(bytes, from + i))
            turn_bit(bytes, at + i);
}

/* Whether bit `at` of D begins a block that has places, and the block before it has some too. */
static int between_blocks(const struct record *r, size_t at)
{
    return at > 0 && at + 1 < r->n + 2 * r->m && bit(r->bytes, 27 + at) == 0 && bit(r->bytes, 28 + at) == 1
           && bit(r->bytes, 29 + at) == 0;
}

/* Breaks a record in one of several ways, or asks for another start. */
static void harm(struct record *r, uint64_t *state)
{
    size_t d = r->n + 2 * r->m, fields = 28 + d, at, from, i;
    switch (draw(state, 9)) {
    case 0: /* any bits */
        for (i = draw(state, 3); i > 0; i--)
            turn_bit(r->bytes, draw(state, 8 * r->len));
        break;
    case 1: /* two unequal neighbouring bits of D change places */
        at = 28 + draw(state, d - 1);
        if (bit(r->bytes, at) != bit(r->bytes, at + 1)) {
            turn_bit(r->bytes, at);
            turn_bit(r->bytes, at + 1);
        }
        break;
    case 2: /* a field becomes one near it */
        at = fields + 12 * draw(state, 2 * r->m);
        from = fields + 12 * draw(state, 2 * r->m);
        if (draw(state, 2) == 0)
            from = at + 12 < fields + 24 * r->m ? at + 12 : fields;
        copy_field(r->bytes, at, from);
        break;
    case 3: /* two fields of a few change places */
        at = fields + 12 * draw(state, 2 * r->m);
        from = fields + 12 * draw(state, 2 * r->m);
        for (i = 0; i < 12; i++) {
            if (bit(r->bytes, at + i) != bit(r->bytes, from + i)) {
                turn_bit(r->bytes, at + i);
                turn_bit(r->bytes, from + i);
            }
        }
        break;
    case 4: /* a block takes over the next one's first place, and mentions its own last neighbour once more there */
        at = draw(state, d);
        for (i = 0; i < d && !between_blocks(r, at); i++)
            at = (at + 1) % d;
        if (i < d) {
            from = fields + 12 * (at - plain_rank(r->bytes, r->len, 28, d, at) - 1);
            turn_bit(r->bytes, 28 + at);
            turn_bit(r->bytes, 29 + at);
            copy_field(r->bytes, from + 12, from);
        }
        break;
    case 5: /* the last bit */
        turn_bit(r->bytes, 8 * r->len - 1);
        break;
    case 6: /* a bit of n or m */
        turn_bit(r->bytes, draw(state, 28));
        break;
    case 7: /* any start, also one that is refused */
        start = draw(state, 8) == 0 ? SIZE_MAX - draw(state, 2) : draw(state, r->n + 2);
        break;
    default: /* another length, other lengths of the buffers, or no start */
        if (draw(state, 2) == 0)
            start = 0;
        if (draw(state, 2) == 0)
            r->len = draw(state, draw(state, 8) == 0 ? 4 : r->len + 1);
        if (draw(state, 4) == 0)
            work_len = draw(state, work_len + 1);
        if (draw(state, 2) == 0)
            index_len = index_len > 0 ? index_len - 1 : 1;
        if (draw(state, 2) == 0)
            list_len = list_len > 0 ? list_len - 1 : 1;
        if (draw(state, 2) == 0)
            column_lens[draw(state, COLUMNS)] += draw(state, 2) == 0 ? 1 : (size_t)-1;
        break;
    }
}

/* Broken records, and indexes with some bits turned. */
static void compare_harmed(const struct record *r, uint64_t *state)
{
    static struct record harmed;
    static uint8_t index[MOST_INDEX];
    size_t i, turn;
    ask(r);
    plain_build(r->bytes, r->len, start, rooms[1].work, work_len, index, index_len);
    for (turn = 0; turn < 200; turn++) {
        harmed = *r;
        ask(&harmed);
        harm(&harmed, state);
        compare_whole();
        memcpy(rooms[0].index, index, r->index_len);
        for (i = draw(state, 8); i > 0; i--)
            turn_bit(rooms[0].index, draw(state, 8 * r->index_len));
        memcpy(rooms[1].index, rooms[0].index, r->index_len);
        for (i = 0; i < 4; i++)
            compare_queries(draw(state, r->n + 2), state);
        compare_list(state);
    }
}

/* Turns the room's index into one that nobody built. In P, `parents` of 16 blocks get other marks: mostly one, so that
   climbs run into cycles, else none or two. In B, `bridges` of 16 bits are set. All of this is drawn. */
static void draw_marks(struct room *r, size_t parents, size_t bridges, uint64_t *state)
{
    size_t d = asked->n + 2 * asked->m, k = (d + 7) / 8, v, i, from, places, kind;
    uint8_t *p = r->index + k, *b = p + k;
    memset(b, 0, k);
    for (i = 0; i < d; i++)
        if (draw(state, 16) < bridges)
            turn_bit(b, i);
    for (v = 1; v <= asked->n; v++) {
        uint64_t block = plain_neighbours(asked->bytes, asked->len, 2 * asked->m, v);
        from = (size_t)(block >> 32) + v;
        places = block & 0xFFFFFFFF;
        if (places == 0 || draw(state, 16) >= parents)
            continue;
        for (i = 0; i < places; i++)
            if (bit(p, from + i) != 0)
                turn_bit(p, from + i);
        kind = draw(state, 16);
        if (kind > 0)
            turn_bit(p, from + draw(state, places));
        if (kind == 1)
            turn_bit(p, from + draw(state, places));
    }
}

/* A list of terminals that mostly have a head; the last few may be any. */
static void draw_list_with_heads(size_t count, uint64_t *state)
{
    size_t any = draw(state, 3), i;
    int turn;
    draw_list(count, state);
    for (i = 0; i + any < count; i++)
        for (turn = 0; turn < 8 && call(&plain, &rooms[1], HEAD, terminals[i], 0) > 0xFFFF; turn++)
            terminals[i] = (uint16_t)(1 + draw(state, asked->n));
}

/* Lookup on indexes that nobody built, where climbs meet, run into cycles or end at two marks in a block: lists of any
   terminals, and lists that get beyond their first. */
static void compare_unbuilt(const struct record *r, int turns, uint64_t *state)
{
    static const size_t rates[3] = { 0, 1, 16 };
    size_t count;
    ask(r);
    for (; turns > 0; turns--) {
        start = 1 + draw(state, r->n);
        call(&plain, &rooms[1], BUILD, 0, 0);
        draw_marks(&rooms[1], rates[draw(state, 3)], draw(state, 3), state);
        memcpy(rooms[0].index, rooms[1].index, index_len);
        draw_list(MOST_LOOKUP, state);
        compare_lookup(MOST_LOOKUP);
        count = draw(state, 2) == 0 ? MOST_LOOKUP : draw(state, 13);
        draw_list_with_heads(count, state);
        compare_lookup(count);
    }
}

static void compare_strings(const struct record *r, uint64_t *state)
{
    size_t i, bits;
    string = r->bytes;
    for (i = 0; i < 2000; i++) {
        string_len = draw(state, 2) == 0 ? r->len : draw(state, 40);
        bits = 8 * string_len;
        string_start = draw(state, 16) == 0 ? bits + draw(state, 20) : draw(state, bits + 1);
        string_places = draw(state, 16) == 0 || string_start > bits ? draw(state, bits + 20)
                                                                    : draw(state, bits - string_start + 1);
        if (draw(state, 64) == 0)
            string_places = SIZE_MAX - draw(state, 8);
        same(RANK, draw(state, bits + 20), 0);
        same(SELECT, draw(state, bits / 4 + 4), 0);
    }
}

/* The drawn bytes in which fields are read. */
static void ask_fields(void)
{
    static uint8_t bytes[FIELD_BYTES];
    uint64_t state = 17;
    size_t i;
    for (i = 0; i < sizeof bytes; i++)
        bytes[i] = (uint8_t)draw(&state, 256);
    string = bytes;
    string_len = sizeof bytes;
}

/* The field at every starting bit. */
static void compare_fields(void)
{
    size_t at;
    ask_fields();
    for (at = 0; at < FIELD_STARTS; at++)
        same(FIELD, at, 0);
}

/* A record that is accepted. Unpacked and written again, it has its former bytes. */
static void compare_accepted(void)
{
    static struct tracing t;
    uint32_t why = plain_check(asked->bytes, asked->len), degree;
    size_t v;
    compare_whole();
    if (why != 0)
        differ("a record of the benchmark", 0, 0, 0, why);
    trace(asked, &t);
    for (v = 1; v <= asked->n; v++) {
        degree = celduga_degree(asked->bytes, asked->len, v);
        if (degree != t.degrees[v - 1])
            differ("Degree, beside the bits of D,", v, 0, degree, t.degrees[v - 1]);
    }
    compare_file(&t);
    if (memcmp(rooms[0].record, asked->bytes, asked->len) != 0)
        differ("the record written again by File", 0, 0, 0, 0);
}

/* All records of a size that are timed; the first comes last, and stays. */
static void compare_timed(int shape, int size, struct record *r)
{
    int copy;
    for (copy = copies(size) - 1; copy >= 0; copy--) {
        make_record(shape, size, copy, r);
        ask(r);
        compare_accepted();
    }
}

/* Records with single and doubled wires: the small ones from every start, the others whole. */
static void compare_mixed(struct record *r, uint64_t *state)
{
    size_t v;
    int size, copy;
    for (copy = 0; copy < MIXED_COPIES; copy++) {
        for (size = 1; size < SIZES; size++) {
            make_record(MIXED, size, copy, r);
            ask(r);
            compare_accepted();
        }
        make_record(MIXED, 0, copy, r);
        ask(r);
        for (start = 1; start <= r->n; start++) {
            compare_accepted();
            for (v = 0; v <= r->n + 1; v++)
                compare_queries(v, state);
            compare_list(state);
        }
        compare_tracings(TRACINGS, state);
        compare_unbuilt(r, UNBUILT, state);
    }
}

/* Records without wires. Without terminals too, a list of none is answered, and any number is refused. */
static void compare_unwired(struct record *r, uint64_t *state)
{
    size_t v;
    int size;
    for (size = SIZES - 1; size >= 0; size--) {
        make_record(UNWIRED, size, 0, r);
        ask(r);
        start = r->n;
        compare_accepted();
        compare_tracings(TRACINGS, state);
    }
    found_lens[0] = found_lens[1] = 0;
    compare_lookup(0);
    found_lens[0] = found_lens[1] = 1;
    for (v = 0; v < 2; v++) {
        terminals[0] = (uint16_t)v;
        compare_lookup(1);
    }
}

static void compare_all(void)
{
    static struct record r;
    uint64_t state = 7;
    int shape, size;
    size_t v;
    for (shape = 0; shape < SHAPES; shape++) {
        for (size = 0; size < SIZES; size++) {
            make_record(shape, size, 0, &r);
            compare_harmed(&r, &state);
            compare_timed(shape, size, &r);
            compare_tracings(TRACINGS, &state);
            for (v = 0; v <= r.n + 1; v++)
                compare_queries(v, &state);
            compare_lists(&state);
            compare_unbuilt(&r, copies(size), &state);
            compare_strings(&r, &state);
        }
    }
    compare_mixed(&r, &state);
    compare_unwired(&r, &state);
    compare_fields();
}

/* ---- timing ---- */

static double now(void)
{
    struct timespec t;
    clock_gettime(CLOCK_MONOTONIC, &t);
    return 1e9 * (double)t.tv_sec + (double)t.tv_nsec;
}

struct times {
    double product, plain;
};

/* The least times. */
static struct {
    struct times whole[SHAPES][SIZES][WHOLE], queries[SHAPES][SHOWN][LOOKUP], strings[LENGTHS][2], fields[ORDERS];
    struct times lookups[SHAPES][SHOWN];
    double singles[SHAPES][SHOWN][SINGLES];
} least;

/* The sizes at which queries are timed, and whose ratios are told. Dense, clique and pair have fewer terminals, and
   records of like length. */
static const int shown[SHOWN] = { 0, 1, SIZES - 1 };
static const char *const shown_names[SHOWN] = { "n = 64", "n = 256", "largest" };

/* The places of the strings that are timed. */
static const size_t lengths[LENGTHS] = { 20, 60, 250, 1000, 4000, 36864, 430000 };

/* The orders in which fields are timed. */
static const char *const order_names[ORDERS] = { "in a row", "drawn" };

struct range {
    double least, greatest;
};

/* The least and the greatest ratio of each operation, by size; at 0, of Rank and Select over all lengths, and of Field
   over both orders. Then those of two times of the product: of Lookup to single calls, and of Loop figure and File to
   Check. */
static struct range ratios[OPS][SIZES], beside[BESIDE][SIZES];

static const char *const beside_names[BESIDE] = { "Lookup of 512 / single calls",
    "Lookup of 512 / climbs, where these are not short", "Lookup of one / single calls", "Loop figure / Check",
    "File / Check" };

/* A ratio, which is kept where none was less or greater. */
static double kept(struct range *r, double ratio)
{
    if (r->least == 0 || ratio < r->least)
        r->least = ratio;
    if (ratio > r->greatest)
        r->greatest = ratio;
    return ratio;
}

/* The ratio of the two times. */
static double noted(enum op op, int size, struct times t)
{
    return kept(&ratios[op][size], t.product / t.plain);
}

/* The time of a call on each of the records from `first` on, or on its tracing. */
static double pass_over(const struct side *s, struct room *r, enum op op, const struct record *first, int count)
{
    int i;
    size_t sum = 0;
    double from = now();
    for (i = 0; i < count; i++) {
        ask(&first[i]);
        traced = &tracings[&first[i] - records];
        sum += call(s, r, op, 0, 0);
    }
    sink = sum;
    return now() - from;
}

/* The time of a call, of `count` over the arguments. */
static double pass_queries(const struct side *s, struct room *r, enum op op, const size_t (*args)[2], size_t count)
{
    size_t i, sum = 0;
    double from = now();
    for (i = 0; i < count; i++)
        sum += call(s, r, op, args[i % ARGUMENTS][0], args[i % ARGUMENTS][1]);
    sink = sum;
    return (now() - from) / (double)count;
}

/* As many calls as take plain C 50 microseconds, and at least so many. */
static size_t enough(enum op op, const size_t (*args)[2], size_t count)
{
    while (pass_queries(&plain, &rooms[1], op, args, count) * (double)count < 5e4)
        count *= 2;
    return count;
}

static void keep_less(double *t, double a)
{
    if (*t == 0 || a < *t)
        *t = a;
}

static void keep_least(struct times *t, double a, double b)
{
    keep_less(&t->product, a);
    keep_less(&t->plain, b);
}

/* One round of both sides. */
static void try_both(struct times *t, enum op op, const size_t (*args)[2], size_t count)
{
    double a = pass_queries(&product, &rooms[0], op, args, count);
    keep_least(t, a, pass_queries(&plain, &rooms[1], op, args, count));
}

static void try_records(struct times *t, enum op op, const struct record *first, int count)
{
    double a = pass_over(&product, &rooms[0], op, first, count);
    keep_least(t, a, pass_over(&plain, &rooms[1], op, first, count));
}

/* One shape: Check, Build from 1 and from n, Unpack, File, Loop figure and Table at all sizes, in turn. At each size
   there are as many records as make up the same volume, since the processor learns the branches of a small record that
   it meets again and again. */
static void measure_shape(int shape)
{
    const struct record *first[SIZES];
    int size, op, round, i, made = 0;
    for (size = 0; size < SIZES; size++) {
        first[size] = &records[made];
        for (i = 0; i < copies(size); i++, made++) {
            make_record(shape, size, i, &records[made]);
            trace(&records[made], &tracings[made]);
        }
    }
    for (round = 0; round < ROUNDS; round++)
        for (op = 0; op < WHOLE; op++)
            for (size = 0; size < SIZES; size++)
                try_records(&least.whole[shape][size][op], (enum op)op, first[size], copies(size));
}

static void print_shape(int shape)
{
    const struct record *r = &records[0];
    int size, op;
    for (size = 0; size < SIZES; size++) {
        const struct times *whole = least.whole[shape][size];
        make_record(shape, size, 0, &records[0]);
        printf("| %s | %zu | %zu | %zu |", shape_names[shape], r->n, r->m, 8 * r->len);
        for (op = 0; op < WHOLE; op++)
            printf(" %.2f | %.2f |", whole[op].product / (8 * (double)r->len * copies(size)),
                noted((enum op)op, size, whole[op]));
        kept(&beside[3][size], whole[LOOPS].product / whole[CHECK].product);
        kept(&beside[4][size], whole[FILING].product / whole[CHECK].product);
        printf("\n");
    }
}

static void print_whole(void)
{
    int shape, op;
    printf("| shape | n | m | bits |");
    for (op = 0; op < WHOLE; op++)
        printf(" %s | ratio |", op_names[op]);
    printf("\n|---|--:|--:|--:|");
    for (op = 0; op < WHOLE; op++)
        printf("--:|--:|");
    printf("\n");
    for (shape = 0; shape < SHAPES; shape++)
        print_shape(shape);
}

/* Any terminal; for Ancestor any two, and every second time one that stands above; for Child one that has children, and
   one of them. The lists are Table's. */
static void choose_arguments(size_t n, const uint16_t *parents, const uint16_t *children)
{
    uint64_t state = 11;
    size_t i, up;
    int op;
    for (op = DEGREE; op < LOOKUP; op++)
        for (i = 0; i < ARGUMENTS; i++)
            arguments[op][i][0] = 1 + draw(&state, n);
    for (i = 0; i < ARGUMENTS; i++) {
        size_t *ancestor = arguments[ANCESTOR][i], *child = arguments[CHILD][i];
        ancestor[1] = 1 + draw(&state, n);
        if (i % 2 == 0) {
            ancestor[0] = ancestor[1];
            for (up = draw(&state, 64); up > 0 && parents[ancestor[0] - 1] != 0; up--)
                ancestor[0] = parents[ancestor[0] - 1];
        }
        do {
            child[0] = 1 + draw(&state, n);
        } while (children[child[0] - 1] == 0);
        child[1] = 1 + draw(&state, children[child[0] - 1]);
    }
}

/* The indexes of the record that is asked, and the arguments of its queries. */
static void prepare_queries(void)
{
    call(&product, &rooms[0], BUILD, 0, 0);
    call(&plain, &rooms[1], BUILD, 0, 0);
    call(&plain, &rooms[1], TABLE, 0, 0);
    choose_arguments(asked->n, rooms[1].columns[1], rooms[1].columns[2]);
}

/* The queries on one record, in turn. */
static void measure_queries(int shape, int i)
{
    size_t count[LOOKUP];
    int op, round;
    make_record(shape, shown[i], 0, &records[0]);
    ask(&records[0]);
    prepare_queries();
    for (op = DEGREE; op < LOOKUP; op++)
        count[op] = enough((enum op)op, (const size_t(*)[2])arguments[op], 64);
    for (round = 0; round < QUERY_ROUNDS; round++)
        for (op = DEGREE; op < LOOKUP; op++)
            try_both(&least.queries[shape][i][op], (enum op)op, (const size_t(*)[2])arguments[op], count[op]);
}

static void print_record_queries(int shape, int i)
{
    int op;
    make_record(shape, shown[i], 0, &records[0]);
    printf("| %s | %zu | %zu |", shape_names[shape], records[0].n, records[0].m);
    for (op = DEGREE; op < LOOKUP; op++) {
        struct times t = least.queries[shape][i][op];
        printf(" %.0f | %.2f |", t.product, noted((enum op)op, shown[i], t));
    }
    printf("\n");
}

static void print_queries(void)
{
    int shape, op, i;
    printf("| shape | n | m |");
    for (op = DEGREE; op < LOOKUP; op++)
        printf(" %s | ratio |", op_names[op]);
    printf("\n|---|--:|--:|");
    for (op = DEGREE; op < LOOKUP; op++)
        printf("--:|--:|");
    printf("\n");
    for (shape = 0; shape < SHAPES; shape++)
        for (i = 0; i < SHOWN; i++)
            print_record_queries(shape, i);
}

/* The terminals of the list that is timed and counted. */
static void prepare_lookup(void)
{
    uint64_t state = 23;
    size_t i;
    for (i = 0; i < MOST_LOOKUP; i++)
        terminals[i] = (uint16_t)(1 + draw(&state, asked->n));
    found_lens[0] = found_lens[1] = MOST_LOOKUP;
}

/* Lookup of the whole list on one record; and single calls of the product for each of its terminals: Head, Visit,
   Ancestor of the terminal and itself, which tries all that Head does, finds the starts and takes no step, and Lookup
   of this terminal alone. */
static void measure_lookups(int shape, int i)
{
    static const enum op ops[SINGLES] = { HEAD, VISIT, ANCESTOR, LOOKUP };
    static size_t whole[ARGUMENTS][2], twice[ARGUMENTS][2], alone[ARGUMENTS][2];
    size_t count, j;
    int round, o;
    make_record(shape, shown[i], 0, &records[0]);
    ask(&records[0]);
    prepare_queries();
    prepare_lookup();
    for (j = 0; j < ARGUMENTS; j++) {
        whole[j][1] = MOST_LOOKUP;
        twice[j][0] = twice[j][1] = terminals[j % MOST_LOOKUP];
        alone[j][0] = j % MOST_LOOKUP;
        alone[j][1] = 1;
    }
    count = enough(LOOKUP, (const size_t(*)[2])whole, 1);
    for (round = 0; round < LOOKUP_ROUNDS; round++) {
        found_lens[0] = found_lens[1] = MOST_LOOKUP;
        try_both(&least.lookups[shape][i], LOOKUP, (const size_t(*)[2])whole, count);
        found_lens[0] = found_lens[1] = 1;
        for (o = 0; o < SINGLES; o++)
            keep_less(&least.singles[shape][i][o], pass_queries(&product, &rooms[0], ops[o],
                (const size_t(*)[2])(ops[o] == LOOKUP ? alone : twice), MOST_LOOKUP));
    }
}

/* The climbs are what Head takes beyond Ancestor of a terminal and itself. Under a hundredth of the single calls they
   are lost in the noise. */
static void print_record_lookups(int shape, int i)
{
    struct times t = least.lookups[shape][i];
    const double *one = least.singles[shape][i];
    double both = one[0] + one[1], calls = MOST_LOOKUP * both, climbs = MOST_LOOKUP * (one[0] - one[2]);
    int size = shown[i];
    make_record(shape, size, 0, &records[0]);
    printf("| %s | %zu | %zu |", shape_names[shape], records[0].n, records[0].m);
    printf(" %.0f | %.2f |", t.product, noted(LOOKUP, size, t));
    printf(" %.0f | %.3f | %.0f |", calls, kept(&beside[0][size], t.product / calls), climbs);
    if (climbs >= calls / 100)
        printf(" %.3f |", kept(&beside[1][size], t.product / climbs));
    else
        printf(" short |");
    printf(" %.0f | %.0f | %.2f |\n", one[3], both, kept(&beside[2][size], one[3] / both));
}

static void print_lookups(void)
{
    int shape, i;
    printf("| shape | n | m | Lookup of 512 | ratio | single calls | Lookup / single | climbs | Lookup / climbs |"
           " Lookup of one | single calls | Lookup / single |\n"
           "|---|--:|--:|--:|--:|--:|--:|--:|--:|--:|--:|--:|\n");
    for (shape = 0; shape < SHAPES; shape++)
        for (i = 0; i < SHOWN; i++)
            print_record_lookups(shape, i);
}

/* Rank and select in strings of drawn bytes that start inside a byte. Half the bits are ones, and on average half the
   string is read. */
static void measure_strings(void)
{
    static uint8_t bytes[MOST_RECORD_BYTES];
    size_t count[LENGTHS][2], i, j, all;
    uint64_t state = 13;
    int round, o;
    for (i = 0; i < sizeof bytes; i++)
        bytes[i] = (uint8_t)draw(&state, 256);
    string = bytes;
    string_len = sizeof bytes;
    string_start = 28;
    for (i = 0; i < LENGTHS; i++) {
        string_places = lengths[i];
        all = plain_rank(string, string_len, string_start, string_places, string_places);
        for (j = 0; j < ARGUMENTS; j++) {
            string_arguments[i][0][j][0] = 1 + draw(&state, string_places);
            string_arguments[i][1][j][0] = 1 + draw(&state, all);
        }
        for (o = 0; o < 2; o++)
            count[i][o] = enough((enum op)(RANK + o), (const size_t(*)[2])string_arguments[i][o], 64);
    }
    for (round = 0; round < STRING_ROUNDS; round++) {
        for (i = 0; i < LENGTHS; i++) {
            string_places = lengths[i];
            for (o = 0; o < 2; o++)
                try_both(&least.strings[i][o], (enum op)(RANK + o), (const size_t(*)[2])string_arguments[i][o],
                    count[i][o]);
        }
    }
}

static void print_strings(void)
{
    size_t i;
    int o;
    printf("| places | Rank | a word | ratio | Select | a word | ratio |\n|--:|--:|--:|--:|--:|--:|--:|\n");
    for (i = 0; i < LENGTHS; i++) {
        double words = (double)lengths[i] / 2 / 64;
        printf("| %zu |", lengths[i]);
        for (o = 0; o < 2; o++) {
            struct times t = least.strings[i][o];
            printf(" %.1f | %.2f | %.2f |", t.product, t.product / words, noted((enum op)(RANK + o), 0, t));
        }
        printf("\n");
    }
}

/* The time of a field, read at each of these starting bits. */
static double pass_fields(const struct side *s, const uint16_t *starts)
{
    size_t i, sum = 0;
    double from = now();
    for (i = 0; i < FIELDS; i++)
        sum += s->field(string, string_len, starts[i]);
    sink = sum;
    return (now() - from) / FIELDS;
}

/* Fields in a row, as a record has them, and at drawn starting bits: so many that the processor, which learns a shorter
   list, can't foresee whether a field lies in two bytes or in three. */
static void measure_fields(void)
{
    static uint16_t starts[ORDERS][FIELDS];
    uint64_t state = 19;
    size_t i;
    int round, o;
    ask_fields();
    for (i = 0; i < FIELDS; i++) {
        starts[0][i] = (uint16_t)(12 * i % FIELD_STARTS);
        starts[1][i] = (uint16_t)draw(&state, FIELD_STARTS);
    }
    for (round = 0; round < STRING_ROUNDS; round++) {
        for (o = 0; o < ORDERS; o++) {
            double a = pass_fields(&product, starts[o]);
            keep_least(&least.fields[o], a, pass_fields(&plain, starts[o]));
        }
    }
}

static void print_fields(void)
{
    int o;
    printf("| starting bits | Field | plain | ratio |\n|---|--:|--:|--:|\n");
    for (o = 0; o < ORDERS; o++) {
        struct times t = least.fields[o];
        printf("| %s | %.2f | %.2f | %.2f |\n", order_names[o], t.product, t.plain, noted(FIELD, 0, t));
    }
}

static void print_ratios(const char *what, const char *const *names, const struct range (*rows)[SIZES], int count,
                         int digits)
{
    int row, i;
    printf("| %s |", what);
    for (i = 0; i < SHOWN; i++)
        printf(" %s, least | greatest |", shown_names[i]);
    printf("\n|---|");
    for (i = 0; i < SHOWN; i++)
        printf("--:|--:|");
    printf("\n");
    for (row = 0; row < count; row++) {
        printf("| %s |", names[row]);
        for (i = 0; i < SHOWN; i++)
            printf(" %.*f | %.*f |", digits, rows[row][shown[i]].least, digits, rows[row][shown[i]].greatest);
        printf("\n");
    }
}

static void print_other_ratios(void)
{
    int op;
    printf("| operation | least | greatest |\n|---|--:|--:|\n");
    for (op = RANK; op < OPS; op++)
        printf("| %s | %.2f | %.2f |\n", op_names[op], ratios[op][0].least, ratios[op][0].greatest);
}

/* The place of a name among others, whatever its capitals; their count where it is none of them. */
static int place_of(const char *name, const char *const *names, int count)
{
    int i;
    for (i = 0; i < count && strcasecmp(name, names[i]) != 0; i++)
        continue;
    return i;
}

/* Asks for the record that is named; 0 where there is none. */
static int ask_named(const char *shape, const char *size)
{
    int i = place_of(shape, shape_names, SHAPES), at = size[0] - '0';
    if (i == SHAPES || at < 0 || at >= SIZES || size[1] != 0)
        return 0;
    make_record(i, at, 0, &records[0]);
    ask(&records[0]);
    return 1;
}

static int once(const char *side, const char *name, const char *shape, const char *size)
{
    static const char *const side_names[2] = { "product", "plain" };
    int which = place_of(side, side_names, 2), op = place_of(name, op_names, RANK);
    const struct side *s = which == 0 ? &product : &plain;
    size_t i, sum = 0;
    if (which == 2 || op == RANK || !ask_named(shape, size))
        return 2;
    if (op == FILING)
        trace(asked, &tracings[0]);
    traced = &tracings[0];
    if (op < WHOLE)
        return call(s, &rooms[0], (enum op)op, 0, 0) > 0xFFFF;
    prepare_queries();
    prepare_lookup();
    if (op == LOOKUP)
        return call(s, &rooms[0], LOOKUP, 0, MOST_LOOKUP) > 0xFFFF;
    for (i = 0; i < ARGUMENTS; i++)
        sum += call(s, &rooms[0], (enum op)op, arguments[op][i][0], arguments[op][i][1]);
    sink = sum;
    return 0;
}

/* What is told of one record alone. */
static int tell(const char *what, const char *shape, const char *size)
{
    if (!ask_named(shape, size))
        return 2;
    if (strcmp(what, "record") == 0)
        return fwrite(asked->bytes, 1, asked->len, stdout) != asked->len;
    if (strcmp(what, "sizes") == 0)
        return printf("%zu %zu\n", asked->n, asked->m) < 0;
    return 2;
}

static int compare(void)
{
    int i;
    compare_all();
    printf("The two sides gave %zu equal answers. Refusals among them:", answers);
    for (i = 1; i < 18; i++)
        printf(" %zu of %d%s", refusals[i], i, i < 17 ? "," : ".\n");
    return 0;
}

/* The times that a file holds; 0 where it holds none. */
static int read_times(const char *path)
{
    FILE *file = fopen(path, "rb");
    int held = file != NULL && fread(&least, sizeof least, 1, file) == 1;
    if (file != NULL)
        fclose(file);
    if (!held)
        memset(&least, 0, sizeof least);
    return held;
}

static int measure(const char *path)
{
    FILE *file;
    int shape, i, written;
    read_times(path);
    for (shape = 0; shape < SHAPES; shape++)
        measure_shape(shape);
    for (shape = 0; shape < SHAPES; shape++)
        for (i = 0; i < SHOWN; i++)
            measure_queries(shape, i);
    for (shape = 0; shape < SHAPES; shape++)
        for (i = 0; i < SHOWN; i++)
            measure_lookups(shape, i);
    measure_strings();
    measure_fields();
    file = fopen(path, "wb");
    if (file == NULL)
        return 1;
    written = fwrite(&least, sizeof least, 1, file) == 1;
    return fclose(file) != 0 || !written;
}

static int print(const char *path)
{
    if (!read_times(path))
        return 1;
    printf("### Whole records: nanoseconds of the product per bit of the record, and product / plain\n\n");
    print_whole();
    printf("\n### Queries: nanoseconds of the product per call, and product / plain\n\n");
    print_queries();
    printf("\n### Lookup: nanoseconds of the product, product / plain, and single calls of the product beside it\n\n");
    print_lookups();
    printf("\n### Strings: nanoseconds of the product per call and per word read, and product / plain\n\n");
    print_strings();
    printf("\n### One field: nanoseconds of the product and of plain C per field, and product / plain\n\n");
    print_fields();
    printf("\n### Ratios: product / plain, the least and the greatest over the shapes\n\n");
    print_ratios("operation", op_names, (const struct range(*)[SIZES])ratios, RANK, 2);
    printf("\n### Ratios of the product's own times: the least and the greatest over the shapes\n\n");
    print_ratios("ratio", beside_names, (const struct range(*)[SIZES])beside, BESIDE, 3);
    printf("\n### Ratios of Rank, Select and Field: the least and the greatest over the rows of their tables\n\n");
    print_other_ratios();
    return 0;
}

int main(int argc, char **argv)
{
    if (argc == 2 && strcmp(argv[1], "compare") == 0)
        return compare();
    if (argc == 3 && strcmp(argv[1], "measure") == 0)
        return measure(argv[2]);
    if (argc == 3 && strcmp(argv[1], "print") == 0)
        return print(argv[2]);
    if (argc == 4)
        return tell(argv[1], argv[2], argv[3]);
    if (argc == 6 && strcmp(argv[1], "once") == 0)
        return once(argv[2], argv[3], argv[4], argv[5]);
    return 2;
}
