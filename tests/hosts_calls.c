/* Prints what the inline functions of celduga.h give, and what each call gives on the sample. It is both C99 and C++11. */
#include <stdio.h>
#include <string.h>

#include "celduga.h"

enum { N = 6, M = 5, MOST = CELDUGA_MAX_LOOKUP_LEN };

static const uint8_t sample[] = {0x00, 0x30, 0x00, 0x59, 0x22, 0xA0, 0x02, 0x00, 0x10, 0x00, 0x00,
                                 0x20, 0x01, 0x00, 0x30, 0x00, 0x00, 0x20, 0x05, 0x00, 0x40};
static uint16_t work[8 * N];
static uint16_t list[2 * M];
static uint8_t forest[15];
static uint16_t visits[N], parents[N], children[N], heads[N];
static uint16_t asked[MOST + 1], their_heads[MOST + 1], their_visits[MOST + 1];
static uint16_t degrees[N + 1], neighbours[2 * M + 1];
static uint8_t filed[sizeof sample + 1];
static const uint8_t empty[] = {0, 0, 0, 0};

static void sizes(size_t n, size_t m)
{
    printf("lengths %zu %zu: %zu %zu %zu %zu\n", n, m, celduga_record_len(n, m), celduga_index_len(n, m), celduga_work_len(n),
           celduga_list_len(m));
}

static void header(const uint8_t *record)
{
    printf("header: %zu %zu\n", celduga_terminals(record), celduga_wires(record));
}

static void told(const char *call, uint32_t result)
{
    printf("%s: %u %u\n", call, celduga_refusal(result), celduga_value(result));
}

static void numbers(const char *name, const uint16_t *from, size_t count)
{
    printf("%s:", name);
    for (size_t i = 0; i < count; i++)
        printf(" %u", (unsigned)from[i]);
    putchar('\n');
}

static void shown(const char *name, const uint8_t *from, size_t count)
{
    printf("%s:", name);
    for (size_t i = 0; i < count; i++)
        printf(" %02X", (unsigned)from[i]);
    putchar('\n');
}

/* Build of the sample with these slices. */
static void build(const char *call, size_t start, size_t work_len, size_t index_len)
{
    told(call, celduga_build(sample, sizeof sample, start, work, work_len, forest, index_len));
}

/* The same of Table; the last list has this length. */
static void table(const char *call, size_t start, size_t work_len, size_t heads_len)
{
    told(call, celduga_table(sample, sizeof sample, start, work, work_len, visits, N, parents, N, children, N,
                             heads, heads_len));
}

/* Build and Table of the empty record. */
static void on_empty(size_t start)
{
    told("build of the empty record", celduga_build(empty, sizeof empty, start, work, 0, forest, 0));
    told("its table", celduga_table(empty, sizeof empty, start, work, 0, visits, 0, parents, 0, children, 0, heads, 0));
}

static void columns(void)
{
    numbers("visits", visits, N);
    numbers("parents", parents, N);
    numbers("children", children, N);
    numbers("heads", heads, N);
}

/* Lookup of so many terminals, with an index and answer lists of these lengths, and the front of the answer lists. */
static void lookup(const char *call, size_t index_len, size_t list_len, size_t heads_len, size_t visits_len)
{
    told(call, celduga_lookup(sample, sizeof sample, forest, index_len, asked, list_len, their_heads, heads_len,
                              their_visits, visits_len));
    numbers("heads", their_heads, N);
    numbers("visits", their_visits, N);
}

/* File with lists and a buffer of these lengths, and what the buffer holds then, with the byte behind it. */
static void file(const char *call, size_t degrees_len, size_t neighbours_len, size_t record_len)
{
    told(call, celduga_file(degrees, degrees_len, neighbours, neighbours_len, filed, record_len));
    shown("filed", filed, sizeof filed);
}

/* Where the part of terminal v stands in a list of so many numbers, and its numbers. */
static void part(size_t list_len, size_t v)
{
    size_t count = 99;
    uint64_t place = celduga_neighbours(sample, sizeof sample, list_len, v);
    const uint16_t *from = celduga_neighbours_of(sample, sizeof sample, list, list_len, v, &count);
    printf("part %zu of %zu: %lu %lu at %ld\n", v, list_len, (unsigned long)(place >> 32), (unsigned long)(place & 0xFFFFFFFFu),
           (long)(from - list));
    numbers("neighbours", from, count);
}

int main(void)
{
    static const uint8_t highest[] = {0xFF, 0xFF, 0xFF, 0xFF}, mixed[] = {0xA5, 0x1C, 0x5A, 0xC3};
    const uint8_t *r = sample, *x = forest;
    const size_t rl = sizeof sample, xl = sizeof forest;

    printf("version: %d %d %d, %lu, %lu\n", CELDUGA_VERSION_MAJOR, CELDUGA_VERSION_MINOR, CELDUGA_VERSION_PATCH,
           (unsigned long)CELDUGA_VERSION, (unsigned long)celduga_version());
    printf("largest: %d %d %d %d %d %d %d\n", CELDUGA_MAX_TERMINALS, CELDUGA_MAX_WIRES, CELDUGA_MAX_RECORD_LEN,
           CELDUGA_MAX_INDEX_LEN, CELDUGA_MAX_WORK_LEN, CELDUGA_MAX_LIST_LEN, CELDUGA_MAX_LOOKUP_LEN);
    sizes(0, 0);
    sizes(1, 0);
    sizes(2, 1);
    sizes(N, M);
    sizes(7, 9);
    sizes(4096, 16384);
    sizes(8191, 32767);
    header(sample);
    header(mixed);
    header(highest);
    for (unsigned refusal = 0; refusal <= 19; refusal++)
        printf("refusal %u: %s\n", refusal, celduga_refusal_text(refusal));
    printf("refusal %u: %s\n", 0xFFFFFFFFu, celduga_refusal_text(0xFFFFFFFFu));

    told("check", celduga_check(r, rl));
    told("check short", celduga_check(r, 3));
    told("figure", celduga_loop_figure(r, rl));
    told("figure short", celduga_loop_figure(r, 3));
    told("figure of the empty record", celduga_loop_figure(empty, sizeof empty));
    told("unpack", celduga_unpack(r, rl, list, 2 * M));
    numbers("list", list, 2 * M);
    for (size_t v = 0; v <= N + 1; v++)
        part(2 * M, v);
    part(2 * M - 1, 3);
    part(2 * M + 1, 3);
    for (size_t v = 1; v <= N; v++)
        degrees[v - 1] = (uint16_t)celduga_value(celduga_degree(r, rl, v));
    memcpy(neighbours, list, sizeof list);
    memset(filed, 0xA5, sizeof filed);
    file("file of 5 degrees", N - 1, 2 * M, rl);
    file("file of 9 neighbours", N, 2 * M - 1, rl);
    file("file of 11 neighbours", N, 2 * M + 1, rl);
    file("file to 20", N, 2 * M, rl - 1);
    file("file to 22", N, 2 * M, rl + 1);
    neighbours[9] = N + 1;
    file("file with 7", N, 2 * M, rl);
    file("file with 7 to 20", N, 2 * M, rl - 1);
    neighbours[9] = 4;
    file("file with 4 for 5", N, 2 * M, rl);
    file("file with 4 for 5 of 11 neighbours to 20", N, 2 * M + 1, rl - 1);
    neighbours[9] = 5;
    file("file", N, 2 * M, rl);
    printf("the same: %d\n", memcmp(filed, sample, sizeof sample) == 0);
    /* a terminal more, without wires */
    file("file of 7 degrees", N + 1, 2 * M, celduga_record_len(N + 1, M));
    file("file of none", 0, 0, sizeof empty);
    memset(forest, 0xA5, sizeof forest);
    build("build from 0", 0, 8 * N, xl);
    build("build from 7", N + 1, 8 * N, xl);
    build("build from the largest", SIZE_MAX, 8 * N, xl);
    build("build from 0 in 47", 0, 8 * N - 1, xl);
    build("build from 0 to 14", 0, 8 * N, xl - 1);
    shown("index", forest, xl);
    build("build from 4", 4, 8 * N, xl);
    shown("index", forest, xl);
    build("build from 1", 1, 8 * N, xl);
    shown("index", forest, xl);
    memset(heads, 1, sizeof heads);
    table("table of 5", 1, 8 * N, N - 1);
    table("table in 47", 1, 8 * N - 1, N);
    table("table from 7", N + 1, 8 * N, N);
    table("table from the largest of 5", SIZE_MAX, 8 * N, N - 1);
    numbers("heads", heads, N);
    table("table from 4", 4, 8 * N, N);
    columns();
    table("table from 1", 1, 8 * N, N);
    columns();
    on_empty(0);
    on_empty(1);
    on_empty(SIZE_MAX);
    for (size_t v = 1; v <= N + 1; v++) {
        told("degree", celduga_degree(r, rl, v));
        told("visit", celduga_visit(r, rl, x, xl, v));
        told("visited", celduga_visited(r, rl, x, xl, v));
        told("parent", celduga_parent(r, rl, x, xl, v));
        told("children", celduga_children(r, rl, x, xl, v));
        told("head", celduga_head(r, rl, x, xl, v));
    }
    told("second child of 3", celduga_child(r, rl, x, xl, 3, 2));
    told("third child of 3", celduga_child(r, rl, x, xl, 3, 3));
    told("1 above 4", celduga_ancestor(r, rl, x, xl, 1, 4));
    told("4 above 1", celduga_ancestor(r, rl, x, xl, 4, 1));
    memset(their_heads, 1, sizeof their_heads);
    memset(their_visits, 2, sizeof their_visits);
    for (size_t i = 0; i <= MOST; i++)
        asked[i] = (uint16_t)(N - i % N);
    lookup("lookup in 14 to 3 and 4", xl - 1, 4, 3, 4);
    lookup("lookup to 3 and 4", xl, 4, 3, 4);
    lookup("lookup to 4 and 5", xl, 4, 4, 5);
    lookup("lookup of 513", xl, MOST + 1, MOST + 1, MOST + 1);
    asked[3] = N + 1;
    lookup("lookup of 6 5 4 7", xl, 4, 4, 4);
    lookup("lookup of 6 5 4 7 to 5 and 5", xl, 4, 5, 5);
    lookup("lookup of none", xl, 0, 0, 0);
    asked[3] = 2;
    lookup("lookup of 6 5 4 2 2", xl, 5, 5, 5);
    lookup("lookup of 512", xl, MOST, MOST, MOST);
    numbers("the last heads", their_heads + MOST - 2, 3);
    numbers("the last visits", their_visits + MOST - 2, 3);
    told("lookup short", celduga_lookup(r, 3, x, xl, asked, 1, their_heads, 1, their_visits, 1));
    told("lookup in the empty record",
         celduga_lookup(empty, sizeof empty, x, 0, asked, 0, their_heads, 0, their_visits, 0));
    printf("rank: %zu\n", celduga_rank(r, rl, 28, N + 2 * M, 7));
    printf("select: %zu\n", celduga_select(r, rl, 28, N + 2 * M, 4));
    return 0;
}
