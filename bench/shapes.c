/* Accepted records of several shapes. Wires are drawn, labels are shuffled but for the path, each block is shuffled,
   and all is packed. */
#include "shapes.h"

#include <string.h>

enum { MOST_N = 4096, MOST_M = 16384 };

const char *const shape_names[SHAPES] = { "sparse", "random", "dense", "path", "cycle", "tree", "hubs", "clique",
    "doubled", "pair" };

enum { SPARSE, RANDOM, DENSE, PATH, CYCLE, TREE, HUBS, CLIQUE, DOUBLED, PAIR };

static struct {
    size_t n, m;
    uint64_t state;
    uint16_t ends[MOST_M][2];
    uint16_t label[MOST_N];
    size_t starts[MOST_N + 1];
    uint16_t nbrs[2 * MOST_M];
    uint8_t joined[MOST_N * (MOST_N / 8)];
} made;

uint64_t draw(uint64_t *state, uint64_t limit)
{
    uint64_t x = *state += 0x9E3779B97F4A7C15;
    x = (x ^ x >> 30) * 0xBF58476D1CE4E5B9;
    x = (x ^ x >> 27) * 0x94D049BB133111EB;
    return (x ^ x >> 31) % limit;
}

/* So many wires between a and b. */
static void lay(size_t a, size_t b, size_t count)
{
    for (; count > 0; count--) {
        made.ends[made.m][0] = (uint16_t)a;
        made.ends[made.m][1] = (uint16_t)b;
        made.m++;
    }
}

/* A wire between a and b, unless there is one or they are the same. */
static void wire(size_t a, size_t b)
{
    size_t at = a < b ? a * MOST_N + b : b * MOST_N + a;
    if (a == b || (made.joined[at / 8] >> at % 8 & 1) != 0)
        return;
    made.joined[at / 8] |= (uint8_t)(1 << at % 8);
    lay(a, b, 1);
}

static void wires_up_to(size_t m)
{
    while (made.m < m)
        wire(draw(&made.state, made.n), draw(&made.state, made.n));
}

static void ring(size_t n)
{
    size_t v;
    for (v = 0; v < n; v++)
        wire(v, (v + 1) % n);
}

static void draw_wires(int shape, int size)
{
    static const size_t clique_n[SIZES] = { 23, 46, 91, 181 };
    size_t a, b;
    made.n = (size_t)64 << 2 * size;
    switch (shape) {
    case SPARSE:
        wires_up_to(made.n);
        break;
    case RANDOM:
        wires_up_to(4 * made.n);
        break;
    case DENSE:
        made.n = (size_t)64 << size;
        wires_up_to((size_t)256 << 2 * size);
        break;
    case PATH:
        for (a = 1; a < made.n; a++)
            wire(a - 1, a);
        break;
    case CYCLE:
        ring(made.n);
        wires_up_to(2 * made.n);
        break;
    case TREE:
        for (a = 1; a < made.n; a++)
            wire(draw(&made.state, a), a);
        break;
    case HUBS:
        for (a = 0; a < 4; a++)
            for (b = a + 1; b < made.n; b++)
                wire(a, b);
        break;
    case CLIQUE:
        made.n = clique_n[size];
        for (a = 0; a < made.n; a++)
            for (b = a + 1; b < made.n; b++)
                wire(a, b);
        break;
    case DOUBLED:
        for (a = 1; a < made.n; a++)
            lay(draw(&made.state, a), a, 2);
        break;
    case PAIR:
        made.n = 2;
        lay(0, 1, (size_t)256 << 2 * size);
        break;
    case MIXED:
        made.n = 2 + draw(&made.state, ((size_t)16 << 2 * size) - 1);
        for (a = 1; a < made.n; a++) {
            b = draw(&made.state, a);
            lay(a, b, draw(&made.state, 4));
        }
        for (a = 1; a < made.n; a += 3)
            lay(a, draw(&made.state, a), 1);
        break;
    case UNWIRED:
        made.n = size == 0 ? 0 : (size_t)1 << 6 * (size - 1);
        break;
    }
}

static void shuffle(uint16_t *list, size_t n)
{
    while (n > 1) {
        size_t at = draw(&made.state, n--);
        uint16_t x = list[at];
        list[at] = list[n];
        list[n] = x;
    }
}

static void list_blocks(int shape)
{
    size_t next[MOST_N], v, i;
    for (v = 0; v < made.n; v++)
        made.label[v] = (uint16_t)v;
    if (shape != PATH)
        shuffle(made.label, made.n);
    memset(made.starts, 0, sizeof made.starts);
    for (i = 0; i < made.m; i++) {
        made.starts[made.label[made.ends[i][0]] + 1]++;
        made.starts[made.label[made.ends[i][1]] + 1]++;
    }
    for (v = 0; v < made.n; v++)
        made.starts[v + 1] += made.starts[v];
    memcpy(next, made.starts, sizeof next);
    for (i = 0; i < made.m; i++) {
        uint16_t a = made.label[made.ends[i][0]], b = made.label[made.ends[i][1]];
        made.nbrs[next[a]++] = b;
        made.nbrs[next[b]++] = a;
    }
    for (v = 0; v < made.n; v++)
        shuffle(made.nbrs + made.starts[v], made.starts[v + 1] - made.starts[v]);
}

size_t put(uint8_t *record, size_t at, size_t width, size_t value)
{
    while (width-- > 0) {
        if ((value >> width & 1) != 0)
            record[at / 8] |= (uint8_t)(0x80 >> at % 8);
        at++;
    }
    return at;
}

static size_t pack(uint8_t *record)
{
    size_t at, v, p;
    memset(record, 0, MOST_RECORD_BYTES);
    at = put(record, 0, 13, made.n);
    at = put(record, at, 15, made.m);
    for (v = 0; v < made.n; v++) {
        at = put(record, at, 1, 1);
        at += made.starts[v + 1] - made.starts[v];
    }
    for (p = 0; p < 2 * made.m; p++)
        at = put(record, at, 12, made.nbrs[p]);
    return (at + 7) / 8;
}

void make_record(int shape, int size, int copy, struct record *r)
{
    memset(made.joined, 0, sizeof made.joined);
    made.m = 0;
    made.state = (uint64_t)(10000 * shape + 100 * size + copy + 1);
    draw_wires(shape, size);
    list_blocks(shape);
    r->n = made.n;
    r->m = made.m;
    r->len = pack(r->bytes);
    r->index_len = 3 * ((r->n + 2 * r->m + 7) / 8) + (12 * r->n + 7) / 8;
}
