/*
 * The C interface of the static library: packed records of graphs, their depth-first search index, and the questions to
 * both.
 *
 * A terminal is a vertex and a wire is an edge. Terminals, visit numbers and children count from 1. n and m are the
 * numbers of terminals and of wires in a record's header. Several wires may run between the same two terminals: the
 * k-th mention of v at u and the k-th mention of u at v are the two ends of one wire. docs/FORMAT.md has the format of
 * records and indexes, bit by bit.
 *
 * Results. A uint32_t has the number of the refusal, or 0, in its high half and the value, or 0 where there is none, in
 * its low half: read it with celduga_refusal and celduga_value. A call names the first broken rule, in the order given
 * at its function, and then leaves the buffers for the result unchanged.
 *
 * What a caller lends. A call answers for all numbers and for all contents of its slices, also for damaged records and
 * for indexes that nobody built. It asks that
 *   - each pointer is good for as many elements as the length behind it says, for writing too where it is not const;
 *   - no pointer is NULL, also where the length is 0 (data() of an empty std::vector may be NULL);
 *   - a pointer to uint16_t is aligned for it;
 *   - a buffer that is written overlaps no other slice of the call (slices that are only read may overlap);
 *   - the stack has room: 192 KiB for celduga_table, 152 KiB for celduga_build, celduga_check, celduga_unpack,
 *     celduga_file and celduga_loop_figure, 32 KiB for celduga_lookup, 16 KiB for others.
 *
 * Threads. There is no state, and no pointer is kept after a call. Calls may run at once where none writes what another
 * is lent.
 */
#ifndef CELDUGA_H
#define CELDUGA_H

#include <stddef.h>
#include <stdint.h>

#ifdef __cplusplus
extern "C" {
#endif

/* The header's version. Each part of it is below 256. */
#define CELDUGA_VERSION_MAJOR 0
#define CELDUGA_VERSION_MINOR 7
#define CELDUGA_VERSION_PATCH 1
#define CELDUGA_VERSION (CELDUGA_VERSION_MAJOR * 65536 + CELDUGA_VERSION_MINOR * 256 + CELDUGA_VERSION_PATCH)

/* The archive's version, as CELDUGA_VERSION is the header's: a plain number. It refuses nothing. */
uint32_t celduga_version(void);

/* The limits of n and m, and the greatest lengths: bytes of a record and of an index, numbers of a work slice and of a
   list of neighbours, and terminals of the list of celduga_lookup. */
#define CELDUGA_MAX_TERMINALS 4096
#define CELDUGA_MAX_WIRES 16384
#define CELDUGA_MAX_RECORD_LEN 53764
#define CELDUGA_MAX_INDEX_LEN 19968
#define CELDUGA_MAX_WORK_LEN 32768
#define CELDUGA_MAX_LIST_LEN 32768
#define CELDUGA_MAX_LOOKUP_LEN 512

/*
 * The refusals. D is the part of a record that holds the degrees in unary. 12 is given where the index shows two
 * parents of a terminal, a field or a stored number of n or more, a climb that is not over after n - 1 steps, or a
 * visit number nowhere.
 */
enum celduga_refusal_number {
    CELDUGA_TOO_SHORT = 1,           /* the record has under 4 bytes */
    CELDUGA_OVER_LIMIT = 2,          /* n or m is over its limit */
    CELDUGA_WRONG_LENGTH = 3,        /* the record has another length than n and m give */
    CELDUGA_BAD_UNARY = 4,           /* D has not n ones, or begins with a zero */
    CELDUGA_SPARE_SET = 5,           /* a bit after the last field is set */
    CELDUGA_STRAY_NEIGHBOUR = 6,     /* a neighbour is no terminal, or the terminal itself */
    CELDUGA_DOUBLED_NEIGHBOUR = 7,   /* given no longer: a neighbour may stand several times in a block */
    CELDUGA_ONE_SIDED_WIRE = 8,      /* two terminals mention each other a different number of times */
    CELDUGA_SHORT_WORK = 9,          /* the work slice has fewer numbers than celduga_work_len(n) */
    CELDUGA_WRONG_BUFFER = 10,       /* the index or a list has another length than n and m give */
    CELDUGA_NO_TERMINAL = 11,        /* the terminal, or the visit number, is 0 or above n */
    CELDUGA_BAD_INDEX = 12,          /* the index shows what no forest does */
    CELDUGA_NO_CHILD = 13,           /* j is 0 or above the number of children */
    CELDUGA_NO_START = 14,           /* the start is 0 or above n, unless both are 0 */
    CELDUGA_BAD_LIST = 15,           /* the list has over 512 terminals, or an answer list has another length */
    CELDUGA_BAD_LISTS = 16,          /* too many degrees, or a sum that is odd, too large or not neighbours_len */
    CELDUGA_WRONG_RECORD_BUFFER = 17 /* the buffer for the record has another length than it */
};

/* Results */

/* The number of the refusal, or 0. */
static inline unsigned celduga_refusal(uint32_t result)
{
    return (unsigned)(result >> 16);
}

/* The value; 0 where the call refuses. */
static inline unsigned celduga_value(uint32_t result)
{
    return (unsigned)(result & 0xFFFFu);
}

/* A refusal in words, for a message; 0 gives "nothing is refused". */
static inline const char *celduga_refusal_text(unsigned refusal)
{
    switch (refusal) {
    case 0: return "nothing is refused";
    case CELDUGA_TOO_SHORT: return "the record has under 4 bytes";
    case CELDUGA_OVER_LIMIT: return "the record has too many terminals or wires";
    case CELDUGA_WRONG_LENGTH: return "the record has another length than its header gives";
    case CELDUGA_BAD_UNARY: return "the degrees in unary do not fit the number of terminals";
    case CELDUGA_SPARE_SET: return "a spare bit of the record is set";
    case CELDUGA_STRAY_NEIGHBOUR: return "a neighbour is no terminal, or the terminal itself";
    case CELDUGA_DOUBLED_NEIGHBOUR: return "a neighbour stands twice in a block";
    case CELDUGA_ONE_SIDED_WIRE: return "two terminals mention each other a different number of times";
    case CELDUGA_SHORT_WORK: return "the work slice is too short";
    case CELDUGA_WRONG_BUFFER: return "the index or the list has another length than the record gives";
    case CELDUGA_NO_TERMINAL: return "there is no such terminal or visit number";
    case CELDUGA_BAD_INDEX: return "the index shows what no forest does";
    case CELDUGA_NO_CHILD: return "there is no such child";
    case CELDUGA_NO_START: return "there is no such terminal to start from";
    case CELDUGA_BAD_LIST: return "the list is too long, or an answer list has another length";
    case CELDUGA_BAD_LISTS:
        return "the degrees are too many, or their sum is odd, too large or not the number of neighbours";
    case CELDUGA_WRONG_RECORD_BUFFER: return "the buffer has another length than the record";
    default: return "no refusal has this number";
    }
}

/* Sizes */

/* n and m, from the 4 bytes of the header; they may be over their limits. */
static inline size_t celduga_terminals(const uint8_t *record)
{
    return (size_t)record[0] << 5 | (size_t)record[1] >> 3;
}

static inline size_t celduga_wires(const uint8_t *record)
{
    return ((size_t)record[1] & 7) << 12 | (size_t)record[2] << 4 | (size_t)record[3] >> 4;
}

/* The bytes of a record, and of its index. */
static inline size_t celduga_record_len(size_t n, size_t m)
{
    return (28 + n + 26 * m + 7) / 8;
}

static inline size_t celduga_index_len(size_t n, size_t m)
{
    return 3 * ((n + 2 * m + 7) / 8) + (12 * n + 7) / 8;
}

/* The numbers that the work slice of celduga_build and celduga_table must have at least, and those of the list of
   celduga_unpack and of the neighbours of celduga_file. */
static inline size_t celduga_work_len(size_t n)
{
    return 8 * n;
}

static inline size_t celduga_list_len(size_t m)
{
    return 2 * m;
}

/* Records */

/* Accepts a record. No value. Refuses 1 to 6, 8. */
uint32_t celduga_check(const uint8_t *record, size_t record_len);

/* How many wires terminal v has. Refuses 1 to 4, 11. */
uint32_t celduga_degree(const uint8_t *record, size_t record_len, size_t v);

/* Writes the neighbours of all terminals to the list, block after block. No value. Refuses 1 to 6, 8, 10. */
uint32_t celduga_unpack(const uint8_t *record, size_t record_len, uint16_t *list, size_t list_len);

/*
 * Writes the record with these degrees, one for each terminal from 1 on, and these neighbours, block after block as
 * celduga_unpack gives them: for n degrees and 2m neighbours, celduga_record_len(n, m) bytes. A record is written again
 * with the same bytes from what celduga_degree answers for each terminal and what celduga_unpack writes. No value.
 * Refuses 16 where there are more than CELDUGA_MAX_TERMINALS degrees, or their sum is odd, above CELDUGA_MAX_LIST_LEN
 * or not neighbours_len; then what celduga_check refuses of that record, which can be 6 and 8 only, and 6 also where a
 * neighbour is 0 or above n; then 17 where record_len is not the record's.
 */
uint32_t celduga_file(const uint16_t *degrees, size_t degrees_len, const uint16_t *neighbours, size_t neighbours_len,
    uint8_t *record, size_t record_len);

/*
 * Where terminal v's neighbours stand in a list of list_len numbers that celduga_unpack filled: the high 32 bits say
 * how many numbers stand before its part, the low 32 bits how many numbers the part has. 0 where celduga_degree refuses
 * (1 to 4, 11) or the list is not 2m numbers long.
 */
uint64_t celduga_neighbours(const uint8_t *record, size_t record_len, size_t list_len, size_t v);

/* The pointer to that part, and its length in *count; the list itself and 0 where celduga_neighbours gives 0. */
static inline const uint16_t *celduga_neighbours_of(const uint8_t *record, size_t record_len,
    const uint16_t *list, size_t list_len, size_t v, size_t *count)
{
    uint64_t part = celduga_neighbours(record, record_len, list_len, v);
    *count = (size_t)(part & 0xFFFFFFFFu);
    return list + (size_t)(part >> 32);
}

/*
 * How many wires the search forest leaves out, from any start: m - n plus the number of looms, which are the classes of
 * joined terminals; a terminal without wires is a loom too. It is 0 where no wires close a loop, and at most 16383.
 * Refuses 1 to 6, 8.
 */
uint32_t celduga_loop_figure(const uint8_t *record, size_t record_len);

/*
 * Writes the record's index. The search begins at the terminal start and then takes the unvisited terminals from 1
 * upward, so start is a root and has visit number 1; a record without terminals takes 0 only. Which terminals share a
 * head is the same for every start. The work slice may hold anything before and after the call, refused or not. No
 * value. Refuses 1 to 6, 8, 9, 10, 14.
 */
uint32_t celduga_build(const uint8_t *record, size_t record_len, size_t start, uint16_t *work, size_t work_len,
    uint8_t *index, size_t index_len);

/*
 * Writes what celduga_visit, celduga_parent, celduga_children and celduga_head answer for every terminal on the index
 * that celduga_build writes with this start; element v - 1 of each list is terminal v's. No index is lent, and all
 * together take time linear in the record's bits. The work slice may hold anything before and after the call, refused
 * or not. No value. Refuses 1 to 6, 8, 9, 10 where one of the four lists is not n numbers long, 14.
 */
uint32_t celduga_table(const uint8_t *record, size_t record_len, size_t start, uint16_t *work, size_t work_len,
    uint16_t *visits, size_t visits_len, uint16_t *parents, size_t parents_len,
    uint16_t *children, size_t children_len, uint16_t *heads, size_t heads_len);

/* Queries. They take any index of the right length. On the one that celduga_build wrote for the record none refuses
   with 12. */

/* The parent of terminal v in the forest, 0 for a root. Refuses 1 to 4, 10, 11, 12. */
uint32_t celduga_parent(const uint8_t *record, size_t record_len, const uint8_t *index, size_t index_len, size_t v);

/*
 * The head of terminal v: the first terminal, from v upward, that is a root or whose wire to its parent is a bridge. On
 * a built index two terminals have one head exactly when they are joined and stay so whichever one wire is taken out,
 * and there are as many different heads as roots and bridges together. Refuses 1 to 4, 10, 11, 12.
 */
uint32_t celduga_head(const uint8_t *record, size_t record_len, const uint8_t *index, size_t index_len, size_t v);

/* 1 where u is v or stands above it, else 0. Refuses 1 to 4, 10, 11 for u, 11 for v, 12. */
uint32_t celduga_ancestor(const uint8_t *record, size_t record_len, const uint8_t *index, size_t index_len,
    size_t u, size_t v);

/* How many children terminal v has. Refuses 1 to 4, 10, 11. */
uint32_t celduga_children(const uint8_t *record, size_t record_len, const uint8_t *index, size_t index_len, size_t v);

/* The j-th child of terminal v, in order of visits. Refuses 1 to 4, 10, 11, 13, 12. */
uint32_t celduga_child(const uint8_t *record, size_t record_len, const uint8_t *index, size_t index_len,
    size_t v, size_t j);

/* The visit number of terminal v. Refuses 1 to 4, 10, 11, 12. */
uint32_t celduga_visit(const uint8_t *record, size_t record_len, const uint8_t *index, size_t index_len, size_t v);

/* The lowest terminal with visit number i. Refuses 1 to 4, 10, 11 for i, 12. */
uint32_t celduga_visited(const uint8_t *record, size_t record_len, const uint8_t *index, size_t index_len, size_t i);

/*
 * Writes what celduga_head and celduga_visit answer for each terminal of the list to the same element of heads and of
 * visits. D is checked, and its blocks are found, once for all of them, and no climb passes a terminal that another has
 * passed. The list may be empty, and may name a terminal several times. No value. Refuses 1 to 4, 10, 15 where the list
 * has more than CELDUGA_MAX_LOOKUP_LEN terminals or one of heads and visits has another length than the list; then the
 * first 11 or 12 that is met in list order, celduga_head's before celduga_visit's.
 */
uint32_t celduga_lookup(const uint8_t *record, size_t record_len, const uint8_t *index, size_t index_len,
    const uint16_t *list, size_t list_len, uint16_t *heads, size_t heads_len, uint16_t *visits, size_t visits_len);

/*
 * Bit strings. The places of a string count from 1. It begins at bit start, which counts from 0 for the most
 * significant bit of the first byte. One that its bytes do not hold in full counts as empty. Both functions give a
 * plain number and refuse nothing.
 */

/* The ones in places 1 to p; a p past the end counts all. */
size_t celduga_rank(const uint8_t *bytes, size_t len, size_t start, size_t places, size_t p);

/* The place of the k-th one; 0 for k = 0 and where there are fewer ones. */
size_t celduga_select(const uint8_t *bytes, size_t len, size_t start, size_t places, size_t k);

#ifdef __cplusplus
}
#endif

#endif
