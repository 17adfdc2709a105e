/*
 * Prints the sections of the record on standard input, one a line, or "refused N" with exit status 1.
 * A section is a class of terminals that stay joined whichever one wire is taken out: the terminals with one head.
 */
#include <stdio.h>

#include "celduga.h"

/* Room for the longest record and for a byte more, by which an input that is too long is told. */
static uint8_t record[CELDUGA_MAX_RECORD_LEN + 1];
static uint16_t work[CELDUGA_MAX_WORK_LEN];
static uint16_t visits[CELDUGA_MAX_TERMINALS], parents[CELDUGA_MAX_TERMINALS];
static uint16_t children[CELDUGA_MAX_TERMINALS], heads[CELDUGA_MAX_TERMINALS];

/* The least terminal of each head, and after each terminal the next one with the same head; 0 for none. */
static size_t first[CELDUGA_MAX_TERMINALS + 1], next[CELDUGA_MAX_TERMINALS + 1];

/* Prints each section in order of its least terminal. */
static void print_sections(size_t n)
{
    size_t sections = 0;
    for (size_t v = n; v >= 1; v--) {
        next[v] = first[heads[v - 1]];
        first[heads[v - 1]] = v;
    }
    for (size_t v = 1; v <= n; v++) {
        if (first[heads[v - 1]] != v)
            continue;
        printf("section %zu:", ++sections);
        for (size_t w = v; w != 0; w = next[w])
            printf(" %zu", w);
        putchar('\n');
    }
}

int main(void)
{
    size_t len = fread(record, 1, sizeof record, stdin);
    if (ferror(stdin)) {
        perror("sections: standard input");
        return 2;
    }
    /* A record that is short or over the limits is refused whatever lengths are lent. */
    size_t n = celduga_terminals(record);
    if (n > CELDUGA_MAX_TERMINALS)
        n = CELDUGA_MAX_TERMINALS;
    size_t start = n > 0 ? 1 : 0; /* any terminal will do */
    unsigned refusal = celduga_refusal(
        celduga_table(record, len, start, work, celduga_work_len(n), visits, n, parents, n, children, n, heads, n));
    if (refusal == 0)
        print_sections(n);
    else
        printf("refused %u\n", refusal);
    if (fflush(stdout) != 0 || ferror(stdout)) {
        perror("sections: standard output");
        return 2;
    }
    return refusal != 0;
}
