/* Every operation of celduga.h, and bits_read12, in plain C: what the product is measured against. Arguments and
   answers are the same. */
#ifndef PLAIN_H
#define PLAIN_H

#include <stddef.h>
#include <stdint.h>

uint32_t plain_check(const uint8_t *record, size_t len);
uint32_t plain_build(const uint8_t *record, size_t len, size_t start, uint16_t *work, size_t work_len, uint8_t *index,
                     size_t index_len);
uint32_t plain_degree(const uint8_t *record, size_t len, size_t v);
uint32_t plain_unpack(const uint8_t *record, size_t len, uint16_t *list, size_t list_len);
uint32_t plain_file(const uint16_t *degrees, size_t degrees_len, const uint16_t *neighbours, size_t neighbours_len,
                    uint8_t *record, size_t record_len);
uint64_t plain_neighbours(const uint8_t *record, size_t len, size_t list_len, size_t v);
uint32_t plain_loop_figure(const uint8_t *record, size_t len);
uint32_t plain_table(const uint8_t *record, size_t len, size_t start, uint16_t *work, size_t work_len,
                     uint16_t *visits, size_t visits_len, uint16_t *parents, size_t parents_len, uint16_t *children,
                     size_t children_len, uint16_t *heads, size_t heads_len);

uint32_t plain_parent(const uint8_t *record, size_t len, const uint8_t *index, size_t index_len, size_t v);
uint32_t plain_head(const uint8_t *record, size_t len, const uint8_t *index, size_t index_len, size_t v);
uint32_t plain_ancestor(const uint8_t *record, size_t len, const uint8_t *index, size_t index_len, size_t u, size_t v);
uint32_t plain_children(const uint8_t *record, size_t len, const uint8_t *index, size_t index_len, size_t v);
uint32_t plain_child(const uint8_t *record, size_t len, const uint8_t *index, size_t index_len, size_t v, size_t j);
uint32_t plain_visit(const uint8_t *record, size_t len, const uint8_t *index, size_t index_len, size_t v);
uint32_t plain_visited(const uint8_t *record, size_t len, const uint8_t *index, size_t index_len, size_t i);
uint32_t plain_lookup(const uint8_t *record, size_t len, const uint8_t *index, size_t index_len, const uint16_t *list,
                      size_t list_len, uint16_t *heads, size_t heads_len, uint16_t *visits, size_t visits_len);

size_t plain_rank(const uint8_t *bytes, size_t len, size_t start, size_t places, size_t p);
size_t plain_select(const uint8_t *bytes, size_t len, size_t start, size_t places, size_t k);

/* The field of 12 bits from bit `start` on, which the bytes hold. */
size_t plain_read12(const uint8_t *bytes, size_t len, size_t start);

#endif
