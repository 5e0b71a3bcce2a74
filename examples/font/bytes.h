/* A part of a font's table, from an offset to the table's end, and the big-endian numbers in it.
   What lies behind the end reads as 0, so that no table, however bad, is read outside. */
#ifndef BYTES_H
#define BYTES_H

#include "gpos.h"

typedef struct {
    const uint8_t *at;
    size_t len;
} bytes;

static inline bytes part(bytes b, size_t offset) {
    if (offset >= b.len) return (bytes){NULL, 0};
    return (bytes){b.at + offset, b.len - offset};
}

static inline uint32_t number_at(bytes b, size_t offset, int size) {
    bytes p = part(b, offset);
    return p.len < (size_t)size ? 0 : gpos_get_number(p.at, size);
}

static inline uint32_t u16_at(bytes b, size_t offset) { return number_at(b, offset, 2); }
static inline uint32_t u32_at(bytes b, size_t offset) { return number_at(b, offset, 4); }

/* The part at the offset that the two or four bytes at `offset` hold; none if that is 0. */
static inline bytes part_by(bytes b, uint32_t offset) {
    return offset ? part(b, offset) : (bytes){NULL, 0};
}
static inline bytes part_at(bytes b, size_t offset) { return part_by(b, u16_at(b, offset)); }
static inline bytes far_part_at(bytes b, size_t offset) { return part_by(b, u32_at(b, offset)); }

#endif
