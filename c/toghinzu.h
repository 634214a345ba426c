/* Toghinzu for C: entropy models of a line between a winch controller and a cab unit.

   A channel is a plain struct of numbers that the caller owns; nothing is allocated and nothing is kept between calls. Every call
   checks what it is handed, so it answers on every content of a struct, also on one that no open has filled.

   A call answers 0 where it did what it says; the number of the refusal, 1 to 7; or -1 where there is nothing to answer.
   Where it does not answer 0, it leaves everything as it was.

   What the caller owes: every pointer is aligned and points to what its type says, a buffer to as many entries as the length
   after it tells; none is null, also not of an empty buffer; and what a call writes overlaps nothing else that it is handed. */
#ifndef TOGHINZU_H
#define TOGHINZU_H

#include <stddef.h>
#include <stdint.h>

#ifdef __cplusplus
extern "C" {
#endif

enum toghinzu_status {
    TOGHINZU_OUTSIDE = -1,  /* the symbol is not in the support */
    TOGHINZU_OK = 0,
    TOGHINZU_PRECISION = 1, /* the precision is 0 or above 32 */
    TOGHINZU_ORDER = 2,     /* max is not above min */
    TOGHINZU_SPAN = 3,      /* max - min is 2^precision or more */
    TOGHINZU_BEYOND = 4,    /* the quantile is 2^precision or more */
    TOGHINZU_SHAPE = 5,     /* the centre or the scale is outside its limits */
    TOGHINZU_RANGE = 7      /* the range is below 2 or above 2^precision */
};

/* Where a symbol's interval starts, and how long it is (at least 1). */
typedef struct { uint32_t start, length; } toghinzu_interval;

/* A row of a table. */
typedef struct { int32_t symbol; uint32_t start, length; } toghinzu_row;
typedef struct { uint64_t symbol; uint32_t start, length; } toghinzu_uniform_row;

/* A Peak channel: the symbols from min to max, by a Peak quantized at a precision. `row` counts the rows that fill has handed out;
   set it to 0 to start the walk over. Limits: centre from -2^40 to 2^40, scale from 2^-20 to 2^40. Refused in this order: 1, 2, 3, 5. */
typedef struct { int32_t min, max; uint32_t precision; double centre, scale; uint64_t row; } toghinzu_peak;

/* A uniform channel: the symbols from 0 to range - 1. Refused in this order: 1, 7. */
typedef struct { uint64_t range; uint32_t precision; uint64_t row; } toghinzu_uniform;

/* Fills the struct with a checked channel, its walk at row 0. */
int32_t toghinzu_peak_open(toghinzu_peak *channel, int32_t min, int32_t max, uint32_t precision, double centre, double scale);
int32_t toghinzu_uniform_open(toghinzu_uniform *channel, uint64_t range, uint32_t precision);

/* Writes the symbol's interval; -1 where the symbol is outside the support. */
int32_t toghinzu_peak_encode(const toghinzu_peak *channel, int32_t symbol, toghinzu_interval *interval);
int32_t toghinzu_uniform_encode(const toghinzu_uniform *channel, uint64_t symbol, toghinzu_interval *interval);

/* Writes the one row whose interval holds the quantile; 4 where the quantile is 2^precision or more. */
int32_t toghinzu_peak_search(const toghinzu_peak *channel, uint32_t quantile, toghinzu_row *row);
int32_t toghinzu_uniform_search(const toghinzu_uniform *channel, uint32_t quantile, toghinzu_uniform_row *row);

/* Writes the next rows of the table, at most as many as the shortest buffer holds, and their count; at least one where there is a
   slot and a row. Entries past the count keep their contents. The count is 0 where the walk has ended. */
int32_t toghinzu_peak_fill(toghinzu_peak *channel, int32_t *symbols, size_t n, uint32_t *starts, size_t m, uint32_t *lengths, size_t l, size_t *count);
int32_t toghinzu_uniform_fill(toghinzu_uniform *channel, uint64_t *symbols, size_t n, uint32_t *starts, size_t m, uint32_t *lengths, size_t l, size_t *count);

#ifdef __cplusplus
}
#endif

#endif
