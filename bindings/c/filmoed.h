/* The roll-up of `crates/capi`, for C. `bindings/archive` writes target/staticlib/libcapi.a.
 *
 * A roll-up is a head of ten numbers and memory that the caller lends with it: register bytes and three lists, `sparse`, `pending` and `scratch`. The
 * caller keeps all of it between calls and lends it again, or other memory, of any lengths, that holds a copy of what counts: the values kept and waiting
 * and, if the form is dense, the registers. How much is needed: 2^p register bytes, and in each list as many cells as there are values kept and waiting and
 * bytes in the next state's list; too little is answered with 17.
 *
 * Every slice is a pointer and a count of elements. Slices of one call must not overlap, and each must stand in memory that may be read, and written where
 * its pointer is not const. An empty slice may have any pointer.
 *
 * An answer is 0, or the number of the first question that was answered with no (README.md has a table of them); then the head, the registers and the
 * values kept and waiting are as before. Free after every call, whatever it answers, are `scratch`, the cells of the lists past their counts, and the order of
 * the values waiting: they may hold anything. 1 is also the answer for a head with fewer than ten numbers, an unknown form, or a number out of range. Numbers from
 * 100 on are this library's own.
 */
#ifndef FILMOED_H
#define FILMOED_H

#include <stddef.h>
#include <stdint.h>

#ifdef __cplusplus
extern "C" {
#endif

/* Where each number of a head stands. Signed numbers are two's complement: value count in 64 bits, s and sparse size in 32. */
enum {
    FILMOED_FORM,          /* 0: nothing was added, 1: a list, 2: registers */
    FILMOED_TYPES,         /* the value types that it can be, a bit each */
    FILMOED_VALUE_TYPE,
    FILMOED_NUM_VALUES,
    FILMOED_PRECISION,     /* p */
    FILMOED_SPARSE_PRECISION, /* s */
    FILMOED_SPARSE_SIZE,
    FILMOED_SPARSE_LEN,    /* how many cells of `sparse` count */
    FILMOED_SPARSE_BYTES,
    FILMOED_PENDING_LEN,   /* how many cells of `pending` count */
    FILMOED_HEAD           /* how many numbers a head has */
};

/* The answer to a fold whose ends do not fit. */
enum { FILMOED_BAD_ENDS = 100 };

/* A head to which nothing was added. */
uint8_t filmoed_fresh(uint64_t *head, size_t head_len);

/* Adds a state. */
uint8_t filmoed_add(uint64_t *head, size_t head_len, uint8_t *registers, size_t registers_len, uint32_t *sparse, size_t sparse_len, uint32_t *pending,
                    size_t pending_len, uint32_t *scratch, size_t scratch_len, const uint8_t *state, size_t state_len);

/* Adds many states that stand one behind the other: ends[i] is where state i ends. The answer to each goes into answers[i]: READ THEM, a state that was refused
 * is told there alone. Cells past the states are untouched. Bytes behind the last end belong to no state and are not read.
 * The function's own answer is 0, or that of a fold that is refused as a whole, and then nothing is changed but `scratch`, nor any answer: FILMOED_BAD_ENDS
 * where an end is before the last one or past the states, or there are fewer answers than ends; else 1 where the head is none or does not fit its memory. */
uint8_t filmoed_fold(uint64_t *head, size_t head_len, uint8_t *registers, size_t registers_len, uint32_t *sparse, size_t sparse_len, uint32_t *pending,
                     size_t pending_len, uint32_t *scratch, size_t scratch_len, const uint8_t *states, size_t states_len, const uint64_t *ends,
                     size_t ends_len, uint8_t *answers, size_t answers_len);

/* Writes the roll-up as a state. How many bytes that are goes into *len (one cell): 0 where it is refused. The output past them is untouched. */
uint8_t filmoed_write(const uint64_t *head, size_t head_len, const uint8_t *registers, size_t registers_len, const uint32_t *sparse, size_t sparse_len,
                      uint32_t *pending, size_t pending_len, uint32_t *scratch, size_t scratch_len, uint8_t *out, size_t out_len, uint64_t *len,
                      size_t len_len);

#ifdef __cplusplus
}
#endif

#endif
