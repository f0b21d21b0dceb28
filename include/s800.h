/* The check of one S800 event, version 5, for an analysis in C or C++ (docs/FORMATS.md, dialect S).
 *
 * Link with libhost.a, for x86-64 Linux: examples/build-host makes target/staticlib/libhost.a. Of the C library it
 * needs memcpy and memset. The call keeps no state and takes no heap; its stack is less than 9 KiB.
 */
#ifndef S800_H
#define S800_H

#include <stddef.h>
#include <stdint.h>

#ifdef __cplusplus
extern "C" {
#endif

/* The order of the four stamp chunks. Both give the same answer: the order decides how the rows would be read. */
enum { S800_CROSSED = 0, S800_RISING = 1 };

/* Checks the event in `length` bytes, each word's low byte first. Any bytes may come in, of any length, also none
 * (`bytes` may then be null). It only reads them.
 *
 * The answer is the number of rows that a reading gives, at least 4 and at most 4,096; or 2^32 times a refusal number
 * plus its place, the index of a word, from 0. The refusals are 31 (place 0) for an order that is neither 0 nor 1,
 * tested first; 1 (place 0) for an odd number of bytes, and for fewer than 28 or more than 8,192; and 2 to 11 of the
 * table in docs/REFUSALS.md, which says of each what its place is. */
uint64_t s800_check(const uint8_t *bytes, size_t length, uint32_t order);

/* The refusal number of an answer, 0 where the event is accepted. */
static inline uint32_t s800_refusal(uint64_t answer) { return (uint32_t)(answer >> 32); }

/* The rows of an accepted event; 0 for a refusal. */
static inline uint32_t s800_rows(uint64_t answer) { return answer >> 32 == 0 ? (uint32_t)answer : 0; }

/* The place of a refusal; 0 where the event is accepted. */
static inline uint32_t s800_place(uint64_t answer) { return answer >> 32 == 0 ? 0 : (uint32_t)answer; }

#ifdef __cplusplus
}
#endif

#endif
