/* Stridebank: shortens a list of quantum gates, and keeps a journal of what it did.
 *
 * A list is records of 16 bytes: byte 0 the kind, bytes 1 to 3 zero, then three little-endian 32-bit words. docs/01-scope.md has
 * the kinds, the numbers of refusals and what each buffer holds after a call. Link libstridebank.a, which `rt lib`,
 * in the folder crates/stridebank, proves and writes to its out/.
 *
 * Every buffer is the caller's, and they must not overlap. A pointer may be anything where its length is 0, but not null: give the
 * address of any object. Every number and every byte of a buffer is tested by the call itself.
 */
#ifndef STRIDEBANK_H
#define STRIDEBANK_H

#include <stddef.h>
#include <stdint.h>

#ifdef __cplusplus
extern "C" {
#endif

/* Success: number 0, place 0; left records at the front of out, steps records of 16 bytes at the front of journal; walked, the
 * gates that commuting walks examined. A refusal: its number, 1 to 12, and the place of the first bad record for 7 to 12; all else
 * 0, and nothing lent has been touched. */
typedef struct {
    uint64_t number;
    uint64_t place;
    uint64_t left;
    uint64_t steps;
    uint64_t walked;
} stridebank_cancelled;

/* The pass on a list of g = list_len / 16 records over n = wires wires and that many classical bits.
 * Room: out_len >= list_len bytes; work_len >= 16g + 4n words of 32 bits; journal_len >= 24g bytes. */
stridebank_cancelled stridebank_cancel(size_t wires, size_t bits,
    const uint8_t *list, size_t list_len,
    uint8_t *out, size_t out_len,
    uint32_t *work, size_t work_len,
    uint8_t *journal, size_t journal_len);

#ifdef __cplusplus
}
#endif

#endif
