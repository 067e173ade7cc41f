/*
 * Ranges to lend to a function under test, such that no access outside them goes unnoticed.
 *
 * AFTER puts the range right before a page that may not be touched, BEFORE right after one; a range to be read is on
 * pages that cannot be written, and around a range to be written stand bytes that are looked at afterwards. HEAP takes
 * each range from the heap at its exact size, for a memory checker to watch.
 */
#ifndef LENT_H
#define LENT_H

#include <stdbool.h>
#include <stddef.h>
#include <stdint.h>

enum lent_side { AFTER, BEFORE, HEAP };

typedef struct {
    uint8_t *bytes;
    size_t len;
    enum lent_side side;
    uint8_t *pages; /* those that hold the range, between two guards */
    size_t pages_len;
    void *mapped;
} lent;

#define LENT_FILLER 0xA5

/* A copy of the bytes, to be read. */
lent lent_to_read(const void *bytes, size_t len, enum lent_side side);

/* `len` bytes of LENT_FILLER, to be written. */
lent lent_to_write(size_t len, enum lent_side side);

/* A copy of the bytes, to be read and written. */
lent lent_to_change(const void *bytes, size_t len, enum lent_side side);

/* Whether all bytes from `from` on are `byte`. */
bool lent_rest_is(const lent *range, size_t from, uint8_t byte);

/* Whether the bytes around a range to be written are as they were. */
bool lent_margin_is_whole(const lent *range);

void lent_back(lent *range);

/*
 * Bytes from text: hex digits, blanks ignored, K for the pack key, and {..}N for N times what stands in the braces,
 * which do not nest. The bytes are static, and good until the second call after this one.
 */
const uint8_t *bytes_of(const char *text, size_t *len);

/* The longest keep sheet, BW_SHEET_MAX bytes: 32 labels and the tag numbers from 96 to 127. */
void longest_sheet(uint8_t *bytes);

#endif
