/*
 * ballastwren.h: SMPTE ST 2109 audio-metadata packs and Dolby PMD values, from C.
 *
 * The library is for Linux on x86-64 and on aarch64, as libballastwren.a and libballastwren.so, and needs nothing but
 * memcpy, memmove and memset. What is said here holds on both processors. The proofs are of the sources, which are the
 * same; what compiles them for aarch64 is not the toolchain's own target (docs/TRUST.md).
 *
 * What holds for every function here
 *
 *   - It asks nothing of its caller but that each pointer is good for the length that goes with it and is aligned for
 *     its type. Every value of every byte, number and length is answered.
 *   - A pointer that goes with length 0 is not looked at, and may be NULL.
 *   - A range that is written (`out`, `rows`, `numbers` of bw_pmd_read, `table`) must not overlap any other range of
 *     the call. Ranges that are only read may overlap.
 *   - It keeps no state and takes no memory, so any number of threads may call it at a time.
 *   - It does not recurse. BW_STACK bytes of stack are enough for any call.
 *   - On refusal no byte and no number of a lent range has changed.
 *
 * Answers
 *
 *   `number` is 0 (BW_DONE) on success, and `value` is then a count, which each function explains. Otherwise `number`
 *   is one of enum bw_refusal, and `value` is the place of the fault:
 *
 *     no.  name    place
 *      1   BIG     0
 *      2   SHORT   0
 *      3   KEY     0
 *      4   LENGTH  16 for the pack's own length, else the first byte of the payload
 *      5   TRAIL   0
 *      6   TAG     the first byte of the payload; for a mapping's tag, of the Config
 *      7   CUT     the first byte of the payload
 *      8   PLACE   the first byte of the payload
 *      9   COUNT   the first byte of the payload; for a mapping, of the Config
 *     10   CONFIG  the first byte of the Config
 *     11   MAP     the first byte of the Config
 *     12   SYNC    the first byte of the Sync
 *     13   CRC     the first byte of the CRC payload
 *     14   SHEET   0
 *     15   NOROOM  0
 *     16   BITS    reading: the bit where the field begins; writing: the list's length
 *     17   FIELD   reading: the bit where the field begins; writing: the number's index; bw_gain: 0
 *     18   PAD     the first bit that is left over
 *     19   KIND    0
 *     20   ABSENT  0
 *     21   TABLE   0
 *     22   UNKNOWN the record's index, from 0; bw_objects_clear: 0
 *     23   STATIC  the record's index, from 0
 *     24   FULL    0
 *
 *   Bytes of a pack are counted from its key, also for payloads inside a Sync. Bits of a PMD value are counted from
 *   its first byte's most significant bit. Of several faults the one that comes first in the order given with each
 *   function is told.
 */
#ifndef BALLASTWREN_H
#define BALLASTWREN_H

#include <stddef.h>
#include <stdint.h>

#ifdef __cplusplus
extern "C" {
#endif

/* The version of this header and of the library beside it; docs/VERSIONS.md says what its numbers tell. */
#define BW_VERSION_MAJOR 0
#define BW_VERSION_MINOR 7
#define BW_VERSION_PATCH 0
#define BW_VERSION "0.7.0"
#define BW_VERSION_NUMBER (BW_VERSION_MAJOR * 10000 + BW_VERSION_MINOR * 100 + BW_VERSION_PATCH)

/*
 * The version of the library that a program runs with, as BW_VERSION_NUMBER gives it. Where it differs from the one that
 * the program was compiled with by more than the last number, the two do not belong together.
 */
uint32_t bw_version(void);

/* Caps. */
#define BW_PACK_MAX 32768       /* bytes of a pack, read or written */
#define BW_ITEMS_MAX 64         /* audio payloads and Syncs of a pack together, payloads inside Syncs included */
#define BW_MAPPINGS_MAX 32      /* mappings in a Config */
#define BW_SHEET_LABELS_MAX 32  /* labels on a keep sheet */
#define BW_SHEET_NUMBERS_MAX 32 /* tag numbers on a keep sheet */
#define BW_PMD_VALUE_MAX 4096   /* bytes of a PMD value, read or written */
#define BW_OBJECTS_MAX 128      /* entries of a table of objects */

/* Sizes. What bw_read and bw_pmd_read write fits BW_ROWS_MAX and BW_PMD_NUMBERS_MAX numbers, always. */
#define BW_LABEL_SIZE 16                          /* bytes of a label, and of the pack key */
#define BW_ROW 8                                  /* numbers in a row of bw_read */
#define BW_ROWS_MAX (BW_ROW * (BW_ITEMS_MAX + 1)) /* one row is the pack's */
#define BW_PMD_NUMBERS_MAX 9828                   /* 3,276 records of three numbers: no value has more */
#define BW_SHEET_MAX (8 + 16 * BW_SHEET_LABELS_MAX + 4 * BW_SHEET_NUMBERS_MAX) /* bytes of the longest keep sheet */

/*
 * Bytes of stack to leave for a call. Measured, not proved: bw_scrub takes 33 KiB, bw_objects_apply 31 KiB, bw_read
 * 29 KiB, bw_check and bw_lookup 28 KiB, bw_objects_clear 10 KiB, the others under 1 KiB, on either processor.
 */
#define BW_STACK 40960

/* The keep sheet that keeps everything: 65,535 in both counts, 8 in both offsets, and no entries. */
static const uint8_t bw_keep_all[8] = {0xFF, 0xFF, 0x00, 0x08, 0xFF, 0xFF, 0x00, 0x08};

/* Tag numbers on a keep sheet are from 4 (1 to 3 are Config, Sync and CRC) to this. */
#define BW_TAG_MAX 268435455

enum bw_refusal {
    BW_DONE = 0,    /* no refusal */
    BW_BIG = 1,     /* a pack above BW_PACK_MAX, or a PMD value above BW_PMD_VALUE_MAX */
    BW_SHORT = 2,   /* a pack of under 16 bytes, whose length is cut off, or whose value passes the end of the range */
    BW_KEY = 3,     /* the first 16 bytes are not the pack key */
    BW_LENGTH = 4,  /* a length that begins with 80, or with 85 to FF */
    BW_TRAIL = 5,   /* bytes after the pack's value */
    BW_TAG = 6,     /* a tag that begins with 00 or 80, or whose fourth byte has its high bit set */
    BW_CUT = 7,     /* a tag, a length or a value passes the end of its pack or Sync */
    BW_PLACE = 8,   /* a Config that is not first, a CRC that is not last, or a Config, Sync or CRC inside a Sync */
    BW_COUNT = 9,   /* the 65th item or inner payload, or the 33rd mapping */
    BW_CONFIG = 10, /* a Config value of under 2 bytes, or a mapping that is cut off */
    BW_MAP = 11,    /* a mapping of tag 1 to 3, of a label of Config, Sync or CRC, or of a tag or label mapped before */
    BW_SYNC = 12,   /* a Sync value of under 4 bytes, or without a payload inside */
    BW_CRC = 13,    /* a CRC whose length is not 4, or whose value is wrong */
    BW_SHEET = 14,  /* a keep sheet that is not well formed */
    BW_NOROOM = 15, /* what is to be written does not fit */
    BW_BITS = 16,   /* a PMD value or a list of numbers that ends inside a record, or has none */
    BW_FIELD = 17,  /* a reserved value, or a number too wide for its field */
    BW_PAD = 18,    /* bits left over after the last record that are not all 0 */
    BW_KIND = 19,   /* not one of enum bw_kind; for a table of objects, neither BW_AOD nor BW_XYZ */
    BW_ABSENT = 20, /* a label that neither pack carries, or that is not of 16 bytes */

    /* of bw_objects_apply and bw_objects_clear alone */
    BW_TABLE = 21,   /* a table of objects that is not well formed */
    BW_UNKNOWN = 22, /* an element that no used entry of the table has */
    BW_STATIC = 23,  /* a position for an entry whose dynamic is 0 */
    BW_FULL = 24     /* more new elements than the table has free entries */
};

/*
 * The refusal's name in capitals ("SHORT"), "DONE" for 0, "UNKNOWN" for a number that no function gives. The four
 * refusals of a table of objects, BW_TABLE to BW_FULL, have no names here yet: it says "UNKNOWN" for each of them.
 */
static inline const char *bw_refusal_name(uint64_t number)
{
    static const char *const names[] = {
        "DONE", "BIG",  "SHORT", "KEY",   "LENGTH", "TRAIL", "TAG",   "CUT", "PLACE", "COUNT", "CONFIG",
        "MAP",  "SYNC", "CRC",   "SHEET", "NOROOM", "BITS",  "FIELD", "PAD", "KIND",  "ABSENT"
    };
    return number < sizeof names / sizeof names[0] ? names[number] : "UNKNOWN";
}

/* number 0 and a count, or a refusal and its place. */
typedef struct {
    uint64_t number;
    uint64_t value;
} bw_answer;

/*
 * Checks a pack.
 *
 * Success counts its items (audio payloads and Syncs) and the payloads inside Syncs together; Config and CRC are not
 * counted.
 *
 * Refusals, in this order: BIG; SHORT if under 16 bytes; KEY; for the pack's own length SHORT if it is cut off and
 * LENGTH; SHORT if the value passes the range's end, TRAIL if it stops before it. Then payload by payload in byte
 * order, for each:
 *
 *   TAG or CUT for its tag, LENGTH or CUT for its length, CUT for its value; bytes are judged from left to right, so
 *   a bad byte that is there comes before a byte that is missing;
 *   PLACE;
 *   COUNT (for a Sync: before its inside is looked at);
 *   for a Config: CONFIG if its value is under 2 bytes; then for each mapping COUNT, CONFIG or TAG for its tag,
 *   CONFIG for its label, MAP;
 *   for a Sync: SYNC; then its payloads in the same way, within the Sync's end;
 *   for a CRC: CRC.
 */
bw_answer bw_check(const uint8_t *pack, size_t pack_len);

/* What a row of bw_read stands for. */
enum bw_form {
    BW_PAYLOAD = 0, /* an audio payload outside a Sync */
    BW_SYNC_ITEM = 1,
    BW_INNER = 2 /* an audio payload inside the Sync above it */
};

/* What a payload is known by. */
enum bw_name {
    BW_NUMBER = 0, /* known by its tag, which the pack maps to no label */
    BW_LABEL = 1,  /* known by the label that its tag is mapped to */
    BW_NO_NAME = 2 /* a Sync */
};

/*
 * Reads a pack into rows of BW_ROW numbers each.
 *
 * The first row is the pack's:
 *   [0]  pack offset, two's complement; 0 without a Config
 *   [1]  1 if it has a CRC, else 0
 *   [2]  items and inner payloads together
 *   [3] to [7]  0
 *
 * Then comes a row for each item and inner payload in byte order, a Sync before its payloads:
 *   [0]  enum bw_form
 *   [1]  where it starts in the pack
 *   [2]  enum bw_name
 *   [3]  BW_NUMBER: its tag; BW_LABEL: where the 16 bytes of its label stand in the pack; BW_NO_NAME: payloads inside
 *   [4]  where its value starts in the pack
 *   [5]  bytes of its value
 *   [6]  sample_offset of a Sync; of a payload its total offset; two's complement
 *   [7]  duration of a Sync; else 0
 *
 * The total offset of a payload inside a Sync is the sum of pack offset and sample_offset, exact from -65,536 to
 * 65,534; outside a Sync it is the pack offset alone.
 *
 * To get a signed number back: (int32_t)rows[0], (int32_t)row[6].
 *
 * Success counts the numbers written, BW_ROW times one more than bw_check's count: BW_ROWS_MAX at most. Numbers after
 * them have not changed.
 *
 * Refusals, in this order: those of bw_check; NOROOM if `rows` is too short.
 */
bw_answer bw_read(const uint8_t *pack, size_t pack_len, uint32_t *rows, size_t rows_len);

/*
 * Scrubs a pack by a keep sheet: writes into `out` a new pack that holds only what the sheet names, and clears the
 * rest of `out` to 0.
 *
 * A payload is kept if its name, label or number, is on the sheet; a Sync if it has such a payload, and it then holds
 * only those, after its same two numbers. The new pack has the same pack offset, shortest lengths, mappings for kept
 * labels alone (to tags from 64 on) and always a CRC. No byte of it depends on what was dropped.
 *
 * A keep sheet is a header of four 16-bit numbers, most significant byte first: how many labels; 8; how many tag
 * numbers; 8 + 16 times the labels. Then the labels, 16 bytes each, and the tag numbers, 32 bits each, most
 * significant byte first. No label and no number twice, no label of Config, Sync or CRC, numbers from 4 to BW_TAG_MAX.
 * A sheet of 0 bytes keeps nothing, and so does the header alone with no entries. Everything is kept by exactly the 8
 * bytes of bw_keep_all; 65,535 in one count only, or in both of a sheet of another length, is SHEET.
 *
 * Success counts the bytes of the new pack; all bytes of `out` after it are 0, however long `out` is.
 *
 * Refusals, in this order: SHEET; those of bw_check; NOROOM if the new pack is longer than `out` or than BW_PACK_MAX
 * (its CRC can bring a full pack over).
 */
bw_answer bw_scrub(const uint8_t *sheet, size_t sheet_len, const uint8_t *pack, size_t pack_len, uint8_t *out,
                   size_t out_len);

/*
 * Judges a keep sheet alone, as bw_scrub does before it looks at the pack: a sheet that is refused here is refused by
 * every scrub, and no scrub by a sheet that is accepted here is refused as SHEET.
 *
 * Success counts the entries that stand on the sheet, labels and tag numbers together: 64 at most. A sheet of 0 bytes
 * and a header alone have none, and bw_keep_all has none either: whether a sheet keeps everything is told by comparing
 * it with bw_keep_all, not by the count.
 *
 * Refusals: SHEET.
 */
bw_answer bw_sheet_check(const uint8_t *sheet, size_t sheet_len);

/* Of two packs, which. */
enum bw_from {
    BW_NEITHER = 0,
    BW_MAIN = 1,
    BW_BACKUP = 2
};

/*
 * number 0, and `value` bytes from `start` on of the pack `from`, with the total offset of their payload, as bw_read
 * tells it, in `total`; or a refusal, its place in `value`, the pack at fault in `from`, and `start` and `total` 0.
 * `from` is one of enum bw_from.
 */
typedef struct {
    uint64_t number;
    uint64_t value;
    uint64_t from;
    uint64_t start;
    int64_t total;
} bw_found;

/*
 * Looks a label up in two packs: finds the value of its first payload in `main` or, if main has none, in `backup`.
 *
 * The first payload is the first in byte order, inside Syncs too. A label that a pack maps to a tag and that no payload
 * has is not found in it. A value may have 0 bytes. bw_found_value gives the pointer to it. The total offset is of the
 * pack in which the value was found: main's and backup's pack offsets may differ.
 *
 * Refusals, in this order: those of bw_check for main, from BW_MAIN; those of bw_check for backup, from BW_BACKUP, also
 * where main has the label; ABSENT, from BW_NEITHER, if no payload of either has the label, or if `label_len` is not
 * BW_LABEL_SIZE.
 */
bw_found bw_lookup(const uint8_t *main, size_t main_len, const uint8_t *backup, size_t backup_len, const uint8_t *label,
                   size_t label_len);

/* Where the value stands that bw_lookup found in these two packs: `found.value` bytes; NULL on a refusal. */
static inline const uint8_t *bw_found_value(bw_found found, const uint8_t *main, const uint8_t *backup)
{
    if (found.number != BW_DONE)
        return NULL;
    return (found.from == BW_MAIN ? main : backup) + found.start;
}

/*
 * The kinds of PMD values, and the fields of a record with their widths in bits. A value has one record or more, with
 * no gap between them; it is filled up with 0 bits to a whole byte.
 */
enum bw_kind {
    BW_APD = 1, /* presentation 9, speaker_config 5, langcod 15, then element 12 until one is 0 */
    BW_APN = 2, /* presentation 9, langcod 15, then bytes of a name until one is 0 */
    BW_AOD = 3, /* element 12, class 4, dynamic 1, x 10, y 10, z 10, size 5, size_3d 1, diverge 1, source 8, gain 6 */
    BW_XYZ = 4, /* once, before the first record: sample_time 6; a record: element 12, x 10, y 10, z 10 */
    BW_AEN = 5, /* element 12, then bytes of a name until one is 0 */
    BW_ESN = 6, /* substream 4, then bytes of a name until one is 0 */
    BW_ETD = 7  /* turnaround 8; ed2_exists 1, and if it is 1: frame_rate 4, then pairs of presentation 9 and parameters
                   8 until a pair's presentation is 0; dolbye_exists 1, and if it is 1: frame_rate 4, pgmconfig 5, then
                   pairs in the same way */
};

/*
 * Reads a PMD value: its fields in order, one number each, closing zeros and the bytes of names included. Of a closing
 * pair both numbers stand there: 0, and its parameters. A flag stands there always; what it leaves out when it is 0 has
 * no numbers.
 *
 * Refused as FIELD: a presentation, element, substream or turnaround 0 (but the one that closes a list); x, y or z 0;
 * speaker_config 7 to 28; class 7 to 15; a langcod whose first two groups of 5 bits are not 1 to 26, or whose third
 * is above 26; frame_rate 0 and 6 to 15; pgmconfig 24 to 31. Parameters are any of 0 to 255.
 *
 * Success counts the numbers written, BW_PMD_NUMBERS_MAX at most. Numbers after them have not changed.
 *
 * Refusals, in this order: KIND; BIG; then field by field BITS if it is not wholly there, FIELD (another record
 * begins wherever 8 bits or more are left); PAD; NOROOM if `numbers` is too short. The two fields of a pair are judged
 * one after the other, so a value that ends after a closing presentation is BITS at the parameters that are missing.
 */
bw_answer bw_pmd_read(uint32_t kind, const uint8_t *value, size_t value_len, uint32_t *numbers, size_t numbers_len);

/*
 * Writes a PMD value from its numbers, as bw_pmd_read gives them.
 *
 * Success counts the bytes written, BW_PMD_VALUE_MAX at most. Bytes of `out` after them have not changed.
 *
 * Refusals, in this order: KIND; then number by number BITS if the list ends early, FIELD as for bw_pmd_read or if the
 * number is too wide, a flag above 1 included (another record begins wherever a number is left); NOROOM if the value is
 * longer than `out` or than BW_PMD_VALUE_MAX. A list that ends after a closing presentation ends early.
 */
bw_answer bw_pmd_write(uint32_t kind, const uint32_t *numbers, size_t numbers_len, uint8_t *out, size_t out_len);

/* number 0, and whether the gain is muted (1) or how many half decibels it is (muted 0); or BW_FIELD and two zeros. */
typedef struct {
    uint32_t number;
    uint32_t muted;
    int32_t half_db;
} bw_gain_answer;

/*
 * What the gain field of a BW_AOD record means: 0 is muted (half_db is then 0), 1 to 63 are -50 to 12 half decibels.
 *
 * Refusals: FIELD for a number above 63.
 */
bw_gain_answer bw_gain(uint32_t gain);

/*
 * An entry of a live table of objects, with the fields of a BW_AOD record in their order. It is used if its element is
 * not 0, and free if it is.
 */
typedef struct {
    uint32_t element;
    uint32_t object_class;
    uint32_t dynamic;
    uint32_t x;
    uint32_t y;
    uint32_t z;
    uint32_t size;
    uint32_t size_3d;
    uint32_t diverge;
    uint32_t source;
    uint32_t gain;
} bw_object;

/*
 * Applies a PMD value to a table of objects, all of its records or, on a refusal, none.
 *
 * A BW_AOD record sets the entry of its element whole, whether that is dynamic or not. A new element takes the free
 * entry of the lowest index; several take theirs in the order in which the value first names them. A BW_XYZ record sets
 * x, y and z of the entry of its element and no other field; the value's sample_time is not kept. Of records of one
 * element the last counts. No other entry changes.
 *
 * The caller owns the table. One that is all 0 is empty; one of 0 entries is good, and has room for nothing. A table is
 * well formed if it has BW_OBJECTS_MAX entries at most, each used entry holds what a BW_AOD record can hold, and no two
 * used entries have one element. The fields of a free entry beside its element may hold anything, and keep it until the
 * entry is used.
 *
 * Success counts the records of the value.
 *
 * Refusals, in this order: TABLE; KIND for every kind but BW_AOD and BW_XYZ; those of bw_pmd_read after its KIND, but
 * for NOROOM, which does not arise; then for BW_XYZ, record by record, UNKNOWN if no used entry has the element and
 * STATIC if the entry's dynamic is 0; for BW_AOD FULL, exactly if the value names more new elements, each counted once,
 * than entries are free.
 */
bw_answer bw_objects_apply(uint32_t kind, const uint8_t *value, size_t value_len, bw_object *table, size_t table_len);

/*
 * Clears the entry of an element: all its fields become 0, so that it is free, and no other entry changes.
 *
 * Success counts the entry: 1.
 *
 * Refusals, in this order: TABLE, as for bw_objects_apply; UNKNOWN if no used entry has the element, so always for 0
 * and for a number that no element can be.
 */
bw_answer bw_objects_clear(uint32_t element, bw_object *table, size_t table_len);

#ifdef __cplusplus
}
#endif

#endif
