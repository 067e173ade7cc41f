/*
 * How much stack each export uses: each is run on a painted stack, on inputs that take its longest ways, and the paint
 * that is gone is counted. Prints a line for each; the status is 1 if one is above what the header says.
 */
#include <stdio.h>
#include <stdlib.h>
#include <string.h>
#include <ucontext.h>

#include "ballastwren.h"
#include "lent.h"

#define STACK (1 << 20)
#define PAINT 0xD7

static uint8_t stack[STACK];
static ucontext_t outside, inside;
static void (*work)(void);

static uint8_t pack[BW_PACK_MAX], sheet[BW_SHEET_MAX], out[BW_PACK_MAX], label[BW_LABEL_SIZE];
static size_t pack_len, sheet_len;
static uint32_t rows[BW_ROWS_MAX], numbers[BW_PMD_NUMBERS_MAX];
static bw_object table[BW_OBJECTS_MAX];
static uint32_t kind;
static size_t number_count, value_len;

static void nothing(void) { }
static void check(void) { bw_check(pack, pack_len); }
static void read_rows(void) { bw_read(pack, pack_len, rows, BW_ROWS_MAX); }
static void scrub(void) { bw_scrub(sheet, sheet_len, pack, pack_len, out, sizeof out); }
static void sheet_check(void) { bw_sheet_check(sheet, sheet_len); }
static void lookup(void) { bw_lookup(pack, pack_len, pack, pack_len, label, sizeof label); }
static void pmd_read(void) { bw_pmd_read(kind, out, value_len, numbers, BW_PMD_NUMBERS_MAX); }
static void pmd_write(void) { value_len = bw_pmd_write(kind, numbers, number_count, out, sizeof out).value; }
static void gain(void) { bw_gain(63); }
static void objects_apply(void) { bw_objects_apply(kind, out, value_len, table, BW_OBJECTS_MAX); }
static void objects_clear(void) { bw_objects_clear(BW_OBJECTS_MAX, table, BW_OBJECTS_MAX); }
static void version(void) { bw_version(); }

static void on_painted_stack(void) { work(); }

/* Bytes that lost their paint while `call` ran. */
static size_t used(void (*call)(void))
{
    memset(stack, PAINT, sizeof stack);
    work = call;
    getcontext(&inside);
    inside.uc_stack.ss_sp = stack;
    inside.uc_stack.ss_size = sizeof stack;
    inside.uc_link = &outside;
    makecontext(&inside, on_painted_stack, 0);
    swapcontext(&outside, &inside);
    size_t left = 0;
    while (left < sizeof stack && stack[left] == PAINT)
        left++;
    return sizeof stack - left;
}

static void load(const char *text, uint8_t *bytes, size_t *len)
{
    const uint8_t *from = bytes_of(text, len);
    memcpy(bytes, from, *len);
}

/* 32 mappings of tags 64 to 95 and 64 payloads of them, the first long enough for `size` bytes in all; then a CRC. */
static void load_full_pack(size_t size)
{
    uint8_t *at = pack;
    load("K 82 0000 01 82 0222 0001", pack, &pack_len);
    at += pack_len;
    for (uint8_t i = 0; i < 32; i++) {
        *at++ = (uint8_t)(64 + i);
        memset(at, i, 16);
        at += 16;
    }
    size_t first = size - (size_t)(at - pack) - 6 - 4 - 2 * 63;
    *at++ = 64;
    *at++ = 0x82;
    *at++ = (uint8_t)(first >> 8);
    *at++ = (uint8_t)first;
    memset(at, 0xAA, first);
    at += first;
    for (uint8_t i = 1; i < 64; i++) {
        *at++ = (uint8_t)(64 + i);
        *at++ = 0;
    }
    pack_len = (size_t)(at - pack);
    pack[17] = (uint8_t)((pack_len - 19) >> 8);
    pack[18] = (uint8_t)(pack_len - 19);
    /* A scrub under the sheet that keeps all writes the same pack and its CRC. */
    bw_answer sent = bw_scrub(bw_keep_all, sizeof bw_keep_all, pack, pack_len, out, sizeof out);
    if (sent.number != BW_DONE) {
        printf("FAILED  the full pack is refused: %s\n", bw_refusal_name(sent.number));
        exit(1);
    }
    pack_len = sent.value;
    memcpy(pack, out, pack_len);
}

static size_t most(void (*call)(void))
{
    size_t before = used(nothing), now = used(call);
    return now - before;
}

static size_t greatest(size_t a, size_t b) { return a > b ? a : b; }

static int failed, passed;

static void tell(const char *function, size_t bytes)
{
    printf("%s  %-16s uses %zu bytes of stack\n", bytes <= BW_STACK ? "ok    " : "FAILED", function, bytes);
    if (bytes <= BW_STACK)
        passed++;
    else
        failed++;
}

/* The most over packs of several sizes: the CRC takes other ways for short and long ones. */
static size_t most_of_packs(void (*call)(void))
{
    static const size_t sizes[] = {1000, 3000, BW_PACK_MAX - 6};
    load("K 03 0501AA", pack, &pack_len);
    size_t bytes = most(call);
    for (size_t i = 0; i < sizeof sizes / sizeof sizes[0]; i++) {
        load_full_pack(sizes[i]);
        bytes = greatest(bytes, most(call));
    }
    return bytes;
}

/* A label that both packs are searched for to the end, and the one that the full pack maps last. */
static void lookups(void)
{
    memset(label, 0xFF, sizeof label);
    size_t absent = most_of_packs(lookup);
    memset(label, 31, sizeof label);
    tell("bw_lookup", greatest(absent, most_of_packs(lookup)));
}

/* A long list of each kind, written and read. */
static void pmd(void)
{
    size_t reading = 0, writing = 0;
    static const uint32_t records[][14] = {{1, 0, 5568, 0}, {1, 5568, 0}, {1, 0, 0, 1, 1, 1, 0, 0, 0, 0, 0},
                                           {1, 1, 1, 1},    {1, 65, 0},   {1, 65, 0},
                                           {1, 1, 3, 5, 9, 0, 3, 1, 3, 23, 5, 9, 0, 3}};
    static const size_t sizes[] = {4, 3, 11, 4, 3, 3, 14};
    for (kind = BW_APD; kind <= BW_ETD; kind++) {
        size_t size = sizes[kind - 1];
        number_count = kind == BW_XYZ;
        for (size_t i = 0; i < 100; i++, number_count += size)
            memcpy(numbers + number_count, records[kind - 1], 4 * size);
        writing = greatest(writing, most(pmd_write));
        reading = greatest(reading, most(pmd_read));
    }
    tell("bw_pmd_read", reading);
    tell("bw_pmd_write", writing);
}

/* A list of as many objects or positions as a value holds, of the elements from 1 to BW_OBJECTS_MAX in turn. */
static void load_objects(size_t records)
{
    size_t size = kind == BW_AOD ? 11 : 4;
    number_count = kind == BW_XYZ;
    numbers[0] = 0;
    for (size_t i = 0; i < records; i++, number_count += size) {
        static const uint32_t record[2][11] = {{1, 0, 1, 1, 1, 1, 0, 0, 0, 0, 0}, {1, 1, 1, 1}};
        memcpy(numbers + number_count, record[kind == BW_XYZ], 4 * size);
        numbers[number_count] = 1 + i % BW_OBJECTS_MAX;
    }
    pmd_write();
}

/* The longest values into an empty table and into one that they have filled; then the last entry is cleared. */
static void objects(void)
{
    size_t bytes = 0;
    kind = BW_AOD;
    load_objects(481);
    for (int turn = 0; turn < 2; turn++)
        bytes = greatest(bytes, most(objects_apply));
    kind = BW_XYZ;
    load_objects(780);
    tell("bw_objects_apply", greatest(bytes, most(objects_apply)));
    tell("bw_objects_clear", most(objects_clear));
}

int main(void)
{
    load("0002 0008 0002 0028 {00}16 {01}16 00000060 00000061", sheet, &sheet_len);
    tell("bw_check", most_of_packs(check));
    tell("bw_read", most_of_packs(read_rows));
    tell("bw_scrub", most_of_packs(scrub));
    load("FFFF 0008 FFFF 0008", sheet, &sheet_len);
    tell("bw_scrub", most_of_packs(scrub));
    longest_sheet(sheet);
    sheet_len = BW_SHEET_MAX;
    tell("bw_sheet_check", most(sheet_check));
    lookups();
    pmd();
    objects();
    tell("bw_gain", most(gain));
    tell("bw_version", most(version));
    printf("%d passed, %d failed\n", passed, failed);
    return failed == 0 ? 0 : 1;
}
