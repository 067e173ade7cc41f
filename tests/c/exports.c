/*
 * Every export of the archive on ranges of exact size: each refusal at its place with nothing changed, successes with
 * the whole buffer, buffers one short, exact and one long, and NULL with length 0.
 *
 *     exports guard     ranges between pages that may not be touched
 *     exports heap      ranges of exact size from the heap, for a memory checker
 */
#include <stdio.h>
#include <string.h>

#include "ballastwren.h"
#include "lent.h"

static int passed, failed;
static bool met[BW_FULL + 1];

/* Where ranges are put now, and where all: the last is repeated if there is but one. */
static enum lent_side side, sides[2];

static void report(bool good, const char *function, const char *name)
{
    printf("%s  %s, %s\n", good ? "ok    " : "FAILED", function, name);
    if (good)
        passed++;
    else
        failed++;
}

/* One test: a case tried with its ranges on each side of a guard. */
static void test(bool (*try)(const void *), const void *c, const char *function, const char *name)
{
    bool good = true;
    for (int i = 0; i < 2; i++) {
        side = sides[i];
        good = try(c) && good;
    }
    report(good, function, name);
}

/* The header's name, or one for the refusals of a table of objects, which it does not name. */
static const char *name_of(uint64_t number)
{
    static const char *const names[] = {"TABLE", "UNKNOWN", "STATIC", "FULL"};
    return number >= BW_TABLE && number <= BW_FULL ? names[number - BW_TABLE] : bw_refusal_name(number);
}

static bool is(bw_answer answer, uint64_t number, uint64_t value)
{
    if (answer.number <= BW_FULL)
        met[answer.number] = true;
    if (answer.number == number && answer.value == value)
        return true;
    printf("got %s %llu, expected %s %llu\n", name_of(answer.number), (unsigned long long)answer.value,
           name_of(number), (unsigned long long)value);
    return false;
}

typedef struct {
    const char *name;
    const char *pack;
    uint64_t number, value;
} pack_case;

/* A Config of one mapping, but for its tag. */
#define LABEL "060E2B340401010D0404020D00000000"
#define UTILITY "060E2B340401010D0404020200000000"

static const pack_case PACKS[] = {
    {"one byte above the cap", "{00}32769", BW_BIG, 0},
    {"a pack above the cap", "K 83 008000 05 82 7FFC {AA}32764", BW_BIG, 0},
    {"15 bytes", "{06}15", BW_SHORT, 0},
    {"no length", "K", BW_SHORT, 0},
    {"length cut off", "K 8200", BW_SHORT, 0},
    {"value past the range", "K 03 0501", BW_SHORT, 0},
    {"greatest length", "K 84FFFFFFFF 00", BW_SHORT, 0},
    {"another key", "{06}16 00", BW_KEY, 0},
    {"length 80", "K 80", BW_LENGTH, 16},
    {"length 85", "K 85 0000000000", BW_LENGTH, 16},
    {"payload's length 80", "K 02 0580", BW_LENGTH, 17},
    {"a byte after the value", "K 00 00", BW_TRAIL, 0},
    {"tag byte 80", "K 02 8000", BW_TAG, 17},
    {"tag byte 00", "K 03 0500 00", BW_TAG, 19},
    {"tag of five bytes", "K 05 8180808001", BW_TAG, 17},
    {"a mapping's tag byte 00", "K 15 0113 0000 00" LABEL, BW_TAG, 17},
    {"value cut off", "K 02 0501", BW_CUT, 17},
    {"tag cut off", "K 03 0500 81", BW_CUT, 19},
    {"cut off in a Sync", "K 08 0206 00000000 0501", BW_CUT, 23},
    {"Config second", "K 06 0500 01020000", BW_PLACE, 19},
    {"CRC in a Sync", "K 08 0206 00000000 0300", BW_PLACE, 23},
    {"CRC before a payload", "K 08 030400000000 0500", BW_PLACE, 17},
    {"65 payloads", "K 8182 {0500}65", BW_COUNT, 146},
    {"a Sync after 64 payloads", "K 8182 {0500}64 0200", BW_COUNT, 146},
    {"a Config of one byte", "K 03 010100", BW_CONFIG, 17},
    {"a mapping without its label", "K 05 0103000040", BW_CONFIG, 17},
    {"a tag mapped to Sync's label", "K 15 0113 0000 40" UTILITY, BW_MAP, 17},
    {"tag 3 mapped", "K 15 0113 0000 03" LABEL, BW_MAP, 17},
    {"a tag mapped twice", "K 26 0124 0000 40" LABEL "40" "{11}16", BW_MAP, 17},
    {"a label mapped twice", "K 26 0124 0000 40" LABEL "41" LABEL, BW_MAP, 17},
    {"a Sync of three bytes", "K 05 0203000000", BW_SYNC, 17},
    {"a Sync without a payload", "K 06 0204 00000000", BW_SYNC, 17},
    {"a CRC of three bytes", "K 05 0303000000", BW_CRC, 17},
    {"a wrong CRC", "K 06 0304 00000000", BW_CRC, 17},
    {"an empty value", "K 00", BW_DONE, 0},
    {"one payload", "K 03 0501AA", BW_DONE, 1},
    {"a longer length form than needed", "K 04 058101AA", BW_DONE, 1},
    {"64 payloads", "K 8180 {0500}64", BW_DONE, 64},
    {"a Sync of one payload", "K 08 0206 FFFF0000 0500", BW_DONE, 2},
    {"a labelled payload", "K 17 0113 FFFE 40" LABEL "4000", BW_DONE, 1},
    {"as long as a pack may be", "K 82 7FED 05 82 7FE9 {AA}32745", BW_DONE, 1},
};

static lent pack_of(const char *text)
{
    size_t len;
    const uint8_t *bytes = bytes_of(text, &len);
    return lent_to_read(bytes, len, side);
}

static bool try_check(const void *given)
{
    const pack_case *c = given;
    lent pack = pack_of(c->pack);
    bool good = is(bw_check(pack.bytes, pack.len), c->number, c->value);
    lent_back(&pack);
    return good;
}

/* Into a run of `room` numbers; those after the numbers that were written are as they were. */
static bool read_into(const pack_case *c, size_t room, uint64_t number, uint64_t value)
{
    lent pack = pack_of(c->pack), rows = lent_to_write(4 * room, side);
    bool good = is(bw_read(pack.bytes, pack.len, (uint32_t *)rows.bytes, room), number, value);
    good = good && lent_rest_is(&rows, number == BW_DONE ? 4 * value : 0, LENT_FILLER) && lent_margin_is_whole(&rows);
    lent_back(&pack);
    lent_back(&rows);
    return good;
}

static bool try_read(const void *given)
{
    const pack_case *c = given;
    if (c->number != BW_DONE)
        return read_into(c, BW_ROWS_MAX, c->number, c->value) && read_into(c, 0, c->number, c->value);
    size_t size = BW_ROW * (c->value + 1);
    return read_into(c, size - 1, BW_NOROOM, 0) && read_into(c, size, BW_DONE, size) &&
           read_into(c, size + 1, BW_DONE, size);
}

/* A refused scrub, under the sheet that keeps all. */
static bool try_refused_scrub(const void *given)
{
    const pack_case *c = given;
    lent pack = pack_of(c->pack), out = lent_to_write(64, side);
    bw_answer got = bw_scrub(bw_keep_all, sizeof bw_keep_all, pack.bytes, pack.len, out.bytes, out.len);
    bool good = is(got, c->number, c->value);
    good = good && lent_rest_is(&out, 0, LENT_FILLER) && lent_margin_is_whole(&out);
    lent_back(&pack);
    lent_back(&out);
    return good;
}

static void packs(void)
{
    for (size_t i = 0; i < sizeof PACKS / sizeof PACKS[0]; i++) {
        const pack_case *c = &PACKS[i];
        test(try_check, c, "bw_check", c->name);
        test(try_read, c, "bw_read", c->name);
        if (c->number != BW_DONE)
            test(try_refused_scrub, c, "bw_scrub", c->name);
    }
}

/* The rows of a pack with everything in it. */
static bool try_rows(const void *text)
{
    static const uint32_t expected[] = {
        (uint32_t)-2, 1, 3, 0, 0, 0, 0, 0,        0, 38, 1, 22, 40, 3, (uint32_t)-2, 0,
        1, 43, 2, 1, 45, 7, (uint32_t)-1, 65535,  2, 49, 0, 8, 51, 1, (uint32_t)-3, 0,
    };
    lent pack = pack_of(text), rows = lent_to_write(sizeof expected, side);
    bool good = is(bw_read(pack.bytes, pack.len, (uint32_t *)rows.bytes, rows.len / 4), BW_DONE, rows.len / 4);
    good = good && memcmp(rows.bytes, expected, sizeof expected) == 0;
    lent_back(&pack);
    lent_back(&rows);
    return good;
}

typedef struct {
    const char *name, *pack;
    int32_t totals[6]; /* of its payloads in order */
} total_case;

/* Payloads outside a Sync, inside it and after it, both offsets at the ends of their range; then several Syncs. */
static const total_case TOTALS[] = {
    {"both offsets -32,768", "K 10 0102 8000 0500 0206 80000000 0500 0500", {-32768, -65536, -32768}},
    {"pack offset -32,768, Sync offset 32,767", "K 10 0102 8000 0500 0206 7FFF0000 0500 0500", {-32768, -1, -32768}},
    {"pack offset 32,767, Sync offset -32,768", "K 10 0102 7FFF 0500 0206 80000000 0500 0500", {32767, -1, 32767}},
    {"both offsets 32,767", "K 10 0102 7FFF 0500 0206 7FFF0000 0500 0500", {32767, 65534, 32767}},
    {"no pack offset", "K 0C 0500 0206 80000000 0500 0500", {0, -32768, 0}},
    {"three Syncs", "K 22 0102 FFD0 0206 01E00000 0500 0500 0208 FC400000 0500 0600 0206 00000000 0500 0500",
     {432, -48, -1008, -1008, -48, -48}},
};

/* The total offsets of the payloads, as the header says to get them back. */
static bool try_totals(const void *given)
{
    const total_case *c = given;
    uint32_t rows[BW_ROWS_MAX];
    size_t next = 0;
    lent pack = pack_of(c->pack);
    bw_answer read = bw_read(pack.bytes, pack.len, rows, BW_ROWS_MAX);
    bool good = read.number == BW_DONE;
    for (const uint32_t *row = rows + BW_ROW; good && row < rows + read.value; row += BW_ROW)
        if (row[0] != BW_SYNC_ITEM)
            good = (int32_t)row[6] == c->totals[next++] && row[7] == 0;
    lent_back(&pack);
    return good && next >= 3;
}

static void totals(void)
{
    for (size_t i = 0; i < sizeof TOTALS / sizeof TOTALS[0]; i++)
        test(try_totals, &TOTALS[i], "bw_read, total offsets", TOTALS[i].name);
}

typedef struct {
    const char *name, *sheet, *pack;
    uint64_t number;
    const char *written; /* on success: the whole pack but the CRC's four bytes */
} scrub_case;

#define ALL "FFFF0008FFFF0008"

static const scrub_case SCRUBS[] = {
    {"keep all", ALL, "K 03 0501AA", BW_DONE, "K 09 0501AA 0304"},
    {"keep all of a Sync", ALL, "K 0C 020A 00010002 0501AA 0601BB", BW_DONE, "K 12 020A 00010002 0501AA 0601BB 0304"},
    {"keep none", "0000 0008 0000 0008", "K 03 0501AA", BW_DONE, "K 06 0304"},
    {"a sheet of 0 bytes keeps none", "", "K 03 0501AA", BW_DONE, "K 06 0304"},
    {"a sheet of 0 bytes drops Syncs and labels", "", "K 24 0113 0000 50" LABEL "5001AA 020A 00010002 0501AA 5001BB",
     BW_DONE, "K 06 0304"},
    {"a sheet of 0 bytes keeps the pack offset", "", "K 04 0102 8000", BW_DONE, "K 0A 0102 8000 0304"},
    {"keep a number", "0000 0008 0001 0008 00000005", "K 06 0501AA 0601BB", BW_DONE, "K 09 0501AA 0304"},
    {"keep a label", "0001 0008 0000 0018" LABEL, "K 1A 0113 0000 50" LABEL "5001AA 0500", BW_DONE,
     "K 1E 0113 0000 40" LABEL "4001AA 0304"},
    {"drop a number that is mapped", "0000 0008 0001 0008 00000050", "K 18 0113 0000 50" LABEL "5001AA", BW_DONE,
     "K 06 0304"},
    {"scrub a Sync", "0000 0008 0001 0008 00000005", "K 0C 020A 00010002 0501AA 0601BB", BW_DONE,
     "K 0F 0207 00010002 0501AA 0304"},
    {"drop a Sync", "0000 0008 0001 0008 00000007", "K 0C 020A 00010002 0501AA 0601BB", BW_DONE, "K 06 0304"},
    {"keep the pack offset", "0000 0008 0000 0008", "K 04 0102 8000", BW_DONE, "K 0A 0102 8000 0304"},
    {"a sheet of 7 bytes", "0000 0008 0000 00", "K 00", BW_SHEET, NULL},
    {"a sheet with a byte too many", "0000 0008 0000 0008 00", "K 00", BW_SHEET, NULL},
    {"keep all in the labels' count alone", "FFFF 0008 0000 0008", "K 00", BW_SHEET, NULL},
    {"keep all in the numbers' count alone", "0000 0008 FFFF 0008", "K 00", BW_SHEET, NULL},
    {"65,534 in a count", "FFFF 0008 FFFE 0008", "K 00", BW_SHEET, NULL},
    {"keep all with labels from 9", "FFFF 0009 FFFF 0008", "K 00", BW_SHEET, NULL},
    {"keep all with numbers after 65,535 labels", "FFFF 0008 FFFF FFF8", "K 00", BW_SHEET, NULL},
    {"keep all of 7 bytes", "FFFF 0008 FFFF 00", "K 00", BW_SHEET, NULL},
    {"keep all of 9 bytes", ALL "00", "K 00", BW_SHEET, NULL},
    {"keep all with a number", ALL "00000005", "K 03 0501AA", BW_SHEET, NULL},
    {"keep all with many bytes after it", ALL "{05}69000", "K 00", BW_SHEET, NULL},
    {"a sheet of 33 numbers", "0000 0008 0021 0008 {00000005}33", "K 00", BW_SHEET, NULL},
    {"a sheet with a repeat", "0000 0008 0002 0008 {00000005}2", "K 00", BW_SHEET, NULL},
    {"a sheet with number 3", "0000 0008 0001 0008 00000003", "K 00", BW_SHEET, NULL},
    {"a sheet with Sync's label", "0001 0008 0000 0018" UTILITY, "K 00", BW_SHEET, NULL},
    {"a bad sheet before a bad pack", "00", "00", BW_SHEET, NULL},
    {"a full pack, whose CRC would be too much", ALL, "K 82 7FED 05 82 7FE9 {AA}32745", BW_NOROOM, NULL},
};

static bool scrub_into(const scrub_case *c, size_t room, uint64_t number, size_t size)
{
    lent sheet = pack_of(c->sheet), pack = pack_of(c->pack), out = lent_to_write(room, side);
    bool good = is(bw_scrub(sheet.bytes, sheet.len, pack.bytes, pack.len, out.bytes, room), number, size);
    if (number == BW_DONE) {
        size_t start_len;
        const uint8_t *start = bytes_of(c->written, &start_len);
        good = good && memcmp(out.bytes, start, start_len) == 0 && lent_rest_is(&out, size, 0) &&
               bw_check(out.bytes, size).number == BW_DONE;
    } else {
        good = good && lent_rest_is(&out, 0, LENT_FILLER);
    }
    good = good && lent_margin_is_whole(&out);
    lent_back(&sheet);
    lent_back(&pack);
    lent_back(&out);
    return good;
}

static bool try_scrub(const void *given)
{
    const scrub_case *c = given;
    if (c->number != BW_DONE)
        return scrub_into(c, 40000, c->number, 0) && scrub_into(c, 0, c->number, 0);
    size_t size;
    bytes_of(c->written, &size);
    size += 4;
    return scrub_into(c, size - 1, BW_NOROOM, 0) && scrub_into(c, size, BW_DONE, size) &&
           scrub_into(c, size + 1, BW_DONE, size) && scrub_into(c, size + 1000, BW_DONE, size);
}

static void scrubs(void)
{
    for (size_t i = 0; i < sizeof SCRUBS / sizeof SCRUBS[0]; i++)
        test(try_scrub, &SCRUBS[i], "bw_scrub", SCRUBS[i].name);
}

typedef struct {
    const char *name, *sheet;
    uint64_t number, value;
} sheet_case;

/* What a scrub refuses as SHEET is tried from SCRUBS. */
static const sheet_case SHEETS[] = {
    {"0 bytes", "", BW_DONE, 0},
    {"a header alone", "0000 0008 0000 0008", BW_DONE, 0},
    {"keep all", ALL, BW_DONE, 0},
    {"a label", "0001 0008 0000 0018" LABEL, BW_DONE, 1},
    {"a label and two numbers", "0001 0008 0002 0018" LABEL "00000004 00000005", BW_DONE, 3},
    {"the greatest number", "0000 0008 0001 0008 0FFFFFFF", BW_DONE, 1},
    {"a number that is too great", "0000 0008 0001 0008 10000000", BW_SHEET, 0},
    {"a label that is missing", "0002 0008 0000 0028 {11}16", BW_SHEET, 0},
    {"33 labels", "0021 0008 0000 0218 {11}528", BW_SHEET, 0},
    {"65,535 numbers and many bytes", "0000 0008 FFFF 0008 {05}69000", BW_SHEET, 0},
};

static bool try_sheet_check(const void *given)
{
    const sheet_case *c = given;
    lent sheet = pack_of(c->sheet);
    bool good = is(bw_sheet_check(sheet.bytes, sheet.len), c->number, c->value);
    lent_back(&sheet);
    return good;
}

/* The longest sheet, and the same with one byte less, one more, and its last number twice. */
static bool try_longest_sheet(const void *unused)
{
    uint8_t bytes[BW_SHEET_MAX + 1] = {0};
    (void)unused;
    longest_sheet(bytes);
    lent sheet = lent_to_read(bytes, BW_SHEET_MAX, side), longer = lent_to_read(bytes, BW_SHEET_MAX + 1, side);
    bool good = is(bw_sheet_check(sheet.bytes, sheet.len), BW_DONE, BW_SHEET_LABELS_MAX + BW_SHEET_NUMBERS_MAX) &&
                is(bw_sheet_check(sheet.bytes, sheet.len - 1), BW_SHEET, 0) &&
                is(bw_sheet_check(longer.bytes, longer.len), BW_SHEET, 0);
    bytes[BW_SHEET_MAX - 1]--;
    lent twice = lent_to_read(bytes, BW_SHEET_MAX, side);
    good = good && is(bw_sheet_check(twice.bytes, twice.len), BW_SHEET, 0);
    lent_back(&sheet);
    lent_back(&longer);
    lent_back(&twice);
    return good;
}

static void sheets(void)
{
    for (size_t i = 0; i < sizeof SHEETS / sizeof SHEETS[0]; i++)
        test(try_sheet_check, &SHEETS[i], "bw_sheet_check", SHEETS[i].name);
    for (size_t i = 0; i < sizeof SCRUBS / sizeof SCRUBS[0]; i++) {
        sheet_case bad = {SCRUBS[i].name, SCRUBS[i].sheet, BW_SHEET, 0};
        if (SCRUBS[i].number == BW_SHEET)
            test(try_sheet_check, &bad, "bw_sheet_check", bad.name);
    }
    test(try_longest_sheet, NULL, "bw_sheet_check", "the longest sheet");
}

/* Answer, pack, start and total offset of a look-up. */
static bool is_found(bw_found found, bw_found expected)
{
    bw_answer answer = {found.number, found.value};
    if (!is(answer, expected.number, expected.value))
        return false;
    if (found.from == expected.from && found.start == expected.start && found.total == expected.total)
        return true;
    printf("got pack %llu, start %llu, total %lld, expected pack %llu, start %llu, total %lld\n",
           (unsigned long long)found.from, (unsigned long long)found.start, (long long)found.total,
           (unsigned long long)expected.from, (unsigned long long)expected.start, (long long)expected.total);
    return false;
}

/* One that is refused: start and total offset are 0. */
static bool is_not_found(bw_found found, uint64_t number, uint64_t place, uint64_t from)
{
    return is_found(found, (bw_found){number, place, from, 0, 0});
}

typedef struct {
    const char *name, *main, *backup, *label;
    uint64_t number, from, start;
    const char *value; /* on success: its bytes */
    int64_t total;
} lookup_case;

#define OTHER "060E2B340401010D0404020E00000000"
#define NOTHING "K 00"
/* The label's value is AB, from byte 40 on, and its total offset 7. */
#define CARRIES "K 18 0113 0007 40" LABEL "4001AB"
#define UNUSED "K 18 0113 0000 40" LABEL "0501CD"

static const lookup_case LOOKUPS[] = {
    {"in main", CARRIES, NOTHING, LABEL, BW_DONE, BW_MAIN, 40, "AB", 7},
    {"in backup", NOTHING, CARRIES, LABEL, BW_DONE, BW_BACKUP, 40, "AB", 7},
    {"main before backup", "K 17 0113 0000 40" LABEL "4000", CARRIES, LABEL, BW_DONE, BW_MAIN, 40, "", 0},
    {"a value of 0 bytes in backup", NOTHING, "K 17 0113 0000 40" LABEL "4000", LABEL, BW_DONE, BW_BACKUP, 40, "", 0},
    {"mapped and not used in main", UNUSED, CARRIES, LABEL, BW_DONE, BW_BACKUP, 40, "AB", 7},
    {"mapped and not used", UNUSED, UNUSED, LABEL, BW_ABSENT, BW_NEITHER, 0, NULL, 0},
    {"the first of two", "K 1B 0113 0000 40" LABEL "4001AB 4001CD", NOTHING, LABEL, BW_DONE, BW_MAIN, 40, "AB", 0},
    {"in a Sync", NOTHING, "K 20 0113 0000 40" LABEL "0209 00010002 0500 4001AB", LABEL, BW_DONE, BW_BACKUP, 48, "AB",
     1},
    {"in a Sync before outside", "K 21 0113 0000 40" LABEL "0207 00010002 4001AB 4001CD", CARRIES, LABEL, BW_DONE,
     BW_MAIN, 46, "AB", 1},
    {"outside a Sync before inside", "K 21 0113 0000 40" LABEL "4001AB 0207 00010002 4001CD", CARRIES, LABEL, BW_DONE,
     BW_MAIN, 40, "AB", 0},
    {"both offsets -32,768", "K 1E 0113 8000 40" LABEL "0207 80000000 4001AB", CARRIES, LABEL, BW_DONE, BW_MAIN, 46,
     "AB", -65536},
    {"both offsets 32,767", UNUSED, "K 1E 0113 7FFF 40" LABEL "0207 7FFF0000 4001AB", LABEL, BW_DONE, BW_BACKUP, 46,
     "AB", 65534},
    {"pack offset -32,768, Sync offset 32,767", "K 1E 0113 8000 40" LABEL "0207 7FFF0000 4001AB", CARRIES, LABEL,
     BW_DONE, BW_MAIN, 46, "AB", -1},
    {"pack offset 32,767, Sync offset -32,768", NOTHING, "K 1E 0113 7FFF 40" LABEL "0207 80000000 4001AB", LABEL,
     BW_DONE, BW_BACKUP, 46, "AB", -1},
    {"after a Sync", "K 20 0113 8000 40" LABEL "0206 7FFF0000 0500 4001AB", CARRIES, LABEL, BW_DONE, BW_MAIN, 48, "AB",
     -32768},
    {"in the second of two Syncs", "K 26 0113 FFD0 40" LABEL "0206 01E00000 0500 0207 FC400000 4001AB", CARRIES, LABEL,
     BW_DONE, BW_MAIN, 54, "AB", -1008},
    {"under another tag than in main", "K 18 0113 0000 40" OTHER "4001EF", "K 1A 0114 0000 8200" LABEL "820001AB",
     LABEL, BW_DONE, BW_BACKUP, 42, "AB", 0},
    {"in a pack as long as may be", "K 82 7FED 0113 0000 40" LABEL "40 82 7FD4 {AA}32724", NOTHING, LABEL, BW_DONE,
     BW_MAIN, 44, "{AA}32724", 0},
    {"another label", CARRIES, CARRIES, OTHER, BW_ABSENT, BW_NEITHER, 0, NULL, 0},
    {"another last byte", CARRIES, CARRIES, "060E2B340401010D0404020D00000001", BW_ABSENT, BW_NEITHER, 0, NULL, 0},
    {"a payload of the same tag without a label", "K 03 4001AB", NOTHING, LABEL, BW_ABSENT, BW_NEITHER, 0, NULL, 0},
    {"Sync's label", "K 08 0206 00000000 0500", CARRIES, UTILITY, BW_ABSENT, BW_NEITHER, 0, NULL, 0},
    {"a label of 0 bytes", CARRIES, CARRIES, "", BW_ABSENT, BW_NEITHER, 0, NULL, 0},
    {"a label of 15 bytes", CARRIES, CARRIES, "060E2B340401010D0404020D000000", BW_ABSENT, BW_NEITHER, 0, NULL, 0},
    {"a label of 17 bytes", CARRIES, CARRIES, LABEL "00", BW_ABSENT, BW_NEITHER, 0, NULL, 0},
    {"a label of 32 bytes", CARRIES, CARRIES, LABEL LABEL, BW_ABSENT, BW_NEITHER, 0, NULL, 0},
    {"a label of 65,552 bytes", CARRIES, CARRIES, LABEL "{00}65536", BW_ABSENT, BW_NEITHER, 0, NULL, 0},
};

static bool try_lookup(const void *given)
{
    const lookup_case *c = given;
    lent main = pack_of(c->main), backup = pack_of(c->backup), label = pack_of(c->label);
    bw_found got = bw_lookup(main.bytes, main.len, backup.bytes, backup.len, label.bytes, label.len);
    const uint8_t *there = bw_found_value(got, main.bytes, backup.bytes);
    bool good;
    if (c->number == BW_DONE) {
        size_t len;
        const uint8_t *value = bytes_of(c->value, &len);
        const lent *pack = c->from == BW_MAIN ? &main : &backup;
        good = is_found(got, (bw_found){BW_DONE, len, c->from, c->start, c->total}) &&
               there == pack->bytes + c->start && memcmp(there, value, len) == 0;
    } else {
        good = is_not_found(got, c->number, 0, c->from) && there == NULL;
    }
    lent_back(&main);
    lent_back(&backup);
    lent_back(&label);
    return good;
}

static bool refused_in(const pack_case *c, const lent *main, const lent *backup, const lent *label, uint64_t from)
{
    bw_found got = bw_lookup(main->bytes, main->len, backup->bytes, backup->len, label->bytes, label->len);
    return is_not_found(got, c->number, c->value, from) && bw_found_value(got, main->bytes, backup->bytes) == NULL;
}

/* A refused pack as main, as backup of one that has the label, as both, and before a backup and a label of 0 bytes. */
static bool try_refused_lookup(const void *given)
{
    static const lent nothing;
    const pack_case *c = given;
    lent bad = pack_of(c->pack), carries = pack_of(CARRIES), label = pack_of(LABEL);
    bool good = refused_in(c, &bad, &carries, &label, BW_MAIN) && refused_in(c, &carries, &bad, &label, BW_BACKUP) &&
                refused_in(c, &bad, &bad, &label, BW_MAIN) && refused_in(c, &bad, &nothing, &nothing, BW_MAIN);
    lent_back(&bad);
    lent_back(&carries);
    lent_back(&label);
    return good;
}

/* Main, backup and label in one range: the label is the one that stands in the Config, or the key. */
static bool try_one_range(const void *unused)
{
    (void)unused;
    lent pack = pack_of(CARRIES);
    const uint8_t *label = pack.bytes + 22;
    bw_found got = bw_lookup(pack.bytes, pack.len, pack.bytes, pack.len, label, BW_LABEL_SIZE);
    bool good = is_found(got, (bw_found){BW_DONE, 1, BW_MAIN, 40, 7}) &&
                bw_found_value(got, pack.bytes, pack.bytes) == pack.bytes + 40;
    got = bw_lookup(pack.bytes, pack.len, pack.bytes, pack.len, pack.bytes, BW_LABEL_SIZE);
    good = good && is_not_found(got, BW_ABSENT, 0, BW_NEITHER);
    lent_back(&pack);
    return good;
}

static void lookups(void)
{
    for (size_t i = 0; i < sizeof LOOKUPS / sizeof LOOKUPS[0]; i++)
        test(try_lookup, &LOOKUPS[i], "bw_lookup", LOOKUPS[i].name);
    for (size_t i = 0; i < sizeof PACKS / sizeof PACKS[0]; i++)
        if (PACKS[i].number != BW_DONE)
            test(try_refused_lookup, &PACKS[i], "bw_lookup", PACKS[i].name);
    test(try_one_range, NULL, "bw_lookup", "main, backup and label in one range");
}

typedef struct {
    const char *name;
    uint32_t kind;
    const char *value;
    uint64_t number, place;
    uint32_t numbers[12];
    size_t count;
} value_case;

static const value_case VALUES[] = {
    {"a presentation", BW_APD, "0080AE000000", BW_DONE, 0, {1, 0, 5568, 0}, 4},
    {"a presentation's name", BW_APN, "0095C0 4100", BW_DONE, 0, {1, 5568, 65, 0}, 4},
    {"a presentation's name that does not close", BW_APN, "0095C0 41", BW_BITS, 32, {0}, 0},
    {"a langcod of three times 26", BW_APN, "00EB5A 00", BW_DONE, 0, {1, 27482, 0}, 3},
    {"27 in the first group of a langcod", BW_APN, "00EF5A 00", BW_FIELD, 9, {0}, 0},
    {"27 in the second group of a langcod", BW_APN, "00EB7A 00", BW_FIELD, 9, {0}, 0},
    {"27 in the third group of a langcod", BW_APN, "00EB5B 00", BW_FIELD, 9, {0}, 0},
    {"27 in the langcod of a presentation", BW_APD, "0080BB000000", BW_FIELD, 14, {0}, 0},
    {"an object", BW_AOD, "001000200802000000", BW_DONE, 0, {1, 0, 0, 1, 1, 1, 0, 0, 0, 0, 0}, 11},
    {"positions", BW_XYZ, "0400401803FF", BW_DONE, 0, {1, 1, 1, 512, 1023}, 5},
    {"an element's name", BW_AEN, "00 14 10 00", BW_DONE, 0, {1, 65, 0}, 3},
    {"a substream's name", BW_ESN, "141000", BW_DONE, 0, {1, 65, 0}, 3},
    {"two substreams", BW_ESN, "14100100", BW_DONE, 0, {1, 65, 0, 1, 0}, 5},
    {"a turnaround for nothing", BW_ETD, "0700", BW_DONE, 0, {7, 0, 0}, 3},
    {"a turnaround for ED2", BW_ETD, "01 98 14 24 00 06", BW_DONE, 0, {1, 1, 3, 5, 9, 0, 3, 0}, 8},
    {"a turnaround for Dolby E", BW_ETD, "01 56 FF F0 00 07 F8", BW_DONE, 0, {1, 0, 1, 5, 23, 511, 0, 0, 255}, 9},
    {"a turnaround for both, without pairs", BW_ETD, "FF 88 03 FE A0 00 00 00", BW_DONE, 0,
     {255, 1, 1, 0, 255, 1, 5, 0, 0, 0}, 10},
    {"two turnarounds", BW_ETD, "07 00 80", BW_DONE, 0, {7, 0, 0, 2, 0, 0}, 6},
    {"a turnaround 0", BW_ETD, "0000", BW_FIELD, 0, {0}, 0},
    {"a second turnaround 0", BW_ETD, "07 00 00", BW_FIELD, 10, {0}, 0},
    {"leftover bits of a turnaround", BW_ETD, "07 01", BW_PAD, 10, {0}, 0},
    {"frame_rate 0", BW_ETD, "01 80 00 00 00", BW_FIELD, 9, {0}, 0},
    {"frame_rate 6", BW_ETD, "01 B0 00 00", BW_FIELD, 9, {0}, 0},
    {"frame_rate 15 of Dolby E", BW_ETD, "01 7C 00 00 00", BW_FIELD, 10, {0}, 0},
    {"pgmconfig 24", BW_ETD, "01 47 00 00 00", BW_FIELD, 14, {0}, 0},
    {"a turnaround without its second flag", BW_ETD, "01 88 04 00 02 00 00 00", BW_BITS, 64, {0}, 0},
    {"a closing pair without its parameters", BW_ETD, "01 88 00", BW_BITS, 22, {0}, 0},
    {"pairs that do not close", BW_ETD, "01 88 04 00", BW_BITS, 30, {0}, 0},
    {"leftover bits", BW_ESN, "141001", BW_PAD, 20, {0}, 0},
    {"an empty value", BW_ESN, "", BW_BITS, 0, {0}, 0},
    {"a sample time alone", BW_XYZ, "FF", BW_BITS, 6, {0}, 0},
    {"an element 0", BW_AEN, "0004 1000", BW_FIELD, 0, {0}, 0},
    {"an x of 0", BW_XYZ, "0000400803FF", BW_FIELD, 18, {0}, 0},
    {"kind 0", 0, "141000", BW_KIND, 0, {0}, 0},
    {"kind 8", 8, "141000", BW_KIND, 0, {0}, 0},
    {"kind 8 before a value above the cap", 8, "{11}4097", BW_KIND, 0, {0}, 0},
    {"the greatest kind", UINT32_MAX, "141000", BW_KIND, 0, {0}, 0},
    {"a value above the cap", BW_ESN, "{11}4097", BW_BIG, 0, {0}, 0},
    {"a value as long as it may be", BW_ESN, "{11}4096", BW_BITS, 32764, {0}, 0},
};

static bool value_into(const value_case *c, size_t room, uint64_t number, uint64_t place)
{
    lent value = pack_of(c->value), numbers = lent_to_write(4 * room, side);
    bw_answer got = bw_pmd_read(c->kind, value.bytes, value.len, (uint32_t *)numbers.bytes, room);
    bool good = is(got, number, number == BW_DONE ? c->count : place);
    size_t written = number == BW_DONE ? 4 * c->count : 0;
    good = good && (written == 0 || memcmp(numbers.bytes, c->numbers, written) == 0) &&
           lent_rest_is(&numbers, written, LENT_FILLER) && lent_margin_is_whole(&numbers);
    lent_back(&value);
    lent_back(&numbers);
    return good;
}

static bool try_pmd_read(const void *given)
{
    const value_case *c = given;
    if (c->number != BW_DONE)
        return value_into(c, 20, c->number, c->place) && value_into(c, 0, c->number, c->place);
    return value_into(c, c->count - 1, BW_NOROOM, 0) && value_into(c, c->count, BW_DONE, 0) &&
           value_into(c, c->count + 1, BW_DONE, 0);
}

static bool numbers_into(const value_case *c, const uint8_t *bytes, size_t len, size_t room, uint64_t number)
{
    lent numbers = lent_to_read(c->numbers, 4 * c->count, side), out = lent_to_write(room, side);
    bw_answer got = bw_pmd_write(c->kind, (const uint32_t *)numbers.bytes, c->count, out.bytes, room);
    size_t written = number == BW_DONE ? len : 0;
    bool good = is(got, number, written) && (written == 0 || memcmp(out.bytes, bytes, written) == 0) &&
                lent_rest_is(&out, written, LENT_FILLER) && lent_margin_is_whole(&out);
    lent_back(&numbers);
    lent_back(&out);
    return good;
}

static bool try_pmd_write(const void *given)
{
    const value_case *c = given;
    size_t len;
    const uint8_t *bytes = bytes_of(c->value, &len);
    return numbers_into(c, bytes, len, len - 1, BW_NOROOM) && numbers_into(c, bytes, len, len, BW_DONE) &&
           numbers_into(c, bytes, len, len + 1, BW_DONE);
}

static void values(void)
{
    for (size_t i = 0; i < sizeof VALUES / sizeof VALUES[0]; i++) {
        const value_case *c = &VALUES[i];
        test(try_pmd_read, c, "bw_pmd_read", c->name);
        if (c->number == BW_DONE)
            test(try_pmd_write, c, "bw_pmd_write", c->name);
    }
}

typedef struct {
    const char *name;
    uint32_t kind;
    uint32_t numbers[12];
    size_t count;
    uint64_t number, place;
} list_case;

static const list_case LISTS[] = {
    {"an empty list", BW_ESN, {0}, 0, BW_BITS, 0},
    {"a name that does not close", BW_ESN, {1, 65}, 2, BW_BITS, 2},
    {"a second record cut off", BW_XYZ, {1, 1, 1, 512, 1023, 2}, 6, BW_BITS, 6},
    {"a substream 16", BW_ESN, {16, 0}, 2, BW_FIELD, 0},
    {"a name's byte 256", BW_ESN, {1, 256, 0}, 3, BW_FIELD, 1},
    {"the greatest number", BW_ESN, {1, UINT32_MAX, 0}, 3, BW_FIELD, 1},
    {"class 7", BW_AOD, {1, 7, 0, 1, 1, 1, 0, 0, 0, 0, 0}, 11, BW_FIELD, 1},
    {"speaker_config 7", BW_APD, {1, 7, 5568, 0}, 4, BW_FIELD, 1},
    {"27 in the first group of a langcod", BW_APN, {1, 27u << 10 | 26u << 5 | 26u, 0}, 3, BW_FIELD, 1},
    {"27 in the second group of a langcod", BW_APN, {1, 26u << 10 | 27u << 5 | 26u, 0}, 3, BW_FIELD, 1},
    {"27 in the third group of a langcod", BW_APN, {1, 26u << 10 | 26u << 5 | 27u, 0}, 3, BW_FIELD, 1},
    {"27 in the langcod of a presentation", BW_APD, {1, 0, 5u << 10 | 27u << 5, 0}, 4, BW_FIELD, 2},
    {"langcod with a group of 28", BW_APN, {1, 28u << 10 | 1u << 5, 0}, 3, BW_FIELD, 1},
    {"a turnaround 256", BW_ETD, {256, 0, 0}, 3, BW_FIELD, 0},
    {"ed2_exists 2", BW_ETD, {1, 2, 0}, 3, BW_FIELD, 1},
    {"dolbye_exists 2", BW_ETD, {1, 0, 2}, 3, BW_FIELD, 2},
    {"frame_rate 6", BW_ETD, {1, 1, 6, 0, 0, 0}, 6, BW_FIELD, 2},
    {"pgmconfig 24", BW_ETD, {1, 0, 1, 5, 24, 0, 0}, 7, BW_FIELD, 4},
    {"a pair of presentation 512", BW_ETD, {1, 1, 1, 512, 0, 0, 0, 0}, 8, BW_FIELD, 3},
    {"a pair of parameters 256", BW_ETD, {1, 1, 1, 1, 256, 0, 0, 0}, 8, BW_FIELD, 4},
    {"a closing pair of parameters 256", BW_ETD, {1, 1, 1, 0, 256, 0}, 6, BW_FIELD, 4},
    {"a closing pair without its parameters", BW_ETD, {1, 0, 1, 5, 23, 0}, 6, BW_BITS, 6},
    {"a turnaround without its second flag", BW_ETD, {1, 1, 1, 0, 0}, 5, BW_BITS, 5},
    {"kind 0", 0, {1, 0}, 2, BW_KIND, 0},
    {"kind 8", 8, {1, 0}, 2, BW_KIND, 0},
};

static bool try_refused_list(const void *given)
{
    const list_case *c = given;
    lent numbers = lent_to_read(c->numbers, 4 * c->count, side), out = lent_to_write(64, side);
    bw_answer got = bw_pmd_write(c->kind, (const uint32_t *)numbers.bytes, c->count, out.bytes, out.len);
    bool good = is(got, c->number, c->place) && lent_rest_is(&out, 0, LENT_FILLER) && lent_margin_is_whole(&out);
    lent_back(&numbers);
    lent_back(&out);
    return good;
}

static void lists(void)
{
    for (size_t i = 0; i < sizeof LISTS / sizeof LISTS[0]; i++)
        test(try_refused_list, &LISTS[i], "bw_pmd_write", LISTS[i].name);
}

/* As many substreams without a name, of 12 bits and two numbers each; the last has one byte of a name if asked. */
static void fill_list(uint32_t *list, size_t records, bool with_name)
{
    for (size_t i = 0; i < records; i++) {
        list[2 * i] = 1;
        list[2 * i + 1] = 0;
    }
    if (with_name) {
        list[2 * records - 1] = 65;
        list[2 * records] = 0;
    }
}

/* A list written into `size` bytes, and read back into as many numbers as it has. */
static bool there_and_back(uint32_t kind, const uint32_t *list, size_t count, size_t size)
{
    lent out = lent_to_write(size, side), numbers = lent_to_write(4 * count, side);
    bool good = is(bw_pmd_write(kind, list, count, out.bytes, size), BW_DONE, size);
    bw_answer got = bw_pmd_read(kind, out.bytes, size, (uint32_t *)numbers.bytes, count);
    good = good && is(got, BW_DONE, count) && memcmp(numbers.bytes, list, 4 * count) == 0;
    lent_back(&out);
    lent_back(&numbers);
    return good;
}

/* 2,730 records and a byte of a name fill 4,096 bytes. */
static bool try_longest(const void *unused)
{
    static uint32_t list[2 * 2730 + 1];
    (void)unused;
    fill_list(list, 2730, true);
    return there_and_back(BW_ESN, list, 2 * 2730 + 1, BW_PMD_VALUE_MAX);
}

/* 3,276 turnarounds for nothing, of 10 bits and three numbers each, are as many numbers as a value can have. */
static bool try_most_numbers(const void *unused)
{
    static uint32_t list[BW_PMD_NUMBERS_MAX + 3];
    (void)unused;
    for (size_t i = 0; i < BW_PMD_NUMBERS_MAX + 3; i += 3)
        list[i] = 255;
    lent out = lent_to_write(2 * BW_PMD_VALUE_MAX, side);
    bool good = is(bw_pmd_write(BW_ETD, list, BW_PMD_NUMBERS_MAX + 3, out.bytes, out.len), BW_NOROOM, 0);
    good = good && lent_rest_is(&out, 0, LENT_FILLER);
    lent_back(&out);
    return good && there_and_back(BW_ETD, list, BW_PMD_NUMBERS_MAX, 4095);
}

static bool try_too_long(const void *unused)
{
    static uint32_t list[2 * 2731];
    (void)unused;
    fill_list(list, 2731, false);
    lent out = lent_to_write(2 * BW_PMD_VALUE_MAX, side);
    bool good = is(bw_pmd_write(BW_ESN, list, 2 * 2731, out.bytes, out.len), BW_NOROOM, 0);
    good = good && lent_rest_is(&out, 0, LENT_FILLER);
    lent_back(&out);
    return good;
}

/* Entries of tables, in the order of their fields. STALE is free; no record can hold its other numbers. */
#define ONE {1, 6, 1, 1, 512, 1023, 31, 1, 0, 255, 63}
#define ONE_MOVED {1, 6, 1, 100, 200, 300, 31, 1, 0, 255, 63}
#define STALE {0, 7, 2, 0, 1024, UINT32_MAX, 32, 2, 2, 256, 64}
#define THREE {3, 0, 0, 5, 6, 7, 0, 0, 0, 0, 0}
#define TWO {2, 1, 1, 10, 20, 30, 4, 0, 1, 7, 51}
#define NEW_THREE {3, 2, 1, 50, 60, 70, 8, 1, 1, 9, 0}
#define FREE {0, 0, 0, 0, 0, 0, 0, 0, 0, 0, 0}

static const bw_object OBJECTS[] = {ONE, STALE, THREE};

typedef struct {
    const char *name;
    uint32_t asked;    /* a kind, or the element to be cleared */
    const char *value; /* none for a clearing */
    uint64_t number, count;
    bw_object after[3]; /* on success */
} object_case;

/* The values of two records end on a byte; 00 21 … is TWO, and 00 40 … an element 4. */
static const object_case UPDATES[] = {
    {"a new element", BW_AOD, "00 21 81 40 A0 3C 44 1F 30", BW_DONE, 1, {ONE, TWO, THREE}},
    {"an entry that is not dynamic", BW_AOD, "00 32 86 41 E0 8C 8C 24 00", BW_DONE, 1, {ONE, STALE, NEW_THREE}},
    {"an entry that is there and a new one", BW_AOD, "00 32 86 41 E0 8C 8C 24 00 02 18 14 0A 03 C4 41 F3", BW_DONE, 2,
     {ONE, TWO, NEW_THREE}},
    {"a new element twice and one free entry", BW_AOD, "00 21 01 60 A8 3E 4C 23 40 02 18 14 0A 03 C4 41 F3", BW_DONE, 2,
     {ONE, TWO, THREE}},
    {"two new elements and one free entry", BW_AOD, "00 40 00 20 08 02 00 00 00 02 18 14 0A 03 C4 41 F3", BW_FULL, 0,
     {FREE}},
    {"the second of two new elements twice", BW_AOD,
     "00 21 81 40 A0 3C 44 1F 30 02 18 14 0A 03 C4 41 F3 00 40 00 20 08 02 00 00 00", BW_FULL, 0, {FREE}},
    {"a position", BW_XYZ, "14 00 46 43 21 2C", BW_DONE, 1, {ONE_MOVED, STALE, THREE}},
    {"an element twice", BW_XYZ, "14 00 40 90 24 09 00 11 90 C8 4B 00", BW_DONE, 2, {ONE_MOVED, STALE, THREE}},
    {"a static entry before one that is not there", BW_XYZ, "14 00 C0 90 24 09 00 91 90 C8 4B 00", BW_STATIC, 0,
     {FREE}},
    {"one that is not there before a static entry", BW_XYZ, "14 02 40 90 24 09 00 31 90 C8 4B 00", BW_UNKNOWN, 0,
     {FREE}},
    {"a static entry in the third record", BW_XYZ, "14 00 40 90 24 09 00 10 24 09 02 40 0C 64 32 12 C0", BW_STATIC, 2,
     {FREE}},
    {"one that is not there in the second record", BW_XYZ, "14 00 40 90 24 09 00 91 90 C8 4B 00", BW_UNKNOWN, 1,
     {FREE}},
    {"kind 0", 0, "00 21 81 40 A0 3C 44 1F 30", BW_KIND, 0, {FREE}},
    {"a kind that is no object's, above the cap", BW_AEN, "{00}4097", BW_KIND, 0, {FREE}},
    {"the greatest kind", UINT32_MAX, "", BW_KIND, 0, {FREE}},
    {"a value above the cap", BW_AOD, "{00}4097", BW_BIG, 0, {FREE}},
    {"an empty value", BW_XYZ, "", BW_BITS, 0, {FREE}},
    {"a second record that is cut off", BW_XYZ, "14 00 C0 90 24 09 00 91 90 C8", BW_BITS, 80, {FREE}},
    {"an element 0", BW_AOD, "{00}9", BW_FIELD, 0, {FREE}},
    {"a z of 0 after a static entry", BW_XYZ, "14 00 C0 90 24 09 00 91 90 C8 00 00", BW_FIELD, 80, {FREE}},
    {"leftover bits", BW_AOD, "00 21 81 40 A0 3C 44 1F 31", BW_PAD, 68, {FREE}},
    {"clear the first", 1, NULL, BW_DONE, 1, {FREE, STALE, THREE}},
    {"clear the last", 3, NULL, BW_DONE, 1, {ONE, STALE, FREE}},
    {"clear element 0", 0, NULL, BW_UNKNOWN, 0, {FREE}},
    {"clear an element that is not there", 2, NULL, BW_UNKNOWN, 0, {FREE}},
    {"clear an element too wide", 4097, NULL, BW_UNKNOWN, 0, {FREE}},
    {"clear the greatest number", UINT32_MAX, NULL, BW_UNKNOWN, 0, {FREE}},
};

/* A value applied to a lent table, or an element cleared in it where there is no value. */
static bw_answer ask(const object_case *c, lent *table, size_t entries)
{
    if (c->value == NULL)
        return bw_objects_clear(c->asked, (bw_object *)table->bytes, entries);
    lent value = pack_of(c->value);
    bw_answer got = bw_objects_apply(c->asked, value.bytes, value.len, (bw_object *)table->bytes, entries);
    lent_back(&value);
    return got;
}

/* A call on a copy of a table, which then is as expected, with nothing around it changed. */
static bool leaves(const object_case *c, const bw_object *before, size_t entries, bw_answer answer,
                   const bw_object *after)
{
    lent table = lent_to_change(before, entries * sizeof *before, side);
    bool good = is(ask(c, &table, entries), answer.number, answer.value);
    good = good && (table.len == 0 || memcmp(table.bytes, after, table.len) == 0) && lent_margin_is_whole(&table);
    lent_back(&table);
    return good;
}

static bool try_update(const void *given)
{
    const object_case *c = given;
    bw_answer answer = {c->number, c->count};
    return leaves(c, OBJECTS, 3, answer, c->number == BW_DONE ? c->after : OBJECTS);
}

typedef struct {
    const char *name;
    bw_object table[2];
} table_case;

static const table_case TABLES[] = {
    {"an element twice", {ONE, ONE}},
    {"element 4096", {ONE, {4096, 0, 0, 1, 1, 1, 0, 0, 0, 0, 0}}},
    {"class 7", {ONE, {2, 7, 0, 1, 1, 1, 0, 0, 0, 0, 0}}},
    {"dynamic 2", {ONE, {2, 0, 2, 1, 1, 1, 0, 0, 0, 0, 0}}},
    {"x 0", {ONE, {2, 0, 0, 0, 1, 1, 0, 0, 0, 0, 0}}},
    {"y 1024", {ONE, {2, 0, 0, 1, 1024, 1, 0, 0, 0, 0, 0}}},
    {"z 0", {ONE, {2, 0, 0, 1, 1, 0, 0, 0, 0, 0, 0}}},
    {"size 32", {ONE, {2, 0, 0, 1, 1, 1, 32, 0, 0, 0, 0}}},
    {"size_3d 2", {ONE, {2, 0, 0, 1, 1, 1, 0, 2, 0, 0, 0}}},
    {"diverge 2", {ONE, {2, 0, 0, 1, 1, 1, 0, 0, 2, 0, 0}}},
    {"source 256", {ONE, {2, 0, 0, 1, 1, 1, 0, 0, 0, 256, 0}}},
    {"gain 64", {ONE, {2, 0, 0, 1, 1, 1, 0, 0, 0, 0, 64}}},
    {"the greatest gain", {{2, 0, 0, 1, 1, 1, 0, 0, 0, 0, UINT32_MAX}, ONE}},
};

/* A table that is not well formed is refused first, whatever is asked of it. */
static bool try_table(const void *given)
{
    static const bw_answer refused = {BW_TABLE, 0};
    const table_case *c = given;
    bool good = true;
    for (size_t i = 0; good && i < sizeof UPDATES / sizeof UPDATES[0]; i++)
        good = leaves(&UPDATES[i], c->table, 2, refused, c->table);
    return good;
}

/* Tables of as many entries as may be and of one more, all free and all used. */
static bool try_sizes(const void *unused)
{
    static const object_case set = {"", BW_AOD, "00 21 81 40 A0 3C 44 1F 30", BW_DONE, 1, {FREE}};
    static const bw_answer done = {BW_DONE, 1}, full = {BW_FULL, 0}, refused = {BW_TABLE, 0};
    bw_object table[BW_OBJECTS_MAX + 1] = {FREE}, after[BW_OBJECTS_MAX] = {TWO};
    (void)unused;
    bool good = leaves(&set, table, BW_OBJECTS_MAX, done, after) && leaves(&set, table, 1, done, after) &&
                leaves(&set, table, 0, full, after) && leaves(&set, table, BW_OBJECTS_MAX + 1, refused, table);
    for (uint32_t i = 0; i <= BW_OBJECTS_MAX; i++)
        table[i] = (bw_object){10 + i, 0, 1, 1, 1, 1, 0, 0, 0, 0, 0};
    good = good && leaves(&set, table, BW_OBJECTS_MAX, full, table);
    return good && leaves(&set, table, BW_OBJECTS_MAX + 1, refused, table);
}

/* Entries around the lent ones are not of the table: neither their room nor their elements are there. */
static bool try_neighbours(const void *unused)
{
    static const bw_object all[] = {FREE, TWO, ONE, STALE, THREE, TWO, FREE};
    static const object_case asked[] = {
        {"", BW_AOD, "00 40 00 20 08 02 00 00 00 02 18 14 0A 03 C4 41 F3", BW_FULL, 0, {FREE}},
        {"", BW_XYZ, "14 00 86 43 21 2C", BW_UNKNOWN, 0, {FREE}},
        {"", 2, NULL, BW_UNKNOWN, 0, {FREE}},
        {"", BW_AOD, "00 21 81 40 A0 3C 44 1F 30", BW_DONE, 1, {FREE}},
    };
    bool good = true;
    (void)unused;
    for (size_t i = 0; good && i < sizeof asked / sizeof asked[0]; i++) {
        lent table = lent_to_change(all, sizeof all, side);
        lent middle = table;
        middle.bytes += 2 * sizeof all[0];
        bw_object after[7] = {FREE, TWO, ONE, STALE, THREE, TWO, FREE};
        if (asked[i].number == BW_DONE)
            after[3] = all[1];
        good = is(ask(&asked[i], &middle, 3), asked[i].number, asked[i].count) &&
               memcmp(table.bytes, after, sizeof after) == 0 && lent_margin_is_whole(&table);
        lent_back(&table);
    }
    return good;
}

static void objects(void)
{
    for (size_t i = 0; i < sizeof UPDATES / sizeof UPDATES[0]; i++)
        test(try_update, &UPDATES[i], UPDATES[i].value == NULL ? "bw_objects_clear" : "bw_objects_apply",
             UPDATES[i].name);
    for (size_t i = 0; i < sizeof TABLES / sizeof TABLES[0]; i++)
        test(try_table, &TABLES[i], "bw_objects_apply and bw_objects_clear", TABLES[i].name);
    test(try_sizes, NULL, "bw_objects_apply", "tables of 0, 1, 128 and 129 entries");
    test(try_neighbours, NULL, "bw_objects_apply and bw_objects_clear", "entries around the table");
}

static void empty_ranges(void)
{
    const uint8_t pack[] = {0x06, 0x0E, 0x2B, 0x34, 0x02, 0x7F, 0x01, 0x01, 0x0C, 0x04, 0x01, 0, 0, 0, 0, 0, 0};
    const uint8_t value[] = {0x14, 0x10, 0x00};
    const uint8_t object[] = {0x00, 0x10, 0x00, 0x20, 0x08, 0x02, 0x00, 0x00, 0x00};
    const uint32_t numbers[] = {1, 65, 0};
    uint8_t out[32];
    report(is(bw_check(NULL, 0), BW_SHORT, 0), "bw_check", "NULL");
    report(is(bw_read(NULL, 0, NULL, 0), BW_SHORT, 0), "bw_read", "NULL and NULL");
    report(is(bw_read(pack, sizeof pack, NULL, 0), BW_NOROOM, 0), "bw_read", "NULL rows");
    report(is(bw_scrub(NULL, 0, NULL, 0, NULL, 0), BW_SHORT, 0), "bw_scrub", "NULL thrice");
    report(is(bw_scrub(NULL, 0, pack, sizeof pack, NULL, 0), BW_NOROOM, 0), "bw_scrub", "NULL sheet and buffer");
    report(is(bw_scrub(NULL, 0, pack, sizeof pack, out, sizeof out), BW_DONE, 23), "bw_scrub", "NULL sheet");
    report(is(bw_sheet_check(NULL, 0), BW_DONE, 0), "bw_sheet_check", "NULL");
    bw_found absent = bw_lookup(pack, sizeof pack, pack, sizeof pack, NULL, 0);
    report(is_not_found(absent, BW_ABSENT, 0, BW_NEITHER), "bw_lookup", "NULL label");
    bw_found no_backup = bw_lookup(pack, sizeof pack, NULL, 0, pack, BW_LABEL_SIZE);
    report(is_not_found(no_backup, BW_SHORT, 0, BW_BACKUP), "bw_lookup", "NULL backup");
    report(is_not_found(bw_lookup(NULL, 0, NULL, 0, NULL, 0), BW_SHORT, 0, BW_MAIN), "bw_lookup", "NULL thrice");
    report(is(bw_pmd_read(BW_ESN, NULL, 0, NULL, 0), BW_BITS, 0), "bw_pmd_read", "NULL and NULL");
    report(is(bw_pmd_read(BW_ESN, value, sizeof value, NULL, 0), BW_NOROOM, 0), "bw_pmd_read", "NULL numbers");
    report(is(bw_pmd_write(BW_ESN, NULL, 0, NULL, 0), BW_BITS, 0), "bw_pmd_write", "NULL and NULL");
    report(is(bw_pmd_write(BW_ESN, numbers, 3, NULL, 0), BW_NOROOM, 0), "bw_pmd_write", "NULL buffer");
    report(is(bw_objects_apply(BW_AOD, NULL, 0, NULL, 0), BW_BITS, 0), "bw_objects_apply", "NULL and NULL");
    report(is(bw_objects_apply(BW_AOD, object, sizeof object, NULL, 0), BW_FULL, 0), "bw_objects_apply", "NULL table");
    report(is(bw_objects_clear(1, NULL, 0), BW_UNKNOWN, 0), "bw_objects_clear", "NULL");
}

static void gains(void)
{
    bool good = true;
    for (uint32_t gain = 0; gain < 64; gain++) {
        bw_gain_answer got = bw_gain(gain);
        int32_t half_db = gain == 0 ? 0 : (int32_t)gain - 51;
        good = good && got.number == BW_DONE && got.muted == (gain == 0) && got.half_db == half_db;
    }
    report(good, "bw_gain", "0 to 63");
    const uint32_t wide[] = {64, 255, 256, 65536, UINT32_MAX};
    good = true;
    for (size_t i = 0; i < sizeof wide / sizeof wide[0]; i++) {
        bw_gain_answer got = bw_gain(wide[i]);
        good = good && got.number == BW_FIELD && got.muted == 0 && got.half_db == 0;
    }
    report(good, "bw_gain", "above 63");
}

static void versions(void)
{
    char text[32];
    report(bw_version() == BW_VERSION_NUMBER, "bw_version", "the header's number");
    snprintf(text, sizeof text, "%d.%d.%d", BW_VERSION_MAJOR, BW_VERSION_MINOR, BW_VERSION_PATCH);
    report(strcmp(text, BW_VERSION) == 0, "BW_VERSION", "its three numbers");
}

static void names(void)
{
    size_t all_len;
    bool good = strcmp(bw_refusal_name(BW_DONE), "DONE") == 0 && strcmp(bw_refusal_name(BW_BIG), "BIG") == 0 &&
                strcmp(bw_refusal_name(BW_SHEET), "SHEET") == 0 && strcmp(bw_refusal_name(BW_ABSENT), "ABSENT") == 0 &&
                strcmp(bw_refusal_name(21), "UNKNOWN") == 0 && strcmp(bw_refusal_name(UINT64_MAX), "UNKNOWN") == 0;
    report(good, "bw_refusal_name", "first, last and beyond");
    good = strcmp(bw_refusal_name(BW_UNKNOWN), "UNKNOWN") == 0 && strcmp(bw_refusal_name(BW_STATIC), "UNKNOWN") == 0 &&
           strcmp(bw_refusal_name(BW_FULL), "UNKNOWN") == 0 && strcmp(bw_refusal_name(25), "UNKNOWN") == 0;
    report(good, "bw_refusal_name", "those of a table of objects");
    const uint8_t *all = bytes_of(ALL, &all_len);
    report(all_len == sizeof bw_keep_all && memcmp(all, bw_keep_all, all_len) == 0, "bw_keep_all", "its bytes");
    report(sizeof(bw_answer) == 16 && sizeof(bw_found) == 40 && sizeof(bw_gain_answer) == 12, "answers", "their sizes");
    report(sizeof(bw_object) == 44 && offsetof(bw_object, gain) == 40, "bw_object", "its size");
    for (int number = BW_DONE; number <= BW_ABSENT; number++)
        report(met[number], "met", bw_refusal_name((uint64_t)number));
    for (int number = BW_TABLE; number <= BW_FULL; number++)
        report(met[number], "met", name_of((uint64_t)number));
}

int main(int count, char **arguments)
{
    if (count == 2 && strcmp(arguments[1], "heap") == 0) {
        sides[0] = sides[1] = HEAP;
    } else if (count == 2 && strcmp(arguments[1], "guard") == 0) {
        sides[0] = AFTER;
        sides[1] = BEFORE;
    } else {
        fprintf(stderr, "usage: %s guard|heap\n", arguments[0]);
        return 2;
    }
    packs();
    test(try_rows, "K 29 0113 FFFE 40" LABEL "4003 616263 0207 FFFFFFFF 080178 0304 59747E70", "bw_read", "all rows");
    totals();
    scrubs();
    sheets();
    lookups();
    values();
    lists();
    test(try_longest, NULL, "bw_pmd_write and bw_pmd_read", "as much as fits 4,096 bytes");
    test(try_most_numbers, NULL, "bw_pmd_write and bw_pmd_read", "as many numbers as a value can have");
    test(try_too_long, NULL, "bw_pmd_write", "a value above the cap");
    objects();
    empty_ranges();
    gains();
    versions();
    names();
    printf("%d passed, %d failed\n", passed, failed);
    return failed == 0 ? 0 : 1;
}
