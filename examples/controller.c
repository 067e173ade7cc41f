/*
 * A rack controller's loop: scrubs each pack by a keep sheet and prints the object positions that are left in it.
 *
 *     cc -o controller controller.c $(pkg-config --cflags --libs ballastwren)
 *     ./controller SHEET PACK...
 *
 * A pack, a sheet and a pack to be sent each have a buffer of their own. Nothing is allocated. The sheet is judged once,
 * before any pack: where it is refused the exit status is 2. A pack that is refused is reported and the loop goes on; the
 * exit status is then 1.
 */
#include <stdbool.h>
#include <stdio.h>
#include <string.h>

#include <ballastwren.h>

/* The label of Dynamic Position Update payloads, whose values are of the kind XYZ. */
static const uint8_t POSITIONS[BW_LABEL_SIZE] = {0x06, 0x0E, 0x2B, 0x34, 0x04, 0x01, 0x01, 0x0D,
                                                 0x04, 0x04, 0x02, 0x0D, 0x00, 0x00, 0x00, 0x00};

/* Both have room for one byte too many, so that a longer file is refused and not cut. */
static uint8_t sheet[BW_SHEET_MAX + 1];
static uint8_t pack[BW_PACK_MAX + 1];

static uint8_t scrubbed[BW_PACK_MAX];
static uint32_t rows[BW_ROWS_MAX];
static uint32_t numbers[BW_PMD_NUMBERS_MAX];

/* Reads a file, or as much of it as there is room for. */
static bool load(const char *path, uint8_t *bytes, size_t room, size_t *length)
{
    FILE *file = fopen(path, "rb");
    if (file == NULL) {
        perror(path);
        return false;
    }
    *length = fread(bytes, 1, room, file);
    bool whole = !ferror(file);
    if (!whole)
        perror(path);
    fclose(file);
    return whole;
}

static bool refused(const char *path, bw_answer answer)
{
    if (answer.number == BW_DONE)
        return false;
    printf("%s: refused %s at %llu\n", path, bw_refusal_name(answer.number), (unsigned long long)answer.value);
    return true;
}

/* Prints the positions in a value of the kind XYZ: a sample time, then four numbers for each object. `total` is the
   total offset of the payload that has the value. */
static bool print_positions(const char *path, const uint8_t *value, size_t length, int32_t total)
{
    bw_answer got = bw_pmd_read(BW_XYZ, value, length, numbers, BW_PMD_NUMBERS_MAX);
    if (refused(path, got))
        return false;
    for (const uint32_t *object = numbers + 1; object < numbers + got.value; object += 4)
        printf("%s: object %u at %u %u %u, sample time %u, total offset %d\n", path, (unsigned)object[0],
               (unsigned)object[1], (unsigned)object[2], (unsigned)object[3], (unsigned)numbers[0], (int)total);
    return true;
}

static bool is_positions(const uint32_t *row)
{
    return row[2] == BW_LABEL && memcmp(scrubbed + row[3], POSITIONS, BW_LABEL_SIZE) == 0;
}

/* Scrubs one pack and prints the positions in what is left. */
static bool handle(const char *path, size_t sheet_length)
{
    size_t length;
    if (!load(path, pack, sizeof pack, &length))
        return false;
    bw_answer sent = bw_scrub(sheet, sheet_length, pack, length, scrubbed, sizeof scrubbed);
    if (refused(path, sent))
        return false;
    bw_answer read = bw_read(scrubbed, sent.value, rows, BW_ROWS_MAX);
    if (refused(path, read))
        return false;
    printf("%s: %zu bytes scrubbed to %llu, pack offset %d\n", path, length, (unsigned long long)sent.value,
           (int)(int32_t)rows[0]);
    bool good = true;
    for (const uint32_t *row = rows + BW_ROW; row < rows + read.value; row += BW_ROW)
        if (is_positions(row))
            good &= print_positions(path, scrubbed + row[4], row[5], (int32_t)row[6]);
    return good;
}

int main(int count, char **arguments)
{
    size_t sheet_length;
    if (count < 3) {
        fprintf(stderr, "usage: %s SHEET PACK...\n", arguments[0]);
        return 2;
    }
    if (!load(arguments[1], sheet, sizeof sheet, &sheet_length) ||
        refused(arguments[1], bw_sheet_check(sheet, sheet_length)))
        return 2;
    if (sheet_length == 0)
        fprintf(stderr, "%s: the sheet is empty, so it keeps nothing\n", arguments[1]);
    bool good = true;
    for (int i = 2; i < count; i++)
        good &= handle(arguments[i], sheet_length);
    return good ? 0 : 1;
}
