/*
 * A rack controller's loop as controller.c has it, which scrubs each pack by a keep sheet; this one keeps a live table
 * of the objects that are left in it.
 *
 *     cc -o objects objects.c $(pkg-config --cflags --libs ballastwren)
 *     ./objects SHEET PACK|-ELEMENT...
 *
 * Object descriptions set entries of the table, positions move them, inside Syncs too, and the table is printed as it
 * stands after a pack that has either. -3 takes object 3 from the table, so that its entry can be used again.
 *
 * A pack, a sheet and a pack to be sent each have a buffer of their own. Nothing is allocated. The sheet is judged
 * once, before any pack: where it is refused the exit status is 2. A pack, a value or an object that is refused is
 * reported and the loop goes on; the exit status is then 1. A value that is refused leaves the table as it is.
 */
#include <errno.h>
#include <stdbool.h>
#include <stdio.h>
#include <stdlib.h>
#include <string.h>

#include <ballastwren.h>

/* The labels of payloads that change the table, and the kinds of their values: Audio Object Description and Dynamic
   Position Update. */
static const struct {
    uint8_t label[BW_LABEL_SIZE];
    uint32_t kind;
} CHANGES[] = {
    {{0x06, 0x0E, 0x2B, 0x34, 0x04, 0x01, 0x01, 0x0D, 0x04, 0x04, 0x02, 0x06, 0x00, 0x00, 0x00, 0x00}, BW_AOD},
    {{0x06, 0x0E, 0x2B, 0x34, 0x04, 0x01, 0x01, 0x0D, 0x04, 0x04, 0x02, 0x0D, 0x00, 0x00, 0x00, 0x00}, BW_XYZ},
};

/* Both have room for one byte too many, so that a longer file is refused and not cut. */
static uint8_t sheet[BW_SHEET_MAX + 1];
static uint8_t pack[BW_PACK_MAX + 1];

static uint8_t scrubbed[BW_PACK_MAX];
static uint32_t rows[BW_ROWS_MAX];
static uint32_t numbers[BW_PMD_NUMBERS_MAX];

/* Empty to begin with: every element is 0. */
static bw_object objects[BW_OBJECTS_MAX];

/* Reads a file, or as much of it as there is room for. */
static bool load(const char *path, uint8_t *bytes, size_t room, size_t *length)
{
    FILE *file = fopen(path, "rb");
    if (file == NULL) {
        perror(path);
        return false;
    }
    *length = fread(bytes, 1, room, file);
    bool whole = !ferror(file);
    if (!whole)
        perror(path);
    fclose(file);
    return whole;
}

/* The refusal's name. The header has none for those of a table of objects. */
static const char *refusal_name(uint64_t number)
{
    static const char *const names[] = {"TABLE", "UNKNOWN", "STATIC", "FULL"};
    return number >= BW_TABLE && number <= BW_FULL ? names[number - BW_TABLE] : bw_refusal_name(number);
}

static bool refused(const char *path, bw_answer answer)
{
    if (answer.number == BW_DONE)
        return false;
    printf("%s: refused %s at %llu\n", path, refusal_name(answer.number), (unsigned long long)answer.value);
    return true;
}

/* Prints the positions in a value of the kind XYZ that was applied: a sample time, which the table does not keep, then
   four numbers for each object. `total` is the total offset of the payload that has the value. */
static void print_positions(const char *path, const uint8_t *value, size_t length, int32_t total)
{
    bw_answer got = bw_pmd_read(BW_XYZ, value, length, numbers, BW_PMD_NUMBERS_MAX);
    for (const uint32_t *object = numbers + 1; object < numbers + got.value; object += 4)
        printf("%s: object %u moves to %u %u %u, sample time %u, total offset %d\n", path, (unsigned)object[0],
               (unsigned)object[1], (unsigned)object[2], (unsigned)object[3], (unsigned)numbers[0], (int)total);
}

static void print_gain(uint32_t gain)
{
    bw_gain_answer meant = bw_gain(gain);
    if (meant.muted)
        printf(", muted\n");
    else
        printf(", gain %.1f dB\n", meant.half_db / 2.0);
}

/* Prints the entries that are used, by their index. */
static void print_table(const char *path)
{
    for (size_t i = 0; i < BW_OBJECTS_MAX; i++) {
        const bw_object *object = &objects[i];
        if (object->element == 0)
            continue;
        printf("%s: entry %zu has object %u at %u %u %u, %s", path, i, (unsigned)object->element, (unsigned)object->x,
               (unsigned)object->y, (unsigned)object->z, object->dynamic ? "dynamic" : "static");
        print_gain(object->gain);
    }
}

/* The kind of the values by which a payload changes the table; 0 if it has nothing to do with it. */
static uint32_t kind_of(const uint32_t *row)
{
    for (size_t i = 0; row[2] == BW_LABEL && i < sizeof CHANGES / sizeof CHANGES[0]; i++)
        if (memcmp(scrubbed + row[3], CHANGES[i].label, BW_LABEL_SIZE) == 0)
            return CHANGES[i].kind;
    return 0;
}

/* Applies a payload's value to the table, all of it or nothing. */
static bool apply(const char *path, uint32_t kind, const uint32_t *row)
{
    const uint8_t *value = scrubbed + row[4];
    if (refused(path, bw_objects_apply(kind, value, row[5], objects, BW_OBJECTS_MAX)))
        return false;
    if (kind == BW_XYZ)
        print_positions(path, value, row[5], (int32_t)row[6]);
    return true;
}

/* Scrubs one pack and applies what is left in it to the table, payload by payload. */
static bool handle(const char *path, size_t sheet_length)
{
    size_t length;
    if (!load(path, pack, sizeof pack, &length))
        return false;
    bw_answer sent = bw_scrub(sheet, sheet_length, pack, length, scrubbed, sizeof scrubbed);
    if (refused(path, sent))
        return false;
    bw_answer read = bw_read(scrubbed, sent.value, rows, BW_ROWS_MAX);
    if (refused(path, read))
        return false;
    printf("%s: %zu bytes scrubbed to %llu, pack offset %d\n", path, length, (unsigned long long)sent.value,
           (int)(int32_t)rows[0]);
    bool good = true, changes = false;
    for (const uint32_t *row = rows + BW_ROW; row < rows + read.value; row += BW_ROW) {
        uint32_t kind = kind_of(row);
        if (kind == 0)
            continue;
        good &= apply(path, kind, row);
        changes = true;
    }
    if (changes)
        print_table(path);
    return good;
}

/* Takes the object from the table that an argument -ELEMENT names; what is no number names none. */
static bool take(const char *argument)
{
    char *end;
    errno = 0;
    unsigned long element = strtoul(argument + 1, &end, 10);
    if (*end != 0 || errno != 0 || element > UINT32_MAX)
        element = 0;
    return !refused(argument, bw_objects_clear((uint32_t)element, objects, BW_OBJECTS_MAX));
}

int main(int count, char **arguments)
{
    size_t sheet_length;
    if (count < 3) {
        fprintf(stderr, "usage: %s SHEET PACK|-ELEMENT...\n", arguments[0]);
        return 2;
    }
    if (!load(arguments[1], sheet, sizeof sheet, &sheet_length) ||
        refused(arguments[1], bw_sheet_check(sheet, sheet_length)))
        return 2;
    if (sheet_length == 0)
        fprintf(stderr, "%s: the sheet is empty, so it keeps nothing\n", arguments[1]);
    bool good = true;
    for (int i = 2; i < count; i++)
        good &= arguments[i][0] == '-' ? take(arguments[i]) : handle(arguments[i], sheet_length);
    return good ? 0 : 1;
}
