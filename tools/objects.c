/* objects [--each] [--json] PACK...: the live object table, as the AOD and XYZ payloads of packs leave it. */
#include <string.h>

#include "commands.h"
#include "escape.h"
#include "exits.h"
#include "files.h"
#include "labels.h"
#include "packs.h"
#include "pmd.h"
#include "refusals.h"

enum {
    FIELDS = sizeof(bw_object) / sizeof(uint32_t),
    POSITION = 4 /* numbers of an XYZ record, the element first; before the first record stands the sample time */
};

/* The used entries in slot order, as the numbers of an AOD value. Returns how many numbers there are. */
static size_t used_entries(const bw_object *table, uint32_t *numbers)
{
    size_t count = 0;

    for (size_t i = 0; i < BW_OBJECTS_MAX; i++) {
        const bw_object *entry = &table[i];
        const uint32_t record[FIELDS] = {entry->element, entry->object_class, entry->dynamic, entry->x,
                                         entry->y,       entry->z,            entry->size,    entry->size_3d,
                                         entry->diverge, entry->source,       entry->gain};

        if (entry->element == 0)
            continue;
        memcpy(numbers + count, record, sizeof record);
        count += FIELDS;
    }
    return count;
}

/* A line for each object, in the words of `pmd read`, after a line that names the pack if one is given. */
static void print_text(const char *after, const uint32_t *numbers, size_t count)
{
    const char *indent = after != NULL ? "  " : "";

    if (after != NULL) {
        fputs("after ", stdout);
        print_name(stdout, after);
        putc('\n', stdout);
    }
    if (count == 0)
        printf("%sno objects\n", indent);
    print_words(stdout, indent, kind_of(BW_AOD), numbers, count);
}

/* One object of JSON on one line, so that who reads many tables can do so line by line. */
static void print_json(const char *after, const uint32_t *numbers, size_t count)
{
    putc('{', stdout);
    if (after != NULL) {
        fputs("\"pack\":\"", stdout);
        print_json_text(stdout, (const uint8_t *)after, strlen(after));
        fputs("\",", stdout);
    }
    fputs("\"objects\":", stdout);
    print_json_records(stdout, kind_of(BW_AOD), numbers, count);
    puts("}");
}

static void print_table(const bw_object *table, const char *after, bool json)
{
    uint32_t numbers[FIELDS * BW_OBJECTS_MAX];
    const size_t count = used_entries(table, numbers);

    if (json)
        print_json(after, numbers, count);
    else
        print_text(after, numbers, count);
}

/* Tells which record of an XYZ value is refused, and its element. The value's fields are good, so they can be read. */
static int refuse_record(const char *about, const uint8_t *value, size_t length, bw_answer answer)
{
    static uint32_t numbers[BW_PMD_NUMBERS_MAX];
    char sentence[160];

    bw_pmd_read(BW_XYZ, value, length, numbers, BW_PMD_NUMBERS_MAX);
    snprintf(sentence, sizeof sentence, "element %lu: %s", (unsigned long)numbers[1 + POSITION * answer.value],
             refusal_sentence(answer.number));
    return refuse_because(about, answer, "record", sentence);
}

/* Applies a payload if it is one that the table is made of. Returns REFUSED if its value was not applied. */
static int apply_payload(const char *name, const struct reading *pack, const struct item *item, bw_object *table)
{
    const struct pmd_label *label = payload_label(pack, item);
    const uint8_t *value = pack->bytes + item->value;
    char about[PATH_MAX + 64];
    bw_answer answer;

    if (label == NULL || (label->kind != BW_AOD && label->kind != BW_XYZ))
        return ACCEPTED;
    answer = bw_objects_apply(label->kind, value, item->length, table, BW_OBJECTS_MAX);
    if (answer.number == BW_DONE)
        return ACCEPTED;
    snprintf(about, sizeof about, "%s: payload at byte %lu", name, (unsigned long)item->start);
    if (answer.number == BW_UNKNOWN || answer.number == BW_STATIC)
        return refuse_record(about, value, item->length, answer);
    if (answer.number == BW_FULL)
        return refuse(about, answer, "byte");
    return refuse_value(about, label->kind, value, item->length, answer);
}

/* Applies the payloads of a pack in byte order. One that is refused does not keep the next from being applied. */
static int apply_pack(const char *path, struct input *pack, bw_object *table)
{
    static uint8_t bytes[BW_PACK_MAX + 1];
    struct reading reading;
    int status = ACCEPTED;
    bw_answer answer;

    if (!read_input(path, bytes, sizeof bytes, pack))
        return TROUBLE;
    answer = read_pack(pack->bytes, pack->length, &reading);
    if (answer.number != BW_DONE)
        return refuse(pack->name, answer, "byte");
    for (uint32_t i = 0; i < reading.count; i++)
        if (apply_payload(pack->name, &reading, &reading.items[i], table) != ACCEPTED)
            status = REFUSED;
    return status;
}

/* Every pack is applied, whatever came before it; the worst that happened is the exit status. */
int track_objects(const struct options *options)
{
    static bw_object table[BW_OBJECTS_MAX];
    int status = ACCEPTED;

    for (int i = 0; i < options->count; i++) {
        struct input pack;
        const int one = apply_pack(options->operands[i], &pack, table);

        status = one > status ? one : status;
        if (options->each)
            print_table(table, pack.name, options->json);
    }
    if (!options->each)
        print_table(table, NULL, options->json);
    return status;
}
