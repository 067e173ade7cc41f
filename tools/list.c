/* list [--json] PACK: on standard output exactly what the program `list` prints, or the same as a JSON object. */
#include <stdio.h>

#include "commands.h"
#include "escape.h"
#include "exits.h"
#include "files.h"
#include "packs.h"
#include "refusals.h"

static void print_item(const struct reading *reading, const struct item *item)
{
    const unsigned long start = item->start;

    if (item->form == BW_SYNC_ITEM) {
        printf("sync %lu %ld %lu %lu\n", start, (long)item->offset, (unsigned long)item->duration,
               (unsigned long)item->named);
        return;
    }
    if (item->name == BW_LABEL) {
        printf("label %lu ", start);
        print_hex(stdout, reading->bytes + item->named, BW_LABEL_SIZE);
    } else
        printf("number %lu %lu", start, (unsigned long)item->named);
    printf(" %lu %ld\n", (unsigned long)item->length, (long)item->offset);
}

static void print_pack(const struct reading *reading)
{
    printf("pack %ld %lu %s\n", (long)reading->offset, (unsigned long)reading->count,
           reading->has_crc ? "good" : "none");
    for (uint32_t i = 0; i < reading->count; i++)
        print_item(reading, &reading->items[i]);
}

/* An object, but for what closes a Sync: its payloads stand in it and come next. */
static void print_item_json(const struct reading *reading, const struct item *item)
{
    printf("{\"start\":%lu,", (unsigned long)item->start);
    if (item->form == BW_SYNC_ITEM) {
        printf("\"sample_offset\":%ld,\"duration\":%lu,\"payloads\":[", (long)item->offset,
               (unsigned long)item->duration);
        return;
    }
    if (item->name == BW_LABEL) {
        fputs("\"label\":\"", stdout);
        print_hex(stdout, reading->bytes + item->named, BW_LABEL_SIZE);
        fputs("\",", stdout);
    } else
        printf("\"number\":%lu,", (unsigned long)item->named);
    print_value_members(stdout, item);
    putc('}', stdout);
}

/* A line for each line of the text. A Sync is closed by its last payload, since none is without. */
static void print_pack_json(const struct reading *reading)
{
    printf("{\"pack_offset\":%ld,\"crc\":%s,\"items\":[", (long)reading->offset, reading->has_crc ? "true" : "false");
    for (uint32_t i = 0; i < reading->count; i++) {
        const struct item *item = &reading->items[i];
        const bool first = i == 0 || item[-1].form == BW_SYNC_ITEM;
        const bool inner = item->form == BW_INNER;

        printf("%s\n %s", first ? "" : ",", inner ? " " : "");
        print_item_json(reading, item);
        if (inner && (i + 1 == reading->count || item[1].form != BW_INNER))
            fputs("]}", stdout);
    }
    puts("]}");
}

static void print_refused(bw_answer answer, bool json)
{
    if (!json) {
        printf("refused %llu %llu\n", (unsigned long long)answer.number, (unsigned long long)answer.value);
        return;
    }
    putc('{', stdout);
    print_refused_member(stdout, answer);
    puts("}");
}

int list_pack(const struct options *options)
{
    static uint8_t bytes[BW_PACK_MAX + 1];
    struct input pack;
    struct reading reading;
    bw_answer answer;

    if (!read_input(options->operands[0], bytes, sizeof bytes, &pack))
        return TROUBLE;
    answer = read_pack(pack.bytes, pack.length, &reading);
    if (answer.number != BW_DONE) {
        print_refused(answer, options->json);
        return refuse(pack.name, answer, "byte");
    }
    if (options->json)
        print_pack_json(&reading);
    else
        print_pack(&reading);
    return ACCEPTED;
}
