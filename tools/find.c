/* pmd find [--numbers | --json] PACK: the PMD payloads of a pack, decoded. */
#include "commands.h"
#include "escape.h"
#include "exits.h"
#include "files.h"
#include "labels.h"
#include "packs.h"
#include "pmd.h"
#include "refusals.h"

/* A PMD payload of the pack. */
struct found {
    const struct reading *pack;
    const struct item *item;
    const struct item *sync; /* the Sync that holds it, NULL outside */
    const struct pmd_label *label;
    bw_answer answer; /* of reading its value; KIND if it is not of a kind that is read here */
    const uint32_t *numbers;
};

static void print_found(const struct found *found, bool numbers)
{
    const struct kind *kind = kind_of(found->label->kind);
    const size_t count = (size_t)found->answer.value;

    printf("%s%s%s at byte %lu", kind != NULL ? kind->name : "", kind != NULL ? " " : "", found->label->title,
           (unsigned long)found->item->start);
    if (found->sync != NULL)
        printf(", in the Sync at byte %lu", (unsigned long)found->sync->start);
    printf(", value bytes: %lu, total offset %ld\n", (unsigned long)found->item->length, (long)found->item->offset);
    if (kind == NULL)
        puts("  values of this kind are not decoded");
    else if (found->answer.number != BW_DONE)
        printf("  refused %llu %llu\n", (unsigned long long)found->answer.number, (unsigned long long)count);
    else if (numbers)
        print_numbers(stdout, "  ", found->numbers, count);
    else
        print_words(stdout, "  ", kind, found->numbers, count);
}

static void print_found_json(const struct found *found, bool first)
{
    const struct kind *kind = kind_of(found->label->kind);

    printf("%s{\"start\":%lu,\"sync\":", first ? "" : ",\n ", (unsigned long)found->item->start);
    if (found->sync != NULL)
        printf("%lu", (unsigned long)found->sync->start);
    else
        fputs("null", stdout);
    fputs(",\"label\":\"", stdout);
    print_hex(stdout, found->pack->bytes + found->item->named, BW_LABEL_SIZE);
    printf("\",\"title\":\"%s\",", found->label->title);
    print_value_members(stdout, found->item);
    if (kind != NULL)
        printf(",\"kind\":%lu,\"name\":\"%s\",", (unsigned long)kind->number, kind->name);
    if (kind != NULL && found->answer.number == BW_DONE)
        print_json_members(stdout, kind, found->numbers, (size_t)found->answer.value);
    else if (kind != NULL)
        print_refused_member(stdout, found->answer);
    putc('}', stdout);
}

/* Reads and prints one payload. Returns REFUSED if its value is not good. */
static int show(struct found *found, const struct options *options, const char *name, bool first)
{
    static uint32_t numbers[BW_PMD_NUMBERS_MAX];
    const struct item *item = found->item;
    const uint8_t *value = found->pack->bytes + item->value;
    char about[PATH_MAX + 64];

    found->numbers = numbers;
    found->answer = bw_pmd_read(found->label->kind, value, item->length, numbers, BW_PMD_NUMBERS_MAX);
    if (options->json)
        print_found_json(found, first);
    else
        print_found(found, options->numbers);
    if (found->answer.number == BW_DONE || found->label->kind == 0)
        return ACCEPTED;
    snprintf(about, sizeof about, "%s: payload at byte %lu", name, (unsigned long)item->start);
    return refuse_value(about, found->label->kind, value, item->length, found->answer);
}

int find_values(const struct options *options)
{
    static uint8_t bytes[BW_PACK_MAX + 1];
    struct input pack;
    struct reading reading;
    struct found found = {.pack = &reading};
    int status = ACCEPTED;
    bool first = true;
    bw_answer answer;

    if (!read_input(options->operands[0], bytes, sizeof bytes, &pack))
        return TROUBLE;
    answer = read_pack(pack.bytes, pack.length, &reading);
    if (answer.number != BW_DONE)
        return refuse(pack.name, answer, "byte");
    fputs(options->json ? "[" : "", stdout);
    for (uint32_t i = 0; i < reading.count; i++) {
        found.item = &reading.items[i];
        if (found.item->form != BW_INNER)
            found.sync = found.item->form == BW_SYNC_ITEM ? found.item : NULL;
        found.label = payload_label(&reading, found.item);
        if (found.label != NULL && show(&found, options, pack.name, first) != ACCEPTED)
            status = REFUSED;
        first = first && found.label == NULL;
    }
    fputs(options->json ? "]\n" : "", stdout);
    return status;
}
