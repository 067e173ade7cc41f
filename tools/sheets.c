#include "sheets.h"

#include <string.h>

#include "escape.h"
#include "labels.h"
#include "refusals.h"

void note_if_empty(const struct input *sheet)
{
    if (sheet->length == 0)
        note(sheet->name, "the sheet is empty, so it keeps nothing");
}

static bool keeps_all(const uint8_t *bytes, size_t length)
{
    return length == sizeof bw_keep_all && memcmp(bytes, bw_keep_all, length) == 0;
}

static uint32_t number_at(const uint8_t *bytes, size_t size)
{
    uint32_t number = 0;

    for (size_t i = 0; i < size; i++)
        number = number << 8 | bytes[i];
    return number;
}

static void print_label(FILE *to, const char *indent, const uint8_t *bytes)
{
    const struct pmd_label *label = pmd_label(bytes);

    fprintf(to, "%slabel ", indent);
    print_hex(to, bytes, BW_LABEL_SIZE);
    if (label != NULL)
        fprintf(to, "  # %s", label->title);
    putc('\n', to);
}

void print_sheet(FILE *to, const char *indent, const uint8_t *bytes, size_t length)
{
    const bool all = keeps_all(bytes, length);
    const bool entries = length > 0 && !all;
    const size_t labels = entries ? number_at(bytes, 2) : 0;
    const size_t numbers = entries ? number_at(bytes + 4, 2) : 0;
    const uint8_t *entry = bytes + 8;

    if (labels == 0 && numbers == 0)
        fprintf(to, "%skeep %s\n", indent, all ? "all" : "none");
    for (size_t i = 0; i < labels; i++, entry += BW_LABEL_SIZE)
        print_label(to, indent, entry);
    for (size_t i = 0; i < numbers; i++, entry += 4)
        fprintf(to, "%snumber %lu\n", indent, (unsigned long)number_at(entry, 4));
}
