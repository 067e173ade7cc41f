/* The text of a keep sheet: `label` and `number` lines, or `keep all` or `keep none` alone. */
#include <string.h>

#include "exits.h"
#include "labels.h"
#include "lines.h"
#include "refusals.h"
#include "sheets.h"

/* What the lines have said so far. One entry above a cap has room, so that the archive can refuse it. */
struct entries {
    uint8_t labels[BW_SHEET_LABELS_MAX + 1][BW_LABEL_SIZE];
    uint32_t numbers[BW_SHEET_NUMBERS_MAX + 1];
    size_t label_count;
    size_t number_count;
    bool all;
    bool none;
};

enum { ROOM = BW_SHEET_MAX + BW_LABEL_SIZE };

static uint8_t *put_number(uint8_t *at, uint32_t number, int size)
{
    for (int i = size - 1; i >= 0; i--)
        *at++ = (uint8_t)(number >> (8 * i));
    return at;
}

/* Lays the entries out as a sheet: the header alone for none. */
static size_t lay_out(const struct entries *entries, uint8_t *bytes)
{
    const uint32_t labels = (uint32_t)entries->label_count;
    const uint32_t numbers = (uint32_t)entries->number_count;
    uint8_t *at = bytes;

    if (entries->all) {
        memcpy(bytes, bw_keep_all, sizeof bw_keep_all);
        return sizeof bw_keep_all;
    }
    at = put_number(at, labels, 2);
    at = put_number(at, 8, 2);
    at = put_number(at, numbers, 2);
    at = put_number(at, 8 + BW_LABEL_SIZE * labels, 2);
    for (uint32_t i = 0; i < labels; i++, at += BW_LABEL_SIZE)
        memcpy(at, entries->labels[i], BW_LABEL_SIZE);
    for (uint32_t i = 0; i < numbers; i++)
        at = put_number(at, entries->numbers[i], 4);
    return (size_t)(at - bytes);
}

/* Takes one line. Returns what is wrong with its form, NULL if nothing is. */
static const char *take_line(struct lines *lines, struct entries *entries)
{
    const struct word first = next_word(lines);
    const struct word second = next_word(lines);

    if (next_word(lines).length > 0)
        return "a line has two words";
    if (entries->all || entries->none)
        return "'keep all' and 'keep none' stand alone";
    if (word_is(first, "keep")) {
        entries->all = word_is(second, "all");
        entries->none = word_is(second, "none");
        if (!entries->all && !entries->none)
            return "it is 'keep all' or 'keep none'";
        return entries->label_count + entries->number_count == 0 ? NULL : "'keep all' and 'keep none' stand alone";
    }
    if (word_is(first, "label"))
        return read_label(second, entries->labels[entries->label_count++]) ? NULL : "a label has 32 hex digits";
    if (word_is(first, "number"))
        return word_number(second, &entries->numbers[entries->number_count++]) ? NULL : "a tag number has decimal digits";
    return "a line is 'label HEX', 'number N', 'keep all' or 'keep none'";
}

/* Why the archive refused the sheet after its last entry was added. */
static const char *why_refused(const struct entries *entries, bool label)
{
    const size_t last = (label ? entries->label_count : entries->number_count) - 1;

    if (label && last == BW_SHEET_LABELS_MAX)
        return "a sheet has at most 32 labels";
    if (!label && last == BW_SHEET_NUMBERS_MAX)
        return "a sheet has at most 32 numbers";
    for (size_t i = 0; i < last; i++) {
        if (label && memcmp(entries->labels[i], entries->labels[last], BW_LABEL_SIZE) == 0)
            return "this label is on the sheet already";
        if (!label && entries->numbers[i] == entries->numbers[last])
            return "this number is on the sheet already";
    }
    return label ? "the labels of Config, Sync and CRC are not on a sheet" : "tag numbers run from 4 to 268435455";
}

int parse_sheet(const char *name, const uint8_t *text, size_t text_length, uint8_t *bytes, size_t *length)
{
    struct lines lines = lines_of(text, text_length);
    struct entries entries = {0};
    uint8_t sheet[ROOM];

    if (text_length > TEXT_MAX)
        return refuse_line(name, 0, BW_SHEET, "a text has at most 262144 bytes");
    while (next_line(&lines)) {
        const size_t labels = entries.label_count;
        const char *wrong = take_line(&lines, &entries);

        if (wrong == NULL) {
            *length = lay_out(&entries, sheet);
            if (bw_sheet_check(sheet, *length).number != BW_DONE)
                wrong = why_refused(&entries, entries.label_count > labels);
        }
        if (wrong != NULL)
            return refuse_line(name, lines.number, BW_SHEET, wrong);
    }
    if (lines.number == 0 || !(entries.all || entries.none || entries.label_count + entries.number_count > 0))
        return refuse_line(name, lines.number, BW_SHEET, "the text keeps nothing; say 'keep all' or 'keep none'");
    memcpy(bytes, sheet, *length);
    return ACCEPTED;
}
