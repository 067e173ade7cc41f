/* sheet make [TEXT [SHEET]], sheet show SHEET */
#include "ballastwren.h"
#include "commands.h"
#include "exits.h"
#include "files.h"
#include "lines.h"
#include "refusals.h"
#include "sheets.h"

int make_sheet(const struct options *options)
{
    static uint8_t text[TEXT_MAX + 1];
    uint8_t bytes[BW_SHEET_MAX];
    size_t length = 0;
    struct input input;
    int status;

    if (!read_input(options->count > 0 ? options->operands[0] : "-", text, sizeof text, &input))
        return TROUBLE;
    status = parse_sheet(input.name, input.bytes, input.length, bytes, &length);
    if (status != ACCEPTED)
        return status;
    return write_output(options->count > 1 ? options->operands[1] : "-", bytes, length, &input, 1) ? ACCEPTED : TROUBLE;
}

int show_sheet(const struct options *options)
{
    uint8_t bytes[BW_SHEET_MAX + 1];
    struct input sheet;
    bw_answer answer;

    if (!read_input(options->operands[0], bytes, sizeof bytes, &sheet))
        return TROUBLE;
    answer = bw_sheet_check(sheet.bytes, sheet.length);
    if (answer.number != BW_DONE)
        return refuse(sheet.name, answer, "byte");
    print_sheet(stdout, "", sheet.bytes, sheet.length);
    note_if_empty(&sheet);
    return ACCEPTED;
}
