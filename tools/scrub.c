/* scrub --sheet SHEET [--report] PACK OUT */
#include <errno.h>
#include <stdio.h>
#include <string.h>
#include <unistd.h>

#include "ballastwren.h"
#include "commands.h"
#include "exits.h"
#include "files.h"
#include "refusals.h"
#include "report.h"
#include "sheets.h"

enum { SHEET, PACK, INPUTS };

/* Whether the file gives back the bytes that were written to it. */
static bool reads_back(const struct output *output, const uint8_t *bytes, size_t length, uint8_t *back)
{
    size_t at = 0;

    while (at <= length) {
        ssize_t got = pread(output->file, back + at, length + 1 - at, (off_t)at);

        if (got == 0)
            break;
        if (got > 0)
            at += (size_t)got;
        else if (errno != EINTR) {
            trouble(output->name, strerror(errno));
            return false;
        }
    }
    if (at == length && memcmp(bytes, back, length) == 0)
        return true;
    trouble(output->name, "does not read back as it was written");
    return false;
}

/* Prints the report of what stands in the output. It must be out before the output gets its name: where it cannot be
   printed, nothing is left behind. */
static bool report(struct output *output, const struct input *sheet, const uint8_t *bytes, size_t length)
{
    static uint8_t back[BW_PACK_MAX + 1];

    if (reads_back(output, bytes, length, back)) {
        print_report(stdout, sheet->bytes, sheet->length, back, length);
        if (flush_standard_output())
            return true;
    }
    drop_output(output);
    return false;
}

int scrub_pack(const struct options *options)
{
    static uint8_t sheet[BW_SHEET_MAX + 1], pack[BW_PACK_MAX + 1], out[BW_PACK_MAX];
    struct input inputs[INPUTS];
    struct output output;
    bw_answer answer;

    if (!read_input(options->sheet, sheet, sizeof sheet, &inputs[SHEET]) ||
        !read_input(options->operands[0], pack, sizeof pack, &inputs[PACK]))
        return TROUBLE;
    answer = bw_scrub(sheet, inputs[SHEET].length, pack, inputs[PACK].length, out, sizeof out);
    if (answer.number != BW_DONE)
        return refuse(inputs[answer.number == BW_SHEET ? SHEET : PACK].name, answer, "byte");
    if (!open_output(&output, options->operands[1], inputs, INPUTS))
        return TROUBLE;
    if (options->report && !output.whole) {
        drop_output(&output);
        return trouble(output.name, "a report is made by reading OUT back, so OUT must be a regular file");
    }
    if (!fill_output(&output, out, (size_t)answer.value))
        return TROUBLE;
    if (options->report && !report(&output, &inputs[SHEET], out, (size_t)answer.value))
        return TROUBLE;
    if (!keep_output(&output))
        return TROUBLE;
    note_if_empty(&inputs[SHEET]);
    return ACCEPTED;
}
