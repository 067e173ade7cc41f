#include "report.h"

#include "ballastwren.h"
#include "escape.h"
#include "packs.h"
#include "sheets.h"

/* Bytes of the CRC at a written pack's end. */
enum { CRC_SIZE = 4 };

static void print_kept(FILE *to, const struct reading *pack, const struct item *item)
{
    if (item->form == BW_SYNC_ITEM) {
        fprintf(to, "  Sync at byte %lu, sample_offset %ld, duration %lu, payloads inside: %lu\n",
                (unsigned long)item->start, (long)item->offset, (unsigned long)item->duration,
                (unsigned long)item->named);
        return;
    }
    fputs(item->form == BW_INNER ? "    " : "  ", to);
    print_payload_name(to, pack, item);
    fprintf(to, " at byte %lu, value bytes: %lu", (unsigned long)item->start, (unsigned long)item->length);
    print_title(to, pack, item);
    putc('\n', to);
}

static void print_statement(FILE *to)
{
    fputs("What is proved, of ballastwren " BW_VERSION "\n"
          "  Every payload that the sheet names is in the written pack, byte for byte and in order, inside its\n"
          "  Sync with the same two numbers, and no other payload is (theorems kept-whole, kept-in-place,\n"
          "  kept-only, read-back). Every byte of the written pack follows from the sheet, the pack offset and\n"
          "  the kept items above; nothing else that the scrubbed pack held has left a trace in it (theorems\n"
          "  same-kept-same-buffer, no-trace).\n"
          "  Not proved: this command's reading and writing of files and the printing of this report. The report\n"
          "  was made by reading the pack back as it was written.\n",
          to);
}

void print_report(FILE *to, const uint8_t *sheet, size_t sheet_length, const uint8_t *pack, size_t pack_length)
{
    struct reading reading;

    read_pack(pack, pack_length, &reading);
    fputs("Scrub report\n\nKeep sheet\n", to);
    print_sheet(to, "  ", sheet, sheet_length);
    fprintf(to, "\nWritten pack\n  length in bytes: %lu\n  CRC: ", (unsigned long)pack_length);
    print_hex(to, pack + pack_length - CRC_SIZE, CRC_SIZE);
    fprintf(to, "\n  pack offset: %ld\n\nItems kept, as they stand in the written pack\n", (long)reading.offset);
    if (reading.count == 0)
        fputs("  none\n", to);
    for (uint32_t i = 0; i < reading.count; i++)
        print_kept(to, &reading, &reading.items[i]);
    putc('\n', to);
    print_statement(to);
}
