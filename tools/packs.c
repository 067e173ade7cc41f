#include "packs.h"

#include "escape.h"

bw_answer read_pack(const uint8_t *bytes, size_t length, struct reading *reading)
{
    uint32_t rows[BW_ROWS_MAX];
    const bw_answer answer = bw_read(bytes, length, rows, BW_ROWS_MAX);

    reading->bytes = bytes;
    reading->count = 0;
    if (answer.number != BW_DONE)
        return answer;
    reading->offset = (int32_t)rows[0];
    reading->has_crc = rows[1] == 1;
    reading->count = rows[2];
    for (uint32_t i = 0; i < reading->count; i++) {
        const uint32_t *row = rows + BW_ROW * (i + 1);
        const struct item item = {(enum bw_form)row[0], (enum bw_name)row[2], row[1], row[3], row[4], row[5],
                                  (int32_t)row[6], row[7]};

        reading->items[i] = item;
    }
    return answer;
}

void print_payload_name(FILE *to, const struct reading *reading, const struct item *item)
{
    if (item->name == BW_LABEL) {
        fputs("label ", to);
        print_hex(to, reading->bytes + item->named, BW_LABEL_SIZE);
    } else
        fprintf(to, "number %lu", (unsigned long)item->named);
}

const struct pmd_label *payload_label(const struct reading *reading, const struct item *item)
{
    return item->name == BW_LABEL ? pmd_label(reading->bytes + item->named) : NULL;
}

void print_title(FILE *to, const struct reading *reading, const struct item *item)
{
    const struct pmd_label *label = payload_label(reading, item);

    if (label != NULL)
        fprintf(to, " (%s)", label->title);
}

void print_value_members(FILE *to, const struct item *item)
{
    fprintf(to, "\"value_start\":%lu,\"value_length\":%lu,\"total_offset\":%ld", (unsigned long)item->value,
            (unsigned long)item->length, (long)item->offset);
}
