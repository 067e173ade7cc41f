/* The reading of a pack as bw_read gives it, and how its items are told. */
#ifndef PACKS_H
#define PACKS_H

#include <stdbool.h>
#include <stdio.h>

#include "ballastwren.h"
#include "labels.h"

/* What a row says. */
struct item {
    enum bw_form form;
    enum bw_name name;
    uint32_t start;
    uint32_t named; /* the tag, where the label stands in the pack, or the payloads inside */
    uint32_t value;
    uint32_t length;
    int32_t offset; /* a payload's total offset, a Sync's sample_offset */
    uint32_t duration;
};

struct reading {
    const uint8_t *bytes;
    int32_t offset;
    bool has_crc;
    uint32_t count;
    struct item items[BW_ITEMS_MAX];
};

/* Reads a pack. On refusal `reading` has nothing. */
bw_answer read_pack(const uint8_t *bytes, size_t length, struct reading *reading);

/* "number 70" or "label 060E2B34..." */
void print_payload_name(FILE *to, const struct reading *reading, const struct item *item);

/* The entry of a payload's label, NULL if it is not one of PMD. */
const struct pmd_label *payload_label(const struct reading *reading, const struct item *item);

/* The title of a label's payloads as "  (Audio Presentation Names)", nothing for any other name. */
void print_title(FILE *to, const struct reading *reading, const struct item *item);

/* "value_start", "value_length" and "total_offset" of a payload, members of a JSON object. */
void print_value_members(FILE *to, const struct item *item);

#endif
