/* Labels as they are spelled, and those of PMD payloads: Table 29 of the PMD specification. */
#ifndef LABELS_H
#define LABELS_H

#include <stdbool.h>
#include <stddef.h>
#include <stdint.h>

#include "lines.h"

/* Reads a label of 16 bytes: 32 hex digits in either case; a full stop may stand between bytes, as the PMD
   specification prints labels. */
bool read_label(struct word word, uint8_t *label);

struct pmd_label {
    const char *title;
    uint32_t kind; /* the kind whose values are read and written here, 0 if they are not */
};

/* The entry of a label of 16 bytes, NULL if it is not one of PMD. */
const struct pmd_label *pmd_label(const uint8_t *label);

/* The title of the payloads of a kind from 1 to 7. */
const char *kind_title(uint32_t kind);

#endif
