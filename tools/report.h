/* The report of a scrub, for the person who signs. */
#ifndef REPORT_H
#define REPORT_H

#include <stddef.h>
#include <stdint.h>
#include <stdio.h>

/* Prints the report. It knows the sheet and the written pack and nothing else, so it cannot tell anything of what was
   dropped, and the same kept items give the same text. The pack must be one that bw_scrub wrote. */
void print_report(FILE *to, const uint8_t *sheet, size_t sheet_length, const uint8_t *pack, size_t pack_length);

#endif
