/* Keep sheets as bytes and as text. */
#ifndef SHEETS_H
#define SHEETS_H

#include <stdbool.h>
#include <stddef.h>
#include <stdint.h>
#include <stdio.h>

#include "ballastwren.h"
#include "files.h"

/* Says of a sheet of 0 bytes that it keeps nothing: it may be one that was never made. */
void note_if_empty(const struct input *sheet);

/* The text of a good sheet, each line after `indent`. `sheet make` reads it back. */
void print_sheet(FILE *to, const char *indent, const uint8_t *bytes, size_t length);

/* Reads a text into `bytes`, which has room for BW_SHEET_MAX. Tells a bad line and returns REFUSED. */
int parse_sheet(const char *name, const uint8_t *text, size_t text_length, uint8_t *bytes, size_t *length);

#endif
