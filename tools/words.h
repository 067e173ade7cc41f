/* Field values in words, both ways. */
#ifndef WORDS_H
#define WORDS_H

#include <stdbool.h>
#include <stdint.h>
#include <stdio.h>

#include "lines.h"

/* The word of a speaker layout or an object class, by Tables 3 and 7 of the PMD specification; NULL if reserved. */
const char *speakers_word(uint32_t number);
const char *class_word(uint32_t number);
bool read_speakers(struct word word, uint32_t *number);
bool read_class(struct word word, uint32_t *number);

/* Frames per second by Table 16; a program configuration of Dolby E by Table 17, without blanks. NULL if reserved. */
const char *frame_rate_word(uint32_t number);
const char *program_word(uint32_t number);
bool read_frame_rate(struct word word, uint32_t *number);
bool read_program(struct word word, uint32_t *number);

/* The two or three small letters of a langcod by Table 1. */
void print_language(FILE *to, uint32_t langcod);
bool read_language(struct word word, uint32_t *langcod);

/* "-0.5", "0.0", "+6.0": decibels of a gain that is not muted. */
void print_decibels(FILE *to, int32_t half_db);

/* The gain field for a number of decibels, a multiple of a half. */
bool read_decibels(struct word word, uint32_t *gain);

#endif
