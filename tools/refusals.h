/* Refusals, troubles and notes, one line each on standard error; and a refusal in JSON. */
#ifndef REFUSALS_H
#define REFUSALS_H

#include <stddef.h>
#include <stdio.h>

#include "ballastwren.h"

/* "ballastwren: NAME: refused: CRC (13) at byte 20: a sentence that helps". `unit` says what the place counts.
   Returns REFUSED. */
int refuse(const char *name, bw_answer answer, const char *unit);

/* The same with a sentence that fits the case. Returns REFUSED. */
int refuse_because(const char *name, bw_answer answer, const char *unit, const char *sentence);

/* The same for a line of a text. Returns REFUSED. */
int refuse_line(const char *name, size_t line, uint64_t number, const char *sentence);

/* The same for a line of PMD fields where something else was due than the word that stands there: FIELD, or BITS where
   the line has ended and the word is empty. Returns REFUSED. */
int refuse_word(const char *name, size_t line, const char *word, size_t length, const char *due);

/* "ballastwren: NAME: sentence". Returns TROUBLE. */
int trouble(const char *name, const char *sentence);

/* "ballastwren: NAME: sentence", of something that is no fault. */
void note(const char *name, const char *sentence);

/* "refused", a member of a JSON object. */
void print_refused_member(FILE *to, bw_answer answer);

/* The sentence that goes with a refusal's number. */
const char *refusal_sentence(uint64_t number);

#endif
