/* PMD values in words. A value is a list of fields; this table says what the fields of each kind are called. */
#ifndef PMD_H
#define PMD_H

#include <stdbool.h>
#include <stddef.h>
#include <stdint.h>
#include <stdio.h>

#include "ballastwren.h"

/* How a field is put in words. */
enum form {
    NUMBER,
    YES_NO,
    SPEAKER_LAYOUT,
    LANGUAGE,
    OBJECT_CLASS,
    GAIN,
    FRAME_RATE,
    PROGRAM_CONFIG,
    ELEMENTS, /* element ids until one is 0 */
    NAME,     /* bytes until one is 0 */
    PAIRS,    /* pairs of presentation and parameters until a presentation is 0; the closing pair has parameters too */
    GROUP     /* a flag, and other fields after it if it is 1 */
};

struct fields {
    const struct field *list;
    size_t count;
};

struct field {
    const char *word; /* its name in words */
    const char *key;  /* its name in JSON where the number stands */
    enum form form;
    const struct fields *group; /* what stands after the flag of a GROUP; NULL for any other form */
};

struct kind {
    uint32_t number;
    const char *name;
    const struct field *once; /* the field before the first record, NULL if there is none */
    struct fields record;
};

/* The kind of this number, NULL if there is none. */
const struct kind *kind_of(uint32_t number);

/* Reads KIND, a name in either case or a number. Tells its trouble and returns false for anything else. */
bool read_kind(const char *text, uint32_t *number);

/* Prints the fields of a value: a line for each record after `indent`; the bare numbers on one line; JSON members. */
void print_words(FILE *to, const char *indent, const struct kind *kind, const uint32_t *numbers, size_t count);
void print_numbers(FILE *to, const char *indent, const uint32_t *numbers, size_t count);
void print_json_members(FILE *to, const struct kind *kind, const uint32_t *numbers, size_t count);

/* The records alone, without the field before the first of them, as a JSON array. */
void print_json_records(FILE *to, const struct kind *kind, const uint32_t *numbers, size_t count);

/* JSON members beside that of a field, by its form: what its numbers mean, but for PAIRS the closing parameters. */
enum { BESIDE = 2 };
extern const char *const beside[GROUP + 1][BESIDE];

/* Prints what such a member says of numbers that are not refused. */
void print_meaning(FILE *to, enum form form, size_t which, const uint32_t *numbers);

/* A text as numbers, and where each stands: its line, or in JSON its value. */
struct numbers {
    uint32_t *list;
    uint32_t *places;
    size_t count;
    bool accepted; /* by the archive, so that each means something */
};

/* Reads what print_words prints for this kind, or with no kind bare numbers. Tells a bad line and returns REFUSED. The
   text has at most TEXT_MAX bytes. */
int parse_numbers(const char *name, const struct kind *kind, const uint8_t *text, size_t length, struct numbers *numbers);

/* The same for an object as `pmd read --json` prints it. Reads it once more for numbers that are accepted, with what it
   says of them in words: that must agree. */
int parse_json(const char *name, const struct kind *kind, const uint8_t *text, size_t length, struct numbers *numbers);

/* Tells that a number of the text that parse_json read last stands where another one is due. Returns REFUSED. */
int refuse_json(const char *name, const uint8_t *text, const struct numbers *numbers, size_t at, const char *due);

/* Tells that a value is refused. Returns REFUSED. */
int refuse_value(const char *name, uint32_t kind, const uint8_t *value, size_t length, bw_answer answer);

/* Whether a list is refused, as FIELD, for a code 27 of a language, and the sentence that says why. */
bool list_refused_for_27(uint32_t kind, const struct numbers *numbers, bw_answer answer);
extern const char no_letter[];

#endif
