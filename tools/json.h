/* JSON by RFC 8259, read strictly and no deeper than a PMD value is nested. */
#ifndef JSON_H
#define JSON_H

#include <stdbool.h>
#include <stddef.h>

#include "lines.h"

/* A value of the text. What it holds stands right after it: values of an array; of an object, keys and values in turn. */
struct json_value {
    const char *from; /* where it begins, with its key if it is the value of a member */
    struct word text; /* as it stands, brackets and quotes included */
    size_t next;      /* the value after all that it holds */
};

/* A text that is being read, and room for one value more than it has bytes. */
struct json {
    const char *at;
    const char *end;
    const char *due; /* what should stand at `at` where something else does */
    struct json_value *values;
    size_t count;
};

/* Reads a text that is one value, which becomes the first of `values`. Returns false where it is not, with `due`. */
bool read_json(struct json *json);

/* Whether two values that hold no others are the same however they are spelled: strings by their characters, numbers as
   numbers. Something stands after each, be it a byte 0. */
bool same_json(struct word one, struct word other);

#endif
