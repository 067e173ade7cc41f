/* A text read line by line and word by word. '#' begins a comment where a word could begin. */
#ifndef LINES_H
#define LINES_H

#include <stdbool.h>
#include <stddef.h>
#include <stdint.h>

/* Bytes of the longest text that is read. */
#define TEXT_MAX 262144

struct lines {
    const char *at;   /* what is left of this line, up to `stop` */
    const char *stop;
    const char *end;  /* of the text */
    size_t number;    /* of this line, from 1; 0 before the first */
};

struct word {
    const char *start;
    size_t length; /* 0 where the line has no more words */
};

struct lines lines_of(const uint8_t *text, size_t length);

/* Moves to the next line that has a word; false at the end of the text. */
bool next_line(struct lines *lines);

struct word next_word(struct lines *lines);

/* The next word, which stays where it is. */
struct word word_ahead(const struct lines *lines);

/* Moves to where the next word begins, or to the end of the line. */
void skip_space(struct lines *lines);

bool word_is(struct word word, const char *text);

/* A number in decimal digits. One that 32 bits cannot hold is given as the largest that they can, which is too wide
   for every field and every tag. */
bool word_number(struct word word, uint32_t *number);

#endif
