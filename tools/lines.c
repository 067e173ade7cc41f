#include "lines.h"

#include <string.h>

struct lines lines_of(const uint8_t *text, size_t length)
{
    const char *start = (const char *)text;
    const struct lines lines = {start, start, start + length, 0};

    return lines;
}

static bool is_space(char c)
{
    return c == ' ' || c == '\t' || c == '\r';
}

void skip_space(struct lines *lines)
{
    while (lines->at < lines->stop && is_space(*lines->at))
        lines->at++;
    if (lines->at < lines->stop && *lines->at == '#')
        lines->at = lines->stop;
}

bool next_line(struct lines *lines)
{
    const char *from = lines->number == 0 ? lines->at : lines->stop + 1;

    while (from < lines->end) {
        const char *stop = memchr(from, '\n', (size_t)(lines->end - from));

        lines->at = from;
        lines->stop = stop != NULL ? stop : lines->end;
        lines->number++;
        skip_space(lines);
        if (lines->at < lines->stop)
            return true;
        from = lines->stop + 1;
    }
    return false;
}

struct word next_word(struct lines *lines)
{
    struct word word;

    skip_space(lines);
    word.start = lines->at;
    while (lines->at < lines->stop && !is_space(*lines->at))
        lines->at++;
    word.length = (size_t)(lines->at - word.start);
    return word;
}

struct word word_ahead(const struct lines *lines)
{
    struct lines ahead = *lines;

    return next_word(&ahead);
}

bool word_is(struct word word, const char *text)
{
    return word.length == strlen(text) && memcmp(word.start, text, word.length) == 0;
}

bool word_number(struct word word, uint32_t *number)
{
    uint64_t sum = 0;

    for (size_t i = 0; i < word.length; i++) {
        const char c = word.start[i];

        if (c < '0' || c > '9')
            return false;
        sum = sum * 10 + (uint64_t)(c - '0');
        if (sum > UINT32_MAX)
            sum = UINT32_MAX;
    }
    *number = (uint32_t)sum;
    return word.length > 0;
}
