#include "words.h"

#include <stdlib.h>

#include "ballastwren.h"

struct entry {
    uint32_t number;
    const char *word;
};

static const struct entry speakers[] = {
    {0, "2.0"},   {1, "3.0"},   {2, "5.1"},   {3, "5.1.2"},
    {4, "5.1.4"}, {5, "7.1.4"}, {6, "9.1.6"}, {29, "portable-speakers"},
    {30, "portable-headphone"}, {31, "not-indicated"}
};

static const struct entry classes[] = {
    {0, "dialog"},          {1, "vds"},             {2, "voiceover"}, {3, "generic"},
    {4, "spoken-subtitle"}, {5, "emergency-alert"}, {6, "emergency-information"}
};

static const struct entry frame_rates[] = {
    {1, "23.98"}, {2, "24"}, {3, "25"}, {4, "29.97"}, {5, "30"}
};

/* As the table prints them, though 5, 8, 9, 10, 16 and 17 have a channel less there than the rows around them. */
static const struct entry programs[] = {
    {0, "5.1+2"},     {1, "5.1+1+1"},     {2, "4+4"},            {3, "4+2+2"},
    {4, "4+2+1+1"},   {5, "4+1+1+1"},     {6, "2+2+2+2"},        {7, "2+2+2+1+1"},
    {8, "2+2+1+1+1"}, {9, "2+1+1+1+1+1"}, {10, "1+1+1+1+1+1+1"}, {11, "5.1"},
    {12, "4+2"},      {13, "4+1+1"},      {14, "2+2+2"},         {15, "2+2+1+1"},
    {16, "2+1+1+1"},  {17, "1+1+1+1+1"},  {18, "4"},             {19, "2+2"},
    {20, "2+1+1"},    {21, "1+1+1+1"},    {22, "7.1"},           {23, "7.1-screen"}
};

enum {
    SPEAKERS = sizeof speakers / sizeof speakers[0],
    CLASSES = sizeof classes / sizeof classes[0],
    FRAME_RATES = sizeof frame_rates / sizeof frame_rates[0],
    PROGRAMS = sizeof programs / sizeof programs[0],
    GAINS = 64 /* values of a gain field */
};

static const char *word_of(const struct entry *entries, size_t count, uint32_t number)
{
    for (size_t i = 0; i < count; i++)
        if (entries[i].number == number)
            return entries[i].word;
    return NULL;
}

static bool number_of(const struct entry *entries, size_t count, struct word word, uint32_t *number)
{
    for (size_t i = 0; i < count; i++)
        if (word_is(word, entries[i].word)) {
            *number = entries[i].number;
            return true;
        }
    return false;
}

const char *speakers_word(uint32_t number)
{
    return word_of(speakers, SPEAKERS, number);
}

const char *class_word(uint32_t number)
{
    return word_of(classes, CLASSES, number);
}

bool read_speakers(struct word word, uint32_t *number)
{
    return number_of(speakers, SPEAKERS, word, number);
}

bool read_class(struct word word, uint32_t *number)
{
    return number_of(classes, CLASSES, word, number);
}

const char *frame_rate_word(uint32_t number)
{
    return word_of(frame_rates, FRAME_RATES, number);
}

const char *program_word(uint32_t number)
{
    return word_of(programs, PROGRAMS, number);
}

bool read_frame_rate(struct word word, uint32_t *number)
{
    return number_of(frame_rates, FRAME_RATES, word, number);
}

bool read_program(struct word word, uint32_t *number)
{
    return number_of(programs, PROGRAMS, word, number);
}

void print_language(FILE *to, uint32_t langcod)
{
    for (int shift = 10; shift >= 0; shift -= 5) {
        const uint32_t code = langcod >> shift & 31;

        if (code > 0)
            putc((int)('a' + code - 1), to);
    }
}

/* The code of the letter at the front of what is left of a language, 0 if there is none. */
static uint32_t take_code(struct word *left)
{
    if (left->length == 0 || left->start[0] < 'a' || left->start[0] > 'z')
        return 0;
    left->length--;
    return (uint32_t)(*left->start++ - 'a' + 1);
}

bool read_language(struct word word, uint32_t *langcod)
{
    const uint32_t first = take_code(&word);
    const uint32_t second = take_code(&word);
    const uint32_t third = take_code(&word);

    *langcod = first << 10 | second << 5 | third;
    return second > 0 && word.length == 0;
}

void print_decibels(FILE *to, int32_t half_db)
{
    const int size = abs((int)half_db);

    fprintf(to, "%s%d.%d", half_db < 0 ? "-" : half_db > 0 ? "+" : "", size / 2, size % 2 * 5);
}

/* A number with at most one decimal, 0 or 5, as halves. */
static bool read_halves(struct word word, int32_t *halves)
{
    const bool sign = word.length > 0 && (word.start[0] == '-' || word.start[0] == '+');
    const bool minus = sign && word.start[0] == '-';
    struct word whole = {word.start + sign, word.length - sign};
    uint32_t number, half = 0;

    if (whole.length > 2 && whole.start[whole.length - 2] == '.') {
        const char decimal = whole.start[whole.length - 1];

        if (decimal != '0' && decimal != '5')
            return false;
        half = decimal == '5';
        whole.length -= 2;
    }
    if (!word_number(whole, &number) || number > GAINS)
        return false;
    *halves = (int32_t)(2 * number + half) * (minus ? -1 : 1);
    return true;
}

bool read_decibels(struct word word, uint32_t *gain)
{
    int32_t halves;

    if (!read_halves(word, &halves))
        return false;
    for (*gain = 0; *gain < GAINS; ++*gain) {
        const bw_gain_answer answer = bw_gain(*gain);

        if (answer.number == BW_DONE && !answer.muted && answer.half_db == halves)
            return true;
    }
    return false;
}
