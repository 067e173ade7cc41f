/* A PMD value from its words: what `pmd read` prints, or bare numbers. */
#include <string.h>

#include "exits.h"
#include "hex.h"
#include "lines.h"
#include "pmd.h"
#include "refusals.h"
#include "words.h"

/* Where the reading of a text stands. */
struct parse {
    const char *name;
    struct lines lines;
    struct numbers *to;
};

static void push(struct parse *parse, uint32_t number)
{
    parse->to->list[parse->to->count] = number;
    parse->to->places[parse->to->count] = (uint32_t)parse->lines.number;
    parse->to->count++;
}

/* Tells that the word, or the end of the line, stands where something else is due. Always false. */
static bool wrong(const struct parse *parse, struct word word, const char *due)
{
    refuse_word(parse->name, parse->lines.number, word.start, word.length, due);
    return false;
}

/* Takes one word that stands for one number. */
static bool take(struct parse *parse, bool (*read)(struct word, uint32_t *), const char *due)
{
    const struct word word = next_word(&parse->lines);
    uint32_t number;

    if (!read(word, &number))
        return wrong(parse, word, due);
    push(parse, number);
    return true;
}

static bool take_exactly(struct parse *parse, const char *text)
{
    const struct word word = next_word(&parse->lines);

    return word_is(word, text) || wrong(parse, word, text);
}

static bool read_yes_no(struct word word, uint32_t *number)
{
    *number = word_is(word, "yes");
    return *number == 1 || word_is(word, "no");
}

static bool take_gain(struct parse *parse)
{
    if (word_is(word_ahead(&parse->lines), "muted")) {
        next_word(&parse->lines);
        push(parse, 0);
        return true;
    }
    return take(parse, read_decibels, "muted, or a gain from -25.0 to +6.0 dB in halves,") && take_exactly(parse, "dB");
}

/* An id of the list. 0 closes the list and is not one. */
static bool read_element(struct word word, uint32_t *number)
{
    return word_number(word, number) && *number != 0;
}

/* The rest of the line: element ids, or `none`. */
static bool take_elements(struct parse *parse)
{
    const char *due = "an element id or none";
    const bool none = word_is(word_ahead(&parse->lines), "none");

    if (none)
        next_word(&parse->lines);
    else
        do {
            if (!take(parse, read_element, due))
                return false;
        } while (word_ahead(&parse->lines).length > 0);
    push(parse, 0);
    return true;
}

/* `5:9`: a presentation and its parameters. */
static bool read_pair(struct word word, uint32_t *presentation, uint32_t *parameters)
{
    const char *colon = memchr(word.start, ':', word.length);
    const size_t before = colon != NULL ? (size_t)(colon - word.start) : 0;

    return colon != NULL && word_number((struct word){word.start, before}, presentation) &&
           word_number((struct word){colon + 1, word.length - before - 1}, parameters);
}

/* Pairs up to the one of presentation 0, which closes the list and has parameters too. */
static bool take_pairs(struct parse *parse)
{
    uint32_t presentation, parameters;

    do {
        const struct word word = next_word(&parse->lines);

        if (!read_pair(word, &presentation, &parameters))
            return wrong(parse, word, "a pair such as 5:9, or 0:N, which closes the list,");
        push(parse, presentation);
        push(parse, parameters);
    } while (presentation != 0);
    return true;
}

/* The bytes of an escape after its backslash, 0 if it is none. */
static size_t escape(const char *at, const char *stop, uint32_t *byte)
{
    const size_t left = (size_t)(stop - at);

    if (left >= 1 && (at[0] == '"' || at[0] == '\\')) {
        *byte = (uint8_t)at[0];
        return 1;
    }
    if (left < 3 || at[0] != 'x' || hex_digit(at[1]) < 0 || hex_digit(at[2]) < 0)
        return 0;
    *byte = (uint32_t)(hex_digit(at[1]) * 16 + hex_digit(at[2]));
    return 3;
}

/* A name in double quotes: bytes as they stand, \", \\ and \xNN, but no byte 0, which closes a name. */
static bool take_name(struct parse *parse)
{
    struct lines *lines = &parse->lines;

    skip_space(lines);
    if (lines->at == lines->stop || *lines->at != '"')
        return wrong(parse, next_word(lines), "a name in double quotes");
    for (lines->at++; lines->at < lines->stop && *lines->at != '"'; lines->at++) {
        uint32_t byte = (uint8_t)*lines->at;

        if (byte == '\\') {
            const struct word rest = {lines->at, (size_t)(lines->stop - lines->at)};
            const size_t size = escape(lines->at + 1, lines->stop, &byte);

            if (size == 0 || byte == 0)
                return wrong(parse, rest, "one of \\\", \\\\ and \\x01 to \\xFF");
            lines->at += size;
        }
        if (byte == 0)
            return wrong(parse, (struct word){lines->at, 1}, "a byte of a name, which is not 0,");
        push(parse, byte);
    }
    if (lines->at == lines->stop)
        return wrong(parse, (struct word){lines->at, 0}, "the closing double quote");
    lines->at++;
    push(parse, 0);
    return true;
}

static bool take_fields(struct parse *parse, const struct fields *fields);

/* yes or no, and after yes what the flag opens. */
static bool take_group(struct parse *parse, const struct fields *group)
{
    if (!take(parse, read_yes_no, "yes or no"))
        return false;
    return parse->to->list[parse->to->count - 1] == 0 || take_fields(parse, group);
}

static bool take_field(struct parse *parse, const struct field *field)
{
    if (!take_exactly(parse, field->word))
        return false;
    switch (field->form) {
    case YES_NO:
        return take(parse, read_yes_no, "yes or no");
    case SPEAKER_LAYOUT:
        return take(parse, read_speakers, "a speaker layout, such as 5.1.4 or not-indicated,");
    case LANGUAGE:
        return take(parse, read_language, "a language of two or three small letters, a to z,");
    case OBJECT_CLASS:
        return take(parse, read_class, "an object class, such as dialog or generic,");
    case GAIN:
        return take_gain(parse);
    case FRAME_RATE:
        return take(parse, read_frame_rate, "a frame rate, 23.98, 24, 25, 29.97 or 30,");
    case PROGRAM_CONFIG:
        return take(parse, read_program, "a program configuration, such as 5.1+2 or 7.1-screen,");
    case ELEMENTS:
        return take_elements(parse);
    case NAME:
        return take_name(parse);
    case PAIRS:
        return take_pairs(parse);
    case GROUP:
        return take_group(parse, field->group);
    case NUMBER:
        break;
    }
    return take(parse, word_number, "a number");
}

static bool take_fields(struct parse *parse, const struct fields *fields)
{
    for (size_t i = 0; i < fields->count; i++)
        if (!take_field(parse, &fields->list[i]))
            return false;
    return true;
}

/* A line of fields, and nothing after them. */
static bool take_line(struct parse *parse, const struct fields *fields)
{
    if (!take_fields(parse, fields))
        return false;
    return word_ahead(&parse->lines).length == 0 || wrong(parse, next_word(&parse->lines), "the end of the line");
}

static bool take_bare_line(struct parse *parse)
{
    while (word_ahead(&parse->lines).length > 0)
        if (!take(parse, word_number, "a number"))
            return false;
    return true;
}

int parse_numbers(const char *name, const struct kind *kind, const uint8_t *text, size_t length, struct numbers *numbers)
{
    struct parse parse = {name, lines_of(text, length), numbers};
    bool once = kind != NULL && kind->once != NULL;

    numbers->count = 0;
    while (next_line(&parse.lines)) {
        const bool good = kind == NULL ? take_bare_line(&parse)
                          : once       ? take_line(&parse, &(struct fields){kind->once, 1})
                                       : take_line(&parse, &kind->record);

        if (!good)
            return REFUSED;
        once = false;
    }
    return ACCEPTED;
}
