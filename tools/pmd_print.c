/* Fields in words, and as bare numbers. */
#include "escape.h"
#include "pmd.h"
#include "words.h"

static void print_gain(FILE *to, uint32_t number)
{
    const bw_gain_answer gain = bw_gain(number);

    if (gain.muted) {
        fputs("muted", to);
        return;
    }
    print_decibels(to, gain.half_db);
    fputs(" dB", to);
}

/* A list of element ids up to its closing 0. Returns how many numbers it took. */
static size_t print_elements(FILE *to, const uint32_t *numbers)
{
    size_t at = 0;

    if (numbers[0] == 0)
        fputs("none", to);
    for (; numbers[at] != 0; at++)
        fprintf(to, at > 0 ? " %lu" : "%lu", (unsigned long)numbers[at]);
    return at + 1;
}

static size_t print_text(FILE *to, const uint32_t *numbers)
{
    uint8_t bytes[BW_PMD_VALUE_MAX];
    size_t at = 0;

    for (; numbers[at] != 0; at++)
        bytes[at] = (uint8_t)numbers[at];
    putc('"', to);
    print_escaped(to, bytes, at);
    putc('"', to);
    return at + 1;
}

/* Pairs up to the closing one, which stands there with its parameters. Returns how many numbers it took. */
static size_t print_pairs(FILE *to, const uint32_t *numbers)
{
    size_t at = 0;

    for (; numbers[at] != 0; at += 2)
        fprintf(to, "%lu:%lu ", (unsigned long)numbers[at], (unsigned long)numbers[at + 1]);
    fprintf(to, "0:%lu", (unsigned long)numbers[at + 1]);
    return at + 2;
}

/* A field of one number. */
static void print_one(FILE *to, enum form form, uint32_t number)
{
    switch (form) {
    case YES_NO:
        fputs(number == 1 ? "yes" : "no", to);
        break;
    case SPEAKER_LAYOUT:
        fputs(speakers_word(number), to);
        break;
    case LANGUAGE:
        print_language(to, number);
        break;
    case OBJECT_CLASS:
        fputs(class_word(number), to);
        break;
    case GAIN:
        print_gain(to, number);
        break;
    case FRAME_RATE:
        fputs(frame_rate_word(number), to);
        break;
    case PROGRAM_CONFIG:
        fputs(program_word(number), to);
        break;
    default:
        fprintf(to, "%lu", (unsigned long)number);
    }
}

static size_t print_fields(FILE *to, const struct fields *fields, const uint32_t *numbers);

/* The flag as yes or no, and after yes what it opens. Returns how many numbers it took. */
static size_t print_group(FILE *to, const struct fields *group, const uint32_t *numbers)
{
    print_one(to, YES_NO, numbers[0]);
    if (numbers[0] == 0)
        return 1;
    putc(' ', to);
    return 1 + print_fields(to, group, numbers + 1);
}

/* One field. Returns how many numbers it took. */
static size_t print_field(FILE *to, const struct field *field, const uint32_t *numbers)
{
    fprintf(to, "%s ", field->word);
    switch (field->form) {
    case ELEMENTS:
        return print_elements(to, numbers);
    case NAME:
        return print_text(to, numbers);
    case PAIRS:
        return print_pairs(to, numbers);
    case GROUP:
        return print_group(to, field->group, numbers);
    default:
        print_one(to, field->form, numbers[0]);
        return 1;
    }
}

/* Fields one after another. Returns how many numbers they took. */
static size_t print_fields(FILE *to, const struct fields *fields, const uint32_t *numbers)
{
    size_t at = 0;

    for (size_t i = 0; i < fields->count; i++) {
        if (i > 0)
            putc(' ', to);
        at += print_field(to, &fields->list[i], numbers + at);
    }
    return at;
}

void print_words(FILE *to, const char *indent, const struct kind *kind, const uint32_t *numbers, size_t count)
{
    size_t at = 0;

    if (kind->once != NULL) {
        fputs(indent, to);
        at += print_field(to, kind->once, numbers);
        putc('\n', to);
    }
    while (at < count) {
        fputs(indent, to);
        at += print_fields(to, &kind->record, numbers + at);
        putc('\n', to);
    }
}

void print_numbers(FILE *to, const char *indent, const uint32_t *numbers, size_t count)
{
    fputs(indent, to);
    for (size_t i = 0; i < count; i++)
        fprintf(to, i > 0 ? " %lu" : "%lu", (unsigned long)numbers[i]);
    putc('\n', to);
}
