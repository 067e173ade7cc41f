/* Fields as members of a JSON object: every number as it stands, and beside it what it means. */
#include "escape.h"
#include "pmd.h"
#include "words.h"

const char *const beside[GROUP + 1][BESIDE] = {
    [SPEAKER_LAYOUT] = {"speakers"}, [LANGUAGE] = {"language"}, [OBJECT_CLASS] = {"class_name"},
    [GAIN] = {"muted", "gain_db"}, [FRAME_RATE] = {"frames_per_second"}, [PROGRAM_CONFIG] = {"program"},
    [NAME] = {"name"}, [PAIRS] = {"closing_parameters"}
};

/* Whether it is muted, or how many decibels it is. */
static void print_gain(FILE *to, size_t which, uint32_t number)
{
    const bw_gain_answer gain = bw_gain(number);
    const int half = (int)gain.half_db;

    if (which == 0)
        fputs(gain.muted ? "true" : "false", to);
    else if (gain.muted)
        fputs("null", to);
    else
        fprintf(to, "%s%d.%d", half < 0 ? "-" : "", (half < 0 ? -half : half) / 2, half % 2 != 0 ? 5 : 0);
}

static void print_bytes(FILE *to, const uint32_t *numbers)
{
    uint8_t bytes[BW_PMD_VALUE_MAX];
    size_t count = 0;

    for (; numbers[count] != 0; count++)
        bytes[count] = (uint8_t)numbers[count];
    print_json_text(to, bytes, count);
}

void print_meaning(FILE *to, enum form form, size_t which, const uint32_t *numbers)
{
    const char *quote = form == GAIN || form == FRAME_RATE ? "" : "\"";

    fputs(quote, to);
    if (form == SPEAKER_LAYOUT)
        fputs(speakers_word(*numbers), to);
    if (form == LANGUAGE)
        print_language(to, *numbers);
    if (form == OBJECT_CLASS)
        fputs(class_word(*numbers), to);
    if (form == GAIN)
        print_gain(to, which, *numbers);
    if (form == FRAME_RATE)
        fputs(frame_rate_word(*numbers), to);
    if (form == PROGRAM_CONFIG)
        fputs(program_word(*numbers), to);
    if (form == NAME)
        print_bytes(to, numbers);
    fputs(quote, to);
}

static size_t print_elements(FILE *to, const struct field *field, const uint32_t *numbers)
{
    size_t at = 0;

    fprintf(to, "\"%s\":[", field->key);
    for (; numbers[at] != 0; at++)
        fprintf(to, at > 0 ? ",%lu" : "%lu", (unsigned long)numbers[at]);
    putc(']', to);
    return at + 1;
}

static size_t print_text(FILE *to, const struct field *field, const uint32_t *numbers)
{
    size_t at = 0;

    fprintf(to, "\"%s\":", beside[NAME][0]);
    print_meaning(to, NAME, 0, numbers);
    fprintf(to, ",\"%s\":\"", field->key);
    for (; numbers[at] != 0; at++)
        fprintf(to, "%02lX", (unsigned long)numbers[at]);
    putc('"', to);
    return at + 1;
}

/* The pairs before the closing one, and the parameters of that. */
static size_t print_pairs(FILE *to, const struct field *field, const uint32_t *numbers)
{
    size_t at = 0;

    fprintf(to, "\"%s\":[", field->key);
    for (; numbers[at] != 0; at += 2)
        fprintf(to, "%s{\"presentation\":%lu,\"parameters\":%lu}", at > 0 ? "," : "", (unsigned long)numbers[at],
                (unsigned long)numbers[at + 1]);
    fprintf(to, "],\"%s\":%lu", beside[PAIRS][0], (unsigned long)numbers[at + 1]);
    return at + 2;
}

/* A field of one number. */
static void print_one(FILE *to, const struct field *field, const uint32_t *number)
{
    fprintf(to, "\"%s\":", field->key);
    if (field->form == YES_NO)
        fputs(*number == 1 ? "true" : "false", to);
    else
        fprintf(to, "%lu", (unsigned long)*number);
    for (size_t i = 0; i < BESIDE && beside[field->form][i] != NULL; i++) {
        fprintf(to, ",\"%s\":", beside[field->form][i]);
        print_meaning(to, field->form, i, number);
    }
}

static size_t print_fields(FILE *to, const struct fields *fields, const uint32_t *numbers);

/* What a flag opens as an object, null where it opens nothing. */
static size_t print_group(FILE *to, const struct field *field, const uint32_t *numbers)
{
    fprintf(to, "\"%s\":", field->key);
    if (numbers[0] == 1)
        return 1 + print_fields(to, field->group, numbers + 1);
    fputs("null", to);
    return 1;
}

/* One field. Returns how many numbers it took. */
static size_t print_field(FILE *to, const struct field *field, const uint32_t *numbers)
{
    switch (field->form) {
    case ELEMENTS:
        return print_elements(to, field, numbers);
    case NAME:
        return print_text(to, field, numbers);
    case PAIRS:
        return print_pairs(to, field, numbers);
    case GROUP:
        return print_group(to, field, numbers);
    default:
        print_one(to, field, numbers);
        return 1;
    }
}

/* Fields as an object. Returns how many numbers they took. */
static size_t print_fields(FILE *to, const struct fields *fields, const uint32_t *numbers)
{
    size_t at = 0;

    for (size_t i = 0; i < fields->count; i++) {
        putc(i > 0 ? ',' : '{', to);
        at += print_field(to, &fields->list[i], numbers + at);
    }
    putc('}', to);
    return at;
}

void print_json_records(FILE *to, const struct kind *kind, const uint32_t *numbers, size_t count)
{
    putc('[', to);
    for (size_t at = 0; at < count;) {
        if (at > 0)
            putc(',', to);
        at += print_fields(to, &kind->record, numbers + at);
    }
    putc(']', to);
}

void print_json_members(FILE *to, const struct kind *kind, const uint32_t *numbers, size_t count)
{
    size_t at = 0;

    if (kind->once != NULL) {
        at += print_field(to, kind->once, numbers);
        putc(',', to);
    }
    fputs("\"records\":", to);
    print_json_records(to, kind, numbers + at, count - at);
}
