/* pmd read [--numbers | --json] KIND VALUE, pmd write [--numbers | --json] KIND [FIELDS [VALUE]] */
#include "pmd.h"

#include "commands.h"
#include "exits.h"
#include "files.h"
#include "labels.h"
#include "lines.h"
#include "refusals.h"

static void print_json(const struct kind *kind, const uint32_t *numbers, size_t count)
{
    printf("{\"kind\":%lu,\"name\":\"%s\",\"title\":\"%s\",", (unsigned long)kind->number, kind->name,
           kind_title(kind->number));
    print_json_members(stdout, kind, numbers, count);
    puts("}");
}

int read_value(const struct options *options)
{
    static uint8_t bytes[BW_PMD_VALUE_MAX + 1];
    static uint32_t numbers[BW_PMD_NUMBERS_MAX];
    struct input value;
    uint32_t number;
    bw_answer answer;

    if (!read_kind(options->operands[0], &number) || !read_input(options->operands[1], bytes, sizeof bytes, &value))
        return TROUBLE;
    answer = bw_pmd_read(number, value.bytes, value.length, numbers, BW_PMD_NUMBERS_MAX);
    if (answer.number != BW_DONE)
        return refuse_value(value.name, number, value.bytes, value.length, answer);
    if (options->numbers)
        print_numbers(stdout, "", numbers, (size_t)answer.value);
    else if (options->json)
        print_json(kind_of(number), numbers, (size_t)answer.value);
    else
        print_words(stdout, "", kind_of(number), numbers, (size_t)answer.value);
    return ACCEPTED;
}

static int parse(const struct options *options, const struct kind *kind, const struct input *text,
                 struct numbers *numbers)
{
    if (text->length > TEXT_MAX)
        return refuse_line(text->name, 0, BW_BIG, "a text has at most 262144 bytes");
    if (options->json)
        return parse_json(text->name, kind, text->bytes, text->length, numbers);
    return parse_numbers(text->name, options->numbers ? NULL : kind, text->bytes, text->length, numbers);
}

/* The archive counts numbers; whoever wrote the fields in words counts lines. */
static int refuse_numbers(const struct options *options, uint32_t kind, const struct input *text,
                          const struct numbers *numbers, bw_answer answer)
{
    const bool field = answer.number == BW_FIELD && answer.value < numbers->count;
    const bool is_27 = field && list_refused_for_27(kind, numbers, answer);

    if (options->json && field)
        return refuse_json(text->name, text->bytes, numbers, answer.value,
                           is_27 ? "a langcod without 27, which is no letter's code,"
                                 : "a number that is not reserved and fits its field");
    if (options->numbers && is_27)
        return refuse_because(text->name, answer, "number", no_letter);
    if (options->numbers || !field)
        return refuse(text->name, answer, "number");
    return refuse_line(text->name, numbers->places[answer.value], answer.number, refusal_sentence(answer.number));
}

int write_value(const struct options *options)
{
    static uint8_t text[TEXT_MAX + 1], value[BW_PMD_VALUE_MAX];
    static uint32_t list[TEXT_MAX + 1], places[TEXT_MAX + 1];
    struct numbers numbers = {list, places, 0, false};
    struct input input;
    uint32_t number;
    bw_answer answer;
    int status = ACCEPTED;

    if (!read_kind(options->operands[0], &number) ||
        !read_input(options->count > 1 ? options->operands[1] : "-", text, sizeof text, &input))
        return TROUBLE;
    if (kind_of(number) != NULL)
        status = parse(options, kind_of(number), &input, &numbers);
    if (status != ACCEPTED)
        return status;
    answer = bw_pmd_write(number, list, numbers.count, value, sizeof value);
    if (answer.number != BW_DONE)
        return refuse_numbers(options, number, &input, &numbers, answer);
    numbers.accepted = true;
    if (options->json)
        status = parse(options, kind_of(number), &input, &numbers);
    if (status != ACCEPTED)
        return status;
    if (!write_output(options->count > 2 ? options->operands[2] : "-", value, (size_t)answer.value, &input, 1))
        return TROUBLE;
    return ACCEPTED;
}
