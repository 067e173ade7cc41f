/* A PMD value from the JSON that `pmd read --json` prints, with its members in any order. What says in words what a
   number means may be left out. Where it stands it must agree, or whoever changed the word alone would get a value that
   still means the old one. */
#include <stdlib.h>
#include <string.h>

#include "exits.h"
#include "hex.h"
#include "json.h"
#include "labels.h"
#include "pmd.h"
#include "refusals.h"

static const struct field pair_fields[] = {
    {"presentation", "presentation", NUMBER, NULL},
    {"parameters", "parameters", NUMBER, NULL}
};

static const struct fields pair = {pair_fields, 2};

/* The text, what it is to be, and where its numbers go. */
struct source {
    const char *name;
    const char *text;
    const struct kind *kind;
    struct numbers *to;
};

/* Its values. The first is the whole; no member and no element is number 0. */
static struct json_value values[TEXT_MAX + 1];

/* Tells that something stands where something else is due. Always false. */
static bool wrong_text(const struct source *source, struct word text, const char *due)
{
    size_t line = 1;

    for (const char *before = source->text; before < text.start; before++)
        line += *before == '\n';
    refuse_word(source->name, line, text.start, text.length, due);
    return false;
}

static bool wrong(const struct source *source, size_t at, const char *due)
{
    const struct json_value *value = &values[at];
    const size_t key = (size_t)(value->text.start - value->from);

    return wrong_text(source, (struct word){value->from, key + value->text.length}, due);
}

static void push(struct source *source, size_t at, uint32_t number)
{
    source->to->list[source->to->count] = number;
    source->to->places[source->to->count++] = (uint32_t)at;
}

/* The value of the first member of this name, 0 if there is none. */
static size_t find(size_t object, struct word name)
{
    for (size_t at = object + 1; at < values[object].next; at = values[at + 1].next)
        if (values[at].text.length == name.length + 2 && memcmp(values[at].text.start + 1, name.start, name.length) == 0)
            return at + 1;
    return 0;
}

/* The same for a member that must be there: tells its trouble where it is not. */
static size_t need(const struct source *source, size_t object, const char *name)
{
    const size_t at = find(object, (struct word){name, strlen(name)});
    char due[64];

    if (at == 0) {
        snprintf(due, sizeof due, "an object with \"%s\"", name);
        wrong(source, object, due);
    }
    return at;
}

static bool is_known(struct word name, const struct fields *fields)
{
    for (size_t i = 0; i < fields->count; i++) {
        const char *const *more = beside[fields->list[i].form];

        if (word_is(name, fields->list[i].key))
            return true;
        for (size_t k = 0; k < BESIDE; k++)
            if (more[k] != NULL && word_is(name, more[k]))
                return true;
    }
    return false;
}

/* Whether this is an object whose members are of these fields or those, and none stands there twice. */
static bool check_members(const struct source *source, size_t object, const struct fields *fields,
                          const struct fields *others)
{
    if (*values[object].text.start != '{')
        return wrong(source, object, "an object");
    for (size_t at = object + 1; at < values[object].next; at = values[at + 1].next) {
        const struct word name = {values[at].text.start + 1, values[at].text.length - 2};

        if (!is_known(name, fields) && !is_known(name, others))
            return wrong(source, at, "a member that is known here");
        if (find(object, name) != at + 1)
            return wrong(source, at, "a member that does not stand there already");
    }
    return true;
}

/* Whether a member, if it stands there, says just this. */
static bool says(const struct source *source, size_t object, const char *name, const char *meaning, const char *decides)
{
    const size_t at = find(object, (struct word){name, strlen(name)});
    char due[96];

    if (at == 0 || same_json(values[at].text, (struct word){meaning, strlen(meaning)}))
        return true;
    snprintf(due, sizeof due, "a member that agrees with \"%s\", which decides, or none", decides);
    return wrong(source, at, due);
}

/* Whether the members beside a field say what `pmd read --json` would say there. */
static bool agrees(const struct source *source, size_t object, const struct field *field, const uint32_t *numbers)
{
    const char *const *names = beside[field->form];
    bool good = true;

    for (size_t i = 0; good && source->to->accepted && i < BESIDE && names[i] != NULL; i++) {
        char *meaning = NULL;
        size_t size;
        FILE *to = open_memstream(&meaning, &size);

        if (to != NULL) {
            print_meaning(to, field->form, i, numbers);
            fclose(to);
        }
        if (meaning == NULL)
            exit(trouble(source->name, "there is no memory to compare its words with its numbers"));
        good = says(source, object, names[i], meaning, field->key);
        free(meaning);
    }
    return good;
}

/* The items of an array, each taken by `take`. */
static bool take_array(struct source *source, size_t array, bool (*take)(struct source *, size_t))
{
    if (*values[array].text.start != '[')
        return wrong(source, array, "an array");
    for (size_t at = array + 1; at < values[array].next; at = values[at].next)
        if (!take(source, at))
            return false;
    return true;
}

static bool take_number(struct source *source, size_t at)
{
    uint32_t number;

    if (!word_number(values[at].text, &number))
        return wrong(source, at, "a whole number");
    push(source, at, number);
    return true;
}

/* One of two words, which stand for 0 and 1. */
static bool take_either(struct source *source, size_t at)
{
    const bool yes = word_is(values[at].text, "true");

    push(source, at, yes);
    return yes || word_is(values[at].text, "false") || wrong(source, at, "true or false");
}

static bool take_element(struct source *source, size_t at)
{
    if (!take_number(source, at))
        return false;
    return source->to->list[source->to->count - 1] != 0 || wrong(source, at, "an element id, which is not 0,");
}

/* The bytes of a name in hex digits, and the 0 that closes it. */
static bool take_hex(struct source *source, size_t at)
{
    const struct word text = values[at].text;
    bool good = *text.start == '"' && text.length % 2 == 0;

    for (size_t i = 1; good && i + 1 < text.length; i += 2) {
        const int high = hex_digit(text.start[i]), low = hex_digit(text.start[i + 1]);

        good = high >= 0 && low >= 0 && high + low > 0;
        push(source, at, (uint32_t)(16 * high + low));
    }
    push(source, at, 0);
    return good || wrong(source, at, "a string of two hex digits for each byte, none of them 00,");
}

static bool take_fields(struct source *source, size_t object, const struct fields *fields);

static bool take_pair(struct source *source, size_t at)
{
    if (!take_fields(source, at, &pair))
        return false;
    return source->to->list[source->to->count - 2] != 0 || wrong(source, at, "a pair of a presentation that is not 0");
}

/* Pairs, and the closing one, of which the parameters stand beside them. */
static bool take_pairs(struct source *source, size_t object, size_t array)
{
    size_t last;

    if (!take_array(source, array, take_pair))
        return false;
    push(source, array, 0);
    last = need(source, object, beside[PAIRS][0]);
    return last != 0 && take_number(source, last);
}

/* An object for a flag that is set, null for one that is not. */
static bool take_group(struct source *source, size_t at, const struct fields *group)
{
    const bool none = word_is(values[at].text, "null");

    if (!none && *values[at].text.start != '{')
        return wrong(source, at, "an object or null");
    push(source, at, !none);
    return none || take_fields(source, at, group);
}

static bool take_field(struct source *source, size_t object, const struct field *field)
{
    const size_t at = need(source, object, field->key);
    const uint32_t *numbers = source->to->list + source->to->count;

    if (at == 0)
        return false;
    switch (field->form) {
    case YES_NO:
        return take_either(source, at);
    case ELEMENTS:
        if (!take_array(source, at, take_element))
            return false;
        push(source, at, 0);
        return true;
    case NAME:
        return take_hex(source, at) && agrees(source, object, field, numbers);
    case PAIRS:
        return take_pairs(source, object, at);
    case GROUP:
        return take_group(source, at, field->group);
    default:
        return take_number(source, at) && agrees(source, object, field, numbers);
    }
}

static bool take_fields(struct source *source, size_t object, const struct fields *fields)
{
    if (!check_members(source, object, fields, fields))
        return false;
    for (size_t i = 0; i < fields->count; i++)
        if (!take_field(source, object, &fields->list[i]))
            return false;
    return true;
}

static bool take_record(struct source *source, size_t at)
{
    return take_fields(source, at, &source->kind->record);
}

/* Whether the whole says that it is of the kind that is to be written. */
static bool check_kind(const struct source *source)
{
    const size_t at = need(source, 0, "kind");
    char number[16], name[16], title[64];

    snprintf(number, sizeof number, "%lu", (unsigned long)source->kind->number);
    snprintf(name, sizeof name, "\"%s\"", source->kind->name);
    snprintf(title, sizeof title, "\"%s\"", kind_title(source->kind->number));
    if (at == 0 || !word_is(values[at].text, number))
        return at != 0 && wrong(source, at, "the number of the kind that is to be written");
    return says(source, 0, "name", name, "kind") && says(source, 0, "title", title, "kind");
}

static bool take_whole(struct source *source)
{
    static const struct field whole_fields[] = {
        {NULL, "kind", NUMBER, NULL}, {NULL, "name", NUMBER, NULL}, {NULL, "title", NUMBER, NULL},
        {NULL, "records", NUMBER, NULL}
    };
    static const struct fields whole = {whole_fields, 4};
    const struct field *once = source->kind->once;
    const struct fields before = {once, once != NULL};
    size_t records;

    if (!check_members(source, 0, &whole, &before) || !check_kind(source))
        return false;
    if (once != NULL && !take_field(source, 0, once))
        return false;
    records = need(source, 0, "records");
    return records != 0 && take_array(source, records, take_record);
}

int parse_json(const char *name, const struct kind *kind, const uint8_t *text, size_t length, struct numbers *numbers)
{
    struct source source = {name, (const char *)text, kind, numbers};
    struct json json = {source.text, source.text + length, NULL, values, 0};
    size_t size = 0;

    numbers->count = 0;
    if (read_json(&json))
        return take_whole(&source) ? ACCEPTED : REFUSED;
    while (json.at + size < json.end && json.at[size] != '\n')
        size++;
    wrong_text(&source, (struct word){json.at, size}, json.due);
    return REFUSED;
}

int refuse_json(const char *name, const uint8_t *text, const struct numbers *numbers, size_t at, const char *due)
{
    const struct source source = {name, (const char *)text, NULL, NULL};

    wrong(&source, numbers->places[at], due);
    return REFUSED;
}
