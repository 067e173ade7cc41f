#include "json.h"

#include <stdlib.h>
#include <string.h>

#include "escape.h"
#include "hex.h"

/* Brackets within brackets: the whole, records, a record, a group, pairs, a pair. */
enum { DEPTH = 6 };

/* Notes what is due where something else stands. Always false. */
static bool due(struct json *json, const char *what)
{
    json->due = what;
    return false;
}

static char ahead(const struct json *json)
{
    return json->at < json->end ? *json->at : '\0';
}

/* Takes one of these characters if one stands there. */
static bool take(struct json *json, const char *any)
{
    const bool good = ahead(json) != '\0' && strchr(any, ahead(json)) != NULL;

    json->at += good;
    return good;
}

static void skip_blanks(struct json *json)
{
    while (take(json, " \t\r\n"))
        ;
}

static bool take_word(struct json *json, const char *word)
{
    const size_t size = strlen(word);
    const bool good = (size_t)(json->end - json->at) >= size && memcmp(json->at, word, size) == 0;

    json->at += good ? size : 0;
    return good;
}

static bool take_digits(struct json *json)
{
    const char *from = json->at;

    while (take(json, "0123456789"))
        ;
    return json->at > from || due(json, "a digit");
}

static bool take_number(struct json *json)
{
    take(json, "-");
    if (!take(json, "0") && !take_digits(json))
        return false;
    if (take(json, ".") && !take_digits(json))
        return false;
    if (!take(json, "eE"))
        return true;
    take(json, "+-");
    return take_digits(json);
}

/* What follows a backslash. */
static bool take_escape(struct json *json, uint32_t *code)
{
    static const char meant[] = "\"\"\\\\//b\bf\fn\nr\rt\t"; /* each escape and what it stands for */

    if (!take(json, "u")) {
        if (!take(json, "\"\\/bfnrt"))
            return due(json, "an escape of JSON");
        *code = (uint8_t)strchr(meant, json->at[-1])[1];
        return true;
    }
    *code = 0;
    for (int i = 0; i < 4; i++, json->at++) {
        if (hex_digit(ahead(json)) < 0)
            return due(json, "a hex digit");
        *code = *code << 4 | (uint32_t)hex_digit(ahead(json));
    }
    return true;
}

/* A character inside a string, or one half of it if it stands as two escapes. */
static bool take_half(struct json *json, uint32_t *code)
{
    const size_t size = character((const uint8_t *)json->at, (size_t)(json->end - json->at), code);

    if (size == 0 || *code < ' ')
        return due(json, "a character of UTF-8, and no control,");
    json->at += size;
    return *code != '\\' || take_escape(json, code);
}

static bool take_string(struct json *json)
{
    uint32_t code = 0;

    if (!take(json, "\""))
        return due(json, "a string in double quotes");
    while (json->at < json->end && *json->at != '"')
        if (!take_half(json, &code))
            return false;
    return take(json, "\"") || due(json, "the closing double quote");
}

static bool take_value(struct json *json, bool key, int depth);

static bool take_member(struct json *json, int depth)
{
    struct json_value *key = &json->values[json->count];

    if (!take_value(json, true, 0))
        return false;
    if (!take(json, ":"))
        return due(json, "':'");
    if (!take_value(json, false, depth))
        return false;
    key[1].from = key->from;
    return true;
}

/* What stands in brackets: keys and values of an object, or values of an array. */
static bool take_items(struct json *json, bool object, int depth)
{
    const char *close = object ? "}" : "]";

    if (depth == 0)
        return due(json, "something that is not nested as deep");
    json->at++;
    skip_blanks(json);
    if (take(json, close))
        return true;
    do {
        if (!(object ? take_member(json, depth - 1) : take_value(json, false, depth - 1)))
            return false;
    } while (take(json, ","));
    return take(json, close) || due(json, object ? "',' or '}'" : "',' or ']'");
}

static bool begins_number(char first)
{
    return first == '-' || (first >= '0' && first <= '9');
}

static bool take_any(struct json *json, bool key, int depth)
{
    const char first = ahead(json);

    if (key || first == '"')
        return take_string(json);
    if (first == '{' || first == '[')
        return take_items(json, first == '{', depth);
    if (begins_number(first))
        return take_number(json);
    return take_word(json, "true") || take_word(json, "false") || take_word(json, "null") || due(json, "a value");
}

/* A value and the blanks around it. */
static bool take_value(struct json *json, bool key, int depth)
{
    struct json_value *value = &json->values[json->count++];

    skip_blanks(json);
    value->from = value->text.start = json->at;
    if (!take_any(json, key, depth))
        return false;
    value->text.length = (size_t)(json->at - value->text.start);
    value->next = json->count;
    skip_blanks(json);
    return true;
}

bool read_json(struct json *json)
{
    json->count = 0;
    if (!take_value(json, false, DEPTH))
        return false;
    return json->at == json->end || due(json, "the end of the text");
}

/* A character inside a string that is well-formed. */
static uint32_t take_code(struct json *json)
{
    uint32_t code = 0, low = 0;
    struct json after;

    take_half(json, &code);
    after = *json;
    if (code >> 10 != 0xD800 >> 10 || !take_half(&after, &low) || low >> 10 != 0xDC00 >> 10)
        return code;
    *json = after;
    return 0x10000 + ((code & 0x3FF) << 10 | (low & 0x3FF));
}

static bool same_string(struct word one, struct word other)
{
    struct json left = {.at = one.start + 1, .end = one.start + one.length - 1};
    struct json right = {.at = other.start + 1, .end = other.start + other.length - 1};

    while (left.at < left.end && right.at < right.end)
        if (take_code(&left) != take_code(&right))
            return false;
    return left.at == left.end && right.at == right.end;
}

bool same_json(struct word one, struct word other)
{
    if (*one.start == '"' && *other.start == '"')
        return same_string(one, other);
    if (begins_number(*one.start) && begins_number(*other.start))
        return strtod(one.start, NULL) == strtod(other.start, NULL);
    return one.length == other.length && memcmp(one.start, other.start, one.length) == 0;
}
