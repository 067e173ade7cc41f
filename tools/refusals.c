#include "refusals.h"

#include "escape.h"
#include "exits.h"

/* The refusal's name. The header has none for those of a table of objects. */
static const char *refusal_name(uint64_t number)
{
    static const char *const names[] = {"TABLE", "UNKNOWN", "STATIC", "FULL"};

    return number >= BW_TABLE && number <= BW_FULL ? names[number - BW_TABLE] : bw_refusal_name(number);
}

const char *refusal_sentence(uint64_t number)
{
    static const char *const sentences[] = {
        "nothing is wrong",
        "a pack has at most 32768 bytes and a PMD value at most 4096",
        "the bytes end before the pack does; it was cut off, or this is not a pack",
        "the first 16 bytes are not the key of an ST 2109 audio metadata pack",
        "a length is a byte from 00 to 7F, or 81 to 84 and that many bytes; this form is forbidden",
        "bytes follow the pack; one pack to a file, or its length is wrong",
        "a tag does not begin with 00 or 80 and has at most four bytes",
        "the tag, the length or the value runs past the end of the pack or Sync that holds it",
        "Config stands first and CRC last, and no Config, Sync or CRC stands inside a Sync",
        "a pack has at most 64 items and inner payloads, and at most 32 mappings",
        "a Config has two bytes of pack offset, then whole mappings of a tag and a 16-byte label",
        "a mapping takes neither tags 1 to 3 nor the labels of Config, Sync and CRC, and no tag or label twice",
        "a Sync has two numbers of two bytes each and at least one payload",
        "the CRC is not that of the bytes before it; the pack was damaged or changed",
        "this is not a keep sheet; 'ballastwren sheet make' makes one from text",
        "what must be written is too long; a pack has at most 32768 bytes with its CRC, a PMD value 4096",
        "it ends inside a record, or has no record at all",
        "a reserved value, or a number too wide for its field",
        "the bits after the last record are not all zero",
        "the kinds are 1 APD, 2 APN, 3 AOD, 4 XYZ, 5 AEN, 6 ESN and 7 ETD",
        "neither pack has a payload with this label; that a Config maps it is not enough",
        "an object table has at most 128 entries; used ones have no element twice, and no reserved or too wide number",
        "no entry of the object table has this element; an AOD value must set it first",
        "the entry of this element is not dynamic, so an XYZ value does not move it",
        "the object table has 128 entries, and fewer of them are free than the value has new elements"
    };

    return number < sizeof sentences / sizeof sentences[0] ? sentences[number] : "no such refusal is known here";
}

static void begin(const char *name)
{
    fputs("ballastwren: ", stderr);
    print_name(stderr, name);
    fputs(": ", stderr);
}

static void begin_refusal(const char *name, uint64_t number, const char *unit, uint64_t place)
{
    begin(name);
    fprintf(stderr, "refused: %s (%llu) at %s %llu: ", refusal_name(number), (unsigned long long)number, unit,
            (unsigned long long)place);
}

int refuse_because(const char *name, bw_answer answer, const char *unit, const char *sentence)
{
    begin_refusal(name, answer.number, unit, answer.value);
    fprintf(stderr, "%s\n", sentence);
    return REFUSED;
}

int refuse(const char *name, bw_answer answer, const char *unit)
{
    return refuse_because(name, answer, unit, refusal_sentence(answer.number));
}

int refuse_line(const char *name, size_t line, uint64_t number, const char *sentence)
{
    return refuse_because(name, (bw_answer){number, line}, "line", sentence);
}

int refuse_word(const char *name, size_t line, const char *word, size_t length, const char *due)
{
    const size_t shown = length < 40 ? length : 40;

    begin_refusal(name, length > 0 ? BW_FIELD : BW_BITS, "line", line);
    if (length > 0) {
        putc('\'', stderr);
        print_escaped(stderr, (const uint8_t *)word, shown);
        fprintf(stderr, "%s' stands", shown < length ? "..." : "");
    } else
        fputs("the line ends", stderr);
    fprintf(stderr, " where %s is due\n", due);
    return REFUSED;
}

void note(const char *name, const char *sentence)
{
    begin(name);
    fprintf(stderr, "%s\n", sentence);
}

int trouble(const char *name, const char *sentence)
{
    note(name, sentence);
    return TROUBLE;
}

void print_refused_member(FILE *to, bw_answer answer)
{
    fprintf(to, "\"refused\":{\"name\":\"%s\",\"number\":%llu,\"place\":%llu}", refusal_name(answer.number),
            (unsigned long long)answer.number, (unsigned long long)answer.value);
}
