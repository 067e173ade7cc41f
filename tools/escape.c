#include "escape.h"

#include <stdbool.h>
#include <string.h>

/* How many bytes the first byte of a character announces, and the bits of the code that it holds. */
static size_t announced(uint8_t first, uint32_t *code)
{
    if (first < 0x80) {
        *code = first;
        return 1;
    }
    if (first >= 0xC2 && first <= 0xDF) {
        *code = first & 0x1Fu;
        return 2;
    }
    if (first >= 0xE0 && first <= 0xEF) {
        *code = first & 0x0Fu;
        return 3;
    }
    if (first >= 0xF0 && first <= 0xF4) {
        *code = first & 0x07u;
        return 4;
    }
    return 0;
}

size_t character(const uint8_t *bytes, size_t count, uint32_t *code)
{
    static const uint32_t least[] = {0, 0, 0x80, 0x800, 0x10000};
    size_t size = count > 0 ? announced(bytes[0], code) : 0;

    if (size > count)
        return 0;
    for (size_t i = 1; i < size; i++) {
        if ((bytes[i] & 0xC0) != 0x80)
            return 0;
        *code = *code << 6 | (bytes[i] & 0x3Fu);
    }
    if (*code < least[size] || *code > 0x10FFFF || (*code >= 0xD800 && *code <= 0xDFFF))
        return 0;
    return size;
}

/* Controls, and the characters that show nothing or turn the direction of what follows. */
static bool is_printable(uint32_t code)
{
    static const uint32_t hidden[][2] = {
        {0x00, 0x1F},       {0x7F, 0x9F},       {0xAD, 0xAD},       {0x61C, 0x61C},     {0x180E, 0x180E},
        {0x200B, 0x200F},   {0x2028, 0x202E},   {0x2060, 0x206F},   {0xE000, 0xF8FF},   {0xFDD0, 0xFDEF},
        {0xFEFF, 0xFEFF},   {0xFFF0, 0xFFFB},   {0xFFFE, 0xFFFF},   {0xE0000, 0x10FFFF}
    };

    for (size_t i = 0; i < sizeof hidden / sizeof hidden[0]; i++)
        if (code >= hidden[i][0] && code <= hidden[i][1])
            return false;
    return true;
}

void print_escaped(FILE *to, const uint8_t *bytes, size_t count)
{
    size_t at = 0;

    while (at < count) {
        uint32_t code = 0;
        size_t size = character(bytes + at, count - at, &code);

        if (size == 0 || !is_printable(code)) {
            fprintf(to, "\\x%02X", (unsigned)bytes[at]);
            at++;
            continue;
        }
        if (code == '"' || code == '\\')
            putc('\\', to);
        fwrite(bytes + at, 1, size, to);
        at += size;
    }
}

void print_name(FILE *to, const char *name)
{
    print_escaped(to, (const uint8_t *)name, strlen(name));
}

void print_json_text(FILE *to, const uint8_t *bytes, size_t count)
{
    size_t at = 0;

    while (at < count) {
        uint32_t code = 0;
        size_t size = character(bytes + at, count - at, &code);

        if (size == 0) {
            fputs("\\uFFFD", to);
            at++;
        } else if (size < 4 && !is_printable(code)) {
            fprintf(to, "\\u%04X", (unsigned)code);
            at += size;
        } else {
            if (code == '"' || code == '\\')
                putc('\\', to);
            fwrite(bytes + at, 1, size, to);
            at += size;
        }
    }
}

void print_hex(FILE *to, const uint8_t *bytes, size_t count)
{
    for (size_t i = 0; i < count; i++)
        fprintf(to, "%02X", (unsigned)bytes[i]);
}
