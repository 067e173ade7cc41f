/* Bytes shown as text, so that no byte of an input can steer a terminal. */
#ifndef ESCAPE_H
#define ESCAPE_H

#include <stddef.h>
#include <stdint.h>
#include <stdio.h>

/* The bytes of the well-formed UTF-8 character at the front of `bytes`, 0 if there is none. */
size_t character(const uint8_t *bytes, size_t count, uint32_t *code);

/* Printable characters as they stand, \" and \\, and every other byte as \xNN. */
void print_escaped(FILE *to, const uint8_t *bytes, size_t count);

/* A file's name or a word of a text, escaped in the same way. */
void print_name(FILE *to, const char *name);

/* The inside of a JSON string. A byte that belongs to no well-formed character becomes U+FFFD. */
void print_json_text(FILE *to, const uint8_t *bytes, size_t count);

/* Two capital hex digits for each byte. */
void print_hex(FILE *to, const uint8_t *bytes, size_t count);

#endif
