/*
 * Calls the archive for a program that does not link it: batches of calls on standard input, their outcomes on standard
 * output. So a call that faults is told with its input, and the archive may be for another processor, under an emulator.
 *
 * A batch is a 32-bit count of bytes and then as many bytes of calls, each a `struct call` and the bytes of its four
 * ranges; the outcomes come back in the same form, each a `struct outcome` and the buffer's bytes. All is little-endian.
 *
 * Each lent range stands right before or right after a page that may not be touched, and the bytes on its other side
 * are looked at afterwards: a call that reads past its range on the guarded side, writes past it on either or changes
 * what it was lent to read is told as trouble.
 */
#include <setjmp.h>
#include <signal.h>
#include <stdbool.h>
#include <stdio.h>
#include <stdlib.h>
#include <string.h>
#include <sys/mman.h>
#include <unistd.h>

#include "ballastwren.h"

enum { CHECK, READ, SCRUB, SHEET_CHECK, LOOKUP, PMD_READ, PMD_WRITE, GAIN, OBJECTS_APPLY, OBJECTS_CLEAR };
enum { FAULT = 1, OVERWRITTEN = 2, INPUT_CHANGED = 4 };

struct call {
    uint32_t function;
    uint32_t scalar; /* kind, gain, element, or whether main is lent as backup too */
    uint32_t at_end; /* whether the guard stands after the ranges or before them */
    uint32_t first_len, second_len, third_len, buffer_len;
};

struct outcome {
    uint64_t number, value;
    uint32_t trouble, buffer_len;
};

/* Guards and arenas are multiples of this, which no processor's page is larger than. An arena holds a keep sheet as long
   as 65,535 labels and as many numbers would make it. */
#define PAGE 65536
#define ARENA (32 * PAGE)
#define MARGIN 256
#define FILLER 0xC3

struct range {
    uint8_t *arena;
    uint8_t *bytes;
    uint8_t *margin;
    const uint8_t *given;
    size_t len;
};

static struct range first, second, third, buffer;
static sigjmp_buf fault;

static void die(const char *what)
{
    perror(what);
    exit(1);
}

static void on_fault(int signal)
{
    (void)signal;
    siglongjmp(fault, 1);
}

/* Memory between two guards. */
static uint8_t *make_arena(void)
{
    size_t whole = ARENA + 3 * PAGE;
    uint8_t *start = mmap(NULL, whole, PROT_NONE, MAP_PRIVATE | MAP_ANONYMOUS, -1, 0);
    if (start == MAP_FAILED)
        die("mmap");
    start += PAGE + (PAGE - (uintptr_t)start % PAGE) % PAGE;
    if (mprotect(start, ARENA, PROT_READ | PROT_WRITE) != 0)
        die("mprotect");
    return start;
}

/* Lends a copy of the bytes, and answers where they end. An empty range is NULL at one end and a good pointer at the
   other. */
static const uint8_t *lend(struct range *range, const uint8_t *given, size_t len, bool at_end)
{
    if (len + MARGIN > ARENA) {
        fprintf(stderr, "a range of %zu bytes is too long\n", len);
        exit(1);
    }
    range->given = given;
    range->len = len;
    range->bytes = at_end ? range->arena + ARENA - len : range->arena;
    range->margin = at_end ? range->bytes - MARGIN : range->bytes + len;
    memcpy(range->bytes, given, len);
    memset(range->margin, FILLER, MARGIN);
    if (len == 0 && at_end)
        range->bytes = NULL;
    return given + len;
}

static uint32_t look(const struct range *range, bool lent_to_write)
{
    uint32_t trouble = 0;
    for (size_t i = 0; i < MARGIN; i++)
        if (range->margin[i] != FILLER)
            trouble = OVERWRITTEN;
    if (!lent_to_write && range->len > 0 && memcmp(range->bytes, range->given, range->len) != 0)
        trouble |= INPUT_CHANGED;
    return trouble;
}

/* The three numbers that a look-up has beside its answer go to the front of the buffer, and the value after them. */
static bw_answer lookup(bool one_pack)
{
    const struct range *backup = one_pack ? &first : &second;
    bw_found found = bw_lookup(first.bytes, first.len, backup->bytes, backup->len, third.bytes, third.len);
    uint64_t beside[3] = {found.from, found.start, (uint64_t)found.total};
    memcpy(buffer.bytes, beside, sizeof beside);
    const uint8_t *value = bw_found_value(found, first.bytes, backup->bytes);
    if (value != NULL)
        memcpy(buffer.bytes + sizeof beside, value, found.value);
    return (bw_answer){found.number, found.value};
}

static bw_answer call(const struct call *c)
{
    bw_object *table = (bw_object *)buffer.bytes;
    size_t entries = buffer.len / sizeof *table;
    switch (c->function) {
    case CHECK:
        return bw_check(first.bytes, first.len);
    case READ:
        return bw_read(first.bytes, first.len, (uint32_t *)buffer.bytes, buffer.len / 4);
    case SCRUB:
        return bw_scrub(first.bytes, first.len, second.bytes, second.len, buffer.bytes, buffer.len);
    case SHEET_CHECK:
        return bw_sheet_check(first.bytes, first.len);
    case LOOKUP:
        return lookup(c->scalar);
    case PMD_READ:
        return bw_pmd_read(c->scalar, first.bytes, first.len, (uint32_t *)buffer.bytes, buffer.len / 4);
    case PMD_WRITE:
        return bw_pmd_write(c->scalar, (const uint32_t *)first.bytes, first.len / 4, buffer.bytes, buffer.len);
    case OBJECTS_APPLY:
        return bw_objects_apply(c->scalar, first.bytes, first.len, table, entries);
    case OBJECTS_CLEAR:
        return bw_objects_clear(c->scalar, table, entries);
    default: {
        bw_gain_answer g = bw_gain(c->scalar);
        return (bw_answer){g.number, (uint64_t)g.muted << 32 | (uint32_t)g.half_db};
    }
    }
}

/* Carries out one call; answers its size, and appends its outcome at `out`. */
static size_t carry_out(const uint8_t *in, uint8_t **out)
{
    struct call c;
    memcpy(&c, in, sizeof c);
    const uint8_t *given = in + sizeof c;
    given = lend(&first, given, c.first_len, c.at_end);
    given = lend(&second, given, c.second_len, c.at_end);
    given = lend(&third, given, c.third_len, c.at_end);
    given = lend(&buffer, given, c.buffer_len, c.at_end);
    struct outcome told = {0, 0, FAULT, c.buffer_len};
    if (sigsetjmp(fault, 0) == 0) {
        bw_answer answer = call(&c);
        told.number = answer.number;
        told.value = answer.value;
        told.trouble = 0;
    }
    told.trouble |= look(&first, false) | look(&second, false) | look(&third, false) | look(&buffer, true);
    memcpy(*out, &told, sizeof told);
    if (c.buffer_len > 0)
        memcpy(*out + sizeof told, buffer.bytes, c.buffer_len);
    *out += sizeof told + c.buffer_len;
    return (size_t)(given - in);
}

/* Reads exactly `len` bytes; false where the input ends before the first of them. */
static bool take(void *bytes, size_t len)
{
    for (size_t got = 0; got < len;) {
        ssize_t now = read(STDIN_FILENO, (uint8_t *)bytes + got, len - got);
        if (now < 0)
            die("read");
        if (now == 0 && got == 0)
            return false;
        if (now == 0) {
            fprintf(stderr, "the input ends inside a batch\n");
            exit(1);
        }
        got += (size_t)now;
    }
    return true;
}

static void give(const void *bytes, size_t len)
{
    for (size_t given = 0; given < len;) {
        ssize_t now = write(STDOUT_FILENO, (const uint8_t *)bytes + given, len - given);
        if (now < 0)
            die("write");
        given += (size_t)now;
    }
}

/* An outcome is never longer than its call, so the outcomes fit where the calls stood, after their own size. */
static void carry_out_batch(uint32_t size)
{
    uint8_t *calls = malloc(size);
    uint8_t *outcomes = malloc(sizeof(uint32_t) + size);
    if (calls == NULL || outcomes == NULL)
        die("malloc");
    uint8_t *end = outcomes + sizeof(uint32_t);
    take(calls, size);
    for (size_t at = 0; at < size;)
        at += carry_out(calls + at, &end);
    uint32_t told = (uint32_t)(end - outcomes - sizeof(uint32_t));
    memcpy(outcomes, &told, sizeof told);
    give(outcomes, sizeof told + told);
    free(calls);
    free(outcomes);
}

int main(void)
{
    struct sigaction action = {.sa_handler = on_fault, .sa_flags = SA_NODEFER};
    sigaction(SIGSEGV, &action, NULL);
    sigaction(SIGBUS, &action, NULL);
    first.arena = make_arena();
    second.arena = make_arena();
    third.arena = make_arena();
    buffer.arena = make_arena();
    uint32_t size;
    while (take(&size, sizeof size))
        carry_out_batch(size);
    return 0;
}
