#include "lent.h"

#include <stdio.h>
#include <stdlib.h>
#include <string.h>
#include <sys/mman.h>

/* No processor's page is larger. */
#define PAGE ((size_t)65536)

static void die(const char *what)
{
    perror(what);
    exit(2);
}

/* Guards, and what is lost to bring the pages to a multiple of PAGE. */
#define AROUND (3 * PAGE)

/* Pages for `len` bytes between two that may not be touched. */
static lent pages_for(size_t len, enum lent_side side)
{
    lent range = {.len = len, .side = side, .pages_len = (len / PAGE + 1) * PAGE};
    range.mapped = mmap(NULL, range.pages_len + AROUND, PROT_NONE, MAP_PRIVATE | MAP_ANONYMOUS, -1, 0);
    if (range.mapped == MAP_FAILED)
        die("mmap");
    uintptr_t start = (uintptr_t)range.mapped;
    range.pages = (uint8_t *)range.mapped + PAGE + (PAGE - start % PAGE) % PAGE;
    if (mprotect(range.pages, range.pages_len, PROT_READ | PROT_WRITE) != 0)
        die("mprotect");
    memset(range.pages, LENT_FILLER, range.pages_len);
    range.bytes = side == AFTER ? range.pages + range.pages_len - len : range.pages;
    return range;
}

static lent heap_for(size_t len)
{
    lent range = {.len = len, .side = HEAP};
    range.bytes = malloc(len);
    if (range.bytes == NULL && len > 0)
        die("malloc");
    return range;
}

lent lent_to_read(const void *bytes, size_t len, enum lent_side side)
{
    lent range = side == HEAP ? heap_for(len) : pages_for(len, side);
    if (len > 0)
        memcpy(range.bytes, bytes, len);
    if (side != HEAP && mprotect(range.pages, range.pages_len, PROT_READ) != 0)
        die("mprotect");
    return range;
}

lent lent_to_write(size_t len, enum lent_side side)
{
    lent range = side == HEAP ? heap_for(len) : pages_for(len, side);
    if (len > 0)
        memset(range.bytes, LENT_FILLER, len);
    return range;
}

lent lent_to_change(const void *bytes, size_t len, enum lent_side side)
{
    lent range = lent_to_write(len, side);
    if (len > 0)
        memcpy(range.bytes, bytes, len);
    return range;
}

bool lent_rest_is(const lent *range, size_t from, uint8_t byte)
{
    for (size_t i = from; i < range->len; i++)
        if (range->bytes[i] != byte)
            return false;
    return true;
}

bool lent_margin_is_whole(const lent *range)
{
    if (range->side == HEAP)
        return true;
    const uint8_t *margin = range->side == AFTER ? range->pages : range->bytes + range->len;
    for (size_t i = 0; i < range->pages_len - range->len; i++)
        if (margin[i] != LENT_FILLER)
            return false;
    return true;
}

void lent_back(lent *range)
{
    if (range->side == HEAP)
        free(range->bytes);
    else
        munmap(range->mapped, range->pages_len + AROUND);
    range->bytes = NULL;
}

static const char *digit_pair(const char *text, uint8_t *byte)
{
    char two[3] = {text[0], text[1], 0};
    char *end;
    *byte = (uint8_t)strtoul(two, &end, 16);
    if (end != two + 2) {
        fprintf(stderr, "no hex digits at \"%s\"\n", text);
        exit(2);
    }
    return text + 2;
}

void longest_sheet(uint8_t *bytes)
{
    static const uint8_t header[8] = {0, 32, 0, 8, 0, 32, 2, 8};
    memcpy(bytes, header, sizeof header);
    uint8_t *labels = bytes + sizeof header, *numbers = labels + 32 * 16;
    for (uint8_t i = 0; i < 32; i++) {
        memset(labels + 16 * i, i, 16);
        memset(numbers + 4 * i, 0, 3);
        numbers[4 * i + 3] = (uint8_t)(96 + i);
    }
}

const uint8_t *bytes_of(const char *text, size_t *len)
{
    static const uint8_t key[16] = {0x06, 0x0E, 0x2B, 0x34, 0x02, 0x7F, 0x01, 0x01, 0x0C, 0x04, 0x01, 0, 0, 0, 0, 0};
    static uint8_t buffers[2][70000];
    static int turn;
    uint8_t *bytes = buffers[turn ^= 1];
    size_t count = 0, open = 0;
    while (*text != 0) {
        if (*text == ' ') {
            text++;
        } else if (*text == 'K') {
            memcpy(bytes + count, key, sizeof key);
            count += sizeof key;
            text++;
        } else if (*text == '{') {
            open = count;
            text++;
        } else if (*text == '}') {
            size_t size = count - open;
            unsigned long times = strtoul(text + 1, (char **)&text, 10);
            for (count = open; times > 0; times--, count += size)
                memmove(bytes + count, bytes + open, size);
        } else {
            text = digit_pair(text, &bytes[count++]);
        }
    }
    *len = count;
    return bytes;
}
