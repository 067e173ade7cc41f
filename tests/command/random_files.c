/*
 * Writes files to throw at `ballastwren check`: random_files FOLDER FIRST COUNT SAMPLE...
 *
 * File number i is the same whenever it is made. A fourth of the files are bytes drawn at random, a fourth the pack key
 * and random bytes, a fourth packs put together from random parts, and a fourth samples with a few bytes changed, cut
 * out or put in.
 */
#include <stdint.h>
#include <stdio.h>
#include <stdlib.h>
#include <string.h>

#define ROOM 40000

static uint64_t state;

static uint32_t draw(uint32_t below)
{
    state ^= state << 13;
    state ^= state >> 7;
    state ^= state << 17;
    return (uint32_t)(state >> 32) % below;
}

static void begin(uint64_t number)
{
    state = number * UINT64_C(0x9E3779B97F4A7C15) + 1;
    for (int i = 0; i < 8; i++)
        draw(1);
}

static size_t put_random(uint8_t *at, size_t count)
{
    for (size_t i = 0; i < count; i++)
        at[i] = (uint8_t)draw(256);
    return count;
}

static size_t put_key(uint8_t *at)
{
    static const uint8_t key[16] = {0x06, 0x0E, 0x2B, 0x34, 0x02, 0x7F, 0x01, 0x01, 0x0C, 0x04, 0x01};

    memcpy(at, key, sizeof key);
    return sizeof key;
}

static uint8_t draw_tag(void)
{
    static const uint8_t tags[] = {4, 5, 64, 65, 66, 70, 71, 72, 1, 2, 3, 0, 0x80};

    return tags[draw(draw(8) > 0 ? 8 : sizeof tags)];
}

/* A payload. Now and then its length lies, or has a longer form than it needs. */
static size_t put_payload(uint8_t *at, uint8_t tag, const uint8_t *value, size_t length)
{
    size_t size = 0;

    at[size++] = tag;
    if (draw(8) == 0)
        at[size++] = (uint8_t)(draw(4) > 0 ? 0x81 : 0x80 + draw(7));
    at[size++] = (uint8_t)(length + (draw(40) == 0));
    memcpy(at + size, value, length);
    return size + length;
}

/* A payload, or a Sync with one inside. */
static size_t put_item(uint8_t *at)
{
    uint8_t value[16], inside[32];
    const size_t length = put_random(value, draw(12));
    size_t size;

    if (draw(2))
        return put_payload(at, draw_tag(), value, length);
    size = put_random(inside, 4);
    size += draw(8) > 0 ? put_payload(inside + size, draw_tag(), value, length) : 0;
    return put_payload(at, 2, inside, size);
}

static size_t put_config(uint8_t *at)
{
    const uint32_t mappings = draw(3);
    size_t size = 2;

    at[0] = 1;
    at[1] = (uint8_t)(2 + 17 * mappings);
    size += put_random(at + size, 2);
    for (uint32_t i = 0; i < mappings; i++) {
        at[size++] = (uint8_t)(64 + draw(3));
        size += put_random(at + size, 16);
    }
    return size;
}

static size_t built_pack(uint8_t *at)
{
    uint8_t value[256];
    size_t size = draw(2) ? put_config(value) : 0;

    for (uint32_t items = draw(4); items > 0; items--)
        size += put_item(value + size);
    put_key(at);
    at[16] = 0x81;
    at[17] = (uint8_t)size;
    memcpy(at + 18, value, size);
    return 18 + size;
}

static size_t changed_sample(uint8_t *at, const char *path)
{
    FILE *file = fopen(path, "rb");
    size_t size = file != NULL ? fread(at, 1, ROOM - 64, file) : 0;

    if (file != NULL)
        fclose(file);
    for (uint32_t changes = draw(4); changes > 0 && size > 1; changes--) {
        const size_t place = draw((uint32_t)size);

        switch (draw(4)) {
        case 0:
            size = draw(2) ? place : size;
            break;
        case 1:
            memmove(at + place + 1, at + place, size++ - place);
            break;
        default:
            at[place] = draw(2) ? (uint8_t)draw(256) : (uint8_t)(at[place] ^ 1u << draw(8));
        }
    }
    return size;
}

int main(int argc, char **argv)
{
    static uint8_t bytes[ROOM];
    const long first = argc > 3 ? atol(argv[2]) : 0, count = argc > 3 ? atol(argv[3]) : 0;

    for (long i = first; i < first + count; i++) {
        char path[4096];
        size_t size = 0;
        FILE *file;

        begin((uint64_t)i);
        if (i % 4 == 0)
            size = put_random(bytes, draw(draw(40) == 0 ? ROOM : 200));
        else if (i % 4 == 1)
            size = put_key(bytes) + put_random(bytes + 16, draw(100));
        else if (i % 4 == 2)
            size = built_pack(bytes);
        else if (argc > 4)
            size = changed_sample(bytes, argv[4 + draw((uint32_t)argc - 4)]);
        snprintf(path, sizeof path, "%s/%ld", argv[1], i - first);
        file = fopen(path, "wb");
        if (file == NULL || fwrite(bytes, 1, size, file) != size || fclose(file) != 0)
            return 1;
    }
    return 0;
}
