/*
 * The proved CRC against av_crc of libavutil, in one run on one machine.
 *
 * First both are asked about some thousand pseudo-random inputs, and a single difference ends the run with status 1. Then each
 * length is timed: the best of many rounds, in which the two take turns at going first. Only the ratio is worth quoting.
 */
#include <inttypes.h>
#include <stddef.h>
#include <stdint.h>
#include <stdio.h>
#include <time.h>

#include <libavutil/crc.h>

uint32_t bw_bench_crc(const uint8_t *bytes, size_t length);

typedef uint32_t crc_function(const uint8_t *bytes, size_t length);

enum { LONGEST = 32768, OFFSETS = 8, SHORT_INPUTS = 6000, LONG_INPUTS = 1000, ROUNDS = 40 };

static uint8_t buffer[LONGEST + OFFSETS];
static const AVCRC *table;

/* libavutil keeps the register of this polynomial with its bytes turned round. */
static uint32_t libavutil_crc(const uint8_t *bytes, size_t length)
{
    return __builtin_bswap32(av_crc(table, UINT32_MAX, bytes, length));
}

static uint32_t next_random(void)
{
    static uint32_t state = 2463534242u;
    state ^= state << 13;
    state ^= state >> 17;
    state ^= state << 5;
    return state;
}

static void fill_buffer(void)
{
    for (size_t i = 0; i < sizeof buffer; i++)
        buffer[i] = (uint8_t)(next_random() >> 24);
}

static int agree(size_t start, size_t length)
{
    uint32_t ours = bw_bench_crc(buffer + start, length);
    uint32_t theirs = libavutil_crc(buffer + start, length);
    if (ours == theirs)
        return 1;
    fprintf(stderr, "%zu bytes: %08" PRIX32 ", and av_crc says %08" PRIX32 "\n", length, ours, theirs);
    return 0;
}

/* Lengths 0 to 2,000 in turn, and then any length, each at any start. */
static int all_agree(void)
{
    for (size_t n = 0; n < SHORT_INPUTS; n++) {
        size_t length = n % 2001;
        if (length == 0)
            fill_buffer();
        if (!agree(next_random() % (LONGEST - length), length))
            return 0;
    }
    for (size_t n = 0; n < LONG_INPUTS; n++) {
        size_t length = next_random() % (LONGEST + 1);
        if (!agree(next_random() % (LONGEST + OFFSETS - length), length))
            return 0;
    }
    return 1;
}

static double nanoseconds(void)
{
    struct timespec t;
    clock_gettime(CLOCK_MONOTONIC, &t);
    return (double)t.tv_sec * 1e9 + (double)t.tv_nsec;
}

/* Nanoseconds per call. The function is reached through a volatile pointer, so that no call is left out. */
static double time_calls(crc_function *function, size_t length, size_t calls)
{
    crc_function *volatile called = function;
    volatile uint32_t sum = 0;
    double start = nanoseconds();
    for (size_t k = 0; k < calls; k++)
        sum ^= called(buffer + k % OFFSETS, length);
    (void)sum;
    return (nanoseconds() - start) / (double)calls;
}

static void compare(size_t length)
{
    crc_function *functions[2] = { libavutil_crc, bw_bench_crc };
    double best[2] = { 1e18, 1e18 };
    size_t calls = 2000000 / (length + 100);
    for (int round = 0; round < ROUNDS; round++)
        for (int turn = 0; turn < 2; turn++) {
            int which = (round + turn) % 2;
            double t = time_calls(functions[which], length, calls);
            if (t < best[which])
                best[which] = t;
        }
    printf("%6zu bytes  av_crc %9.1f ns  ours %9.1f ns  ratio %.2f\n", length, best[0], best[1], best[1] / best[0]);
}

int main(void)
{
    static const size_t lengths[] = { 46, 256, 1024, 32768 };
    table = av_crc_get_table(AV_CRC_32_IEEE);
    if (table == NULL) {
        fprintf(stderr, "libavutil has no table\n");
        return 1;
    }
    if (!all_agree())
        return 1;
    printf("the same CRC on %d inputs\n", SHORT_INPUTS + LONG_INPUTS);
    for (size_t n = 0; n < sizeof lengths / sizeof lengths[0]; n++)
        compare(lengths[n]);
    return 0;
}
