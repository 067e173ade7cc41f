/* check PACK... */
#include <stdio.h>

#include "ballastwren.h"
#include "commands.h"
#include "escape.h"
#include "exits.h"
#include "files.h"
#include "refusals.h"

static int check_one(const char *path)
{
    static uint8_t bytes[BW_PACK_MAX + 1];
    struct input pack;
    bw_answer answer;

    if (!read_input(path, bytes, sizeof bytes, &pack))
        return TROUBLE;
    answer = bw_check(pack.bytes, pack.length);
    if (answer.number != BW_DONE)
        return refuse(pack.name, answer, "byte");
    print_name(stdout, pack.name);
    printf(": accepted, items and inner payloads: %llu\n", (unsigned long long)answer.value);
    return ACCEPTED;
}

/* Every pack is judged; the worst that happened is the exit status. */
int check_packs(const struct options *options)
{
    int status = ACCEPTED;

    for (int i = 0; i < options->count; i++) {
        const int one = check_one(options->operands[i]);

        status = one > status ? one : status;
    }
    return status;
}
