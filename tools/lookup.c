/* lookup LABEL MAIN BACKUP [OUT] */
#include <stdio.h>
#include <string.h>

#include "ballastwren.h"
#include "commands.h"
#include "exits.h"
#include "files.h"
#include "labels.h"
#include "refusals.h"

enum { MAIN, BACKUP, INPUTS };

static const char *const titles[INPUTS] = {"main pack", "backup pack"};

/* Which of the two packs an answer is about, where it is about one. */
static int pack_of(bw_found found)
{
    return found.from == BW_MAIN ? MAIN : BACKUP;
}

/* Reads LABEL. Tells its trouble and returns false if it is none. */
static bool take_label(const char *text, uint8_t *label)
{
    const struct word word = {text, strlen(text)};

    if (read_label(word, label))
        return true;
    trouble(text, "is not a label: a label has 32 hex digits, and a full stop may stand between bytes");
    return false;
}

/* A pack is told by its name and by which of the two it is, since one name may stand for both. */
static int refuse_lookup(const char *label, const struct input *inputs, bw_found found)
{
    const bw_answer answer = {found.number, found.value};
    const int pack = pack_of(found);
    char about[PATH_MAX + 64];

    if (found.from == BW_NEITHER)
        return refuse(label, answer, "byte");
    snprintf(about, sizeof about, "%s: %s", inputs[pack].name, titles[pack]);
    return refuse(about, answer, "byte");
}

static void note_from(const struct input *inputs, bw_found found)
{
    const int pack = pack_of(found);
    char sentence[128];

    snprintf(sentence, sizeof sentence, "the value is from the %s, %llu byte%s at byte %llu, total offset %ld",
             titles[pack], (unsigned long long)found.value, found.value == 1 ? "" : "s",
             (unsigned long long)found.start, (long)found.total);
    note(inputs[pack].name, sentence);
}

int look_up_label(const struct options *options)
{
    static uint8_t packs[INPUTS][BW_PACK_MAX + 1];
    uint8_t label[BW_LABEL_SIZE];
    struct input inputs[INPUTS];
    bw_found found;

    if (!take_label(options->operands[0], label) ||
        !read_input(options->operands[1], packs[MAIN], sizeof packs[MAIN], &inputs[MAIN]) ||
        !read_input(options->operands[2], packs[BACKUP], sizeof packs[BACKUP], &inputs[BACKUP]))
        return TROUBLE;
    found = bw_lookup(packs[MAIN], inputs[MAIN].length, packs[BACKUP], inputs[BACKUP].length, label, sizeof label);
    if (found.number != BW_DONE)
        return refuse_lookup(options->operands[0], inputs, found);
    if (!write_output(options->count > 3 ? options->operands[3] : "-",
                      bw_found_value(found, packs[MAIN], packs[BACKUP]), (size_t)found.value, inputs, INPUTS))
        return TROUBLE;
    note_from(inputs, found);
    return ACCEPTED;
}
