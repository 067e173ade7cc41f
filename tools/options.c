#include <stdio.h>
#include <string.h>

#include "commands.h"
#include "escape.h"
#include "exits.h"

int usage(const char *about, const char *sentence)
{
    fputs("ballastwren: ", stderr);
    print_name(stderr, about);
    fprintf(stderr, ": %s; see 'ballastwren --help'\n", sentence);
    return TROUBLE;
}

/* An option without an argument. Returns whether it is one that the subcommand takes. */
static bool set_flag(const char *word, int takes, struct options *options)
{
    const struct {
        const char *word;
        int takes;
        bool *flag;
    } flags[] = {
        {"--help", 0, &options->help},
        {"--report", TAKES_REPORT, &options->report},
        {"--numbers", TAKES_NUMBERS, &options->numbers},
        {"--json", TAKES_JSON, &options->json},
        {"--each", TAKES_EACH, &options->each}
    };

    for (size_t i = 0; i < sizeof flags / sizeof flags[0]; i++)
        if (strcmp(word, flags[i].word) == 0 && (takes & flags[i].takes) == flags[i].takes) {
            *flags[i].flag = true;
            return true;
        }
    return false;
}

/* The argument of --sheet, in the same word or in the next. Returns how many words it took, 0 if it is another word. */
static int set_sheet(char **words, int count, struct options *options)
{
    static const char option[] = "--sheet";
    const size_t size = sizeof option - 1;

    if (strcmp(words[0], option) == 0 && count > 1) {
        options->sheet = words[1];
        return 2;
    }
    if (strncmp(words[0], option, size) == 0 && words[0][size] == '=') {
        options->sheet = words[0] + size + 1;
        return 1;
    }
    return 0;
}

bool parse_options(char **words, int count, int takes, struct options *options)
{
    bool rest = false;

    memset(options, 0, sizeof *options);
    options->operands = words;
    for (int i = 0; i < count; i++) {
        char *word = words[i];
        int taken;

        if (rest || word[0] != '-' || word[1] == '\0')
            options->operands[options->count++] = word;
        else if (strcmp(word, "--") == 0)
            rest = true;
        else if ((takes & TAKES_SHEET) != 0 && (taken = set_sheet(words + i, count - i, options)) > 0)
            i += taken - 1;
        else if (!set_flag(word, takes, options)) {
            usage(word, "no such option here, or it lacks its argument");
            return false;
        }
    }
    return true;
}
