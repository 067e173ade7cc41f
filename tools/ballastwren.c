/* The command `ballastwren`: which subcommand it is, and whether its options and operands can go together. */
#include <limits.h>
#include <signal.h>
#include <stdio.h>
#include <string.h>

#include "ballastwren.h"
#include "commands.h"
#include "exits.h"
#include "files.h"
#include "help.h"

struct command {
    const char *words[2]; /* its one or two words */
    int takes;            /* options */
    int least, most;      /* operands */
    int read;             /* how many of the first operands are read as files, KIND and LABEL included */
    int (*run)(const struct options *options);
    const char *help;
};

static const struct command commands[] = {
    {{"check", NULL}, 0, 1, INT_MAX, INT_MAX, check_packs, help_check},
    {{"list", NULL}, TAKES_JSON, 1, 1, 1, list_pack, help_list},
    {{"scrub", NULL}, TAKES_SHEET | TAKES_REPORT, 2, 2, 1, scrub_pack, help_scrub},
    {{"lookup", NULL}, 0, 3, 4, 3, look_up_label, help_lookup},
    {{"objects", NULL}, TAKES_EACH | TAKES_JSON, 1, INT_MAX, INT_MAX, track_objects, help_objects},
    {{"sheet", "make"}, 0, 0, 2, 1, make_sheet, help_sheet_make},
    {{"sheet", "show"}, 0, 1, 1, 1, show_sheet, help_sheet_show},
    {{"pmd", "read"}, TAKES_NUMBERS | TAKES_JSON, 2, 2, 2, read_value, help_pmd_read},
    {{"pmd", "write"}, TAKES_NUMBERS | TAKES_JSON, 1, 3, 2, write_value, help_pmd_write},
    {{"pmd", "find"}, TAKES_NUMBERS | TAKES_JSON, 1, 1, 1, find_values, help_pmd_find}
};

enum { COMMANDS = sizeof commands / sizeof commands[0] };

static bool is_standard(const char *path)
{
    return strcmp(path, "-") == 0;
}

/* How many inputs are standard input, which can be read only once. */
static int standard_inputs(const struct command *command, const struct options *options)
{
    int count = options->sheet != NULL && is_standard(options->sheet);

    for (int i = 0; i < options->count && i < command->read; i++)
        count += is_standard(options->operands[i]);
    return count;
}

static int run(const struct command *command, const char *name, char **words, int count)
{
    struct options options;

    if (!parse_options(words, count, command->takes, &options))
        return TROUBLE;
    if (options.help) {
        fputs(command->help, stdout);
        return ACCEPTED;
    }
    if (options.count < command->least)
        return usage(name, "an operand is missing");
    if (options.count > command->most)
        return usage(options.operands[command->most], "one operand too many");
    if ((command->takes & TAKES_SHEET) != 0 && options.sheet == NULL)
        return usage(name, "--sheet SHEET is missing");
    if (options.report && is_standard(options.operands[1]))
        return usage("--report", "OUT must be a file, since the report goes to standard output");
    if (options.numbers && options.json)
        return usage("--json", "does not go with --numbers");
    if (standard_inputs(command, &options) > 1)
        return usage("-", "standard input can be read only once");
    return command->run(&options);
}

/* The help of all subcommands that begin with this word. Returns whether there are any. */
static bool help_group(const char *word)
{
    bool any = false;

    for (size_t i = 0; i < COMMANDS; i++)
        if (commands[i].words[1] != NULL && strcmp(word, commands[i].words[0]) == 0) {
            fputs(any ? "\n" : "", stdout);
            fputs(commands[i].help, stdout);
            any = true;
        }
    return any;
}

static int dispatch(char **words, int count)
{
    if (count == 0)
        return usage("no subcommand", "say what to do");
    if (strcmp(words[0], "--help") == 0) {
        fputs(help_all, stdout);
        return ACCEPTED;
    }
    if (strcmp(words[0], "--version") == 0) {
        puts("ballastwren " BW_VERSION);
        return ACCEPTED;
    }
    for (size_t i = 0; i < COMMANDS; i++) {
        const char *const *own = commands[i].words;
        const int length = own[1] != NULL ? 2 : 1;

        if (count >= length && strcmp(words[0], own[0]) == 0 && (length == 1 || strcmp(words[1], own[1]) == 0))
            return run(&commands[i], own[length - 1], words + length, count - length);
    }
    if (count == 2 && strcmp(words[1], "--help") == 0 && help_group(words[0]))
        return ACCEPTED;
    return usage(words[0], "no such subcommand");
}

int main(int argc, char **argv)
{
    if (!hold_standard_files())
        return TROUBLE;
    /* A closed pipe and a file that may not grow are errors of a write like any other. */
    signal(SIGPIPE, SIG_IGN);
    signal(SIGXFSZ, SIG_IGN);
    return close_standard_output(dispatch(argv + 1, argc > 0 ? argc - 1 : 0));
}
