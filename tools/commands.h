/* The subcommands, their options and their operands. */
#ifndef COMMANDS_H
#define COMMANDS_H

#include <stdbool.h>

/* Options that a subcommand may take beside --help. */
enum { TAKES_SHEET = 1, TAKES_REPORT = 2, TAKES_NUMBERS = 4, TAKES_JSON = 8, TAKES_EACH = 16 };

struct options {
    const char *sheet; /* --sheet SHEET, NULL without */
    bool report;
    bool numbers;
    bool json;
    bool each;
    bool help;
    char **operands;
    int count;
};

/* Sorts the words after a subcommand into options and operands. Tells what is wrong and returns false. */
bool parse_options(char **words, int count, int takes, struct options *options);

/* "ballastwren: ABOUT: SENTENCE; see 'ballastwren --help'". Returns TROUBLE. */
int usage(const char *about, const char *sentence);

/* Each subcommand returns an exit status. */
int check_packs(const struct options *options);
int list_pack(const struct options *options);
int scrub_pack(const struct options *options);
int look_up_label(const struct options *options);
int track_objects(const struct options *options);
int make_sheet(const struct options *options);
int show_sheet(const struct options *options);
int read_value(const struct options *options);
int write_value(const struct options *options);
int find_values(const struct options *options);

#endif
