/* The help of the command and of its subcommands. */
#ifndef HELP_H
#define HELP_H

extern const char help_all[], help_check[], help_list[], help_scrub[], help_lookup[], help_objects[],
    help_sheet_make[], help_sheet_show[], help_pmd_read[], help_pmd_write[], help_pmd_find[];

#endif
