/* The exit statuses of the command. */
#ifndef EXITS_H
#define EXITS_H

enum {
    ACCEPTED = 0, /* what was asked is done */
    REFUSED = 1,  /* an input was refused */
    TROUBLE = 2   /* the command line is wrong, or a file could not be read or written */
};

#endif
