#include "help.h"

const char help_all[] =
    "ballastwren: SMPTE ST 2109 audio metadata packs and Dolby PMD values\n"
    "\n"
    "  ballastwren check PACK...                         say whether packs are good\n"
    "  ballastwren list [--json] PACK                    list the items of a pack\n"
    "  ballastwren scrub --sheet SHEET [--report] PACK OUT\n"
    "                                                    write a new pack with what the keep sheet names\n"
    "  ballastwren lookup LABEL MAIN BACKUP [OUT]        write a label's value from the main or the backup pack\n"
    "  ballastwren objects [--each] [--json] PACK...     show the objects that packs describe and move\n"
    "  ballastwren sheet make [TEXT [SHEET]]             make a keep sheet from text\n"
    "  ballastwren sheet show SHEET                      show a keep sheet as text\n"
    "  ballastwren pmd read [--numbers | --json] KIND VALUE\n"
    "                                                    show the fields of a PMD value\n"
    "  ballastwren pmd write [--numbers | --json] KIND [FIELDS [VALUE]]\n"
    "                                                    make a PMD value from its fields\n"
    "  ballastwren pmd find [--numbers | --json] PACK    show the PMD values of a pack\n"
    "  ballastwren --help, ballastwren --version\n"
    "\n"
    "Each subcommand has a --help of its own. '-' is standard input or standard output.\n"
    "Exit status: 0 accepted; 1 refused, with one line on standard error; 2 wrong usage, or a file that\n"
    "cannot be read or written.\n";

const char help_check[] =
    "ballastwren check PACK...\n"
    "\n"
    "Says of each pack how many items and inner payloads it has, or why it is refused: the refusal's name and\n"
    "number, the byte at fault counted from the pack's first, and what the rule is.\n";

const char help_list[] =
    "ballastwren list [--json] PACK\n"
    "\n"
    "Lists a pack, one line each, just as the program 'list' does:\n"
    "  pack OFFSET COUNT none|good          pack offset; items and inner payloads together; the CRC\n"
    "  sync START OFFSET DURATION INSIDE    a Sync: where it starts, its two numbers, payloads inside\n"
    "  number START TAG LENGTH TOTAL        a payload known by its tag, the bytes of its value, its total offset\n"
    "  label START LABEL LENGTH TOTAL       a payload known by its label\n"
    "  refused NUMBER PLACE                 instead of all that, for a pack that is refused\n"
    "A total offset is the sum of pack offset and Sync offset; outside a Sync it is the pack offset alone.\n"
    "  --json      one JSON object that says the same, and where each value starts; of a pack that is refused it has\n"
    "              the one member \"refused\"\n";

const char help_scrub[] =
    "ballastwren scrub --sheet SHEET [--report] PACK OUT\n"
    "\n"
    "Writes to OUT a new pack that holds of PACK only what the keep sheet names, inside Syncs too.\n"
    "OUT is written whole or not at all, and never over SHEET or PACK. An empty SHEET keeps nothing, and a line on\n"
    "standard error says so.\n"
    "  --sheet SHEET   the keep sheet, as 'ballastwren sheet make' writes it\n"
    "  --report        print what is in the written pack and what is proved of it, and nothing of what was\n"
    "                  dropped; OUT must then be a regular file\n";

const char help_lookup[] =
    "ballastwren lookup LABEL MAIN BACKUP [OUT]\n"
    "\n"
    "Writes to OUT ('-' if not given) the value of the first payload with this label in the pack MAIN or, if MAIN has\n"
    "none, in the pack BACKUP. Payloads inside Syncs count, in byte order. A line on standard error says which pack\n"
    "the value is from, where it stands, and the payload's total offset.\n"
    "LABEL has 32 hex digits; '.' may stand between bytes.\n"
    "Both packs are checked first: a bad BACKUP is refused even where MAIN has the label. A label that no payload of\n"
    "either has is refused, even if a pack maps it to a tag. A value may have 0 bytes.\n"
    "OUT is written whole or not at all, and never over MAIN or BACKUP.\n";

const char help_objects[] =
    "ballastwren objects [--each] [--json] PACK...\n"
    "\n"
    "Applies the Audio Object Descriptions (AOD) and Dynamic Position Updates (XYZ) of the packs, in order and inside\n"
    "Syncs too, to one table of 128 objects that is empty at first, and shows the table after the last pack: a line\n"
    "for each object, as 'ballastwren pmd read AOD' shows them, or 'no objects'.\n"
    "An AOD value sets objects whole; an XYZ value moves objects that are there and dynamic. A value is applied whole\n"
    "or not at all. One that is refused, a pack that is refused and a file that cannot be read are told on standard\n"
    "error; what comes after them is applied all the same.\n"
    "  --each      show the table after each pack, below a line that names the pack\n"
    "  --json      one JSON object for each table, on a line of its own\n";

const char help_sheet_make[] =
    "ballastwren sheet make [TEXT [SHEET]]\n"
    "\n"
    "Makes the keep sheet SHEET from TEXT (both '-' if not given). A line of TEXT is one of\n"
    "  label 060E2B34040101... keep payloads with this label of 32 hex digits; '.' may stand between bytes\n"
    "  number 70               keep payloads with this tag, 4 to 268435455, if the pack maps it to no label\n"
    "  keep all                keep everything; stands alone\n"
    "  keep none               keep nothing; stands alone\n"
    "Blank lines and what follows a '#' are skipped. At most 32 labels and 32 numbers, none twice.\n"
    "Where a line is bad nothing is written.\n";

const char help_sheet_show[] =
    "ballastwren sheet show SHEET\n"
    "\n"
    "Shows a keep sheet as the text that 'ballastwren sheet make' reads. An empty SHEET keeps nothing, as does one\n"
    "that was made from 'keep none'; a line on standard error tells it.\n";

const char help_pmd_read[] =
    "ballastwren pmd read [--numbers | --json] KIND VALUE\n"
    "\n"
    "Shows the fields of a PMD value, one record to a line. KIND is APD, APN, AOD, XYZ, AEN, ESN or\n"
    "ETD, or 1 to 7.\n"
    "  --numbers   the bare list of fields, closing zeros and bytes of names included\n"
    "  --json      one JSON object\n";

const char help_pmd_write[] =
    "ballastwren pmd write [--numbers | --json] KIND [FIELDS [VALUE]]\n"
    "\n"
    "Makes the PMD value VALUE from FIELDS (both '-' if not given), written as 'ballastwren pmd read' shows them:\n"
    "  APD  presentation 1 speakers 5.1.4 language en elements 1 2\n"
    "  APN  presentation 1 language en name \"Main mix\"\n"
    "  AOD  element 2 class dialog dynamic no x 512 y 1023 z 1 size 0 size_3d no diverge no source 3 gain -0.5 dB\n"
    "  XYZ  sample_time 1, and on the next lines element 2 x 1 y 512 z 1023\n"
    "  AEN  element 2 name \"Commentary\"\n"
    "  ESN  substream 1 name \"A\"\n"
    "  ETD  turnaround 1 ed2 no dolby_e yes rate 25 program 5.1+2 pairs 5:9 0:3\n"
    "Speakers: 2.0 3.0 5.1 5.1.2 5.1.4 7.1.4 9.1.6 portable-speakers portable-headphone not-indicated.\n"
    "Classes: dialog vds voiceover generic spoken-subtitle emergency-alert emergency-information.\n"
    "A gain is 'muted' or -25.0 to +6.0 dB in halves. In a name \\\", \\\\ and \\xNN stand for bytes.\n"
    "After 'ed2 yes' stand rate and pairs, after 'dolby_e yes' rate, program and pairs; after 'no' none of them.\n"
    "Rates: 23.98 24 25 29.97 30.\n"
    "Programs: 5.1+2 5.1+1+1 4+4 4+2+2 4+2+1+1 4+1+1+1 2+2+2+2 2+2+2+1+1 2+2+1+1+1 2+1+1+1+1+1 1+1+1+1+1+1+1 5.1\n"
    "  4+2 4+1+1 2+2+2 2+2+1+1 2+1+1+1 1+1+1+1+1 4 2+2 2+1+1 1+1+1+1 7.1 7.1-screen.\n"
    "A pair is presentation:parameters. 0:N closes the pairs, and its N is part of the value.\n"
    "  --numbers   FIELDS is the bare list of numbers instead\n"
    "  --json      FIELDS is an object as 'ballastwren pmd read --json' prints it; members may stand in any order,\n"
    "              and those that say in words what a number means may be left out. The number decides, for a name\n"
    "              name_hex: words that do not agree with it are refused\n";

const char help_pmd_find[] =
    "ballastwren pmd find [--numbers | --json] PACK\n"
    "\n"
    "Shows the PMD payloads of a pack, found by their labels, inside Syncs too: where each stands, its total offset,\n"
    "and the fields of the kinds that 'ballastwren pmd read' knows. Exit status 1 if a value is refused.\n"
    "  --numbers   bare lists of fields\n"
    "  --json      one JSON array\n";
