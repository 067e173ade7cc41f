#include "labels.h"

#include <string.h>

#include "ballastwren.h"
#include "hex.h"

bool read_label(struct word word, uint8_t *label)
{
    size_t at = 0;

    for (size_t i = 0; i < BW_LABEL_SIZE; i++, at += 2) {
        if (i > 0 && at < word.length && word.start[at] == '.')
            at++;
        if (word.length < at + 2 || hex_digit(word.start[at]) < 0 || hex_digit(word.start[at + 1]) < 0)
            return false;
        label[i] = (uint8_t)(hex_digit(word.start[at]) * 16 + hex_digit(word.start[at + 1]));
    }
    return at == word.length;
}

/* The twelfth byte of a label tells the payload; the table begins with 04. */
enum { FIRST = 0x04 };

static const struct pmd_label labels[] = {
    {"PMD Version", 0},
    {"Audio Bed Description", 0},
    {"Audio Object Description", BW_AOD},
    {"Audio Presentation Description", BW_APD},
    {"Audio Presentation Names", BW_APN},
    {"Audio Element Names", BW_AEN},
    {"ED2 Substream Description", 0},
    {"ED2 Substream Names", BW_ESN},
    {"EAC3 Encoding Parameters", 0},
    {"Dynamic Position Update", BW_XYZ},
    {"Identity And Timing", 0},
    {"Presentation Loudness Description", 0},
    {"ED2 Turnaround Description", BW_ETD},
    {"Headphone Element Description", 0}
};

enum { COUNT = sizeof labels / sizeof labels[0] };

const struct pmd_label *pmd_label(const uint8_t *label)
{
    static const uint8_t before[] = {0x06, 0x0E, 0x2B, 0x34, 0x04, 0x01, 0x01, 0x0D, 0x04, 0x04, 0x02};
    static const uint8_t after[] = {0, 0, 0, 0};
    const uint8_t own = label[sizeof before];

    if (memcmp(label, before, sizeof before) != 0 || memcmp(label + sizeof before + 1, after, sizeof after) != 0)
        return NULL;
    return own >= FIRST && own < FIRST + COUNT ? &labels[own - FIRST] : NULL;
}

const char *kind_title(uint32_t kind)
{
    for (size_t i = 0; i < COUNT; i++)
        if (labels[i].kind == kind)
            return labels[i].title;
    return "";
}
