#include <string.h>
#include <strings.h>

#include "lines.h"
#include "pmd.h"
#include "refusals.h"

#define FIELDS(list) {(list), sizeof(list) / sizeof(list)[0]}

static const struct field apd[] = {
    {"presentation", "presentation", NUMBER, NULL},
    {"speakers", "speaker_config", SPEAKER_LAYOUT, NULL},
    {"language", "langcod", LANGUAGE, NULL},
    {"elements", "elements", ELEMENTS, NULL}
};

static const struct field apn[] = {
    {"presentation", "presentation", NUMBER, NULL},
    {"language", "langcod", LANGUAGE, NULL},
    {"name", "name_hex", NAME, NULL}
};

static const struct field aod[] = {
    {"element", "element", NUMBER, NULL},
    {"class", "class", OBJECT_CLASS, NULL},
    {"dynamic", "dynamic", YES_NO, NULL},
    {"x", "x", NUMBER, NULL},
    {"y", "y", NUMBER, NULL},
    {"z", "z", NUMBER, NULL},
    {"size", "size", NUMBER, NULL},
    {"size_3d", "size_3d", YES_NO, NULL},
    {"diverge", "diverge", YES_NO, NULL},
    {"source", "source", NUMBER, NULL},
    {"gain", "gain", GAIN, NULL}
};

static const struct field sample_time = {"sample_time", "sample_time", NUMBER, NULL};

static const struct field xyz[] = {
    {"element", "element", NUMBER, NULL},
    {"x", "x", NUMBER, NULL},
    {"y", "y", NUMBER, NULL},
    {"z", "z", NUMBER, NULL}
};

static const struct field aen[] = {
    {"element", "element", NUMBER, NULL},
    {"name", "name_hex", NAME, NULL}
};

static const struct field esn[] = {
    {"substream", "substream", NUMBER, NULL},
    {"name", "name_hex", NAME, NULL}
};

static const struct field ed2_fields[] = {
    {"rate", "frame_rate", FRAME_RATE, NULL},
    {"pairs", "pairs", PAIRS, NULL}
};

static const struct field dolby_e_fields[] = {
    {"rate", "frame_rate", FRAME_RATE, NULL},
    {"program", "pgmconfig", PROGRAM_CONFIG, NULL},
    {"pairs", "pairs", PAIRS, NULL}
};

static const struct fields ed2 = FIELDS(ed2_fields);
static const struct fields dolby_e = FIELDS(dolby_e_fields);

static const struct field etd[] = {
    {"turnaround", "turnaround", NUMBER, NULL},
    {"ed2", "ed2", GROUP, &ed2},
    {"dolby_e", "dolby_e", GROUP, &dolby_e}
};

static const struct kind kinds[] = {
    {BW_APD, "APD", NULL, FIELDS(apd)},
    {BW_APN, "APN", NULL, FIELDS(apn)},
    {BW_AOD, "AOD", NULL, FIELDS(aod)},
    {BW_XYZ, "XYZ", &sample_time, FIELDS(xyz)},
    {BW_AEN, "AEN", NULL, FIELDS(aen)},
    {BW_ESN, "ESN", NULL, FIELDS(esn)},
    {BW_ETD, "ETD", NULL, FIELDS(etd)}
};

enum { KINDS = sizeof kinds / sizeof kinds[0] };

const struct kind *kind_of(uint32_t number)
{
    for (size_t i = 0; i < KINDS; i++)
        if (kinds[i].number == number)
            return &kinds[i];
    return NULL;
}

bool read_kind(const char *text, uint32_t *number)
{
    const struct word word = {text, strlen(text)};

    if (word_number(word, number))
        return true;
    for (size_t i = 0; i < KINDS; i++)
        if (strcasecmp(text, kinds[i].name) == 0) {
            *number = kinds[i].number;
            return true;
        }
    trouble(text, "is not a kind: APD, APN, AOD, XYZ, AEN, ESN, ETD, or a number");
    return false;
}
