/* Refusals of PMD values. A language with a code 27 is told in words, since versions before 0.5.0 read it. Whether a
   langcod stands at the place of a refusal is the archive's to say: it is asked again with other letters there. */
#include <string.h>

#include "pmd.h"
#include "refusals.h"

enum {
    CODE = 5,     /* bits of a letter's code */
    LANGCOD = 15, /* bits of three */
    ZZZ = 26 << 10 | 26 << 5 | 26,
    ZZ_31 = 26 << 10 | 26 << 5 | 31
};

static bool has_27(uint32_t langcod)
{
    for (unsigned shift = 0; shift < LANGCOD; shift += CODE)
        if ((langcod >> shift & 31) == 27)
            return true;
    return false;
}

static bool same(bw_answer one, bw_answer other)
{
    return one.number == other.number && one.value == other.value;
}

static uint32_t bits_at(const uint8_t *value, size_t place)
{
    uint32_t bits = 0;

    for (size_t at = place; at < place + LANGCOD; at++)
        bits = bits << 1 | (value[at / 8] >> (7 - at % 8) & 1u);
    return bits;
}

/* What comes of a value with another langcod at this place. */
static bw_answer read_with(uint32_t kind, const uint8_t *value, size_t length, size_t place, uint32_t langcod)
{
    uint8_t other[BW_PMD_VALUE_MAX];

    memcpy(other, value, length);
    for (size_t i = 0; i < LANGCOD; i++) {
        uint8_t *byte = &other[(place + i) / 8];
        const unsigned bit = 0x80u >> (place + i) % 8;

        *byte = (uint8_t)(langcod >> (LANGCOD - 1 - i) & 1 ? *byte | bit : *byte & ~bit);
    }
    return bw_pmd_read(kind, other, length, NULL, 0);
}

/* Of all fields a langcod alone is good with zzz at its place and refused there with 31 for the third z. */
static bool refused_for_27(uint32_t kind, const uint8_t *value, size_t length, bw_answer answer)
{
    const size_t place = (size_t)answer.value;

    return answer.number == BW_FIELD && place + LANGCOD <= 8 * length && has_27(bits_at(value, place)) &&
           !same(read_with(kind, value, length, place, ZZZ), answer) &&
           same(read_with(kind, value, length, place, ZZ_31), answer);
}

const char no_letter[] =
    "its language has a code 27, which is no letter: 1 to 26 are a to z; versions before 0.5.0 took 27 too";

int refuse_value(const char *name, uint32_t kind, const uint8_t *value, size_t length, bw_answer answer)
{
    const char *unit = answer.number == BW_KIND || answer.number == BW_BIG ? "byte" : "bit";

    if (refused_for_27(kind, value, length, answer))
        return refuse_because(name, answer, unit, no_letter);
    return refuse(name, answer, unit);
}

bool list_refused_for_27(uint32_t kind, const struct numbers *numbers, bw_answer answer)
{
    uint32_t *number = &numbers->list[answer.value];
    const uint32_t refused = *number;
    bw_answer other;

    if (refused >> LANGCOD != 0 || !has_27(refused))
        return false;
    /* No field but a langcod is wide enough for zzz. */
    *number = ZZZ;
    other = bw_pmd_write(kind, numbers->list, numbers->count, NULL, 0);
    *number = refused;
    return !same(other, answer);
}
