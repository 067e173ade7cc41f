// The header from C++: it compiles without a warning, its functions are found under their C names, and an entry of a
// table of objects has its eleven numbers one after the other.
#include <cstddef>
#include <cstdio>

#include "ballastwren.h"

static_assert(sizeof(bw_object) == 44 && alignof(bw_object) == alignof(uint32_t), "eleven numbers");
static_assert(offsetof(bw_object, element) == 0 && offsetof(bw_object, object_class) == 4, "first and second");
static_assert(offsetof(bw_object, dynamic) == 8 && offsetof(bw_object, x) == 12, "third and fourth");
static_assert(offsetof(bw_object, y) == 16 && offsetof(bw_object, z) == 20, "fifth and sixth");
static_assert(offsetof(bw_object, size) == 24 && offsetof(bw_object, size_3d) == 28, "seventh and eighth");
static_assert(offsetof(bw_object, diverge) == 32 && offsetof(bw_object, source) == 36, "ninth and tenth");
static_assert(offsetof(bw_object, gain) == 40, "eleventh");

int main()
{
    const bw_gain_answer gain = bw_gain(51);
    const bw_answer empty = bw_check(nullptr, 0);
    const bw_found none = bw_lookup(nullptr, 0, nullptr, 0, nullptr, 0);
    bw_object table[BW_OBJECTS_MAX] = {};
    const bw_answer kind = bw_objects_apply(BW_APD, nullptr, 0, table, BW_OBJECTS_MAX);
    const bw_answer unknown = bw_objects_clear(1, table, BW_OBJECTS_MAX);
    const bool good = gain.number == BW_DONE && gain.half_db == 0 && empty.number == BW_SHORT &&
                      none.from == BW_MAIN && none.total == 0 && bw_found_value(none, nullptr, nullptr) == nullptr &&
                      kind.number == BW_KIND && unknown.number == BW_UNKNOWN;
    std::printf("%s\n", good ? bw_refusal_name(empty.number) : "wrong");
    return good ? 0 : 1;
}
