// The same with the loops over fields unrolled: the compiler knows each field's size, place and rule, and puts them into the code.
#include "fields.h"
#define UNROLLED _Pragma("GCC unroll 21")
static inline void copy(u32 *to, const u32 *from, size_t n) { memcpy(to, from, n * 4); }
static inline int differ(const u32 *v, const u32 *w, size_t n) { return memcmp(v, w, n * 4) != 0; }
// What breaks a rule in fields that stand one after the other.
static inline u32 fields_bad(const u32 *f, u32 bits, int held) {
    u32 bad = 0;
    UNROLLED
    for (u32 bit = 30; bit >= 15; bit--)
        if (bits >> bit & 1) {
            bad |= broken(bit, f, held);
            f += size_of(bit);
        }
    return bad;
}
// The highest of these fields that breaks its rule, and its bit, which is 0 where none does.
static inline const u32 *highest_bad(const u32 *f, u32 bits, u32 *bad) {
    UNROLLED
    for (u32 bit = 30; bit >= 15; bit--)
        if (bits >> bit & 1) {
            if (broken(bit, f, 0)) {
                *bad = bit;
                return f;
            }
            f += size_of(bit);
        }
    *bad = 0;
    return f;
}
// The ones of n words, two words at a time.
static inline u64 any(const u32 *w, size_t n) {
    u64 all = n & 1 ? w[n - 1] : 0, two;
    UNROLLED
    for (size_t i = 0; i + 1 < n; i += 2) {
        memcpy(&two, w + i, 8);
        all |= two;
    }
    return all;
}
// What breaks a rule in slots that are held, and the ones of those that are not.
static inline u64 slots_bad(const u32 *slot, u32 held) {
    u64 bad = 0;
    UNROLLED
    for (u32 bit = 30; bit >= 10; bit--) {
        bad |= held >> bit & 1 ? broken(bit, slot, 1) : any(slot, size_of(bit));
        slot += size_of(bit);
    }
    return bad;
}
#include "run.h"
