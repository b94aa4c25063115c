// What the proved call is measured against: a run of packets over a table of streams in C by hand, the same checks in the same order, and the same words
// left in the table and in the answers. Here a loop over fields stays a loop; by_hand_tighter.c has them unrolled. What both share is in fields.h and run.h.
#include "fields.h"
#define UNROLLED
// The first and the last word of a field before those between: most fields have none.
static inline void copy(u32 *to, const u32 *from, size_t n) {
    to[0] = from[0];
    to[n - 1] = from[n - 1];
    for (size_t i = 1; i + 1 < n; i++)
        to[i] = from[i];
}
static inline int differ(const u32 *v, const u32 *w, size_t n) {
    u32 all = (v[0] ^ w[0]) | (v[n - 1] ^ w[n - 1]);
    for (size_t i = 1; i + 1 < n; i++)
        all |= v[i] ^ w[i];
    return all != 0;
}
// What breaks a rule in fields that stand one after the other; those after the last that has a rule are not looked at.
static inline u32 fields_bad(const u32 *f, u32 bits, int held) {
    u32 bad = 0;
    bits &= FIXED;
    while (bits & RULED) {
        u32 bit = __builtin_clz(bits) ^ 31;
        if (RULED >> bit & 1)
            bad |= broken(bit, f, held);
        f += 1 + (TWO >> bit & 1);
        bits ^= 1u << bit;
    }
    return bad;
}
// The highest of these fields that breaks its rule, and its bit, which is 0 where none does.
static inline const u32 *highest_bad(const u32 *f, u32 bits, u32 *bad) {
    bits &= FIXED;
    while (bits & RULED) {
        u32 bit = __builtin_clz(bits) ^ 31;
        if (RULED >> bit & 1 && broken(bit, f, 0)) {
            *bad = bit;
            return f;
        }
        f += 1 + (TWO >> bit & 1);
        bits ^= 1u << bit;
    }
    *bad = 0;
    return f;
}
// The ones of n words.
static inline u32 any(const u32 *w, size_t n) {
    u32 all = 0;
    for (size_t i = 0; i < n; i++)
        all |= w[i];
    return all;
}
// What breaks a rule in slots that are held, and the ones of those that are not. Where none of the last is held their 49 words are taken together, 48 of
// them four at a time by the compiler.
static inline u32 slots_bad(const u32 *slot, u32 held) {
    u32 bad = 0;
    for (u32 bit = 30; bit >= 15; bit--) {
        size_t n = size_of(bit);
        if (!(held >> bit & 1))
            bad |= slot[0] | slot[n - 1];
        else if (RULED >> bit & 1)
            bad |= broken(bit, slot, 1);
        slot += n;
    }
    if (!(held & LAST))
        return bad | any(slot, 48) | slot[48];
    for (u32 bit = 14; bit >= 10; bit--)
        if (!(held >> bit & 1))
            bad |= any(slot + slot_of(bit) - slot_of(14), size_of(bit));
    return bad;
}
#include "run.h"
