// What both ways of C by hand know of the fields of fixed size: the words of each, the place of its slot in a record, and its rule.
#include <stddef.h>
#include <stdint.h>
#include <string.h>
typedef uint64_t u64;
typedef uint32_t u32;
enum { HEAD = 15, RECORD = 89 };
// the fields of fixed size, 30 to 10; those of them that are held: all but the over-range count, 22; and the last, which few packets carry
#define FIXED 0x7ffffc00u
#define HELD 0x7fbffc00u
#define LAST 0x7c00u
// document 01's groups of two, eleven and thirteen words; the other fields of fixed size have one
#define TWO 0x3e328000u
#define ELEVEN 0x6000u
#define THIRTEEN 0x1800u
// those of a rule: a first word without bit 31, a first word of 16 bits, and 17 to 15
#define TOP 0x20200000u
#define HALF 0x01040000u
#define RULED (TOP | HALF | 0x38000u)
static inline u32 ones(u32 x) {
    x -= x >> 1 & 0x55555555;
    x = (x & 0x33333333) + (x >> 2 & 0x33333333);
    return ((x + (x >> 4)) & 0x0f0f0f0f) * 0x01010101 >> 24;
}
// The words of fields of fixed size together. One of two words counts twice, the second time at a bit that is none of theirs.
static inline size_t words(u32 bits) {
    u32 two = bits & TWO;
    size_t n = ones((bits & FIXED) | two >> 20 | (two & 0xfffff) >> 13);
    if (bits & (ELEVEN | THIRTEEN))
        n += 10 * ((bits >> 14 & 1) + (bits >> 13 & 1)) + 12 * ((bits >> 12 & 1) + (bits >> 11 & 1));
    return n;
}
// The words of a field of fixed size, and the place of its slot in a record.
static inline u32 size_of(u32 bit) { return bit > 14 ? 1 + (TWO >> bit & 1) : ELEVEN >> bit & 1 ? 11 : THIRTEEN >> bit & 1 ? 13 : 1; }
static inline size_t slot_of(u32 bit) {
    size_t n = HEAD + 30 - bit + ones(TWO >> bit >> 1);
    return bit < 14 ? n + 10 * ones(ELEVEN >> bit >> 1) + 12 * ones(THIRTEEN >> bit >> 1) : n;
}
static int format_ok(u32 w) {
    u32 code = w >> 24 & 31, item = (w & 63) + 1, ev = w >> 20 & 7, ch = w >> 16 & 15, f = (w >> 6 & 63) + 1;
    if (w >> 12 & 15)
        return 0;
    if ((w >> 29 & 3) == 3)
        return 0;
    if (!(code <= 6 || (code >= 14 && code <= 22)))
        return 0;
    if (code == 14 && item != 32)
        return 0;
    if (code == 15 && item != 64)
        return 0;
    return item + ev + ch <= f;
}
// The bits that a state word speaks of: those of its enables 31 to 26 that are set, the value of each, twelve below, and the user bits.
static inline u32 spoken(u32 w) {
    u32 e = w >> 26;
    return e << 26 | e << 14 | 0xff;
}
// What breaks the rule of a field of fixed size; a held state has no bits but those that it speaks of.
static inline u32 broken(u32 bit, const u32 *f, int held) {
    if (TOP >> bit & 1)
        return f[0] >> 31;
    if (HALF >> bit & 1)
        return f[0] >> 16;
    if (bit == 17)
        return f[0] >> 24 | f[1] >> 16;
    if (bit == 16)
        return f[0] & (held ? ~spoken(f[0]) : 0x00f00f00);
    return bit == 15 ? !format_ok(f[0]) : 0;
}
