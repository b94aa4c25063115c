// What the proved calls are measured against: C by hand, an accumulator, the same checks in the same order.
#include <stddef.h>
#include <stdint.h>
typedef uint64_t u64;
typedef uint32_t u32;
typedef uint16_t u16;
typedef uint8_t u8;
static int format_ok(u32 w) {
    u32 code = w >> 24 & 31, item = (w & 63) + 1, ev = w >> 20 & 7, ch = w >> 16 & 15, f = (w >> 6 & 63) + 1;
    if (w >> 12 & 15)
        return 0;
    if ((w >> 29 & 3) == 3)
        return 0;
    if (!(code <= 6 || (code >= 14 && code <= 22)))
        return 0;
    if (code == 14 && item != 32)
        return 0;
    if (code == 15 && item != 64)
        return 0;
    return item + ev + ch <= f;
}
static int format_bad(u32 a) {
    u32 f = (a >> 6 & 63) + 1;
    return !format_ok(a) || (!(a >> 31) && f > 32 && f < 64);
}
static size_t group_of(u32 a, u32 b) { return ((size_t)(b & 0xffff) + 1) * ((b >> 16) + 1) * (a >> 29 & 3 ? 2 : 1); }
static int count_bad(u32 a, u32 b, size_t n) { return n > 2097120 || n % group_of(a, b); }
static u32 carry(u32 a) {
    u32 f = (a >> 6 & 63) + 1;
    return (a >> 31) || f == 64 ? 32 : 32 / f * f;
}
static size_t needed(u32 c, u32 f, size_t n) { return (f * n + c - 1) / c; }
u32 c_unpack(u32 a, u32 b, size_t n, const u32 *w, size_t m, u64 *it, size_t li, u8 *ev, size_t le, u16 *ch,
              size_t lc) {
    if (format_bad(a))
        return 16;
    if (count_bad(a, b, n))
        return 17;
    u32 c = carry(a), f = (a >> 6 & 63) + 1, wi = (a & 63) + 1, we = a >> 20 & 7, wc = a >> 16 & 15;
    if (m != needed(c, f, n))
        return 17;
    if (li < n || le < n || lc < n)
        return 13;
    u64 acc = 0;
    u32 have = 0;
    u32 up = f - wi;
    u64 em = (1u << we) - 1, cm = (1u << wc) - 1;
    if (f <= 32) {
        u64 mask = ((u64)1 << f) - 1;
        u32 dn = 32 - c;
        if (we + wc == 0) {
            for (size_t k = 0; k < n; k++) {
                if (have < f) {
                    acc = acc << c | *w++ >> dn;
                    have += c;
                }
                have -= f;
                it[k] = (acc >> have & mask) >> up;
                ev[k] = 0;
                ch[k] = 0;
            }
        } else
            for (size_t k = 0; k < n; k++) {
                if (have < f) {
                    acc = acc << c | *w++ >> dn;
                    have += c;
                }
                have -= f;
                u64 v = acc >> have & mask;
                it[k] = v >> up;
                ev[k] = v >> wc & em;
                ch[k] = v & cm;
            }
    } else {
        u32 h = f - 32;
        u64 hm = ((u64)1 << h) - 1;
        for (size_t k = 0; k < n; k++) {
            if (have < h) {
                acc = acc << 32 | *w++;
                have += 32;
            }
            have -= h;
            u64 hi = acc >> have & hm;
            if (have < 32) {
                acc = acc << 32 | *w++;
                have += 32;
            }
            have -= 32;
            u64 v = hi << 32 | (u32)(acc >> have);
            it[k] = v >> up;
            ev[k] = v >> wc & em;
            ch[k] = v & cm;
        }
    }
    return 0;
}
u32 c_pack(u32 a, u32 b, const u64 *it, size_t n, const u8 *ev, size_t le, const u16 *ch, size_t lc,
            u32 *out, size_t lo, size_t *length) {
    if (format_bad(a))
        return 16;
    if (count_bad(a, b, n) || le != n || lc != n)
        return 17;
    u32 c = carry(a), f = (a >> 6 & 63) + 1, wi = (a & 63) + 1, we = a >> 20 & 7, wc = a >> 16 & 15;
    u64 im = wi == 64 ? ~(u64)0 : ((u64)1 << wi) - 1;
    u32 em = 1u << we, cm = 1u << wc;
    for (size_t k = 0; k < n; k++)
        if (it[k] > im || ev[k] >= em || ch[k] >= cm)
            return 14;
    size_t need = needed(c, f, n);
    if (lo < need)
        return 13;
    u64 acc = 0;
    u32 have = 0;
    u32 up = f - wi, dn = 32 - c;
    u32 *o = out;
    if (f <= 32) {
        if (we + wc == 0) {
            for (size_t k = 0; k < n; k++) {
                acc = acc << f | it[k] << up;
                have += f;
                if (have >= c) {
                    have -= c;
                    *o++ = (u32)(acc >> have) << dn;
                }
            }
        } else
            for (size_t k = 0; k < n; k++) {
                u64 v = it[k] << up | (u64)ev[k] << wc | ch[k];
                acc = acc << f | v;
                have += f;
                if (have >= c) {
                    have -= c;
                    *o++ = (u32)(acc >> have) << dn;
                }
            }
    } else {
        u32 h = f - 32;
        for (size_t k = 0; k < n; k++) {
            u64 v = it[k] << up | (u64)ev[k] << wc | ch[k];
            acc = acc << h | v >> 32;
            have += h;
            if (have >= 32) {
                have -= 32;
                *o++ = (u32)(acc >> have);
            }
            acc = acc << 32 | (u32)v;
            have += 32;
            if (have >= 32) {
                have -= 32;
                *o++ = (u32)(acc >> have);
            }
        }
    }
    if (have)
        *o = (u32)(acc << (32 - have));
    *length = need;
    return 0;
}
