// And by 49A, read and write in C by hand: type 1 has no CLASS, and PAD; other types are read and written as plain ones.
#include <stddef.h>
#include <stdint.h>
#include <string.h>
#include "../pad.h"
typedef uint64_t u64;
typedef uint32_t u32;
enum { BITS = 3, SHORT, CUT, TIME = 7, VALUE = 14, SIZE, PAD = 20, ROOM = 13, MOST = 65535 };
#define TIME_LIMIT 1000000000000u
u32 c_read(const u32 *, size_t, u32 *);
u32 c_write(const u32 *, const u32 *, size_t, u32 *, size_t, size_t, size_t *);
// A refusal of a 49A data packet with header h as the library gives it: its number, and from bit 16 on the place of its word. TIME is at the fraction, PAD at the
// class, which is at 2, or at the header where there is none. Not inlined, so that accepted packets do not pay for its registers.
static __attribute__((noinline)) u32 survey_refusal(u32 number, u32 h) {
    u32 class_words = h >> 26 & 2;
    return number | (number == PAD ? class_words : 2 + class_words + ((h >> 22 & 3) != 0)) << 16;
}
// a: the eighteen values of a packet, the pad count, the two words of the payload's format, and n.
u32 c_read_survey(const u32 *w, size_t n, u32 *a) {
    if (!n || w[0] >> 28 != 1) {
        u32 refused = c_read(w, n, a);
        if (!refused)
            a[18] = a[19] = a[20] = a[21] = 0;
        return refused;
    }
    u32 h = w[0], size = h & 0xffff, tsi = h >> 22 & 3, tsf = h >> 20 & 3;
    if (h >> 24 & 3)
        return BITS;
    u32 seconds = 2 + (h >> 26 & 2), fraction = seconds + (tsi != 0), body = fraction + (tsf ? 2 : 0);
    if (size < body + (h >> 26 & 1))
        return SHORT;
    if (n < size)
        return CUT;
    u32 high = tsf ? w[fraction] : 0, low = tsf ? w[fraction + 1] : 0;
    if (tsf == 2 && ((u64)high << 32 | low) >= TIME_LIMIT)
        return survey_refusal(TIME, h);
    if ((h >> 26 & 3) != 3)
        return survey_refusal(PAD, h);
    u32 oui = w[2], codes = w[3], length = size - body - 1, pad = oui >> 27;
    if (pad_bad(oui, codes, length))
        return survey_refusal(PAD, h);
    u32 type = codes >> 16 & 15, power = ITEM_BITS >> 4 * type & 15, most = (1u << power) - 1;
    a[0] = a[1] = a[2] = 1;
    a[3] = 0;
    a[4] = tsi;
    a[5] = tsf;
    a[6] = h >> 16 & 15;
    a[7] = size;
    a[8] = w[1];
    a[9] = oui & 0xffffff;
    a[10] = codes >> 16;
    a[11] = codes & 0xffff;
    a[12] = tsi ? w[seconds] : 0;
    a[13] = high;
    a[14] = low;
    a[15] = body;
    a[16] = length;
    a[17] = w[size - 1];
    a[18] = pad;
    a[19] = codes >> 20 << 29 | (type < 6 ? 0 : type < 8 ? 8 + type : 16) << 24 | most << 6 | most;
    a[20] = codes & 0xffff;
    a[21] = (32 * length - pad) >> power;
    return 0;
}
// q: the fifteen parts, and the pad count.
u32 c_write_survey(const u32 *q, const u32 *body, size_t n, u32 *out, size_t room, size_t at, size_t *written) {
    u32 classed = q[1], trailed = q[2], tsi = q[4], tsf = q[5], pad = q[15];
    if (q[0] != 1)
        return c_write(q, body, n, out, room, at, written);
    if (classed > 1 || trailed > 1 || q[3] || tsi > 3 || tsf > 3 || q[6] > 15)
        return VALUE;
    if (classed && (q[8] >> 24 || q[9] >> 16 || q[10] >> 16 || pad > 31))
        return VALUE;
    size_t size = 2 + 2 * classed + (tsi != 0) + (tsf ? 2 : 0) + n + trailed;
    if (size > MOST)
        return SIZE;
    if (tsf == 2 && ((u64)q[12] << 32 | q[13]) >= TIME_LIMIT)
        return TIME;
    u32 high = pad << 27 | q[8], low = q[9] << 16 | q[10];
    if (!classed || !trailed || pad_bad(high, low, n))
        return PAD;
    if (room < size || room - size < at)
        return ROOM;
    u32 *w = out + at;
    *w++ = 0x1c000000 | tsi << 22 | tsf << 20 | q[6] << 16 | size;
    *w++ = q[7];
    *w++ = high;
    *w++ = low;
    if (tsi)
        *w++ = q[11];
    if (tsf) {
        *w++ = q[12];
        *w++ = q[13];
    }
    memcpy(w, body, n * 4);
    w[n] = q[14];
    *written = size;
    return 0;
}
