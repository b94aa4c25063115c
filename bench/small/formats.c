// And of payload formats: the words that items need, where an item stands in their order, and its signed value. The tests of a format are those of the payload bench.
#include "../payload/by_hand.c"
enum { VALUE = 14, FORMAT = 16, COUNT = 17 };
u32 c_words_needed(u32 a, u32 b, size_t n, size_t *length) {
    if (format_bad(a))
        return FORMAT;
    if (count_bad(a, b, n))
        return COUNT;
    *length = needed(carry(a), (a >> 6 & 63) + 1, n);
    return 0;
}
// x: time, channel, component and repeat.
u32 c_coordinates_of(u32 a, u32 b, size_t n, size_t item, u32 *x) {
    if (format_bad(a))
        return FORMAT;
    if (count_bad(a, b, n))
        return COUNT;
    if (item >= n)
        return VALUE;
    u32 v = (b & 0xffff) + 1, r = (b >> 16) + 1, c = a >> 29 & 3 ? 2 : 1, i = item;
    if (a >> 23 & 1) {
        x[3] = i % r;
        i /= r;
        x[2] = i % c;
        i /= c;
    } else {
        x[2] = i % c;
        i /= c;
        x[3] = i % r;
        i /= r;
    }
    x[1] = i % v;
    x[0] = i / v;
    return 0;
}
u32 c_item_at(u32 a, u32 b, size_t n, const u32 *x, size_t *item) {
    if (format_bad(a))
        return FORMAT;
    if (count_bad(a, b, n))
        return COUNT;
    u32 v = (b & 0xffff) + 1, r = (b >> 16) + 1, c = a >> 29 & 3 ? 2 : 1;
    if (x[0] >= n / group_of(a, b) || x[1] >= v || x[2] >= c || x[3] >= r)
        return VALUE;
    size_t i = (size_t)x[0] * v + x[1];
    *item = a >> 23 & 1 ? (i * c + x[2]) * r + x[3] : (i * r + x[3]) * c + x[2];
    return 0;
}
u32 c_signed(u32 width, u64 item, int64_t *value) {
    if (width < 1 || width > 64)
        return FORMAT;
    if (width < 64 && item >> width)
        return VALUE;
    *value = (int64_t)(item << (64 - width)) >> (64 - width);
    return 0;
}
