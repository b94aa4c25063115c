// PAD, for C by hand. The bits of an item of 49A: a digit for each data type, from the right, the power of two that they are.
#define ITEM_BITS 0x65432065654320u
// Whether the class of a 49A packet does not fit its table, or its payload of n words is not whole sample vectors and its padding.
static inline int pad_bad(uint32_t high, uint32_t low, uint32_t n) {
    uint32_t pad = high >> 27, type = low >> 16 & 15, bits = 32 * n;
    if ((high & 0x7ffffff) != 0xfffffa || low >> 21 || type < 1 || type > 13)
        return 1;
    return bits < pad || (bits - pad) % (((low & 0xffff) + 1) << ((ITEM_BITS >> 4 * type & 15) + (low >> 20)));
}
