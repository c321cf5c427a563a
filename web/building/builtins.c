// What compiled code calls by name: copies, and arithmetic of 128 bits.
typedef unsigned long size_t;
typedef unsigned __int128 wide;
typedef union {
    wide all;
    struct {
        unsigned long low, high;
    };
} halves;

// each is one instruction of the engine's
void *memcpy(void *to, const void *from, size_t size) { return __builtin_memcpy(to, from, size); }
void *memmove(void *to, const void *from, size_t size) { return __builtin_memmove(to, from, size); }
void *memset(void *to, int byte, size_t size) { return __builtin_memset(to, byte, size); }

int memcmp(const void *one, const void *other, size_t size) {
    const unsigned char *a = one, *b = other;
    for (; size; size--, a++, b++)
        if (*a != *b) return *a < *b ? -1 : 1;
    return 0;
}
int bcmp(const void *one, const void *other, size_t size) { return memcmp(one, other, size); }

wide __multi3(wide one, wide other) {
    const unsigned long mask = 0xffffffff;
    halves a, b, product;
    a.all = one, b.all = other;
    unsigned long a0 = a.low & mask, a1 = a.low >> 32, b0 = b.low & mask, b1 = b.low >> 32;
    unsigned long low = a0 * b0, middle = a1 * b0 + (low >> 32), carry = a0 * b1 + (middle & mask);
    product.low = (low & mask) | (carry << 32);
    product.high = a1 * b1 + (middle >> 32) + (carry >> 32) + a.low * b.high + a.high * b.low;
    return product.all;
}

wide __ashlti3(wide number, int by) {
    halves a, shifted;
    a.all = number;
    if (!by) return number;
    shifted.low = by & 64 ? 0 : a.low << by;
    shifted.high = by & 64 ? a.low << (by & 63) : a.high << by | a.low >> (64 - by);
    return shifted.all;
}

wide __lshrti3(wide number, int by) {
    halves a, shifted;
    a.all = number;
    if (!by) return number;
    shifted.high = by & 64 ? 0 : a.high >> by;
    shifted.low = by & 64 ? a.high >> (by & 63) : a.low >> by | a.high << (64 - by);
    return shifted.all;
}
