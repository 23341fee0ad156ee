/* What the compiler calls besides the fifteen functions of program.js, for WebAssembly with 64-bit memory: bytes, integers of 128 bits,
   and the check of the processor with which a program for x86-64 starts. */
typedef unsigned char byte;
typedef unsigned long size_t;
typedef unsigned long u64;
typedef unsigned __int128 u128;
typedef union { u128 whole; struct { u64 low, high; } half; } split;

/* with -mbulk-memory each of these three is one instruction and no call of itself */
void *memset(void *to, int value, size_t count) { __builtin_memset(to, value, count); return to; }
void *memcpy(void *to, const void *from, size_t count) { __builtin_memcpy(to, from, count); return to; }
void *memmove(void *to, const void *from, size_t count) { __builtin_memmove(to, from, count); return to; }

int memcmp(const void *left, const void *right, size_t count) {
    const byte *a = left, *b = right;
    for (; count--; a++, b++)
        if (*a != *b)
            return *a - *b;
    return 0;
}

int bcmp(const void *left, const void *right, size_t count) { return memcmp(left, right, count); }

/* the product of two words, from those of their halves */
static u128 product(u64 a, u64 b) {
    u64 a_low = a & 0xffffffff, a_high = a >> 32, b_low = b & 0xffffffff, b_high = b >> 32;
    u64 low = a_low * b_low, middle = a_high * b_low + (low >> 32), other = a_low * b_high + (middle & 0xffffffff);
    split found;
    found.half.low = other << 32 | (low & 0xffffffff);
    found.half.high = a_high * b_high + (middle >> 32) + (other >> 32);
    return found.whole;
}

u128 __multi3(u128 left, u128 right) {
    split a = {left}, b = {right}, found = {product(a.half.low, b.half.low)};
    found.half.high += a.half.high * b.half.low + a.half.low * b.half.high;
    return found.whole;
}

u128 __lshrti3(u128 value, int count) {
    split from = {value}, found;
    if (count == 0)
        return value;
    found.half.high = count & 64 ? 0 : from.half.high >> count;
    found.half.low = count & 64 ? from.half.high >> (count & 63) : from.half.high << (64 - count) | from.half.low >> count;
    return found.whole;
}

u128 __ashlti3(u128 value, int count) {
    split from = {value}, found;
    if (count == 0)
        return value;
    found.half.low = count & 64 ? 0 : from.half.low << count;
    found.half.high = count & 64 ? from.half.low << (count & 63) : from.half.low >> (64 - count) | from.half.high << count;
    return found.whole;
}

/* a program for x86-64 asks which instructions the processor has: here none of them is used, so each may be there */
void *__x86_get_cpuid_feature_leaf(int leaf) {
    static byte features[64];
    (void)leaf;
    for (int at = 0; at < 64; at++)
        features[at] = 255;
    return features;
}
