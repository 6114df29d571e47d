/* What LLVM calls by name on WebAssembly for 128 bits: the product and two shifts. No proof covers it; tests/browser.py
 * compares it with the compiler's own. */
typedef unsigned __int128 u128;

#ifndef NAMED
#define NAMED(name) name
#endif

typedef union halves {
    u128 whole;
    struct {
        unsigned long long low, high;
    };
} halves;

u128 NAMED(__multi3)(u128 x, u128 y) {
    halves a = {x}, b = {y}, product;
    unsigned long long a0 = a.low & 0xffffffff, a1 = a.low >> 32, b0 = b.low & 0xffffffff, b1 = b.low >> 32;
    unsigned long long first = a0 * b0, second = a1 * b0 + (first >> 32), third = a0 * b1 + (second & 0xffffffff);
    product.low = third << 32 | (first & 0xffffffff);
    product.high = a1 * b1 + (second >> 32) + (third >> 32) + a.low * b.high + a.high * b.low;
    return product.whole;
}

u128 NAMED(__ashlti3)(u128 x, int n) {
    halves a = {x}, shifted;
    int by = n & 63;
    shifted.low = n & 64 ? 0 : a.low << by;
    shifted.high = n & 64 ? a.low << by : a.high << by | a.low >> 1 >> (63 - by);
    return shifted.whole;
}

u128 NAMED(__lshrti3)(u128 x, int n) {
    halves a = {x}, shifted;
    int by = n & 63;
    shifted.high = n & 64 ? 0 : a.high >> by;
    shifted.low = n & 64 ? a.high >> by : a.low >> by | a.high << 1 << (63 - by);
    return shifted.whole;
}
