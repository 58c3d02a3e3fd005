// Numbers of 128 bits, whose product and shifts LLVM calls by name.
#include "shim.h"
typedef union {
    u128 whole;
    struct {
        u64 low, high;
    };
} Halves;

u128 __multi3(u128 x, u128 y) {
    Halves a = {x}, b = {y}, product;
    u64 a0 = a.low & 0xffffffff, a1 = a.low >> 32, b0 = b.low & 0xffffffff, b1 = b.low >> 32;
    u64 first = a0 * b0;
    u64 second = a1 * b0 + (first >> 32);
    u64 third = a0 * b1 + (second & 0xffffffff);
    product.low = third << 32 | (first & 0xffffffff);
    product.high = a1 * b1 + (second >> 32) + (third >> 32) + a.low * b.high + a.high * b.low;
    return product.whole;
}

u128 __ashlti3(u128 x, int n) {
    Halves a = {x}, shifted;
    if (n & 64) {
        shifted.low = 0;
        shifted.high = a.low << (n & 63);
    } else {
        shifted.low = a.low << (n & 63);
        shifted.high = a.high << (n & 63) | a.low >> 1 >> (63 - (n & 63));
    }
    return shifted.whole;
}

u128 __lshrti3(u128 x, int n) {
    Halves a = {x}, shifted;
    if (n & 64) {
        shifted.low = a.high >> (n & 63);
        shifted.high = 0;
    } else {
        shifted.low = a.low >> (n & 63) | a.high << 1 << (63 - (n & 63));
        shifted.high = a.high >> (n & 63);
    }
    return shifted.whole;
}

// The halves of a result for the tests of the page: 0 the product, 1 x shifted left by y, 2 x shifted right.
EXPORT(wide) u64 wide(int which, u64 x_low, u64 x_high, u64 y_low, u64 y_high, int half) {
    Halves x, y, result;
    x.low = x_low, x.high = x_high, y.low = y_low, y.high = y_high;
    result.whole = which == 0 ? __multi3(x.whole, y.whole) : which == 1 ? __ashlti3(x.whole, (int)y_low) : __lshrti3(x.whole, (int)y_low);
    return half ? result.high : result.low;
}
