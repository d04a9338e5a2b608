/* The shifts, the product and the division of 128 bits, which LLVM calls on WebAssembly by these names. (No number of 128 bits is
 * shifted, multiplied or divided here, since that would be such a call.) */
typedef __UINT64_TYPE__ uint64_t;
typedef union wide {
    __int128 all;
    struct {
        uint64_t low, high; /* WebAssembly has the low half first */
    } half;
} wide;

/* `count` is from 0 to 127; a shift of 64 bits by 64 is none in C, so that 0 is told apart. */
__int128 __ashlti3(__int128 value, int count) {
    wide from = {.all = value}, to;
    if (count == 0) return value;
    if (count < 64) {
        to.half.low = from.half.low << count;
        to.half.high = from.half.high << count | from.half.low >> (64 - count);
    } else {
        to.half.low = 0;
        to.half.high = from.half.low << (count - 64);
    }
    return to.all;
}

__int128 __lshrti3(__int128 value, int count) {
    wide from = {.all = value}, to;
    if (count == 0) return value;
    if (count < 64) {
        to.half.high = from.half.high >> count;
        to.half.low = from.half.low >> count | from.half.high << (64 - count);
    } else {
        to.half.high = 0;
        to.half.low = from.half.high >> (count - 64);
    }
    return to.all;
}

/* The low halves are multiplied by parts of 32 bits, as by hand; none of the sums leaves 64 bits. Of the other products only the
 * low 64 bits are below 2^128. */
__int128 __multi3(__int128 one, __int128 other) {
    wide a = {.all = one}, b = {.all = other}, to;
    uint64_t part = 0xffffffffu;
    uint64_t a0 = a.half.low & part, a1 = a.half.low >> 32, b0 = b.half.low & part, b1 = b.half.low >> 32;
    uint64_t low = a0 * b0, first = a1 * b0 + (low >> 32), second = a0 * b1 + (first & part);
    to.half.low = second << 32 | (low & part);
    to.half.high = a1 * b1 + (first >> 32) + (second >> 32) + a.half.low * b.half.high + a.half.high * b.half.low;
    return to.all;
}

/* The quotient of two numbers, and in `rest` the remainder, bit by bit from the highest, as by hand. The remainder so far is less than
 * `by`; where twice that leaves 128 bits it is more. By 0, of which nobody asks, all bits are set. */
static wide divided(wide of, wide by, wide *rest) {
    wide quotient = {.half = {0, 0}};
    uint64_t low = 0, high = 0;
    for (unsigned bit = 128; bit-- > 0;) {
        uint64_t next = (bit < 64 ? of.half.low >> bit : of.half.high >> (bit - 64)) & 1, past = high >> 63;
        high = high << 1 | low >> 63;
        low = low << 1 | next;
        if (past || high > by.half.high || (high == by.half.high && low >= by.half.low)) {
            high -= by.half.high + (low < by.half.low);
            low -= by.half.low;
            if (bit < 64) {
                quotient.half.low |= (uint64_t)1 << bit;
            } else {
                quotient.half.high |= (uint64_t)1 << (bit - 64);
            }
        }
    }
    rest->half.low = low, rest->half.high = high;
    return quotient;
}

__int128 __udivti3(__int128 one, __int128 other) {
    wide a = {.all = one}, b = {.all = other}, rest;
    return divided(a, b, &rest).all;
}

__int128 __umodti3(__int128 one, __int128 other) {
    wide a = {.all = one}, b = {.all = other}, rest;
    divided(a, b, &rest);
    return rest.all;
}
