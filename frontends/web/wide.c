/* Numbers of 128 bits: what LLVM calls on WebAssembly for products, quotients and shifts. */
typedef unsigned __int128 wide;
typedef __int128 signed_wide;
typedef unsigned long half;

static half low(wide number) { return (half)number; }
static half high(wide number) {
    half parts[2];
    __builtin_memcpy(parts, &number, sizeof parts);
    return parts[1];
}
static wide pair(half upper, half lower) {
    half parts[2] = {lower, upper};
    wide number;
    __builtin_memcpy(&number, parts, sizeof number);
    return number;
}

/* The product of two halves, by quarters. */
static wide product(half left, half right) {
    half quarter = 0xffffffff, left_low = left & quarter, right_low = right & quarter;
    half lowest = left_low * right_low;
    half middle = (left >> 32) * right_low + (lowest >> 32);
    half other = left_low * (right >> 32) + (middle & quarter);
    return pair((left >> 32) * (right >> 32) + (middle >> 32) + (other >> 32), other << 32 | (lowest & quarter));
}

wide __multi3(wide left, wide right) {
    wide both = product(low(left), low(right));
    return pair(high(both) + low(left) * high(right) + high(left) * low(right), low(both));
}

wide __ashlti3(wide number, int places) {
    if (!places) return number;
    if (places >= 64) return pair(low(number) << (places - 64), 0);
    return pair(high(number) << places | low(number) >> (64 - places), low(number) << places);
}

wide __lshrti3(wide number, int places) {
    if (!places) return number;
    if (places >= 64) return pair(0, high(number) >> (places - 64));
    return pair(high(number) >> places, low(number) >> places | high(number) << (64 - places));
}

signed_wide __ashrti3(signed_wide number, int places) {
    long upper = (long)high((wide)number);
    if (!places) return number;
    if (places >= 64) return (signed_wide)pair((half)(upper >> 63), (half)(upper >> (places - 64)));
    return (signed_wide)pair((half)(upper >> places), low((wide)number) >> places | (half)upper << (64 - places));
}

/* Bit by bit, as on paper. */
wide __udivti3(wide number, wide divisor) {
    wide quotient = 0, rest = 0;
    for (int place = 127; place >= 0; place--) {
        half bit = (place >= 64 ? high(number) >> (place - 64) : low(number) >> place) & 1;
        half carried = high(rest) >> 63;
        rest = pair(high(rest) << 1 | low(rest) >> 63, low(rest) << 1 | bit);
        if (carried || rest >= divisor) {
            rest -= divisor;
            quotient = place >= 64 ? pair(high(quotient) | (half)1 << (place - 64), low(quotient)) : pair(high(quotient), low(quotient) | (half)1 << place);
        }
    }
    return quotient;
}
