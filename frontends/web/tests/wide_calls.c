/* For the test of wide numbers: calls with arguments that JavaScript can give. */
typedef unsigned long half;
typedef unsigned __int128 wide;
typedef __int128 signed_wide;

wide __multi3(wide left, wide right);
wide __udivti3(wide number, wide divisor);
wide __ashlti3(wide number, int places);
wide __lshrti3(wide number, int places);
signed_wide __ashrti3(signed_wide number, int places);

static wide read(const half *parts) {
    wide number;
    __builtin_memcpy(&number, parts, sizeof number);
    return number;
}
static void write(half *parts, wide number) { __builtin_memcpy(parts, &number, sizeof number); }

void multiply(half *answer, const half *left, const half *right) { write(answer, __multi3(read(left), read(right))); }
void divide(half *answer, const half *left, const half *right) { write(answer, __udivti3(read(left), read(right))); }
void shift_left(half *answer, const half *number, int places) { write(answer, __ashlti3(read(number), places)); }
void shift_right(half *answer, const half *number, int places) { write(answer, __lshrti3(read(number), places)); }
void shift_signed(half *answer, const half *number, int places) {
    write(answer, (wide)__ashrti3((signed_wide)read(number), places));
}
