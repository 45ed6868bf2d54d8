/* The functions of 128 bits with calls for their test, which node makes: each number is two halves. */
#include "../module/wide.c"

static u64 half[2];

static void keep(__int128 number) {
    half[0] = low_of((u128)number);
    half[1] = high_of((u128)number);
}

__attribute__((export_name("test_half"))) u64 test_half(int which) { return half[which]; }

__attribute__((export_name("test_product"))) void test_product(u64 x0, u64 x1, u64 y0, u64 y1) {
    keep(__multi3((__int128)joined(x0, x1), (__int128)joined(y0, y1)));
}

__attribute__((export_name("test_shift"))) void test_shift(u64 x0, u64 x1, int bits, int kind) {
    __int128 number = (__int128)joined(x0, x1);
    keep(kind == 0 ? __ashlti3(number, bits) : kind == 1 ? __lshrti3(number, bits) : __ashrti3(number, bits));
}

__attribute__((export_name("test_memcmp"))) int test_memcmp(const void *x, const void *y, address count) { return memcmp(x, y, count); }
