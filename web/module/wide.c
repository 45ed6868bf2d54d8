/* What clang calls by name for WebAssembly and a C library would define: comparing bytes, and products and shifts of 128 bits. */
typedef unsigned long address;
typedef unsigned long long u64;
typedef unsigned char u8;
typedef unsigned __int128 u128;

#define LOW32 0xffffffffull

static u64 low_of(u128 number) { return (u64)number; }

static u64 high_of(u128 number) {
    union {
        u128 number;
        u64 half[2];
    } both = {number};
    return both.half[1];
}

static u128 joined(u64 low, u64 high) {
    union {
        u64 half[2];
        u128 number;
    } both = {{low, high}};
    return both.number;
}

/* Compares eight bytes at a time until they differ. */
int memcmp(const void *first, const void *second, address count) {
    const u8 *x = first, *y = second;
    for (; count >= 8; count -= 8, x += 8, y += 8) {
        u64 eight, other;
        __builtin_memcpy(&eight, x, 8);
        __builtin_memcpy(&other, y, 8);
        if (eight != other) break;
    }
    for (; count; count--, x++, y++)
        if (*x != *y) return *x < *y ? -1 : 1;
    return 0;
}

int bcmp(const void *first, const void *second, address count) { return memcmp(first, second, count); }

/* The product of two numbers of 64 bits, from the four products of their halves. */
static u128 product(u64 x, u64 y) {
    u64 x0 = x & LOW32, x1 = x >> 32, y0 = y & LOW32, y1 = y >> 32;
    u64 low = x0 * y0, cross = x0 * y1, other = x1 * y0;
    u64 middle = (low >> 32) + (cross & LOW32) + (other & LOW32);
    return joined((low & LOW32) | (middle << 32), x1 * y1 + (cross >> 32) + (other >> 32) + (middle >> 32));
}

__int128 __multi3(__int128 x, __int128 y) {
    u64 x0 = low_of((u128)x), x1 = high_of((u128)x), y0 = low_of((u128)y), y1 = high_of((u128)y);
    u128 low = product(x0, y0);
    return (__int128)joined(low_of(low), high_of(low) + x0 * y1 + x1 * y0);
}

__int128 __ashlti3(__int128 number, int bits) {
    u64 low = low_of((u128)number), high = high_of((u128)number);
    if (bits >= 64) return (__int128)joined(0, low << (bits - 64));
    if (!bits) return number;
    return (__int128)joined(low << bits, high << bits | low >> (64 - bits));
}

__int128 __lshrti3(__int128 number, int bits) {
    u64 low = low_of((u128)number), high = high_of((u128)number);
    if (bits >= 64) return (__int128)joined(high >> (bits - 64), 0);
    if (!bits) return number;
    return (__int128)joined(low >> bits | high << (64 - bits), high >> bits);
}

__int128 __ashrti3(__int128 number, int bits) {
    u64 low = low_of((u128)number), high = high_of((u128)number), sign = (u64)((long long)high >> 63);
    if (bits >= 64) return (__int128)joined((u64)((long long)high >> (bits - 64)), sign);
    if (!bits) return number;
    return (__int128)joined(low >> bits | high << (64 - bits), (u64)((long long)high >> bits));
}
