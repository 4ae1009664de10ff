/* What the compiler calls by these names: multiplication of integers of 128 bits, and comparison of bytes. */
#include "types.h"

typedef unsigned __int128 wide;

wide __multi3(wide one, wide other)
{
    uint64_t a = (uint64_t)one, b = (uint64_t)other;
    uint64_t low_a = (uint32_t)a, high_a = a >> 32, low_b = (uint32_t)b, high_b = b >> 32;
    uint64_t low = low_a * low_b, middle = high_a * low_b + (low >> 32);
    uint64_t carry = low_a * high_b + (uint32_t)middle;
    uint64_t high = high_a * high_b + (middle >> 32) + (carry >> 32);
    high += a * (uint64_t)(other >> 64) + (uint64_t)(one >> 64) * b;
    return (wide)high << 64 | carry << 32 | (uint32_t)low;
}

int memcmp(const void *one, const void *other, size_t count)
{
    const unsigned char *a = one, *b = other;
    while (count > 0 && *a == *b) a++, b++, count--;
    return count == 0 ? 0 : *a - *b;
}

int bcmp(const void *one, const void *other, size_t count) { return memcmp(one, other, count); }
