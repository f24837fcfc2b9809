// What clang calls where a machine has no instruction for it and no library: comparing bytes, and products and shifts of 128 bits.
//
// No proof covers this file. heap_test.c tests it natively.

#include "host.h"

int memcmp(const void *one, const void *other, __SIZE_TYPE__ bytes) {
    const unsigned char *left = one, *right = other;
    while (bytes >= 8) {
        word these, those;
        __builtin_memcpy(&these, left, 8);
        __builtin_memcpy(&those, right, 8);
        if (these != those)
            break;
        left += 8, right += 8, bytes -= 8;
    }
    for (; bytes; left++, right++, bytes--)
        if (*left != *right)
            return *left < *right ? -1 : 1;
    return 0;
}

int bcmp(const void *one, const void *other, __SIZE_TYPE__ bytes) { return memcmp(one, other, bytes); }

// The two halves of 128 bits as one number.
static __int128 joined(word low, word high) { return (__int128)((unsigned __int128)high << 64 | low); }

static word low_of(__int128 it) { return (word)it; }
static word high_of(__int128 it) { return (word)((unsigned __int128)it >> 64); }

// The lowest 128 bits of a product, by products of 32 bits.
__int128 __multi3(__int128 one, __int128 other) {
    word a = low_of(one), b = low_of(other);
    word low = (a & 0xFFFFFFFF) * (b & 0xFFFFFFFF);
    word cross = (a >> 32) * (b & 0xFFFFFFFF) + (low >> 32);
    word other_cross = (a & 0xFFFFFFFF) * (b >> 32) + (cross & 0xFFFFFFFF);
    word high = (a >> 32) * (b >> 32) + (cross >> 32) + (other_cross >> 32);
    high += a * high_of(other) + b * high_of(one);
    return joined(other_cross << 32 | (low & 0xFFFFFFFF), high);
}

// The shifts by a number below 128.
__int128 __ashlti3(__int128 it, int by) {
    word low = low_of(it), high = high_of(it);
    if (by & 64)
        return joined(0, low << (by & 63));
    if (!by)
        return it;
    return joined(low << by, high << by | low >> (64 - by));
}

__int128 __lshrti3(__int128 it, int by) {
    word low = low_of(it), high = high_of(it);
    if (by & 64)
        return joined(high >> (by & 63), 0);
    if (!by)
        return it;
    return joined(low >> by | high << (64 - by), high >> by);
}

__int128 __ashrti3(__int128 it, int by) {
    word low = low_of(it), high = high_of(it), signs = high >> 63 ? ~(word)0 : 0;
    if (by & 64)
        return joined(by & 63 ? high >> (by & 63) | signs << (64 - (by & 63)) : high, signs);
    if (!by)
        return it;
    return joined(low >> by | high << (64 - by), high >> by | signs << (64 - by));
}
