// What host.c gives its host, and arithmetic.c gives clang.
#ifndef HOST_H
#define HOST_H

#include "heap.h"

// For the host: from now on the memory does not grow beyond so many bytes. What is there already stays.
void judge_limit(word bytes);

int memcmp(const void *one, const void *other, __SIZE_TYPE__ bytes);
int bcmp(const void *one, const void *other, __SIZE_TYPE__ bytes);
__int128 __multi3(__int128 one, __int128 other);
__int128 __ashlti3(__int128 it, int by);
__int128 __lshrti3(__int128 it, int by);
__int128 __ashrti3(__int128 it, int by);

#endif
