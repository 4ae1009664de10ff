/* The kit's compiler comes without headers. */
#ifndef TYPES_H
#define TYPES_H

typedef __SIZE_TYPE__ size_t;
typedef __UINT32_TYPE__ uint32_t;
typedef __UINT64_TYPE__ uint64_t;
typedef __UINTPTR_TYPE__ uintptr_t;

#define NULL ((void *)0)

#endif
