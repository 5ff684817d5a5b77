/* The types that heap.c uses: the toolchain's clang comes without headers. */
#define NULL ((void *)0)
#define PTRDIFF_MAX __PTRDIFF_MAX__
typedef __SIZE_TYPE__ size_t;
typedef __UINT8_TYPE__ uint8_t;
typedef __UINT64_TYPE__ uint64_t;
typedef __UINTPTR_TYPE__ uintptr_t;
