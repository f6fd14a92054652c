/* The part of stddef.h that panel.h asks for: the toolchain has a C compiler and no headers. */
typedef __SIZE_TYPE__ size_t;
#define NULL ((void *)0)
