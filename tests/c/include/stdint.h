/* The part of stdint.h that panel.h asks for: the toolchain has a C compiler and no headers. */
typedef __INT32_TYPE__ int32_t;
typedef __UINT8_TYPE__ uint8_t;
typedef __UINT32_TYPE__ uint32_t;
