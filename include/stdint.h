/*
 * Integers of 8 to 32 bits, as macros: the language has no typedef. There are none of 64 bits; <wide.h> has products and
 * quotients over 64 bits in two words of 32.
 */
#ifndef WCC_STDINT_H
#define WCC_STDINT_H

#define int8_t signed char
#define uint8_t unsigned char
#define int16_t short
#define uint16_t unsigned short
#define int32_t int
#define uint32_t unsigned int

#define int_least8_t signed char
#define uint_least8_t unsigned char
#define int_least16_t short
#define uint_least16_t unsigned short
#define int_least32_t int
#define uint_least32_t unsigned int

#define int_fast8_t int
#define uint_fast8_t unsigned int
#define int_fast16_t int
#define uint_fast16_t unsigned int
#define int_fast32_t int
#define uint_fast32_t unsigned int

#define INT8_MIN (-128)
#define INT8_MAX 127
#define UINT8_MAX 255
#define INT16_MIN (-32768)
#define INT16_MAX 32767
#define UINT16_MAX 65535
#define INT32_MIN (-2147483647 - 1)
#define INT32_MAX 2147483647
#define UINT32_MAX 4294967295U
#define SIZE_MAX 4294967295U
#define PTRDIFF_MIN (-2147483647 - 1)
#define PTRDIFF_MAX 2147483647

#define INT_LEAST8_MIN INT8_MIN
#define INT_LEAST8_MAX INT8_MAX
#define UINT_LEAST8_MAX UINT8_MAX
#define INT_LEAST16_MIN INT16_MIN
#define INT_LEAST16_MAX INT16_MAX
#define UINT_LEAST16_MAX UINT16_MAX
#define INT_LEAST32_MIN INT32_MIN
#define INT_LEAST32_MAX INT32_MAX
#define UINT_LEAST32_MAX UINT32_MAX
#define INT_FAST8_MIN INT32_MIN
#define INT_FAST8_MAX INT32_MAX
#define UINT_FAST8_MAX UINT32_MAX
#define INT_FAST16_MIN INT32_MIN
#define INT_FAST16_MAX INT32_MAX
#define UINT_FAST16_MAX UINT32_MAX
#define INT_FAST32_MIN INT32_MIN
#define INT_FAST32_MAX INT32_MAX
#define UINT_FAST32_MAX UINT32_MAX

#define INT8_C(value) value
#define UINT8_C(value) value
#define INT16_C(value) value
#define UINT16_C(value) value
#define INT32_C(value) value
#define UINT32_C(value) value##U

/* What can't be had is an error where it's used, in words of its own: a compiler's own column isn't that of the word. */
#define int64_t _Pragma("GCC error \"int64_t has 64 bits: see 'Sums of 64 bits' and the parts beside it in docs/PORTING.md, and <wide.h>\"") int64_t
#define uint64_t _Pragma("GCC error \"uint64_t has 64 bits: see 'Sums of 64 bits' and the parts beside it in docs/PORTING.md, and <wide.h>\"") uint64_t
#define int_least64_t _Pragma("GCC error \"int_least64_t has 64 bits: see 'Sums of 64 bits' and the parts beside it in docs/PORTING.md, and <wide.h>\"") int_least64_t
#define uint_least64_t _Pragma("GCC error \"uint_least64_t has 64 bits: see 'Sums of 64 bits' and the parts beside it in docs/PORTING.md, and <wide.h>\"") uint_least64_t
#define int_fast64_t _Pragma("GCC error \"int_fast64_t has 64 bits: see 'Sums of 64 bits' and the parts beside it in docs/PORTING.md, and <wide.h>\"") int_fast64_t
#define uint_fast64_t _Pragma("GCC error \"uint_fast64_t has 64 bits: see 'Sums of 64 bits' and the parts beside it in docs/PORTING.md, and <wide.h>\"") uint_fast64_t
#define intmax_t _Pragma("GCC error \"intmax_t has 64 bits: see 'Sums of 64 bits' and the parts beside it in docs/PORTING.md, and <wide.h>\"") intmax_t
#define uintmax_t _Pragma("GCC error \"uintmax_t has 64 bits: see 'Sums of 64 bits' and the parts beside it in docs/PORTING.md, and <wide.h>\"") uintmax_t
#define INT64_C(value) _Pragma("GCC error \"INT64_C has 64 bits: see 'Sums of 64 bits' and the parts beside it in docs/PORTING.md, and <wide.h>\"") value
#define UINT64_C(value) _Pragma("GCC error \"UINT64_C has 64 bits: see 'Sums of 64 bits' and the parts beside it in docs/PORTING.md, and <wide.h>\"") value
#define intptr_t _Pragma("GCC error \"intptr_t holds a pointer, and there are none: docs/PORTING.md says what to write\"") intptr_t
#define uintptr_t _Pragma("GCC error \"uintptr_t holds a pointer, and there are none: docs/PORTING.md says what to write\"") uintptr_t

#endif
