/* The layout that the libraries were made for, asserted of this compiler: the header's types, and the machine's. */
#include <float.h>
#include <limits.h>

#include "polskrea.h"

_Static_assert(CHAR_BIT == 8, "a byte has 8 bits");
_Static_assert(sizeof(size_t) == 8 && SIZE_MAX == UINT64_MAX, "a length has 64 bits");
_Static_assert(sizeof(void *) == 8, "a pointer has 64 bits");
_Static_assert(sizeof(uint16_t) == 2 && _Alignof(uint16_t) == 2, "an f16 element is a pattern of 2 bytes");
_Static_assert(sizeof(int32_t) == 4 && _Alignof(int32_t) == 4, "an i32 element has 4 bytes");
_Static_assert(sizeof(int64_t) == 8 && _Alignof(int64_t) == 8, "an i64 element has 8 bytes");
_Static_assert(INT64_MIN + 1 == -INT64_MAX && (uint64_t)INT64_MIN == UINT64_C(1) << 63, "integers are two's complement");

/* what C tells of binary32 and binary64; that the patterns are IEEE 754's it does not tell */
_Static_assert(sizeof(float) == 4 && _Alignof(float) == 4 && sizeof(double) == 8 && _Alignof(double) == 8, "floats have 4 and 8 bytes");
_Static_assert(FLT_RADIX == 2 && FLT_MANT_DIG == 24 && FLT_MIN_EXP == -125 && FLT_MAX_EXP == 128, "float has binary32's numbers");
_Static_assert(DBL_MANT_DIG == 53 && DBL_MIN_EXP == -1021 && DBL_MAX_EXP == 1024, "double has binary64's numbers");

/* standard C does not tell the byte order; gcc and clang do */
#ifdef __BYTE_ORDER__
_Static_assert(__BYTE_ORDER__ == __ORDER_LITTLE_ENDIAN__, "integers stand lowest byte first");
#endif
#ifdef __FLOAT_WORD_ORDER__
_Static_assert(__FLOAT_WORD_ORDER__ == __ORDER_LITTLE_ENDIAN__, "floats stand lowest byte first");
#endif

_Static_assert(sizeof(polskrea_answer) == 88 && _Alignof(polskrea_answer) == 8, "the answer has eleven fields of 64 bits");

#define FIELD(NAME, OFFSET)                                                                  \
    _Static_assert(offsetof(polskrea_answer, NAME) == (OFFSET), "polskrea_answer: " #NAME);  \
    _Static_assert(sizeof(((polskrea_answer *)0)->NAME) == 8, "polskrea_answer: " #NAME " size")

FIELD(src_len, 0);
FIELD(dst_len, 8);
FIELD(position, 16);
FIELD(value, 24);
FIELD(lowest, 32);
FIELD(highest, 40);
FIELD(mapped, 48);
FIELD(exact, 56);
FIELD(rounded, 64);
FIELD(clamped, 72);
FIELD(wrapped, 80);

#define ENTRY(TYPE, SIZE, ALIGN, TARGET)                                    \
    _Static_assert(sizeof(TYPE) == (SIZE), #TYPE ": size");                 \
    _Static_assert(_Alignof(TYPE) == (ALIGN), #TYPE ": alignment");         \
    _Static_assert(offsetof(TYPE, key) == 0, #TYPE ": key");                \
    _Static_assert(offsetof(TYPE, target) == (TARGET), #TYPE ": target");   \
    _Static_assert(sizeof(((TYPE *)0)->key) == (ALIGN), #TYPE ": key size")

ENTRY(polskrea_entry_f64_u8, 16, 8, 8);
ENTRY(polskrea_entry_f64_i32, 16, 8, 8);
ENTRY(polskrea_entry_f32_u8, 8, 4, 4);
ENTRY(polskrea_entry_f64_f32, 16, 8, 8);
ENTRY(polskrea_entry_i64_f32, 16, 8, 8);

_Static_assert(sizeof(((polskrea_entry_f64_u8 *)0)->target) == 1, "u8 target");
_Static_assert(sizeof(((polskrea_entry_f64_i32 *)0)->target) == 4, "i32 target");
_Static_assert(sizeof(((polskrea_entry_f32_u8 *)0)->target) == 1, "u8 target");
_Static_assert(sizeof(((polskrea_entry_f64_f32 *)0)->target) == 4, "f32 target");
_Static_assert(sizeof(((polskrea_entry_i64_f32 *)0)->target) == 4, "f32 target");
