/*
 * polskrea: chunks of numbers cast between eleven number kinds.
 *
 * Link target/staticlib/libpolskrea.a, which tools/libraries makes (x86-64 Linux; it needs no other library, calls nothing, keeps
 * no state, allocates nothing, and may be called from several threads at once).
 *
 * What is said below of the answer and of the destination is proved of the library's code, for every input that keeps the caller's side:
 * crates/answer_fields/specs/Returned.antt states it. Nothing checks the caller's side.
 */
#ifndef POLSKREA_H
#define POLSKREA_H

#include <stddef.h>
#include <stdint.h>

#ifdef __cplusplus
extern "C" {
#endif

/* Kind codes. An element has 1, 2, 4 or 8 bytes, lowest byte first; integers are two's complement, floats are IEEE 754 binary16, binary32 and
 * binary64. An f16 has 11 significant bits, MAX 65504 and smallest spacing 2^-24; its element is its 16-bit pattern, a uint16_t in C. */
#define POLSKREA_I8 0
#define POLSKREA_I16 1
#define POLSKREA_I32 2
#define POLSKREA_I64 3
#define POLSKREA_U8 4
#define POLSKREA_U16 5
#define POLSKREA_U32 6
#define POLSKREA_U64 7
#define POLSKREA_F32 8
#define POLSKREA_F64 9
#define POLSKREA_F16 10

/* Rounding codes. */
#define POLSKREA_NEAREST_EVEN 0
#define POLSKREA_TOWARDS_ZERO 1
#define POLSKREA_TOWARDS_POSITIVE 2
#define POLSKREA_TOWARDS_NEGATIVE 3
#define POLSKREA_NEAREST_AWAY 4

/* Range codes: what becomes of an element whose rounded value lies past the target's finite range.
 * NONE refuses it. CLAMP gives the nearer end of an integer kind, and the infinity of its sign in a float kind.
 * WRAP gives the number of an integer kind that is congruent to it modulo 2^bits; with a float target, f16, f32 or f64, it is barred, whatever
 * the elements. */
#define POLSKREA_NONE 0
#define POLSKREA_CLAMP 1
#define POLSKREA_WRAP 2

/* The numbers that polskrea_convert and polskrea_preview return. */
#define POLSKREA_CONVERTED 0         /* every element is converted */
#define POLSKREA_UNKNOWN_CODE 1      /* a kind, rounding or range code is not listed above */
#define POLSKREA_BROKEN_MAP 2        /* map key or target bytes are not whole elements, or their counts differ */
#define POLSKREA_BROKEN_ELEMENT 3    /* source or destination bytes are not whole elements */
#define POLSKREA_LENGTH_MISMATCH 4   /* the element counts of source and destination differ */
#define POLSKREA_NAN_OR_INF 5        /* a NaN or an infinity that no map entry matches goes to an integer kind, whatever the range code */
#define POLSKREA_OUT_OF_RANGE 6      /* the rounded value is outside an integer target, range code 0 */
#define POLSKREA_FLOAT_OUT_OF_RANGE 7 /* the rounded value of a float, or of an integer to f16, is past a float target's finite range, range code 0 */
#define POLSKREA_BARRED_WRAP 8       /* range code 2 with a float target, whatever the lengths, the map and the elements: an empty chunk too */

/* What a call answers beside its number. Every call writes every field, 0 where the field does not apply. The first six go with the numbers that
 * stand beside them. The last five count the converted elements, each in one of them: with the numbers 0, 5, 6 and 7. */
typedef struct polskrea_answer {
    uint64_t src_len;  /* 4: the elements of the source */
    uint64_t dst_len;  /* 4: the elements of the destination */
    uint64_t position; /* 5, 6, 7: of the refused element, in elements from 0 */
    uint64_t value;    /* 5, 6, 7: the refused element, unrounded, as the bits of a double: an integer by nearest-even, a NaN by the rule below */
    uint64_t lowest;   /* 6: the target's lowest number, as the bits of an int64_t; 7: -MAX, as the bits of a double: f16's is 0xc0effc0000000000 */
    uint64_t highest;  /* 6: the target's highest number; 7: MAX, as the bits of a double: f16's is 0x40effc0000000000 */
    uint64_t mapped;   /* a key equals the element, whatever the target */
    uint64_t exact;    /* no key does, and the rounded value equals the element as a number; or a NaN or an infinity goes to a float kind */
    uint64_t rounded;  /* no key does, and the rounded value is another number, within the target's finite range */
    uint64_t clamped;  /* no key does, and the rounded value is past that range: range code 1 */
    uint64_t wrapped;  /* no key does, and the rounded value is past that range: range code 2, integer target */
} polskrea_answer;

/*
 * Converts the elements of `src` in order into `dst`.
 *
 * Each element: if it equals a key of the map, the target of the first such entry is stored as it is, unrounded and unchecked. A NaN key
 * equals every NaN, and +0 and -0 are equal. Otherwise the element is rounded once to the target kind by the rounding code, and then the
 * range code decides. A zero result keeps the sign of a float element; infinities pass from float to float.
 * An integer may overrun f16 alone among the float kinds: with no range choice, 65519 gives 65504 by nearest-even and 65520 is refused by 7;
 * clamped it is the infinity of its sign, and counts as clamped.
 * NaN to a float kind: same kind, bits unchanged; to a narrower kind, sign kept, top fraction bits kept, 23 of them in f32 and 10 in f16,
 * highest fraction bit set; to a wider kind, sign kept, fraction placed at the top, highest fraction bit set.
 *
 * `src`, `dst`, `keys` and `targets` each come with their length in BYTES. Keys are elements of the kind `from`, targets of the kind `to`;
 * entry i is key i and target i. With no map both lengths are 0.
 *
 * Returns 0 to 8. Tested in this order: 1, 8, 2, 3, 4, then the elements by position, and the first refusal ends the call.
 *   0          dst holds every converted element.
 *   1 to 4, 8  dst is as it was.
 *   5, 6, 7    the elements before the refused one are converted; dst is as it was from the refused one on.
 *
 * answer, every field always written; what a line does not name is 0:
 *   0          the counts
 *   1, 2, 3, 8 nothing
 *   4          src_len, dst_len
 *   5          position, value, the counts
 *   6, 7       position, value, lowest, highest, the counts
 * The counts are mapped, exact, rounded, clamped and wrapped: how the converted elements fared. Their sum is the number of converted elements:
 * all of them for 0, and the position for 5, 6 and 7. A clamped or wrapped element is not counted as rounded too. Either zero is the number 0:
 * -0.0 that becomes 0 is exact, -0.3 that becomes -0 is rounded.
 *
 * The caller's side:
 *   - Each pointer is good for its length: `src`, `keys`, `targets` for reading, `dst` and `answer` for reading and writing.
 *   - A pointer whose length is 0 is never read or written and may be NULL. `answer` is never NULL.
 *   - `dst` and `answer` overlap nothing else that is passed. `src`, `keys` and `targets` may overlap each other.
 *   - Nothing else writes to the five while the call runs. No length is above PTRDIFF_MAX.
 *   - `answer` is aligned for polskrea_answer. The others need no alignment.
 *   - The floating-point environment is the default one (FE_DFL_ENV; MXCSR neither flushes nor zeroes subnormals). That another one changes no
 *     answer of polskrea_convert, raises nothing and traps nowhere is tested (examples/c/environment.c) and not proved.
 * The caller owns all five before, during and after the call; the library keeps no pointer.
 */
uint8_t polskrea_convert(const uint8_t *src, size_t src_len,
                         uint8_t *dst, size_t dst_len,
                         const uint8_t *keys, size_t keys_len,
                         const uint8_t *targets, size_t targets_len,
                         uint8_t from, uint8_t to, uint8_t rounding, uint8_t range,
                         polskrea_answer *answer);

/*
 * Previews polskrea_convert: returns its number and leaves its answer, every field, and in `changed` how many bytes of `dst` it would change.
 * Nothing of `dst` is written.
 *
 * `changed` counts the places at which the bytes of `dst` differ from those that polskrea_convert would leave in it. Bytes, not numbers: 0.0
 * over -0.0 changes one. It is 0 for 1 to 4 and 8; for 5, 6 and 7 it counts what would change before the refused element. It is always
 * written. It is never more than the bytes that would be written, and it is 0 right after polskrea_convert with the same arguments, even where
 * that was refused: crates/cast_spec/proofs/Previews.antt proves these two.
 *
 * It stands in libpolskrea_preview.a, which tools/libraries makes; what is said above of libpolskrea.a holds of it too.
 *
 * The caller's side is that of polskrea_convert, where `dst` is for reading alone and may overlap `src`, `keys` and `targets`, and where
 * `changed` is a sixth pointer: not NULL, aligned for its type, good for reading and writing. Only `answer` and `changed` must overlap nothing
 * else that is passed. What is said of the floating-point environment is tested of the preview too.
 */
uint8_t polskrea_preview(const uint8_t *src, size_t src_len,
                         const uint8_t *dst, size_t dst_len,
                         const uint8_t *keys, size_t keys_len,
                         const uint8_t *targets, size_t targets_len,
                         uint8_t from, uint8_t to, uint8_t rounding, uint8_t range,
                         polskrea_answer *answer, uint64_t *changed);

/*
 * Typed calls: slices of numbers in place of bytes, and one slice of map entries. Same steps, same numbers, same fields as
 * polskrea_convert on the elements' bytes. Every length counts ELEMENTS. They cannot answer 2 or 3, and answer 8 only where the
 * target is f32. They stand in libpolskrea_typed.a.
 *
 * A NaN's own bits play no part: as the value of refusal 5 every NaN is 0x7ff8000000000000, and which NaN pattern a stored NaN has is free.
 * A place of `dst` that is left as it was is not written. Of a float that is a NaN the proof says only that it is still a NaN; that it keeps its
 * very bits is tested (examples/c, bindings/rust).
 *
 * The caller's side is that of polskrea_convert, and each pointer is aligned for its type where its length is not 0. These calls compare
 * floats: where subnormals are taken as zero they equal zeros and each other, as keys and as elements; a signalling NaN raises FE_INVALID, and a subnormal
 * the machine's denormal flag, and each traps where it is enabled.
 */
typedef struct {
    double key;
    uint8_t target;
} polskrea_entry_f64_u8;

typedef struct {
    double key;
    int32_t target;
} polskrea_entry_f64_i32;

typedef struct {
    float key;
    uint8_t target;
} polskrea_entry_f32_u8;

typedef struct {
    double key;
    float target;
} polskrea_entry_f64_f32;

typedef struct {
    int64_t key;
    float target;
} polskrea_entry_i64_f32;

uint8_t polskrea_convert_f64_to_u8(const double *src, size_t src_len,
                                   uint8_t *dst, size_t dst_len,
                                   const polskrea_entry_f64_u8 *entries, size_t entries_len,
                                   uint8_t rounding, uint8_t range, polskrea_answer *answer);

uint8_t polskrea_convert_f64_to_i32(const double *src, size_t src_len,
                                    int32_t *dst, size_t dst_len,
                                    const polskrea_entry_f64_i32 *entries, size_t entries_len,
                                    uint8_t rounding, uint8_t range, polskrea_answer *answer);

uint8_t polskrea_convert_f32_to_u8(const float *src, size_t src_len,
                                   uint8_t *dst, size_t dst_len,
                                   const polskrea_entry_f32_u8 *entries, size_t entries_len,
                                   uint8_t rounding, uint8_t range, polskrea_answer *answer);

uint8_t polskrea_convert_f64_to_f32(const double *src, size_t src_len,
                                    float *dst, size_t dst_len,
                                    const polskrea_entry_f64_f32 *entries, size_t entries_len,
                                    uint8_t rounding, uint8_t range, polskrea_answer *answer);

uint8_t polskrea_convert_i64_to_f32(const int64_t *src, size_t src_len,
                                    float *dst, size_t dst_len,
                                    const polskrea_entry_i64_f32 *entries, size_t entries_len,
                                    uint8_t rounding, uint8_t range, polskrea_answer *answer);

/* The version of this interface: 2, for 0.2. In 1 the answer was four words, with no counts. */
#define POLSKREA_VERSION 2
uint32_t polskrea_version(void);

#ifdef __cplusplus
}
#endif

#endif
