/* Converts 2.5 and 300 from f64 to u8, first with no range choice and then clamped, and by the typed calls, and prints each answer; previews what
   7 and 300 from i16 to u8 would change; and converts to f16 and back. */
#include <inttypes.h>
#include <stdio.h>
#include <string.h>

#include "polskrea.h"

/* A field that holds the bits of a double. */
static double as_double(uint64_t bits)
{
    double value;
    memcpy(&value, &bits, sizeof value);
    return value;
}

/* The fields that go with a refusal. */
static void show_refusal(uint8_t number, const polskrea_answer *a)
{
    printf("refused %u", number);
    if (number == POLSKREA_LENGTH_MISMATCH) {
        printf(", %" PRIu64 " elements into %" PRIu64, a->src_len, a->dst_len);
    }
    if (number >= POLSKREA_NAN_OR_INF && number <= POLSKREA_FLOAT_OUT_OF_RANGE) {
        printf(" at %" PRIu64 ", value %g", a->position, as_double(a->value));
    }
    if (number == POLSKREA_OUT_OF_RANGE) {
        printf(" outside %" PRId64 " to %" PRIu64, (int64_t)a->lowest, a->highest);
    }
    if (number == POLSKREA_FLOAT_OUT_OF_RANGE) {
        printf(" outside %.9g to %.9g", as_double(a->lowest), as_double(a->highest));
    }
}

/* A call's answer and the destination on a line, and how the converted elements fared on the next. */
static void show(const char *title, uint8_t number, const polskrea_answer *a, const uint8_t *dst, size_t len)
{
    printf("%s: ", title);
    if (number == POLSKREA_CONVERTED) {
        printf("ok");
    } else {
        show_refusal(number, a);
    }
    printf(";");
    for (size_t i = 0; i < len; i++) {
        printf(" %02x", dst[i]);
    }
    printf("\n  %" PRIu64 " mapped, %" PRIu64 " exact, %" PRIu64 " rounded, %" PRIu64 " clamped, %" PRIu64 " wrapped\n",
           a->mapped, a->exact, a->rounded, a->clamped, a->wrapped);
}

/* 2.5 and 300 as bytes, which stand lowest first, as x86-64 has them. */
static void by_bytes(void)
{
    const double src[2] = {2.5, 300.0};
    polskrea_answer answer;
    uint8_t dst[2] = {0xee, 0xee};
    uint8_t number;

    number = polskrea_convert((const uint8_t *)src, sizeof src, dst, sizeof dst, NULL, 0, NULL, 0,
                              POLSKREA_F64, POLSKREA_U8, POLSKREA_NEAREST_EVEN, POLSKREA_NONE, &answer);
    show("none", number, &answer, dst, sizeof dst);

    number = polskrea_convert((const uint8_t *)src, sizeof src, dst, sizeof dst, NULL, 0, NULL, 0,
                              POLSKREA_F64, POLSKREA_U8, POLSKREA_NEAREST_EVEN, POLSKREA_CLAMP, &answer);
    show("clamp", number, &answer, dst, sizeof dst);

    /* a map of one entry: 300 goes to 7 */
    const double key = 300.0;
    const uint8_t target = 7;
    number = polskrea_convert((const uint8_t *)src, sizeof src, dst, sizeof dst, (const uint8_t *)&key, sizeof key, &target, 1,
                              POLSKREA_F64, POLSKREA_U8, POLSKREA_NEAREST_AWAY, POLSKREA_NONE, &answer);
    show("map", number, &answer, dst, sizeof dst);

    number = polskrea_convert((const uint8_t *)src, sizeof src, dst, 1, NULL, 0, NULL, 0,
                              POLSKREA_F64, POLSKREA_U8, POLSKREA_NEAREST_EVEN, POLSKREA_NONE, &answer);
    show("one place", number, &answer, dst, 1);
}

/* What a call would change of the bytes that stand there: previewed, converted, and previewed again. */
static void before_overwriting(void)
{
    const int16_t src[2] = {7, 300};
    polskrea_answer answer;
    uint64_t changed;
    uint8_t dst[2] = {9, 44};
    uint8_t number;

    number = polskrea_preview((const uint8_t *)src, sizeof src, dst, sizeof dst, NULL, 0, NULL, 0,
                              POLSKREA_I16, POLSKREA_U8, POLSKREA_NEAREST_EVEN, POLSKREA_NONE, &answer, &changed);
    show("preview, none", number, &answer, dst, sizeof dst);
    printf("  would change %" PRIu64 " of %zu bytes\n", changed, sizeof dst);

    number = polskrea_preview((const uint8_t *)src, sizeof src, dst, sizeof dst, NULL, 0, NULL, 0,
                              POLSKREA_I16, POLSKREA_U8, POLSKREA_NEAREST_EVEN, POLSKREA_WRAP, &answer, &changed);
    show("preview, wrap", number, &answer, dst, sizeof dst);
    printf("  would change %" PRIu64 " of %zu bytes\n", changed, sizeof dst);

    number = polskrea_convert((const uint8_t *)src, sizeof src, dst, sizeof dst, NULL, 0, NULL, 0,
                              POLSKREA_I16, POLSKREA_U8, POLSKREA_NEAREST_EVEN, POLSKREA_WRAP, &answer);
    show("wrap", number, &answer, dst, sizeof dst);

    number = polskrea_preview((const uint8_t *)src, sizeof src, dst, sizeof dst, NULL, 0, NULL, 0,
                              POLSKREA_I16, POLSKREA_U8, POLSKREA_NEAREST_EVEN, POLSKREA_WRAP, &answer, &changed);
    show("preview, wrap again", number, &answer, dst, sizeof dst);
    printf("  would change %" PRIu64 " of %zu bytes\n", changed, sizeof dst);
}

/* Nothing to convert, where every pointer may be null but the answer's, a number past f32, and wrap, which a float target bars. */
static void at_the_ends(void)
{
    polskrea_answer answer;
    uint8_t number;

    number = polskrea_convert(NULL, 0, NULL, 0, NULL, 0, NULL, 0, POLSKREA_F64, POLSKREA_F32, POLSKREA_NEAREST_EVEN, POLSKREA_NONE, &answer);
    show("empty", number, &answer, NULL, 0);

    const double large = 1e300;
    uint8_t single[4] = {0xee, 0xee, 0xee, 0xee};
    number = polskrea_convert((const uint8_t *)&large, sizeof large, single, sizeof single, NULL, 0, NULL, 0,
                              POLSKREA_F64, POLSKREA_F32, POLSKREA_NEAREST_EVEN, POLSKREA_NONE, &answer);
    show("1e300 to f32", number, &answer, single, sizeof single);

    number = polskrea_convert(NULL, 0, NULL, 0, NULL, 0, NULL, 0, POLSKREA_F64, POLSKREA_F32, POLSKREA_NEAREST_EVEN, POLSKREA_WRAP, &answer);
    show("empty, wrap to f32", number, &answer, NULL, 0);
}

/* Halves are their patterns, of two bytes: u16 65519 is rounded to 65504, f16's MAX, and 65520 overruns; an f64 just above the middle of 1 and
   the next f16 is rounded once, to that next one; and back to f32. */
static void to_f16(void)
{
    const uint16_t counts[2] = {65519, 65520};
    const uint64_t above_the_middle = 0x3ff0020000001000;
    polskrea_answer answer;
    uint16_t halves[2] = {0xeeee, 0xeeee};
    float single = 0.0f;
    uint8_t number;

    number = polskrea_convert((const uint8_t *)counts, sizeof counts, (uint8_t *)halves, sizeof halves, NULL, 0, NULL, 0,
                              POLSKREA_U16, POLSKREA_F16, POLSKREA_NEAREST_EVEN, POLSKREA_NONE, &answer);
    show("u16 to f16, none", number, &answer, (const uint8_t *)halves, sizeof halves);

    number = polskrea_convert((const uint8_t *)counts, sizeof counts, (uint8_t *)halves, sizeof halves, NULL, 0, NULL, 0,
                              POLSKREA_U16, POLSKREA_F16, POLSKREA_NEAREST_EVEN, POLSKREA_CLAMP, &answer);
    show("u16 to f16, clamp", number, &answer, (const uint8_t *)halves, sizeof halves);

    number = polskrea_convert((const uint8_t *)&above_the_middle, 8, (uint8_t *)halves, 2, NULL, 0, NULL, 0,
                              POLSKREA_F64, POLSKREA_F16, POLSKREA_NEAREST_EVEN, POLSKREA_NONE, &answer);
    show("f64 to f16", number, &answer, (const uint8_t *)halves, 2);

    number = polskrea_convert((const uint8_t *)halves, 2, (uint8_t *)&single, 4, NULL, 0, NULL, 0,
                              POLSKREA_F16, POLSKREA_F32, POLSKREA_NEAREST_EVEN, POLSKREA_NONE, &answer);
    show("f16 to f32", number, &answer, (const uint8_t *)&single, 4);

    number = polskrea_convert(NULL, 0, NULL, 0, NULL, 0, NULL, 0, POLSKREA_F64, POLSKREA_F16, POLSKREA_NEAREST_EVEN, POLSKREA_WRAP, &answer);
    show("empty, wrap to f16", number, &answer, NULL, 0);
}

/* The typed calls, with typed maps. */
static void by_numbers(void)
{
    const double src[2] = {2.5, 300.0};
    const polskrea_entry_f64_u8 entries[1] = {{300.0, 7}};
    polskrea_answer answer;
    uint8_t dst[2] = {0xee, 0xee};
    uint8_t number;

    number = polskrea_convert_f64_to_u8(src, 2, dst, 2, NULL, 0, POLSKREA_NEAREST_EVEN, POLSKREA_NONE, &answer);
    show("typed none", number, &answer, dst, sizeof dst);
    number = polskrea_convert_f64_to_u8(src, 2, dst, 2, entries, 1, POLSKREA_NEAREST_AWAY, POLSKREA_NONE, &answer);
    show("typed map", number, &answer, dst, sizeof dst);
    const polskrea_entry_f64_f32 wide[2] = {{0.0, -1.0f}, {2.5, 1e30f}};
    const double three[3] = {-0.0, 2.5, 1e300};
    float out[3] = {0.0f, 0.0f, 0.0f};
    number = polskrea_convert_f64_to_f32(three, 3, out, 3, wide, 2, POLSKREA_NEAREST_EVEN, POLSKREA_NONE, &answer);
    show("typed f32", number, &answer, (const uint8_t *)out, sizeof out);
}

/* An element that the map has, an exact one, a rounded one, and one past the range, which is clamped and then wrapped. */
static void each_class(void)
{
    const double src[4] = {7.0, 1.0, 2.5, 300.0};
    const polskrea_entry_f64_u8 entries[1] = {{7.0, 70}};
    polskrea_answer answer;
    uint8_t dst[4] = {0xee, 0xee, 0xee, 0xee};
    uint8_t number;

    number = polskrea_convert_f64_to_u8(src, 4, dst, 4, entries, 1, POLSKREA_NEAREST_EVEN, POLSKREA_CLAMP, &answer);
    show("each class, clamp", number, &answer, dst, sizeof dst);
    number = polskrea_convert_f64_to_u8(src, 4, dst, 4, entries, 1, POLSKREA_NEAREST_EVEN, POLSKREA_WRAP, &answer);
    show("each class, wrap", number, &answer, dst, sizeof dst);
}

/* From the refused element on a destination keeps its bits, those of a signalling NaN too. The contract has one NaN and cannot say so. */
static void untouched_nan(void)
{
    const double src[4] = {1.0, 1e300, 2.0, 1e300};
    const uint32_t signalling[4] = {0x7fa00001, 0x7fa00001, 0x7fa00001, 0x7fa00001};
    polskrea_answer answer;
    float dst[4];
    memcpy(dst, signalling, sizeof dst);
    uint8_t number = polskrea_convert_f64_to_f32(src, 4, dst, 4, NULL, 0, POLSKREA_NEAREST_EVEN, POLSKREA_NONE, &answer);
    show("typed NaN untouched", number, &answer, (const uint8_t *)dst, sizeof dst);
}

int main(void)
{
    if (polskrea_version() != POLSKREA_VERSION) {
        return 1;
    }
    by_bytes();
    before_overwriting();
    at_the_ends();
    to_f16();
    by_numbers();
    each_class();
    untouched_nan();
    return 0;
}
