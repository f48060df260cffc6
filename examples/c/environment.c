/* What the caller's floating-point environment changes: each group of conversions runs under each environment, and its answers, with their
 * counts, destinations and previews are compared with those under the default one. The proof takes the default environment: round to nearest,
 * subnormals as they are, no traps. Prints "same", "differs" or "trap", and the exceptions that were raised. */
#define _GNU_SOURCE
#include <fenv.h>
#include <setjmp.h>
#include <signal.h>
#include <stdio.h>
#include <string.h>
#include <xmmintrin.h>

#include "polskrea.h"

#define COUNT(a) (sizeof(a) / sizeof *(a))
#define FLUSH_TO_ZERO 0x8000u
#define DENORMALS_ARE_ZERO 0x0040u
#define DENORMAL_MASK 0x0100u

/* Numbers, answers, destinations and figures of a group's calls, one after the other. */
typedef struct {
    size_t len;
    uint8_t bytes[1 << 21];
} record;

static record usual, now;
static record *current;
static sigjmp_buf trapped;

static void note(const void *from, size_t len)
{
    if (len > sizeof current->bytes - current->len) {
        fputs("environment: the record is too short\n", stderr);
        _Exit(1);
    }
    memcpy(current->bytes + current->len, from, len);
    current->len += len;
}

/* Notes a call's number and every field of its answer. The counts sum up to the converted elements, in every environment. */
static void note_answer(uint8_t number, const polskrea_answer *a, size_t count)
{
    uint64_t converted = number == POLSKREA_CONVERTED ? count : a->position;
    if (a->mapped + a->exact + a->rounded + a->clamped + a->wrapped != converted) {
        fputs("environment: the counts are not of as many elements as are converted\n", stderr);
        _Exit(1);
    }
    note(&number, 1);
    note(a, sizeof *a);
}

/* Odd magnitudes above 2^11, above 2^24 and above 2^53, where f16, f32 and f64 round, halfway points and ends of f16, and the ends. */
static const int64_t integers[] = {
    16777217, -16777217, 33554435, -50331651, 1099511627777, -1099511758849, 9007199254740993, -9007199254740993, 9007199254740995,
    -18014398509481985, 4611686018427387905, 4611686293305294849, 9223371761976868863, INT64_MAX, -INT64_MAX, INT64_MIN, 1, -1, 255, -300,
    2049, -2051, 65519, 65520, -65520, -65535, 65536};

/* Patterns of f64: zeros, halves, subnormals of f32 and of f64, halfway points and ends of f32 and of f16, subnormals of f16, infinities, quiet
 * NaNs. */
static const uint64_t doubles[] = {
    0x0000000000000000, 0x8000000000000000, 0x4004000000000000, 0xbfe0000000000000, 0x4072c00000000000, 0x3fb999999999999a, 0xbfb999999999999a,
    0x36a0000000000000, 0x3690000000000000, 0xb698000000000000, 0x380fffffe0000000, 0x380ffffff0000000, 0xb7f0000000000001, 0x0000000000000001,
    0x800fffffffffffff, 0x0010000000000000, 0x47efffffe0000000, 0x47effffff0000000, 0xc7efffffefffffff, 0x7e37e43c8800759c, 0x43e0000000000000,
    0x3ff0020000000000, 0x3ff0020000001000, 0xbff0060000000000, 0xbff005ffffffffff, 0x40effc0000000000, 0x40effdffffffffff, 0x40effe0000000000,
    0xc0efffffffffffff, 0x40f0000000000000, 0x3e60000000000000, 0xbe60000000000001, 0x3e78000000000000, 0xbf0ff80000000000, 0x3f0ffc0000000000,
    0x7ff0000000000000, 0xfff0000000000000, 0x7ff8000000000000, 0xfff8000000001234};

/* Patterns of f32, likewise. */
static const uint32_t floats[] = {0x00000000, 0x80000000, 0x40200000, 0xbf000000, 0x43960000, 0x00000001, 0x807fffff, 0x00800000,
                                  0x7f7fffff, 0x3f801000, 0xbf801001, 0x477fe000, 0xc77ff000, 0x33000000, 0xb3000001, 0x387fc000,
                                  0x7f800000, 0xff800000, 0x7fc00000, 0xffc01234};

/* Patterns of f16: zeros, 2.5, a half, 300, subnormals, ends, infinities, quiet NaNs. */
static const uint16_t halves[] = {0x0000, 0x8000, 0x4100, 0xb800, 0x5cb0, 0x0001, 0x83ff, 0x0400, 0x7bff, 0xfbff, 0x7c00, 0xfc00, 0x7e00, 0xfe34};

/* One call of the byte route, and its preview. */
static void by_bytes(const void *src, size_t len, uint8_t from, uint8_t to, uint8_t rounding, uint8_t range)
{
    static const size_t width[11] = {1, 2, 4, 8, 1, 2, 4, 8, 4, 8, 2};
    uint8_t dst[512];
    polskrea_answer answer;
    uint64_t changed;
    size_t count = len / width[from], dst_len = count * width[to];
    memset(dst, 0xee, sizeof dst);
    uint8_t told = polskrea_preview(src, len, dst, dst_len, NULL, 0, NULL, 0, from, to, rounding, range, &answer, &changed);
    note_answer(told, &answer, count);
    note(&changed, sizeof changed);
    uint8_t number = polskrea_convert(src, len, dst, dst_len, NULL, 0, NULL, 0, from, to, rounding, range, &answer);
    note_answer(number, &answer, count);
    note(dst, dst_len);
}

/* Every rounding and range, each element alone and all in one chunk. */
static void all_settings(const void *src, size_t count, size_t size, uint8_t from, uint8_t to)
{
    for (unsigned mode = 0; mode < 15; mode++) {
        by_bytes(src, count * size, from, to, (uint8_t)(mode % 5), (uint8_t)(mode / 5));
        for (size_t i = 0; i < count; i++) {
            by_bytes((const uint8_t *)src + i * size, size, from, to, (uint8_t)(mode % 5), (uint8_t)(mode / 5));
        }
    }
}

static void byte_route(void)
{
    static const uint64_t signalling = 0x7ff4000000000001;
    static const uint16_t signalling_half = 0x7d01;
    for (uint8_t to = POLSKREA_F32; to <= POLSKREA_F16; to++) {
        all_settings(integers, COUNT(integers), 8, POLSKREA_I64, to);
        all_settings(integers, COUNT(integers), 8, POLSKREA_U64, to);
        all_settings(doubles, COUNT(doubles), 8, POLSKREA_F64, to);
        all_settings(floats, COUNT(floats), 4, POLSKREA_F32, to);
        all_settings(halves, COUNT(halves), 2, POLSKREA_F16, to);
        all_settings(&signalling, 1, 8, POLSKREA_F64, to);
        all_settings(&signalling_half, 1, 2, POLSKREA_F16, to);
    }
    all_settings(integers, COUNT(integers), 8, POLSKREA_I64, POLSKREA_U8);
    all_settings(doubles, COUNT(doubles), 8, POLSKREA_F64, POLSKREA_U8);
    all_settings(doubles, COUNT(doubles), 8, POLSKREA_F64, POLSKREA_I64);
    all_settings(halves, COUNT(halves), 2, POLSKREA_F16, POLSKREA_U8);
    all_settings(halves, COUNT(halves), 2, POLSKREA_F16, POLSKREA_I64);
}

static void integer_zero(void)
{
    static const uint64_t zero = 0;
    static const size_t width[8] = {1, 2, 4, 8, 1, 2, 4, 8};
    for (uint8_t from = POLSKREA_I8; from <= POLSKREA_U64; from++) {
        all_settings(&zero, 1, width[from], from, POLSKREA_F32);
        all_settings(&zero, 1, width[from], from, POLSKREA_F64);
        all_settings(&zero, 1, width[from], from, POLSKREA_F16);
    }
}

/* A typed call on each element alone, in every rounding and range, with a map or with none. Patterns are copied, so that no NaN is computed with. */
#define TYPED(NAME, CALL, SOURCE, TARGET, ENTRY)                                                                             \
    static void NAME(const void *patterns, size_t count, const ENTRY *entries, size_t entries_len)                           \
    {                                                                                                                        \
        for (size_t i = 0; i < count * 15; i++) {                                                                            \
            SOURCE src;                                                                                                      \
            TARGET dst;                                                                                                      \
            polskrea_answer answer;                                                                                          \
            memcpy(&src, (const uint8_t *)patterns + i / 15 * sizeof src, sizeof src);                                       \
            memset(&dst, 0xee, sizeof dst);                                                                                  \
            uint8_t number = CALL(&src, 1, &dst, 1, entries, entries_len, (uint8_t)(i % 5), (uint8_t)(i % 15 / 5), &answer); \
            note_answer(number, &answer, 1);                                                                                 \
            note(&dst, sizeof dst);                                                                                          \
        }                                                                                                                    \
    }

TYPED(f64_to_u8, polskrea_convert_f64_to_u8, double, uint8_t, polskrea_entry_f64_u8)
TYPED(f64_to_i32, polskrea_convert_f64_to_i32, double, int32_t, polskrea_entry_f64_i32)
TYPED(f32_to_u8, polskrea_convert_f32_to_u8, float, uint8_t, polskrea_entry_f32_u8)
TYPED(f64_to_f32, polskrea_convert_f64_to_f32, double, float, polskrea_entry_f64_f32)
TYPED(i64_to_f32, polskrea_convert_i64_to_f32, int64_t, float, polskrea_entry_i64_f32)

/* Zero, quiet NaNs and subnormals among the elements; the stored NaN is the one that the code makes by 0.0 / 0.0. */
static void typed(void)
{
    static const int64_t zero = 0;
    f64_to_u8(doubles, COUNT(doubles), NULL, 0);
    f64_to_i32(doubles, COUNT(doubles), NULL, 0);
    f32_to_u8(floats, COUNT(floats), NULL, 0);
    f64_to_f32(doubles, COUNT(doubles), NULL, 0);
    i64_to_f32(integers, COUNT(integers), NULL, 0);
    i64_to_f32(&zero, 1, NULL, 0);
}

/* Keys that are no zero and no subnormal, and a quiet NaN as key and as target. */
static void typed_map(void)
{
    const double nan = __builtin_nan("");
    const polskrea_entry_f64_u8 bytes[] = {{2.5, 7}, {nan, 9}};
    const polskrea_entry_f64_f32 singles[] = {{2.5, 1e-40f}, {300.0, (float)nan}, {nan, -1.0f}};
    const polskrea_entry_i64_f32 whole[] = {{16777217, (float)nan}, {0, -1.0f}};
    f64_to_u8(doubles, COUNT(doubles), bytes, COUNT(bytes));
    f64_to_f32(doubles, COUNT(doubles), singles, COUNT(singles));
    i64_to_f32(integers, COUNT(integers), whole, COUNT(whole));
}

/* A key of zero among elements that are subnormal. */
static void typed_zero_key(void)
{
    const polskrea_entry_f64_f32 singles[] = {{0.0, -1.0f}};
    const polskrea_entry_f32_u8 bytes[] = {{0.0f, 7}};
    f64_to_f32(doubles, COUNT(doubles), singles, COUNT(singles));
    f32_to_u8(floats, COUNT(floats), bytes, COUNT(bytes));
}

static void typed_signalling(void)
{
    static const uint64_t wide[] = {0x7ff4000000000001, 0xfff0000000000001};
    static const uint32_t narrow[] = {0x7fa00001, 0xff800001};
    f64_to_u8(wide, COUNT(wide), NULL, 0);
    f32_to_u8(narrow, COUNT(narrow), NULL, 0);
    f64_to_f32(wide, COUNT(wide), NULL, 0);
}

static void on_trap(int signal)
{
    (void)signal;
    siglongjmp(trapped, 1);
}

/* The exceptions that MXCSR has. */
static void print_raised(unsigned status)
{
    static const char *const names[6] = {"invalid", "denormal", "division by zero", "overflow", "underflow", "inexact"};
    for (int i = 0; i < 6; i++) {
        if (status >> i & 1) {
            printf(", raises %s", names[i]);
        }
    }
}

typedef struct {
    const char *name;
    int rounding;
    int traps;
    unsigned control;  /* bits of MXCSR that are set */
    unsigned unmasked; /* and that are cleared */
} environment;

/* Runs a group under an environment, into a record. Returns whether it ended in a trap; *status has what was raised. */
static int run(void (*group)(void), const environment *e, record *into, unsigned *status)
{
    current = into;
    into->len = 0;
    fesetenv(FE_DFL_ENV);
    int trap = sigsetjmp(trapped, 1);
    if (!trap) {
        fesetround(e->rounding);
        feenableexcept(e->traps);
        _mm_setcsr((_mm_getcsr() | e->control) & ~e->unmasked);
        group();
        *status = _mm_getcsr();
    }
    fesetenv(FE_DFL_ENV);
    return trap;
}

static const struct {
    const char *name;
    void (*run)(void);
} groups[] = {
    {"byte route", byte_route},
    {"byte route, integer 0 to a float", integer_zero},
    {"typed, no map", typed},
    {"typed, map", typed_map},
    {"typed, subnormals and the key 0", typed_zero_key},
    {"typed, signalling NaN", typed_signalling},
};

static const environment environments[] = {
    {"round to nearest", FE_TONEAREST, 0, 0, 0},
    {"round towards zero", FE_TOWARDZERO, 0, 0, 0},
    {"round upward", FE_UPWARD, 0, 0, 0},
    {"round downward", FE_DOWNWARD, 0, 0, 0},
    {"exceptions trap", FE_TONEAREST, FE_INVALID | FE_DIVBYZERO | FE_OVERFLOW | FE_UNDERFLOW | FE_INEXACT, 0, 0},
    {"subnormals trap", FE_TONEAREST, 0, 0, DENORMAL_MASK},
    {"subnormals are zero", FE_TONEAREST, 0, FLUSH_TO_ZERO | DENORMALS_ARE_ZERO, 0},
};

/* Runs a group under each environment, and prints what came of it. */
static void compare(void (*group)(void))
{
    static const environment by_default = {"default", FE_TONEAREST, 0, 0, 0};
    unsigned status;
    if (run(group, &by_default, &usual, &status)) {
        fputs("environment: a trap in the default environment\n", stderr);
        _Exit(1);
    }
    for (size_t e = 0; e < COUNT(environments); e++) {
        status = 0;
        int trap = run(group, &environments[e], &now, &status);
        int same = now.len == usual.len && memcmp(now.bytes, usual.bytes, usual.len) == 0;
        printf("  %s: %s", environments[e].name, trap ? "trap" : same ? "same" : "differs");
        print_raised(status);
        printf("\n");
    }
}

int main(void)
{
    signal(SIGFPE, on_trap);
    for (size_t g = 0; g < COUNT(groups); g++) {
        printf("%s\n", groups[g].name);
        compare(groups[g].run);
    }
    return 0;
}
