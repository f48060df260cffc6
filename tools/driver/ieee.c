/* A second opinion on IEEE 754: the machine's own conversions under fesetround for the rules 0 to 3, and exact integer arithmetic for the
 * rule 4, nearest with halfway away from zero, which the machine has not. To f16 the conversion is that of the compiler's _Float16, where it has
 * one, and from f32 to f16 also the processor's instruction. */
#include <fenv.h>
#include <immintrin.h>
#include <math.h>
#include <stddef.h>
#include <stdint.h>
#include <string.h>

static int mode_of(int rule)
{
    static const int modes[4] = {FE_TONEAREST, FE_TOWARDZERO, FE_UPWARD, FE_DOWNWARD};
    return modes[rule];
}

/* magnitude * 2^exponent, which is not 0, rounded by nearest-away to `digits` significant bits and spacing 2^least at the smallest.
 * Returns the kept part, with its exponent in *e: the kept part times 2^*e is the rounded magnitude. */
static uint64_t nearest_away(uint64_t magnitude, int exponent, int digits, int least, int *e)
{
    int size = 64 - __builtin_clzll(magnitude);
    int unit = exponent + size - digits;
    if (unit < least) {
        unit = least;
    }
    if (unit <= exponent) {
        *e = exponent;
        return magnitude;
    }
    int drop = unit - exponent;
    *e = unit;
    if (drop > 64) {
        return 0;
    }
    unsigned __int128 wide = magnitude;
    unsigned __int128 half = (unsigned __int128)1 << (drop - 1);
    return (uint64_t)((wide + half) >> drop);
}

static float away_to_f32(int negative, uint64_t magnitude, int exponent)
{
    if (magnitude == 0) {
        return negative ? -0.0f : 0.0f;
    }
    int e;
    uint64_t kept = nearest_away(magnitude, exponent, 24, -149, &e);
    /* kept has at most 25 bits or was exact, so ldexp rounds nothing but an overflow to infinity */
    float r = (float)ldexp((double)kept, e);
    return negative ? -r : r;
}

static double away_to_f64(int negative, uint64_t magnitude, int exponent)
{
    if (magnitude == 0) {
        return negative ? -0.0 : 0.0;
    }
    int e;
    uint64_t kept = nearest_away(magnitude, exponent, 53, -1074, &e);
    double r = ldexp((double)kept, e);
    return negative ? -r : r;
}

/* the sign, the magnitude and the exponent of a finite double */
static uint64_t parts(double x, int *negative, int *exponent)
{
    uint64_t b;
    memcpy(&b, &x, sizeof b);
    *negative = (int)(b >> 63);
    int field = (int)(b >> 52 & 0x7ff);
    uint64_t fraction = b & 0xfffffffffffffULL;
    *exponent = field == 0 ? -1074 : field - 1075;
    return field == 0 ? fraction : fraction + 0x10000000000000ULL;
}

static double away_to_whole(double x)
{
    int negative, exponent;
    if (!isfinite(x)) {
        return x;
    }
    uint64_t magnitude = parts(x, &negative, &exponent);
    if (exponent >= 0) {
        return x;
    }
    double r = 0.0;
    if (-exponent <= 64) {
        unsigned __int128 half = (unsigned __int128)1 << (-exponent - 1);
        r = (double)(uint64_t)(((unsigned __int128)magnitude + half) >> -exponent);
    }
    return negative ? -r : r;
}

void ieee_f64_to_f32(const double *in, float *out, size_t n, int rule)
{
    if (rule < 4) {
        fesetround(mode_of(rule));
        for (size_t i = 0; i < n; i++) {
            volatile double x = in[i];
            volatile float r = (float)x;
            out[i] = r;
        }
        fesetround(FE_TONEAREST);
        return;
    }
    for (size_t i = 0; i < n; i++) {
        int negative, exponent;
        if (!isfinite(in[i])) {
            out[i] = (float)in[i];
        } else {
            uint64_t m = parts(in[i], &negative, &exponent);
            out[i] = away_to_f32(negative, m, exponent);
        }
    }
}

#ifdef __FLT16_MANT_DIG__
/* Whether the compiler has _Float16. */
int ieee_has_f16(void)
{
    return 1;
}

/* The conversion from double rounds once, in the mode that is set. */
static uint16_t to_f16(double x)
{
    volatile double v = x;
    volatile _Float16 r = (_Float16)v;
    _Float16 half = r;
    uint16_t b;
    memcpy(&b, &half, sizeof b);
    return b;
}

static double from_f16(uint16_t b)
{
    _Float16 half;
    memcpy(&half, &b, sizeof half);
    return (double)half;
}
#else
/* It has not, and nobody calls the two. */
int ieee_has_f16(void)
{
    return 0;
}

static uint16_t to_f16(double x)
{
    (void)x;
    return 0;
}

static double from_f16(uint16_t b)
{
    return b;
}
#endif

static uint16_t away_to_f16(int negative, uint64_t magnitude, int exponent)
{
    int e = 0;
    uint64_t kept = magnitude == 0 ? 0 : nearest_away(magnitude, exponent, 11, -24, &e);
    /* kept has at most 12 bits or was exact, so nothing but an overflow is rounded */
    double r = ldexp((double)kept, e);
    return to_f16(negative ? -r : r);
}

void ieee_f64_to_f16(const double *in, uint16_t *out, size_t n, int rule)
{
    if (rule < 4) {
        fesetround(mode_of(rule));
    }
    for (size_t i = 0; i < n; i++) {
        int negative, exponent;
        if (rule < 4 || !isfinite(in[i])) {
            out[i] = to_f16(in[i]);
        } else {
            uint64_t m = parts(in[i], &negative, &exponent);
            out[i] = away_to_f16(negative, m, exponent);
        }
    }
    fesetround(FE_TONEAREST);
}

void ieee_f16_to_f64(const uint16_t *in, double *out, size_t n)
{
    for (size_t i = 0; i < n; i++) {
        out[i] = from_f16(in[i]);
    }
}

/* The processor's conversion with the rounding in the instruction, whatever the mode. */
#define BY_F16C(NAME, ROUNDING)                                                                                   \
    __attribute__((target("avx,f16c"))) static void NAME(const float *in, uint16_t *out, size_t n)                \
    {                                                                                                             \
        size_t i = 0;                                                                                             \
        for (; i + 8 <= n; i += 8) {                                                                              \
            _mm_storeu_si128((__m128i *)(out + i), _mm256_cvtps_ph(_mm256_loadu_ps(in + i), ROUNDING));           \
        }                                                                                                         \
        for (; i < n; i++) {                                                                                      \
            out[i] = _cvtss_sh(in[i], ROUNDING);                                                                  \
        }                                                                                                         \
    }

BY_F16C(f16c_nearest_even, _MM_FROUND_TO_NEAREST_INT)
BY_F16C(f16c_towards_zero, _MM_FROUND_TO_ZERO)
BY_F16C(f16c_towards_positive, _MM_FROUND_TO_POS_INF)
BY_F16C(f16c_towards_negative, _MM_FROUND_TO_NEG_INF)

/* For the rules 0 to 3, on a processor with F16C. */
void ieee_f32_to_f16(const float *in, uint16_t *out, size_t n, int rule)
{
    static void (*const by_rule[4])(const float *, uint16_t *, size_t) = {f16c_nearest_even, f16c_towards_zero, f16c_towards_positive,
                                                                          f16c_towards_negative};
    by_rule[rule](in, out, n);
}

void ieee_f64_to_whole(const double *in, double *out, size_t n, int rule)
{
    if (rule < 4) {
        fesetround(mode_of(rule));
        for (size_t i = 0; i < n; i++) {
            volatile double x = in[i];
            volatile double r = rint(x);
            out[i] = r;
        }
        fesetround(FE_TONEAREST);
        return;
    }
    for (size_t i = 0; i < n; i++) {
        out[i] = away_to_whole(in[i]);
    }
}

#define FROM_INTEGER(NAME, IN, OUT, AWAY)                                      \
    void NAME(const IN *in, OUT *out, size_t n, int rule)                      \
    {                                                                          \
        if (rule < 4) {                                                        \
            fesetround(mode_of(rule));                                         \
            for (size_t i = 0; i < n; i++) {                                   \
                volatile IN x = in[i];                                         \
                volatile OUT r = (OUT)x;                                       \
                out[i] = r;                                                    \
            }                                                                  \
            fesetround(FE_TONEAREST);                                          \
            return;                                                            \
        }                                                                      \
        for (size_t i = 0; i < n; i++) {                                       \
            int negative = in[i] < 0;                                          \
            uint64_t m = negative ? 0 - (uint64_t)in[i] : (uint64_t)in[i];     \
            out[i] = AWAY(negative, m, 0);                                     \
        }                                                                      \
    }

FROM_INTEGER(ieee_i64_to_f32, int64_t, float, away_to_f32)
FROM_INTEGER(ieee_i64_to_f64, int64_t, double, away_to_f64)
FROM_INTEGER(ieee_u64_to_f32, uint64_t, float, away_to_f32)
FROM_INTEGER(ieee_u64_to_f64, uint64_t, double, away_to_f64)
