/* places REPEATS FOLDER..: times the libraries of the folders against each other, by turns. Each folder has libpolskrea.so and its two companions. The
 * first half of the folders has one version of the libraries, each in another place of memory, and the second half another version. Prints ns per
 * element: the mean over a version's folders of the best of REPEATS in each, and the ratio of the two means. tools/places makes the folders. */
#include "polskrea.h"
#include <dlfcn.h>
#include <stdio.h>
#include <stdlib.h>
#include <string.h>
#include <time.h>

enum { MOST = 16 };

typedef uint8_t convert_call(const uint8_t *, size_t, uint8_t *, size_t, const uint8_t *, size_t, const uint8_t *, size_t, uint8_t, uint8_t, uint8_t,
                             uint8_t, polskrea_answer *);
typedef uint8_t preview_call(const uint8_t *, size_t, const uint8_t *, size_t, const uint8_t *, size_t, const uint8_t *, size_t, uint8_t, uint8_t,
                             uint8_t, uint8_t, polskrea_answer *, uint64_t *);
typedef uint8_t typed_call(const void *, size_t, void *, size_t, const void *, size_t, uint8_t, uint8_t, polskrea_answer *);

/* A row of the table: the codes of the two kinds, of the rounding and of the range choice, the ends of the source's random numbers, or twice the same for
 * any pattern, the map's entries, and the typed call. */
struct row {
    const char *name, *data;
    uint8_t from, to, rounding, range;
    double lowest, highest;
    size_t entries;
    const char *typed;
};

static const struct row ROWS[] = {
    {"f64 to u8, clamp, nearest-even", "-100 to 400", POLSKREA_F64, POLSKREA_U8, POLSKREA_NEAREST_EVEN, POLSKREA_CLAMP, -100, 400, 0, "f64_to_u8"},
    {"f64 to u8, clamp, towards-zero", "-100 to 400", POLSKREA_F64, POLSKREA_U8, POLSKREA_TOWARDS_ZERO, POLSKREA_CLAMP, -100, 400, 0, "f64_to_u8"},
    {"f64 to u8, clamp, nearest-away", "-100 to 400", POLSKREA_F64, POLSKREA_U8, POLSKREA_NEAREST_AWAY, POLSKREA_CLAMP, -100, 400, 0, "f64_to_u8"},
    {"f64 to i32, clamp, nearest-even", "-3e9 to 3e9", POLSKREA_F64, POLSKREA_I32, POLSKREA_NEAREST_EVEN, POLSKREA_CLAMP, -3e9, 3e9, 0, "f64_to_i32"},
    {"f64 to i32, none, nearest-even", "-2e9 to 2e9", POLSKREA_F64, POLSKREA_I32, POLSKREA_NEAREST_EVEN, POLSKREA_NONE, -2e9, 2e9, 0, "f64_to_i32"},
    {"f32 to u8, clamp, nearest-even", "-100 to 400", POLSKREA_F32, POLSKREA_U8, POLSKREA_NEAREST_EVEN, POLSKREA_CLAMP, -100, 400, 0, "f32_to_u8"},
    {"f64 to f32, none, nearest-even", "-1e6 to 1e6", POLSKREA_F64, POLSKREA_F32, POLSKREA_NEAREST_EVEN, POLSKREA_NONE, -1e6, 1e6, 0, "f64_to_f32"},
    {"f64 to f32, none, towards-zero", "-1e6 to 1e6", POLSKREA_F64, POLSKREA_F32, POLSKREA_TOWARDS_ZERO, POLSKREA_NONE, -1e6, 1e6, 0, "f64_to_f32"},
    {"f64 to f32, none, nearest-away", "-1e6 to 1e6", POLSKREA_F64, POLSKREA_F32, POLSKREA_NEAREST_AWAY, POLSKREA_NONE, -1e6, 1e6, 0, "f64_to_f32"},
    {"i64 to f32, none, nearest-even", "any i64", POLSKREA_I64, POLSKREA_F32, POLSKREA_NEAREST_EVEN, POLSKREA_NONE, 0, 0, 0, "i64_to_f32"},
    {"i64 to f32, none, towards-zero", "any i64", POLSKREA_I64, POLSKREA_F32, POLSKREA_TOWARDS_ZERO, POLSKREA_NONE, 0, 0, 0, "i64_to_f32"},
    {"i64 to f32, none, nearest-away", "any i64", POLSKREA_I64, POLSKREA_F32, POLSKREA_NEAREST_AWAY, POLSKREA_NONE, 0, 0, 0, "i64_to_f32"},
    {"f64 to f16, none, nearest-even", "-6e4 to 6e4", POLSKREA_F64, POLSKREA_F16, POLSKREA_NEAREST_EVEN, POLSKREA_NONE, -6e4, 6e4, 0, NULL},
    {"f64 to f16, none, towards-zero", "-6e4 to 6e4", POLSKREA_F64, POLSKREA_F16, POLSKREA_TOWARDS_ZERO, POLSKREA_NONE, -6e4, 6e4, 0, NULL},
    {"f64 to f16, none, nearest-away", "-6e4 to 6e4", POLSKREA_F64, POLSKREA_F16, POLSKREA_NEAREST_AWAY, POLSKREA_NONE, -6e4, 6e4, 0, NULL},
    {"f32 to f16, none, nearest-even", "-6e4 to 6e4", POLSKREA_F32, POLSKREA_F16, POLSKREA_NEAREST_EVEN, POLSKREA_NONE, -6e4, 6e4, 0, NULL},
    {"f32 to f16, none, towards-zero", "-6e4 to 6e4", POLSKREA_F32, POLSKREA_F16, POLSKREA_TOWARDS_ZERO, POLSKREA_NONE, -6e4, 6e4, 0, NULL},
    {"f32 to f16, none, nearest-away", "-6e4 to 6e4", POLSKREA_F32, POLSKREA_F16, POLSKREA_NEAREST_AWAY, POLSKREA_NONE, -6e4, 6e4, 0, NULL},
    {"f16 to f32, none, nearest-even", "any f16", POLSKREA_F16, POLSKREA_F32, POLSKREA_NEAREST_EVEN, POLSKREA_NONE, 0, 0, 0, NULL},
    {"u16 to f16, none, nearest-even", "0 to 65519", POLSKREA_U16, POLSKREA_F16, POLSKREA_NEAREST_EVEN, POLSKREA_NONE, 0, 65520, 0, NULL},
    {"f64 to i64, wrap, nearest-even", "in range", POLSKREA_F64, POLSKREA_I64, POLSKREA_NEAREST_EVEN, POLSKREA_WRAP, -9e18, 9e18, 0, NULL},
    {"f64 to i64, wrap, nearest-even", "far out", POLSKREA_F64, POLSKREA_I64, POLSKREA_NEAREST_EVEN, POLSKREA_WRAP, -1e30, 1e30, 0, NULL},
    {"u16 to i8, clamp, nearest-even", "any u16", POLSKREA_U16, POLSKREA_I8, POLSKREA_NEAREST_EVEN, POLSKREA_CLAMP, 0, 0, 0, NULL},
    {"u8 to u8, none, nearest-even", "any u8", POLSKREA_U8, POLSKREA_U8, POLSKREA_NEAREST_EVEN, POLSKREA_NONE, 0, 0, 0, NULL},
    {"f64 to u8, clamp, nearest-even", "map of 1", POLSKREA_F64, POLSKREA_U8, POLSKREA_NEAREST_EVEN, POLSKREA_CLAMP, -100, 400, 1, "f64_to_u8"},
    {"f64 to u8, clamp, nearest-even", "map of 8", POLSKREA_F64, POLSKREA_U8, POLSKREA_NEAREST_EVEN, POLSKREA_CLAMP, -100, 400, 8, "f64_to_u8"},
};

/* The bytes of an element, by its kind code. */
static const size_t WIDTHS[] = {1, 2, 4, 8, 1, 2, 4, 8, 4, 8, 2};

static uint64_t state = 88172645463325252u;

static uint64_t random_bits(void)
{
    state ^= state << 13;
    state ^= state >> 7;
    state ^= state << 17;
    return state;
}

static double seconds(void)
{
    struct timespec t;
    clock_gettime(CLOCK_MONOTONIC, &t);
    return (double)t.tv_sec + 1e-9 * (double)t.tv_nsec;
}

/* A pattern of a row's source. */
static uint64_t pattern(const struct row *r)
{
    uint64_t b = random_bits();
    double x = r->lowest + (r->highest - r->lowest) * ((double)(b >> 11) * 0x1p-53);
    if (r->lowest == r->highest) {
        /* any but the infinities and the NaNs of f16 */
        return r->from == POLSKREA_F16 && (b & 0x7c00) == 0x7c00 ? b & 0x83ff : b;
    }
    if (r->from == POLSKREA_F64) {
        memcpy(&b, &x, 8);
    } else if (r->from == POLSKREA_F32) {
        float y = (float)x;
        b = 0;
        memcpy(&b, &y, 4);
    } else {
        b = (uint64_t)x;
    }
    return b;
}

static void *symbol(const char *folder, const char *library, const char *name)
{
    char path[4096];
    snprintf(path, sizeof path, "%s/%s.so", folder, library);
    void *handle = dlopen(path, RTLD_NOW | RTLD_LOCAL);
    void *found = handle ? dlsym(handle, name) : NULL;
    if (!found) {
        fprintf(stderr, "%s: no %s\n", path, name);
        exit(1);
    }
    return found;
}

/* What the calls of a row are given. Only f64 to u8 has entries. */
struct chunk {
    const struct row *row;
    uint8_t *src, *dst;
    size_t n;
    uint8_t keys[64], targets[8];
    polskrea_entry_f64_u8 entries[8];
};

/* Whether one call of the kind k (0 bytes, 1 typed, 2 preview) is answered by 0. */
static int call(int k, void *f, struct chunk *c)
{
    const struct row *r = c->row;
    size_t sw = WIDTHS[r->from], dw = WIDTHS[r->to], e = r->entries;
    polskrea_answer a;
    uint64_t changed;
    if (k == 0) {
        return ((convert_call *)f)(c->src, c->n * sw, c->dst, c->n * dw, c->keys, e * sw, c->targets, e * dw, r->from, r->to, r->rounding, r->range, &a) == 0;
    }
    if (k == 1) {
        return ((typed_call *)f)(c->src, c->n, c->dst, c->n, c->entries, e, r->rounding, r->range, &a) == 0;
    }
    return ((preview_call *)f)(c->src, c->n * sw, c->dst, c->n * dw, c->keys, e * sw, c->targets, e * dw, r->from, r->to, r->rounding, r->range, &a, &changed) == 0;
}

/* Prints the two means and their ratio, and an empty cell where there is no such call, or where a version refuses the row. */
static void cells(int k, void **calls, int count, struct chunk *c, int repeats)
{
    double best[MOST], mean[2] = {0, 0};
    int passes = c->n < 10000 ? (int)(200000 / c->n) : 1;
    int half = count / 2, answered[2] = {1, 1};
    if (!calls[0]) {
        printf(" | | |");
        return;
    }
    for (int i = 0; i < count; i++) {
        best[i] = 1e9;
        answered[i / half] &= call(k, calls[i], c);
    }
    for (int t = 0; t < repeats; t++) {
        for (int i = 0; i < count; i++) {
            if (!answered[i / half]) {
                continue;
            }
            double start = seconds();
            for (int p = 0; p < passes; p++) {
                call(k, calls[i], c);
            }
            double took = (seconds() - start) / passes / (double)c->n * 1e9;
            best[i] = took < best[i] ? took : best[i];
        }
    }
    for (int i = 0; i < count; i++) {
        mean[i / half] += best[i] / half;
    }
    for (int v = 0; v < 2; v++) {
        if (answered[v]) {
            printf(" %.2f", mean[v]);
        }
        printf(" |");
    }
    if (answered[0] && answered[1]) {
        printf(" %.2f", mean[1] / mean[0]);
    }
    printf(" |");
}

int main(int argc, char **argv)
{
    int repeats = argc > 2 ? atoi(argv[1]) : 0, count = argc - 2;
    if (repeats < 1 || count < 2 || count % 2 || count > MOST) {
        fprintf(stderr, "usage: places REPEATS FOLDER..\n");
        return 2;
    }
    for (int large = 0; large < 2; large++) {
        size_t n = large ? 1000000 : 4096;
        printf("%zu elements, ns per element\n| conversion | data | bytes before | bytes | ratio | typed before | typed | ratio | preview before | preview | ratio |\n", n);
        printf("|---|---|---|---|---|---|---|---|---|---|---|\n");
        for (size_t i = 0; i < sizeof ROWS / sizeof *ROWS; i++) {
            struct chunk c = {&ROWS[i], calloc(n, 8), calloc(n, 8), n, {0}, {0}, {{0, 0}}};
            if (!c.src || !c.dst) {
                fprintf(stderr, "no memory\n");
                return 1;
            }
            void *calls[3][MOST] = {{0}};
            char name[64];
            for (size_t j = 0; j < n; j++) {
                uint64_t b = pattern(c.row);
                memcpy(c.src + j * WIDTHS[c.row->from], &b, WIDTHS[c.row->from]);
            }
            /* keys that no element has */
            for (int j = 0; j < 8; j++) {
                c.entries[j] = (polskrea_entry_f64_u8){1e5 + j, (uint8_t)j};
                memcpy(c.keys + 8 * j, &c.entries[j].key, 8);
                c.targets[j] = (uint8_t)j;
            }
            snprintf(name, sizeof name, "polskrea_convert_%s", c.row->typed ? c.row->typed : "");
            for (int j = 0; j < count; j++) {
                calls[0][j] = symbol(argv[2 + j], "libpolskrea", "polskrea_convert");
                calls[1][j] = c.row->typed ? symbol(argv[2 + j], "libpolskrea_typed", name) : NULL;
                calls[2][j] = symbol(argv[2 + j], "libpolskrea_preview", "polskrea_preview");
            }
            printf("| %s | %s |", c.row->name, c.row->data);
            for (int k = 0; k < 3; k++) {
                cells(k, calls[k], count, &c, repeats);
            }
            printf("\n");
            fflush(stdout);
            free(c.src);
            free(c.dst);
        }
    }
    return 0;
}
