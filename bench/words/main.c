// The loops that a C programmer writes for the calls of `lanes`, each timed. `main NAME` prints a line for
// each case of a benchmark: the case, the best nanoseconds of a call and a checksum, with tabs between.
#include <stdint.h>
#include <stdio.h>
#include <string.h>
#include <time.h>

// As in main.rattle. Three lists of this length lie in the first cache, as the parts do in which kernels
// work: on longer ones the memory's speed would hide the loop's.
enum { WORDS = 1024, CALLS = 256, REPEATS = 200 };

typedef uint64_t u64;
typedef int64_t i64;
typedef void zip_loop(const u64 *a, const u64 *b, u64 *out, size_t n);
typedef void unite_loop(const u64 *sides, const u64 *a, const u64 *b, u64 *out, size_t n);
typedef void map_loop(const u64 *a, u64 *out, size_t n);
typedef u64 fold_loop(const u64 *a, size_t n);

#define ZIP(name, value)                                             \
    static void name(const u64 *a, const u64 *b, u64 *out, size_t n) \
    {                                                                \
        for (size_t i = 0; i < n; i++)                               \
            out[i] = value;                                          \
    }

ZIP(zip_plus, a[i] + b[i])
ZIP(zip_minus, a[i] - b[i])
ZIP(zip_times, a[i] * b[i])
ZIP(zip_min_int, (i64)a[i] < (i64)b[i] ? a[i] : b[i])
ZIP(zip_max_int, (i64)a[i] > (i64)b[i] ? a[i] : b[i])
ZIP(zip_min_uint, a[i] < b[i] ? a[i] : b[i])
ZIP(zip_max_uint, a[i] > b[i] ? a[i] : b[i])
ZIP(zip_eq, a[i] == b[i])
ZIP(zip_ne, a[i] != b[i])
ZIP(zip_gt_int, (i64)a[i] > (i64)b[i])
ZIP(zip_le_uint, a[i] <= b[i])
ZIP(zip_lor, a[i] || b[i])
ZIP(zip_land, a[i] && b[i])
ZIP(zip_lxor, !a[i] != !b[i])
ZIP(zip_band, a[i] & b[i])
ZIP(zip_bxnor, ~(a[i] ^ b[i]))
ZIP(zip_first, a[i])
ZIP(zip_first_bool, a[i] != 0)
ZIP(zip_second, b[i])
ZIP(zip_oneb, 1)

#define UNITE(name, left, right, both)                                                 \
    static void name(const u64 *sides, const u64 *a, const u64 *b, u64 *out, size_t n) \
    {                                                                                  \
        for (size_t i = 0; i < n; i++)                                                 \
            out[i] = sides[i] == 1 ? left : sides[i] == 2 ? right : both;              \
    }

UNITE(unite_plus, a[i], b[i], a[i] + b[i])
UNITE(unite_times, a[i], b[i], a[i] * b[i])
UNITE(unite_min_int, a[i], b[i], ((i64)a[i] < (i64)b[i] ? a[i] : b[i]))
UNITE(unite_max_uint, a[i], b[i], (a[i] > b[i] ? a[i] : b[i]))
UNITE(unite_eq, a[i] != 0, b[i] != 0, a[i] == b[i])
UNITE(unite_lor, a[i] != 0, b[i] != 0, (a[i] || b[i]))
UNITE(unite_first, a[i], b[i], a[i])

#define MAP(name, value)                               \
    static void name(const u64 *a, u64 *out, size_t n) \
    {                                                  \
        for (size_t i = 0; i < n; i++)                 \
            out[i] = value;                            \
    }

MAP(map_ainv, -a[i])
MAP(map_abs, (i64)a[i] < 0 ? -a[i] : a[i])
MAP(map_bnot, ~a[i])
MAP(map_lnot, !a[i])

#define FOLD(name, start, combined)           \
    static u64 name(const u64 *a, size_t n)   \
    {                                         \
        u64 sum = start;                      \
        for (size_t i = 0; i < n; i++)        \
            sum = combined;                   \
        return sum;                           \
    }

FOLD(fold_plus, 0, sum + a[i])
FOLD(fold_times, 1, sum * a[i])
FOLD(fold_min_int, INT64_MAX, (i64)a[i] < (i64)sum ? a[i] : sum)
FOLD(fold_max_int, INT64_MIN, (i64)a[i] > (i64)sum ? a[i] : sum)
FOLD(fold_min_uint, UINT64_MAX, a[i] < sum ? a[i] : sum)
FOLD(fold_bor, 0, sum | a[i])
FOLD(fold_band, UINT64_MAX, sum & a[i])
FOLD(fold_bxor, 0, sum ^ a[i])
FOLD(fold_lor, 0, sum || a[i])
FOLD(fold_land, 1, sum && a[i])
FOLD(fold_lxor, 0, sum ^ (a[i] != 0))
FOLD(fold_lxnor, 1, sum ^ (a[i] == 0))

static void cast_to_bool(u64 *a, size_t n)
{
    for (size_t i = 0; i < n; i++)
        a[i] = a[i] != 0;
}

static const struct { const char *name; int is_bool; zip_loop *loop; } ZIPS[] = {
    {"PLUS INT64", 0, zip_plus},       {"MINUS INT64", 0, zip_minus},
    {"TIMES INT64", 0, zip_times},     {"MIN INT64", 0, zip_min_int},
    {"MAX INT64", 0, zip_max_int},     {"MIN UINT64", 0, zip_min_uint},
    {"MAX UINT64", 0, zip_max_uint},   {"EQ INT64", 0, zip_eq},
    {"NE UINT64", 0, zip_ne},          {"GT INT64", 0, zip_gt_int},
    {"LE UINT64", 0, zip_le_uint},     {"LOR BOOL", 1, zip_lor},
    {"LAND BOOL", 1, zip_land},        {"LXOR BOOL", 1, zip_lxor},
    {"BAND UINT64", 0, zip_band},      {"BXNOR INT64", 0, zip_bxnor},
    {"FIRST INT64", 0, zip_first},     {"FIRST BOOL", 1, zip_first_bool},
    {"SECOND UINT64", 0, zip_second},  {"ONEB INT64", 0, zip_oneb},
};

static const struct { const char *name; int is_bool; unite_loop *loop; } UNITES[] = {
    {"PLUS INT64", 0, unite_plus},     {"TIMES UINT64", 0, unite_times},
    {"MIN INT64", 0, unite_min_int},   {"MAX UINT64", 0, unite_max_uint},
    {"EQ INT64", 0, unite_eq},         {"LOR BOOL", 1, unite_lor},
    {"FIRST INT64", 0, unite_first},
};

static const struct { const char *name; int is_bool; map_loop *loop; } MAPS[] = {
    {"AINV INT64", 0, map_ainv},   {"ABS INT64", 0, map_abs},
    {"BNOT UINT64", 0, map_bnot},  {"LNOT BOOL", 1, map_lnot},
};

static const struct { const char *name; int is_bool; fold_loop *loop; } FOLDS[] = {
    {"PLUS INT64", 0, fold_plus},      {"TIMES INT64", 0, fold_times},
    {"MIN INT64", 0, fold_min_int},    {"MAX INT64", 0, fold_max_int},
    {"MIN UINT64", 0, fold_min_uint},  {"BOR UINT64", 0, fold_bor},
    {"BAND UINT64", 0, fold_band},     {"BXOR INT64", 0, fold_bxor},
    {"LOR BOOL", 1, fold_lor},         {"LAND BOOL", 1, fold_land},
    {"LXOR BOOL", 1, fold_lxor},       {"LXNOR BOOL", 1, fold_lxnor},
};

#define COUNT(cases) (sizeof cases / sizeof cases[0])

static u64 sides[WORDS], a[WORDS], b[WORDS], out[WORDS];
static u64 state;

// The next number by xorshift.
static u64 next(void)
{
    state ^= state << 13;
    state ^= state >> 7;
    state ^= state << 17;
    return state;
}

// The same lists for each case, and on both sides.
static void make_lists(int is_bool)
{
    state = 88172645463325252u;
    for (size_t i = 0; i < WORDS; i++) {
        sides[i] = next() % 3;
        a[i] = next();
        b[i] = next() % 4 == 0 ? a[i] : next();
        if (is_bool) {
            a[i] %= 2;
            b[i] %= 2;
        }
        out[i] = 0;
    }
}

static u64 checksum(const u64 *words)
{
    u64 sum = 0;
    for (size_t i = 0; i < WORDS; i++)
        sum = (sum << 1 | sum >> 63) ^ words[i];
    return sum;
}

static u64 now(void)
{
    struct timespec at;
    clock_gettime(CLOCK_MONOTONIC, &at);
    return (u64)at.tv_sec * 1000000000u + (u64)at.tv_nsec;
}

// Times a call: the best of some repeats of many calls each.
#define TIME(call, title, words)                                                  \
    do {                                                                          \
        u64 best = UINT64_MAX;                                                    \
        for (int repeat = 0; repeat < REPEATS; repeat++) {                        \
            u64 start = now();                                                    \
            for (int i = 0; i < CALLS; i++)                                       \
                call;                                                             \
            u64 took = now() - start;                                             \
            best = took < best ? took : best;                                     \
        }                                                                         \
        printf("%s\t%llu\t%llu\n", title, (unsigned long long)best,               \
               (unsigned long long)checksum(words));                              \
    } while (0)

int main(int count, char **words)
{
    const char *name = count > 1 ? words[1] : "";
    if (strcmp(name, "zip") == 0)
        for (size_t k = 0; k < COUNT(ZIPS); k++) {
            make_lists(ZIPS[k].is_bool);
            TIME(ZIPS[k].loop(a, b, out, WORDS), ZIPS[k].name, out);
        }
    if (strcmp(name, "unite") == 0)
        for (size_t k = 0; k < COUNT(UNITES); k++) {
            make_lists(UNITES[k].is_bool);
            TIME(UNITES[k].loop(sides, a, b, out, WORDS), UNITES[k].name, out);
        }
    if (strcmp(name, "map") == 0)
        for (size_t k = 0; k < COUNT(MAPS); k++) {
            make_lists(MAPS[k].is_bool);
            TIME(MAPS[k].loop(a, out, WORDS), MAPS[k].name, out);
        }
    if (strcmp(name, "fold") == 0)
        for (size_t k = 0; k < COUNT(FOLDS); k++) {
            make_lists(FOLDS[k].is_bool);
            // What one fold gives goes into the next, so that no compiler takes the calls out of the loop.
            TIME(a[0] = FOLDS[k].loop(a, WORDS), FOLDS[k].name, a);
        }
    if (strcmp(name, "cast") == 0) {
        make_lists(0);
        TIME(cast_to_bool(a, WORDS), "INT64 BOOL", a);
    }
    return 0;
}
