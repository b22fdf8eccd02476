// The unions and intersections that a C programmer writes for the calls of `elementwise`, timed. `main NAME`
// prints a line for each case of a benchmark: the case, the best nanoseconds of a call and a checksum, with
// tabs between. Each merge computes the words as it goes, once with branches and once without; the better
// counts.
#include <stdint.h>
#include <stdio.h>
#include <stdlib.h>
#include <string.h>
#include <time.h>

enum { ROWS = 200000, PER_ROW = 5, LENGTH = 4000000, REPEATS = 8 };

typedef uint64_t u64;
typedef int64_t i64;
typedef struct { u64 outer; size_t end; } fiber_end;

// Fibers one behind the other: where each ends, all inner indices and words.
typedef struct {
    fiber_end *ends;
    u64 *inner, *words;
    size_t fibers, count;
} matrix;

static void *new_list(size_t count, size_t size)
{
    void *list = malloc(count * size + 1);
    if (!list)
        exit(1);
    return list;
}

static matrix new_matrix(size_t fibers, size_t count)
{
    return (matrix){new_list(fibers, sizeof(fiber_end)), new_list(count, 8), new_list(count, 8), 0, 0};
}

static void free_matrix(matrix *m)
{
    free(m->ends);
    free(m->inner);
    free(m->words);
}

static u64 next(u64 *state)
{
    *state ^= *state << 13;
    *state ^= *state >> 7;
    *state ^= *state << 17;
    return *state;
}

static matrix make_matrix(u64 *state)
{
    matrix m = new_matrix(ROWS, (size_t)ROWS * PER_ROW);
    for (u64 row = 0; row < ROWS; row++) {
        size_t start = m.count;
        for (int k = 0; k < PER_ROW; k++) {
            u64 col = next(state) % ROWS, word = next(state) % 8;
            size_t at = m.count;
            while (at > start && m.inner[at - 1] > col)
                at--;
            if (at > start && m.inner[at - 1] == col) {
                m.words[at - 1] = word;
                continue;
            }
            memmove(m.inner + at + 1, m.inner + at, (m.count - at) * 8);
            memmove(m.words + at + 1, m.words + at, (m.count - at) * 8);
            m.inner[at] = col;
            m.words[at] = word;
            m.count++;
        }
        m.ends[m.fibers++] = (fiber_end){row, m.count};
    }
    return m;
}

static matrix make_vector(u64 *state)
{
    matrix m = new_matrix(1, LENGTH / 2);
    for (u64 pair = 0; pair < LENGTH / 2; pair++) {
        m.inner[m.count] = 2 * pair + next(state) % 2;
        m.words[m.count++] = next(state) % 8;
    }
    m.ends[m.fibers++] = (fiber_end){0, m.count};
    return m;
}

static inline u64 plus(u64 a, u64 b) { return a + b; }
static inline u64 least(u64 a, u64 b) { return (i64)a < (i64)b ? a : b; }
static inline u64 both_true(u64 a, u64 b) { return a != 0 && b != 0; }
static inline u64 greater(u64 a, u64 b) { return (i64)a > (i64)b; }
static inline u64 same(u64 a) { return a; }
static inline u64 truth(u64 a) { return a != 0; }

// All ones where a test holds, else 0. Without the empty assembly clang makes a branch of what takes it.
static inline u64 mask(int test)
{
    u64 ones = -(u64)test;
    __asm__("" : "+r"(ones));
    return ones;
}

// The merges of two fibers by an operator, with and without branches. Each gives how many entries it wrote.
#define MERGES(name, both, alone)                                                                              \
    static size_t unite_branches_##name(const u64 *a, const u64 *aw, size_t n, const u64 *b, const u64 *bw,    \
                                        size_t m, u64 *inner, u64 *words)                                      \
    {                                                                                                          \
        size_t i = 0, j = 0, k = 0;                                                                            \
        while (i < n && j < m) {                                                                               \
            if (a[i] < b[j]) {                                                                                 \
                inner[k] = a[i];                                                                               \
                words[k++] = alone(aw[i++]);                                                                   \
            } else if (b[j] < a[i]) {                                                                          \
                inner[k] = b[j];                                                                               \
                words[k++] = alone(bw[j++]);                                                                   \
            } else {                                                                                           \
                inner[k] = a[i];                                                                               \
                words[k++] = both(aw[i++], bw[j++]);                                                           \
            }                                                                                                  \
        }                                                                                                      \
        for (; i < n; i++, k++) {                                                                              \
            inner[k] = a[i];                                                                                   \
            words[k] = alone(aw[i]);                                                                           \
        }                                                                                                      \
        for (; j < m; j++, k++) {                                                                              \
            inner[k] = b[j];                                                                                   \
            words[k] = alone(bw[j]);                                                                           \
        }                                                                                                      \
        return k;                                                                                              \
    }                                                                                                          \
    static size_t unite_##name(const u64 *a, const u64 *aw, size_t n, const u64 *b, const u64 *bw, size_t m,   \
                               u64 *inner, u64 *words)                                                         \
    {                                                                                                          \
        size_t i = 0, j = 0, k = 0;                                                                            \
        while (i < n && j < m) {                                                                               \
            u64 p = a[i], q = b[j], left = mask(p <= q), right = mask(q <= p);                                 \
            inner[k] = (left & p) | (~left & q);                                                               \
            u64 one = alone((left & aw[i]) | (~left & bw[j])), two = both(aw[i], bw[j]);                       \
            words[k++] = (left & right & two) | (~(left & right) & one);                                       \
            i += left & 1;                                                                                     \
            j += right & 1;                                                                                    \
        }                                                                                                      \
        for (; i < n; i++, k++) {                                                                              \
            inner[k] = a[i];                                                                                   \
            words[k] = alone(aw[i]);                                                                           \
        }                                                                                                      \
        for (; j < m; j++, k++) {                                                                              \
            inner[k] = b[j];                                                                                   \
            words[k] = alone(bw[j]);                                                                           \
        }                                                                                                      \
        return k;                                                                                              \
    }                                                                                                          \
    static size_t intersect_branches_##name(const u64 *a, const u64 *aw, size_t n, const u64 *b,               \
                                            const u64 *bw, size_t m, u64 *inner, u64 *words)                   \
    {                                                                                                          \
        size_t i = 0, j = 0, k = 0;                                                                            \
        while (i < n && j < m) {                                                                               \
            if (a[i] < b[j]) {                                                                                 \
                i++;                                                                                           \
            } else if (b[j] < a[i]) {                                                                          \
                j++;                                                                                           \
            } else {                                                                                           \
                inner[k] = a[i];                                                                               \
                words[k++] = both(aw[i++], bw[j++]);                                                           \
            }                                                                                                  \
        }                                                                                                      \
        return k;                                                                                              \
    }                                                                                                          \
    static size_t intersect_##name(const u64 *a, const u64 *aw, size_t n, const u64 *b, const u64 *bw,         \
                                   size_t m, u64 *inner, u64 *words)                                           \
    {                                                                                                          \
        size_t i = 0, j = 0, k = 0;                                                                            \
        while (i < n && j < m) {                                                                               \
            u64 p = a[i], q = b[j], left = mask(p <= q), right = mask(q <= p);                                 \
            inner[k] = p;                                                                                      \
            words[k] = both(aw[i], bw[j]);                                                                     \
            k += left & right & 1;                                                                             \
            i += left & 1;                                                                                     \
            j += right & 1;                                                                                    \
        }                                                                                                      \
        return k;                                                                                              \
    }

MERGES(plus, plus, same)
MERGES(min, least, same)
MERGES(land, both_true, truth)
MERGES(gt, greater, truth)

typedef size_t (*merge)(const u64 *, const u64 *, size_t, const u64 *, const u64 *, size_t, u64 *, u64 *);
typedef struct { const char *name; merge unite[2], intersect[2]; } op_case;

static const op_case CASES[] = {
    {"PLUS.INT64", {unite_plus, unite_branches_plus}, {intersect_plus, intersect_branches_plus}},
    {"MIN.INT64", {unite_min, unite_branches_min}, {intersect_min, intersect_branches_min}},
    {"LAND.BOOL", {unite_land, unite_branches_land}, {intersect_land, intersect_branches_land}},
    {"GT.INT64", {unite_gt, unite_branches_gt}, {intersect_gt, intersect_branches_gt}},
};

// The join of two matrices by a merge of fibers. A fiber that one side alone has is merged with none.
static matrix join(const matrix *a, const matrix *b, merge by, int is_union)
{
    size_t fibers = a->fibers + b->fibers;
    size_t room = is_union ? a->count + b->count : (a->count < b->count ? a->count : b->count);
    matrix c = new_matrix(fibers, room);
    size_t r = 0, s = 0, from = 0, start = 0;
    while (r < a->fibers || s < b->fibers) {
        u64 p = r < a->fibers ? a->ends[r].outer : UINT64_MAX, q = s < b->fibers ? b->ends[s].outer : UINT64_MAX;
        size_t end = p <= q ? a->ends[r].end : from, stop = q <= p ? b->ends[s].end : start;
        size_t n = by(a->inner + from, a->words + from, end - from, b->inner + start, b->words + start,
                      stop - start, c.inner + c.count, c.words + c.count);
        r += p <= q;
        s += q <= p;
        from = end;
        start = stop;
        c.count += n;
        if (n)
            c.ends[c.fibers++] = (fiber_end){p < q ? p : q, c.count};
    }
    return c;
}

// A vector lies as one fiber: its inner index is the row.
static u64 checksum(const matrix *m, int is_vector)
{
    u64 sum = 0;
    for (size_t r = 0, k = 0; r < m->fibers; r++)
        for (; k < m->ends[r].end; k++) {
            u64 place = is_vector ? m->inner[k] * 31 : m->ends[r].outer * 31 + m->inner[k];
            sum += place * (m->words[k] + 1);
        }
    return sum;
}

static u64 now(void)
{
    struct timespec t;
    clock_gettime(CLOCK_MONOTONIC, &t);
    return (u64)t.tv_sec * 1000000000 + (u64)t.tv_nsec;
}

static void time_joins(const char *shape, const matrix *a, const matrix *b, int is_union, int is_vector)
{
    for (size_t i = 0; i < sizeof CASES / sizeof *CASES; i++) {
        u64 best = UINT64_MAX, sum = 0;
        size_t count = 0;
        for (int repeat = 0; repeat < 2 * REPEATS; repeat++) {
            merge by = (is_union ? CASES[i].unite : CASES[i].intersect)[repeat % 2];
            u64 start = now();
            matrix c = join(a, b, by, is_union);
            u64 took = now() - start;
            best = took < best ? took : best;
            count = c.count;
            sum = checksum(&c, is_vector);
            free_matrix(&c);
        }
        printf("%s %s\t%llu\t%zu %llu\n", shape, CASES[i].name, (unsigned long long)best, count,
               (unsigned long long)sum);
    }
}

int main(int count, char **names)
{
    for (int k = 1; k < count; k++) {
        int is_union = !strcmp(names[k], "union");
        if (!is_union && strcmp(names[k], "intersect"))
            continue;
        u64 state = 88172645463325252;
        matrix a = make_matrix(&state), b = make_matrix(&state);
        time_joins("matrix", &a, &b, is_union, 0);
        matrix u = make_vector(&state), v = make_vector(&state);
        time_joins("vector", &u, &v, is_union, 1);
        free_matrix(&a);
        free_matrix(&b);
        free_matrix(&u);
        free_matrix(&v);
    }
    return 0;
}
