// The functions of entries, tests and sums that a C programmer writes for the calls of `elementwise`, timed.
// `main NAME` prints a line for each case of a benchmark: the case, the best nanoseconds of a call and a
// checksum, with tabs between. A call takes its lists from the heap and gives them back.
#include <stdint.h>
#include <stdio.h>
#include <stdlib.h>
#include <string.h>
#include <time.h>

enum { REPEATS = 8 };

typedef uint64_t u64;
typedef int64_t i64;
typedef struct { u64 outer; size_t end; } fiber_end;

// As entries lie in a store: fibers one behind the other. Where there is one column the rows are inner indices.
typedef struct {
    fiber_end *ends;
    u64 *inner, *words;
    size_t fibers, count;
    int is_column;
} lists;

static void *room(size_t count, size_t size)
{
    void *list = malloc(count * size + 1);
    if (!list)
        exit(1);
    return list;
}

// Lists with room for as much as there is.
static lists room_for(const lists *a)
{
    lists r = {room(a->fibers, sizeof *r.ends), room(a->count, 8), room(a->count, 8), 0, 0, a->is_column};
    return r;
}

static void free_lists(lists *a)
{
    free(a->ends);
    free(a->inner);
    free(a->words);
}

static lists copy_places(const lists *a)
{
    lists r = room_for(a);
    memcpy(r.ends, a->ends, a->fibers * sizeof *r.ends);
    memcpy(r.inner, a->inner, a->count * 8);
    r.fibers = a->fibers;
    r.count = a->count;
    return r;
}

// A function of words, in one loop over all.
#define MAP(name, value)                          \
    static lists name(const lists *a)             \
    {                                             \
        lists r = copy_places(a);                 \
        for (size_t k = 0; k < a->count; k++) {   \
            u64 w = a->words[k];                  \
            r.words[k] = value;                   \
        }                                         \
        return r;                                 \
    }

MAP(apply_ainv, -w)
MAP(apply_plus, w + 3)
MAP(apply_identity, w)

static lists apply_colindex(const lists *a)
{
    lists r = copy_places(a);
    for (size_t f = 0, k = 0; f < a->fibers; f++)
        for (; k < a->ends[f].end; k++)
            r.words[k] = (a->is_column ? a->ends[f].outer : a->inner[k]) + 1;
    return r;
}

// The entries that pass a test, without a branch on it.
#define SELECT(name, test)                                                   \
    static lists name(const lists *a)                                        \
    {                                                                        \
        lists r = room_for(a);                                               \
        for (size_t f = 0, k = 0; f < a->fibers; f++) {                      \
            size_t before = r.count;                                         \
            u64 outer = a->ends[f].outer;                                    \
            if (a->is_column)                                                \
                for (; k < a->ends[f].end; k++) {                            \
                    i64 i = (i64)a->inner[k], j = (i64)outer, w = (i64)a->words[k]; \
                    r.inner[r.count] = a->inner[k];                          \
                    r.words[r.count] = a->words[k];                          \
                    r.count += test;                                         \
                }                                                            \
            else                                                             \
                for (; k < a->ends[f].end; k++) {                            \
                    i64 i = (i64)outer, j = (i64)a->inner[k], w = (i64)a->words[k]; \
                    r.inner[r.count] = a->inner[k];                          \
                    r.words[r.count] = a->words[k];                          \
                    r.count += test;                                         \
                }                                                            \
            r.ends[r.fibers] = (fiber_end){outer, r.count};                  \
            r.fibers += r.count > before;                                    \
        }                                                                    \
        return r;                                                            \
    }

SELECT(select_tril, ((void)w, j <= i))
SELECT(select_valuegt, ((void)i, (void)j, w > 0))
SELECT(select_offdiag, ((void)w, j != i))

// The sum of all words, and the column of the sums of rows.
#define REDUCE(all, rows, start, combined)                                   \
    static u64 all(const lists *a)                                           \
    {                                                                        \
        u64 s = start;                                                       \
        for (size_t k = 0; k < a->count; k++) {                              \
            u64 w = a->words[k];                                             \
            s = combined;                                                    \
        }                                                                    \
        return s;                                                            \
    }                                                                        \
    static lists rows(const lists *a)                                        \
    {                                                                        \
        lists r = {room(1, sizeof *r.ends), room(a->fibers, 8), room(a->fibers, 8), 1, a->fibers, 1}; \
        for (size_t f = 0, k = 0; f < a->fibers; f++) {                      \
            u64 s = start;                                                   \
            for (; k < a->ends[f].end; k++) {                                \
                u64 w = a->words[k];                                         \
                s = combined;                                                \
            }                                                                \
            r.inner[f] = a->ends[f].outer;                                   \
            r.words[f] = s;                                                  \
        }                                                                    \
        r.ends[0] = (fiber_end){0, a->fibers};                               \
        return r;                                                            \
    }

REDUCE(reduce_plus, rows_plus, 0, s + w)
REDUCE(reduce_min, rows_min, INT64_MAX, (i64)w < (i64)s ? w : s)
REDUCE(reduce_lor, rows_lor, 0, s | (w != 0))

static u64 state;

// The next number by xorshift.
static u64 next(void)
{
    state ^= state << 13;
    state ^= state >> 7;
    state ^= state << 17;
    return state;
}

// As in main.rattle: a matrix with up to five entries in each row. Of words at the same position the last counts.
static lists make_matrix(void)
{
    u64 n = 200000;
    lists a = {room(n, sizeof *a.ends), room(5 * n, 8), room(5 * n, 8), 0, 0, 0};
    for (u64 row = 0; row < n; row++) {
        size_t start = a.count;
        for (int entry = 0; entry < 5; entry++) {
            u64 col = next() % n, word = next() % 19 - 9;
            size_t at = start;
            while (at < a.count && a.inner[at] < col)
                at++;
            if (at == a.count || a.inner[at] != col) {
                memmove(a.inner + at + 1, a.inner + at, (a.count - at) * 8);
                memmove(a.words + at + 1, a.words + at, (a.count - at) * 8);
                a.count++;
            }
            a.inner[at] = col;
            a.words[at] = word;
        }
        a.ends[a.fibers++] = (fiber_end){row, a.count};
    }
    return a;
}

// A vector with an entry in one of each two rows.
static lists make_vector(void)
{
    size_t count = 2000000;
    lists a = {room(1, sizeof *a.ends), room(count, 8), room(count, 8), 1, count, 1};
    for (size_t k = 0; k < count; k++) {
        a.inner[k] = 2 * k + next() % 2;
        a.words[k] = next() % 19 - 9;
    }
    a.ends[0] = (fiber_end){0, count};
    return a;
}

static u64 checksum(const lists *a)
{
    u64 sum = 0;
    for (size_t f = 0, k = 0; f < a->fibers; f++)
        for (; k < a->ends[f].end; k++) {
            u64 outer = a->ends[f].outer, inner = a->inner[k];
            u64 place = a->is_column ? inner * 31 + outer : outer * 31 + inner;
            sum += place * a->words[k];
        }
    return sum;
}

static u64 now(void)
{
    struct timespec at;
    clock_gettime(CLOCK_MONOTONIC, &at);
    return (u64)at.tv_sec * 1000000000u + (u64)at.tv_nsec;
}

static void print_best(const char *size, const char *name, u64 best, u64 count, u64 sum)
{
    printf("%s %s\t%llu\t%llu %llu\n", name, size, (unsigned long long)best, (unsigned long long)count,
           (unsigned long long)sum);
}

static void time_lists(const lists *a, const char *size, const char *name, lists call(const lists *))
{
    u64 best = UINT64_MAX, count = 0, sum = 0;
    for (int repeat = 0; repeat < REPEATS; repeat++) {
        u64 start = now();
        lists r = call(a);
        u64 took = now() - start;
        if (repeat == 0) {
            count = r.count;
            sum = checksum(&r);
        }
        start = now();
        free_lists(&r);
        took += now() - start;
        best = took < best ? took : best;
    }
    print_best(size, name, best, count, sum);
}

static void time_sum(const lists *a, const char *size, const char *name, u64 call(const lists *))
{
    u64 best = UINT64_MAX, sum = 0;
    for (int repeat = 0; repeat < REPEATS; repeat++) {
        u64 start = now();
        sum = call(a);
        u64 took = now() - start;
        best = took < best ? took : best;
    }
    print_best(size, name, best, 1, sum);
}

static void time_all(const char *name, const char *size, const lists *a)
{
    if (strcmp(name, "apply") == 0) {
        time_lists(a, size, "AINV", apply_ainv);
        time_lists(a, size, "PLUS", apply_plus);
        time_lists(a, size, "IDENTITY", apply_identity);
        time_lists(a, size, "COLINDEX", apply_colindex);
    }
    if (strcmp(name, "select") == 0) {
        time_lists(a, size, "TRIL", select_tril);
        time_lists(a, size, "VALUEGT", select_valuegt);
        time_lists(a, size, "OFFDIAG", select_offdiag);
    }
    if (strcmp(name, "reduce") == 0) {
        time_sum(a, size, "PLUS", reduce_plus);
        time_sum(a, size, "MIN", reduce_min);
        time_sum(a, size, "LOR", reduce_lor);
    }
    if (strcmp(name, "reducerows") == 0 && !a->is_column) {
        time_lists(a, size, "PLUS", rows_plus);
        time_lists(a, size, "MIN", rows_min);
        time_lists(a, size, "LOR", rows_lor);
    }
}

int main(int count, char **words)
{
    const char *name = count > 1 ? words[1] : "";
    state = 88172645463325252u;
    lists matrix = make_matrix(), vector = make_vector();
    time_all(name, "matrix", &matrix);
    time_all(name, "vector", &vector);
    free_lists(&matrix);
    free_lists(&vector);
    return 0;
}
