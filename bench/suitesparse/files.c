// Matrix Market files: coordinate format, integer and pattern, general and symmetric.
#include <stdio.h>
#include <stdlib.h>
#include <string.h>

#include "runner.h"

// A file's tuples, which grow to twice as many where it is symmetric. `truths` are the values of BOOL, `values` of
// the other domains.
typedef struct {
    GrB_Index *rows, *cols;
    int64_t *values;
    bool *truths;
    size_t count;
} Tuples;

// The next run of digits, which may stand in the lines below.
static int64_t number_below(char **at)
{
    char *p = *at;
    while (*p <= ' ')
        p++;
    bool negative = *p == '-';
    p += negative;
    uint64_t number = 0;
    while (*p >= '0')
        number = number * 10 + (uint64_t)(*p++ - '0');
    *at = p;
    return (int64_t)(negative ? -number : number);
}

static Tuples new_tuples(size_t most, Domain domain)
{
    return (Tuples){.rows = new_memory(most, sizeof(GrB_Index)), .cols = new_memory(most, sizeof(GrB_Index)),
        .values = domain == BOOL ? NULL : new_memory(most, sizeof(int64_t)),
        .truths = domain == BOOL ? new_memory(most, sizeof(bool)) : NULL};
}

static void push(Tuples *tuples, GrB_Index row, GrB_Index col, int64_t value)
{
    tuples->rows[tuples->count] = row;
    tuples->cols[tuples->count] = col;
    if (tuples->truths)
        tuples->truths[tuples->count++] = value != 0;
    else
        tuples->values[tuples->count++] = value;
}

static GrB_Matrix built(Tuples tuples, GrB_Index rows, GrB_Index cols, Domain domain)
{
    GrB_Matrix matrix;
    must(GrB_Matrix_new(&matrix, type_of(domain), rows, cols));
    if (domain == BOOL)
        must(GrB_Matrix_build_BOOL(matrix, tuples.rows, tuples.cols, tuples.truths, tuples.count, GrB_LOR));
    else if (domain == INT64)
        must(GrB_Matrix_build_INT64(matrix, tuples.rows, tuples.cols, tuples.values, tuples.count, GrB_PLUS_INT64));
    else
        must(GrB_Matrix_build_UINT64(matrix, tuples.rows, tuples.cols, (uint64_t *)tuples.values, tuples.count,
                                     GrB_PLUS_UINT64));
    return matrix;
}

static void free_tuples(Tuples tuples)
{
    free(tuples.rows);
    free(tuples.cols);
    free(tuples.values);
    free(tuples.truths);
}

void call_load(char *words)
{
    char *name = next_word(&words);
    Domain domain = domain_of(next_word(&words));
    char *bytes = whole_file(next_word(&words)), *at = strchr(bytes, '\n');
    *at++ = 0;
    bool pattern = strstr(bytes, " pattern "), symmetric = strstr(bytes, " symmetric");
    while (*at == '%')
        at = strchr(at, '\n') + 1;
    GrB_Index rows = (GrB_Index)number_below(&at), cols = (GrB_Index)number_below(&at);
    size_t listed = (size_t)number_below(&at);
    Tuples tuples = new_tuples(symmetric ? 2 * listed : listed, domain);
    for (size_t k = 0; k < listed; k++) {
        GrB_Index row = (GrB_Index)number_below(&at) - 1, col = (GrB_Index)number_below(&at) - 1;
        int64_t value = pattern ? 1 : number_below(&at);
        push(&tuples, row, col, value);
        if (symmetric && row != col)
            push(&tuples, col, row, value);
    }
    free(bytes);
    new_object(name, (Object){.matrix = built(tuples, rows, cols, domain), .domain = domain});
    free_tuples(tuples);
}

static Tuples tuples_of(const Object *object)
{
    GrB_Index count;
    must(object->vector ? GrB_Vector_nvals(&count, object->vector) : GrB_Matrix_nvals(&count, object->matrix));
    Tuples tuples = new_tuples(count, INT64);
    if (object->vector) {
        must(GrB_Vector_extractTuples_INT64(tuples.rows, tuples.values, &count, object->vector));
        memset(tuples.cols, 0, count * sizeof *tuples.cols);
    } else {
        must(GrB_Matrix_extractTuples_INT64(tuples.rows, tuples.cols, tuples.values, &count, object->matrix));
    }
    tuples.count = count;
    return tuples;
}

// SuiteSparse keeps matrices by rows here and hands their tuples out row by row.
void call_print(char *words)
{
    enum { LINE = 64 };
    const Object *object = object_of(next_word(&words));
    Tuples tuples = tuples_of(object);
    GrB_Index rows, cols = 1;
    must(object->vector ? GrB_Vector_size(&rows, object->vector) : GrB_Matrix_nrows(&rows, object->matrix));
    if (object->matrix)
        must(GrB_Matrix_ncols(&cols, object->matrix));
    append_text("%%MatrixMarket matrix coordinate integer general\n");
    append_number(rows, ' ');
    append_number(cols, ' ');
    append_number(tuples.count, '\n');
    char *to = reserve_answer(tuples.count * LINE);
    for (size_t k = 0; k < tuples.count; k++) {
        to = put_number(to, tuples.rows[k] + 1, ' ');
        to = put_number(to, tuples.cols[k] + 1, ' ');
        bool negative = object->domain == INT64 && tuples.values[k] < 0;
        *to = '-';
        to += negative;
        to = put_number(to, negative ? -(uint64_t)tuples.values[k] : (uint64_t)tuples.values[k], '\n');
    }
    end_answer(to);
    free_tuples(tuples);
}
