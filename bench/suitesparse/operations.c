// The operations: what stands before a mask and an accumulator, and ends in flags.
#include <stdlib.h>
#include <string.h>

#include "runner.h"

// Where an operation writes: the first three of its words.
typedef struct {
    Object *object, *mask;
    GrB_BinaryOp accum;
} Output;

// A list of indices of a region, or all.
typedef struct {
    GrB_Index *indices, count;
} List;

static Output next_output(char **words)
{
    Output out = {.object = object_of(next_word(words))};
    out.mask = mask_of(next_word(words));
    out.accum = operator_of(next_word(words));
    return out;
}

// What the functions of GraphBLAS take for vectors and for matrices.
#define TO_VECTOR(out) (out).object->vector, (out).mask->vector, (out).accum
#define TO_MATRIX(out) (out).object->matrix, (out).mask->matrix, (out).accum

static List next_list(char **words)
{
    char *word = next_word(words);
    if (*word == ':')
        return (List){(GrB_Index *)GrB_ALL, 0};
    List list = {new_memory(strlen(word) / 2 + 1, sizeof(GrB_Index)), 0};
    while (*word)
        list.indices[list.count++] = (GrB_Index)next_number(&word);
    return list;
}

static void free_list(List list)
{
    if (list.indices != GrB_ALL)
        free(list.indices);
}

static void call_mxm(char *words)
{
    Output out = next_output(&words);
    GrB_Semiring ring = semiring_of(next_word(&words));
    GrB_Matrix a = object_of(next_word(&words))->matrix, b = object_of(next_word(&words))->matrix;
    must(GrB_mxm(TO_MATRIX(out), ring, a, b, descriptor_of(next_word(&words))));
}

static void call_mxv(char *words)
{
    Output out = next_output(&words);
    GrB_Semiring ring = semiring_of(next_word(&words));
    GrB_Matrix a = object_of(next_word(&words))->matrix;
    GrB_Vector u = object_of(next_word(&words))->vector;
    must(GrB_mxv(TO_VECTOR(out), ring, a, u, descriptor_of(next_word(&words))));
}

static void call_vxm(char *words)
{
    Output out = next_output(&words);
    GrB_Semiring ring = semiring_of(next_word(&words));
    GrB_Vector u = object_of(next_word(&words))->vector;
    GrB_Matrix a = object_of(next_word(&words))->matrix;
    must(GrB_vxm(TO_VECTOR(out), ring, u, a, descriptor_of(next_word(&words))));
}

static void call_ewiseadd(char *words)
{
    Output out = next_output(&words);
    GrB_BinaryOp op = operator_of(next_word(&words));
    Object *a = object_of(next_word(&words)), *b = object_of(next_word(&words));
    GrB_Descriptor flags = descriptor_of(next_word(&words));
    must(a->vector ? GrB_Vector_eWiseAdd_BinaryOp(TO_VECTOR(out), op, a->vector, b->vector, flags)
                   : GrB_Matrix_eWiseAdd_BinaryOp(TO_MATRIX(out), op, a->matrix, b->matrix, flags));
}

static void call_ewisemult(char *words)
{
    Output out = next_output(&words);
    GrB_BinaryOp op = operator_of(next_word(&words));
    Object *a = object_of(next_word(&words)), *b = object_of(next_word(&words));
    GrB_Descriptor flags = descriptor_of(next_word(&words));
    must(a->vector ? GrB_Vector_eWiseMult_BinaryOp(TO_VECTOR(out), op, a->vector, b->vector, flags)
                   : GrB_Matrix_eWiseMult_BinaryOp(TO_MATRIX(out), op, a->matrix, b->matrix, flags));
}

static void call_apply(char *words)
{
    Output out = next_output(&words);
    GrB_UnaryOp op = unary_of(next_word(&words));
    Object *a = object_of(next_word(&words));
    GrB_Descriptor flags = descriptor_of(next_word(&words));
    must(a->vector ? GrB_Vector_apply(TO_VECTOR(out), op, a->vector, flags)
                   : GrB_Matrix_apply(TO_MATRIX(out), op, a->matrix, flags));
}

static void call_applyindex(char *words)
{
    Output out = next_output(&words);
    GrB_IndexUnaryOp op = index_operator_of(next_word(&words));
    Object *a = object_of(next_word(&words));
    int64_t value = next_number(&words);
    GrB_Descriptor flags = descriptor_of(next_word(&words));
    must(a->vector ? GrB_Vector_apply_IndexOp_INT64(TO_VECTOR(out), op, a->vector, value, flags)
                   : GrB_Matrix_apply_IndexOp_INT64(TO_MATRIX(out), op, a->matrix, value, flags));
}

static void call_applyfirst(char *words)
{
    Output out = next_output(&words);
    GrB_BinaryOp op = operator_of(next_word(&words));
    int64_t value = next_number(&words);
    Object *a = object_of(next_word(&words));
    GrB_Descriptor flags = descriptor_of(next_word(&words));
    must(a->vector ? GrB_Vector_apply_BinaryOp1st_INT64(TO_VECTOR(out), op, value, a->vector, flags)
                   : GrB_Matrix_apply_BinaryOp1st_INT64(TO_MATRIX(out), op, value, a->matrix, flags));
}

static void call_applysecond(char *words)
{
    Output out = next_output(&words);
    GrB_BinaryOp op = operator_of(next_word(&words));
    Object *a = object_of(next_word(&words));
    int64_t value = next_number(&words);
    GrB_Descriptor flags = descriptor_of(next_word(&words));
    must(a->vector ? GrB_Vector_apply_BinaryOp2nd_INT64(TO_VECTOR(out), op, a->vector, value, flags)
                   : GrB_Matrix_apply_BinaryOp2nd_INT64(TO_MATRIX(out), op, a->matrix, value, flags));
}

static void call_select(char *words)
{
    Output out = next_output(&words);
    GrB_IndexUnaryOp op = index_operator_of(next_word(&words));
    Object *a = object_of(next_word(&words));
    int64_t value = next_number(&words);
    GrB_Descriptor flags = descriptor_of(next_word(&words));
    must(a->vector ? GrB_Vector_select_INT64(TO_VECTOR(out), op, a->vector, value, flags)
                   : GrB_Matrix_select_INT64(TO_MATRIX(out), op, a->matrix, value, flags));
}

static void call_reducerows(char *words)
{
    Output out = next_output(&words);
    GrB_Monoid monoid = monoid_of(next_word(&words));
    GrB_Matrix a = object_of(next_word(&words))->matrix;
    must(GrB_Matrix_reduce_Monoid(TO_VECTOR(out), monoid, a, descriptor_of(next_word(&words))));
}

static void call_transpose(char *words)
{
    Output out = next_output(&words);
    GrB_Matrix a = object_of(next_word(&words))->matrix;
    must(GrB_transpose(TO_MATRIX(out), a, descriptor_of(next_word(&words))));
}

static void call_extract(char *words)
{
    Output out = next_output(&words);
    Object *a = object_of(next_word(&words));
    List rows = next_list(&words), cols = a->matrix ? next_list(&words) : (List){(GrB_Index *)GrB_ALL, 0};
    GrB_Descriptor flags = descriptor_of(next_word(&words));
    must(a->vector ? GrB_Vector_extract(TO_VECTOR(out), a->vector, rows.indices, rows.count, flags)
                   : GrB_Matrix_extract(TO_MATRIX(out), a->matrix, rows.indices, rows.count, cols.indices,
                                        cols.count, flags));
    free_list(rows);
    free_list(cols);
}

static void call_assign(char *words)
{
    Output out = next_output(&words);
    Object *a = object_of(next_word(&words));
    List rows = next_list(&words), cols = a->matrix ? next_list(&words) : (List){(GrB_Index *)GrB_ALL, 0};
    GrB_Descriptor flags = descriptor_of(next_word(&words));
    must(a->vector ? GrB_Vector_assign(TO_VECTOR(out), a->vector, rows.indices, rows.count, flags)
                   : GrB_Matrix_assign(TO_MATRIX(out), a->matrix, rows.indices, rows.count, cols.indices,
                                       cols.count, flags));
    free_list(rows);
    free_list(cols);
}

static void call_fill(char *words)
{
    Output out = next_output(&words);
    int64_t value = next_number(&words);
    List rows = next_list(&words);
    List cols = out.object->matrix ? next_list(&words) : (List){(GrB_Index *)GrB_ALL, 0};
    GrB_Descriptor flags = descriptor_of(next_word(&words));
    must(out.object->vector ? GrB_Vector_assign_INT64(TO_VECTOR(out), value, rows.indices, rows.count, flags)
                            : GrB_Matrix_assign_INT64(TO_MATRIX(out), value, rows.indices, rows.count,
                                                      cols.indices, cols.count, flags));
    free_list(rows);
    free_list(cols);
}

void list_operations(Dictionary *calls)
{
    static const struct { const char *name; Call *call; } CALLS[] = {
        {"mxm", call_mxm}, {"mxv", call_mxv}, {"vxm", call_vxm}, {"ewiseadd", call_ewiseadd},
        {"ewisemult", call_ewisemult}, {"apply", call_apply}, {"applyindex", call_applyindex},
        {"applyfirst", call_applyfirst}, {"applysecond", call_applysecond}, {"select", call_select},
        {"reducerows", call_reducerows}, {"transpose", call_transpose}, {"extract", call_extract},
        {"assign", call_assign}, {"fill", call_fill}};
    for (size_t k = 0; k < sizeof CALLS / sizeof *CALLS; k++)
        give_meaning(calls, CALLS[k].name, &CALLS[k].call);
}
