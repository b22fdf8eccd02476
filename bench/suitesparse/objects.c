// The objects of a script, by their names, and the calls that make, edit and read them.
#include <stdio.h>
#include <stdlib.h>
#include <string.h>

#include "runner.h"

enum { SLOTS = 16384 };

static Dictionary objects;

void list_objects(void)
{
    objects = new_dictionary(SLOTS);
}

void must(GrB_Info info)
{
    if (info != GrB_SUCCESS) {
        char number[16];
        snprintf(number, sizeof number, "%d", (int)info);
        fail("GraphBLAS answers", number);
    }
}

// A name keeps its slot when its object is freed: scripts take the same names again.
void new_object(const char *name, Object object)
{
    Object *kept = new_memory(1, sizeof *kept);
    *kept = object;
    give_meaning(&objects, name, kept);
}

Object *object_of(const char *name)
{
    return (Object *)meaning_of(&objects, name);
}

Object *mask_of(const char *name)
{
    static Object none;
    return *name == '-' ? &none : object_of(name);
}

static void call_matrix(char *words)
{
    char *name = next_word(&words);
    Object made = {.domain = domain_of(next_word(&words))};
    GrB_Index rows = (GrB_Index)next_number(&words), cols = (GrB_Index)next_number(&words);
    must(GrB_Matrix_new(&made.matrix, type_of(made.domain), rows, cols));
    new_object(name, made);
}

static void call_vector(char *words)
{
    char *name = next_word(&words);
    Object made = {.domain = domain_of(next_word(&words))};
    must(GrB_Vector_new(&made.vector, type_of(made.domain), (GrB_Index)next_number(&words)));
    new_object(name, made);
}

static void call_dup(char *words)
{
    char *name = next_word(&words);
    Object *old = object_of(next_word(&words));
    Object made = {.domain = old->domain};
    must(old->vector ? GrB_Vector_dup(&made.vector, old->vector) : GrB_Matrix_dup(&made.matrix, old->matrix));
    new_object(name, made);
}

static void call_free(char *words)
{
    char *name = next_word(&words);
    Object *old = object_of(name);
    must(old->vector ? GrB_Vector_free(&old->vector) : GrB_Matrix_free(&old->matrix));
    free(old);
    give_meaning(&objects, name, NULL);
}

static void call_clear(char *words)
{
    Object *object = object_of(next_word(&words));
    must(object->vector ? GrB_Vector_clear(object->vector) : GrB_Matrix_clear(object->matrix));
}

static void call_set(char *words)
{
    Object *object = object_of(next_word(&words));
    GrB_Index row = (GrB_Index)next_number(&words), col = object->matrix ? (GrB_Index)next_number(&words) : 0;
    int64_t value = next_number(&words);
    must(object->vector ? GrB_Vector_setElement_INT64(object->vector, value, row)
                        : GrB_Matrix_setElement_INT64(object->matrix, value, row, col));
}

static void call_remove(char *words)
{
    Object *object = object_of(next_word(&words));
    GrB_Index row = (GrB_Index)next_number(&words), col = object->matrix ? (GrB_Index)next_number(&words) : 0;
    must(object->vector ? GrB_Vector_removeElement(object->vector, row)
                        : GrB_Matrix_removeElement(object->matrix, row, col));
}

static void call_get(char *words)
{
    Object *object = object_of(next_word(&words));
    GrB_Index row = (GrB_Index)next_number(&words), col = object->matrix ? (GrB_Index)next_number(&words) : 0;
    int64_t value;
    GrB_Info info = object->vector ? GrB_Vector_extractElement_INT64(&value, object->vector, row)
                                   : GrB_Matrix_extractElement_INT64(&value, object->matrix, row, col);
    if (info == GrB_NO_VALUE) {
        answer_instead_of_ok("NO_VALUE\n");
        return;
    }
    must(info);
    append_value(value, object->domain);
}

static void call_nvals(char *words)
{
    Object *object = object_of(next_word(&words));
    GrB_Index count;
    must(object->vector ? GrB_Vector_nvals(&count, object->vector) : GrB_Matrix_nvals(&count, object->matrix));
    append_number(count, '\n');
}

// The tuples of a line, as many as its bytes have room for.
static void call_build(char *words)
{
    Object *object = object_of(next_word(&words));
    GrB_BinaryOp dup = operator_of(next_word(&words));
    size_t most = strlen(words) / 2 + 1, count = 0;
    GrB_Index *rows = new_memory(most, sizeof *rows), *cols = new_memory(most, sizeof *cols);
    int64_t *values = new_memory(most, sizeof *values);
    for (; *words; count++) {
        rows[count] = (GrB_Index)next_number(&words);
        cols[count] = object->matrix ? (GrB_Index)next_number(&words) : 0;
        values[count] = next_number(&words);
    }
    must(object->vector ? GrB_Vector_build_INT64(object->vector, rows, values, count, dup)
                        : GrB_Matrix_build_INT64(object->matrix, rows, cols, values, count, dup));
    free(rows);
    free(cols);
    free(values);
}

static void call_reduce(char *words)
{
    Object *object = object_of(next_word(&words));
    char *word = next_word(&words);
    GrB_Monoid monoid = monoid_of(word);
    Domain domain = domain_of(word);
    int64_t value = 0;
    bool truth = false;
    if (domain == BOOL)
        must(object->vector ? GrB_Vector_reduce_BOOL(&truth, NULL, monoid, object->vector, NULL)
                            : GrB_Matrix_reduce_BOOL(&truth, NULL, monoid, object->matrix, NULL));
    else
        must(object->vector ? GrB_Vector_reduce_INT64(&value, NULL, monoid, object->vector, NULL)
                            : GrB_Matrix_reduce_INT64(&value, NULL, monoid, object->matrix, NULL));
    append_value(domain == BOOL ? truth : value, domain);
}

void list_calls(Dictionary *calls)
{
    static const struct { const char *name; Call *call; } CALLS[] = {
        {"matrix", call_matrix}, {"vector", call_vector}, {"dup", call_dup}, {"free", call_free},
        {"clear", call_clear}, {"set", call_set}, {"remove", call_remove}, {"get", call_get},
        {"nvals", call_nvals}, {"build", call_build}, {"reduce", call_reduce}, {"load", call_load},
        {"print", call_print}};
    for (size_t k = 0; k < sizeof CALLS / sizeof *CALLS; k++)
        give_meaning(calls, CALLS[k].name, &CALLS[k].call);
}
