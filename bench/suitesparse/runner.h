// What the parts of the program share: words of a line, answers, objects, operators and calls.
#pragma once

#include <GraphBLAS.h>
#include <stdbool.h>
#include <stddef.h>
#include <stdint.h>

typedef enum { BOOL, INT64, UINT64 } Domain;

// A matrix or a vector; the other one is NULL. Where a script says `-` for no mask, both are.
typedef struct {
    GrB_Matrix matrix;
    GrB_Vector vector;
    Domain domain;
} Object;

// text.c: whole files, words that are cut off a line, numbers in them, and the answers.
char *whole_file(const char *name);
char *next_word(char **at);
int64_t next_number(char **at);
void append_text(const char *text);
char *put_number(char *to, uint64_t number, char behind);
void append_number(uint64_t number, char behind);
void append_value(int64_t value, Domain domain);
char *reserve_answer(size_t bytes);
void end_answer(char *end);
void answer_instead_of_ok(const char *status);
void write_answers(void);

// names.c: what words stand for, and how the program ends where there is no meaning, no memory or no file.
typedef struct {
    const char *name;
    const void *meaning;
} Named;

typedef struct {
    Named *slots;
    size_t mask;
} Dictionary;

Dictionary new_dictionary(size_t slots);
const void *meaning_of(const Dictionary *dictionary, const char *name);
void give_meaning(Dictionary *dictionary, const char *name, const void *meaning);
void fail(const char *what, const char *word);
void *new_memory(size_t count, size_t size);

// operators.c
void list_operators(void);
Domain domain_of(const char *word);
GrB_Type type_of(Domain domain);
GrB_Semiring semiring_of(const char *word);
GrB_Monoid monoid_of(const char *word);
GrB_BinaryOp operator_of(const char *word);
GrB_UnaryOp unary_of(const char *word);
GrB_IndexUnaryOp index_operator_of(const char *word);
GrB_Descriptor descriptor_of(const char *flags);

// objects.c
void list_objects(void);
void new_object(const char *name, Object object);
Object *object_of(const char *name);
Object *mask_of(const char *name);
void must(GrB_Info info);

// files.c, objects.c and operations.c: each takes the words behind a call's name.
typedef void Call(char *words);
Call call_load, call_print;
void list_calls(Dictionary *calls);
void list_operations(Dictionary *calls);
