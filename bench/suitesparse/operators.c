// The built-in operators of SuiteSparse, by the names that scripts give them.
#include <string.h>

#include "runner.h"

enum { SLOTS = 512, FLAGS = 5 };

static Dictionary semirings, monoids, operators, unary_operators, index_operators;
static GrB_Descriptor descriptors[1 << FLAGS];

#define COUNT(list) (sizeof(list) / sizeof *(list))

// ONEB gives 1 for each pair, and is fast under the name PAIR.
#define SEMIRINGS_WITH(MULTIPLY, D) \
    {"PLUS." #MULTIPLY "." #D, &GxB_PLUS_##MULTIPLY##_##D}, {"MIN." #MULTIPLY "." #D, &GxB_MIN_##MULTIPLY##_##D}, \
        {"MAX." #MULTIPLY "." #D, &GxB_MAX_##MULTIPLY##_##D}
#define SEMIRINGS_ON(D) \
    SEMIRINGS_WITH(TIMES, D), SEMIRINGS_WITH(PLUS, D), SEMIRINGS_WITH(FIRST, D), SEMIRINGS_WITH(SECOND, D), \
        SEMIRINGS_WITH(MIN, D), SEMIRINGS_WITH(MAX, D), {"PLUS.ONEB." #D, &GxB_PLUS_PAIR_##D}
#define MONOIDS_ON(D) \
    {"PLUS." #D, &GrB_PLUS_MONOID_##D}, {"TIMES." #D, &GrB_TIMES_MONOID_##D}, {"MIN." #D, &GrB_MIN_MONOID_##D}, \
        {"MAX." #D, &GrB_MAX_MONOID_##D}
#define OPERATORS_ON(D) \
    {"MIN." #D, &GrB_MIN_##D}, {"MAX." #D, &GrB_MAX_##D}, {"PLUS." #D, &GrB_PLUS_##D}, \
        {"MINUS." #D, &GrB_MINUS_##D}, {"TIMES." #D, &GrB_TIMES_##D}, {"BOR." #D, &GrB_BOR_##D}, \
        {"BAND." #D, &GrB_BAND_##D}, {"BXOR." #D, &GrB_BXOR_##D}, {"GT." #D, &GrB_GT_##D}, \
        {"LT." #D, &GrB_LT_##D}, {"GE." #D, &GrB_GE_##D}, {"LE." #D, &GrB_LE_##D}
#define OPERATORS_OF_ALL(D) \
    {"FIRST." #D, &GrB_FIRST_##D}, {"SECOND." #D, &GrB_SECOND_##D}, {"ONEB." #D, &GrB_ONEB_##D}, \
        {"EQ." #D, &GrB_EQ_##D}, {"NE." #D, &GrB_NE_##D}
#define UNARY_ON(D) \
    {"IDENTITY." #D, &GrB_IDENTITY_##D}, {"AINV." #D, &GrB_AINV_##D}, {"ABS." #D, &GrB_ABS_##D}, \
        {"BNOT." #D, &GrB_BNOT_##D}
#define INDEX_OPERATORS_ON(D) \
    {"VALUEEQ." #D, &GrB_VALUEEQ_##D}, {"VALUENE." #D, &GrB_VALUENE_##D}, {"VALUELT." #D, &GrB_VALUELT_##D}, \
        {"VALUELE." #D, &GrB_VALUELE_##D}, {"VALUEGT." #D, &GrB_VALUEGT_##D}, {"VALUEGE." #D, &GrB_VALUEGE_##D}

static const Named SEMIRINGS[] = {
    SEMIRINGS_ON(INT64), SEMIRINGS_ON(UINT64), {"LOR.LAND.BOOL", &GrB_LOR_LAND_SEMIRING_BOOL}};

static const Named MONOIDS[] = {
    MONOIDS_ON(INT64), MONOIDS_ON(UINT64), {"LOR.BOOL", &GrB_LOR_MONOID_BOOL}, {"LAND.BOOL", &GrB_LAND_MONOID_BOOL}};

static const Named OPERATORS[] = {
    OPERATORS_ON(INT64), OPERATORS_ON(UINT64), OPERATORS_OF_ALL(BOOL), OPERATORS_OF_ALL(INT64),
    OPERATORS_OF_ALL(UINT64), {"LOR.BOOL", &GrB_LOR}, {"LAND.BOOL", &GrB_LAND}, {"LXOR.BOOL", &GrB_LXOR},
    {"LXNOR.BOOL", &GrB_LXNOR}};

static const Named UNARY_OPERATORS[] = {
    UNARY_ON(INT64), UNARY_ON(UINT64), {"IDENTITY.BOOL", &GrB_IDENTITY_BOOL}, {"LNOT.BOOL", &GrB_LNOT}};

static const Named INDEX_OPERATORS[] = {
    INDEX_OPERATORS_ON(INT64), INDEX_OPERATORS_ON(UINT64), {"VALUEEQ.BOOL", &GrB_VALUEEQ_BOOL},
    {"VALUENE.BOOL", &GrB_VALUENE_BOOL}, {"ROWINDEX", &GrB_ROWINDEX_INT64}, {"COLINDEX", &GrB_COLINDEX_INT64},
    {"DIAGINDEX", &GrB_DIAGINDEX_INT64}, {"TRIL", &GrB_TRIL}, {"TRIU", &GrB_TRIU}, {"DIAG", &GrB_DIAG},
    {"OFFDIAG", &GrB_OFFDIAG}, {"COLLE", &GrB_COLLE}, {"COLGT", &GrB_COLGT}, {"ROWLE", &GrB_ROWLE},
    {"ROWGT", &GrB_ROWGT}};

static Dictionary dictionary_of(const Named *list, size_t count)
{
    Dictionary dictionary = new_dictionary(SLOTS);
    for (size_t k = 0; k < count; k++)
        give_meaning(&dictionary, list[k].name, list[k].meaning);
    return dictionary;
}

// A descriptor for each set of the flags R, S, C, T0 and T1, which are the bits of its place.
static void make_descriptors(void)
{
    static const struct { GrB_Desc_Field field; GrB_Desc_Value value; } FIELDS[FLAGS] = {
        {GrB_OUTP, GrB_REPLACE}, {GrB_MASK, GrB_STRUCTURE}, {GrB_MASK, GrB_COMP}, {GrB_INP0, GrB_TRAN},
        {GrB_INP1, GrB_TRAN}};
    for (int flags = 1; flags < 1 << FLAGS; flags++) {
        must(GrB_Descriptor_new(&descriptors[flags]));
        for (int flag = 0; flag < FLAGS; flag++)
            if (flags >> flag & 1)
                must(GrB_Descriptor_set(descriptors[flags], FIELDS[flag].field, FIELDS[flag].value));
    }
}

void list_operators(void)
{
    semirings = dictionary_of(SEMIRINGS, COUNT(SEMIRINGS));
    monoids = dictionary_of(MONOIDS, COUNT(MONOIDS));
    operators = dictionary_of(OPERATORS, COUNT(OPERATORS));
    unary_operators = dictionary_of(UNARY_OPERATORS, COUNT(UNARY_OPERATORS));
    index_operators = dictionary_of(INDEX_OPERATORS, COUNT(INDEX_OPERATORS));
    make_descriptors();
}

// The domain that a word is or ends in.
Domain domain_of(const char *word)
{
    const char *dot = strrchr(word, '.');
    switch (dot ? dot[1] : word[0]) {
    case 'B':
        return BOOL;
    case 'I':
        return INT64;
    default:
        return UINT64;
    }
}

GrB_Type type_of(Domain domain)
{
    return domain == BOOL ? GrB_BOOL : domain == INT64 ? GrB_INT64 : GrB_UINT64;
}

GrB_Semiring semiring_of(const char *word)
{
    return *(const GrB_Semiring *)meaning_of(&semirings, word);
}

GrB_Monoid monoid_of(const char *word)
{
    return *(const GrB_Monoid *)meaning_of(&monoids, word);
}

// None for `-`: no accumulator, or no DUP.
GrB_BinaryOp operator_of(const char *word)
{
    return *word == '-' ? NULL : *(const GrB_BinaryOp *)meaning_of(&operators, word);
}

GrB_UnaryOp unary_of(const char *word)
{
    return *(const GrB_UnaryOp *)meaning_of(&unary_operators, word);
}

GrB_IndexUnaryOp index_operator_of(const char *word)
{
    return *(const GrB_IndexUnaryOp *)meaning_of(&index_operators, word);
}

GrB_Descriptor descriptor_of(const char *flags)
{
    static const char LETTERS[] = "RSC01";
    int set = 0;
    for (; *flags; flags++)
        for (int flag = 0; flag < FLAGS; flag++)
            set |= (*flags == LETTERS[flag]) << flag;
    return descriptors[set];
}
