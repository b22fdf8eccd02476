// Runs a script by SuiteSparse:GraphBLAS and prints the same answers as gbrun: `main SCRIPT`, or `main --version`.
//
// It supports just the calls, operators and domains that the problems of bench/beside use, and trusts its script:
// a wrong one ends the program, or worse. Objects are made with GrB_init(GrB_NONBLOCKING), so SuiteSparse may put
// work off until an answer needs it. Operators and semirings are the built-in ones, which have their own kernels.
#include <stdio.h>
#include <string.h>

#include "runner.h"

enum { CALLS = 256 };

static void run(char *at)
{
    Dictionary calls = new_dictionary(CALLS);
    list_calls(&calls);
    list_operations(&calls);
    for (uint64_t line = 1; *at; line++) {
        char *end = strchr(at, '\n');
        *end = 0;
        if (*at && *at != '#') {
            append_number(line, ' ');
            append_text("OK\n");
            Call *call = *(Call *const *)meaning_of(&calls, next_word(&at));
            call(at);
        }
        at = end + 1;
    }
}

int main(int count, char **words)
{
    if (count != 2)
        fail("takes one word:", "SCRIPT or --version");
    if (strcmp(words[1], "--version") == 0) {
        printf("%s %d.%d.%d\n", GxB_IMPLEMENTATION_NAME, GxB_IMPLEMENTATION_MAJOR, GxB_IMPLEMENTATION_MINOR,
               GxB_IMPLEMENTATION_SUB);
        return 0;
    }
    char *script = whole_file(words[1]);
    must(GrB_init(GrB_NONBLOCKING));
    list_operators();
    list_objects();
    run(script);
    write_answers();
    must(GrB_finalize());
    return 0;
}
