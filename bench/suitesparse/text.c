// Files as a whole, words of lines, and the answers, which are kept until the end.
#include <stdio.h>
#include <stdlib.h>
#include <string.h>

#include "runner.h"

static char *answers;
static size_t length, room;

// A file's bytes, and a zero behind them.
char *whole_file(const char *name)
{
    FILE *file = fopen(name, "rb");
    if (!file)
        fail("cannot read", name);
    fseek(file, 0, SEEK_END);
    size_t size = (size_t)ftell(file);
    rewind(file);
    char *bytes = new_memory(size, 1);
    if (fread(bytes, 1, size, file) != size)
        fail("cannot read", name);
    fclose(file);
    bytes[size] = 0;
    return bytes;
}

// The next word behind `*at`, ended by a zero; an empty one at the end of the line.
char *next_word(char **at)
{
    char *start = *at;
    while (*start == ' ')
        start++;
    char *end = start;
    while (*end > ' ')
        end++;
    *at = *end ? end + 1 : end;
    *end = 0;
    return start;
}

static uint64_t read_digits(char **at)
{
    uint64_t number = 0;
    char *p = *at;
    for (; *p >= '0' && *p <= '9'; p++)
        number = number * 10 + (uint64_t)(*p - '0');
    *at = p;
    return number;
}

// The next number, which may have a sign, behind a space or a comma. Its 64 bits stand for both INT64 and UINT64.
int64_t next_number(char **at)
{
    *at += **at == ' ' || **at == ',';
    bool negative = **at == '-';
    *at += negative;
    uint64_t number = read_digits(at);
    return (int64_t)(negative ? -number : number);
}

// So many bytes behind the answers, whose used end `end_answer` is told.
char *reserve_answer(size_t bytes)
{
    if (length + bytes > room) {
        room = 2 * room + bytes;
        answers = realloc(answers, room);
        if (!answers)
            fail("no memory for", "answers");
    }
    return answers + length;
}

void end_answer(char *end)
{
    length = (size_t)(end - answers);
}

void append_text(const char *text)
{
    size_t bytes = strlen(text);
    end_answer((char *)memcpy(reserve_answer(bytes), text, bytes) + bytes);
}

// Writes a number and a byte behind it, and gives the end.
char *put_number(char *to, uint64_t number, char behind)
{
    char digits[20];
    int count = 0;
    do {
        digits[count++] = (char)('0' + number % 10);
        number /= 10;
    } while (number);
    while (count)
        *to++ = digits[--count];
    *to++ = behind;
    return to;
}

void append_number(uint64_t number, char behind)
{
    end_answer(put_number(reserve_answer(32), number, behind));
}

void append_value(int64_t value, Domain domain)
{
    bool negative = domain == INT64 && value < 0;
    if (negative)
        append_text("-");
    append_number(negative ? -(uint64_t)value : (uint64_t)value, '\n');
}

void answer_instead_of_ok(const char *status)
{
    length -= strlen("OK\n");
    append_text(status);
}

void write_answers(void)
{
    if (fwrite(answers, 1, length, stdout) != length || fflush(stdout))
        fail("cannot write", "output");
}
