// Does scripts of `matrix`, `set`, `build .. PLUS.INT64`, `clear` and `nvals` on one matrix, as a C programmer writes
// it for these alone: digits by hand, the entries in one list that is sorted when they are counted. `main SCRIPT`
// writes the answers.
#include <stdint.h>
#include <stdio.h>
#include <stdlib.h>
#include <string.h>

typedef uint64_t u64;
typedef struct { u64 row, col, word; } entry;

static entry *list, *room;
static size_t count, space;

static void push(entry e)
{
    if (count == space) {
        space = space ? 2 * space : 1024;
        list = realloc(list, space * sizeof(entry));
        room = realloc(room, space * sizeof(entry));
        if (!list || !room)
            exit(1);
    }
    list[count++] = e;
}

static int is_behind(const entry *a, const entry *b)
{
    return a->row != b->row ? a->row > b->row : a->col > b->col;
}

// A stable sort, from runs of one entry up; then the words of one position are summed, or the last one stands.
static void gather(int sums)
{
    for (size_t width = 1; width < count; width *= 2) {
        for (size_t start = 0; start < count; start += 2 * width) {
            size_t i = start, middle = start + width < count ? start + width : count, j = middle;
            size_t end = start + 2 * width < count ? start + 2 * width : count;
            for (size_t k = start; k < end; k++)
                room[k] = j >= end || (i < middle && !is_behind(&list[i], &list[j])) ? list[i++] : list[j++];
        }
        entry *sorted = room;
        room = list;
        list = sorted;
    }
    size_t kept = 0;
    for (size_t k = 0; k < count; k++) {
        if (kept && list[kept - 1].row == list[k].row && list[kept - 1].col == list[k].col)
            list[kept - 1].word = sums ? list[kept - 1].word + list[k].word : list[k].word;
        else
            list[kept++] = list[k];
    }
    count = kept;
}

static u64 number(char **at)
{
    u64 value = 0;
    while (**at == ' ' || **at == ',')
        ++*at;
    while (**at >= '0' && **at <= '9')
        value = value * 10 + (u64)(*(*at)++ - '0');
    return value;
}

static char *read_all(const char *path, size_t *size)
{
    FILE *file = fopen(path, "rb");
    if (!file || fseek(file, 0, SEEK_END))
        exit(1);
    *size = (size_t)ftell(file);
    rewind(file);
    char *text = malloc(*size + 1);
    if (!text || fread(text, 1, *size, file) != *size)
        exit(1);
    text[*size] = 0;
    fclose(file);
    return text;
}

int main(int arguments, char **names)
{
    size_t size;
    if (arguments < 2)
        return 1;
    char *text = read_all(names[1], &size), *end = text + size;
    u64 answer = 0;
    for (char *line = text; line < end;) {
        char *stop = memchr(line, '\n', (size_t)(end - line)), *at = line;
        int is_set = !strncmp(line, "set m ", 6), is_build = !strncmp(line, "build m PLUS.INT64 ", 19);
        int is_count = !strncmp(line, "nvals m", 7);
        if (is_set) {
            at += 6;
            u64 row = number(&at), col = number(&at), word = number(&at);
            push((entry){row, col, word});
        } else if (is_build) {
            at += 19;
            while (at < stop) {
                u64 row = number(&at), col = number(&at), word = number(&at);
                push((entry){row, col, word});
            }
            gather(1);
        } else if (!strncmp(line, "clear m", 7)) {
            count = 0;
        }
        printf("%llu OK\n", (unsigned long long)++answer);
        if (is_count) {
            gather(0);
            printf("%zu\n", count);
        }
        line = stop + 1;
    }
    return 0;
}
