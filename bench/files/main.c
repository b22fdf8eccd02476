// Reads a Matrix Market file of integers, by a loop over its bytes or by fscanf, and prints the number of its
// entries, or the whole of it.
#include <stdint.h>
#include <stdio.h>
#include <stdlib.h>
#include <string.h>

typedef struct {
    uint64_t row, col;
    int64_t value;
} Entry;

static uint64_t number(const char **at) {
    const char *p = *at;
    while (*p < '0') p++;
    uint64_t n = 0;
    while (*p >= '0') n = n * 10 + (uint64_t)(*p++ - '0');
    *at = p;
    return n;
}

// No checks: a banner, a size line, and as many entries as that says.
static Entry *by_loop(const char *path, uint64_t *rows, uint64_t *cols, uint64_t *count) {
    FILE *file = fopen(path, "rb");
    fseek(file, 0, SEEK_END);
    size_t size = (size_t)ftell(file);
    rewind(file);
    char *bytes = malloc(size + 1);
    if (fread(bytes, 1, size, file) != size) exit(1);
    fclose(file);
    bytes[size] = 0;
    const char *at = strchr(bytes, '\n') + 1;
    *rows = number(&at);
    *cols = number(&at);
    *count = number(&at);
    Entry *entries = malloc(*count * sizeof(Entry));
    for (uint64_t k = 0; k < *count; k++) {
        entries[k].row = number(&at) - 1;
        entries[k].col = number(&at) - 1;
        entries[k].value = (int64_t)number(&at);
    }
    free(bytes);
    return entries;
}

static Entry *by_fscanf(const char *path, uint64_t *rows, uint64_t *cols, uint64_t *count) {
    FILE *file = fopen(path, "rb");
    char banner[1024];
    if (!fgets(banner, sizeof banner, file)) exit(1);
    if (fscanf(file, "%lu %lu %lu", rows, cols, count) != 3) exit(1);
    Entry *entries = malloc(*count * sizeof(Entry));
    for (uint64_t k = 0; k < *count; k++) {
        if (fscanf(file, "%lu %lu %ld", &entries[k].row, &entries[k].col, &entries[k].value) != 3) exit(1);
        entries[k].row--;
        entries[k].col--;
    }
    fclose(file);
    return entries;
}

static char *put(char *at, uint64_t n) {
    char digits[20];
    int length = 0;
    do {
        digits[length++] = (char)('0' + n % 10);
        n /= 10;
    } while (n);
    while (length) *at++ = digits[--length];
    return at;
}

static void print(const Entry *entries, uint64_t rows, uint64_t cols, uint64_t count) {
    char *text = malloc(128 + count * 63);
    char *at = text + sprintf(text, "2 OK\n%%%%MatrixMarket matrix coordinate integer general\n%lu %lu %lu\n", rows,
        cols, count);
    for (uint64_t k = 0; k < count; k++) {
        at = put(at, entries[k].row + 1);
        *at++ = ' ';
        at = put(at, entries[k].col + 1);
        *at++ = ' ';
        at = put(at, (uint64_t)entries[k].value);
        *at++ = '\n';
    }
    fwrite(text, 1, (size_t)(at - text), stdout);
}

int main(int argc, char **argv) {
    if (argc < 3) return 0;
    uint64_t rows, cols, count;
    Entry *entries = (strcmp(argv[1], "fscanf") ? by_loop : by_fscanf)(argv[2], &rows, &cols, &count);
    printf("1 OK\n");
    if (strcmp(argv[1], "print")) {
        printf("2 OK\n%lu\n", count);
    } else {
        print(entries, rows, cols, count);
    }
    return 0;
}
