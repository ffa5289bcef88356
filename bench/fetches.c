/* Loads a day file once: fetches FILE WORDS. First it prints where the file stands and its length. */
#include "daybook.h"
#include <stdio.h>
#include <stdlib.h>

static uint8_t file[26628];
static uint32_t book[1 << 15];

int main(int argc, char **argv) {
    FILE *in = argc == 3 ? fopen(argv[1], "rb") : NULL;
    if (!in) return 1;
    size_t length = fread(file, 1, sizeof file, in);
    fclose(in);
    printf("%llu %zu\n", (unsigned long long)(uintptr_t)file, length);
    fflush(stdout);
    uint32_t cell = 0;
    return daybook_load(file, length, book, strtoul(argv[2], NULL, 10), &cell) == 0 ? 0 : 1;
}
