/* What a call gives with refusals 11 and 28, in words; the header of daybook says how the two numbers of each are read. */
#ifndef PLACE_H
#define PLACE_H

#include "daybook.h"
#include <stdio.h>

/* Prints where the book is broken, such as "relation 1→2, offset 7", "relation 1→2, index 12" or "free word 3". */
static inline void print_place(const uint32_t *book, uint32_t key, size_t position) {
    uint32_t d = key / 4, e = key % 4;
    if (key == DAYBOOK_FREE_WORDS) {
        printf("free word %lu", (unsigned long)position);
        return;
    }
    size_t last = d == 0 ? book[0] >> 16 & 0x3FFF : d == book[0] >> 30 ? book[0] >> 3 & 0x1FFF : book[1 + d];
    printf("relation %u→%u, ", (unsigned)d, (unsigned)e);
    if (position <= last)
        printf("offset %lu", (unsigned long)position);
    else
        printf("index %lu", (unsigned long)(position - last - 1));
}

/* Prints why a book is no sheet, such as "D is not 2" or "vertex 4 lies in no cell". */
static inline void print_why(FILE *out, uint32_t why, uint32_t which) {
    if (why == DAYBOOK_WHY_DIMENSION)
        fprintf(out, "D is not 2");
    else if (why == DAYBOOK_WHY_VERTEX)
        fprintf(out, "vertex %u lies in no cell", (unsigned)which);
    else if (why == DAYBOOK_WHY_EDGE)
        fprintf(out, "edge %u does not lie in one cell or two", (unsigned)which);
    else
        fprintf(out, "cell %u has not three edges that list it", (unsigned)which);
}

/* Prints a refusal, with 11 of its place, as a line. */
static inline void print_refusal(uint32_t number, const uint32_t *book, uint32_t key, size_t position) {
    printf("refused %u", (unsigned)number);
    if (number == DAYBOOK_ROWS_BROKEN) {
        printf(", ");
        print_place(book, key, position);
    }
    printf("\n");
}

#endif
