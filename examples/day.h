/* A day file that is read, a book that is filled from it, and a row of that book: what accept.c and samecells.c both begin with. */
#ifndef DAY_H
#define DAY_H

#include "daybook.h"
#include "place.h"
#include <stdarg.h>
#include <stdio.h>
#include <stdlib.h>

/* A day file: its name and its bytes. A file that is longer than any day file is cut, and refused all the same. */
struct day {
    const char *name;
    uint8_t bytes[32768];
    size_t size;
};

/* A book, how many words of it are lent, and the file that it is filled from, with D and N_0 to N_D. */
struct book {
    uint32_t *words;
    size_t length;
    const struct day *day;
    uint32_t top, counts[4];
};

/* A row of one of a book's relations. */
struct row {
    const uint32_t *at;
    size_t count;
};

/* Says what there is no room for, and ends. */
static inline void stop(const char *what) {
    fprintf(stderr, "%s does not fit in memory\n", what);
    exit(2);
}

/* Says what the library has got wrong, and ends. */
static inline void wrong(const char *what, ...) {
    va_list more;
    va_start(more, what);
    printf("WRONG: ");
    vprintf(what, more);
    printf("\n");
    va_end(more);
    exit(1);
}

/* Reads a file, or says that it cannot be opened or read; 1 where it is read. */
static inline int read_day(struct day *day, const char *name) {
    FILE *in = fopen(name, "rb");
    if (!in) {
        fprintf(stderr, "%s cannot be opened\n", name);
        return 0;
    }
    day->name = name;
    day->size = fread(day->bytes, 1, sizeof day->bytes, in);
    int is_read = !ferror(in);
    fclose(in);
    if (!is_read) fprintf(stderr, "%s cannot be read\n", name);
    return is_read;
}

/* Takes D, N_0 and N_D from the file's head, whatever they are. */
static inline void take_head(struct book *b, const struct day *day) {
    const uint8_t *at = day->bytes;
    uint32_t head = (uint32_t)at[0] << 24 | (uint32_t)at[1] << 16 | (uint32_t)at[2] << 8 | at[3];
    b->day = day;
    b->top = head >> 30;
    b->counts[0] = head >> 16 & 0x3FFF;
    b->counts[b->top] = head >> 3 & 0x1FFF;
}

/* Loads the file into a new book of so many words; *cell is as for daybook_load. */
static inline uint32_t load(struct book *b, uint64_t length, uint32_t *cell) {
    free(b->words);
    b->length = (size_t)length;
    b->words = length <= SIZE_MAX / sizeof *b->words ? malloc(b->length * sizeof *b->words) : NULL;
    if (!b->words) stop("the book");
    return daybook_load(b->day->bytes, b->day->size, b->words, b->length, cell);
}

/* Loads the file into a book that holds D -> 0 alone, and has no word free. */
static inline uint32_t fill_bare(struct book *b, const struct day *day, uint32_t *cell) {
    take_head(b, day);
    return load(b, 6 + (uint64_t)b->counts[b->top] * (b->top + 2), cell);
}

/* Asks for every relation of a loaded book by one list, or for those to 0 alone, the vertices of each edge, face and cell. */
static inline uint32_t ask_list(struct book *b, int is_all) {
    uint32_t pairs[2 * DAYBOOK_MOST_PAIRS], answers[DAYBOOK_MOST_PAIRS], count = 0;
    for (uint32_t d = is_all ? 0 : 1; d <= b->top; d++)
        for (uint32_t e = 0; e <= (is_all ? b->top : 0); e++) pairs[2 * count] = d, pairs[2 * count + 1] = e, count++;
    uint32_t number = daybook_ask_list(b->words, b->length, pairs, 2 * (size_t)count, answers, count);
    for (uint32_t k = 0; k < count && !number; k++) number = answers[k];
    return number;
}

/* Loads the file and asks: the book begins as large as a sheet of the file's size needs, and gets twice as many words as long as that is
 * too small. Of what it then lends nothing is free. */
static inline uint32_t fill(struct book *b, const struct day *day, int is_all, uint32_t *cell) {
    uint32_t number = DAYBOOK_NO_ROOM;
    take_head(b, day);
    for (uint64_t words = DAYBOOK_WORDS_SHEET(b->top, b->counts[0], b->counts[b->top]); number == DAYBOOK_NO_ROOM; words *= 2) {
        number = load(b, words, cell);
        if (!number) number = ask_list(b, is_all);
    }
    if (number) return number;
    if (b->words[4] > b->length) wrong("%s: more words are used than are lent", day->name);
    b->length = b->words[4];
    for (uint32_t d = 1; d < b->top; d++) b->counts[d] = b->words[1 + d];
    return 0;
}

/* Row i of d -> e. Where it is refused, or breaks the row rule, that is said, and the program ends. */
static inline struct row row(const struct book *b, uint32_t d, uint32_t e, uint32_t i) {
    size_t start = 0, count = 0, position = 0;
    uint32_t key = 0, number = daybook_row(b->words, b->length, d, e, i, &start, &count, &key, &position);
    struct row r;
    if (number) {
        printf("%s: ", b->day->name);
        print_refusal(number, b->words, key, position);
        exit(1);
    }
    int is_right = start <= b->length && count <= b->length - start && (e > 0 || d == 0 || count == d + 1);
    for (size_t k = start; is_right && k < start + count; k++)
        is_right = b->words[k] < b->counts[e] && (k == start || b->words[k - 1] < b->words[k]);
    if (!is_right) wrong("%s: row %u of %u→%u breaks the row rule", b->day->name, (unsigned)i, (unsigned)d, (unsigned)e);
    r.at = b->words + start;
    r.count = count;
    return r;
}

#endif
