/* Reads a day file and its vertices' phases, and prints the faces around which the phase does not close, an unwrapper's residues.
 *
 *     residues FILE.day FILE.counts
 *
 * FILE.counts has a whole number on a line for each vertex: 65,536ths of a turn, or 65536 where the vertex is masked.
 * Built with place.h beside it and the two files that ./library leaves in a folder:
 *
 *     cc -std=c99 -I FOLDER residues.c FOLDER/libdaybook.a -o residues
 */
#include "daybook.h"
#include "place.h"
#include <ctype.h>
#include <stdio.h>
#include <stdlib.h>
#include <string.h>

static uint8_t file[32768];
static int32_t counts[8193];
static uint32_t *book;
static size_t words;

/* Reads a line that is one whole number; what passes the bounds of the number's type becomes its bound, which is no count either. */
static int read_count(const char *line, int32_t *number) {
    char *end;
    long long read = strtoll(line, &end, 10);
    *number = read < INT32_MIN ? INT32_MIN : read > INT32_MAX ? INT32_MAX : (int32_t)read;
    if (end == line) return 0;
    while (isspace((unsigned char)*end)) end++;
    return *end == 0;
}

/* Reads the counts, at most one more than a mesh can have vertices, and says whether every line is a number. */
static int read_counts(FILE *in, size_t *given) {
    char line[80];
    for (*given = 0; *given < sizeof counts / sizeof *counts && fgets(line, sizeof line, in); ++*given)
        if ((!strchr(line, '\n') && !feof(in)) || !read_count(line, &counts[*given])) return 0;
    return 1;
}

/* Loads the file and asks for what the closures need by one list: the vertices of an edge and those of a face. */
static uint32_t prepare(size_t size) {
    static const uint32_t pairs[] = {1, 0, 2, 0};
    uint32_t answers[2] = {0, 0}, cell, number = daybook_load(file, size, book, words, &cell);
    if (!number) number = daybook_ask_list(book, words, pairs, 4, answers, 2);
    for (int k = 0; k < 2 && !number; k++) number = answers[k];
    return number;
}

/* Prints a face with its closure and its vertices. */
static void print_face(uint32_t face, int closure) {
    size_t start = 0, count = 0, position = 0;
    uint32_t key = 0, number = daybook_row(book, words, 2, 0, face, &start, &count, &key, &position);
    if (number) {
        print_refusal(number, book, key, position);
        exit(1);
    }
    printf("face %u: %+d, vertices %u, %u and %u\n", (unsigned)face, closure, (unsigned)book[start], (unsigned)book[start + 1],
           (unsigned)book[start + 2]);
}

/* Prints the faces whose closure is -1 or +1, and then how many there are of each, or why the call was refused. */
static uint32_t print_closures(size_t given, uint32_t edges, uint32_t faces) {
    int32_t *closures = calloc(faces + 1, sizeof *closures);
    double *steps = calloc(edges + 1, sizeof *steps);
    uint8_t *masked = calloc(edges + 1, 1);
    if (!closures || !steps || !masked) exit(2);
    uint32_t of[4] = {0, 0, 0, 0}, apart = 0, key = 0;
    size_t position = 0;
    uint32_t number = daybook_closures(book, words, counts, given, closures, faces, steps, edges, masked, edges, &key, &position);
    if (number) {
        print_refusal(number, book, key, position);
    } else {
        for (uint32_t face = 0; face < faces; face++) {
            of[closures[face] + 1]++;
            if (closures[face] == -1 || closures[face] == 1) print_face(face, (int)closures[face]);
        }
        for (uint32_t edge = 0; edge < edges; edge++) apart += masked[edge];
        printf("faces: %u, closures -1: %u, 0: %u, +1: %u, masked: %u; edges: %u, masked: %u\n", (unsigned)faces, (unsigned)of[0], (unsigned)of[1],
               (unsigned)of[2], (unsigned)of[3], (unsigned)edges, (unsigned)apart);
    }
    free(masked);
    free(steps);
    free(closures);
    return number;
}

int main(int count, char **names) {
    FILE *in = count == 3 ? fopen(names[1], "rb") : NULL, *phases = count == 3 ? fopen(names[2], "r") : NULL;
    if (!in || !phases) {
        fprintf(stderr, "residues FILE.day FILE.counts: a day file of triangles or tetrahedra, and its vertices' phases\n");
        return 2;
    }
    size_t size = fread(file, 1, sizeof file, in), given;
    int numbers = read_counts(phases, &given);
    fclose(in);
    fclose(phases);

    /* A book for a sheet of the file's size, in which there is room for these two relations of any mesh. */
    uint32_t head = (uint32_t)file[0] << 24 | (uint32_t)file[1] << 16 | (uint32_t)file[2] << 8 | file[3];
    uint32_t D = head >> 30, cells = head >> 3 & 0x1FFF;
    words = DAYBOOK_WORDS_SHEET(D, head >> 16 & 0x3FFF, cells);
    book = malloc(words * sizeof *book);
    if (!book) return 2;
    uint32_t number = prepare(size);
    if (number == DAYBOOK_DIMENSION_OVER) {
        printf("no faces: D is %u\n", (unsigned)D);
        return 1;
    }
    if (number) {
        printf("refused %u\n", (unsigned)number);
        return 1;
    }
    if (!numbers) {
        printf("line %u of the phases is not a whole number\n", (unsigned)given + 1);
        return 1;
    }
    number = print_closures(given, book[2], D == 2 ? cells : book[3]);
    free(book);
    return number ? 1 : 0;
}
