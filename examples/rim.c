/* Reads a day file of triangles and prints its rim: a line for each edge that lies in one cell only, with the edge's number and its
 * two vertices, as `mesh.py draw --rim` takes them.
 *
 *     rim FILE.day > FILE.rim
 *
 * On standard error it says how long the rim is and of how many pieces, or why the mesh is no sheet.
 * Built with place.h beside it and the two files that ./library leaves in a folder:
 *
 *     cc -std=c99 -I FOLDER rim.c FOLDER/libdaybook.a -o rim
 */
#include "daybook.h"
#include "place.h"
#include <stdio.h>
#include <stdlib.h>

/* The file, and what daybook_sheet writes: the rim, the cells across, which are not wanted here, and the old numbers of the rim's vertices and edges. */
static uint8_t file[32768], rim[DAYBOOK_RIM_BYTES];
static uint32_t across[3 * 4096], old_vertices[DAYBOOK_RIM_VERTICES], old_edges[DAYBOOK_RIM_EDGES];

/* The rim is a day file too. This is its book, with the vertices of each edge and the edges at each vertex; in a book that these calls
 * alone have written a rim has no more vertices than edges. */
static uint32_t rim_book[5 + 2 * (3 * DAYBOOK_RIM_EDGES + 1)];
static const size_t rim_words = sizeof rim_book / sizeof *rim_book;

/* Says the number of a refusal, and ends. */
static void stop(uint32_t number) {
    fprintf(stderr, "refused %u\n", (unsigned)number);
    exit(1);
}

/* A row of the rim's book: where it stands, and how long it is. */
static const uint32_t *row(uint32_t d, uint32_t e, uint32_t i, size_t *count) {
    size_t start = 0, position;
    uint32_t key, number = daybook_row(rim_book, rim_words, d, e, i, &start, count, &key, &position);
    if (number) stop(number);
    return rim_book + start;
}

/* The number of the rim's pieces: from each edge that has not been met, all that hang together with it are. */
static uint32_t count_pieces(uint32_t edges) {
    static unsigned char met[DAYBOOK_RIM_EDGES];
    static uint32_t queue[DAYBOOK_RIM_EDGES];
    uint32_t pieces = 0;
    for (uint32_t first = 0; first < edges; first++) {
        uint32_t next = 0, last = 0;
        if (met[first]) continue;
        met[first] = 1, queue[last++] = first, pieces++;
        while (next < last) {
            size_t ends, count;
            const uint32_t *end = row(1, 0, queue[next++], &ends);
            for (size_t k = 0; k < ends; k++) {
                const uint32_t *beside = row(0, 1, end[k], &count);
                for (size_t m = 0; m < count; m++)
                    if (!met[beside[m]]) met[beside[m]] = 1, queue[last++] = beside[m];
            }
        }
    }
    return pieces;
}

int main(int count, char **names) {
    FILE *in = count == 2 ? fopen(names[1], "rb") : NULL;
    if (!in) {
        fprintf(stderr, "rim FILE: a day file of triangles\n");
        return 2;
    }
    size_t size = fread(file, 1, sizeof file, in), rim_length = 0, vertices = 0, edges = 0, position;
    fclose(in);

    /* A book for a sheet of the file's size, in which there is room for what daybook_sheet needs of any mesh: 1 -> 2, 2 -> 1 and 1 -> 0, which one ask makes. */
    uint32_t head = (uint32_t)file[0] << 24 | (uint32_t)file[1] << 16 | (uint32_t)file[2] << 8 | file[3], cells = head >> 3 & 0x1FFF;
    size_t words = DAYBOOK_WORDS_SHEET(2, head >> 16 & 0x3FFF, cells);
    uint32_t *book = malloc(words * sizeof *book), cell, key, why = 0, which = 0;
    if (!book) return 2;
    uint32_t number = daybook_load(file, size, book, words, &cell);
    if (!number && head >> 30 == 2) number = daybook_ask(book, words, 1, 2, &key, &position);
    if (!number)
        number = daybook_sheet(book, words, across, 3 * (size_t)cells, rim, sizeof rim, old_vertices, DAYBOOK_RIM_VERTICES, old_edges, DAYBOOK_RIM_EDGES, &rim_length,
                               &vertices, &edges, &why, &which, &key, &position);
    if (number == DAYBOOK_NOT_SHEET) {
        fprintf(stderr, "no sheet: ");
        print_why(stderr, why, which);
        fprintf(stderr, "\n");
        return 1;
    }
    if (!number) number = daybook_load(rim, rim_length, rim_book, rim_words, &cell);
    if (!number) number = daybook_ask(rim_book, rim_words, 0, 1, &key, &position);
    if (number) stop(number);

    for (uint32_t i = 0; i < edges; i++) {
        size_t ends;
        const uint32_t *end = row(1, 0, i, &ends);
        printf("%u %u %u\n", (unsigned)old_edges[i], (unsigned)old_vertices[end[0]], (unsigned)old_vertices[end[1]]);
    }
    fprintf(stderr, "a sheet, edges at the rim: %u, vertices: %u, pieces: %u\n", (unsigned)edges, (unsigned)vertices, (unsigned)count_pieces((uint32_t)edges));
    free(book);
    return 0;
}
