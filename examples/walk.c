/* Walks a day file of triangles from cell to cell over shared edges, as a phase unwrapper does, and prints what it meets.
 *
 *     walk FILE
 *
 * Where the mesh is a sheet whose rim is not too long it steps to the cell across each edge; elsewhere it looks through the cells at
 * the edge. A sheet gives the same steps either way.
 *
 * Built with place.h beside it and the two files that ./library leaves in a folder:
 *
 *     cc -std=c99 -I FOLDER walk.c FOLDER/libdaybook.a -o walk
 */
#include "daybook.h"
#include "place.h"
#include <stdio.h>
#include <stdlib.h>

static uint8_t file[32768];
static uint32_t *book;
static size_t words;

/* A row of one of the book's relations. */
struct row {
    const uint32_t *at;
    size_t count;
};

static struct row row(uint32_t d, uint32_t e, uint32_t i) {
    size_t start = 0, count = 0, position = 0;
    uint32_t key = 0, number = daybook_row(book, words, d, e, i, &start, &count, &key, &position);
    struct row r;
    if (number) {
        print_refusal(number, book, key, position);
        exit(1);
    }
    r.at = book + start;
    r.count = count;
    return r;
}

/* The words that the book used before the walk gave back room. */
static uint32_t used;

/* Loads the file and asks for what the walk needs by one list: the edges of a cell, the cells at an edge, and the cells around a cell.
 * The edges and the cells at a vertex, 0 -> 1 and 0 -> 2, only served to make these, and are dropped. */
static uint32_t prepare(size_t size) {
    static const uint32_t pairs[] = {2, 1, 1, 2, 2, 2};
    uint32_t answers[3] = {0, 0, 0}, cell, key, number = daybook_load(file, size, book, words, &cell);
    size_t position;
    if (!number) number = daybook_ask_list(book, words, pairs, 6, answers, 3);
    for (int k = 0; k < 3 && !number; k++) number = answers[k];
    if (!number) used = book[4];
    for (uint32_t e = 1; e < 3 && !number; e++) number = daybook_drop(book, words, 0, e, &key, &position);
    return number;
}

/* For a sheet, the cell across each edge of each cell, three numbers a cell. */
static uint32_t *across;

/* Says whether the mesh is a sheet, or why it is none; where it is one and its rim is not too long, fills across and gives 1. */
static int lay_out(uint32_t cells) {
    static uint8_t rim[DAYBOOK_RIM_BYTES];
    static uint32_t rim_vertices[DAYBOOK_RIM_VERTICES], rim_edges[DAYBOOK_RIM_EDGES];
    size_t rim_length = 0, vertices = 0, edges = 0, position = 0;
    uint32_t why = 0, which = 0, key = 0;
    uint32_t number = daybook_sheet(book, words, across, 3 * (size_t)cells, rim, sizeof rim, rim_vertices, DAYBOOK_RIM_VERTICES, rim_edges, DAYBOOK_RIM_EDGES,
                                    &rim_length, &vertices, &edges, &why, &which, &key, &position);
    if (number && number != DAYBOOK_NOT_SHEET && number != DAYBOOK_LONG_RIM) {
        print_refusal(number, book, key, position);
        exit(1);
    }
    if (!number) {
        printf("a sheet, edges at the rim: %u\n", (unsigned)edges);
    } else if (number == DAYBOOK_LONG_RIM) {
        printf("a sheet, edges at the rim: over %u\n", (unsigned)DAYBOOK_RIM_EDGES);
    } else {
        printf("no sheet: ");
        print_why(stdout, why, which);
        printf("\n");
    }
    return !number;
}

/* The cells to step to over edge k of a cell: by across the one there, if there is one, else all at that edge. */
static struct row beyond(int by_across, uint32_t cell, uint32_t edge, size_t k) {
    struct row one;
    if (!by_across) return row(1, 2, edge);
    one.at = across + 3 * (size_t)cell + k;
    one.count = *one.at != DAYBOOK_NONE_ACROSS;
    return one;
}

/* Walks the piece that the cell belongs to, and marks its cells. */
static void walk(int by_across, uint32_t first, unsigned char *seen, uint32_t *queue) {
    uint32_t next = 0, last = 0;
    printf("cell %u: a piece begins here\n", (unsigned)first);
    seen[first] = 1;
    queue[last++] = first;
    while (next < last) {
        uint32_t from = queue[next++];
        struct row edges = row(2, 1, from);
        for (size_t k = 0; k < edges.count; k++) {
            uint32_t edge = edges.at[k];
            struct row ends = row(1, 0, edge), beside = beyond(by_across, from, edge, k);
            for (size_t m = 0; m < beside.count; m++) {
                uint32_t to = beside.at[m];
                if (seen[to]) continue;
                seen[to] = 1;
                queue[last++] = to;
                printf("cell %u from cell %u over edge %u, from vertex %u to vertex %u\n", (unsigned)to, (unsigned)from, (unsigned)edge,
                       (unsigned)ends.at[0], (unsigned)ends.at[1]);
            }
        }
    }
}

int main(int count, char **names) {
    FILE *in = count == 2 ? fopen(names[1], "rb") : NULL;
    if (!in) {
        fprintf(stderr, "walk FILE: a day file of triangles\n");
        return 2;
    }
    size_t size = fread(file, 1, sizeof file, in);
    fclose(in);

    /* A book for a sheet of the file's size, and twice as large a one as long as it is too small for this mesh. */
    uint32_t head = (uint32_t)file[0] << 24 | (uint32_t)file[1] << 16 | (uint32_t)file[2] << 8 | file[3];
    uint32_t cells = head >> 3 & 0x1FFF, number = DAYBOOK_NO_ROOM;
    for (words = DAYBOOK_WORDS_SHEET(2, head >> 16 & 0x3FFF, cells); number == DAYBOOK_NO_ROOM; words *= 2) {
        free(book);
        book = malloc(words * sizeof *book);
        if (!book) return 2;
        number = prepare(size);
        if (number != DAYBOOK_NO_ROOM) break;
    }
    if (number == DAYBOOK_DIMENSION_OVER || (!number && book[0] >> 30 != 2)) {
        printf("no triangles: D is %u\n", (unsigned)(head >> 30));
        return 1;
    }
    if (number) {
        printf("refused %u\n", (unsigned)number);
        return 1;
    }

    unsigned char *seen = calloc(cells + 1, 1);
    uint32_t *queue = calloc(cells + 1, sizeof *queue), pieces = 0, border = 0, most = 0;
    across = calloc(3 * (size_t)cells + 1, sizeof *across);
    if (!seen || !queue || !across) return 2;
    int by_across = lay_out(cells);
    for (uint32_t cell = 0; cell < cells; cell++)
        if (!seen[cell]) pieces++, walk(by_across, cell, seen, queue);
    for (uint32_t edge = 0; edge < book[2]; edge++)
        if (row(1, 2, edge).count == 1) border++;
    for (uint32_t cell = 0; cell < cells; cell++)
        if (row(2, 2, cell).count > most) most = (uint32_t)row(2, 2, cell).count;
    printf("cells: %u, pieces: %u, edges: %u, at the border: %u, most cells around one: %u\n", (unsigned)cells, (unsigned)pieces, (unsigned)book[2],
           (unsigned)border, (unsigned)most);
    printf("words: %u, of which %u were given back\n", (unsigned)used, (unsigned)(used - book[4]));
    free(across);
    free(queue);
    free(seen);
    free(book);
    return 0;
}
