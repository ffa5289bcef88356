/*
 * daybook: a day's mesh of triangles or tetrahedra, who touches whom in it, how phase closes around its faces, the
 * upright box around any part of it, and the rim of a sheet; a plain engine that answers from the cells alone, to hold
 * the others to; and what can be saved of a day file that was cut short or damaged.
 *
 * A mesh has a dimension D (1, 2 or 3), N_0 vertices (at most 8,192) and N_D cells
 * (at most 4,096): intervals, triangles or tetrahedra, no two with the same vertices. An entity is a
 * pair (d, i): d = 0 is a vertex, d = D a cell, d = 1 an edge, d = 2 a face; i counts within its own
 * dimension. The relation d -> e lists, for each entity (d, i), the entities of dimension e that touch it.
 *
 * Vertices have the file's numbers. Cells, and with them edges and faces, are numbered in the order in which the file has the
 * cells. So two files with the same cells in another order have the same entities, touching each other alike, but with other
 * numbers: compare two files by vertices, not by the numbers of edges, faces and cells. What is listed by these numbers, as
 * closures and steps are, is then in another order too.
 *
 * THE BOOK is an array of 32-bit words that you lend to each call but daybook_salvage. It holds one mesh and the
 * relations made so far:
 *
 *   word 0      the day file's first 32 bits: D (2 bits), N_0 (14), N_D (13), 3 zero bits
 *   word 1      the sum of 2^(4d+e) over the relations d -> e that are held
 *   words 2, 3  N_1 and N_2, each kept while d < D and some relation held names d, as its first or its second, else 0
 *   word 4      the used length in words
 *   words 5..   the relations held, by ascending 4d+e, each N_d + 1 offsets and then its indices
 *
 * Row i of a relation runs from offset i up to, but without, offset i + 1, and ascends strictly; no two
 * rows of D -> 0 are equal. All words from the used length on are 0.
 *
 * HOW MANY WORDS. A loaded mesh takes 6 + N_D + N_D (D + 1) words. Each relation more takes
 * N_d + 1 words and one for each index. DAYBOOK_WORDS_SHEET(D, N_0, N_D) words are enough for all
 * relations of a sheet-like mesh, DAYBOOK_WORDS_ANY(D, N_0, N_D) for those of any mesh. A call that
 * does not fit is refused with DAYBOOK_NO_ROOM and alters nothing, so daybook_drop can give back room, or
 * a larger book can be lent and filled by daybook_load again.
 *
 * THE RESULT of each call is 0 where it was accepted, else the number of the first refusal that
 * applies, in the order given at the call. A refusal alters no book, file, list or buffer that you lent.
 * What an out pointer points to is written only where the text says so, and else left alone.
 *
 * WHERE THE BOOK IS BROKEN. With refusal 11, and only then, a call that has key and position writes both.
 *
 *   *key         4d+e: the relation d -> e is the first in the book that is broken; or DAYBOOK_FREE_WORDS:
 *                no relation is broken, but a word from the used length on is not 0
 *   *position    0 to N_d: this offset of the relation; above N_d: its index *position - N_d - 1, counted
 *                from 0 through all its rows; with DAYBOOK_FREE_WORDS: the first word that is not 0, counted
 *                from 0 at the used length, so that it is book[book[4] + *position]
 *
 * N_0 and N_D are in word 0, N_1 and N_2, where they are not N_D, in words 2 and 3. Counted from 0 at the relation's first word, the
 * position is that of the word itself. Of all that is wrong in the relation the lowest position is given:
 *
 *   offset 0     is not 0
 *   offset i     is below offset i - 1, or ends a row of d -> 0, d > 0, that has not d + 1 indices
 *   index t      is not above the index before it in its row, is N_e or more, or begins a row of D -> 0 that
 *                is equal to an earlier one
 *
 * daybook_row and daybook_find look at their row's own two offsets only, and say at the call which is meant.
 *
 * STACK, measured by painting it. daybook_make, daybook_ask and daybook_ask_list need up to 512 KiB
 * (417 KiB were measured), daybook_salvage and daybook_sheet up to 256 KiB (193), daybook_load and
 * daybook_whole_box up to 128 KiB (113), daybook_drop, daybook_write, daybook_euler, daybook_closures,
 * daybook_box and daybook_plain up to 64 KiB (57), the other calls less than 16 KiB (1).
 *
 * OWNERSHIP. Nothing is allocated, nothing is global, nothing is kept after a call returns: the
 * book, the file, the lists and the buffers stay yours. Calls on different books may run side by side in
 * threads, and so may salvages, which take no book, with outputs of their own. In one call no two of the lent places
 * may overlap. No pointer may be null; for an array of length 0 any aligned one will do.
 *
 * Each function is proved: for every file, book and number it returns without a fault, with
 * exactly the result and the words, bytes and floats that the rules give.
 */
#ifndef DAYBOOK_H
#define DAYBOOK_H

#include <stddef.h>
#include <stdint.h>

#ifdef __cplusplus
extern "C" {
#endif

enum {
    DAYBOOK_ACCEPTED = 0,          /* the call was accepted */
    DAYBOOK_FILE_TOO_SHORT = 1,    /* the file has fewer than 4 bytes */
    DAYBOOK_NO_DIMENSION = 2,      /* D is 0 */
    DAYBOOK_MANY_VERTICES = 3,     /* N_0 is over 8,192 */
    DAYBOOK_MANY_CELLS = 4,        /* N_D is over 4,096 */
    DAYBOOK_SPARE_BITS = 5,        /* a spare bit of the file's head is set */
    DAYBOOK_FILE_LENGTH = 6,       /* the file is not 4 + ceil(13 (D + 1) N_D / 8) bytes long; of a cell dropped, it is not whole in the file */
    DAYBOOK_VERTEX_OUT = 7,        /* a cell names a vertex that is N_0 or more; the lowest such cell is given */
    DAYBOOK_VERTEX_TWICE = 8,      /* a cell names a vertex twice; the lowest such cell is given */
    DAYBOOK_BITS_AFTER = 9,        /* a bit after the last vertex is set */
    DAYBOOK_FRAME_BROKEN = 10,     /* the book's head words or the sizes of its relations break the frame rule */
    DAYBOOK_ROWS_BROKEN = 11,      /* the book's offsets, indices or free words break the row rule, or two rows of D -> 0 are equal; the place is given */
    DAYBOOK_DIMENSION_OVER = 12,   /* d or e is over D; for daybook_closures, D is 1 */
    DAYBOOK_NO_ROOM = 13,          /* the used length afterwards would pass the book's length */
    DAYBOOK_ALREADY_HELD = 14,     /* the relation is held already */
    DAYBOOK_NEED_MISSING = 15,     /* something that is needed is not held */
    DAYBOOK_NOT_HELD = 16,         /* the relation is not held */
    DAYBOOK_NO_SUCH_ENTITY = 17,   /* i is N_d or more; for daybook_plain, by its own count */
    DAYBOOK_BUFFER_TOO_SHORT = 18, /* the byte buffer is shorter than the file to be written */
    DAYBOOK_NO_SUCH_INDEX = 19,    /* j is N_e or more; for daybook_plain, by its own count */
    DAYBOOK_PAIRS_OFF = 20,        /* half a pair, more than DAYBOOK_MOST_PAIRS pairs, or answers that have not one place a pair */
    DAYBOOK_LIST_LENGTH = 21,      /* a lent list has not one place a vertex, edge or face, coordinates are not axes times N_0, the list of cells dropped is shorter than 2 N_D,
                                      the cells across are not 3 N_D, or a rim's map is shorter than the rim needs */
    DAYBOOK_COUNT_OUTSIDE = 22,    /* a count is neither from -32,768 to 32,767 nor DAYBOOK_MASKED */
    DAYBOOK_CELL_TWICE = 23,       /* two cells of the file have the same vertices; the lowest that repeats an earlier one is given */
    DAYBOOK_CELLS_KEPT = 24,       /* D -> 0 is not dropped */
    DAYBOOK_NUMBER_DIFFERS = 25,   /* d -> 0 has to be made, another relation keeps N_d, and another number of entities is found */
    DAYBOOK_AXIS_COUNT = 26,       /* the number of axes is neither 2 nor 3 */
    DAYBOOK_NOT_FINITE = 27,       /* a coordinate is infinite or not a number */
    DAYBOOK_NOT_SHEET = 28,        /* the book is no sheet; why is given, one of DAYBOOK_WHY_, and with all but the first which */
    DAYBOOK_LONG_RIM = 29          /* the rim has over 4,096 edges */
};

/* Why a book is no sheet. */
enum {
    DAYBOOK_WHY_DIMENSION = 1, /* D is not 2 */
    DAYBOOK_WHY_VERTEX = 2,    /* a vertex lies in no cell; the lowest such vertex is given */
    DAYBOOK_WHY_EDGE = 3,      /* an edge lies in no cell, or in three or more; the lowest such edge is given */
    DAYBOOK_WHY_CELL = 4       /* a cell has not three edges that list it; the lowest such cell is given */
};

/* The key that stands for the free words, those from the used length on, where a place in the book is given. */
#define DAYBOOK_FREE_WORDS 16

/* The most pairs that daybook_ask_list takes. */
#define DAYBOOK_MOST_PAIRS 16

/* The bytes of the longest day file, and the places that are enough for the cells dropped of any file. */
#define DAYBOOK_LONGEST_FILE 26628
#define DAYBOOK_DROPPED_PLACES 8192

/* What stands for the cell across an edge that lies in no other cell. */
#define DAYBOOK_NONE_ACROSS 65535

/* The bytes, and the places for its vertices and for its edges, that are enough for any rim that is accepted. */
#define DAYBOOK_RIM_BYTES 13316
#define DAYBOOK_RIM_VERTICES 8192
#define DAYBOOK_RIM_EDGES 4096

/* The count of a masked point, and the closure of a face that has one. */
#define DAYBOOK_MASKED 65536
#define DAYBOOK_CLOSURE_MASKED 2

/* A number of 32-bit words, as a uint64_t, that is enough for a mesh of dimension D (1, 2 or 3) with
 * N0 vertices and ND cells and for all its relations.
 *
 * SHEET: where no vertex lies in more than 12 intervals or triangles or 36 tetrahedra, and the cells
 * at a vertex hang together over shared edges (D = 2) or faces (D = 3). What daybook_sheet accepts may have more cells at a
 * vertex, as a fan has, or cells that meet in a vertex alone. ANY: for every mesh; there the cells at a vertex are not bounded,
 * and the words grow with the square of the cells.
 *
 * Both count N_1 and N_2 as if no two cells shared an edge or a face. The arguments are evaluated
 * more than once; with constants the result is a constant, as an array's length needs. */
#define DAYBOOK_WORDS_SHEET(D, N0, ND) \
    (DAYBOOK_WORDS_APART_(D, N0, ND) + \
     DAYBOOK_N1_(D, ND) * 2 * ((D) == 3 ? 37 : 12) + DAYBOOK_N2_(D, ND) * 3 * ((D) == 3 ? 72 : 11) + DAYBOOK_N3_(D, ND) * 4 * 35)
#define DAYBOOK_WORDS_ANY(D, N0, ND) \
    (DAYBOOK_WORDS_APART_(D, N0, ND) + \
     DAYBOOK_N1_(D, ND) * DAYBOOK_N1_(D, ND) + DAYBOOK_N2_(D, ND) * DAYBOOK_N2_(D, ND) + DAYBOOK_N3_(D, ND) * DAYBOOK_N3_(D, ND))

/* Parts of these: bounds of N_1, N_2 and N_3, and the words of all but 1 -> 1, 2 -> 2 and 3 -> 3: the head, all
 * offsets, d -> e and e -> d for d > e, and 0 -> 0. */
#define DAYBOOK_N1_(D, ND) ((uint64_t)(ND) * ((D) == 1 ? 1 : (D) == 2 ? 3 : 6))
#define DAYBOOK_N2_(D, ND) ((uint64_t)(ND) * ((D) == 1 ? 0 : (D) == 2 ? 1 : 4))
#define DAYBOOK_N3_(D, ND) ((uint64_t)(ND) * ((D) == 3 ? 1 : 0))
#define DAYBOOK_WORDS_APART_(D, N0, ND) \
    (5 + ((uint64_t)(D) + 1) * ((uint64_t)(N0) + DAYBOOK_N1_(D, ND) + DAYBOOK_N2_(D, ND) + DAYBOOK_N3_(D, ND) + (D) + 1) + \
     2 * (2 * DAYBOOK_N1_(D, ND) + 6 * DAYBOOK_N2_(D, ND) + 14 * DAYBOOK_N3_(D, ND)) + (uint64_t)(ND) * (D) * ((D) + 1))

/* Loads a day file into the book: every word is set, and D -> 0 alone is held. The old book is
 * not looked at. Refusals: 1 to 8, 23, 9, then 13. With 7, 8 and 23 the cell's number is written to
 * *cell: the lowest with that fault. An edge or a face may lie in three cells or more. */
uint32_t daybook_load(const uint8_t *file, size_t file_len, uint32_t *book, size_t book_len, uint32_t *cell);

/* Makes the relation d -> e from what the book stores and puts it at its place; everything that it is
 * made from has to be held. 25 is for 1 -> 0 and 2 -> 0 below D, and never in a book that these calls alone
 * have written. Refusals: 10, 11 with *key and *position, 12, 14, 15, 25, 13. */
uint32_t daybook_make(uint32_t *book, size_t book_len, uint32_t d, uint32_t e, uint32_t *key, size_t *position);

/* Makes the relation d -> e and, as far as missing, everything that it is made from, or nothing at
 * all. What is held is taken as it is, and its own sources are not looked for. A relation that is held
 * already is accepted, and no word changes. 25 is as for daybook_make, for whatever has to be made on the
 * way, and goes before 13 wherever on the way it lies. Refusals: 10, 11 with *key and *position, 12, 25, 13. */
uint32_t daybook_ask(uint32_t *book, size_t book_len, uint32_t d, uint32_t e, uint32_t *key, size_t *position);

/* Asks for several relations, one after another: book and answers are those of daybook_ask for each in turn.
 * pairs has two numbers for each, its d and its e, and answers gets one number for each in its place: 0 where
 * the ask was accepted, else its refusal, one of 10, 11, 12, 25, 13; the place that goes with 11 is not given,
 * and daybook_ask gives it. A refused ask does not stop the next, and the call is accepted whatever its answers
 * are; no pairs at all are accepted too. The book is checked once for the whole list, so this takes less time
 * than as many calls of daybook_ask.
 * Refusal: 20, before everything else, also where the book is broken; then the answers are left alone too. */
uint32_t daybook_ask_list(uint32_t *book, size_t book_len, const uint32_t *pairs, size_t pairs_len, uint32_t *answers, size_t answers_len);

/* Drops the relation d -> e and gives back its room: later relations move down, and the words that are freed
 * are set to 0, so that the next relation can take them. Relations that were made from it stay. daybook_row and
 * daybook_find still answer in each of them, though a row may lie at another place than before; daybook_write
 * and daybook_held_count answer as ever, and so do daybook_whole_box and daybook_plain. daybook_make, daybook_euler,
 * daybook_closures, daybook_box and daybook_sheet refuse with 15 where they need what was dropped; daybook_ask makes
 * it again.
 *
 * The words follow from the mesh and from which relations are held: in a book that these calls alone have
 * written, dropping a relation and making it again, or asking for it while its sources are held, gives the same
 * words as before. Refusals: 10, 11 with *key and *position, 12, 16, and 24 for D -> 0. */
uint32_t daybook_drop(uint32_t *book, size_t book_len, uint32_t d, uint32_t e, uint32_t *key, size_t *position);

/* Row i of d -> e: where accepted it is book[*start .. *start + *count], which may be empty.
 * Refusals: 10, 12, 16, 17, and 11 where the row's own two offsets are not first <= second <= last: then *key
 * is 4d+e, and *position is i where the first is above the last, else i + 1.
 * The cost does not depend on the book's size. */
uint32_t daybook_row(const uint32_t *book, size_t book_len, uint32_t d, uint32_t e, uint32_t i, size_t *start, size_t *count, uint32_t *key,
                     size_t *position);

/* Whether j is in row i of d -> e: where accepted, *yes is 1 or 0 and *read how many of the row's indices
 * were read. The row is searched from its front, up to the first index that is not below j: *read counts
 * the leading ones, those below j, and the one after them, if there is one; yes means that this one is j.
 * In a row that ascends that is what reading the whole row would say.
 * Refusals: as daybook_row (10, 12, 16, 17, 11 with its *key and *position), then 19 where j is N_e or more.
 * The cost does not depend on the book's size, but for the indices read. */
uint32_t daybook_find(const uint32_t *book, size_t book_len, uint32_t d, uint32_t e, uint32_t i, uint32_t j, uint32_t *yes, size_t *read,
                      uint32_t *key, size_t *position);

/* The plain engine, to hold the others to: whether (e, j) is incident to (d, i), worked out from the cells' vertex sets each
 * time. Where accepted, and only then, *yes is 1 or 0; the book is only read.
 *
 *   d > e        yes where every vertex of (e, j) is one of (d, i)
 *   d < e        yes where every vertex of (d, i) is one of (e, j)
 *   d = e > 0    yes where they have a vertex in common, and j is not i
 *   d = e = 0    yes where they lie in one cell, and j is not i
 *
 * No relation is used but D -> 0, which is always held; d -> e need not be. Vertices and cells have the book's numbers. For
 * 0 < d < D the entities are numbered anew: the cells are taken in ascending order, of each its vertex sets of d + 1
 * members in lexicographic order, and a set not met before gets the next number. N_1 and N_2 of words 2 and 3 do not count
 * here: 17 and 19 go by the number of sets that the cells have.
 *
 * In a book that these calls alone have written, drops among them, the answer is yes exactly where j is in row i of
 * d -> e, while that is held. In one that others have written it goes by the cells, and daybook_find by the row. The whole
 * book is checked at each call, and where d or e lies between 0 and D those entities are numbered; daybook_find is the
 * quicker one.
 * Refusals: 10, 11 with *key and *position, 12, 17, 19. */
uint32_t daybook_plain(const uint32_t *book, size_t book_len, uint32_t d, uint32_t e, uint32_t i, uint32_t j, uint32_t *yes, uint32_t *key,
                       size_t *position);

/* Writes the day file of the book's mesh, each cell's vertices ascending, and its length to
 * *length where accepted. Later bytes stay as they were. Refusals: 10, 11 with *key and *position, 18. */
uint32_t daybook_write(const uint32_t *book, size_t book_len, uint8_t *bytes, size_t bytes_len, size_t *length, uint32_t *key, size_t *position);

/* Writes the Euler number to *number where accepted: N_0 - N_1, N_0 - N_1 + N_2 or
 * N_0 - N_1 + N_2 - N_3 for D = 1, 2 or 3. In this number, and nowhere else, N_0 is the number of vertices that
 * lie in at least one cell, so that points nobody uses do not count; document 01 had the file's N_0 here too.
 * Needs d -> 0 for every 0 < d < D. Refusals: 10, 11 with *key and *position, 15. */
uint32_t daybook_euler(const uint32_t *book, size_t book_len, int64_t *number, uint32_t *key, size_t *position);

/* Writes the number of relations held to *count where accepted. Refusal: 10. */
uint32_t daybook_held_count(const uint32_t *book, size_t book_len, uint32_t *count);

/* Phase closures, for triangles or tetrahedra. counts has each vertex's phase in 65,536ths of a turn, from
 * -32,768 to 32,767, or DAYBOOK_MASKED.
 *
 * steps gets, for each edge, the step in turns: the higher vertex's phase less the lower's, brought by a whole
 * turn if need be to at least -0.5 and below 0.5; 0.0 where an end is masked. masked gets a 1 for each such
 * edge, else a 0. Every step is exact: a whole number of 65,536ths, without rounding, and never -0.0.
 *
 * closures gets, for each face with the vertices a < b < c, step(a,b) + step(b,c) - step(a,c), which is -1, 0
 * or 1, or DAYBOOK_CLOSURE_MASKED where a vertex is masked. For triangles the faces are the cells.
 *
 * counts has to be N_0 long, closures N_2, steps and masked N_1. Where the call is accepted each place of the
 * three lists is written, else none. Needs 1 -> 0 and 2 -> 0.
 * Refusals: 10, 11 with *key and *position, 12 where D is 1, 15, 21, 22. */
uint32_t daybook_closures(const uint32_t *book, size_t book_len, const int32_t *counts, size_t counts_len,
                          int32_t *closures, size_t closures_len, double *steps, size_t steps_len, uint8_t *masked, size_t masked_len,
                          uint32_t *key, size_t *position);

/* The upright box of entity i of dimension d: the least and the greatest of each coordinate over its vertices. For
 * d = 0 that is the vertex itself, twice. coordinates has two or three floats for each vertex, as axes says, vertex
 * by vertex: x y or x y z, in whatever unit you like.
 *
 * Where accepted, and only then, all six of box are written: least x, greatest x, least y, greatest y, least z,
 * greatest z; with two axes the last two are 0.0. Each other end is the coordinate of a vertex, bit for bit. The vertices
 * are taken in ascending order, and an end is replaced only by what is strictly smaller, or greater, so that of 0.0
 * and -0.0, where either could be the end, the one that comes first is.
 *
 * coordinates has to be axes times N_0 long, and each of its floats finite, also those of vertices that are not
 * looked at. Needs d -> 0 where d is not 0. Refusals: 10, 11 with *key and *position, 12, 15, 17, 26, 21, 27. */
uint32_t daybook_box(const uint32_t *book, size_t book_len, const double *coordinates, size_t coordinates_len, uint32_t axes, uint32_t d, uint32_t i,
                     double box[6], uint32_t *key, size_t *position);

/* The upright box of the whole mesh, over all vertices that lie in at least one cell, as daybook_box has it.
 * Where accepted, *some is 1 and box is written; or no vertex lies in a cell, as in a mesh without cells: then *some
 * is 0, and box is left alone. Points that no cell uses do not count, but their coordinates have to be finite too.
 * Needs no relation but D -> 0, which is always held. Refusals: 10, 11 with *key and *position, 26, 21, 27. */
uint32_t daybook_whole_box(const uint32_t *book, size_t book_len, const double *coordinates, size_t coordinates_len, uint32_t axes, double box[6],
                           uint32_t *some, uint32_t *key, size_t *position);

/* The sheet: for triangles of which one or two meet at each edge, the cell across each edge of each cell, and the rim.
 * A book is a sheet where D is 2, each vertex lies in some cell, and each edge lies in one or two.
 *
 * across gets three numbers for each cell, in the order of its row of 2 -> 1: across[3 c + k] is the cell at the other
 * side of edge k of cell c, or DAYBOOK_NONE_ACROSS. In a book that these calls alone have written that goes back as well
 * as forth: there the cell across has the same edge, and across it lies c.
 *
 * rim gets a day file with D = 1: each edge that lies in exactly one cell is a cell of it, in the order of the edges. Its
 * vertices are those of these edges alone, numbered anew from 0 in ascending order: its vertex v is the mesh's vertex
 * rim_vertices[v], and its cell i the mesh's edge rim_edges[i]. A closed surface has no rim, and a file of 4 bytes for it,
 * without cells and vertices. In a book that these calls alone have written daybook_load accepts the file in a book that is
 * large enough, and each vertex of the rim has an even number of its edges. In one that others have written none of this
 * has to hold: its rim can have an edge twice.
 *
 * across has to be 3 N_D long. rim, rim_vertices and rim_edges have to be as long as the rim's file, its vertices and its
 * edges, or longer; DAYBOOK_RIM_BYTES bytes and DAYBOOK_RIM_VERTICES and DAYBOOK_RIM_EDGES places are enough for any
 * rim. Later bytes and places stay as they were. Where accepted, and only then, *rim_length is the length of the rim's
 * file, *vertex_count the number of its vertices and *edge_count that of its edges.
 *
 * Where the book is no sheet, 28, and only then, *why is written, and with all but the first of these *which:
 *
 *   DAYBOOK_WHY_DIMENSION  1   D is not 2
 *   DAYBOOK_WHY_VERTEX     2   *which is the lowest vertex that no row of 2 -> 0 has
 *   DAYBOOK_WHY_EDGE       3   *which is the lowest edge whose row of 1 -> 2 has not one or two cells
 *   DAYBOOK_WHY_CELL       4   *which is the lowest cell whose row of 2 -> 1 is not three edges that list it in 1 -> 2;
 *                              never in a book that these calls alone have written
 *
 * Needs 1 -> 0, 2 -> 1 and 1 -> 2; in a book that has only been loaded, an ask for 1 -> 2 makes all three. Refusals: 10, 11
 * with *key and *position, 28 with 1, 15, 28 with 2, 3 or 4, 29 where the rim has over 4,096 edges, 18 where rim is shorter
 * than its file, 21 where across is not 3 N_D long or rim_vertices or rim_edges is too short. */
uint32_t daybook_sheet(const uint32_t *book, size_t book_len, uint32_t *across, size_t across_len, uint8_t *rim, size_t rim_len,
                       uint32_t *rim_vertices, size_t rim_vertices_len, uint32_t *rim_edges, size_t rim_edges_len,
                       size_t *rim_length, size_t *vertex_count, size_t *edge_count, uint32_t *why, uint32_t *which, uint32_t *key, size_t *position);

/* Salvages a day file, one that was cut short or damaged: writes to out the file of the cells that can be kept, which
 * daybook_load accepts in a book that is large enough. No book is lent. A file that daybook_load accepts comes back as
 * it is.
 *
 * A cell is kept where it is whole in the file, has no vertex that is N_0 or more and none twice, and has not the
 * vertices of an earlier cell that is kept. The cells kept, and the vertices in each, are in the file's order. D and N_0
 * stay, N_D is the number of cells kept, and the spare bits and those after the last vertex are 0.
 *
 * dropped gets two numbers for each cell dropped, by ascending number: its number in file, and why, the first of these
 * that applies:
 *
 *   DAYBOOK_FILE_LENGTH      6   it is not whole in the file, whatever its bits that are there say
 *   DAYBOOK_VERTEX_OUT       7   it names a vertex that is N_0 or more
 *   DAYBOOK_VERTEX_TWICE     8   it names a vertex twice
 *   DAYBOOK_CELL_TWICE      23   it has the vertices of an earlier cell that is kept
 *
 * Where accepted, and only then, *length is the length of the file written, *count the number of cells dropped, and
 * each of the other three is 1 or 0:
 *
 *   *spare          a spare bit of the file's head was set
 *   *pad            a bit after the last vertex was set, of those that the file has up to the length that its head asks
 *   *wrong_length   the file was not as long as its head asks
 *
 * Later bytes of out and later places of dropped stay as they were. out is long enough if it is as long as file, or
 * DAYBOOK_LONGEST_FILE. dropped has to be 2 N_D long or longer, with the N_D of the file's head, also where the file is
 * cut; DAYBOOK_DROPPED_PLACES is enough for any file.
 * Refusals: 1 to 4 as daybook_load, 18 where out is shorter than the file to be written, 21 where dropped is too short. */
uint32_t daybook_salvage(const uint8_t *file, size_t file_len, uint8_t *out, size_t out_len, uint32_t *dropped, size_t dropped_len,
                         size_t *length, size_t *count, uint32_t *spare, uint32_t *pad, uint32_t *wrong_length);

#ifdef __cplusplus
}
#endif

#endif
