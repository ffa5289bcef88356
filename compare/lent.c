/* Runs of the C interface that need C: the sizes that the header promises are enough, the stack that each call
 * needs, on right and on broken books and files, measured by painting it, what a search reads of a row and a salvage
 * of a file, what a sheet and a plain answer read and write, and calls side by side in threads.
 *
 * Prints what it measured, and ends with 1 at the first thing that is not as the header says.
 */
#define _GNU_SOURCE
#include "daybook.h"
#include <pthread.h>
#include <setjmp.h>
#include <signal.h>
#include <stdio.h>
#include <stdlib.h>
#include <string.h>
#include <sys/mman.h>
#include <unistd.h>

enum { STACK = 1 << 20, THREADS = 8, ROUNDS = 6, CALLS = 16, PLAINS = 8 };

static void fail(const char *what) {
    printf("not as the header says: %s\n", what);
    exit(1);
}

/* ---- meshes, as day files */

struct mesh {
    unsigned dim, vertices, cells;
    unsigned *corners;
    int sheet; /* no vertex in many cells, and no two parts that touch in a point */
};

static struct mesh empty(unsigned dim, unsigned vertices, unsigned most) {
    struct mesh m = {dim, vertices, 0, malloc(sizeof(unsigned) * (most + 1) * 4), 1};
    if (!m.corners) exit(3);
    return m;
}

static void add(struct mesh *m, unsigned a, unsigned b, unsigned c, unsigned d) {
    unsigned v[4] = {a, b, c, d};
    for (unsigned k = 0; k <= m->dim; k++) m->corners[m->cells * (m->dim + 1) + k] = v[k];
    m->cells++;
}

static struct mesh sheet(unsigned n) {
    struct mesh m = empty(2, n * n, 2 * n * n);
    for (unsigned y = 0; y + 1 < n; y++)
        for (unsigned x = 0; x + 1 < n; x++) {
            unsigned a = y * n + x;
            add(&m, a, a + 1, a + n + 1, 0);
            add(&m, a + n, a, a + n + 1, 0);
        }
    return m;
}

/* Two scans of n by n points, one above the other: each prism between them is three tetrahedra. */
static struct mesh stacked(unsigned n) {
    struct mesh m = empty(3, 2 * n * n, 6 * n * n), flat = sheet(n);
    for (unsigned c = 0; c < flat.cells; c++) {
        unsigned *v = flat.corners + 3 * c, low[3] = {v[0], v[1], v[2]}, up = n * n;
        for (int turn = 0; turn < 3; turn++)
            for (int k = 0; k < 2; k++)
                if (low[k] > low[k + 1]) {
                    unsigned t = low[k];
                    low[k] = low[k + 1];
                    low[k + 1] = t;
                }
        add(&m, low[0], low[1], low[2], low[2] + up);
        add(&m, low[0], low[1], low[1] + up, low[2] + up);
        add(&m, low[0], low[0] + up, low[1] + up, low[2] + up);
    }
    free(flat.corners);
    return m;
}

/* n triangles in a row: the rim has two edges more. */
static struct mesh ribbon(unsigned n) {
    struct mesh m = empty(2, n + 2, n);
    for (unsigned k = 0; k < n; k++) add(&m, k, k + 1, k + 2, 0);
    return m;
}

/* n triangles at one edge. */
static struct mesh pages(unsigned n) {
    struct mesh m = empty(2, n + 2, n);
    for (unsigned k = 0; k < n; k++) add(&m, 0, 1, k + 2, 0);
    m.sheet = 0;
    return m;
}

static struct mesh chain(unsigned n) {
    struct mesh m = empty(1, n + 1, n);
    for (unsigned k = 0; k < n; k++) add(&m, k + 1, k, 0, 0);
    return m;
}

/* All n cells around one vertex. */
static struct mesh fan(unsigned n) {
    struct mesh m = empty(2, n + 2, n);
    for (unsigned k = 1; k <= n; k++) add(&m, 0, k, k + 1, 0);
    m.sheet = 0;
    return m;
}

/* Cells that have nothing in common: no edge and no face is shared. */
static struct mesh apart(unsigned dim, unsigned n) {
    struct mesh m = empty(dim, n * (dim + 1), n);
    for (unsigned k = 0; k < n; k++) add(&m, k * (dim + 1), k * (dim + 1) + 1, k * (dim + 1) + 2, k * (dim + 1) + 3);
    return m;
}

static uint32_t last = 7;

static unsigned below(unsigned n) {
    last = last * 1664525u + 1013904223u;
    return (unsigned)((uint64_t)last * n >> 32);
}

/* Whether the mesh has a cell with these vertices, which are all different. */
static int has(const struct mesh *m, const unsigned *v) {
    unsigned size = m->dim + 1;
    for (const unsigned *cell = m->corners; cell < m->corners + size * m->cells; cell += size) {
        unsigned common = 0;
        for (unsigned k = 0; k < size; k++)
            for (unsigned j = 0; j < size; j++) common += cell[j] == v[k];
        if (common == size) return 1;
    }
    return 0;
}

/* n different cells, of which the vertices have to allow so many. */
static struct mesh random_cells(unsigned dim, unsigned vertices, unsigned n) {
    struct mesh m = empty(dim, vertices, n);
    m.sheet = 0;
    while (m.cells < n) {
        unsigned v[4], distinct = 1;
        for (unsigned k = 0; k <= dim; k++) {
            v[k] = below(vertices);
            for (unsigned j = 0; j < k; j++) distinct &= v[j] != v[k];
        }
        if (distinct && !has(&m, v)) add(&m, v[0], v[1], v[2], v[3]);
    }
    return m;
}

static size_t file_of(struct mesh m, uint8_t *bytes) {
    size_t bit = 32, length = 4 + (13 * (size_t)(m.dim + 1) * m.cells + 7) / 8;
    uint32_t head = m.dim << 30 | m.vertices << 16 | m.cells << 3;
    memset(bytes, 0, length);
    for (int k = 0; k < 4; k++) bytes[k] = (uint8_t)(head >> (24 - 8 * k));
    for (unsigned i = 0; i < (m.dim + 1) * m.cells; i++)
        for (int k = 12; k >= 0; k--, bit++)
            if (m.corners[i] >> k & 1) bytes[bit / 8] |= (uint8_t)(128 >> bit % 8);
    return length;
}

/* An ask of a book that is not broken. */
static uint32_t ask(uint32_t *book, size_t words, uint32_t d, uint32_t e) {
    uint32_t key;
    size_t position;
    return daybook_ask(book, words, d, e, &key, &position);
}

/* A drop from such a book. */
static uint32_t drop(uint32_t *book, size_t words, uint32_t d, uint32_t e) {
    uint32_t key;
    size_t position;
    return daybook_drop(book, words, d, e, &key, &position);
}

/* Asks for all relations. */
static uint32_t ask_all(uint32_t *book, size_t words) {
    uint32_t number = 0, top = book[0] >> 30;
    for (uint32_t d = 0; d <= top; d++)
        for (uint32_t e = 0; e <= top; e++) number |= ask(book, words, d, e);
    return number;
}

/* ---- the sizes that the header promises */

static uint8_t file[32768];

static void enough(const char *name, struct mesh m) {
    uint64_t words = m.sheet ? DAYBOOK_WORDS_SHEET(m.dim, m.vertices, m.cells) : DAYBOOK_WORDS_ANY(m.dim, m.vertices, m.cells);
    uint32_t *book = malloc(words * sizeof *book), cell;
    if (!book) exit(3);
    if (daybook_load(file, file_of(m, file), book, words, &cell) || ask_all(book, words)) fail(name);
    printf("%s: all relations take %u words; %s gives %llu\n", name, (unsigned)book[4], m.sheet ? "DAYBOOK_WORDS_SHEET" : "DAYBOOK_WORDS_ANY",
           (unsigned long long)words);
    free(book);
    free(m.corners);
}

/* ---- the stack */

/* One call, made on a stack of its own. */
struct call {
    int which;
    unsigned d, e;
    uint32_t *book;
    size_t words, size, position;
    uint32_t number, key;
};

/* The lists of phase closures, as long as a mesh of the full size asks. */
static int32_t counts[8192], closures[4 * 4096];
static double steps[6 * 4096];
static uint8_t masked[6 * 4096];

/* Counts all over the turn, each sixteenth masked. */
static void fill_counts(void) {
    for (uint32_t k = 0; k < 8192; k++) counts[k] = k % 16 ? (int32_t)(k * 40503 % 65536) - 32768 : DAYBOOK_MASKED;
}

/* Three coordinates for each vertex of a mesh of the full size. */
static double coordinates[3 * 8192];

/* Whole numbers from -1,000 to 1,000 without order, zeros of both signs among them. */
static void fill_coordinates(void) {
    for (uint32_t k = 0; k < 3 * 8192; k++) coordinates[k] = k % 16 ? (double)(k * 40503 % 2001) - 1000.0 : k % 32 ? 0.0 : -0.0;
}

static uint32_t points_of(const uint32_t *book) { return book[0] >> 16 & 0x3FFF; }

static uint32_t entities_of(const uint32_t *book, uint32_t d) {
    return d == 0 ? points_of(book) : d == book[0] >> 30 ? book[0] >> 3 & 0x1FFF : book[1 + d];
}

/* The box of the last entity of dimension d, with two axes where e is even and three where it is odd. */
static uint32_t box_of(struct call *c) {
    uint32_t axes = 2 + c->e % 2;
    double box[6];
    return daybook_box(c->book, c->words, coordinates, (size_t)axes * points_of(c->book), axes, c->d, entities_of(c->book, c->d) - 1, box, &c->key, &c->position);
}

/* The same of the whole mesh. */
static uint32_t whole_box_of(struct call *c) {
    uint32_t axes = 2 + c->e % 2, some = 0;
    double box[6];
    return daybook_whole_box(c->book, c->words, coordinates, (size_t)axes * points_of(c->book), axes, box, &some, &c->key, &c->position);
}

/* Phase closures with lists as long as the book asks; word 3 has the number of faces for tetrahedra, and for triangles the faces are the cells. */
static uint32_t closures_of(struct call *c) {
    const uint32_t *book = c->book;
    size_t faces = book[0] >> 30 == 3 ? book[3] : book[0] >> 3 & 0x1FFF;
    return daybook_closures(book, c->words, counts, points_of(book), closures, faces, steps, book[2], masked, book[2], &c->key, &c->position);
}

/* What a salvage writes, with room for any file. */
struct salvaged {
    uint8_t bytes[DAYBOOK_LONGEST_FILE];
    uint32_t dropped[DAYBOOK_DROPPED_PLACES];
    size_t length, count;
    uint32_t flags[3];
};

static uint32_t salvage(const uint8_t *bytes, size_t size, struct salvaged *s) {
    return daybook_salvage(bytes, size, s->bytes, sizeof s->bytes, s->dropped, DAYBOOK_DROPPED_PLACES, &s->length, &s->count, &s->flags[0], &s->flags[1], &s->flags[2]);
}

static struct salvaged saved;

/* What the sheet writes, with room for any. */
struct outlined {
    uint32_t across[3 * 4096];
    uint8_t rim[DAYBOOK_RIM_BYTES];
    uint32_t vertices[DAYBOOK_RIM_VERTICES], edges[DAYBOOK_RIM_EDGES];
    size_t length, vertex_count, edge_count;
    uint32_t why, which;
};

/* The sheet of a book with 3 N_D places for the cells across, and room for any rim. */
static uint32_t outline(const uint32_t *book, size_t words, struct outlined *o, uint32_t *key, size_t *position) {
    size_t cells = book[0] >> 3 & 0x1FFF;
    return daybook_sheet(book, words, o->across, 3 * cells, o->rim, sizeof o->rim, o->vertices, DAYBOOK_RIM_VERTICES, o->edges, DAYBOOK_RIM_EDGES, &o->length, &o->vertex_count,
                         &o->edge_count, &o->why, &o->which, key, position);
}

static struct outlined outlined;

/* The plain answer for the last entities of dimensions d and e, in a book that keeps their numbers. */
static uint32_t plain_of(struct call *c) {
    uint32_t yes;
    return daybook_plain(c->book, c->words, c->d, c->e, entities_of(c->book, c->d) - 1, entities_of(c->book, c->e) - 1, &yes, &c->key, &c->position);
}

static void *make_call(void *place) {
    struct call *c = place;
    uint32_t cell = 0, count = 0, yes = 0;
    size_t start = 0, length = 0;
    int64_t euler = 0;
    uint32_t pair[2] = {c->d, c->e};
    static uint8_t bytes[32768];
    switch (c->which) {
    case 0: c->number = daybook_load(file, c->size, c->book, c->words, &cell); break;
    case 1: c->number = daybook_ask(c->book, c->words, c->d, c->e, &c->key, &c->position); break;
    case 2: c->number = daybook_make(c->book, c->words, c->d, c->e, &c->key, &c->position); break;
    case 3: c->number = daybook_row(c->book, c->words, c->d, c->e, 0, &start, &length, &c->key, &c->position); break;
    case 4: c->number = daybook_write(c->book, c->words, bytes, sizeof bytes, &length, &c->key, &c->position); break;
    case 5: c->number = daybook_euler(c->book, c->words, &euler, &c->key, &c->position); break;
    case 6: c->number = daybook_held_count(c->book, c->words, &count); break;
    case 7: c->number = daybook_find(c->book, c->words, c->d, c->e, 0, 0, &yes, &length, &c->key, &c->position); break;
    case 8: c->number = daybook_ask_list(c->book, c->words, pair, 2, &yes, 1) | yes; break;
    case 9: c->number = closures_of(c); break;
    case 10: c->number = daybook_drop(c->book, c->words, c->d, c->e, &c->key, &c->position); break;
    case 11: c->number = box_of(c); break;
    case 12: c->number = whole_box_of(c); break;
    case 13: c->number = salvage(file, c->size, &saved); break;
    case 14: c->number = outline(c->book, c->words, &outlined, &c->key, &c->position); break;
    case 15: c->number = plain_of(c); break;
    default: break;
    }
    return NULL;
}

/* The bytes of a painted stack that a thread with this call has overwritten. */
static size_t painted(struct call *c) {
    static unsigned char stack[STACK] __attribute__((aligned(4096)));
    pthread_attr_t attributes;
    pthread_t thread;
    size_t clean = 0;
    memset(stack, 0xC3, sizeof stack);
    pthread_attr_init(&attributes);
    if (pthread_attr_setstack(&attributes, stack, sizeof stack) || pthread_create(&thread, &attributes, make_call, c)) exit(3);
    pthread_join(thread, NULL);
    pthread_attr_destroy(&attributes);
    while (clean < sizeof stack && stack[clean] == 0xC3) clean++;
    return sizeof stack - clean;
}

static size_t bare, most[CALLS];

/* A call on a painted stack; what it takes more than a thread without a call is kept where it is the most yet. */
static void measured(struct call *c) {
    size_t used = painted(c) - bare;
    if (used > most[c->which]) most[c->which] = used;
}

/* The calls that check the whole book, on one that is broken here. */
static void find_broken(struct call *c, uint32_t key, size_t position) {
    static const int checking[] = {1, 2, 4, 5, 9, 10, 11, 12, 14, 15};
    for (int k = 0; k < 10; k++) {
        c->which = checking[k], c->d = 0, c->e = 0;
        c->key = 99, c->position = 99;
        measured(c);
        if (c->number != DAYBOOK_ROWS_BROKEN || c->key != key || c->position != position) fail("where a book is broken");
    }
}

/* The last free word is not 0; then the last cell is the first one again. */
static void measure_broken(struct call *c, unsigned dim, unsigned cells) {
    size_t first = 0, last = 0, count = 0;
    c->book[c->words - 1] = 1;
    find_broken(c, DAYBOOK_FREE_WORDS, c->words - 1 - c->book[4]);
    if (daybook_row(c->book, c->words, dim, 0, 0, &first, &count, &c->key, &c->position)) fail("the first cell");
    if (daybook_row(c->book, c->words, dim, 0, cells - 1, &last, &count, &c->key, &c->position)) fail("the last cell");
    memcpy(c->book + last, c->book + first, (dim + 1) * sizeof *c->book);
    find_broken(c, 4 * dim, cells + 1 + (size_t)(dim + 1) * (cells - 1));
}

/* d -> 0 made, asked for, asked for by a list, and on the way to d -> d, where 0 -> d alone keeps N_d: the true one, or one more, which is refused. */
static void measure_kept(struct call *c, unsigned dim, unsigned cells) {
    static const int making[] = {2, 1, 8, 1};
    for (unsigned d = 1; d < dim; d++)
        for (unsigned turn = 0; turn < 8; turn++) {
            unsigned more = turn % 2, bound = cells * (dim == 2 ? 3 : d == 1 ? 6 : 4);
            c->which = making[turn / 2], c->d = d, c->e = turn < 6 ? 0 : d;
            if (daybook_load(file, c->size, c->book, c->words, &c->number) || ask(c->book, c->words, 0, d) || drop(c->book, c->words, d, 0)) fail("a drop");
            if (more && c->book[1 + d] == bound) continue; /* the frame rule allows no more */
            c->book[1 + d] += more;
            measured(c);
            if (c->number != (more ? DAYBOOK_NUMBER_DIFFERS : DAYBOOK_ACCEPTED)) fail("a relation made where another keeps its count");
        }
}

/* d -> 0 and d -> D dropped, for each d, from a book that holds all of them, and asked for again: the words are as before. D -> 0 is kept. */
static void measure_drops(struct call *c, unsigned dim) {
    uint32_t *before = malloc(c->words * sizeof *before);
    if (!before) exit(3);
    if (daybook_load(file, c->size, c->book, c->words, &c->number) || ask_all(c->book, c->words)) fail("all relations before a drop");
    memcpy(before, c->book, c->words * sizeof *before);
    c->which = 10;
    for (c->d = 0; c->d <= dim; c->d++)
        for (c->e = 0; c->e <= dim; c->e += dim) {
            int cells = c->d == dim && c->e == 0;
            measured(c);
            if (c->number != (cells ? DAYBOOK_CELLS_KEPT : DAYBOOK_ACCEPTED)) fail("the number that a drop gives");
            if (cells != !memcmp(before, c->book, c->words * sizeof *before)) fail("the words after a drop");
            if (ask(c->book, c->words, c->d, c->e) || memcmp(before, c->book, c->words * sizeof *before)) fail("a relation dropped and asked for again");
        }
    free(before);
}

/* Salvages of the file with its cells all but one spoiled: made the first one again, with a vertex out of range, with one twice; and cut in the middle, and to its head. */
static void measure_salvages(struct call *c, struct mesh m) {
    unsigned size = m.dim + 1;
    unsigned *corners = malloc(sizeof *corners * size * m.cells);
    struct mesh bad = m;
    if (!corners) exit(3);
    bad.corners = corners;
    c->which = 13;
    for (int turn = 0; turn < 5; turn++) {
        memcpy(corners, m.corners, sizeof *corners * size * m.cells);
        for (unsigned cell = 1; cell < m.cells && turn < 3; cell++) {
            unsigned *v = corners + size * cell;
            if (turn == 0) memcpy(v, corners, sizeof *v * size);
            if (turn == 1) v[cell % size] = 8191;
            if (turn == 2) v[cell % size] = v[(cell + 1) % size];
        }
        if (turn == 1) bad.vertices = 8191;
        c->size = file_of(bad, file);
        bad.vertices = m.vertices;
        if (turn == 3) c->size /= 2;
        if (turn == 4) c->size = 4;
        measured(c);
        if (c->number || saved.count + (turn < 3) != (turn == 3 ? m.cells - (c->size - 4) * 8 / (13 * size) : m.cells)) fail("the cells that a salvage drops");
    }
    free(corners);
}

/* The sheet of a mesh with so many vertices more, which is accepted or refused with this number and why; where it lies, row 0 of 2 -> 1 has the last edge for its own last. */
static void measure_sheet(struct mesh m, unsigned more, int lies, uint32_t number, uint32_t why) {
    size_t words = 200000, start = 0, count = 0;
    m.vertices += more;
    struct call c = {CALLS, 0, 0, calloc(words, 4), words, file_of(m, file), 0, 0, 0};
    if (!c.book) exit(3);
    bare = painted(&c);
    c.which = 14;
    if (daybook_load(file, c.size, c.book, words, &c.number) || ask(c.book, words, 1, 2)) fail("a mesh with what the sheet needs");
    if (lies && daybook_row(c.book, words, 2, 1, 0, &start, &count, &c.key, &c.position)) fail("the edges of cell 0");
    if (lies) c.book[start + 2] = c.book[2] - 1;
    memset(&outlined, 0x5A, sizeof outlined);
    measured(&c);
    if (c.number != number || (why && outlined.why != why)) fail("the number that a sheet gives");
    free(c.book);
    free(m.corners);
}

/* The longest rim, one that is too long, and each thing that makes a mesh of triangles no sheet. */
static void measure_sheets(void) {
    measure_sheet(ribbon(4094), 0, 0, DAYBOOK_ACCEPTED, 0);
    if (outlined.edge_count != DAYBOOK_RIM_EDGES || outlined.length != DAYBOOK_RIM_BYTES) fail("the longest rim");
    measure_sheet(apart(2, 2700), 0, 0, DAYBOOK_LONG_RIM, 0);
    measure_sheet(ribbon(4096), 4094, 0, DAYBOOK_NOT_SHEET, DAYBOOK_WHY_VERTEX);
    measure_sheet(pages(1000), 0, 0, DAYBOOK_NOT_SHEET, DAYBOOK_WHY_EDGE);
    measure_sheet(ribbon(4096), 0, 1, DAYBOOK_NOT_SHEET, DAYBOOK_WHY_CELL);
}

static void measure(struct mesh m) {
    size_t words = 1500000;
    struct call c = {CALLS, 0, 0, calloc(words, 4), words, file_of(m, file), 0, 0, 0};
    if (!c.book) exit(3);
    bare = painted(&c);
    for (c.which = 0; c.which < CALLS; c.which++)
        for (c.d = 0; c.d <= m.dim; c.d++)
            for (c.e = 0; c.e <= m.dim; c.e++) {
                if (c.which == 10) continue; /* drops are measured below */
                /* make and a list of asks are measured on a book that holds nothing but D -> 0 yet */
                if (c.which == 2 || c.which == 8) daybook_load(file, c.size, c.book, c.words, &c.number);
                /* phase closures, and then boxes, on one that holds 1 -> 0 and 2 -> 0; intervals have no faces, and are refused */
                if (c.which == 9 && c.d == 0 && c.e == 0) ask(c.book, c.words, 1, 0), ask(c.book, c.words, 2, 0);
                /* the sheet on one that holds 1 -> 2 too, and so 2 -> 1; intervals and tetrahedra are none */
                if (c.which == 14 && c.d == 0 && c.e == 0) ask(c.book, c.words, 1, 2);
                uint32_t due = c.which == 9 && m.dim == 1 ? DAYBOOK_DIMENSION_OVER : c.which == 14 && m.dim != 2 ? DAYBOOK_NOT_SHEET : DAYBOOK_ACCEPTED;
                measured(&c);
                if (c.which != 2 && c.number != due) fail("the number that a call gives");
                if (c.which == 2) ask_all(c.book, c.words);
            }
    measure_kept(&c, m.dim, m.cells);
    measure_drops(&c, m.dim);
    measure_broken(&c, m.dim, m.cells);
    measure_salvages(&c, m);
    free(c.book);
    free(m.corners);
}

/* ---- what a search reads */

static sigjmp_buf met;

static void on_fault(int number) {
    siglongjmp(met, number);
}

/* Whether a search for j in row i of 0 -> 1 touches memory that may not be read; where it does not, it says yes after so many indices. */
static int touches(const uint32_t *book, size_t words, uint32_t i, uint32_t j, size_t indices) {
    uint32_t yes = 7, key = 7;
    size_t read = 7, position = 7;
    if (sigsetjmp(met, 1)) return 1;
    if (daybook_find(book, words, 0, 1, i, j, &yes, &read, &key, &position) || yes != 1 || read != indices) fail("a search in a long row");
    return 0;
}

/* Vertex 4096 is in all 4,096 intervals, so its row of 0 -> 1 is 0 1 2 .. 4095, which has whole pages inside. One of them may not be
 * read: a search for the last index before it is answered, and one for its first index is stopped by it. */
static void reads_no_further(void) {
    size_t page = (size_t)sysconf(_SC_PAGESIZE), words = 65536, start = 0, count = 0, position = 0;
    uint32_t cell, key, hub = 4096, *book = mmap(NULL, words * 4, PROT_READ | PROT_WRITE, MAP_PRIVATE | MAP_ANONYMOUS, -1, 0);
    struct mesh m = empty(1, hub + 1, hub);
    struct sigaction on = {0};
    for (unsigned k = 0; k < hub; k++) add(&m, k, hub, 0, 0);
    if (book == MAP_FAILED) exit(3);
    if (daybook_load(file, file_of(m, file), book, words, &cell) || ask(book, words, 0, 1)) fail("a star of intervals");
    if (daybook_row(book, words, 0, 1, hub, &start, &count, &key, &position) || count != hub) fail("the row of the middle");
    size_t first = (start * 4 + page - 1) / page * page / 4;
    if (first + page / 4 > start + count) {
        printf("not run: a page of %lu bytes is longer than the row\n", (unsigned long)page);
        return;
    }
    uint32_t j = (uint32_t)(first - start);
    on.sa_handler = on_fault;
    sigaction(SIGSEGV, &on, NULL);
    if (mprotect(book + first, page, PROT_NONE)) exit(3);
    if (j == 0 || touches(book, words, hub, j - 1, j)) fail("the indices that a search reads");
    if (!touches(book, words, hub, j, j + 1)) fail("a page that may not be read");
    signal(SIGSEGV, SIG_DFL);
    printf("a search for index %lu of a row of %lu reads none behind it\n", (unsigned long)(j - 1), (unsigned long)count);
    munmap(book, words * 4);
    free(m.corners);
}

/* ---- what a salvage reads */

/* A salvage of a file behind which memory may not be read: 1 where it touches that. */
static int reads_behind(const uint8_t *bytes, size_t size, struct salvaged *s, uint32_t *number) {
    if (sigsetjmp(met, 1)) return 1;
    *number = salvage(bytes, size, s);
    return 0;
}

/* A file cut at every place, each time so that it ends where a page ends and the next may not be read: the answer is that for the same bytes
 * elsewhere. So the file begins at every address, odd ones among them. Then no bytes, no places and no output at all, where there are none to be read or
 * written. */
static void reads_no_more_than_the_file(void) {
    size_t page = (size_t)sysconf(_SC_PAGESIZE), whole;
    static struct salvaged here, there;
    struct mesh m = stacked(4);
    struct sigaction on = {0};
    uint8_t *pages = mmap(NULL, 2 * page, PROT_READ | PROT_WRITE, MAP_PRIVATE | MAP_ANONYMOUS, -1, 0), *end = pages + page;
    if (pages == MAP_FAILED || mprotect(end, page, PROT_NONE)) exit(3);
    whole = file_of(m, file);
    if (whole > page) fail("a file that fits in a page");
    on.sa_handler = on_fault;
    sigaction(SIGSEGV, &on, NULL);
    for (size_t size = 0; size <= whole; size++) {
        uint32_t number = 99, wanted;
        memset(&here, 0x5A, sizeof here), memset(&there, 0x5A, sizeof there);
        memcpy(end - size, file, size);
        wanted = salvage(file, size, &there);
        if (reads_behind(end - size, size, &here, &number)) fail("a salvage that reads behind its file");
        if (number != wanted || number != (size < 4) || memcmp(&here, &there, sizeof here)) fail("a salvage of the same bytes elsewhere");
    }
    uint32_t unread;
    if (!reads_behind(end - 3, 4, &here, &unread)) fail("a page behind a file that may not be read");
    signal(SIGSEGV, SIG_DFL);
    static const uint8_t none[4] = {0x80, 4, 0, 0};
    uint8_t out[4] = {7, 7, 7, 7};
    uint32_t place = 7, flags[3] = {7, 7, 7};
    size_t length = 7, count = 7;
    if (daybook_salvage(none, 4, out, 4, &place, 0, &length, &count, flags, flags + 1, flags + 2) || memcmp(out, none, 4) || place != 7 || length != 4 || count || flags[0] || flags[1] || flags[2])
        fail("a salvage of no cells");
    if (daybook_salvage(none, 0, out, 0, &place, 0, &length, &count, flags, flags + 1, flags + 2) != DAYBOOK_FILE_TOO_SHORT) fail("a salvage of no bytes");
    if (daybook_salvage(none, 4, out, 0, &place, 0, &length, &count, flags, flags + 1, flags + 2) != DAYBOOK_BUFFER_TOO_SHORT) fail("a salvage without output");
    printf("a salvage of %lu bytes, cut at every place, reads none behind them\n", (unsigned long)whole);
    munmap(pages, 2 * page);
    free(m.corners);
}

/* ---- what a sheet reads and writes */

/* Lent memory that ends where a page ends, and behind which no memory may be touched: where its pages begin and where it does, and the bytes of both. */
struct walled {
    uint8_t *pages, *at;
    size_t size, all;
};

/* So many bytes of it. */
static struct walled wall(size_t size) {
    size_t page = (size_t)sysconf(_SC_PAGESIZE), own = (size + page - 1) / page * page;
    struct walled w = {mmap(NULL, own + page, PROT_READ | PROT_WRITE, MAP_PRIVATE | MAP_ANONYMOUS, -1, 0), NULL, size, own + page};
    if (w.pages == MAP_FAILED || mprotect(w.pages + own, page, PROT_NONE)) exit(3);
    w.at = w.pages + own - size;
    memset(w.at, 0x5A, size);
    return w;
}

/* The sheet of a book that may be read and not written, of so many words, with lists behind which no memory may be touched: 1 where it touches what it may not. */
static int oversteps(const uint32_t *book, size_t words, const struct walled lists[4], struct outlined *o, uint32_t *number) {
    uint32_t key;
    size_t position;
    if (sigsetjmp(met, 1)) return 1;
    *number = daybook_sheet(book, words, (uint32_t *)(void *)lists[0].at, lists[0].size / 4, lists[1].at, lists[1].size, (uint32_t *)(void *)lists[2].at, lists[2].size / 4,
                            (uint32_t *)(void *)lists[3].at, lists[3].size / 4, &o->length, &o->vertex_count, &o->edge_count, &o->why, &o->which, &key, &position);
    return 0;
}

/* The sheet with just the room that it needs, and with each list a place shorter, each before a wall: what it writes is what it writes elsewhere, and a refusal writes nothing. */
static void sheet_between_walls(struct mesh m) {
    static struct outlined here, there;
    size_t words = 60000, position;
    uint32_t *book = calloc(words, 4), cell, key, number = 99;
    if (!book) exit(3);
    if (daybook_load(file, file_of(m, file), book, words, &cell) || ask(book, words, 1, 2)) fail("a small mesh with what the sheet needs");
    words = book[4];
    if (outline(book, words, &there, &key, &position)) fail("the sheet of a small mesh");
    struct walled lent = wall(words * 4);
    memcpy(lent.at, book, words * 4);
    if (mprotect(lent.pages, lent.all - (size_t)sysconf(_SC_PAGESIZE), PROT_READ)) exit(3);
    const uint32_t *shown = (const uint32_t *)(const void *)lent.at;
    const size_t need[4] = {12 * (size_t)m.cells, there.length, 4 * there.vertex_count, 4 * there.edge_count}, places[4] = {4, 1, 4, 4};
    const void *wanted[4] = {there.across, there.rim, there.vertices, there.edges};
    for (int less = 0; less <= 4; less++) { /* the list that is a place shorter, or none */
        struct walled lists[4];
        uint32_t due = less == 4 || !need[less] ? DAYBOOK_ACCEPTED : less == 1 ? DAYBOOK_BUFFER_TOO_SHORT : DAYBOOK_LIST_LENGTH;
        for (int k = 0; k < 4; k++) lists[k] = wall(need[k] - (k == less && need[k] ? places[k] : 0));
        if (oversteps(shown, words, lists, &here, &number)) fail("a sheet that touches what is not lent");
        if (number != due) fail("the number of a sheet between walls");
        for (int k = 0; k < 4; k++) {
            if (!due && memcmp(lists[k].at, wanted[k], need[k])) fail("a sheet with just the room that it needs");
            for (size_t at = 0; due && at < lists[k].size; at++)
                if (lists[k].at[at] != 0x5A) fail("a refused sheet that writes");
        }
        if (less == 4 && !oversteps(shown, words + 1, lists, &here, &number)) fail("a page behind a book that may not be read");
        for (int k = 0; k < 4; k++) munmap(lists[k].pages, lists[k].all);
    }
    munmap(lent.pages, lent.all);
    free(book);
    free(m.corners);
}

/* The surface of a tetrahedron, which has no rim. */
static struct mesh closed(void) {
    struct mesh m = empty(2, 4, 4);
    add(&m, 0, 1, 2, 0), add(&m, 0, 1, 3, 0), add(&m, 0, 2, 3, 0), add(&m, 1, 2, 3, 0);
    return m;
}

/* Ribbons and squares of many sizes, so that the lists begin at many addresses; a closed surface; and no cells at all. */
static void sheets_stay_within(void) {
    struct sigaction on = {0};
    on.sa_handler = on_fault;
    sigaction(SIGSEGV, &on, NULL);
    for (unsigned n = 1; n < 40; n++) sheet_between_walls(ribbon(n));
    for (unsigned n = 2; n < 24; n++) sheet_between_walls(sheet(n));
    sheet_between_walls(closed());
    sheet_between_walls(apart(2, 0));
    signal(SIGSEGV, SIG_DFL);
    printf("63 sheets read their book and write their lists and nothing behind them\n");
}

/* ---- what a plain answer reads and writes */

/* A plain answer with its three places before walls: 1 where it touches what it may not. */
static int trespasses(const uint32_t *book, size_t words, const uint32_t ask[4], const struct walled places[3], uint32_t *number) {
    if (sigsetjmp(met, 1)) return 1;
    *number = daybook_plain(book, words, ask[0], ask[1], ask[2], ask[3], (uint32_t *)(void *)places[0].at, (uint32_t *)(void *)places[1].at, (size_t *)(void *)places[2].at);
    return 0;
}

/* A plain answer before walls, which has to give this number: where accepted its one place has what it has elsewhere, with 11 the other two have this, and all that is not written stays. */
static void plain_is(const uint32_t *book, size_t words, const uint32_t ask[4], uint32_t due, uint32_t due_key, size_t due_position) {
    struct walled places[3] = {wall(4), wall(4), wall(8)};
    uint32_t number = 99, yes, key, kept, left;
    size_t position;
    memcpy(&kept, places[0].at, 4), yes = kept;
    if (trespasses(book, words, ask, places, &number)) fail("a plain answer that touches what is not lent");
    if (number != due || daybook_plain(book, words, ask[0], ask[1], ask[2], ask[3], &yes, &key, &position) != due) fail("the number of a plain answer between walls");
    if (due ? yes != kept : yes > 1) fail("a plain answer that is neither 1 nor 0, or is given with a refusal");
    if (memcmp(places[0].at, &yes, 4)) fail("a plain answer elsewhere");
    memcpy(&left, places[1].at, 4);
    if (left != (due == DAYBOOK_ROWS_BROKEN ? due_key : kept)) fail("the key of a plain answer");
    memset(&position, 0x5A, sizeof position);
    if (memcmp(places[2].at, due == DAYBOOK_ROWS_BROKEN ? &due_position : &position, 8)) fail("the position of a plain answer");
    for (int k = 0; k < 3; k++) munmap(places[k].pages, places[k].all);
}

/* Plain answers in a book that may be read and not written, of just the words that it uses: for each d and e the first and the last, and one past the last of either; then with a word behind the
 * book, which may not be read; with an index too large; and with no words. */
static void plain_between_walls(struct mesh m) {
    size_t words = 60000;
    uint32_t *book = calloc(words, 4), cell, number = 99, count[4];
    if (!book) exit(3);
    if (daybook_load(file, file_of(m, file), book, words, &cell)) fail("a small mesh");
    size_t own = book[4];
    for (uint32_t d = 1; d < m.dim; d++)
        if (ask(book, words, d, 0)) fail("the edges and faces of a small mesh");
    for (uint32_t d = 0; d <= m.dim; d++) count[d] = entities_of(book, d);
    if (daybook_load(file, file_of(m, file), book, words, &cell)) fail("a small mesh again");
    struct walled lent = wall(own * 4);
    size_t behind = (size_t)sysconf(_SC_PAGESIZE);
    memcpy(lent.at, book, own * 4);
    if (mprotect(lent.pages, lent.all - behind, PROT_READ)) exit(3);
    const uint32_t *shown = (const uint32_t *)(const void *)lent.at;
    for (uint32_t d = 0; d <= m.dim; d++)
        for (uint32_t e = 0; e <= m.dim; e++)
            for (int turn = 0; turn < 16; turn++) {
                const uint32_t near[2][4] = {{0, count[d] / 2, count[d] - 1, count[d]}, {0, count[e] / 2, count[e] - 1, count[e]}};
                const uint32_t wanted[4] = {d, e, near[0][turn / 4], near[1][turn % 4]};
                plain_is(shown, own, wanted, wanted[2] >= count[d] ? DAYBOOK_NO_SUCH_ENTITY : wanted[3] >= count[e] ? DAYBOOK_NO_SUCH_INDEX : DAYBOOK_ACCEPTED, 0, 0);
            }
    const uint32_t over[2][4] = {{m.dim + 1, 0, 0, 0}, {0, m.dim + 1, 0, 0}}, cells[4] = {m.dim, m.dim, 0, 0};
    for (int k = 0; k < 2; k++) plain_is(shown, own, over[k], DAYBOOK_DIMENSION_OVER, 0, 0);
    struct walled places[3] = {wall(4), wall(4), wall(8)};
    if (!trespasses(shown, own + 1, cells, places, &number)) fail("a page behind a book that may not be read");
    for (int k = 0; k < 3; k++) munmap(places[k].pages, places[k].all);
    plain_is(shown, 0, cells, DAYBOOK_FRAME_BROKEN, 0, 0);
    if (mprotect(lent.pages, lent.all - behind, PROT_READ | PROT_WRITE)) exit(3);
    memset(lent.at + own * 4 - 4, 0xFF, 4);
    if (m.cells) plain_is(shown, own, cells, DAYBOOK_ROWS_BROKEN, 4 * m.dim, own - 5 - 1);
    munmap(lent.pages, lent.all);
    free(book);
    free(m.corners);
}

/* Chains, squares and tetrahedra of many sizes, so that the books begin at many addresses; and no cells at all. */
static void plain_answers_stay_within(void) {
    struct sigaction on = {0};
    on.sa_handler = on_fault;
    sigaction(SIGSEGV, &on, NULL);
    for (unsigned n = 1; n < 20; n++) plain_between_walls(chain(n));
    for (unsigned n = 2; n < 12; n++) plain_between_walls(sheet(n));
    for (unsigned n = 2; n < 8; n++) plain_between_walls(stacked(n));
    for (unsigned dim = 1; dim <= 3; dim++) plain_between_walls(apart(dim, 0));
    signal(SIGSEGV, SIG_DFL);
    printf("plain answers in 38 books read their book and write their places and nothing behind them\n");
}

/* ---- side by side */

struct worker {
    uint8_t file[32768];
    size_t size, words;
    uint32_t *book, number, some, sheet;
    double boxes[2][6];
    struct salvaged saved;
    struct outlined outlined;
    uint32_t plain[16][PLAINS];
};

/* Plain answers for each d and e, two entities each time. */
static uint32_t answer_plainly(const uint32_t *book, size_t words, uint32_t plain[16][PLAINS]) {
    uint32_t number = 0, top = book[0] >> 30, key;
    size_t position;
    for (uint32_t pair = 0; pair < 16; pair++)
        for (uint32_t k = 0, d = pair / 4, e = pair % 4; d <= top && e <= top && k < PLAINS; k++)
            number |= daybook_plain(book, words, d, e, 17 * k % entities_of(book, d), 5 * k % entities_of(book, e), &plain[pair][k], &key, &position);
    return number;
}

static void *work(void *place) {
    struct worker *w = place;
    uint32_t cell;
    w->number = daybook_load(w->file, w->size, w->book, w->words, &cell);
    w->number |= ask_all(w->book, w->words) | drop(w->book, w->words, 0, 1) | drop(w->book, w->words, 1, 0);
    uint32_t key, points = points_of(w->book);
    size_t position;
    w->number |= daybook_box(w->book, w->words, coordinates, 2 * points, 2, 2, entities_of(w->book, 2) - 1, w->boxes[0], &key, &position);
    w->number |= daybook_whole_box(w->book, w->words, coordinates, 3 * points, 3, w->boxes[1], &w->some, &key, &position);
    memset(&w->saved, 0x5A, sizeof w->saved);
    w->number |= salvage(w->file, w->size * 2 / 3, &w->saved);
    memset(&w->outlined, 0x5A, sizeof w->outlined);
    w->number |= ask(w->book, w->words, 1, 0);
    w->sheet = outline(w->book, w->words, &w->outlined, &key, &position);
    memset(w->plain, 0x5A, sizeof w->plain);
    w->number |= answer_plainly(w->book, w->words, w->plain);
    return NULL;
}

static void side_by_side(void) {
    static struct worker workers[THREADS], alone;
    for (int round = 0; round < ROUNDS; round++) {
        pthread_t threads[THREADS];
        for (int k = 0; k < THREADS; k++) {
            struct mesh m = k % 2 ? random_cells(3, 60 + k, 200) : sheet(12 + k + round);
            workers[k].words = 200000;
            workers[k].size = file_of(m, workers[k].file);
            workers[k].book = malloc(200000 * 4);
            free(m.corners);
        }
        for (int k = 0; k < THREADS; k++)
            if (pthread_create(&threads[k], NULL, work, &workers[k])) exit(3);
        for (int k = 0; k < THREADS; k++) pthread_join(threads[k], NULL);
        for (int k = 0; k < THREADS; k++) {
            alone = workers[k];
            alone.book = malloc(200000 * 4);
            work(&alone);
            if (workers[k].number || memcmp(alone.book, workers[k].book, 200000 * 4)) fail("calls on different books side by side");
            if (workers[k].some != 1 || memcmp(alone.boxes, workers[k].boxes, sizeof alone.boxes)) fail("boxes in different books side by side");
            if (memcmp(&alone.saved, &workers[k].saved, sizeof alone.saved)) fail("salvages of different files side by side");
            if (workers[k].sheet != (k % 2 ? DAYBOOK_NOT_SHEET : DAYBOOK_ACCEPTED) || memcmp(&alone.outlined, &workers[k].outlined, sizeof alone.outlined))
                fail("sheets in different books side by side");
            if (memcmp(alone.plain, workers[k].plain, sizeof alone.plain)) fail("plain answers in different books side by side");
            free(alone.book);
            free(workers[k].book);
        }
    }
    printf("%d books and files side by side in threads, %d times: each as if it were alone\n", THREADS, ROUNDS);
}

int main(void) {
    setvbuf(stdout, NULL, _IOLBF, 0);
    static const char *names[] = {"load", "ask", "make", "row", "write", "euler", "held_count", "find", "ask_list", "closures", "drop", "box", "whole_box", "salvage", "sheet", "plain"};
    static const size_t kilobytes[] = {128, 512, 512, 16, 64, 64, 16, 16, 512, 64, 64, 64, 128, 256, 256, 64};
    enough("a sheet of 3,698 triangles", sheet(44));
    enough("two stacked scans of 4,056 tetrahedra", stacked(27));
    enough("a chain of 4,096 intervals", chain(4096));
    enough("2,700 triangles apart", apart(2, 2700));
    enough("2,000 tetrahedra apart", apart(3, 2000));
    enough("one triangle", apart(2, 1));
    enough("no cells", chain(0));
    enough("a fan of 300 triangles", fan(300));
    for (unsigned dim = 1; dim <= 3; dim++) enough("random cells on few vertices", random_cells(dim, 24, 250));
    for (unsigned dim = 1; dim <= 3; dim++) enough("random cells on many vertices", random_cells(dim, 900, 250));
    fill_counts();
    fill_coordinates();
    measure(sheet(45));
    measure(stacked(27));
    measure(random_cells(3, 8192, 4096));
    measure(chain(100));
    measure_sheets();
    for (int k = 0; k < CALLS; k++) {
        printf("%s: %lu bytes of stack\n", names[k], (unsigned long)most[k]);
        if (most[k] > kilobytes[k] << 10) fail("the stack that a call needs");
    }
    reads_no_further();
    reads_no_more_than_the_file();
    sheets_stay_within();
    plain_answers_stay_within();
    side_by_side();
    return 0;
}
