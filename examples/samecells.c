/* Says of two day files whether they are the same cells in another order, and gives the map from the edges, faces and cells of one to those
 * of the other.
 *
 *     samecells FIRST SECOND [--relations]
 *
 * They are the same where D, N_0 and the set of cells are equal, each cell taken as the set of its vertices. Then the vertices have the same
 * numbers, and each edge, face and cell of the first has a partner in the second, the one with the same vertices. Its number may be another,
 * since edges, faces and cells are numbered in the order in which the cells were sent. The lines say how many have another number, and then
 * give the map: of each edge, face and cell its number in the first file, its partner's in the second, and the vertices.
 *
 * With --relations the map is not printed. Instead every relation of both books is read through it, and a line says of each whether the two
 * have the same words, or the same entries but other words.
 *
 * Where the two are not the same the lines say in what they differ: D; or the number of vertices, and the cells that only one has.
 *
 * The library is not trusted. N_d, the Euler numbers and, through the map, the vertices of each edge, face and cell are compared before
 * anything is called the same. What should not be is printed with WRONG or OTHER ENTRIES.
 *
 * It ends with 0 where they are the same, with 1 where they are not, a file is refused or something is wrong, and with 2 where a word is
 * wrong, a file cannot be opened or read, something does not fit in memory, or the lines cannot be written. A file whose name begins with --
 * is named with ./ before it.
 * Built with day.h and place.h beside it and the two files that ./library leaves in a folder:
 *
 *     cc -std=c99 -I FOLDER samecells.c FOLDER/libdaybook.a -o samecells
 */
#include "day.h"
#include <stdio.h>
#include <stdlib.h>
#include <string.h>

enum { MOST_SHOWN = 10 };

/* The partner of an entity that has none. */
#define NONE UINT32_MAX

/* An edge, a face or a cell: its vertices, ascending, with 0 in the places that are left, and its number. */
struct entity {
    uint32_t vertices[4], number;
};

/* One of the two: the file, its book, and for each dimension the partner of each entity, by number. */
struct side {
    struct day day;
    struct book book;
    uint32_t *partners[4];
};

static struct side first, second;

/* What an entity of dimension d is called. */
static const char *name_of(uint32_t d) {
    return d == first.book.top ? "cell" : d == 1 ? "edge" : "face";
}

/* So many places of so many bytes, all 0; and one more, so that there is something to point at where there are none. */
static void *places(uint32_t count, size_t size) {
    void *at = calloc((size_t)count + 1, size);
    if (!at) stop("the map");
    return at;
}

/* Orders two entities by their vertices. */
static int by_vertices(const void *one, const void *other) {
    const uint32_t *a = ((const struct entity *)one)->vertices, *b = ((const struct entity *)other)->vertices;
    for (int k = 0; k < 4; k++)
        if (a[k] != b[k]) return a[k] < b[k] ? -1 : 1;
    return 0;
}

/* The entities of dimension d of a book, ordered by their vertices; no two may have the same. */
static struct entity *listed(const struct book *b, uint32_t d) {
    struct entity *all = places(b->counts[d], sizeof *all);
    for (uint32_t i = 0; i < b->counts[d]; i++) {
        struct row r = row(b, d, 0, i);
        memcpy(all[i].vertices, r.at, r.count * sizeof *r.at);
        all[i].number = i;
    }
    qsort(all, b->counts[d], sizeof *all, by_vertices);
    for (uint32_t i = 1; i < b->counts[d]; i++)
        if (!by_vertices(&all[i - 1], &all[i]))
            wrong("%s: two %ss have the vertices of %s %u", b->day->name, name_of(d), name_of(d), (unsigned)all[i].number);
    return all;
}

/* Places for the partners of dimension d, none of which is known. */
static void clear_partners(struct side *s, uint32_t d) {
    uint32_t count = s->book.counts[d];
    s->partners[d] = places(count, sizeof *s->partners[d]);
    for (uint32_t i = 0; i < count; i++) s->partners[d][i] = NONE;
}

/* Finds the partners of dimension d: both lists are walked together, from the lowest vertices to the highest. */
static void match(uint32_t d) {
    struct entity *ours = listed(&first.book, d), *theirs = listed(&second.book, d);
    uint32_t i = 0, k = 0;
    clear_partners(&first, d);
    clear_partners(&second, d);
    while (i < first.book.counts[d] && k < second.book.counts[d]) {
        int order = by_vertices(&ours[i], &theirs[k]);
        if (order == 0) {
            first.partners[d][ours[i].number] = theirs[k].number;
            second.partners[d][theirs[k].number] = ours[i].number;
        }
        i += order <= 0, k += order >= 0;
    }
    free(ours);
    free(theirs);
}

/* A vertex is its own partner. */
static void match_vertices(void) {
    clear_partners(&first, 0);
    for (uint32_t v = 0; v < first.book.counts[0]; v++) first.partners[0][v] = v;
}

/* How many entities of dimension d have no partner. */
static uint32_t count_alone(const struct side *s, uint32_t d) {
    uint32_t alone = 0;
    for (uint32_t i = 0; i < s->book.counts[d]; i++) alone += s->partners[d][i] == NONE;
    return alone;
}

/* How many entities of dimension d have another number than their partner. */
static uint32_t count_moved(uint32_t d) {
    uint32_t moved = 0;
    for (uint32_t i = 0; i < first.book.counts[d]; i++) moved += first.partners[d][i] != i;
    return moved;
}

/* Prints the end of an entity's line, its vertices. */
static void print_vertices(struct row r) {
    printf(": vertices");
    for (size_t k = 0; k < r.count; k++) printf(" %u", (unsigned)r.at[k]);
    printf("\n");
}

/* Prints how many cells only one of the two has, and the first of them. */
static void print_alone(const struct side *s, const char *which) {
    uint32_t d = s->book.top, shown = 0;
    printf("cells only in the %s: %u\n", which, (unsigned)count_alone(s, d));
    for (uint32_t i = 0; i < s->book.counts[d] && shown < MOST_SHOWN; i++) {
        if (s->partners[d][i] != NONE) continue;
        printf("cell %u", (unsigned)i);
        print_vertices(row(&s->book, d, 0, i));
        shown++;
    }
}

/* Whether the two have equal D, N_0 and set of cells; where not, prints in what they differ. */
static int are_same(void) {
    const struct book *a = &first.book, *b = &second.book;
    if (a->top != b->top) {
        printf("not the same\nD: %u and %u\n", (unsigned)a->top, (unsigned)b->top);
        return 0;
    }
    match(a->top);
    int is_alone = count_alone(&first, a->top) || count_alone(&second, a->top);
    if (a->counts[0] == b->counts[0] && !is_alone) return 1;
    printf("not the same\n");
    if (a->counts[0] != b->counts[0]) printf("vertices: %u and %u\n", (unsigned)a->counts[0], (unsigned)b->counts[0]);
    if (is_alone) {
        print_alone(&first, "first");
        print_alone(&second, "second");
    } else {
        printf("cells: the same %u\n", (unsigned)a->counts[a->top]);
    }
    return 0;
}

/* Whether two rows have the same numbers. */
static int same_rows(struct row one, struct row other) {
    return one.count == other.count && !memcmp(one.at, other.at, one.count * sizeof *one.at);
}

/* The vertices of an entity of the first, which have to be those of its partner. */
static struct row vertices_of_both(uint32_t d, uint32_t i) {
    uint32_t k = first.partners[d][i];
    struct row ours = row(&first.book, d, 0, i);
    if (!same_rows(ours, row(&second.book, d, 0, k))) wrong("%s %u and its partner %u have other vertices", name_of(d), (unsigned)i, (unsigned)k);
    return ours;
}

/* Finds the partners of the dimensions below D; those of D are known. As many entities as the first has the second has to have, and each of
 * them a partner with its vertices. */
static void match_all(void) {
    match_vertices();
    for (uint32_t d = 1; d <= first.book.top; d++) {
        uint32_t ours = first.book.counts[d], theirs = second.book.counts[d];
        if (ours != theirs) wrong("%ss: %u and %u", name_of(d), (unsigned)ours, (unsigned)theirs);
        if (d < first.book.top) match(d);
        if (count_alone(&first, d)) wrong("%ss without a partner: %u", name_of(d), (unsigned)count_alone(&first, d));
        for (uint32_t i = 0; i < ours; i++) vertices_of_both(d, i);
    }
}

/* The Euler number of a book. */
static long long euler_of(const struct book *b) {
    int64_t euler = 0;
    uint32_t key = 0;
    size_t position = 0;
    uint32_t number = daybook_euler(b->words, b->length, &euler, &key, &position);
    if (number) {
        printf("%s: ", b->day->name);
        print_refusal(number, b->words, key, position);
        exit(1);
    }
    return euler;
}

/* Prints what is the same, and how much of it has another number. */
static void print_same(long long euler) {
    uint32_t top = first.book.top;
    printf("the same cells in %s order\n", count_moved(top) ? "another" : "the same");
    printf("vertices: %u, with the same numbers; Euler number: %lld\n", (unsigned)first.book.counts[0], euler);
    for (uint32_t d = 1; d <= top; d++)
        printf("%ss: %u, with another number: %u\n", name_of(d), (unsigned)first.book.counts[d], (unsigned)count_moved(d));
}

/* Prints the map, a line for each edge, face and cell. */
static void print_map(void) {
    for (uint32_t d = 1; d <= first.book.top; d++)
        for (uint32_t i = 0; i < first.book.counts[d]; i++) {
            struct row r = vertices_of_both(d, i);
            printf("%s %u is %u", name_of(d), (unsigned)i, (unsigned)first.partners[d][i]);
            print_vertices(r);
        }
}

/* Whether row i of d -> e in the first book and its partner's row in the second have the same entries: the partners of the one's are marked
 * in met by i + 1, and each of the other's has to be marked. A row has no number twice, so where they are as many they are the same. */
static int same_entries(uint32_t d, uint32_t e, uint32_t i, uint32_t *met) {
    struct row ours = row(&first.book, d, e, i), theirs = row(&second.book, d, e, first.partners[d][i]);
    for (size_t k = 0; k < ours.count; k++) met[first.partners[e][ours.at[k]]] = i + 1;
    size_t k = 0;
    while (k < theirs.count && met[theirs.at[k]] == i + 1) k++;
    return k == theirs.count && k == ours.count;
}

/* Prints what the relation d -> e has in both books; 1 where it is the same. */
static int print_relation(uint32_t d, uint32_t e) {
    uint32_t rows = first.book.counts[d], i = 0, k = 0, *met = places(first.book.counts[e], sizeof *met);
    while (i < rows && same_entries(d, e, i, met)) i++;
    while (k < rows && same_rows(row(&first.book, d, e, k), row(&second.book, d, e, k))) k++;
    free(met);
    printf("%u→%u: ", (unsigned)d, (unsigned)e);
    if (i < rows)
        printf("OTHER ENTRIES, first at row %u and its partner %u\n", (unsigned)i, (unsigned)first.partners[d][i]);
    else
        printf("the same %s\n", k < rows ? "entries, other words" : "words");
    return i == rows;
}

/* Prints what each relation has in both books; 1 where all are the same. */
static int print_relations(void) {
    int is_same = 1;
    for (uint32_t d = 0; d <= first.book.top; d++)
        for (uint32_t e = 0; e <= first.book.top; e++) is_same = print_relation(d, e) && is_same;
    return is_same;
}

/* Fills a book, with every relation or with those to 0 alone; where the file is refused, prints that, with the cell if one comes with it. */
static int fill_side(struct side *s, int is_all) {
    uint32_t cell = NONE, number = fill(&s->book, &s->day, is_all, &cell);
    if (!number) return 1;
    printf("%s: refused %u", s->day.name, (unsigned)number);
    if (cell != NONE) printf(", cell %u", (unsigned)cell);
    printf("\n");
    return 0;
}

/* Gives back what was taken. */
static void release(struct side *s) {
    free(s->book.words);
    for (int d = 0; d < 4; d++) free(s->partners[d]);
}

/* Compares the two files, and prints what is the same; 1 where they are. */
static int compare(int is_all) {
    if (!are_same()) return 0;
    match_all();
    long long ours = euler_of(&first.book), theirs = euler_of(&second.book);
    if (ours != theirs) wrong("Euler number: %lld and %lld", ours, theirs);
    print_same(ours);
    if (is_all) return print_relations();
    print_map();
    return 1;
}

/* Takes the words first, then the files, and then compares them. */
int main(int count, char **names) {
    int is_all = count == 4 && !strcmp(names[3], "--relations");
    if ((count != 3 && !is_all) || !strncmp(names[1], "--", 2) || !strncmp(names[2], "--", 2)) {
        fprintf(stderr, "samecells FIRST SECOND [--relations]: two day files, and whether their relations are compared\n");
        return 2;
    }
    int is_read = read_day(&first.day, names[1]);
    if (!read_day(&second.day, names[2]) || !is_read) return 2;
    int is_filled = fill_side(&first, is_all);
    if (!fill_side(&second, is_all) || !is_filled) return 1;
    int is_same = compare(is_all);
    release(&first);
    release(&second);
    if (fflush(stdout) || ferror(stdout)) {
        fprintf(stderr, "the lines cannot be written\n");
        return 2;
    }
    return is_same ? 0 : 1;
}
