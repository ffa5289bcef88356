/* Makes the library's calls on a book of its own, as it is told on standard input, and answers each
 * on standard output. Guard words stand around every lent buffer. run.py speaks to it; all numbers are
 * little-endian.
 *
 *   'B' n, n words          the book from now on
 *   'L' n, n bytes          load that file
 *   'M' d e, 'A' d e        make, ask
 *   'Q' n m, n + m words    a list of asks: n numbers of pairs, m answers as they are before it
 *   'D' d e                 drop
 *   'R' d e i, 'F' d e i j  row, find
 *   'T' d e                 every row of d→e until one is refused; behind the answer, for each row, its length and its words
 *   'W' n, n bytes          write to a buffer with these bytes
 *   'E', 'H'                Euler number, held count
 *   'P' n f s m, the lists  phase closures: n counts, and f closures, s steps (8 bytes each) and m bytes as they are before it
 *   'X' n a d i, the lists  the box of entity i of dimension d: n coordinates (8 bytes each) of a axes, and six ends as they are before it
 *   'Y' n a, the lists      the box of the whole mesh: the same, and behind the ends the place for whether there is one (4 bytes)
 *   'S' n o l, the lists    salvage: a file of n bytes, and o bytes of output and l numbers for the cells dropped as they are before it; behind
 *                           them the places for the length, the count, spare, pad and wrong_length (8, 8, 4, 4 and 4 bytes)
 *   'U' a r v e, the lists  the sheet: a cells across, r bytes of the rim, v vertices and e edges of it as they are before it; behind them the places
 *                           for the rim's length, its two counts, why and which (8, 8, 8, 4 and 4 bytes)
 *   'I' d e i j, the place  the plain answer, whether (e, j) is incident to (d, i): the place for it (4 bytes) as it is before it
 *   'C'                     a checksum only
 *
 * Behind each letter stands what the places for a key (4 bytes) and a position (8 bytes) hold before the call.
 *
 * An answer: the call's number (4 bytes), two out places (8 bytes each; they hold OUT before the call),
 * checksums of the book and of the byte buffer (4 bytes each), 1 where every guard still stands (4 bytes),
 * and what the places for a key and a position hold after the call.
 * For a list of asks the byte buffer is the answers, and the first out place a checksum of the pairs.
 * For phase closures the byte buffer is the masked bytes, the first out place a checksum of the counts, and the
 * second those of the closures (its lower half) and of the steps (its upper half).
 * For a box the byte buffer is the six ends, and the first out place a checksum of the coordinates; for that of the whole mesh the
 * lower half of the second out place is what the place for whether there is one holds.
 * For a salvage the byte buffer is the output, the first out place has checksums of the file (its lower half) and of the cells dropped (its
 * upper half), and the lower half of the second out place is a checksum of its five places, one after another.
 * For the sheet the byte buffer is the rim, the first out place has checksums of the cells across (its lower half) and of the rim's vertices (its
 * upper half), and the second those of the rim's edges and of its five places, one after another.
 * For the plain answer the lower half of the first out place is what the place for it holds.
 */
#include "daybook.h"
#include <stdio.h>
#include <stdlib.h>
#include <string.h>

enum { GUARD = 64 };
static const uint64_t OUT = 0xA5A5A5A5A5A5A5A5u;

static uint32_t table[256];

static void crc_table(void) {
    for (uint32_t n = 0; n < 256; n++) {
        uint32_t c = n;
        for (int k = 0; k < 8; k++) c = c & 1 ? 0xEDB88320u ^ (c >> 1) : c >> 1;
        table[n] = c;
    }
}

static uint32_t crc(const unsigned char *p, size_t n) {
    uint32_t c = 0xFFFFFFFFu;
    while (n--) c = table[(c ^ *p++) & 255] ^ (c >> 8);
    return c ^ 0xFFFFFFFFu;
}

/* A lent buffer of size bytes between two guards. */
struct lent { unsigned char *whole; size_t size; };

static unsigned char *at(struct lent l) { return l.whole + GUARD; }

static struct lent lend(size_t size) {
    struct lent l;
    l.size = size;
    l.whole = malloc(size + 2 * GUARD);
    if (!l.whole) exit(3);
    memset(l.whole, 0xC3, size + 2 * GUARD);
    return l;
}

static uint32_t stands(struct lent l) {
    for (size_t k = 0; k < GUARD; k++)
        if (l.whole[k] != 0xC3 || l.whole[GUARD + l.size + k] != 0xC3) return 0;
    return 1;
}

static void get(void *p, size_t n) {
    if (fread(p, 1, n, stdin) != n) exit(2);
}

static uint32_t number(void) {
    uint32_t x;
    get(&x, 4);
    return x;
}

/* Lends size bytes anew, as they come on standard input. */
static void take(struct lent *l, size_t size) {
    free(l->whole);
    *l = lend(size);
    get(at(*l), size);
}

int main(void) {
    struct lent book = lend(0);
    int call;
    crc_table();
    while ((call = getchar()) != EOF) {
        struct lent bytes = lend(0), pairs = lend(0), counts = lend(0), closures = lend(0), steps = lend(0), coordinates = lend(0), some = lend(0);
        struct lent file = lend(0), dropped = lend(0), across = lend(0), rim_vertices = lend(0), rim_edges = lend(0), said[5] = {lend(0), lend(0), lend(0), lend(0), lend(0)};
        struct lent place[2] = {lend(0), lend(0)};
        take(&place[0], 4), take(&place[1], 8);
        uint32_t *key = (uint32_t *)at(place[0]);
        size_t *position = (size_t *)at(place[1]);
        uint64_t out[2] = {OUT, OUT};
        uint32_t given = 0, d = 0, e = 0, i;
        uint32_t *words = (uint32_t *)at(book);
        size_t n = book.size / 4;
        switch (call) {
        case 'B':
            i = number();
            take(&book, (size_t)i * 4);
            break;
        case 'L':
            i = number();
            take(&bytes, i);
            given = daybook_load(at(bytes), i, words, n, (uint32_t *)out);
            break;
        case 'M':
            d = number(), e = number();
            given = daybook_make(words, n, d, e, key, position);
            break;
        case 'A':
            d = number(), e = number();
            given = daybook_ask(words, n, d, e, key, position);
            break;
        case 'Q':
            d = number(), e = number();
            take(&pairs, (size_t)d * 4), take(&bytes, (size_t)e * 4);
            given = daybook_ask_list(words, n, (uint32_t *)at(pairs), d, (uint32_t *)at(bytes), e);
            out[0] = crc(at(pairs), pairs.size);
            break;
        case 'D':
            d = number(), e = number();
            given = daybook_drop(words, n, d, e, key, position);
            break;
        case 'R': {
            size_t start, count;
            memcpy(&start, out, sizeof start), memcpy(&count, out, sizeof count);
            d = number(), e = number(), i = number();
            given = daybook_row(words, n, d, e, i, &start, &count, key, position);
            memcpy(out, &start, sizeof start), memcpy(out + 1, &count, sizeof count);
            break;
        }
        case 'F': {
            uint32_t j;
            size_t read;
            memcpy(&read, out + 1, sizeof read);
            d = number(), e = number(), i = number(), j = number();
            given = daybook_find(words, n, d, e, i, j, (uint32_t *)out, &read, key, position);
            memcpy(out + 1, &read, sizeof read);
            break;
        }
        case 'T': {
            size_t start, count;
            d = number(), e = number();
            out[0] = out[1] = 0;
            while (!(given = daybook_row(words, n, d, e, (uint32_t)out[0], &start, &count, key, position))) out[0]++, out[1] += count;
            break;
        }
        case 'W': {
            size_t length;
            memcpy(&length, out, sizeof length);
            i = number();
            take(&bytes, i);
            given = daybook_write(words, n, at(bytes), i, &length, key, position);
            memcpy(out, &length, sizeof length);
            break;
        }
        case 'E':
            given = daybook_euler(words, n, (int64_t *)out, key, position);
            break;
        case 'H':
            given = daybook_held_count(words, n, (uint32_t *)out);
            break;
        case 'P': {
            uint32_t m;
            d = number(), e = number(), i = number(), m = number();
            take(&counts, (size_t)d * 4), take(&closures, (size_t)e * 4), take(&steps, (size_t)i * 8), take(&bytes, m);
            given = daybook_closures(words, n, (int32_t *)at(counts), d, (int32_t *)at(closures), e, (double *)at(steps), i, at(bytes), m, key, position);
            out[0] = crc(at(counts), counts.size);
            out[1] = crc(at(closures), closures.size) | (uint64_t)crc(at(steps), steps.size) << 32;
            break;
        }
        case 'X': {
            uint32_t axes;
            size_t floats = number();
            axes = number(), d = number(), i = number();
            take(&coordinates, floats * 8), take(&bytes, 6 * 8);
            given = daybook_box(words, n, (double *)at(coordinates), floats, axes, d, i, (double *)at(bytes), key, position);
            out[0] = crc(at(coordinates), coordinates.size);
            break;
        }
        case 'Y': {
            size_t floats = number();
            uint32_t axes = number();
            take(&coordinates, floats * 8), take(&bytes, 6 * 8), take(&some, 4);
            given = daybook_whole_box(words, n, (double *)at(coordinates), floats, axes, (double *)at(bytes), (uint32_t *)at(some), key, position);
            out[0] = crc(at(coordinates), coordinates.size);
            memcpy(out + 1, at(some), 4);
            break;
        }
        case 'S': {
            unsigned char all[28], *next = all;
            d = number(), e = number(), i = number();
            take(&file, d), take(&bytes, e), take(&dropped, (size_t)i * 4);
            for (int k = 0; k < 5; k++) take(&said[k], k < 2 ? 8 : 4);
            given = daybook_salvage(at(file), d, at(bytes), e, (uint32_t *)at(dropped), i, (size_t *)at(said[0]), (size_t *)at(said[1]),
                                    (uint32_t *)at(said[2]), (uint32_t *)at(said[3]), (uint32_t *)at(said[4]));
            for (int k = 0; k < 5; k++) memcpy(next, at(said[k]), said[k].size), next += said[k].size;
            out[0] = crc(at(file), file.size) | (uint64_t)crc(at(dropped), dropped.size) << 32;
            out[1] = crc(all, sizeof all);
            break;
        }
        case 'U': {
            unsigned char all[32], *next = all;
            uint32_t m;
            d = number(), e = number(), i = number(), m = number();
            take(&across, (size_t)d * 4), take(&bytes, e), take(&rim_vertices, (size_t)i * 4), take(&rim_edges, (size_t)m * 4);
            for (int k = 0; k < 5; k++) take(&said[k], k < 3 ? 8 : 4);
            given = daybook_sheet(words, n, (uint32_t *)at(across), d, at(bytes), e, (uint32_t *)at(rim_vertices), i, (uint32_t *)at(rim_edges), m,
                                  (size_t *)at(said[0]), (size_t *)at(said[1]), (size_t *)at(said[2]), (uint32_t *)at(said[3]), (uint32_t *)at(said[4]),
                                  key, position);
            for (int k = 0; k < 5; k++) memcpy(next, at(said[k]), said[k].size), next += said[k].size;
            out[0] = crc(at(across), across.size) | (uint64_t)crc(at(rim_vertices), rim_vertices.size) << 32;
            out[1] = crc(at(rim_edges), rim_edges.size) | (uint64_t)crc(all, sizeof all) << 32;
            break;
        }
        case 'I': {
            uint32_t j;
            d = number(), e = number(), i = number(), j = number();
            take(&some, 4);
            given = daybook_plain(words, n, d, e, i, j, (uint32_t *)at(some), key, position);
            memcpy(out, at(some), 4);
            break;
        }
        case 'C':
            break;
        default:
            return 2;
        }
        uint32_t stand = stands(book) & stands(bytes) & stands(pairs) & stands(counts) & stands(closures) & stands(steps);
        stand &= stands(coordinates) & stands(some) & stands(place[0]) & stands(place[1]) & stands(file) & stands(dropped);
        stand &= stands(across) & stands(rim_vertices) & stands(rim_edges);
        for (int k = 0; k < 5; k++) stand &= stands(said[k]);
        uint32_t rest[3] = {crc(at(book), book.size), crc(at(bytes), bytes.size), stand};
        fwrite(&given, 4, 1, stdout);
        fwrite(out, 8, 2, stdout);
        fwrite(rest, 4, 3, stdout);
        fwrite(key, 4, 1, stdout), fwrite(position, 8, 1, stdout);
        for (i = 0; call == 'T' && i < out[0]; i++) {
            size_t start, count;
            daybook_row(words, n, d, e, i, &start, &count, key, position);
            uint32_t length = (uint32_t)count;
            fwrite(&length, 4, 1, stdout);
            fwrite(words + start, 4, count, stdout);
        }
        fflush(stdout);
        free(bytes.whole), free(pairs.whole);
        free(counts.whole), free(closures.whole), free(steps.whole);
        free(coordinates.whole), free(some.whole);
        free(file.whole), free(dropped.whole);
        free(across.whole), free(rim_vertices.whole), free(rim_edges.whole);
        for (int k = 0; k < 5; k++) free(said[k].whole);
        free(place[0].whole), free(place[1].whole);
    }
    free(book.whole);
    return 0;
}
