/* Holds the relations of a day file to the plain engine, which works out each answer from the cells' vertex sets: an acceptance bench.
 *
 *     accept FILE [--questions N | --all]
 *
 * One book gets every relation. The engine is lent another, which holds D -> 0 alone. A question is a relation d -> e and a pair (i, j):
 * the relation says whether j is in its row i, the engine whether (e, j) is incident to (d, i), and the two have to say the same.
 *
 * Which questions are asked is one of three kinds, and the last line names it:
 *
 *   every pair      where there are at most 100,000 of them, in all relations together;
 *   every entry     of every relation, that is every pair that is in it, and as many other pairs of it, or all where there are fewer:
 *                   where these are at most 400,000 questions in all;
 *   a sample        of about 10,000 elsewhere. Each relation has an equal share of it, one half for its entries and one half for the
 *                   other pairs; of either all are asked where they are not more than that.
 *
 * With --questions N it is every pair where there are at most N of them, else a sample of about N. With --all it is every pair where
 * there are at most 100,000 of them, else every entry and as many other pairs, however many questions these are.
 *
 * How those that are asked are spread: the entries, row by row, are cut into as many runs of equal length as are asked, and one of each
 * run is asked: of the first run its first, of the last its last, of any other the one that place() gives. The other pairs likewise. So
 * it depends on the mesh alone, and goes from the first row to the last.
 *
 * Besides, of each relation an entry and another pair are asked in the book that holds everything, where the engine has to say the same;
 * and numbers one past the last, which it has to refuse in either book, 17 for i and 19 for j.
 *
 * The lines go to standard output, and how long a question took to standard error. It ends with 0 where all agree, with 1 where some do
 * not, the file is refused or a row breaks the row rule, which is printed with WRONG, and with 2 where a word is wrong, the file cannot be opened or read, or a book does not fit in memory. A
 * file whose name begins with -- is named with ./ before it.
 * Built with day.h and place.h beside it and the two files that ./library leaves in a folder:
 *
 *     cc -std=c99 -I FOLDER accept.c FOLDER/libdaybook.a -o accept
 */
#include "day.h"
#include <ctype.h>
#include <stdio.h>
#include <stdlib.h>
#include <string.h>
#include <time.h>

enum { MOST_PAIRS = 100000, MOST_ENTRIES = 400000, SAMPLE = 10000, MOST_SHOWN = 10 };

/* The file; the book that holds every relation, and the engine's, which holds D -> 0 alone. */
static struct day day;
static struct book held, own;

/* A relation d -> e, and the number of its entries. */
struct relation {
    uint32_t d, e;
    uint64_t entries;
};

/* What is said to a question: the number, and with 0 a yes, 1, or a no, 0. */
struct answer {
    uint32_t number, yes;
};

/* How many questions were asked, and to how many the answers agree. */
struct tally {
    uint64_t asked, agree;
};

/* How many disagreements were met; and how many answers of the engine in its own book were timed, and how long they took, together and at
 * most. */
static uint64_t unlike, timed;
static clock_t together, longest;

/* What the relation says: whether j is in row i. */
static struct answer of_relation(const struct relation *r, uint32_t i, uint32_t j) {
    struct answer a = {0, 2};
    uint32_t key;
    size_t read, position;
    a.number = daybook_find(held.words, held.length, r->d, r->e, i, j, &a.yes, &read, &key, &position);
    return a;
}

/* What the engine says in a book: whether (e, j) is incident to (d, i). */
static struct answer of_engine(const struct book *b, const struct relation *r, uint32_t i, uint32_t j) {
    struct answer a = {0, 2};
    uint32_t key;
    size_t position;
    clock_t from = clock();
    a.number = daybook_plain(b->words, b->length, r->d, r->e, i, j, &a.yes, &key, &position);
    clock_t took = clock() - from;
    if (b == &own) together += took, timed++;
    if (b == &own && took > longest) longest = took;
    return a;
}

/* Prints an answer: yes, no, or the number of the refusal. */
static void print_answer(struct answer a) {
    if (a.number)
        printf("refused %u", (unsigned)a.number);
    else
        printf("%s", a.yes == 1 ? "yes" : a.yes == 0 ? "no" : "neither yes nor no");
}

/* Counts a question, and prints it where the two do not agree and it is one of the first. */
static void hold(struct tally *t, const struct relation *r, uint32_t i, uint32_t j, struct answer wanted, struct answer given) {
    t->asked++;
    if (wanted.number == given.number && (wanted.number || wanted.yes == given.yes)) {
        t->agree++;
        return;
    }
    if (unlike++ >= MOST_SHOWN) return;
    printf("%u→%u, i %u, j %u: the relation says ", (unsigned)r->d, (unsigned)r->e, (unsigned)i, (unsigned)j);
    print_answer(wanted);
    printf(", the engine says ");
    print_answer(given);
    printf("\n");
}

/* Asks both about a pair. */
static void question(struct tally *t, const struct book *b, const struct relation *r, uint32_t i, uint32_t j) {
    hold(t, r, i, j, of_relation(r, i, j), of_engine(b, r, i, j));
}

/* The number of pairs of a relation. */
static uint64_t pairs_of(const struct relation *r) {
    return (uint64_t)held.counts[r->d] * held.counts[r->e];
}

/* The lesser of two numbers. */
static uint64_t least(uint64_t a, uint64_t b) {
    return a < b ? a : b;
}

/* The place that is asked in run t of the k runs into which so many are cut: the first place of the first run, the last of the last, and
 * in between one that moves on from run to run by the golden section of a run. */
static uint64_t place(uint64_t t, uint64_t k, uint64_t total) {
    uint64_t from = t * total / k, length = (t + 1) * total / k - from;
    if (t == 0) return from;
    if (t == k - 1) return from + length - 1;
    return from + ((t * 2654435769u & 0xFFFFFFFF) * length >> 32);
}

/* The n-th number that is not in a row. */
static uint32_t missing(const struct row *r, uint64_t n) {
    for (size_t k = 0; k < r->count && r->at[k] <= n; k++) n++;
    return (uint32_t)n;
}

/* Asks about k of a relation's entries, or of the pairs that are none, spread over all of them. */
static void ask_spread(struct tally *t, const struct book *b, const struct relation *r, int is_entry, uint64_t k) {
    uint64_t total = is_entry ? r->entries : pairs_of(r) - r->entries, before = 0, in_row = 0;
    uint32_t next = 0;
    struct row now = {NULL, 0};
    for (uint64_t n = 0; n < k; n++) {
        uint64_t at = place(n, k, total);
        while (at - before >= in_row) {
            before += in_row;
            now = row(&held, r->d, r->e, next++);
            in_row = is_entry ? now.count : held.counts[r->e] - now.count;
        }
        question(t, b, r, next - 1, is_entry ? now.at[at - before] : missing(&now, at - before));
    }
}

/* Asks about so many entries of a relation and as many other pairs, or all where there are fewer. */
static void ask_share(struct tally *t, const struct book *b, const struct relation *r, uint64_t share) {
    ask_spread(t, b, r, 1, least(share, r->entries));
    ask_spread(t, b, r, 0, least(share, pairs_of(r) - r->entries));
}

/* Asks about every pair of a relation. */
static void ask_every(struct tally *t, const struct relation *r) {
    for (uint32_t i = 0; i < held.counts[r->d]; i++)
        for (uint32_t j = 0; j < held.counts[r->e]; j++) question(t, &own, r, i, j);
}

/* Asks for one past the last row, and in the last row for one past the last number, where the engine has to say 17 and 19. */
static void ask_past(struct tally *t, const struct book *b, const struct relation *r) {
    const struct answer no_row = {DAYBOOK_NO_SUCH_ENTITY, 0}, no_index = {DAYBOOK_NO_SUCH_INDEX, 0};
    uint32_t rows = held.counts[r->d], past = held.counts[r->e];
    hold(t, r, rows, past, no_row, of_engine(b, r, rows, past));
    if (rows) hold(t, r, rows - 1, past, no_index, of_engine(b, r, rows - 1, past));
}

/* The relation d -> e of the book that holds every one. */
static struct relation relation(uint32_t d, uint32_t e) {
    struct relation r = {d, e, 0};
    for (uint32_t i = 0; i < held.counts[d]; i++) r.entries += row(&held, d, e, i).count;
    return r;
}

/* Every relation, and how many there are. */
static struct relation relations[DAYBOOK_MOST_PAIRS];
static uint32_t relation_count;

/* Lists every relation. */
static void list_relations(void) {
    for (uint32_t d = 0; d <= held.top; d++)
        for (uint32_t e = 0; e <= held.top; e++) relations[relation_count++] = relation(d, e);
}

/* The number of pairs in all relations together. */
static uint64_t every_pair(void) {
    uint64_t sum = 0;
    for (uint32_t k = 0; k < relation_count; k++) sum += pairs_of(&relations[k]);
    return sum;
}

/* The number of entries in all relations together, and of the other pairs that are asked with them. */
static uint64_t every_entry(void) {
    uint64_t sum = 0;
    for (uint32_t k = 0; k < relation_count; k++)
        sum += relations[k].entries + least(relations[k].entries, pairs_of(&relations[k]) - relations[k].entries);
    return sum;
}

/* Which questions are asked: every pair; or of each relation every entry and as many other pairs; or a share of either. */
enum kind { EVERY, ENTRIES, SHARE };
static const char *const kinds[] = {"every pair", "every entry and as many other pairs", "a sample"};

/* The kind of questions, where so many are named, or 0 where no number is, and --all is said or not. */
static enum kind choose(uint64_t named, int is_all) {
    if (every_pair() <= (named ? named : MOST_PAIRS)) return EVERY;
    if (is_all || (!named && every_entry() <= MOST_ENTRIES)) return ENTRIES;
    return SHARE;
}

/* Prints how many were asked, and how many agree. */
static void print_tally(struct tally t) {
    printf("asked %llu, agree %llu\n", (unsigned long long)t.asked, (unsigned long long)t.agree);
}

/* Asks about a relation in the engine's own book, and prints its line. */
static struct tally ask_relation(const struct relation *r, enum kind kind, uint64_t share) {
    struct tally t = {0, 0};
    if (kind == EVERY)
        ask_every(&t, r);
    else
        ask_share(&t, &own, r, kind == ENTRIES ? r->entries : share);
    printf("%u→%u: rows %u, entries %llu, ", (unsigned)r->d, (unsigned)r->e, (unsigned)held.counts[r->d], (unsigned long long)r->entries);
    print_tally(t);
    return t;
}

/* Prints the totals, and which kind of questions they are of. */
static void print_total(struct tally all, enum kind kind) {
    uint64_t here = all.asked - all.agree;
    printf("asked %llu of %llu, %s; agree %llu, disagree %llu", (unsigned long long)all.asked, (unsigned long long)every_pair(), kinds[kind],
           (unsigned long long)all.agree, (unsigned long long)here);
    if (unlike > here) printf(" here and %llu in the two lines above", (unsigned long long)(unlike - here));
    printf("\n");
}

/* Asks about every relation, prints a line for each, then one for the other book and one for the numbers past the last, and last of all
 * the totals. */
static void accept(enum kind kind, uint64_t share) {
    struct tally all = {0, 0}, other = {0, 0}, past = {0, 0};
    for (uint32_t k = 0; k < relation_count; k++) {
        struct tally one = ask_relation(&relations[k], kind, share);
        all.asked += one.asked, all.agree += one.agree;
        ask_share(&other, &held, &relations[k], 1);
        ask_past(&past, &own, &relations[k]);
        ask_past(&past, &held, &relations[k]);
    }
    printf("in the book that holds them all: ");
    print_tally(other);
    printf("one past the last, 17 for i and 19 for j: ");
    print_tally(past);
    print_total(all, kind);
}

/* Says how long a question took. */
static void tell_time(void) {
    double us = 1e6 / CLOCKS_PER_SEC;
    fprintf(stderr, "a question took %.1f us on average, %.0f us at most\n", timed ? us * (double)together / (double)timed : 0.0,
            us * (double)longest);
}

/* Reads a number of questions; 0 where there is none. */
static uint64_t read_number(const char *text) {
    char *end;
    unsigned long long number = isdigit((unsigned char)*text) ? strtoull(text, &end, 10) : 0;
    return number && !*end && number <= UINT32_MAX ? number : 0;
}

/* Takes the words first, then the file, and then asks. */
int main(int count, char **names) {
    int is_all = count == 3 && !strcmp(names[2], "--all");
    uint64_t named = count == 4 && !strcmp(names[2], "--questions") ? read_number(names[3]) : 0;
    if ((count != 2 && !is_all && !named) || !strncmp(names[1], "--", 2)) {
        fprintf(stderr, "accept FILE [--questions N | --all]: a day file, and how many questions\n");
        return 2;
    }
    if (!read_day(&day, names[1])) return 2;
    uint32_t cell, number = fill_bare(&own, &day, &cell);
    if (!number) number = fill(&held, &day, 1, &cell);
    if (number) {
        printf("refused %u\n", (unsigned)number);
        return 1;
    }

    list_relations();
    uint64_t share = (named ? named : SAMPLE) / (2 * relation_count);
    accept(choose(named, is_all), share ? share : 1);
    tell_time();
    free(held.words);
    free(own.words);
    return unlike ? 1 : 0;
}
