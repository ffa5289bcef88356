/* Reads a day file and its vertices' coordinates, and prints the upright boxes that a viewer frames: that of the whole mesh, and those of
 * the cells that are named.
 *
 *     boxes FILE.day FILE.xy [CELL..]
 *
 * FILE.xy has a line for each vertex: two numbers, or three, and as many on each line.
 * Built with place.h beside it and the two files that ./library leaves in a folder:
 *
 *     cc -std=c99 -I FOLDER boxes.c FOLDER/libdaybook.a -o boxes
 */
#include "daybook.h"
#include "place.h"
#include <ctype.h>
#include <stdio.h>
#include <stdlib.h>
#include <string.h>

static uint8_t file[32768];
static double coordinates[3 * 8193];
static uint32_t *book;
static size_t words;

/* Reads the numbers of a line, at most so many, and says how many there are, or 0 where something else stands there too. */
static uint32_t read_line(const char *line, double *numbers, uint32_t most) {
    for (uint32_t count = 0;; count++) {
        char *end;
        double number = strtod(line, &end);
        if (end == line) {
            while (isspace((unsigned char)*line)) line++;
            return *line ? 0 : count;
        }
        if (count == most) return 0;
        numbers[count] = number;
        line = end;
    }
}

/* Reads the coordinates, at most those of one vertex more than a mesh can have, and says how many axes they have, or 0 where a line
 * has not as many numbers as the first, which has two or three. */
static uint32_t read_coordinates(FILE *in, size_t *lines) {
    char line[256];
    uint32_t axes = 2;
    for (*lines = 0; *lines <= 8192 && fgets(line, sizeof line, in); ++*lines) {
        double numbers[3];
        uint32_t count = read_line(line, numbers, 3);
        if (*lines == 0) axes = count;
        if ((!strchr(line, '\n') && !feof(in)) || count < 2 || count != axes) return 0;
        memcpy(coordinates + *lines * axes, numbers, axes * sizeof *numbers);
    }
    return axes;
}

/* Prints a box, each end so that it reads back as the same float. */
static void print_box(const double box[6], uint32_t axes) {
    for (uint32_t k = 0; k < axes; k++) printf("%s %c %.17g to %.17g", k ? "," : "", "xyz"[k], box[2 * k], box[2 * k + 1]);
    printf("\n");
}

/* Prints the box of the whole mesh, or why there is none. */
static uint32_t print_whole(size_t given, uint32_t axes) {
    double box[6];
    size_t position = 0;
    uint32_t some = 0, key = 0, number = daybook_whole_box(book, words, coordinates, given, axes, box, &some, &key, &position);
    if (number) {
        print_refusal(number, book, key, position);
    } else if (!some) {
        printf("mesh: no box\n");
    } else {
        printf("mesh:");
        print_box(box, axes);
    }
    return number;
}

/* Prints the box of a cell, or why there is none. */
static uint32_t print_cell(const char *name, size_t given, uint32_t axes) {
    char *end;
    unsigned long long read = strtoull(name, &end, 10);
    uint32_t cell = isdigit((unsigned char)*name) && !*end && read < UINT32_MAX ? (uint32_t)read : UINT32_MAX, key = 0;
    double box[6];
    size_t position = 0;
    uint32_t number = daybook_box(book, words, coordinates, given, axes, book[0] >> 30, cell, box, &key, &position);
    printf("cell %s:", name);
    if (number == DAYBOOK_NO_SUCH_ENTITY) {
        printf(" there is none\n");
    } else if (number) {
        printf(" ");
        print_refusal(number, book, key, position);
    } else {
        print_box(box, axes);
    }
    return number;
}

int main(int count, char **names) {
    FILE *in = count > 2 ? fopen(names[1], "rb") : NULL, *places = count > 2 ? fopen(names[2], "r") : NULL;
    if (!in || !places) {
        fprintf(stderr, "boxes FILE.day FILE.xy [CELL..]: a day file, its vertices' coordinates, and numbers of cells\n");
        return 2;
    }
    size_t size = fread(file, 1, sizeof file, in), lines;
    uint32_t axes = read_coordinates(places, &lines), cell;
    fclose(in);
    fclose(places);

    /* A book for the cells alone: no other relation is needed for their boxes. */
    uint32_t head = (uint32_t)file[0] << 24 | (uint32_t)file[1] << 16 | (uint32_t)file[2] << 8 | file[3];
    words = 6 + (size_t)(head >> 3 & 0x1FFF) * ((head >> 30) + 2);
    book = malloc(words * sizeof *book);
    if (!book) return 2;
    uint32_t number = daybook_load(file, size, book, words, &cell);
    if (number) {
        printf("refused %u\n", (unsigned)number);
        return 1;
    }
    if (!axes) {
        printf("line %u of the coordinates has not two or three numbers, or not as many as the first\n", (unsigned)lines + 1);
        return 1;
    }
    number = print_whole(lines * axes, axes);
    for (int k = 3; k < count && (!number || number == DAYBOOK_NO_SUCH_ENTITY); k++) {
        uint32_t one = print_cell(names[k], lines * axes, axes);
        if (one) number = one;
    }
    free(book);
    return number ? 1 : 0;
}
