/* Reads a book from a file and prints where it is broken, in words.
 *
 *     where FILE
 *
 * The file has the book's words, 32 bits each, the lowest byte first. One of these is printed:
 *
 *     not broken
 *     the frame is broken
 *     relation 1→2, offset 7
 *     relation 1→2, index 12
 *     free word 3
 *
 * All three are counted from 0: an index through all rows of its relation, a free word from the used length.
 * It ends with 0 where it has looked at a book, whatever it found, and with 2 where there is none to look at.
 * Built with place.h beside it and the two files that ./library leaves in a folder:
 *
 *     cc -std=c99 -I FOLDER where.c FOLDER/libdaybook.a -o where
 */
#include "daybook.h"
#include "place.h"
#include <errno.h>
#include <stdio.h>
#include <stdlib.h>
#include <string.h>

static void stop(const char *name, const char *why) {
    fprintf(stderr, "%s: %s\n", name, why);
    exit(2);
}

/* Reads a whole file as words. */
static uint32_t *read_words(const char *name, size_t *words) {
    size_t room = 1 << 16, size = 0, more;
    FILE *in = fopen(name, "rb");
    unsigned char *bytes = malloc(room), word[4];
    if (!in) stop(name, strerror(errno));
    while (bytes && (more = fread(bytes + size, 1, room - size, in)) > 0) {
        size += more;
        if (size == room) bytes = realloc(bytes, room *= 2);
    }
    if (!bytes) stop(name, "it does not fit in memory");
    if (ferror(in)) stop(name, strerror(errno));
    fclose(in);
    if (size % 4) stop(name, "it is not a whole number of 32-bit words long");
    uint32_t *book = (uint32_t *)(void *)bytes;
    for (size_t k = 0; k < size / 4; k++) {
        memcpy(word, bytes + 4 * k, 4);
        book[k] = word[0] | (uint32_t)word[1] << 8 | (uint32_t)word[2] << 16 | (uint32_t)word[3] << 24;
    }
    *words = size / 4;
    return book;
}

int main(int count, char **names) {
    if (count != 2) {
        fprintf(stderr, "where FILE: a book, as a file of 32-bit words\n");
        return 2;
    }
    size_t words = 0, position = 0;
    uint32_t *book = read_words(names[1], &words), key = 0;
    int64_t euler; /* not wanted here: this call checks the whole book and alters nothing */
    uint32_t number = daybook_euler(book, words, &euler, &key, &position);
    if (number == DAYBOOK_FRAME_BROKEN)
        printf("the frame is broken");
    else if (number == DAYBOOK_ROWS_BROKEN)
        print_place(book, key, position);
    else
        printf("not broken");
    printf("\n");
    free(book);
    return 0;
}
