/* Runs the vectors of tests/vectors/picture_check.txt, the file named by its argument, through picture_check as a C program does.
 * A picture stands against a page that may not be touched, once at each end, in memory that may not be written: a read outside
 * the picture or any write ends the program. */
#define _DEFAULT_SOURCE
#include <stdio.h>
#include <stdlib.h>
#include <string.h>
#include <sys/mman.h>

#include "picture_check.h"

enum { PAGE = 4096, LINE = 256, NUMBERS = 24 };

struct vector {
    unsigned long number;
    char title[LINE];
    uint8_t bytes[PAGE];
    size_t len;
};

static void stop(const char *why, const char *what) {
    printf("%s: %s\n", why, what);
    exit(1);
}

static void add(struct vector *vector, unsigned byte) {
    if (vector->len == PAGE) stop("a vector is longer than a page", vector->title);
    vector->bytes[vector->len++] = (uint8_t)byte;
}

/* A word in quotes stands for itself; else it is pairs of hexadecimal digits, and a plus before them adds the turn to each. */
static void add_word(struct vector *vector, const char *word, size_t len, unsigned turn) {
    if (word[0] == '\'') {
        for (size_t at = 1; at + 1 < len; at++) add(vector, (unsigned char)word[at]);
        return;
    }
    size_t at = word[0] == '+';
    unsigned more = at ? turn : 0, byte;
    for (; at < len; at += 2) {
        if (sscanf(word + at, "%2x", &byte) != 1) stop("not two hexadecimal digits", word);
        add(vector, byte + more);
    }
}

/* The bytes of a line, several times over if it begins with a star and a count. */
static void add_line(struct vector *vector, const char *line) {
    unsigned long times = 1;
    line += strspn(line, " ");
    if (*line == '*') {
        char *rest;
        times = strtoul(line + 1, &rest, 10);
        line = rest;
    }
    for (unsigned turn = 0; turn < times; turn++) {
        const char *word = line + strspn(line, " \n");
        while (*word) {
            size_t len = strcspn(word, " \n");
            add_word(vector, word, len, turn);
            word += len;
            word += strspn(word, " \n");
        }
    }
}

/* Three pages, of which the one in the middle alone may be touched; gives that one. */
static uint8_t *guarded_page(void) {
    uint8_t *pages = mmap(NULL, 3 * PAGE, PROT_NONE, MAP_PRIVATE | MAP_ANONYMOUS, -1, 0);
    if (pages == MAP_FAILED) stop("no memory", "mmap");
    return pages + PAGE;
}

static uint32_t checked(uint8_t *page, size_t offset, const struct vector *vector) {
    if (mprotect(page, PAGE, PROT_READ | PROT_WRITE) != 0) stop("no writing", "mprotect");
    memcpy(page + offset, vector->bytes, vector->len);
    if (mprotect(page, PAGE, PROT_READ) != 0) stop("no reading", "mprotect");
    return picture_check(page + offset, vector->len);
}

static void run(uint8_t *page, const struct vector *vector, unsigned *reached) {
    const size_t offsets[2] = {0, PAGE - vector->len};
    for (int end = 0; end < 2; end++) {
        uint32_t answer = checked(page, offsets[end], vector);
        if (answer != vector->number) {
            printf("%s: picture_check gives %u, not %lu\n", vector->title, (unsigned)answer, vector->number);
            exit(1);
        }
    }
    reached[vector->number]++;
}

/* A title's line: the number, a space, and the title. */
static void begin(struct vector *vector, const char *line) {
    char *rest;
    vector->number = strtoul(line, &rest, 10);
    vector->len = 0;
    if (rest == line || *rest != ' ' || vector->number >= NUMBERS) stop("no number and title", line);
    strcpy(vector->title, rest + 1);
    vector->title[strcspn(vector->title, "\n")] = 0;
}

int main(int count, char **words) {
    static struct vector vector;
    unsigned reached[NUMBERS] = {0}, vectors = 0;
    char line[LINE];
    FILE *file = count == 2 ? fopen(words[1], "r") : NULL;
    if (!file) stop("no file of vectors", count == 2 ? words[1] : "none named");
    uint8_t *page = guarded_page();
    while (fgets(line, LINE, file)) {
        if (line[0] == ' ') add_line(&vector, line);
        if (line[0] == ' ' || line[0] == '#' || line[0] == '\n') continue;
        if (vectors++) run(page, &vector, reached);
        begin(&vector, line);
    }
    fclose(file);
    if (vectors) run(page, &vector, reached);
    printf("%u vectors, each number:", vectors);
    for (unsigned number = 0; number < NUMBERS; number++)
        if (reached[number]) printf(" %u: %u", number, reached[number]);
    printf("\n");
    return 0;
}
