/* What the examples share: reading their files, and saying what is wrong. */
#ifndef INPUT_H
#define INPUT_H

#include <shaftglimmer.h>

#include <inttypes.h>
#include <stdio.h>
#include <string.h>

enum { LINE = 16384 };

/* One line on standard error, behind all that was printed before. Gives the exit status. */
static inline int complain(const char *about, const char *what)
{
    fflush(stdout);
    fprintf(stderr, "%s: %s\n", about, what);
    return 1;
}

/* The same for a refusal. */
static inline int refused(const char *about, uint32_t number)
{
    fflush(stdout);
    fprintf(stderr, "%s: refused %" PRIu32 ": %s\n", about, number, shaftglimmer_refusal_text(number));
    return 1;
}

/* The same for the refusal of a word; the first one is word 1. */
static inline int refused_word(size_t word, uint32_t number)
{
    char name[40];
    snprintf(name, sizeof name, "word %zu", word);
    return refused(name, number);
}

/* Binary values, four bytes each, low byte first, as this processor has them. Gives the number of bytes read. */
static inline size_t read_values(FILE *file, uint32_t *values, size_t count)
{
    return fread(values, 1, 4 * count, file);
}

/* A shape with the standard slopes, whose q, n and b stand in front of binary words. 0 if there is none. */
static inline int read_shape(FILE *file, shaftglimmer_shape *shape)
{
    const shaftglimmer_shape standard = {0, 0, 0, SHAFTGLIMMER_STANDARD};
    *shape = standard;
    return read_values(file, &shape->q, 1) + read_values(file, &shape->n, 1) + read_values(file, &shape->b, 1) == 12;
}

/*
 * The values of the next line of a text that is not empty: how many there are, 0 at the end of the text. A line that is
 * malformed, too long or without its newline is a refusal.
 */
static inline uint32_t read_line(FILE *file, uint32_t values[SHAFTGLIMMER_LINE_VALUES])
{
    static char line[LINE + 1];
    do {
        if (fgets(line, sizeof line, file) == NULL) {
            return 0;
        }
    } while (line[0] == '\n');
    size_t length = strcspn(line, "\n");
    if (line[length] != '\n') {
        return SHAFTGLIMMER_REFUSED + SHAFTGLIMMER_REFUSAL_TEXT;
    }
    return shaftglimmer_parse_line((const uint8_t *)line, length, values);
}

/* A shape with the standard slopes, whose q, n and b are the first line of a text. 0 if there is none. */
static inline int read_text_shape(FILE *file, shaftglimmer_shape *shape)
{
    uint32_t values[SHAFTGLIMMER_LINE_VALUES];
    const shaftglimmer_shape standard = {0, 0, 0, SHAFTGLIMMER_STANDARD};
    *shape = standard;
    if (read_line(file, values) != 3) {
        return 0;
    }
    shape->q = values[0];
    shape->n = values[1];
    shape->b = values[2];
    return 1;
}

/* Numbers to the end of the line. */
static inline void print_numbers(const uint32_t *numbers, size_t count)
{
    for (size_t i = 0; i < count; i++) {
        printf(" %" PRIu32, numbers[i]);
    }
    printf("\n");
}

#endif
