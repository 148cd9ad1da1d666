/* Input lines and their fields, as the program replay takes them. */
#ifndef LINES_H
#define LINES_H

#include <stdbool.h>
#include <stddef.h>
#include <stdint.h>
#include <stdio.h>

/* Some bytes of a line: any bytes but LF, zero bytes too. */
struct piece {
    const char *text;
    size_t length;
};

/* Begins with every member but the file zero. */
struct lines {
    FILE *file;
    char *text;
    size_t capacity;
};

/* Reads what stands before the next LF, or a last piece without LF that is not empty. The line stays until the next
 * call. Returns false if there is no line: feof(file) is true at the end of the input, and false after an error. */
bool lines_next(struct lines *lines, struct piece *line);
void lines_free(struct lines *lines);

/* Takes the first field off a line. Runs of space, tab and CR part the fields. Returns false if none is left. */
bool take_field(struct piece *line, struct piece *field);
/* Takes a field of least to most hex digits, without sign or prefix. Returns false for any other field. */
bool take_hex(struct piece *line, size_t least, size_t most, uint32_t *value);
/* Takes a decimal field that is at most most, without sign, with any number of leading zeros. */
bool take_decimal(struct piece *line, uint32_t most, uint32_t *value);
bool no_more_fields(struct piece line);
bool piece_is(struct piece piece, const char *word);

#endif
