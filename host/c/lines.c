#define _POSIX_C_SOURCE 200809L
#include "lines.h"

#include <stdlib.h>
#include <string.h>
#include <sys/types.h>

bool lines_next(struct lines *lines, struct piece *line)
{
    ssize_t length = getline(&lines->text, &lines->capacity, lines->file);
    if (length < 0)
        return false;
    if (lines->text[length - 1] == '\n')
        length--;
    *line = (struct piece){lines->text, (size_t)length};
    return true;
}

void lines_free(struct lines *lines)
{
    free(lines->text);
    *lines = (struct lines){0};
}

static bool is_blank(char c)
{
    return c == ' ' || c == '\t' || c == '\r';
}

static void skip(struct piece *piece, size_t count)
{
    piece->text += count;
    piece->length -= count;
}

bool take_field(struct piece *line, struct piece *field)
{
    while (line->length > 0 && is_blank(*line->text))
        skip(line, 1);
    *field = (struct piece){line->text, 0};
    while (field->length < line->length && !is_blank(field->text[field->length]))
        field->length++;
    skip(line, field->length);
    return field->length > 0;
}

bool no_more_fields(struct piece line)
{
    struct piece field;
    return !take_field(&line, &field);
}

bool piece_is(struct piece piece, const char *word)
{
    return piece.length == strlen(word) && memcmp(piece.text, word, piece.length) == 0;
}

/* The value of a digit, 16 of any other character. */
static uint32_t digit(char c)
{
    if (c >= '0' && c <= '9')
        return (uint32_t)(c - '0');
    if (c >= 'A' && c <= 'F')
        return (uint32_t)(c - 'A' + 10);
    if (c >= 'a' && c <= 'f')
        return (uint32_t)(c - 'a' + 10);
    return 16;
}

/* The number that a field of digits is in a base, at most most. */
static bool number(struct piece field, uint32_t base, uint32_t most, uint32_t *value)
{
    uint64_t total = 0;
    for (size_t k = 0; k < field.length; k++) {
        uint32_t d = digit(field.text[k]);
        if (d >= base)
            return false;
        total = total * base + d;
        if (total > most)
            return false;
    }
    *value = (uint32_t)total;
    return true;
}

bool take_hex(struct piece *line, size_t least, size_t most, uint32_t *value)
{
    struct piece field;
    return take_field(line, &field) && field.length >= least && field.length <= most &&
           number(field, 16, UINT32_MAX, value);
}

bool take_decimal(struct piece *line, uint32_t most, uint32_t *value)
{
    struct piece field;
    return take_field(line, &field) && number(field, 10, most, value);
}
