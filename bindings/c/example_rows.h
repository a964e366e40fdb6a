/* What the examples share of reading a CSV: its rows, and the cells of a row. */
#ifndef PARVUSEK_EXAMPLE_ROWS_H
#define PARVUSEK_EXAMPLE_ROWS_H

#include <stdint.h>
#include <stdio.h>
#include <string.h>

/* The next row without its line end. Hands back 1, or 0 at the end of the list or where it cannot be read. A row that is
   longer than there is room for, or has a zero byte, is handed back empty, so that no part of it is taken for a row. */
static int next_row(FILE *list, char *row, size_t size) {
    size_t length = 0;
    int is_text = 1, byte = getc(list);
    if (byte == EOF) {
        return 0;
    }
    for (; byte != EOF && byte != '\n'; byte = getc(list)) {
        if (byte == '\0' || length + 1 == size) {
            is_text = 0;
        } else {
            row[length++] = (char)byte;
        }
    }
    if (length > 0 && row[length - 1] == '\r') {
        length--;
    }
    row[is_text ? length : 0] = '\0';
    return !ferror(list);
}

/* These take a word, or a number of 32 bits without a needless leading zero, from the front of a text, and hand back what
   stands behind it; NULL where it does not stand there. Of NULL they take nothing, so that one can follow the other. */
static const char *take(const char *text, const char *word) {
    size_t length = strlen(word);
    return text != NULL && strncmp(text, word, length) == 0 ? text + length : NULL;
}

static const char *take_number(const char *text, uint32_t *number) {
    uint64_t value = 0;
    const char *at = text;
    if (text == NULL) {
        return NULL;
    }
    for (; *at >= '0' && *at <= '9' && at - text < 10; at++) {
        value = 10 * value + (uint64_t)(*at - '0');
    }
    *number = (uint32_t)value;
    if (at == text || (*text == '0' && at - text > 1) || value > UINT32_MAX) {
        return NULL;
    }
    return at;
}

#endif
