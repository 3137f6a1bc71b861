/* What the callers that read tables share: rows of cells between tabs, octets in hexadecimal digits. A source that
 * includes it first asks for what is beside POSIX (_DEFAULT_SOURCE). */
#ifndef TABLE_H
#define TABLE_H
#include "trial.h"

/* The number that a hexadecimal digit says. */
static inline unsigned digit_of(char digit) {
    const char *const digits = "0123456789abcdef", *at = strchr(digits, digit);
    CHECK(digit != 0 && at != NULL);
    return (unsigned)(at - digits);
}

/* The octets that are written so, in a block of just their length. */
static inline uint8_t *octets_of(const char *hex, size_t *len) {
    *len = strlen(hex) / 2;
    uint8_t *octets = malloc(*len != 0 ? *len : 1);
    CHECK(octets != NULL && strlen(hex) % 2 == 0);
    for (size_t i = 0; i < *len; i++) {
        octets[i] = (uint8_t)(16 * digit_of(hex[2 * i]) + digit_of(hex[2 * i + 1]));
    }
    return octets;
}

/* The next cell of a row. */
static inline char *cell_of(char **row) {
    char *cell = strsep(row, "\t");
    CHECK(cell != NULL);
    return cell;
}

/* Does the rows of the table that the words name, and returns the status of the program. */
static inline int do_rows(int count, char **words, void do_row(char *)) {
    FILE *table = count == 2 ? fopen(words[1], "r") : NULL;
    if (table == NULL) {
        fprintf(stderr, "%s TABLE\n", words[0]);
        return 2;
    }
    char *row = NULL;
    size_t room = 0;
    while (getline(&row, &room, table) > 0) {
        do_row(row);
    }
    free(row);
    return fclose(table);
}

#endif
