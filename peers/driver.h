/* What the drivers in C share: a line of standard input is a kind and octets, and has an answer (run.py). */
#ifndef PEERS_DRIVER_H
#define PEERS_DRIVER_H

#include <stdio.h>
#include <stdlib.h>
#include <string.h>

static char line[1 << 20];
static unsigned char document[1 << 19];

/* The next document: its kind is returned, or NULL at the end. */
static inline const char *next_document(size_t *size) {
    if (!fgets(line, sizeof line, stdin)) {
        return NULL;
    }
    char *hex = strchr(line, ' ');
    *hex++ = 0;
    for (*size = 0; hex[0] > ' ' && hex[1] > ' '; hex += 2) {
        unsigned octet = 0;
        sscanf(hex, "%2x", &octet);
        document[(*size)++] = (unsigned char)octet;
    }
    return line;
}

/* Answers that the document is refused, or taken, with what is written of it. */
static inline void tell(int is_taken, const unsigned char *written, size_t size) {
    putchar(is_taken ? '+' : '-');
    for (size_t at = 0; is_taken && at < size; at++) {
        printf("%02x", written[at]);
    }
    putchar('\n');
    fflush(stdout);
}

/* Says what the driver is. */
static inline void tell_about(const char *name, const char *version, const char *call, const char *kinds) {
    printf("{\"name\": \"%s\", \"version\": \"%s\", \"call\": \"%s\", \"kinds\": [%s]}\n", name, version, call, kinds);
    fflush(stdout);
}

#endif
