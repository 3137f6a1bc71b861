/* freed.so, to be loaded before a program (LD_PRELOAD): prints at its end how many blocks were freed that held octets
 * of a secret, eight in a row. COPIES_SECRET is its 32 octets, in hex. */
#define _GNU_SOURCE
#include <dlfcn.h>
#include <malloc.h>
#include <stdatomic.h>
#include <stdint.h>
#include <stdio.h>
#include <stdlib.h>
#include <string.h>

static uint8_t secret[32];
static atomic_int blocks, knows_secret;
static void (*free_of_system)(void *);

__attribute__((constructor)) static void begin(void) {
    const char *hex = getenv("COPIES_SECRET");
    for (size_t at = 0; at < sizeof secret; at++) {
        unsigned octet;
        if (hex == NULL || sscanf(hex + 2 * at, "%2x", &octet) != 1) {
            fputs("freed: no COPIES_SECRET\n", stderr);
            abort();
        }
        secret[at] = (uint8_t)octet;
    }
    knows_secret = 1;
}

__attribute__((destructor)) static void end(void) {
    fprintf(stderr, "%d blocks with octets of the secret\n", blocks);
}

void free(void *old) {
    if (free_of_system == NULL) {
        *(void **)&free_of_system = dlsym(RTLD_NEXT, "free");
    }
    if (old != NULL && knows_secret) {
        for (size_t part = 0; part < sizeof secret; part += 8) {
            if (memmem(old, malloc_usable_size(old), secret + part, 8) != NULL) {
                blocks++;
                break;
            }
        }
    }
    free_of_system(old);
}
