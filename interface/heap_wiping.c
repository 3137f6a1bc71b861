/* The heap under the library in place of the toolchain's: each block is wiped before it is freed. Not proved: what the
 * library's proofs assume of these three functions has to be read here. */
#define _DEFAULT_SOURCE
#include <malloc.h>
#include <stdbool.h>
#include <stdint.h>
#include <stdlib.h>
#include <string.h>

typedef struct {
    bool ok;
    void *at;
} tried;

static uint8_t nothing[16];

static tried answer(void *at) {
    tried result = {at != NULL, at != NULL ? at : nothing};
    return result;
}

/* New memory of n octets, a block even of none; align is 1 to 16 and divides what malloc aligns to. */
tried rattle_alloc(size_t n, size_t align) {
    return answer(malloc(n != 0 ? n : align));
}

void rattle_dealloc(void *at) {
    if (at != NULL) {
        explicit_bzero(at, malloc_usable_size(at));
        free(at);
    }
}

/* A block of n octets that begins with the first `kept` of the old one, which is wiped. Where there is no memory the
 * old one stays. */
tried rattle_realloc(void *old, size_t kept, size_t n, size_t align) {
    tried result = rattle_alloc(n, align);
    if (result.ok) {
        memcpy(result.at, old, kept < n ? kept : n);
        rattle_dealloc(old);
    }
    return result;
}
