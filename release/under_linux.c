/* What stands under the library, and with PROGRAM under the program, on a processor that the toolchain's own C isn't
 * made for: the heap, and errno. For any Linux of 64 bits and any C library. Not proved: what the proofs assume of these
 * calls (the toolchain's libc::heap, and its os) has to be read here. */
#include <errno.h>
#include <stddef.h>
#include <stdint.h>
#include <stdlib.h>

#define HIDDEN __attribute__((visibility("hidden")))

/* Whether there is memory, and where. */
typedef struct {
    uint64_t ok;
    uint64_t at;
} tried;

HIDDEN tried rattle_alloc(uint64_t n, uint64_t align);
HIDDEN tried rattle_realloc(void *old, uint64_t kept, uint64_t n, uint64_t align);
HIDDEN void rattle_dealloc(void *at);

/* Where there is no memory, the place is one that nothing is read from or written to. */
static uint8_t nothing;

static tried answer(void *at) {
    return (tried){at != NULL, (uint64_t)(uintptr_t)(at != NULL ? at : &nothing)};
}

/* The alignment is 16 or less, which malloc gives. (A block of no octets is asked for as one of a few.) */
tried rattle_alloc(uint64_t n, uint64_t align) {
    return answer(malloc(n != 0 ? n : align));
}

tried rattle_realloc(void *old, uint64_t kept, uint64_t n, uint64_t align) {
    (void)kept;
    return answer(realloc(old, n != 0 ? n : align));
}

void rattle_dealloc(void *at) {
    free(at);
}

#ifdef PROGRAM
int rattle_errno(void);
void rattle_set_errno(int to);

int rattle_errno(void) {
    return errno;
}

void rattle_set_errno(int to) {
    errno = to;
}
#endif
