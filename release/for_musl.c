/* What a program that is linked with musl has in the place of what the toolchain has for glibc, and a program for ARM64
 * with either. Not proved: what the program's proofs assume of these calls has to be read here.
 *
 * The words of the command line: the toolchain's own calls take them where .init_array is run, to which musl hands
 * none. The program's own main has another name there (release/static_program.sh, arm64.sh). */
#define _DEFAULT_SOURCE
#include <stddef.h>
#include <stdint.h>
#include <sys/syscall.h>
#include <sys/types.h>
#include <unistd.h>

static size_t count;
static char **words;

int program_main(int argc, char **argv);
size_t rattle_arg_count(void);
ssize_t rattle_arg(size_t at, uint8_t *dst, size_t room);

size_t rattle_arg_count(void) {
    return count;
}

/* Writes the octets of a word where dst begins and answers how many; -1 where there is no such word, -2 where dst is
 * too small. */
ssize_t rattle_arg(size_t at, uint8_t *dst, size_t room) {
    if (at >= count || words[at] == NULL) {
        return -1;
    }
    size_t size = 0;
    for (; words[at][size] != '\0'; size++) {
        if (size == room) {
            return -2;
        }
        dst[size] = (uint8_t)words[at][size];
    }
    return (ssize_t)size;
}

#ifndef __GLIBC__
/* What a file is. musl has this call since 1.2.5, and Debian 12 has 1.2.3. */
__attribute__((weak)) int statx(int folder, const char *path, int flags, unsigned int mask, void *told) {
    return (int)syscall(SYS_statx, folder, path, flags, mask, told);
}
#endif

int main(int argc, char **argv) {
    count = (size_t)argc;
    words = argv;
    return program_main(argc, argv);
}
