/* What stands between the library and the C library's heap in libpkder_jni.so, and in mod_pkder.so for SQLite, by
 * -Wl,--wrap=free,--wrap=realloc: each block is wiped before it is freed. Not proved. */
#define _DEFAULT_SOURCE
#include <malloc.h>
#include <stdlib.h>
#include <string.h>

void __real_free(void *old);
void __wrap_free(void *old);
void *__wrap_realloc(void *old, size_t size);

void __wrap_free(void *old) {
    if (old != NULL) {
        explicit_bzero(old, malloc_usable_size(old));
        __real_free(old);
    }
}

/* Where there is no memory the old block stays as it is. */
void *__wrap_realloc(void *old, size_t size) {
    void *made = malloc(size != 0 ? size : 1);
    if (made != NULL && old != NULL) {
        size_t had = malloc_usable_size(old);
        memcpy(made, old, had < size ? had : size);
        __wrap_free(old);
    }
    return made;
}
