/* refusing.so, to be loaded before a program (LD_PRELOAD): malloc refuses blocks of just the octets that Refused.java
 * and interface/sqlite/tests/refused.py hand over. */
#include <stddef.h>

#define REFUSED_SIZE 234567

void *__libc_malloc(size_t size);
void *malloc(size_t size);

void *malloc(size_t size) {
    return size == REFUSED_SIZE ? NULL : __libc_malloc(size);
}
