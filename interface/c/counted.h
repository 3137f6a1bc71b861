/* What programs share that count how often the library asks for memory. They are linked to libpkder.a with
 * -Wl,--wrap=malloc,--wrap=realloc. */
#ifndef COUNTED_H
#define COUNTED_H
#include "trial.h"

void *__real_malloc(size_t size);
void *__real_realloc(void *old, size_t size);
void *__wrap_malloc(size_t size);
void *__wrap_realloc(void *old, size_t size);

static unsigned long asked;

void *__wrap_malloc(size_t size) {
    asked++;
    return __real_malloc(size);
}

void *__wrap_realloc(void *old, size_t size) {
    asked++;
    return __real_realloc(old, size);
}

/* pkder_check, and how often it asks for memory. */
static inline pkder_outcome counted_check(const struct task *task, const uint8_t *src, size_t len,
                                          unsigned long *times) {
    asked = 0;
    pkder_outcome said = pkder_check(task->what, task->depth, task->octets, src, len);
    *times = asked;
    return said;
}

#endif
