/* What the trials in this folder share: claims, files, room that shows whether it was written to, and a document beside
 * itself. */
#ifndef TRIAL_H
#define TRIAL_H
#include "common.h"

#define CHECK(holds) ((holds) ? (void)0 : check_failed(__FILE__, __LINE__, #holds))

static inline void check_failed(const char *file, int line, const char *what) {
    fprintf(stderr, "%s:%d: %s\n", file, line, what);
    exit(1);
}

/* Reads a file of fewer octets than there is room for, and returns how many they are. */
static inline size_t load(const char *name, uint8_t *octets, size_t room) {
    FILE *file = fopen(name, "rb");
    if (file == NULL) {
        perror(name);
        exit(2);
    }
    size_t len = fread(octets, 1, room, file);
    CHECK(!ferror(file) && len < room);
    fclose(file);
    return len;
}

static inline void fill(uint8_t *octets, size_t len) {
    memset(octets, 0xA5, len);
}

/* Whether the octets are as `fill` left them. */
static inline int is_filled(const uint8_t *octets, size_t len) {
    return len == 0 || (octets[0] == 0xA5 && memcmp(octets, octets + 1, len - 1) == 0);
}

static inline int is_same(const pkder_outcome *one, const pkder_outcome *other) {
    return memcmp(one, other, sizeof *one) == 0;
}

/* pkder_same of a document and itself. */
static inline pkder_outcome same_as_itself(uint32_t kind, uint32_t depth, uint64_t octets, const uint8_t *src,
                                           size_t len, uint8_t *dst, size_t room) {
    (void)dst, (void)room;
    return pkder_same(kind, depth, octets, src, len, src, len);
}

/* As is_task, which also takes "same" and a kind. */
static inline int is_trial(struct task *task, const char *command, const char *what) {
    if (strcmp(command, "same") != 0) {
        return is_task(task, command, what);
    }
    *task = (struct task){same_as_itself, number_of(what, kinds), PKDER_DEPTH, PKDER_OCTETS};
    return task->what != 0;
}

#endif
