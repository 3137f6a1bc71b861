/* What stands under the program where node is its system: the calls of C that it makes, each handed on to the one of
 * src/system.mjs, beside the heap of interface/web/native/under.c. Not proved: what the program's proofs assume of
 * these calls has to be read here and there.
 *
 * A call of the system answers a number below 0 where it fails, Linux's errno times -1. Addresses and sizes are handed
 * to it in 32 bits, as many as they have once the module is lowered; a read or write of more is one of less. */
typedef __UINT64_TYPE__ uint64_t; /* (the toolchain's clang has no headers) */
typedef __INT64_TYPE__ int64_t;
typedef __UINT32_TYPE__ uint32_t;
typedef __INT32_TYPE__ int32_t;
typedef __UINT16_TYPE__ uint16_t;
typedef __UINT8_TYPE__ uint8_t;

#define OF_SYSTEM(name) __attribute__((import_module("system"), import_name(name))) extern
#define MOST_AT_ONCE ((uint64_t)1 << 30)
#define ENOSYS 38
#define F_DUPFD_CLOEXEC 1030

OF_SYSTEM("word") int32_t system_word(uint32_t at, uint32_t dst, uint32_t room);
OF_SYSTEM("read") int32_t system_read(int32_t file, uint32_t dst, uint32_t room);
OF_SYSTEM("write") int32_t system_write(int32_t file, uint32_t src, uint32_t size);
OF_SYSTEM("open") int32_t system_open(uint32_t path, int32_t flags, uint32_t mode);
OF_SYSTEM("close") int32_t system_close(int32_t file);
OF_SYSTEM("again") int32_t system_again(int32_t file);
OF_SYSTEM("state") int32_t system_state(int32_t file, uint32_t path, int32_t flags, uint32_t told);
OF_SYSTEM("link") int32_t system_link(uint32_t path, uint32_t dst, uint32_t room);
OF_SYSTEM("own") int32_t system_own(int32_t file, int32_t owner, int32_t group);
OF_SYSTEM("allow") int32_t system_allow(int32_t file, uint32_t mode);
OF_SYSTEM("sync") int32_t system_sync(int32_t file);
OF_SYSTEM("rename") int32_t system_rename(uint32_t from, uint32_t to);
OF_SYSTEM("remove") int32_t system_remove(uint32_t path);

static int32_t error;

static int32_t answer(int32_t said) {
    if (said >= 0) {
        return said;
    }
    error = -said;
    return -1;
}

static uint32_t at(const void *it) {
    return (uint32_t)(uint64_t)it;
}

static uint32_t size_of(uint64_t n) {
    return (uint32_t)(n < MOST_AT_ONCE ? n : MOST_AT_ONCE);
}

int32_t rattle_errno(void);
int32_t rattle_errno(void) {
    return error;
}

void rattle_set_errno(int32_t to);
void rattle_set_errno(int32_t to) {
    error = to;
}

/* (its answer says which, and isn't an errno: -1 where there is no such word, -2 where it doesn't fit) */
int64_t rattle_arg(uint64_t number, uint8_t *dst, uint64_t room);
int64_t rattle_arg(uint64_t number, uint8_t *dst, uint64_t room) {
    return system_word((uint32_t)number, at(dst), size_of(room));
}

int64_t read(int32_t file, uint8_t *dst, uint64_t room);
int64_t read(int32_t file, uint8_t *dst, uint64_t room) {
    return answer(system_read(file, at(dst), size_of(room)));
}

int64_t write(int32_t file, const uint8_t *src, uint64_t size);
int64_t write(int32_t file, const uint8_t *src, uint64_t size) {
    return answer(system_write(file, at(src), size_of(size)));
}

int32_t open(const uint8_t *path, int32_t flags, ...);
int32_t open(const uint8_t *path, int32_t flags, ...) {
    uint32_t mode = 0;
    if (flags & 0100) { /* (O_CREAT, which has a mode after it) */
        __builtin_va_list rest;
        __builtin_va_start(rest, flags);
        mode = __builtin_va_arg(rest, uint32_t);
        __builtin_va_end(rest);
    }
    return answer(system_open(at(path), flags, mode));
}

int32_t close(int32_t file);
int32_t close(int32_t file) {
    return answer(system_close(file));
}

int32_t fcntl(int32_t file, int32_t command, ...);
int32_t fcntl(int32_t file, int32_t command, ...) {
    return answer(command == F_DUPFD_CLOEXEC ? system_again(file) : -ENOSYS);
}

/* Linux's struct, as far as it is asked: what isn't here stays 0. */
typedef struct {
    uint32_t mask, block_size;
    uint64_t attributes;
    uint32_t links, owner, group;
    uint16_t mode, nothing;
    uint64_t number, size, blocks, attributes_mask, times[8];
    uint32_t device_major, device_minor;
} state;

int32_t statx(int32_t file, const uint8_t *path, int32_t flags, uint32_t mask, state *dst);
int32_t statx(int32_t file, const uint8_t *path, int32_t flags, uint32_t mask, state *dst) {
    uint64_t told[5];
    (void)mask;
    int32_t said = answer(system_state(file, at(path), flags, at(told)));
    if (said == 0) {
        dst->mask = 0x21B; /* (type, mode, owner, group, size) */
        dst->mode = (uint16_t)told[0];
        dst->owner = (uint32_t)told[1];
        dst->group = (uint32_t)told[2];
        dst->size = told[3];
        dst->device_major = (uint32_t)told[4];
    }
    return said;
}

int64_t readlink(const uint8_t *path, uint8_t *dst, uint64_t room);
int64_t readlink(const uint8_t *path, uint8_t *dst, uint64_t room) {
    return answer(system_link(at(path), at(dst), size_of(room)));
}

int32_t fchown(int32_t file, int32_t owner, int32_t group);
int32_t fchown(int32_t file, int32_t owner, int32_t group) {
    return answer(system_own(file, owner, group));
}

int32_t fchmod(int32_t file, int32_t mode);
int32_t fchmod(int32_t file, int32_t mode) {
    return answer(system_allow(file, (uint32_t)mode));
}

int32_t fsync(int32_t file);
int32_t fsync(int32_t file) {
    return answer(system_sync(file));
}

int32_t rename(const uint8_t *from, const uint8_t *to);
int32_t rename(const uint8_t *from, const uint8_t *to) {
    return answer(system_rename(at(from), at(to)));
}

int32_t unlink(const uint8_t *path);
int32_t unlink(const uint8_t *path) {
    return answer(system_remove(at(path)));
}

/* What stands in the program's code and is never called by it. */
int32_t fdatasync(int32_t file);
int32_t fdatasync(int32_t file) {
    (void)file;
    return answer(-ENOSYS);
}

int32_t ftruncate(int32_t file, int64_t length);
int32_t ftruncate(int32_t file, int64_t length) {
    (void)file, (void)length;
    return answer(-ENOSYS);
}

int32_t flock(int32_t file, int32_t operation);
int32_t flock(int32_t file, int32_t operation) {
    (void)file, (void)operation;
    return answer(-ENOSYS);
}

/* (SIGPIPE, which node ignores itself) */
int64_t __sysv_signal(int32_t number, int64_t to);
int64_t __sysv_signal(int32_t number, int64_t to) {
    (void)number, (void)to;
    return 0;
}
