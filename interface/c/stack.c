/* stack: threads whose stack has as many octets as pkder.h says are enough, and a closed page below them, make each
 * call on documents of each kind that are nested as deep as may be. Prints the most that a call took, up to the usual
 * depth and up to the greatest. */
#define _DEFAULT_SOURCE
#include <pthread.h>
#include <sys/mman.h>
#include <unistd.h>

#include "trial.h"

/* What stands before and after the nested containers of a document: so many containers round them, all of indefinite
 * length. */
struct shape {
    uint32_t kind, outside;
    uint8_t nested; /* the identifier of the nested containers: SEQUENCE, SET or a string in segments */
    uint8_t before_len, after_len;
    uint8_t before[20], after[24];
};

/* clang-format off */
static const struct shape shapes[] = {
    {PKDER_PUBLIC, 2, 0x30, 7, 8, {0x30, 0x80, 0x30, 0x80, 6, 1, 42}, {0, 0, 3, 2, 0, 1}},
    {PKDER_PUBLIC, 2, 0x31, 7, 8, {0x30, 0x80, 0x30, 0x80, 6, 1, 42}, {0, 0, 3, 2, 0, 1}},
    {PKDER_KEY, 2, 0x30, 10, 6, {0x30, 0x80, 2, 1, 0, 0x30, 0x80, 6, 1, 42}, {0, 0, 4, 0}},
    {PKDER_KEY, 2, 0x31, 10, 6, {0x30, 0x80, 2, 1, 0, 0x30, 0x80, 6, 1, 42}, {0, 0, 4, 0}},
    {PKDER_KEY, 1, 0x24, 12, 2, {0x30, 0x80, 2, 1, 0, 0x30, 5, 6, 1, 42, 5, 0}, {0}},
    {PKDER_EC, 1, 0x24, 5, 2, {0x30, 0x80, 2, 1, 1}, {0}},
    {PKDER_ENCRYPTED, 2, 0x31, 7, 6, {0x30, 0x80, 0x30, 0x80, 6, 1, 42}, {0, 0, 4, 0}},
    {PKDER_ENCRYPTED, 1, 0x24, 7, 2, {0x30, 0x80, 0x30, 3, 6, 1, 42}, {0}},
    {PKDER_PACKAGE, 3, 0x31, 12, 8, {0x30, 0x80, 0x30, 0x80, 2, 1, 0, 0x30, 0x80, 6, 1, 42}, {0, 0, 4, 0}},
    {PKDER_REQUEST, 4, 0x31, 16, 24, {0x30, 0x80, 0x30, 0x80, 2, 1, 0, 0x30, 0, 0x30, 0x80, 0x30, 0x80, 6, 1, 42},
     {0, 0, 3, 2, 0, 1, 0, 0, 0xA0, 0x80, 0, 0, 0, 0, 0x30, 3, 6, 1, 42, 3, 1, 0}},
};
/* clang-format on */

/* (glibc takes no smaller one on ARM64) */
enum { LEAST_STACK = 1 << 17 };

static uint8_t deep[300000];
static size_t deep_len;

static void put(const uint8_t *octets, size_t len, uint32_t times) {
    for (; times > 0; times--) {
        memcpy(deep + deep_len, octets, len);
        deep_len += len;
    }
}

/* A document of this shape and depth, round 20,000 SETs of two or segments of one. */
static void make_deep(const struct shape *shape, uint32_t depth) {
    static const uint8_t set[] = {0x31, 6, 4, 1, 2, 4, 1, 1}, segment[] = {4, 1, 7}, end[] = {0, 0};
    const uint8_t nested[] = {shape->nested, 0x80};
    int is_string = shape->nested == 0x24;
    uint32_t times = depth - shape->outside - (is_string ? 1 : 2);
    deep_len = 0;
    put(shape->before, shape->before_len, 1);
    put(nested, sizeof nested, times);
    put(is_string ? segment : set, is_string ? sizeof segment : sizeof set, 20000);
    put(end, sizeof end, times);
    put(shape->after, shape->after_len, 1);
}

/* The status of a call on a document that isn't in DER, without room. */
static uint32_t due_of(text_call *call) {
    if (call == NULL) {
        return PKDER_NOT_DER;
    }
    return call == same_as_itself ? PKDER_ACCEPTED : is_report(call) ? PKDER_UNREPORTED : PKDER_NO_ROOM;
}

static void *call_deep(void *argument) {
    const struct task *task = argument;
    if (task != NULL) {
        pkder_outcome said = do_task(task, deep, deep_len, NULL, 0);
        CHECK(said.status == due_of(task->call) && said.reason == 0);
    }
    return NULL;
}

/* The octets that were written of a stack of this size, by a thread that makes the call; NULL for none. */
static size_t written(size_t size, struct task *task) {
    size_t page = (size_t)sysconf(_SC_PAGESIZE), untouched = 0;
    size = (size + page - 1) / page * page;
    uint8_t *closed = mmap(NULL, page + size, PROT_NONE, MAP_PRIVATE | MAP_ANONYMOUS, -1, 0), *stack = closed + page;
    CHECK(closed != MAP_FAILED && mprotect(stack, size, PROT_READ | PROT_WRITE) == 0);
    fill(stack, size);
    pthread_attr_t attributes;
    pthread_t thread;
    CHECK(pthread_attr_init(&attributes) == 0 && pthread_attr_setstack(&attributes, stack, size) == 0);
    CHECK(pthread_create(&thread, &attributes, call_deep, task) == 0 && pthread_join(thread, NULL) == 0);
    while (untouched < size && is_filled(stack + untouched, 1)) {
        untouched++;
    }
    munmap(closed, page + size);
    return size - untouched;
}

/* Calls at this depth take no more than `enough`, beside what the thread itself takes. */
static void try_depth(uint32_t depth, size_t enough) {
    static text_call *const calls[] = {
        NULL,         same_as_itself,   pkder_normalise,      pkder_show,  explain_text, explain_all,
        explain_json, explain_all_json, explain_all_json_tls, pkder_field, pkder_signed};
    size_t number = sizeof calls / sizeof *calls, most = 0, idle = written(LEAST_STACK, NULL);
    for (size_t i = 0; i < sizeof shapes / sizeof *shapes; i++) {
        make_deep(&shapes[i], depth);
        for (size_t j = 0; j < (shapes[i].kind == PKDER_REQUEST ? number : number - 1); j++) {
            uint32_t what = calls[j] == pkder_signed ? PKDER_SUBJECT_KEY : shapes[i].kind;
            size_t took = written(idle + enough, &(struct task){calls[j], what, depth, PKDER_MOST_OCTETS});
            most = took > most ? took : most;
        }
    }
    printf("%zu of %zu octets at depth %u\n", most - idle, enough, (unsigned)depth);
}

int main(void) {
    try_depth(PKDER_DEPTH, PKDER_STACK / 2);
    try_depth(PKDER_MOST_DEPTH, PKDER_STACK);
    return 0;
}
