/* refuse COMMAND KIND-OR-PART FILE: a call with each of its allocations refused in turn, linked to libpkder.a with
 * -Wl,--wrap=malloc,--wrap=realloc,--wrap=free. A refusal gives PKDER_NO_MEMORY and leaves the room as it was, or
 * changes nothing (a block that isn't made smaller); and whatever comes, nothing stays allocated. A command is one of
 * the program's, or field; of explain explain-all, explain-json, explain-all-json and explain-all-json-tls, too; same
 * is a document beside itself. */
#include "trial.h"

#define ROOM 65536

void *__real_malloc(size_t size);
void *__real_realloc(void *old, size_t size);
void __real_free(void *old);
void *__wrap_malloc(size_t size);
void *__wrap_realloc(void *old, size_t size);
void __wrap_free(void *old);

/* Whether the library is called, how many allocations go well before one is refused, and how many blocks stand. */
static int counts;
static long left, live;

static int is_refused(void) {
    return counts && left-- == 0;
}

void *__wrap_malloc(size_t size) {
    if (is_refused()) {
        return NULL;
    }
    live += counts;
    return __real_malloc(size);
}

void *__wrap_realloc(void *old, size_t size) {
    if (is_refused()) {
        return NULL;
    }
    live += counts && old == NULL;
    return __real_realloc(old, size);
}

void __wrap_free(void *old) {
    live -= counts && old != NULL;
    __real_free(old);
}

static uint8_t src[ROOM], dst[ROOM];
static size_t len;

/* The call, whose allocation of this number is refused; -1 for none. */
static pkder_outcome call(const struct task *task, long refused) {
    fill(dst, sizeof dst);
    counts = 1;
    left = refused;
    live = 0;
    pkder_outcome said = do_task(task, src, len, dst, sizeof dst);
    counts = 0;
    return said;
}

static int refuse_each(const struct task *task) {
    static const pkder_outcome none = {PKDER_NO_MEMORY, 0, 0, 0, 0, 0, 0, 0};
    static uint8_t text[ROOM];
    const pkder_outcome due = call(task, -1);
    uint32_t usual = task->call == NULL ? PKDER_NOT_DER : is_report(task->call) ? PKDER_REPORTED : PKDER_ACCEPTED;
    CHECK((due.status == PKDER_ACCEPTED || due.status == usual) && live == 0);
    memcpy(text, dst, sizeof text);
    for (long at = 0;; at++) {
        const pkder_outcome said = call(task, at);
        int is_whole = is_same(&said, &due) && memcmp(dst, text, sizeof text) == 0;
        int is_none = is_same(&said, &none) && is_filled(dst, sizeof dst);
        if (live != 0 || !(is_whole || (is_none && left < 0))) {
            printf("allocation %ld refused: status %u, %ld blocks stay\n", at, (unsigned)said.status, live);
            return 1;
        }
        if (left >= 0) {
            printf("%ld allocations, each refused in turn\n", at);
            return at == 0;
        }
    }
}

int main(int count, char **words) {
    struct task task;
    if (count != 4 || !is_trial(&task, words[1], words[2])) {
        fputs("refuse COMMAND KIND-OR-PART FILE\n", stderr);
        return 2;
    }
    len = load(words[3], src, sizeof src);
    return refuse_each(&task);
}
