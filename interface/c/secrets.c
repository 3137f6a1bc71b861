/* secrets COMMAND KIND FILE OFFSET LENGTH: hands a key over and prints how many of the blocks that the library frees
 * hold octets of the secret that stands at OFFSET, eight in a row. Linked to libpkder.a with -Wl,--wrap=free. */
#define _DEFAULT_SOURCE
#include <malloc.h>

#include "trial.h"

#define ROOM 65536

void __real_free(void *old);
void __wrap_free(void *old);

static uint8_t src[ROOM], dst[ROOM];
static const uint8_t *secret;
static size_t length;
static int counts, blocks;

static int holds_secret(const uint8_t *octets, size_t size) {
    for (size_t part = 0; part + 8 <= length; part += 8) {
        for (size_t i = 0; i + 8 <= size; i++) {
            if (memcmp(octets + i, secret + part, 8) == 0) {
                return 1;
            }
        }
    }
    return 0;
}

void __wrap_free(void *old) {
    if (counts && old != NULL) {
        blocks += holds_secret(old, malloc_usable_size(old));
    }
    __real_free(old);
}

int main(int count, char **words) {
    struct task task;
    if (count != 6 || !is_trial(&task, words[1], words[2])) {
        fputs("secrets COMMAND KIND FILE OFFSET LENGTH\n", stderr);
        return 2;
    }
    size_t len = load(words[3], src, sizeof src);
    secret = src + atoi(words[4]);
    length = (size_t)atoi(words[5]);
    counts = 1;
    pkder_outcome said = do_task(&task, src, len, dst, sizeof dst);
    counts = 0;
    printf("%d\n", blocks);
    return said.status != (is_report(task.call) ? PKDER_REPORTED : PKDER_ACCEPTED);
}
