/* rows TABLE: the rows of `check` and `normalise` in a table that interface/calls.py or vectors/check.py --rows makes,
 * handed to the library; prints what is due in the last three cells of each: status, output, error. */
#define _DEFAULT_SOURCE
#include "table.h"

static void print_hex(const uint8_t *octets, size_t len) {
    for (size_t i = 0; i < len; i++) {
        printf("%02x", octets[i]);
    }
}

/* What `check` writes: a line, in hexadecimal digits. */
static void print_line(const pkder_outcome *outcome) {
    char line[64] = "DER\n";
    if (outcome->status == PKDER_NOT_DER) {
        snprintf(line, sizeof line, "not DER at %" PRIu64 "\n", outcome->at);
    }
    printf("%d\t", outcome->status == PKDER_NOT_DER ? NOT_IN_DER : DONE);
    print_hex((const uint8_t *)line, strlen(line));
    puts("\t");
}

/* Makes a call, which is asked first for the room that it needs. */
static void make_call(const struct task *task, const uint8_t *src, size_t len) {
    pkder_outcome asked = do_task(task, src, len, NULL, 0);
    if (asked.status == PKDER_FAULT) {
        printf("%d\t\t", REFUSED);
        print_outcome(stdout, &asked);
    } else if (task->call == NULL) {
        print_line(&asked);
    } else {
        CHECK(asked.status == PKDER_NO_ROOM);
        uint8_t *dst = malloc((size_t)asked.size);
        CHECK(dst != NULL);
        pkder_outcome outcome = do_task(task, src, len, dst, (size_t)asked.size);
        CHECK(outcome.status == PKDER_ACCEPTED && outcome.size == asked.size);
        printf("%d\t", DONE);
        print_hex(dst, (size_t)outcome.size);
        puts("\t");
        free(dst);
    }
}

static void do_row(char *row) {
    cell_of(&row);
    char *words = cell_of(&row), *command = strsep(&words, " "), *cells[6];
    for (size_t i = 0; i < 6; i++) {
        cells[i] = strsep(&words, " ");
        CHECK(cells[i] != NULL);
    }
    struct task task;
    CHECK(is_task(&task, command, cells[1]));
    task.depth = (uint32_t)strtoul(cells[3], NULL, 10);
    task.octets = strtoull(cells[5], NULL, 10);
    size_t len;
    uint8_t *src = octets_of(cell_of(&row), &len);
    make_call(&task, src, len);
    free(src);
}

int main(int count, char **words) {
    return do_rows(count, words, do_row);
}
