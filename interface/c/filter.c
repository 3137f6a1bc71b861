/* filter COMMAND [--kind KIND | --part PART] [--depth N] [--octets N] [--all] [--json] [--profile=tls]: the program
 * pkder again, over the library, from standard input to standard output. It passes the tables of the program's tests. A
 * command of its own is field, which writes the field that the report is about, and nothing after it. */
#include "common.h"

/* The number that a word says; one that is out of range for all limits where it says none. */
static uint64_t limit_of(const char *word) {
    char *end;
    unsigned long long number = strtoull(word, &end, 10);
    return *end == 0 && *word != '-' ? number : UINT64_MAX;
}

/* The part of a report's form that a word asks for, 0 for none. */
static uint32_t form_of(const char *word) {
    return strcmp(word, "--all") == 0           ? PKDER_ALL
           : strcmp(word, "--json") == 0        ? PKDER_JSON
           : strcmp(word, "--profile=tls") == 0 ? PKDER_TLS
                                                : 0;
}

/* Takes the words; 0 where they are none. */
static int read_words(struct task *task, int count, char **words) {
    if (count < 2) {
        return 0;
    }
    const char *what = NULL, *option = strcmp(words[1], "signed") == 0 ? "--part" : "--kind";
    uint64_t depth = PKDER_DEPTH, octets = PKDER_OCTETS;
    uint32_t form = 0;
    for (int i = 2; i < count; i++) {
        if (form_of(words[i]) != 0) {
            form |= form_of(words[i]);
        } else if (i + 1 == count) {
            return 0;
        } else if (strcmp(words[i], option) == 0) {
            what = words[++i];
        } else if (strcmp(words[i], "--depth") == 0) {
            depth = limit_of(words[++i]);
        } else if (strcmp(words[i], "--octets") == 0) {
            octets = limit_of(words[++i]);
        } else {
            return 0;
        }
    }
    if (!is_task(task, words[1], what) || depth > PKDER_MOST_DEPTH || octets > PKDER_MOST_OCTETS) {
        return 0;
    }
    if (task->call == explain_text) {
        task->call = reports[form];
    } else if (form != 0) {
        return 0;
    }
    task->depth = (uint32_t)depth;
    task->octets = octets;
    return depth != 0 && octets != 0;
}

/* Whether the room holds what the call writes. */
static int is_written(const pkder_outcome *outcome) {
    return outcome->status == PKDER_ACCEPTED || outcome->status == PKDER_REPORTED;
}

/* Whether it is too little for that. */
static int is_too_small(const pkder_outcome *outcome) {
    return outcome->status == PKDER_NO_ROOM || outcome->status == PKDER_UNREPORTED;
}

/* The program's status for what was written. */
static int status_of(const pkder_outcome *outcome) {
    return outcome->reason != 0 ? REFUSED : outcome->at != 0 ? NOT_IN_DER : DONE;
}

/* Makes the call with as much room as it asks for, and writes the text. */
static int write_text(const struct task *task, const uint8_t *src, size_t len) {
    size_t room = len;
    for (;;) {
        uint8_t *dst = malloc(room + 1);
        if (dst == NULL) {
            fputs("out of memory\n", stderr);
            return FAILED;
        }
        pkder_outcome outcome = do_task(task, src, len, dst, room);
        int status = status_of(&outcome), is_short = is_too_small(&outcome);
        if (is_written(&outcome)) {
            if (fwrite(dst, 1, (size_t)outcome.size, stdout) != outcome.size || fflush(stdout) != 0) {
                fputs("write failed after 0\n", stderr);
                status = FAILED;
            }
        } else if (!is_short) {
            status = print_outcome(stderr, &outcome);
        }
        free(dst);
        if (!is_short) {
            return status;
        }
        room = (size_t)outcome.size;
    }
}

static int say_whether_der(const struct task *task, const uint8_t *src, size_t len) {
    pkder_outcome outcome = do_task(task, src, len, NULL, 0);
    if (outcome.status == PKDER_ACCEPTED) {
        puts("DER");
        return DONE;
    }
    return print_outcome(outcome.status == PKDER_NOT_DER ? stdout : stderr, &outcome);
}

int main(int count, char **words) {
    struct task task;
    if (!read_words(&task, count, words)) {
        fputs("filter COMMAND [--kind KIND | --part PART] [--depth N] [--octets N] [--all] [--json] [--profile=tls]\n",
              stderr);
        return BAD_LINE;
    }
    size_t len;
    /* (an octet past the limit decides as well as all of them) */
    uint8_t *src = read_file(stdin, task.octets + 1, &len);
    if (src == NULL) {
        fputs("out of memory\n", stderr);
        return FAILED;
    }
    int status = FAILED;
    if (ferror(stdin)) {
        fprintf(stderr, "read failed at %zu\n", len);
    } else {
        status = task.call == NULL ? say_whether_der(&task, src, len) : write_text(&task, src, len);
    }
    free(src);
    return status;
}
