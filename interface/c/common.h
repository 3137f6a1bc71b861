/* What the callers in this folder share: names of commands, kinds and parts, tasks, files read whole, and what an
 * outcome says. A report is asked for by a call of its own for each of its forms. */
#ifndef COMMON_H
#define COMMON_H
#include <inttypes.h>
#include <stdio.h>
#include <stdlib.h>
#include <string.h>

#include "pkder.h"

/* The program's statuses. */
enum { DONE, NOT_IN_DER, REFUSED, FAILED, BAD_LINE };

static const char *const kinds[] = {"key", "ec", "request", "public", "encrypted", "package", NULL};

/* A call that writes a text. */
typedef pkder_outcome text_call(uint32_t, uint32_t, uint64_t, const uint8_t *, size_t, uint8_t *, size_t);

/* pkder_explain in one of its forms. */
#define REPORT_CALL(name, form)                                                                                        \
    static inline pkder_outcome name(uint32_t kind, uint32_t depth, uint64_t octets, const uint8_t *src, size_t len,   \
                                     uint8_t *dst, size_t room) {                                                      \
        return pkder_explain(kind, depth, octets, form, src, len, dst, room);                                          \
    }

REPORT_CALL(explain_text, 0)
REPORT_CALL(explain_all, PKDER_ALL)
REPORT_CALL(explain_json, PKDER_JSON)
REPORT_CALL(explain_all_json, PKDER_ALL | PKDER_JSON)
REPORT_CALL(explain_text_tls, PKDER_TLS)
REPORT_CALL(explain_all_tls, PKDER_ALL | PKDER_TLS)
REPORT_CALL(explain_json_tls, PKDER_JSON | PKDER_TLS)
REPORT_CALL(explain_all_json_tls, PKDER_ALL | PKDER_JSON | PKDER_TLS)

/* The calls that tell of any octets: reports by the numbers of their forms, and the field that a report is about. */
static text_call *const reports[] = {explain_text,     explain_all,          explain_json,
                                     explain_all_json, explain_text_tls,     explain_all_tls,
                                     explain_json_tls, explain_all_json_tls, pkder_field};
#define REPORTS (sizeof reports / sizeof *reports)

static inline int is_report(text_call *call) {
    for (size_t i = 0; i < REPORTS; i++) {
        if (call == reports[i]) {
            return 1;
        }
    }
    return 0;
}

static inline int is_json(text_call *call) {
    return call == explain_json || call == explain_all_json || call == explain_json_tls || call == explain_all_json_tls;
}

/* What a document is handed over for. */
struct task {
    text_call *call; /* NULL: pkder_check */
    uint32_t what;   /* the kind or part */
    uint32_t depth;
    uint64_t octets;
};

static inline pkder_outcome do_task(const struct task *task, const uint8_t *src, size_t len, uint8_t *dst,
                                    size_t room) {
    if (task->call == NULL) {
        return pkder_check(task->what, task->depth, task->octets, src, len);
    }
    return task->call(task->what, task->depth, task->octets, src, len, dst, room);
}

/* The number of a name in a list that NULL ends, from 1; 0 where it isn't there. */
static inline uint32_t number_of(const char *name, const char *const *names) {
    for (uint32_t i = 0; names[i] != NULL; i++) {
        if (strcmp(name, names[i]) == 0) {
            return i + 1;
        }
    }
    return 0;
}

/* Takes a command and a kind, or a part under "signed", or else NULL for the part "info"; 0 where they are none. */
static inline int is_task(struct task *task, const char *command, const char *what) {
    static const char *const commands[] = {
        "check",   "normalise",   "show",         "signed",           "field",
        "explain", "explain-all", "explain-json", "explain-all-json", "explain-all-json-tls",
        NULL};
    static const char *const parts[] = {"info", "algorithm", "key", "signature", "received", NULL};
    static text_call *const calls[] = {
        NULL,         pkder_normalise, pkder_show,   pkder_signed,     pkder_field,
        explain_text, explain_all,     explain_json, explain_all_json, explain_all_json_tls};
    uint32_t number = number_of(command, commands);
    if (number == 0) {
        return 0;
    }
    int of_part = calls[number - 1] == pkder_signed;
    uint32_t found = what == NULL ? (of_part ? PKDER_INFO : 0) : number_of(what, of_part ? parts : kinds);
    *task = (struct task){calls[number - 1], found, PKDER_DEPTH, PKDER_OCTETS};
    return found != 0;
}

/* Reads a file to its end, or `most` octets of it, into memory that the caller frees; NULL where there is none. */
static inline uint8_t *read_file(FILE *file, uint64_t most, size_t *len) {
    size_t room = 0;
    uint8_t *octets = NULL;
    *len = 0;
    do {
        room = room == 0 ? 4096 : 2 * room;
        room = room > most ? (size_t)most : room;
        uint8_t *more = realloc(octets, room);
        if (more == NULL) {
            free(octets);
            return NULL;
        }
        octets = more;
        *len += fread(octets + *len, 1, room - *len, file);
    } while (*len == room && room < most);
    return octets;
}

static inline void print_place(FILE *to, const char *before, uint64_t at, uint32_t reason) {
    uint8_t name[16] = {0};
    pkder_reason_name(reason, name, sizeof name);
    fprintf(to, "%sat %" PRIu64 ": %s", before, at, (const char *)name);
}

/* Prints the program's line for an outcome that gives no text, and returns the program's status. */
static inline int print_outcome(FILE *to, const pkder_outcome *outcome) {
    switch (outcome->status) {
    case PKDER_NOT_DER:
        fprintf(to, "not DER at %" PRIu64 "\n", outcome->at);
        return NOT_IN_DER;
    case PKDER_FAULT:
        print_place(to, "fault ", outcome->at, outcome->reason);
        if (outcome->inside_reason != 0) {
            print_place(to, " inside ", outcome->inside_at, outcome->inside_reason);
        }
        fputc('\n', to);
        return REFUSED;
    case PKDER_NO_MEMORY:
        fputs("out of memory\n", to);
        return FAILED;
    case PKDER_BAD_CALL:
        fputs("no such kind, part or limits\n", to);
        return BAD_LINE;
    default:
        fprintf(to, "libpkder answers the status %" PRIu32 "\n", outcome->status);
        return FAILED;
    }
}

#endif
