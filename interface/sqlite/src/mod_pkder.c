/* mod_pkder.so: the calls of libpkder as functions of SQL, for SQLite. README.md says what each answers. Not proved;
 * what it calls is.
 *
 * Each but pkder_explain is deterministic: under one PKDER_INTERFACE its answers never change, so that an index of them
 * holds. The words of a report may change with the version. No message has an octet of an argument, since a document
 * may stand where a kind is due. Memory of the extension's own is from malloc, and wiped when it is freed, by what
 * build.sh links between (interface/java/native/wiping.c). */
#include <stdlib.h>
#include <string.h>

#include <sqlite3ext.h>

#include "pkder.h"

SQLITE_EXTENSION_INIT1

/* The first SQLite that knows SQLITE_INNOCUOUS. */
#define LOWEST_SQLITE 3031000
/* Room for a report or a field at first; reports of all elements may need more. */
#define REPORT_ROOM 8192
/* Room for a line of an answer: the longest has 102 octets. */
#define LINE_ROOM 128

static const char *const kinds[] = {"key", "ec", "request", "public", "encrypted", "package", NULL};
static const char *const parts[] = {"info", "algorithm", "key", "signature", "received", NULL};
/* Those of PKDER_ALL, PKDER_JSON and PKDER_TLS, which are 1, 2 and 4. */
static const char *const forms[] = {"all", "json", "tls", NULL};

#define NO_KIND "pkder: a kind is 'key', 'ec', 'request', 'public', 'encrypted' or 'package'"
#define NO_PART "pkder: a part is 'info', 'algorithm', 'key', 'signature' or 'received'"
#define NO_DOCUMENT "pkder: a document is a BLOB of its octets, not a text of them (PEM, base64, hex)"
#define NO_FORM "pkder: a form is words of 'all', 'json' and 'tls', each once, with a blank between two"
#define NO_DEPTH "pkder: a depth is an INTEGER from 1 to 64"
#define NO_LIMIT "pkder: a limit of octets is an INTEGER from 1 to 2147483647"

struct octets {
    const uint8_t *start;
    size_t length;
};

/* What is asked of the library. */
struct question {
    uint32_t what, depth, form; /* what: the kind or the part */
    uint64_t octets;
    struct octets document, other;
};

enum call { CHECK, IS_DER, REQUIRE_DER, SAME, NORMALISE, SIGNED, SHOW, EXPLAIN, FIELD };

/* A function of SQL, with the numbers of arguments that it takes: limits may be left out, and so may a form. */
struct function {
    const char *name;
    enum call call;
    int counts[3];
    void (*tell)(sqlite3_context *, enum call, const struct question *);
};

/* Writes the program's line for an outcome that is a document's: accepted, not in DER, or a fault. */
static void write_line(char line[LINE_ROOM], const pkder_outcome *said) {
    static const char *const documents[] = {"", "first: ", "second: "};
    const char *which = said->which < 3 ? documents[said->which] : "";
    uint8_t reason[16] = {0}, inside[16] = {0};
    pkder_reason_name(said->reason, reason, sizeof reason);
    pkder_reason_name(said->inside_reason, inside, sizeof inside);
    if (said->status == PKDER_ACCEPTED) {
        sqlite3_snprintf(LINE_ROOM, line, "DER");
    } else if (said->status == PKDER_NOT_DER) {
        sqlite3_snprintf(LINE_ROOM, line, "not DER at %llu", (sqlite3_uint64)said->at);
    } else if (said->inside_reason == 0) {
        sqlite3_snprintf(LINE_ROOM, line, "%sfault at %llu: %s", which, (sqlite3_uint64)said->at, reason);
    } else {
        sqlite3_snprintf(LINE_ROOM, line, "%sfault at %llu: %s inside at %llu: %s", which, (sqlite3_uint64)said->at,
                         reason, (sqlite3_uint64)said->inside_at, inside);
    }
}

/* Raises an outcome that is no answer. (A status that isn't known is a later library's: it refuses, too.) */
static void refuse(sqlite3_context *to, const pkder_outcome *said) {
    char line[LINE_ROOM];
    if (said->status == PKDER_NO_MEMORY) {
        sqlite3_result_error_nomem(to);
        return;
    }
    if (said->status == PKDER_FAULT) {
        write_line(line, said);
    } else {
        sqlite3_snprintf(LINE_ROOM, line, "pkder: libpkder answers the status %u", said->status);
    }
    sqlite3_result_error(to, line, -1);
}

/* Tells pkder_check, pkder_is_der and pkder_require_der. */
static void tell_form(sqlite3_context *to, enum call call, const struct question *it) {
    struct octets src = it->document;
    pkder_outcome said = pkder_check(it->what, it->depth, it->octets, src.start, src.length);
    int is_der = said.status == PKDER_ACCEPTED;
    if (!is_der && said.status != PKDER_NOT_DER && said.status != PKDER_FAULT) {
        refuse(to, &said);
        return;
    }
    char line[LINE_ROOM];
    write_line(line, &said);
    if (call == CHECK) {
        sqlite3_result_text(to, line, -1, SQLITE_TRANSIENT);
    } else if (call == IS_DER || is_der) {
        sqlite3_result_int(to, is_der);
    } else {
        sqlite3_result_error(to, line, -1);
    }
}

static void tell_same(sqlite3_context *to, enum call call, const struct question *it) {
    (void)call;
    struct octets one = it->document, other = it->other;
    pkder_outcome said = pkder_same(it->what, it->depth, it->octets, one.start, one.length, other.start, other.length);
    if (said.status == PKDER_ACCEPTED || said.status == PKDER_ANOTHER) {
        sqlite3_result_int(to, said.status == PKDER_ACCEPTED);
    } else {
        refuse(to, &said);
    }
}

/* Makes the call that writes, with this room. */
static pkder_outcome asked(enum call call, const struct question *it, uint8_t *dst, size_t room) {
    uint32_t what = it->what, depth = it->depth;
    struct octets src = it->document;
    switch (call) {
    case NORMALISE:
        return pkder_normalise(what, depth, it->octets, src.start, src.length, dst, room);
    case SIGNED:
        return pkder_signed(what, depth, it->octets, src.start, src.length, dst, room);
    case SHOW:
        return pkder_show(what, depth, it->octets, src.start, src.length, dst, room);
    case FIELD:
        return pkder_field(what, depth, it->octets, src.start, src.length, dst, room);
    default:
        return pkder_explain(what, depth, it->octets, it->form, src.start, src.length, dst, room);
    }
}

/* Tells what a call writes, which is asked again with as much room as it wants. SQLite frees the octets. */
static void tell_text(sqlite3_context *to, enum call call, const struct question *it) {
    int is_report = call == EXPLAIN || call == FIELD;
    uint32_t done = is_report ? PKDER_REPORTED : PKDER_ACCEPTED;
    uint32_t is_short = is_report ? PKDER_UNREPORTED : PKDER_NO_ROOM;
    size_t room = is_report ? REPORT_ROOM : it->document.length;
    for (;;) {
        uint8_t *text = malloc(room != 0 ? room : 1);
        if (text == NULL) {
            sqlite3_result_error_nomem(to);
            return;
        }
        pkder_outcome said = asked(call, it, text, room);
        if (said.status == done && (call == NORMALISE || call == SIGNED)) {
            sqlite3_result_blob64(to, text, said.size, free);
            return;
        }
        if (said.status == done) {
            sqlite3_result_text64(to, (char *)text, said.size, free, SQLITE_UTF8);
            return;
        }
        free(text);
        if (said.status != is_short || said.size <= room) {
            refuse(to, &said);
            return;
        }
        room = (size_t)said.size;
    }
}

/* The number, from 1, of the name that these octets are; 0 where they are none. */
static uint32_t number_of(const char *text, size_t length, const char *const *names) {
    for (uint32_t at = 0; names[at] != NULL; at++) {
        if (strlen(names[at]) == length && memcmp(names[at], text, length) == 0) {
            return at + 1;
        }
    }
    return 0;
}

/* Takes a kind or a part; 0 where it is none, and an error is set. */
static int take_name(sqlite3_context *to, sqlite3_value *from, enum call call, uint32_t *number) {
    const char *text = sqlite3_value_type(from) == SQLITE_TEXT ? (const char *)sqlite3_value_text(from) : NULL;
    *number = 0;
    if (text != NULL) {
        *number = number_of(text, (size_t)sqlite3_value_bytes(from), call == SIGNED ? parts : kinds);
    }
    if (*number == 0) {
        sqlite3_result_error(to, call == SIGNED ? NO_PART : NO_KIND, -1);
    }
    return *number != 0;
}

/* Takes a document; 0 where it is none, and an error is set. */
static int take_document(sqlite3_context *to, sqlite3_value *from, struct octets *document) {
    if (sqlite3_value_type(from) != SQLITE_BLOB) {
        sqlite3_result_error(to, NO_DOCUMENT, -1);
        return 0;
    }
    document->start = sqlite3_value_blob(from);
    document->length = (size_t)sqlite3_value_bytes(from);
    if (document->start == NULL && document->length != 0) {
        sqlite3_result_error_nomem(to);
        return 0;
    }
    return 1;
}

/* Takes the form of a report, words with blanks between them, or none; 0 where it is none, and an error is set. */
static int take_form(sqlite3_context *to, sqlite3_value *from, uint32_t *form) {
    const char *text = sqlite3_value_type(from) == SQLITE_TEXT ? (const char *)sqlite3_value_text(from) : NULL;
    const char *end = text != NULL ? text + sqlite3_value_bytes(from) : NULL;
    int is_form = text != NULL;
    *form = 0;
    while (is_form && text != end) {
        const char *blank = memchr(text, ' ', (size_t)(end - text));
        uint32_t number = number_of(text, (size_t)((blank != NULL ? blank : end) - text), forms);
        uint32_t word = number != 0 ? 1u << (number - 1) : 0;
        is_form = word != 0 && (*form & word) == 0 && (blank == NULL || blank + 1 != end);
        *form |= word;
        text = blank != NULL ? blank + 1 : end;
    }
    if (!is_form) {
        sqlite3_result_error(to, NO_FORM, -1);
    }
    return is_form;
}

/* Takes depth and octets; 0 where they are out of range, and an error is set. */
static int take_limits(sqlite3_context *to, sqlite3_value **from, struct question *it) {
    sqlite3_int64 depth = sqlite3_value_type(from[0]) == SQLITE_INTEGER ? sqlite3_value_int64(from[0]) : 0;
    sqlite3_int64 octets = sqlite3_value_type(from[1]) == SQLITE_INTEGER ? sqlite3_value_int64(from[1]) : 0;
    if (depth < 1 || depth > PKDER_MOST_DEPTH) {
        sqlite3_result_error(to, NO_DEPTH, -1);
        return 0;
    }
    if (octets < 1 || octets > (sqlite3_int64)PKDER_MOST_OCTETS) {
        sqlite3_result_error(to, NO_LIMIT, -1);
        return 0;
    }
    it->depth = (uint32_t)depth;
    it->octets = (uint64_t)octets;
    return 1;
}

/* Takes all arguments; 0 where one is wrong, and an error is set. */
static int take(sqlite3_context *to, const struct function *function, int count, sqlite3_value **from,
                struct question *it) {
    int at = 2;
    if (!take_name(to, from[0], function->call, &it->what) || !take_document(to, from[1], &it->document)) {
        return 0;
    }
    if (function->call == SAME && !take_document(to, from[at++], &it->other)) {
        return 0;
    }
    if (function->call == EXPLAIN && count > at && !take_form(to, from[at++], &it->form)) {
        return 0;
    }
    return at == count || take_limits(to, from + at, it);
}

/* Answers a function; where an argument is NULL by NULL, which is what a function answers that sets nothing. */
static void answer(sqlite3_context *to, int count, sqlite3_value **from) {
    const struct function *function = sqlite3_user_data(to);
    struct question it = {.depth = PKDER_DEPTH, .octets = PKDER_OCTETS};
    for (int at = 0; at < count; at++) {
        if (sqlite3_value_type(from[at]) == SQLITE_NULL) {
            return;
        }
    }
    if (take(to, function, count, from, &it)) {
        function->tell(to, function->call, &it);
    }
}

static const struct function functions[] = {{"pkder_check", CHECK, {2, 4}, tell_form},
                                            {"pkder_is_der", IS_DER, {2, 4}, tell_form},
                                            {"pkder_require_der", REQUIRE_DER, {2, 4}, tell_form},
                                            {"pkder_same", SAME, {3, 5}, tell_same},
                                            {"pkder_normalise", NORMALISE, {2, 4}, tell_text},
                                            {"pkder_signed", SIGNED, {2, 4}, tell_text},
                                            {"pkder_show", SHOW, {2, 4}, tell_text},
                                            {"pkder_field", FIELD, {2, 4}, tell_text},
                                            {"pkder_explain", EXPLAIN, {2, 3, 5}, tell_text}};

/* Makes a function known to the database. */
static int add(sqlite3 *database, const struct function *it) {
    int flags = SQLITE_UTF8 | SQLITE_INNOCUOUS | (it->call != EXPLAIN ? SQLITE_DETERMINISTIC : 0);
    int status = SQLITE_OK;
    for (int at = 0; at < 3 && it->counts[at] != 0 && status == SQLITE_OK; at++) {
        status = sqlite3_create_function(database, it->name, it->counts[at], flags, (void *)it, answer, NULL, NULL);
    }
    return status;
}

__attribute__((visibility("default"))) int sqlite3_modpkder_init(sqlite3 *database, char **why,
                                                                 const sqlite3_api_routines *api);

/* What SQLite calls once it has loaded mod_pkder.so; it makes the name of the file's letters. */
int sqlite3_modpkder_init(sqlite3 *database, char **why, const sqlite3_api_routines *api) {
    SQLITE_EXTENSION_INIT2(api);
    if (sqlite3_libversion_number() < LOWEST_SQLITE) {
        *why = sqlite3_mprintf("mod_pkder takes SQLite 3.31.0 or later");
        return SQLITE_ERROR;
    }
    int status = SQLITE_OK;
    for (size_t at = 0; at < sizeof functions / sizeof *functions && status == SQLITE_OK; at++) {
        status = add(database, &functions[at]);
    }
    return status;
}
