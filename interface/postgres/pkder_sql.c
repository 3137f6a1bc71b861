/* The calls of libpkder as functions of SQL, which pkder--1.0.sql declares, for PostgreSQL 15 and later. Not proved.
 *
 * Documents may be private keys. So an error has no octet of one, and neither client nor log is shown what the server
 * adds to errors: the statement, its parameters, the line that COPY is at. Each copy of a document that is made here is
 * wiped, and so is what the library frees (wiping.c). */
#include "postgres.h"

#include "fmgr.h"
#include "mb/pg_wchar.h"
#include "miscadmin.h"
#include "utils/builtins.h"
#include "utils/memutils.h"
#if PG_VERSION_NUM >= 160000
#include "varatt.h"
#endif

#include "pkder.h"

PG_MODULE_MAGIC;

/* Room for a line of the program, with the longest places and names. */
#define LINE 128
/* Room for a report or a field at first; reports of all elements may need more. */
#define REPORT_ROOM 8192

/* Raises an error without its statement and without the context that the server's callbacks would tell, which is set
 * anew where an error is caught. */
#define RAISE(code, ...)                                                                                               \
    do {                                                                                                               \
        error_context_stack = NULL;                                                                                    \
        ereport(ERROR, (errcode(code), errhidestmt(true), __VA_ARGS__));                                               \
    } while (0)

/* Words that a caller may say, by their numbers from 1. */
struct words {
    const char *what, *are, *names[7];
};

static const struct words kinds = {"kind",
                                   "Kinds are key, ec, request, public, encrypted and package.",
                                   {"key", "ec", "request", "public", "encrypted", "package", NULL}};
static const struct words parts = {"part",
                                   "Parts are info, algorithm, key, signature and received.",
                                   {"info", "algorithm", "key", "signature", "received", NULL}};
static const struct words forms = {
    "form", "Forms are all, json and tls, each once, with a blank between.", {"all", "json", "tls", NULL}};

/* A call that writes a text. */
typedef pkder_outcome text_call(uint32_t, uint32_t, uint64_t, const uint8_t *, size_t, uint8_t *, size_t);

/* What is asked of the library, but for the octets. */
struct question {
    text_call *call;  /* NULL for pkder_explain, and for calls that write nothing */
    const char *kind; /* the word of the document's kind */
    uint32_t what, depth, form;
    uint64_t octets;
};

/* A document, and whether it is a copy that was made of what stands compressed or apart. */
struct document {
    bytea *all;
    bool is_copy;
};

/* The number of a word, or 0 where it isn't there. */
static uint32_t number_of(const char *word, size_t length, const struct words *known) {
    for (uint32_t at = 0; known->names[at] != NULL; at++) {
        if (strlen(known->names[at]) == length && memcmp(word, known->names[at], length) == 0) {
            return at + 1;
        }
    }
    return 0;
}

/* (What was said isn't told: where arguments are interchanged it is a document.) */
static void raise_unknown(const struct words *known) {
    RAISE(ERRCODE_INVALID_PARAMETER_VALUE, errmsg("pkder: no such %s", known->what), errhint("%s", known->are));
}

/* What is asked: the first argument is a kind or a part, and the last two are the limits. The server keeps 512 KiB of
 * stack beyond what check_stack_depth allows, and a call takes PKDER_STACK at most. */
static struct question question_of(FunctionCallInfo fcinfo, const struct words *known, text_call *call) {
    const text *word = PG_GETARG_TEXT_PP(0);
    uint32_t what = number_of(VARDATA_ANY(word), VARSIZE_ANY_EXHDR(word), known);
    if (what == 0) {
        raise_unknown(known);
    }
    check_stack_depth();
    return (struct question){
        .call = call,
        .kind = known == &parts ? "request" : known->names[what - 1],
        .what = what,
        .depth = (uint32_t)PG_GETARG_INT32(PG_NARGS() - 2),
        .octets = (uint64_t)PG_GETARG_INT64(PG_NARGS() - 1),
    };
}

/* The number of a report's form, whose words are all, json and tls. */
static uint32_t form_of(const text *said) {
    const char *word = VARDATA_ANY(said), *end = word + VARSIZE_ANY_EXHDR(said);
    uint32_t form = 0;
    while (word < end) {
        const char *blank = memchr(word, ' ', (size_t)(end - word)), *next = blank != NULL ? blank : end;
        uint32_t number = number_of(word, (size_t)(next - word), &forms), one = number != 0 ? 1u << (number - 1) : 0;
        if (number == 0 || (form & one) != 0) {
            raise_unknown(&forms);
        }
        form |= one;
        word = blank != NULL ? blank + 1 : end;
    }
    return form;
}

static struct document document_of(FunctionCallInfo fcinfo, int at) {
    bytea *all = PG_GETARG_BYTEA_PP(at);
    return (struct document){all, (Pointer)all != DatumGetPointer(PG_GETARG_DATUM(at))};
}

/* Wipes and frees a copy. */
static void forget(const struct document *it) {
    if (it->is_copy) {
        explicit_bzero(it->all, VARSIZE_ANY(it->all));
        pfree(it->all);
    }
}

static const uint8_t *octets_of(const struct document *it) {
    return (const uint8_t *)VARDATA_ANY(it->all);
}

static size_t length_of(const struct document *it) {
    return VARSIZE_ANY_EXHDR(it->all);
}

/* Writes the line of the program for a document that is judged. */
static void write_line(char *line, const pkder_outcome *said) {
    char reason[16] = "", inside[16] = "";
    int length;
    if (said->status == PKDER_ACCEPTED) {
        strlcpy(line, "DER", LINE);
        return;
    }
    if (said->status == PKDER_NOT_DER) {
        snprintf(line, LINE, "not DER at " UINT64_FORMAT, said->at);
        return;
    }
    pkder_reason_name(said->reason, (uint8_t *)reason, sizeof reason);
    length = snprintf(line, LINE, "fault at " UINT64_FORMAT ": %s", said->at, reason);
    if (said->inside_reason != 0) {
        pkder_reason_name(said->inside_reason, (uint8_t *)inside, sizeof inside);
        snprintf(line + length, LINE - (size_t)length, " inside at " UINT64_FORMAT ": %s", said->inside_at, inside);
    }
}

/* Raises that a document is refused, with its line. */
static void refuse(int code, const struct question *it, const char *which, const pkder_outcome *said) {
    char line[LINE];
    write_line(line, said);
    RAISE(code, errmsg("%s: %s%s", it->kind, which, line),
          errhint("pkder_explain says which field that is, what is due there and what to do."));
}

/* Raises an answer that says nothing of the document. */
static void raise_unjudged(const pkder_outcome *said) {
    switch (said->status) {
    case PKDER_NO_MEMORY:
        RAISE(ERRCODE_OUT_OF_MEMORY, errmsg("pkder: out of memory"));
        break;
    case PKDER_BAD_CALL:
        RAISE(ERRCODE_INVALID_PARAMETER_VALUE, errmsg("pkder: no such limits"),
              errhint("depth is 1 to %u, octets 1 to " UINT64_FORMAT ".", PKDER_MOST_DEPTH, PKDER_MOST_OCTETS));
        break;
    default:
        RAISE(ERRCODE_INTERNAL_ERROR, errmsg("pkder: libpkder answers the status %u", said->status));
    }
}

/* Checks the document that the second argument is; any other answer than on the document is raised. */
static pkder_outcome checked(FunctionCallInfo fcinfo, const struct question *it) {
    struct document document = document_of(fcinfo, 1);
    pkder_outcome said = pkder_check(it->what, it->depth, it->octets, octets_of(&document), length_of(&document));
    forget(&document);
    if (said.status != PKDER_ACCEPTED && said.status != PKDER_NOT_DER && said.status != PKDER_FAULT) {
        raise_unjudged(&said);
    }
    return said;
}

static pkder_outcome asked(const struct question *it, const struct document *of, uint8_t *dst, size_t room) {
    const uint8_t *src = octets_of(of);
    size_t length = length_of(of);
    if (it->call != NULL) {
        return it->call(it->what, it->depth, it->octets, src, length, dst, room);
    }
    return pkder_explain(it->what, it->depth, it->octets, it->form, src, length, dst, room);
}

/* Asks with this room at first, and with as much as is asked for then. Nothing is raised, since a copy has yet to be
 * wiped: where there is no memory the outcome says so. */
static pkder_outcome written(const struct question *it, const struct document *of, size_t room, struct varlena **text) {
    for (;;) {
        *text = AllocSizeIsValid(VARHDRSZ + room) ? palloc_extended(VARHDRSZ + room, MCXT_ALLOC_NO_OOM) : NULL;
        if (*text == NULL) {
            return (pkder_outcome){.status = PKDER_NO_MEMORY};
        }
        pkder_outcome said = asked(it, of, (uint8_t *)VARDATA(*text), room);
        bool is_short = said.status == PKDER_NO_ROOM || said.status == PKDER_UNREPORTED;
        if (!is_short || said.size <= room) {
            SET_VARSIZE(*text, VARHDRSZ + said.size);
            return said;
        }
        pfree(*text);
        room = said.size;
    }
}

/* What a call writes of the document that the second argument is. Of one that is refused the fault is raised. */
static struct varlena *text_of(FunctionCallInfo fcinfo, const struct question *it) {
    struct document document = document_of(fcinfo, 1);
    struct varlena *text;
    pkder_outcome said = written(it, &document, length_of(&document), &text);
    forget(&document);
    if (said.status == PKDER_FAULT) {
        refuse(ERRCODE_INVALID_BINARY_REPRESENTATION, it, "", &said);
    }
    if (said.status != PKDER_ACCEPTED) {
        raise_unjudged(&said);
    }
    return text;
}

/* What is reported of the octets that the second argument is, whatever they are. */
static text *report_of(FunctionCallInfo fcinfo, const struct question *it) {
    struct document document = document_of(fcinfo, 1);
    struct varlena *text;
    pkder_outcome said = written(it, &document, REPORT_ROOM, &text);
    forget(&document);
    if (said.status != PKDER_REPORTED) {
        raise_unjudged(&said);
    }
    return text;
}

PG_FUNCTION_INFO_V1(pkder_sql_check);
Datum pkder_sql_check(PG_FUNCTION_ARGS) {
    struct question it = question_of(fcinfo, &kinds, NULL);
    pkder_outcome said = checked(fcinfo, &it);
    char line[LINE];
    write_line(line, &said);
    PG_RETURN_TEXT_P(cstring_to_text(line));
}

PG_FUNCTION_INFO_V1(pkder_sql_is_der);
Datum pkder_sql_is_der(PG_FUNCTION_ARGS) {
    struct question it = question_of(fcinfo, &kinds, NULL);
    PG_RETURN_BOOL(checked(fcinfo, &it).status == PKDER_ACCEPTED);
}

PG_FUNCTION_INFO_V1(pkder_sql_require_der);
Datum pkder_sql_require_der(PG_FUNCTION_ARGS) {
    struct question it = question_of(fcinfo, &kinds, NULL);
    pkder_outcome said = checked(fcinfo, &it);
    if (said.status != PKDER_ACCEPTED) {
        refuse(ERRCODE_CHECK_VIOLATION, &it, "", &said);
    }
    PG_RETURN_BOOL(true);
}

PG_FUNCTION_INFO_V1(pkder_sql_normalise);
Datum pkder_sql_normalise(PG_FUNCTION_ARGS) {
    struct question it = question_of(fcinfo, &kinds, pkder_normalise);
    PG_RETURN_BYTEA_P(text_of(fcinfo, &it));
}

PG_FUNCTION_INFO_V1(pkder_sql_show);
Datum pkder_sql_show(PG_FUNCTION_ARGS) {
    struct question it = question_of(fcinfo, &kinds, pkder_show);
    PG_RETURN_TEXT_P(text_of(fcinfo, &it));
}

PG_FUNCTION_INFO_V1(pkder_sql_signed);
Datum pkder_sql_signed(PG_FUNCTION_ARGS) {
    struct question it = question_of(fcinfo, &parts, pkder_signed);
    PG_RETURN_BYTEA_P(text_of(fcinfo, &it));
}

PG_FUNCTION_INFO_V1(pkder_sql_field);
Datum pkder_sql_field(PG_FUNCTION_ARGS) {
    struct question it = question_of(fcinfo, &kinds, pkder_field);
    PG_RETURN_TEXT_P(report_of(fcinfo, &it));
}

/* (Reports are UTF-8; letters that the database's encoding hasn't are an error of the server's.) */
PG_FUNCTION_INFO_V1(pkder_sql_explain);
Datum pkder_sql_explain(PG_FUNCTION_ARGS) {
    struct question it = question_of(fcinfo, &kinds, NULL);
    it.form = form_of(PG_GETARG_TEXT_PP(2));
    text *report = report_of(fcinfo, &it);
    const char *there = pg_any_to_server(VARDATA(report), (int)(VARSIZE(report) - VARHDRSZ), PG_UTF8);
    PG_RETURN_TEXT_P(there == VARDATA(report) ? report : cstring_to_text(there));
}

/* The second of two documents; where the server can't have it, the first is wiped. */
static struct document second_of(FunctionCallInfo fcinfo, const struct document *first) {
    struct document second;
    PG_TRY();
    { second = document_of(fcinfo, 2); }
    PG_CATCH();
    {
        forget(first);
        PG_RE_THROW();
    }
    PG_END_TRY();
    return second;
}

PG_FUNCTION_INFO_V1(pkder_sql_same);
Datum pkder_sql_same(PG_FUNCTION_ARGS) {
    struct question it = question_of(fcinfo, &kinds, NULL);
    struct document first = document_of(fcinfo, 1), second = second_of(fcinfo, &first);
    pkder_outcome said = pkder_same(it.what, it.depth, it.octets, octets_of(&first), length_of(&first),
                                    octets_of(&second), length_of(&second));
    forget(&first);
    forget(&second);
    if (said.status == PKDER_FAULT) {
        refuse(ERRCODE_INVALID_BINARY_REPRESENTATION, &it, said.which == 1 ? "first: " : "second: ", &said);
    }
    if (said.status != PKDER_ACCEPTED && said.status != PKDER_ANOTHER) {
        raise_unjudged(&said);
    }
    PG_RETURN_BOOL(said.status == PKDER_ACCEPTED);
}
