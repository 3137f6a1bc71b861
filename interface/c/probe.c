/* probe FILE..: what pkder.h promises and a caller can see, on each file, on it cut at each octet and changed by
 * chance, and on octets by chance, in each kind and part. Octets handed over end where a page begins that can't be
 * touched, or begin where one ends; each beside the one before it. Also: bad calls, no octets, names, one page for
 * both, eight threads. ROUNDS is how often by chance (200). */
#define _DEFAULT_SOURCE
#include <pthread.h>
#include <sys/mman.h>
#include <unistd.h>

#include "trial.h"

#define MOST 16384
#define MOST_REPORTED 65536

/* Octets between closed pages. */
struct room {
    uint8_t *at;
    size_t size;
};

static struct room src_room, dst_room;
static int at_start;
static unsigned long documents, accepted;

static struct room new_room(size_t most) {
    size_t page = (size_t)sysconf(_SC_PAGESIZE), size = most / page * page;
    uint8_t *at = mmap(NULL, size + 2 * page, PROT_NONE, MAP_PRIVATE | MAP_ANONYMOUS, -1, 0);
    CHECK(at != MAP_FAILED && mprotect(at + page, size, PROT_READ | PROT_WRITE) == 0);
    return (struct room){at + page, size};
}

/* The place of so many octets in a room, beside a closed page. */
static uint8_t *place(struct room room, size_t len) {
    return at_start ? room.at : room.at + room.size - len;
}

/* A fault has its numbers and no others. */
static void check_fault(const pkder_outcome *fault, size_t len) {
    CHECK(fault->status == PKDER_FAULT && fault->which == 0 && fault->taken == 0 && fault->size == 0);
    CHECK(fault->reason >= 1 && fault->reason <= 27 && fault->inside_reason <= 27 && fault->at <= len);
    int is_inner = fault->reason == PKDER_REASON_INNER;
    CHECK(is_inner == (fault->inside_reason != 0) && (is_inner || fault->inside_at == 0));
}

/* What pkder_check says of a document goes with its text, which is in DER. */
static void check_check(const struct task *task, const uint8_t *src, size_t len, const uint8_t *text, size_t size) {
    pkder_outcome said = pkder_check(task->what, task->depth, task->octets, src, len);
    if (size == len && memcmp(src, text, len) == 0) {
        CHECK(said.status == PKDER_ACCEPTED && said.at == 0 && said.taken == len && said.size == 0);
        return;
    }
    CHECK(said.status == PKDER_NOT_DER && said.at < len && said.taken == len && said.size == 0);
    size_t at = (size_t)said.at;
    CHECK(at < size && memcmp(src, text, at) == 0 && src[at] != text[at]);
    pkder_outcome again = pkder_check(task->what, task->depth, task->octets, text, size);
    CHECK(again.status == PKDER_ACCEPTED);
}

/* The call with room for so many octets of its text, `due` being its outcome where there is none. */
static void check_room(const struct task *task, const uint8_t *src, const pkder_outcome *due, size_t room) {
    size_t size = (size_t)due->size;
    fill(dst_room.at, dst_room.size);
    uint8_t *dst = place(dst_room, room);
    pkder_outcome said = do_task(task, src, (size_t)due->taken, dst, room);
    CHECK(said.taken == due->taken && said.size == size);
    if (room < size) {
        CHECK(said.status == PKDER_NO_ROOM && is_filled(dst_room.at, dst_room.size));
        return;
    }
    CHECK(said.status == PKDER_ACCEPTED && is_filled(dst_room.at, (size_t)(dst - dst_room.at)));
    CHECK(is_filled(dst + size, (size_t)(dst_room.at + dst_room.size - dst) - size));
}

/* A document that is refused is so by each call, for the same reason, and nothing is written. */
static void check_refused(const struct task *task, const uint8_t *src, size_t len, const pkder_outcome *said) {
    check_fault(said, len);
    fill(dst_room.at, dst_room.size);
    pkder_outcome again = do_task(task, src, len, dst_room.at, dst_room.size);
    CHECK(is_same(said, &again) && is_filled(dst_room.at, dst_room.size));
    uint32_t kind = task->call == pkder_signed ? PKDER_REQUEST : task->what;
    again = pkder_check(kind, task->depth, task->octets, src, len);
    CHECK(is_same(said, &again));
}

static void one(const struct task *task, const uint8_t *given, size_t len) {
    uint8_t *src = place(src_room, len);
    memcpy(src, given, len);
    documents++;
    pkder_outcome said = do_task(task, src, len, NULL, 0);
    if (said.status == PKDER_FAULT) {
        check_refused(task, src, len, &said);
        CHECK(memcmp(src, given, len) == 0);
        return;
    }
    accepted++;
    CHECK(said.status == (said.size ? PKDER_NO_ROOM : PKDER_ACCEPTED) && said.taken == len && said.which == 0);
    CHECK(said.reason == 0 && said.inside_reason == 0 && said.at == 0 && said.inside_at == 0);
    size_t size = (size_t)said.size;
    CHECK(size < dst_room.size);
    if (size > 0) {
        check_room(task, src, &said, size - 1);
    }
    check_room(task, src, &said, size + 1);
    check_room(task, src, &said, size);
    CHECK(memcmp(src, given, len) == 0);
    if (task->call == pkder_normalise) {
        CHECK(size <= PKDER_ROOM(len) && size <= task->octets);
        check_check(task, src, len, place(dst_room, size), size);
    }
}

/* Whether octets are lines of printable ASCII, or none; in a report there may be letters beyond ASCII, in JSON any that
 * RFC 8259 has as they are, and a field has no end of a line. */
static int are_lines(text_call *call, const uint8_t *text, size_t size) {
    int has_delete = is_json(call), is_ascii = call == pkder_show || call == pkder_field;
    for (size_t i = 0; i < size; i++) {
        if (text[i] != '\n' && (text[i] < ' ' || (text[i] == 127 && !has_delete) || (text[i] > 127 && is_ascii))) {
            return 0;
        }
    }
    return size == 0 || (text[size - 1] == '\n') == (call != pkder_field);
}

/* The report, with so much room; `due` is what is due of it but the status. */
static void check_report(const struct task *task, const uint8_t *src, size_t len, pkder_outcome due, size_t room) {
    size_t size = (size_t)due.size, written = room < size ? 0 : size;
    due.status = room < size ? PKDER_UNREPORTED : PKDER_REPORTED;
    fill(dst_room.at, dst_room.size);
    uint8_t *dst = place(dst_room, room);
    pkder_outcome said = do_task(task, src, len, dst, room);
    CHECK(is_same(&said, &due) && are_lines(task->call, dst, written));
    CHECK(is_filled(dst_room.at, (size_t)(dst - dst_room.at)));
    CHECK(is_filled(dst + written, (size_t)(dst_room.at + dst_room.size - dst) - written));
}

/* The field is the one that the report as text names; none of a document in DER. (Its path has no blank, at which a line
 * would end.) */
static void check_field(const struct task *task, const uint8_t *src, size_t len, size_t size) {
    static const char label[] = "\nfield   ";
    static uint8_t report[MOST_REPORTED], field[MOST];
    pkder_outcome said = explain_text(task->what, task->depth, task->octets, src, len, report, sizeof report - 1);
    CHECK(said.status == PKDER_REPORTED && size < sizeof field);
    report[said.size] = 0;
    const char *due = strstr((const char *)report, label);
    int is_der = said.reason == 0 && said.at == 0;
    CHECK((due == NULL) == is_der && (size == 0) == is_der);
    do_task(task, src, len, field, size);
    if (!is_der) {
        due += strlen(label);
        CHECK(strcspn(due, " \n") == size && due[size] == '\n' && memcmp(due, field, size) == 0);
    }
}

/* Whatever the octets are there is a report of them, and its numbers are those of pkder_check. */
static void one_report(const struct task *task, const uint8_t *given, size_t len) {
    uint8_t *src = place(src_room, len);
    memcpy(src, given, len);
    pkder_outcome due = pkder_check(task->what, task->depth, task->octets, src, len);
    pkder_outcome said = do_task(task, src, len, NULL, 0);
    size_t size = (size_t)said.size;
    CHECK(said.status == (size > 0 ? PKDER_UNREPORTED : PKDER_REPORTED) && size < dst_room.size);
    due.size = size;
    for (size_t room = size > 0 ? size - 1 : 0; room <= size + 1; room++) {
        check_report(task, src, len, due, room);
    }
    if (task->call == pkder_field) {
        check_field(task, src, len, size);
    } else {
        CHECK(size > 0);
    }
    CHECK(memcmp(src, given, len) == 0);
}

/* What pkder_same has to answer, by what pkder_normalise answers and writes of each. */
static pkder_outcome due_of_pair(const struct task *task, const uint8_t *first, size_t first_len, const uint8_t *second,
                                 size_t second_len) {
    static uint8_t text[2 * MOST], other[2 * MOST];
    pkder_outcome said = do_task(task, first, first_len, text, sizeof text);
    said.which = said.status == PKDER_FAULT ? 1 : 0;
    if (said.status == PKDER_ACCEPTED) {
        size_t size = (size_t)said.size;
        said = do_task(task, second, second_len, other, sizeof other);
        said.which = said.status == PKDER_FAULT ? 2 : 0;
        if (said.status == PKDER_ACCEPTED) {
            int is_equal = said.size == size && memcmp(text, other, size) == 0;
            return (pkder_outcome){is_equal ? PKDER_ACCEPTED : PKDER_ANOTHER, 0, 0, 0, 0, 0, 0, 0};
        }
    }
    return said;
}

/* Two inputs beside each other, either way round, each in a room of its own; and one beside itself. */
static void one_pair(uint32_t kind, uint32_t depth, uint64_t octets, const uint8_t *given, size_t len,
                     const uint8_t *given_other, size_t other_len) {
    const struct task task = {pkder_normalise, kind, depth, octets};
    uint8_t *first = place(src_room, len), *second = place(dst_room, other_len);
    memcpy(first, given, len);
    memcpy(second, given_other, other_len);
    pkder_outcome due = due_of_pair(&task, first, len, second, other_len);
    pkder_outcome said = pkder_same(kind, depth, octets, first, len, second, other_len);
    CHECK(is_same(&said, &due));
    due = due_of_pair(&task, second, other_len, first, len);
    said = pkder_same(kind, depth, octets, second, other_len, first, len);
    CHECK(is_same(&said, &due));
    due = due_of_pair(&task, first, len, first, len);
    said = pkder_same(kind, depth, octets, first, len, first, len);
    CHECK(is_same(&said, &due));
    CHECK(memcmp(first, given, len) == 0 && memcmp(second, given_other, other_len) == 0);
}

/* The inputs beside the ones that came before them. */
static void pairs(uint32_t depth, uint64_t octets, const uint8_t *given, size_t len) {
    static uint8_t before[MOST / 4];
    static size_t before_len;
    for (uint32_t kind = 1; kind <= PKDER_PACKAGE; kind++) {
        one_pair(kind, depth, octets, given, len, before, before_len);
    }
    before_len = len;
    memcpy(before, given, len);
}

static void all(uint32_t depth, uint64_t octets, const uint8_t *given, size_t len) {
    static unsigned long turn;
    turn++;
    pairs(depth, octets, given, len);
    for (uint32_t what = 1; what <= 6; what++) {
        /* (the forms and the field take turns) */
        one_report(&(struct task){reports[(turn + what) % REPORTS], what, depth, octets}, given, len);
        one(&(struct task){pkder_normalise, what, depth, octets}, given, len);
        one(&(struct task){pkder_show, what, depth, octets}, given, len);
        if (what <= PKDER_RECEIVED) {
            one(&(struct task){pkder_signed, what, depth, octets}, given, len);
        }
    }
}

static uint64_t state = 1;

static uint32_t chance(uint32_t below) {
    state = state * UINT64_C(6364136223846793005) + UINT64_C(1442695040888963407);
    return (uint32_t)(state >> 33) % below;
}

static void try_file(const char *name, unsigned rounds) {
    static uint8_t given[MOST / 4], changed[MOST / 4];
    size_t len = load(name, given, sizeof given);
    CHECK(len > 1);
    for (at_start = 0; at_start < 2; at_start++) {
        all(PKDER_DEPTH, PKDER_OCTETS, given, len);
        for (uint32_t depth = 1; depth < 12; depth++) {
            all(depth, len - depth % 2, given, len);
        }
        for (size_t cut = 0; cut < len; cut++) {
            all(PKDER_DEPTH, PKDER_OCTETS, given, cut);
        }
        for (unsigned i = 0; i < rounds; i++) {
            memcpy(changed, given, len);
            for (uint32_t times = 1 + chance(4); times > 0; times--) {
                changed[chance((uint32_t)len)] = (uint8_t)chance(256);
            }
            all(PKDER_DEPTH, PKDER_OCTETS, changed, len);
        }
    }
}

static void try_chance(unsigned rounds) {
    uint8_t octets[512];
    for (unsigned i = 0; i < rounds; i++) {
        size_t len = chance(sizeof octets);
        for (size_t j = 0; j < len; j++) {
            octets[j] = (uint8_t)chance(chance(2) ? 256 : 4);
        }
        all(PKDER_DEPTH, PKDER_OCTETS, octets, len);
    }
}

/* Calls on the octets, which have one outcome and leave the room alone. */
static void check_calls(text_call *const *calls, size_t number, const struct task *task, const uint8_t *src, size_t len,
                        const pkder_outcome *due) {
    for (size_t i = 0; i < number; i++) {
        uint8_t dst[8];
        fill(dst, sizeof dst);
        const struct task other = {calls[i], task->what, task->depth, task->octets};
        pkder_outcome said = do_task(&other, src, len, dst, sizeof dst);
        CHECK(is_same(&said, due) && is_filled(dst, sizeof dst));
        said = do_task(&other, src, len, NULL, 0);
        CHECK(is_same(&said, due));
    }
}

/* The four calls that refuse what is no document, and have one. */
static void check_each(const struct task *task, const uint8_t *src, size_t len, const pkder_outcome *due) {
    static text_call *const calls[] = {NULL, pkder_normalise, pkder_show, pkder_signed};
    check_calls(calls, sizeof calls / sizeof *calls, task, src, len, due);
}

/* Numbers out of range, some of which are in range by their last octets. */
static void try_bad_calls(void) {
    static const uint8_t src[2] = {0x30, 0};
    /* clang-format off */
    static const struct task rows[] = {
        {NULL, 0, 32, 100},         {NULL, 7, 32, 100},          {NULL, 257, 32, 100},
        {NULL, 0x10001, 32, 100},   {NULL, UINT32_MAX, 32, 100}, {NULL, 1, 0, 100},
        {NULL, 1, 65, 100},         {NULL, 1, 288, 100},         {NULL, 1, 0x10020, 100},
        {NULL, 1, UINT32_MAX, 100}, {NULL, 1, 32, 0},            {NULL, 1, 32, 0x80000000u},
        {NULL, 1, 32, UINT32_MAX},  {NULL, 1, 32, UINT64_C(0x100000064)},
        {NULL, 1, 32, UINT64_MAX},  {NULL, 0, 0, 0},
    };
    /* clang-format on */
    static text_call *const of_two = same_as_itself;
    const pkder_outcome due = {PKDER_BAD_CALL, 0, 0, 0, 0, 0, 0, 0};
    for (size_t i = 0; i < sizeof rows / sizeof *rows; i++) {
        check_each(&rows[i], src, sizeof src, &due);
        check_each(&rows[i], NULL, 0, &due);
        check_calls(reports, REPORTS, &rows[i], src, sizeof src, &due);
        check_calls(reports, REPORTS, &rows[i], NULL, 0, &due);
        check_calls(&of_two, 1, &rows[i], src, sizeof src, &due);
        check_calls(&of_two, 1, &rows[i], NULL, 0, &due);
    }
    static const uint32_t forms[] = {8, 9, 12, 15, 16, 256, 257, 0x10001, 0x80000002u, UINT32_MAX};
    for (size_t i = 0; i < sizeof forms / sizeof *forms; i++) {
        fill(dst_room.at, dst_room.size);
        pkder_outcome said =
            pkder_explain(PKDER_KEY, PKDER_DEPTH, PKDER_OCTETS, forms[i], src, sizeof src, dst_room.at, dst_room.size);
        CHECK(is_same(&said, &due) && is_filled(dst_room.at, dst_room.size));
    }
    /* (six kinds, five parts) */
    pkder_outcome said = pkder_signed(PKDER_RECEIVED + 1, PKDER_DEPTH, PKDER_OCTETS, src, sizeof src, NULL, 0);
    CHECK(is_same(&said, &due));
}

/* With a length of 0 goes any pointer. */
static void try_nothing(void) {
    const pkder_outcome due = {PKDER_FAULT, PKDER_REASON_TRUNCATED, 0, 0, 0, 0, 0, 0};
    const pkder_outcome due_of_first = {PKDER_FAULT, PKDER_REASON_TRUNCATED, 0, 1, 0, 0, 0, 0};
    const uint8_t *const pointers[] = {NULL, (const uint8_t *)1, src_room.at + src_room.size};
    for (size_t i = 0; i < sizeof pointers / sizeof *pointers; i++) {
        for (uint32_t what = 1; what <= PKDER_RECEIVED; what++) {
            check_each(&(struct task){NULL, what, PKDER_DEPTH, PKDER_OCTETS}, pointers[i], 0, &due);
        }
        for (uint32_t kind = 1; kind <= PKDER_PACKAGE; kind++) {
            pkder_outcome said = pkder_check(kind, PKDER_DEPTH, PKDER_OCTETS, pointers[i], 0);
            CHECK(is_same(&said, &due));
            said = pkder_same(kind, PKDER_DEPTH, PKDER_OCTETS, pointers[i], 0, pointers[0], 0);
            CHECK(is_same(&said, &due_of_first));
            for (size_t j = 0; j < REPORTS; j++) {
                said = reports[j](kind, PKDER_DEPTH, PKDER_OCTETS, pointers[i], 0, NULL, 0);
                CHECK(said.status == PKDER_UNREPORTED && said.reason == PKDER_REASON_TRUNCATED);
                CHECK(said.at == 0 && said.taken == 0 && said.size > 0);
            }
        }
    }
}

/* The reasons have the names of their numbers in pkder.h. */
static void try_names(void) {
    /* clang-format off */
    static const char *const names[] = {
        [PKDER_REASON_TRUNCATED] = "Truncated",     [PKDER_REASON_TOO_LONG] = "TooLong",
        [PKDER_REASON_BAD_TAG] = "BadTag",          [PKDER_REASON_PAST_END] = "PastEnd",
        [PKDER_REASON_BAD_END] = "BadEnd",          [PKDER_REASON_TOO_DEEP] = "TooDeep",
        [PKDER_REASON_WRONG_TAG] = "WrongTag",      [PKDER_REASON_EXTRA] = "Extra",
        [PKDER_REASON_LEFT_OUT] = "LeftOut",        [PKDER_REASON_WRONG_FORM] = "WrongForm",
        [PKDER_REASON_BAD_LENGTH] = "BadLength",    [PKDER_REASON_MISSING] = "Missing",
        [PKDER_REASON_BAD_INTEGER] = "BadInteger",  [PKDER_REASON_BAD_BOOLEAN] = "BadBoolean",
        [PKDER_REASON_BAD_NULL] = "BadNull",        [PKDER_REASON_BAD_BITS] = "BadBits",
        [PKDER_REASON_BAD_OID] = "BadOid",          [PKDER_REASON_BAD_TEXT] = "BadText",
        [PKDER_REASON_EMPTY_SET] = "EmptySet",      [PKDER_REASON_VERSION] = "Version",
        [PKDER_REASON_PARAMETERS] = "Parameters",   [PKDER_REASON_INNER] = "Inner",
        [PKDER_REASON_CURVE] = "Curve",             [PKDER_REASON_KEY_LENGTH] = "KeyLength",
        [PKDER_REASON_VERSION_RULE] = "VersionRule", [PKDER_REASON_TEXT_TOO_LONG] = "TextTooLong",
        [PKDER_REASON_TRAILING] = "Trailing",
    };
    /* clang-format on */
    uint8_t name[32];
    for (uint32_t reason = 0; reason < 300; reason++) {
        const char *due = reason < sizeof names / sizeof *names && names[reason] != NULL ? names[reason] : "";
        size_t due_len = strlen(due);
        fill(name, sizeof name);
        CHECK(pkder_reason_name(reason, name, due_len) == due_len && is_filled(name, sizeof name));
        CHECK(pkder_reason_name(reason, NULL, 0) == due_len);
        for (size_t room = due_len + 1; room <= sizeof name; room++) {
            fill(name, sizeof name);
            CHECK(pkder_reason_name(reason, name, room) == due_len);
            size_t written = due_len == 0 ? 0 : due_len + 1;
            CHECK(memcmp(name, due, written) == 0 && is_filled(name + written, sizeof name - written));
        }
    }
    CHECK(pkder_reason_name(UINT32_MAX, name, sizeof name) == 0 && pkder_reason_name(257, name, sizeof name) == 0);
}

/* The public key of 32 octets 0 under Ed25519. */
static const uint8_t ed25519[44] = {0x30, 0x2A, 0x30, 0x05, 0x06, 0x03, 0x2B, 0x65, 0x70, 0x03, 0x21, 0x00};

/* Input and output in one page, the one right after the other, and a closed page after both. */
static void try_one_page(void) {
    uint8_t *last = dst_room.at + dst_room.size - sizeof ed25519, *before = last - sizeof ed25519;
    for (int is_input_last = 0; is_input_last < 2; is_input_last++) {
        uint8_t *src = is_input_last ? last : before, *dst = is_input_last ? before : last;
        fill(dst_room.at, dst_room.size);
        memcpy(src, ed25519, sizeof ed25519);
        pkder_outcome said =
            pkder_normalise(PKDER_PUBLIC, PKDER_DEPTH, PKDER_OCTETS, src, sizeof ed25519, dst, sizeof ed25519);
        CHECK(said.status == PKDER_ACCEPTED && memcmp(dst, ed25519, sizeof ed25519) == 0);
        CHECK(memcmp(src, ed25519, sizeof ed25519) == 0 && is_filled(dst_room.at, (size_t)(before - dst_room.at)));
    }
}

/* A call that a thread makes again and again, and what it answers and writes. */
struct repeated {
    struct task task;
    pkder_outcome due;
    uint8_t text[4096];
};

static pkder_outcome write_anew(const struct task *task, uint8_t *text, size_t room) {
    fill(text, room);
    return do_task(task, ed25519, sizeof ed25519, text, room);
}

static void *call_often(void *argument) {
    const struct repeated *it = argument;
    uint8_t text[sizeof it->text];
    for (int i = 0; i < 20000; i++) {
        pkder_outcome said = write_anew(&it->task, text, sizeof text);
        CHECK(is_same(&said, &it->due) && memcmp(text, it->text, sizeof text) == 0);
    }
    return NULL;
}

/* Threads at once, each with a call of its own. */
static void try_threads(void) {
    static text_call *const calls[] = {NULL,         same_as_itself, pkder_normalise,  pkder_show,
                                       pkder_signed, explain_text,   explain_all_json, pkder_field};
    static const uint32_t due[] = {PKDER_ACCEPTED, PKDER_ACCEPTED, PKDER_ACCEPTED, PKDER_ACCEPTED,
                                   PKDER_FAULT,    PKDER_REPORTED, PKDER_REPORTED, PKDER_REPORTED};
    enum { THREADS = sizeof calls / sizeof *calls };
    static struct repeated repeated[THREADS];
    pthread_t threads[THREADS];
    for (size_t i = 0; i < THREADS; i++) {
        struct repeated *it = &repeated[i];
        it->task = (struct task){calls[i], PKDER_PUBLIC, PKDER_DEPTH, PKDER_OCTETS};
        it->due = write_anew(&it->task, it->text, sizeof it->text);
        CHECK(it->due.status == due[i]);
    }
    for (size_t i = 0; i < THREADS; i++) {
        CHECK(pthread_create(&threads[i], NULL, call_often, &repeated[i]) == 0);
    }
    for (size_t i = 0; i < THREADS; i++) {
        CHECK(pthread_join(threads[i], NULL) == 0);
    }
}

int main(int count, char **names) {
    const char *rounds = getenv("ROUNDS");
    unsigned often = rounds != NULL ? (unsigned)atoi(rounds) : 200;
    src_room = new_room(MOST);
    dst_room = new_room(MOST_REPORTED);
    CHECK(pkder_interface() == PKDER_INTERFACE && sizeof(pkder_outcome) == 48);
    try_bad_calls();
    try_nothing();
    try_names();
    try_one_page();
    try_threads();
    for (int i = 1; i < count; i++) {
        try_file(names[i], often);
    }
    try_chance(20 * often);
    printf("%lu documents, %lu accepted\n", documents, accepted);
    return 0;
}
