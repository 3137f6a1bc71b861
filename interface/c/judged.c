/* judged COUNT SEED FILE..: whether pkder_check, which judges octets as they stand and reads those that it doesn't find
 * to be in DER so, agrees with pkder_normalise, pkder_same and pkder_signed on so many documents that are made of the
 * files by chance.
 * A SEED of 0 draws one. It is linked as counted.h says. A document that fails is shown with its number, which makes it
 * again under the same seed. At the end stands what was said of each kind; the last line is
 * 'judged: N passed, M failed'.
 *
 * pkder_normalise and pkder_same judge, too. So a document whose outermost element ends where its length says is read
 * once more in another layout, which no judge passes. */
#define _DEFAULT_SOURCE
#include <sys/mman.h>
#include <time.h>
#include <unistd.h>

#include "changes.h"
#include "counted.h"

/* Octets of a document at most; what is shown of those that fail; what becomes of one. */
enum { MOST = 1 << 18, MOST_SHOWN = 5, MORE_OCTETS = 6 };
enum { JUDGED, READ_IN_DER, READ_NOT_IN_DER, NO_DOCUMENT, VERDICTS };

/* A document and what is asked of it. */
struct question {
    struct task task; /* to write its text */
    const uint8_t *src;
    size_t len;
};

static uint8_t *page_end;
static unsigned long found[PKDER_PACKAGE + 1][VERDICTS];

static pkder_outcome write_text(const struct question *it, uint8_t *text, size_t room) {
    return do_task(&it->task, it->src, it->len, text, room);
}

/* What pkder_check has to say, by what was answered before, and the text that was written then. */
static pkder_outcome due_of_check(const struct question *it, const pkder_outcome *read, const uint8_t *text) {
    if (read->status != PKDER_ACCEPTED) {
        return *read;
    }
    size_t size = (size_t)read->size, at = 0;
    while (at < it->len && at < size && it->src[at] == text[at]) {
        at++;
    }
    if (at == it->len && at == size) {
        return (pkder_outcome){.status = PKDER_ACCEPTED, .taken = it->len};
    }
    CHECK(at < it->len && at < size);
    return (pkder_outcome){.status = PKDER_NOT_DER, .at = at, .taken = it->len};
}

static int is_document(const pkder_outcome *said) {
    return said->status == PKDER_ACCEPTED || said->status == PKDER_NOT_DER;
}

/* pkder_same of the octets and themselves. */
static int agrees_with_same(const struct question *it, const pkder_outcome *said) {
    pkder_outcome due = *said;
    due.which = 1;
    if (is_document(said)) {
        due = (pkder_outcome){.status = PKDER_ACCEPTED};
    }
    pkder_outcome same = same_as_itself(it->task.what, it->task.depth, it->task.octets, it->src, it->len, NULL, 0);
    return is_same(&same, &due);
}

/* Of a request in DER, what the signature covers is the same as it came, which is judged, and as it is written. */
static int agrees_with_signed(const struct question *it, const pkder_outcome *said) {
    static uint8_t received[MOST], info[MOST];
    const struct task *task = &it->task;
    if (task->what != PKDER_REQUEST) {
        return 1;
    }
    pkder_outcome part =
        pkder_signed(PKDER_RECEIVED, task->depth, task->octets, it->src, it->len, received, sizeof received);
    if (!is_document(said)) {
        return is_same(&part, said);
    }
    pkder_outcome written = pkder_signed(PKDER_INFO, task->depth, task->octets, it->src, it->len, info, sizeof info);
    int is_equal = part.size == written.size && memcmp(received, info, (size_t)part.size) == 0;
    return part.status == PKDER_ACCEPTED && written.status == PKDER_ACCEPTED &&
           (is_equal || said->status == PKDER_NOT_DER);
}

/* The octets of the header of a SEQUENCE of definite length that all of the octets are; 0 where they aren't. */
static size_t outermost_header(const uint8_t *src, size_t len) {
    struct octets from = {src, src + len};
    size_t size;
    uint8_t form;
    if (len < 2 || *from.at++ != 0x30 || !take_length(&from, &size, &form) || form == INDEFINITE) {
        return 0;
    }
    return (size_t)(from.end - from.at) == size ? (size_t)(from.at - src) : 0;
}

/* What has to be said of the other layout, if something has: the same fault, as far behind its header as it was.
 *   TooLong, here or inside, and TextTooLong: nothing, since the limit isn't the same.
 *   PastEnd and BadEnd, where the other length is indefinite: some fault. What reaches past the end of the outermost
 *   element reaches into what follows there, and end-of-contents octets that may not stand here may end that one.
 * A place of 0 is that of the outermost element. */
static int is_moved(const pkder_outcome *said, const pkder_outcome *other, size_t header, int is_indefinite) {
    if (said->reason == PKDER_REASON_TOO_LONG || said->inside_reason == PKDER_REASON_TOO_LONG ||
        said->reason == PKDER_REASON_TEXT_TOO_LONG) {
        return 1;
    }
    if (is_indefinite && (said->reason == PKDER_REASON_PAST_END || said->reason == PKDER_REASON_BAD_END)) {
        return other->status == PKDER_FAULT;
    }
    pkder_outcome moved = *said;
    if (said->at != 0) {
        moved.at += (is_indefinite ? 2 : 6);
        moved.at -= header;
    }
    return is_same(&moved, other);
}

/* Writes the document with the length of its outermost element indefinite, or in four octets; returns its octets. */
static size_t lay_out(const struct question *it, size_t header, int is_indefinite, uint8_t *dst) {
    size_t size = it->len - header;
    uint8_t *contents = dst + (is_indefinite ? 2 : 6);
    dst[0] = 0x30;
    dst[1] = 0x80;
    if (!is_indefinite) {
        put_length(contents, size, 4);
    }
    memcpy(contents, it->src + header, size);
    memset(contents + size, 0, 2);
    return (size_t)(contents - dst) + size + (is_indefinite ? 2 : 0);
}

/* The document in another layout is read: it has the same text, or the fault that is due. Its limit of octets is as
 * much greater as it may be longer. */
static int agrees_with_other(const struct question *it, const pkder_outcome *said, const uint8_t *text, size_t size) {
    static uint8_t other[MOST + MORE_OCTETS], other_text[2 * sizeof other];
    size_t header = outermost_header(it->src, it->len);
    if (header == 0) {
        return 1;
    }
    int is_indefinite = (int)chance(2);
    struct question moved = {it->task, other, lay_out(it, header, is_indefinite, other)};
    moved.task.octets += MORE_OCTETS;
    pkder_outcome read = write_text(&moved, other_text, sizeof other_text);
    if (!is_document(said)) {
        return is_moved(said, &read, header, is_indefinite);
    }
    int is_equal = read.size == it->len && memcmp(other_text, it->src, it->len) == 0;
    return read.status == PKDER_ACCEPTED && read.size == size && memcmp(other_text, text, size) == 0 &&
           is_equal == (said->status == PKDER_ACCEPTED);
}

/* Whether the answers agree; NULL where they do, and else what doesn't. */
static const char *try_document(const struct question *it) {
    static uint8_t text[PKDER_ROOM(MOST)];
    pkder_outcome read = write_text(it, text, sizeof text), due = due_of_check(it, &read, text);
    unsigned long times;
    pkder_outcome said = counted_check(&it->task, it->src, it->len, &times);
    int verdict = said.status == PKDER_ACCEPTED  ? (times == 0 ? JUDGED : READ_IN_DER)
                  : said.status == PKDER_NOT_DER ? READ_NOT_IN_DER
                                                 : NO_DOCUMENT;
    found[it->task.what][verdict]++;
    if (!is_same(&said, &due)) {
        return "normalise";
    }
    if (!agrees_with_same(it, &said)) {
        return "same";
    }
    if (!agrees_with_signed(it, &said)) {
        return "signed";
    }
    return agrees_with_other(it, &said, text, (size_t)read.size) ? NULL : "another layout";
}

static void print_said(const char *name, const pkder_outcome *said) {
    printf("  %s: ", name);
    if (said->status == PKDER_ACCEPTED) {
        puts("accepted");
    } else {
        print_outcome(stdout, said);
    }
}

/* Shows a document that fails. */
static void show(uint64_t number, const struct question *it, const char *what) {
    const struct task *task = &it->task;
    pkder_outcome said = pkder_check(task->what, task->depth, task->octets, it->src, it->len);
    pkder_outcome read = write_text(it, NULL, 0);
    printf("document %" PRIu64 ", unlike %s: %s, depth %" PRIu32 ", %" PRIu64 " octets: ", number, what,
           kinds[task->what - 1], task->depth, task->octets);
    for (size_t i = 0; i < it->len; i++) {
        printf("%02x", it->src[i]);
    }
    puts("");
    print_said("check", &said);
    if (read.status == PKDER_NO_ROOM) {
        printf("  normalise: %" PRIu64 " octets\n", read.size);
    } else {
        print_said("normalise", &read);
    }
}

/* A file of the kind, if there is one, and mostly one that is in DER. */
static const struct file *file_of(uint32_t kind) {
    for (unsigned tries = 0;; tries++) {
        const struct file *it = &files[chance((uint32_t)file_count)];
        if (tries == 1000 || (it->kind == kind && (it->is_in_der || chance(8) == 0))) {
            return it;
        }
    }
}

/* A package of some keys. */
static void begin_package(void) {
    uint16_t package = tree.at[0].first;
    tree.at[package].first = 0;
    for (uint32_t keys = 1 + chance(3); keys > 0; keys--) {
        uint16_t key = copy_element(&file_of(PKDER_KEY)->tree, 1, package);
        tree.at[key].next = tree.at[package].first;
        tree.at[package].first = key;
    }
}

/* Begins with a file; a package mostly with keys, and an encrypted key often with an algorithm of a public one. */
static void begin(uint32_t kind) {
    const struct file *from = file_of(kind);
    tree.used = from->tree.used;
    memcpy(tree.at, from->tree.at, tree.used * sizeof *tree.at);
    made_len = 0;
    if (kind == PKDER_PACKAGE && chance(4) != 0) {
        begin_package();
    } else if (kind == PKDER_ENCRYPTED && chance(2) != 0) {
        replace(tree.at[1].first, copy_element(&file_of(PKDER_PUBLIC)->tree, 2, 1));
    }
}

/* Changes the elements, mostly all gently or all in any way; the lengths around them are mended or not. */
static void change_elements(uint32_t steps) {
    uint32_t most = chance(2) == 0 ? CHANGES : GENTLE;
    for (; steps > 0; steps--) {
        if (chance(40) == 0) {
            claim_lengths(pick(&tree, is_any_element, 0));
        }
        changes[chance(most)]();
    }
}

/* Puts the document in front of the closed page, and returns its length; less or more of it by chance. */
static size_t put_document(void) {
    uint8_t *end = page_end, *at = end;
    if (chance(40) == 0) {
        const uint8_t after[] = {(uint8_t)chance(2), (uint8_t)(chance(2) * 0x30), 0};
        at = put_octets(end, after, 1 + chance(sizeof after));
    }
    at = put_elements(&tree, tree.at[0].first, at);
    size_t len = (size_t)(end - at), most = chance(40) == 0 ? chance((uint32_t)len + 1) : MOST;
    if (len > most) {
        memmove(end - most, at, most);
        len = most;
    }
    return len;
}

/* Changes octets, whatever they are. */
static void change_blindly(uint8_t *octets, size_t len) {
    for (uint32_t times = len > 0 ? 1 + chance(3) : 0; times > 0; times--) {
        uint8_t *octet = octets + chance((uint32_t)len);
        const uint8_t others[] = {(uint8_t)chance(256), (uint8_t)(*octet ^ 1u << chance(8)), (uint8_t)(*octet + 1),
                                  (uint8_t)(*octet - 1)};
        *octet = others[chance(sizeof others)];
    }
}

/* Limits that are small, by chance. */
static void limit(struct task *task, size_t len) {
    if (chance(12) == 0) {
        task->depth = 1 + chance(8);
    }
    if (chance(12) == 0) {
        task->octets = len + chance(5);
        task->octets -= task->octets > 2 ? 2 : 0;
        task->octets += task->octets == 0;
    }
}

/* The question about the document of this number. */
static struct question question_of(uint64_t seed, uint64_t number) {
    static const uint32_t steps[] = {0, 1, 1, 1, 1, 2, 2, 2, 3, 4};
    state = seed;
    state = draw() + number;
    uint32_t kind = 1 + chance(PKDER_PACKAGE);
    begin(kind);
    change_elements(steps[chance(sizeof steps / sizeof *steps)]);
    if (chance(4) != 0) {
        sort_sets(0);
    }
    size_t len = put_document();
    if (chance(16) == 0) {
        change_blindly(page_end - len, len);
    }
    struct task task = {pkder_normalise, kind, PKDER_DEPTH, PKDER_OCTETS};
    limit(&task, len);
    if (chance(50) == 0) {
        task.what = 1 + chance(PKDER_PACKAGE);
    }
    return (struct question){task, page_end - len, len};
}

/* Takes a file apart; whether it is an element, which is put together again as it was. */
static int take_file(struct file *file, const char *name) {
    size_t len = load(name, file->octets, sizeof file->octets);
    if (!take_document(&file->tree, file->octets, len)) {
        return 0;
    }
    uint8_t *end = scratch + sizeof scratch, *at = put_elements(&file->tree, 1, end);
    CHECK((size_t)(end - at) == len && memcmp(at, file->octets, len) == 0);
    uint64_t last = 0;
    for (uint32_t kind = 1; kind <= PKDER_PACKAGE; kind++) {
        pkder_outcome said = pkder_check(kind, PKDER_DEPTH, PKDER_OCTETS, file->octets, len);
        uint64_t place = is_document(&said) ? UINT64_MAX : said.at + 1;
        if (place > last) {
            file->kind = kind;
            file->is_in_der = said.status == PKDER_ACCEPTED;
            last = place;
        }
    }
    return 1;
}

static void take_files(int count, char **names) {
    size_t page = (size_t)sysconf(_SC_PAGESIZE), size = sizeof scratch / page * page;
    uint8_t *room = mmap(NULL, size + page, PROT_NONE, MAP_PRIVATE | MAP_ANONYMOUS, -1, 0);
    CHECK(room != MAP_FAILED && mprotect(room, size, PROT_READ | PROT_WRITE) == 0);
    page_end = room + size;
    files = calloc((size_t)count, sizeof *files);
    CHECK(files != NULL);
    for (int i = 0; i < count; i++) {
        file_count += (size_t)take_file(&files[file_count], names[i]);
    }
    CHECK(file_count > 0);
}

static void print_found(void) {
    for (uint32_t kind = 1; kind <= PKDER_PACKAGE; kind++) {
        const unsigned long *it = found[kind];
        printf("%s: %lu judged to be in DER, %lu read and in DER, %lu not in DER, %lu refused\n", kinds[kind - 1],
               it[JUDGED], it[READ_IN_DER], it[READ_NOT_IN_DER], it[NO_DOCUMENT]);
    }
}

int main(int count, char **words) {
    if (count < 4) {
        fputs("judged COUNT SEED FILE..\n", stderr);
        return 2;
    }
    uint64_t documents = strtoull(words[1], NULL, 10), seed = strtoull(words[2], NULL, 10), failed = 0;
    if (seed == 0) {
        struct timespec now;
        clock_gettime(CLOCK_REALTIME, &now);
        seed = (uint64_t)now.tv_sec * 1000000 + (uint64_t)now.tv_nsec / 1000;
    }
    printf("seed %" PRIu64 ": %" PRIu64 " documents\n", seed, documents);
    fflush(stdout);
    take_files(count - 3, words + 3);
    for (uint64_t number = 0; number < documents; number++) {
        struct question it = question_of(seed, number);
        const char *what = try_document(&it);
        if (what != NULL && failed++ < MOST_SHOWN) {
            show(number, &it, what);
        }
    }
    print_found();
    printf("judged: %" PRIu64 " passed, %" PRIu64 " failed\n", documents - failed, failed);
    return failed != 0;
}
