/* The calls of libpkder for Java. Documents are copied, judged and wiped, and what is written goes into an array of
 * just its octets. (An array that is held in place keeps the collector of many JVMs off all threads for the time of a
 * call.) Not proved. */
#define _GNU_SOURCE
#include <pthread.h>
#include <stdlib.h>

#include "pkder.h"
#include "pkder_Native.h"

/* Of a thread's stack HotSpot keeps the lowest pages from use. */
#define KEPT_STACK 65536
/* Room for a report or a field at first; reports of all elements may need more. */
#define REPORT_ROOM 8192
#define MOST_OCTETS_OF_ARRAY INT32_MAX

enum call { CHECK, NORMALISE, SIGNED, SHOW, EXPLAIN, FIELD };

/* What is asked of the library, but for the octets. */
struct question {
    enum call call;
    jint what, depth, octets, form;
};

struct octets {
    uint8_t *start; /* NULL where there is no memory */
    size_t length;
};

static int has_stack(jint depth) {
    static _Thread_local uintptr_t lowest;
    if (lowest == 0) {
        pthread_attr_t of_thread;
        void *start;
        size_t size;
        if (pthread_getattr_np(pthread_self(), &of_thread) != 0) {
            return 0;
        }
        pthread_attr_getstack(&of_thread, &start, &size);
        pthread_attr_destroy(&of_thread);
        lowest = (uintptr_t)start;
    }
    size_t due = (uint32_t)depth > PKDER_DEPTH ? PKDER_STACK : PKDER_STACK / 2;
    return (uintptr_t)__builtin_frame_address(0) - lowest >= due + KEPT_STACK;
}

/* Whether the stack is enough for a call; where it isn't, an error is thrown. */
static int may_call(JNIEnv *env, jint depth) {
    if (has_stack(depth)) {
        return 1;
    }
    jclass error = (*env)->FindClass(env, "java/lang/StackOverflowError");
    if (error != NULL) {
        (*env)->ThrowNew(env, error, "too little stack is left for a call of libpkder");
    }
    return 0;
}

static pkder_outcome asked(const struct question *it, struct octets src, struct octets dst) {
    uint32_t what = (uint32_t)it->what, depth = (uint32_t)it->depth;
    uint64_t octets = (uint64_t)it->octets;
    switch (it->call) {
    case CHECK:
        return pkder_check(what, depth, octets, src.start, src.length);
    case NORMALISE:
        return pkder_normalise(what, depth, octets, src.start, src.length, dst.start, dst.length);
    case SIGNED:
        return pkder_signed(what, depth, octets, src.start, src.length, dst.start, dst.length);
    case SHOW:
        return pkder_show(what, depth, octets, src.start, src.length, dst.start, dst.length);
    case FIELD:
        return pkder_field(what, depth, octets, src.start, src.length, dst.start, dst.length);
    default:
        return pkder_explain(what, depth, octets, (uint32_t)it->form, src.start, src.length, dst.start, dst.length);
    }
}

static struct octets room_for(size_t length) {
    return (struct octets){malloc(length != 0 ? length : 1), length};
}

/* Asks with this room at first, and with as much as is asked for then; the answer's octets are the caller's to free. */
static pkder_outcome answered(const struct question *it, struct octets src, struct octets *text) {
    int is_report = it->call == EXPLAIN || it->call == FIELD;
    size_t room = is_report ? REPORT_ROOM : it->call == CHECK ? 0 : src.length;
    for (;;) {
        *text = room_for(room);
        if (text->start == NULL) {
            return (pkder_outcome){.status = PKDER_NO_MEMORY};
        }
        pkder_outcome said = asked(it, src, *text);
        int is_short = said.status == PKDER_NO_ROOM || said.status == PKDER_UNREPORTED;
        if (!is_short || said.size <= room) {
            text->length = said.size;
            return said;
        }
        free(text->start);
        room = said.size;
    }
}

static jbyteArray array_of(JNIEnv *env, struct octets text) {
    jbyteArray array = (*env)->NewByteArray(env, (jsize)text.length);
    if (array != NULL) {
        (*env)->SetByteArrayRegion(env, array, 0, (jsize)text.length, (const jbyte *)text.start);
    }
    return (*env)->ExceptionCheck(env) ? NULL : array;
}

/* Hands over the numbers that pkder.Outcome has, in its order. */
static void tell(JNIEnv *env, const pkder_outcome *said, jlongArray outcome) {
    jlong numbers[] = {said->status, said->reason,    said->inside_reason,
                       said->which,  (jlong)said->at, (jlong)said->inside_at};
    (*env)->SetLongArrayRegion(env, outcome, 0, sizeof numbers / sizeof *numbers, numbers);
}

/* The octets of the array, in a block of their own. */
static struct octets copied(JNIEnv *env, jbyteArray array) {
    struct octets copy = room_for((size_t)(*env)->GetArrayLength(env, array));
    if (copy.start != NULL) {
        (*env)->GetByteArrayRegion(env, array, 0, (jsize)copy.length, (jbyte *)copy.start);
        (void)(*env)->ExceptionCheck(env);
    }
    return copy;
}

/* Asks of the document, tells the outcome, and answers what was written, where something was. (free wipes: wiping.c) */
static jbyteArray answer(JNIEnv *env, const struct question *it, jbyteArray document, jlongArray outcome) {
    if (!may_call(env, it->depth)) {
        return NULL;
    }
    struct octets src = copied(env, document), text = {NULL, 0};
    pkder_outcome said = {.status = PKDER_NO_MEMORY};
    if (src.start != NULL) {
        said = answered(it, src, &text);
    }
    free(src.start);
    jbyteArray array = NULL;
    if (said.status == PKDER_REPORTED || (said.status == PKDER_ACCEPTED && it->call != CHECK)) {
        if (said.size <= MOST_OCTETS_OF_ARRAY) {
            array = array_of(env, text);
        } else {
            said.status = PKDER_NO_MEMORY;
        }
    }
    free(text.start);
    if (!(*env)->ExceptionCheck(env)) {
        tell(env, &said, outcome);
    }
    return array;
}

#define NAME(call) Java_pkder_Native_##call

#define CALL(name, number)                                                                                             \
    JNIEXPORT jbyteArray JNICALL NAME(name)(JNIEnv * env, jclass native, jint what, jint depth, jint octets,           \
                                            jbyteArray document, jlongArray outcome) {                                 \
        (void)native;                                                                                                  \
        return answer(env, &(struct question){number, what, depth, octets, 0}, document, outcome);                     \
    }

CALL(check, CHECK)
CALL(normalise, NORMALISE)
CALL(signed, SIGNED)
CALL(show, SHOW)
CALL(field, FIELD)

JNIEXPORT jbyteArray JNICALL NAME(explain)(JNIEnv *env, jclass native, jint kind, jint depth, jint octets, jint form,
                                           jbyteArray document, jlongArray outcome) {
    (void)native;
    return answer(env, &(struct question){EXPLAIN, kind, depth, octets, form}, document, outcome);
}

JNIEXPORT void JNICALL NAME(same)(JNIEnv *env, jclass native, jint kind, jint depth, jint octets, jbyteArray first,
                                  jbyteArray second, jlongArray outcome) {
    (void)native;
    if (!may_call(env, depth)) {
        return;
    }
    struct octets one = copied(env, first), other = copied(env, second);
    pkder_outcome said = {.status = PKDER_NO_MEMORY};
    if (one.start != NULL && other.start != NULL) {
        said = pkder_same((uint32_t)kind, (uint32_t)depth, (uint64_t)octets, one.start, one.length, other.start,
                          other.length);
    }
    free(one.start);
    free(other.start);
    tell(env, &said, outcome);
}

JNIEXPORT jint JNICALL NAME(interfaceNumber)(JNIEnv *env, jclass native) {
    (void)env, (void)native;
    return (jint)pkder_interface();
}

JNIEXPORT jbyteArray JNICALL NAME(reasonName)(JNIEnv *env, jclass native, jint reason) {
    (void)native;
    uint8_t name[16];
    size_t length = pkder_reason_name((uint32_t)reason, name, sizeof name);
    return array_of(env, (struct octets){name, length < sizeof name ? length : 0});
}
