/* pkder: reads private keys, public keys and certification requests (CSRs) in BER and DER (PKCS #8, RFC 5915, RFC 8410,
 * PKCS #10), and gives their one DER text, which is their DER encoding, whether they are in DER, whether two are the
 * same, what they are in lines, a part of them; or the first fault, with its place and its reason; and of any octets a
 * report for people, as text or as JSON, and the field that it is about. It does no cryptography, and says of a document
 * that it has a sound form and nothing more. It reads the octets (bytes) of the document itself, and no PEM.
 *
 * Compile by `cc FILE.c $(pkg-config --cflags --libs pkder)`, which is -lpkder; the program finds libpkder.so.0 once
 * ldconfig has seen it, or by LD_LIBRARY_PATH. docs/library.md has first steps, and docs/manual.md what each reason
 * often comes from and what to do about it; docs/formats.md says what is refused that other readers take.
 *
 * Reading and writing are proved. What stands below under "Promised" is the proved contract of each function in words,
 * for callers that do what stands under "The caller owes": no compiler checks that.
 *
 * The caller owes, of each call:
 *   - src points to src_len octets, and dst to dst_len octets, whatever is in them; with a length of 0 goes any
 *     pointer, NULL too; what is said of src holds of first and of second, too, which may be the same octets;
 *   - until the call returns nothing else writes the octets of src, nor reads or writes those of dst;
 *   - src and dst don't overlap: no document is normalised in place; what a call does to two that overlap is undefined;
 *   - a length is that of one object, so at most PTRDIFF_MAX;
 *   - the stack of the thread has PKDER_STACK octets left;
 *   - malloc, realloc and free belong to one allocator, which aligns as C asks; a program that replaces one replaces
 *     them all;
 *   - no call comes from a signal handler, nor, of a process with more than one thread, from the child of a fork before
 *     it has called exec: malloc may be locked there.
 *
 * Promised, of each call:
 *   - it returns, and what it returns says what it did: there is no number that a caller may not pass, and an outcome
 *     is a value, so that nothing has to be freed or closed.
 *
 * So it is too, of each call, by the language that pkder is written in, which has no pointer past its object and no
 * variable that outlives a call, and frees what goes out of use. No contract says it, and the tests look at it:
 *   - it reads the octets of src and writes those of dst and no others, beside memory of its own, all of which it frees
 *     before it returns;
 *   - the same octets, kind and limits have the same answer each time, PKDER_NO_MEMORY apart;
 *   - it keeps nothing from call to call, so that calls need no beginning or end, and any number of threads may call at
 *     once: no call has anything in common with another but the allocator;
 *   - it prints nothing, opens nothing and ends no process, and it never asks which locale is set.
 *
 * Not promised:
 *   - that octets of a key leave memory: the blocks that a call frees may hold some (HEAP=wiping python3 tools/build.py
 *     makes a library that wipes what it frees; that heap isn't proved), and so may its stack;
 *   - that a call takes the same time for other octets: its time goes by the document;
 *   - that errno stays: malloc may set it.
 *
 * Lengths, places, `taken` and `size` count octets; places count from 0. Only for targets of 64 bits. */
#ifndef PKDER_H
#define PKDER_H

#include <stddef.h>
#include <stdint.h>

#ifdef __cplusplus
extern "C" {
#endif

/* The number of this interface. Functions, kinds, parts, statuses and reasons may be added under the same number; none
 * is changed or taken away, and pkder_outcome keeps its layout, and its numbers their meaning. So take a status or a
 * reason that this header doesn't name for one that refuses. */
#define PKDER_INTERFACE 1

/* What a document is; the caller says. All of the octets given have to be one: octets after it are a fault. Octets of
 * a PEM file are none (WrongTag at 0). Of a file of unknown kind ask for each kind: one accepts it at most, within
 * whatever limits, since the tags inside the outermost SEQUENCE differ from kind to kind (proved). Where all refuse it,
 * the faults can't be compared by their places: take that of the kind which the file's label or sender names; the next
 * best guess is the one that isn't WrongTag. */
#define PKDER_KEY 1u       /* OneAsymmetricKey, PKCS #8 (RFC 5958): what PEM calls PRIVATE KEY */
#define PKDER_EC 2u        /* ECPrivateKey (RFC 5915): EC PRIVATE KEY */
#define PKDER_REQUEST 3u   /* CertificationRequest, PKCS #10 (RFC 2986): CERTIFICATE REQUEST */
#define PKDER_PUBLIC 4u    /* SubjectPublicKeyInfo (RFC 5280): PUBLIC KEY */
#define PKDER_ENCRYPTED 5u /* EncryptedPrivateKeyInfo (RFC 5958): ENCRYPTED PRIVATE KEY; nothing is decrypted */
#define PKDER_PACKAGE 6u   /* AsymmetricKeyPackage (RFC 5958): private keys, at least one */

/* The parts of a certification request. */
#define PKDER_INFO 1u        /* certificationRequestInfo: its DER text is what the signature covers */
#define PKDER_ALGORITHM 2u   /* signatureAlgorithm: its DER text */
#define PKDER_SUBJECT_KEY 3u /* subjectPKInfo: its DER text, a document of the kind PKDER_PUBLIC */
#define PKDER_SIGNATURE 4u   /* signature: its octets, without the number of unused bits; unused bits are 0 */
#define PKDER_RECEIVED 5u    /* certificationRequestInfo as it came, in DER or not, which some signers sign instead */

/* The limits of a call: the depth of nesting, 1 to PKDER_MOST_DEPTH, the outermost element being at depth 1; and the
 * octets of a document, and of its DER text, 1 to PKDER_MOST_OCTETS. Usual ones are PKDER_DEPTH and PKDER_OCTETS, which
 * are the program's. Room for lines (pkder_show) has no limit but the caller's. */
#define PKDER_DEPTH 32u
#define PKDER_OCTETS UINT64_C(1048576)
#define PKDER_MOST_DEPTH 64u
#define PKDER_MOST_OCTETS UINT64_C(2147483647)

/* The form of a report (pkder_explain): text with the elements that matter, or one of these, or several of them added,
 * each once. */
#define PKDER_ALL 1u  /* with all elements */
#define PKDER_JSON 2u /* as one object of JSON, in one line: docs/report.schema.json states it */
#define PKDER_TLS 4u  /* with the notes for TLS servers, after the others: docs/formats.md, "What is noted" */

/* Octets of stack that are enough for a call. Tested and not proved. It grows with the depth that is allowed: half of
 * it is enough up to PKDER_DEPTH. Nothing checks it: a call with less runs past the end of its thread's stack. So look
 * at threads with small stacks (musl gives 128 KiB where nothing else is asked for). */
#define PKDER_STACK 262144

/* What comes of a call. Ask whether it is PKDER_ACCEPTED, and never whether it isn't PKDER_FAULT. */
#define PKDER_ACCEPTED 0u   /* the octets are a document, and what was asked for is done */
#define PKDER_FAULT 1u      /* they are none: reason and at, inside_reason and inside_at say why */
#define PKDER_NO_ROOM 2u    /* they are a document, and dst_len is less than size: dst is as it was */
#define PKDER_NO_MEMORY 3u  /* malloc refused: of the octets nothing is said */
#define PKDER_BAD_CALL 4u   /* no kind, part or form has that number, or the limits are out of range */
#define PKDER_NOT_DER 5u    /* pkder_check alone: the octets are a document, and not in DER */
#define PKDER_REPORTED 6u   /* pkder_explain and pkder_field alone: it is written, whatever the octets are */
#define PKDER_UNREPORTED 7u /* of these alone: the same, but dst_len is less than size: dst is as it was */
#define PKDER_ANOTHER 8u    /* pkder_same alone: both are documents, and not the same */

/* A number that a status doesn't use is 0. */
typedef struct pkder_outcome {
    uint32_t status;        /* PKDER_ACCEPTED to PKDER_ANOTHER */
    uint32_t reason;        /* of a fault: the number of its reason, 1 to 27 */
    uint32_t inside_reason; /* of a fault inside an OCTET STRING (PKDER_REASON_INNER): the number of its reason */
    uint32_t which;         /* of a fault that pkder_same tells: 1 in first, 2 in second; of all other calls 0 */
    uint64_t at;            /* of a fault: its place in src; not in DER: the first place where the DER text has another
                             * octet */
    uint64_t inside_at;     /* of a fault inside an OCTET STRING: its place in the octets that the string holds, which
                             * may stand in src in several pieces */
    uint64_t taken;         /* of a document, accepted, not in DER or without room: src_len; of others, and of
                             * pkder_same, 0 */
    uint64_t size;          /* accepted, reported, without room: the octets that are written, or would be; of
                             * pkder_check and pkder_same 0 */
} pkder_outcome;

/* The reasons. pkder_reason_name has their names. Where nothing else is said, `at` is where the identifier of the
 * element begins that the reason speaks of; of Missing where its container's contents end; of TextTooLong 0. */
#define PKDER_REASON_TRUNCATED 1u      /* the octets end at `at`, where one is needed */
#define PKDER_REASON_TOO_LONG 2u       /* an element reaches past the limit of octets */
#define PKDER_REASON_BAD_TAG 3u        /* identifier octets that are no tag, or a number of 2^28 or more */
#define PKDER_REASON_PAST_END 4u       /* an element reaches past the end of a container around it */
#define PKDER_REASON_BAD_END 5u        /* end-of-contents octets where none may stand, or half of them */
#define PKDER_REASON_TOO_DEEP 6u       /* an element is nested deeper than the limit */
#define PKDER_REASON_WRONG_TAG 7u      /* an element of another tag is due */
#define PKDER_REASON_EXTRA 8u          /* an element stands where none is due */
#define PKDER_REASON_LEFT_OUT 9u       /* an element that this profile leaves out */
#define PKDER_REASON_WRONG_FORM 10u    /* primitive where constructed is due, or the other way round */
#define PKDER_REASON_BAD_LENGTH 11u    /* length octets that are not used, or no length in a primitive element */
#define PKDER_REASON_MISSING 12u       /* a container ends where an element is due */
#define PKDER_REASON_BAD_INTEGER 13u   /* contents that are no INTEGER or ENUMERATED */
#define PKDER_REASON_BAD_BOOLEAN 14u   /* contents that are no BOOLEAN */
#define PKDER_REASON_BAD_NULL 15u      /* a NULL with contents */
#define PKDER_REASON_BAD_BITS 16u      /* contents that are no BIT STRING */
#define PKDER_REASON_BAD_OID 17u       /* contents that are no OBJECT IDENTIFIER */
#define PKDER_REASON_BAD_TEXT 18u      /* a UTF8String that is not UTF-8 */
#define PKDER_REASON_EMPTY_SET 19u     /* a SET OF without members where one is due */
#define PKDER_REASON_VERSION 20u       /* a version that its type doesn't have */
#define PKDER_REASON_PARAMETERS 21u    /* parameters that do not go with the algorithm */
#define PKDER_REASON_INNER 22u         /* a fault of the octets inside an OCTET STRING */
#define PKDER_REASON_CURVE 23u         /* a curve inside that is not the container's */
#define PKDER_REASON_KEY_LENGTH 24u    /* a key of the wrong length */
#define PKDER_REASON_VERSION_RULE 25u  /* a version that does not go with the fields */
#define PKDER_REASON_TEXT_TOO_LONG 26u /* the DER text is longer than the limit of octets */
#define PKDER_REASON_TRAILING 27u      /* the first `at` octets are a document, and more follow */

/* PKDER_INTERFACE of the library that is loaded. */
uint32_t pkder_interface(void);

/* Writes the DER text of the document that the octets of src are, where dst begins.
 *
 * Promised, by status:
 *   PKDER_ACCEPTED: the src_len octets spell exactly one value of this kind within these limits, in any layout that
 *     X.690 allows, and nothing else that begins where they begin does, whatever follows them. The first `size` octets
 *     of dst are that value's DER text, the others are as they were. The text spells the value, within the same limits,
 *     and its own text is itself. Two documents get the same text exactly where their values are the same (members of a
 *     SET OF in any order). `size` is at most 2 * src_len, and at most `octets`.
 *   PKDER_NO_ROOM: the same of the octets; `size` is greater than dst_len, and dst is as it was.
 *   PKDER_FAULT: dst is as it was. Either nothing that the octets begin with spells a value of this kind within these
 *     limits, and reason, at, inside_reason and inside_at are the fault that the definitions give, the first one; or
 *     the reason is PKDER_REASON_TRAILING, the first `at` octets spell a value, and at least one more follows. A reason
 *     and a place inside stand exactly where the reason is PKDER_REASON_INNER.
 *   PKDER_NO_MEMORY: dst is as it was.
 *   PKDER_BAD_CALL: dst is as it was. The status comes exactly where no kind has that number or the limits are out of
 *     range. */
pkder_outcome pkder_normalise(uint32_t kind, uint32_t depth, uint64_t octets, const uint8_t *src, size_t src_len,
                              uint8_t *dst, size_t dst_len);

/* Room that is always enough for the DER text of a document of n octets. Promised: see `size` above. No more than the
 * limit of octets is needed, either, however great n is. */
#define PKDER_ROOM(n) (2 * (size_t)(n))

/* Whether the octets of src are a document in DER. Nothing is written.
 *
 * Promised, by status:
 *   PKDER_ACCEPTED: the octets spell exactly one value, as above, and are its DER text. `size` is 0.
 *   PKDER_NOT_DER: they spell exactly one value and are not its DER text: `at` is the first place where the two differ,
 *     and each has an octet there. `size` is 0.
 *   PKDER_FAULT, PKDER_NO_MEMORY, PKDER_BAD_CALL: as above. */
pkder_outcome pkder_check(uint32_t kind, uint32_t depth, uint64_t octets, const uint8_t *src, size_t src_len);

/* Whether the octets of first and those of second are documents of the kind, and the same: whether they say the same,
 * however they are laid out. Nothing is written. Two documents of one key that say different things, as one of them has
 * its public key beside it, aren't the same.
 *
 * Promised, by status:
 *   PKDER_ACCEPTED: the octets of each spell exactly one value, as above, and the two values are the same (members of a
 *     SET OF in any order): their DER texts are equal. All other numbers are 0.
 *   PKDER_ANOTHER: the octets of each spell exactly one value, and the two aren't the same: their DER texts aren't
 *     equal. All other numbers are 0.
 *   PKDER_FAULT: `which` is 1, and first is refused; or `which` is 2, first is a document, and second is refused.
 *     reason, at, inside_reason and inside_at are the fault of the one that `which` names, as pkder_check tells it. So
 *     what is refused is the same as nothing, octets that are equal to it among them.
 *   PKDER_NO_MEMORY, PKDER_BAD_CALL: as above. */
pkder_outcome pkder_same(uint32_t kind, uint32_t depth, uint64_t octets, const uint8_t *first, size_t first_len,
                         const uint8_t *second, size_t second_len);

/* Writes a part of the certification request that the octets of src are, where dst begins.
 *
 * Promised: as of pkder_normalise with the kind PKDER_REQUEST, but that what is written is that part of the request,
 * and `size` the number of its octets (no bound on it is proved: a call with a dst_len of 0 tells it); and that
 * PKDER_BAD_CALL comes exactly where no part has that number or the limits are out of range. PKDER_RECEIVED writes what
 * PKDER_INFO does exactly where certificationRequestInfo is in DER. */
pkder_outcome pkder_signed(uint32_t part, uint32_t depth, uint64_t octets, const uint8_t *src, size_t src_len,
                           uint8_t *dst, size_t dst_len);

/* Writes what the document is that the octets of src are, in lines of ASCII, each ended by a line feed, where dst
 * begins. No octet 0 stands after them. Of private and encrypted keys their lengths alone are shown; of a request all
 * attributes, a challengePassword among them.
 *
 * Promised: as of pkder_normalise, but that what is written is the document's lines (docs/formats.md states them), and
 * `size` the number of their octets: a call with a dst_len of 0 tells it. */
pkder_outcome pkder_show(uint32_t kind, uint32_t depth, uint64_t octets, const uint8_t *src, size_t src_len,
                         uint8_t *dst, size_t dst_len);

/* Writes the report of the octets of src where dst begins: what pkder_check answers, as the program's line, the
 * elements with their places, names and sizes, and of octets that are no document which field is at fault, what is due
 * there, the class of what stands there, the usual cause and what to do. Of an accepted request it says what that asks
 * for, and of another accepted document but a package what it holds. It is UTF-8, as text printable ASCII but for the
 * names and strings that a request asks for; each line ends in a line feed. No octet 0 stands after them. Octets of
 * private keys and values of attributes aren't in it, but the known extensions that an accepted request asks for: of
 * octets that are no document it tells the first elements, as far as they are usual, and what docs/formats.md lists
 * beside them ("What a report tells").
 *
 * Promised, by status:
 *   PKDER_REPORTED: the first `size` octets of dst are the report of the octets in this form (docs/proved.md says what
 *     is proved of reports), the others are as they were. reason, at, inside_reason, inside_at and taken are those of
 *     pkder_check for the same octets, kind and limits: so a reason of 0 says that they are a document, and an `at` of
 *     0 then that it is in DER.
 *   PKDER_UNREPORTED: the same of the numbers; `size` is greater than dst_len, and dst is as it was. A call with a
 *     dst_len of 0 tells the size.
 *   PKDER_NO_MEMORY: dst is as it was.
 *   PKDER_BAD_CALL: dst is as it was. The status comes exactly where no kind or no form has that number or the limits
 *     are out of range. */
pkder_outcome pkder_explain(uint32_t kind, uint32_t depth, uint64_t octets, uint32_t form, const uint8_t *src,
                            size_t src_len, uint8_t *dst, size_t dst_len);

/* Writes the field that the report of the octets of src is about, where dst begins: of octets that are no document the
 * one that is refused, or in which something is missing; of a document that isn't in DER the first one that isn't, of
 * those that are told; of a document in DER nothing. It is the path that stands after `field` in the report, as
 * "certificationRequestInfo.subject[1][0].value", and of the outermost element, or where none is told, the name of the
 * document's type, in printable ASCII. No line feed and no octet 0 stands after it.
 *
 * Promised: as of pkder_explain, but that what is written is this path, so that `size` is 0 of a document in DER; and
 * that PKDER_BAD_CALL comes exactly where no kind has that number or the limits are out of range. */
pkder_outcome pkder_field(uint32_t kind, uint32_t depth, uint64_t octets, const uint8_t *src, size_t src_len,
                          uint8_t *dst, size_t dst_len);

/* Writes the name of a reason, as "Truncated", and an octet 0 after it, where dst begins.
 *
 * Promised: it returns the octets of the name without the 0 (of the longest today 11; 16 octets of room, the 0 among
 * them, will stay enough for each), or 0 where no reason has that number. Where one has, and dst_len is greater than
 * what is returned, name and 0 are written; all else of dst is as it was. */
size_t pkder_reason_name(uint32_t reason, uint8_t *dst, size_t dst_len);

#ifdef __cplusplus
}
#endif

#endif
