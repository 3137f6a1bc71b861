/* Documents as trees of elements (X.690 8.1), for trials that change them: the octets of a file are taken apart, and
 * put together again from the last octet to the first, so that each length is known where it is put. */
#ifndef ELEMENTS_H
#define ELEMENTS_H
#include "trial.h"

/* Elements of a tree at most; forms of a length beside the number of its octets. */
enum { MOST_ELEMENTS = 2048, FEWEST = 0, INDEFINITE = 255 };

/* An element. Elements are named by their places in a tree; 0 stands for what is around the outermost one, and as a
 * name for none. An OCTET STRING may have elements in it, too. */
struct element {
    uint8_t identifier; /* its first octet */
    uint8_t number;     /* its second octet, where the first says that there is one */
    uint8_t form;       /* FEWEST, INDEFINITE, or how many octets the length has after the first one */
    uint8_t is_claimed; /* whether the length says what is claimed, and not what follows */
    uint16_t first, next, parent;
    uint32_t claimed;
    size_t len;
    const uint8_t *contents; /* where no elements are in it */
};

struct tree {
    uint16_t used;
    struct element at[MOST_ELEMENTS];
};

/* Octets that are taken from the first on. */
struct octets {
    const uint8_t *at, *end;
};

/* How many octets the length needs after the first one. */
static inline unsigned least_form(size_t len) {
    unsigned many = 0;
    for (size_t rest = len < 128 ? 0 : len; rest > 0; rest >>= 8) {
        many++;
    }
    return many;
}

/* Takes a length; whether there is one. */
static inline int take_length(struct octets *from, size_t *len, uint8_t *form) {
    if (from->at == from->end) {
        return 0;
    }
    uint8_t first = *from->at++, many = (uint8_t)(first < 128 ? 0 : first - 128);
    *form = first == 128 ? INDEFINITE : FEWEST;
    *len = first < 128 ? first : 0;
    if (many > 4 || many > from->end - from->at) {
        return 0;
    }
    for (unsigned left = many; left > 0; left--) {
        *len = *len << 8 | *from->at++;
    }
    if (many > 0 && many != least_form(*len)) {
        *form = many;
    }
    return *form == INDEFINITE || *len <= (size_t)(from->end - from->at);
}

static inline uint16_t new_element(struct tree *tree, struct element as, uint16_t parent) {
    CHECK(tree->used < MOST_ELEMENTS);
    as.parent = parent;
    tree->at[tree->used] = as;
    return tree->used++;
}

static inline int take_elements(struct tree *tree, struct octets *from, uint16_t into);

/* Takes the contents of an element; whether they go with its form. Elements in an OCTET STRING are taken where they are
 * all of it. */
static inline int take_contents(struct tree *tree, struct octets *from, uint16_t into, size_t len) {
    struct element *it = &tree->at[into];
    if (it->form == INDEFINITE) {
        return take_elements(tree, from, into) && from->end - from->at >= 2 && (from->at += 2);
    }
    struct octets inside = {from->at, from->at + len};
    it->contents = from->at;
    it->len = len;
    from->at += len;
    uint16_t used = tree->used;
    int is_string = it->identifier == 4;
    if ((it->identifier & 32) == 0 && !(is_string && len > 1)) {
        return 1;
    }
    if (take_elements(tree, &inside, into) && inside.at == inside.end) {
        it->len = 0;
        return 1;
    }
    tree->used = used;
    it->first = 0;
    return is_string;
}

/* Takes elements to the end, or to end-of-contents octets; whether they are some. */
static inline int take_elements(struct tree *tree, struct octets *from, uint16_t into) {
    uint16_t last = 0;
    while (from->at < from->end && *from->at != 0) {
        struct element taken = {.identifier = *from->at++};
        size_t len;
        if ((taken.identifier & 31) == 31 || !take_length(from, &len, &taken.form)) {
            return 0;
        }
        uint16_t it = new_element(tree, taken, into);
        *(last == 0 ? &tree->at[into].first : &tree->at[last].next) = it;
        last = it;
        if (!take_contents(tree, from, it, len)) {
            return 0;
        }
    }
    return 1;
}

/* Takes a document apart; whether it is one element. */
static inline int take_document(struct tree *tree, const uint8_t *octets, size_t len) {
    struct octets from = {octets, octets + len};
    tree->used = 0;
    new_element(tree, (struct element){0}, 0);
    return take_elements(tree, &from, 0) && from.at == from.end && tree->used > 1 && tree->at[1].next == 0;
}

/* Puts octets in front of `end`; returns where they begin. */
static inline uint8_t *put_octets(uint8_t *end, const uint8_t *octets, size_t len) {
    return len == 0 ? end : memcpy(end - len, octets, len);
}

static inline uint8_t *put_length(uint8_t *end, size_t len, uint8_t form) {
    if (form == FEWEST && len < 128) {
        *--end = (uint8_t)len;
        return end;
    }
    uint8_t many = 0;
    for (; many < form || len > 0; len >>= 8, many++) {
        *--end = (uint8_t)len;
    }
    *--end = (uint8_t)(128 + many);
    return end;
}

static inline uint8_t *put_elements(const struct tree *tree, uint16_t first, uint8_t *end);

static inline uint8_t *put_contents(const struct tree *tree, uint16_t name, uint8_t *end) {
    const struct element *it = &tree->at[name];
    return it->first != 0 ? put_elements(tree, it->first, end) : put_octets(end, it->contents, it->len);
}

static inline uint8_t *put_element(const struct tree *tree, uint16_t name, uint8_t *end) {
    static const uint8_t nothing[2] = {0, 0};
    const struct element *it = &tree->at[name];
    uint8_t *stop = it->form == INDEFINITE ? put_octets(end, nothing, sizeof nothing) : end;
    uint8_t *at = put_contents(tree, name, stop);
    if (it->form == INDEFINITE) {
        *--at = 128;
    } else {
        at = put_length(at, it->is_claimed ? it->claimed : (size_t)(stop - at), it->form);
    }
    if ((it->identifier & 31) == 31) {
        *--at = it->number;
    }
    *--at = it->identifier;
    return at;
}

/* Puts an element, and those next to it, in front of `end`. */
static inline uint8_t *put_elements(const struct tree *tree, uint16_t first, uint8_t *end) {
    return first == 0 ? end : put_element(tree, first, put_elements(tree, tree->at[first].next, end));
}

#endif
