/* Changes by chance of documents that are trees of elements. Some leave most documents in DER, others hardly any. */
#ifndef CHANGES_H
#define CHANGES_H
#include "elements.h"

/* Octets that changes make of one document at most, and elements that a tree has at most when it is changed. */
enum { MOST_MADE = 1 << 18, MANY_ELEMENTS = MOST_ELEMENTS / 2 };

/* A file, taken apart. */
struct file {
    uint32_t kind; /* the one that accepts it, or that refuses it last */
    int is_in_der;
    struct tree tree;
    uint8_t octets[4096];
};

/* What documents are made of. */
static struct file *files;
static size_t file_count;

static struct tree tree;
static uint8_t made[MOST_MADE], scratch[1 << 23];
static size_t made_len;
static uint64_t state;

/* (SplitMix64) */
static inline uint64_t draw(void) {
    uint64_t z = state += UINT64_C(0x9E3779B97F4A7C15);
    z = (z ^ (z >> 30)) * UINT64_C(0xBF58476D1CE4E5B9);
    z = (z ^ (z >> 27)) * UINT64_C(0x94D049BB133111EB);
    return z ^ (z >> 31);
}

static inline uint32_t chance(uint32_t below) {
    return (uint32_t)((draw() >> 32) * below >> 32);
}

/* Room for contents that a change makes; NULL where there is none left. */
static inline uint8_t *new_contents(size_t len) {
    if (len > MOST_MADE - made_len) {
        return NULL;
    }
    made_len += len;
    return made + made_len - len;
}

/* A copy of an element, and of all in it; 0 where the tree has too many. */
static inline uint16_t copy_element(const struct tree *from, uint16_t name, uint16_t parent) {
    if (tree.used >= MANY_ELEMENTS) {
        return 0;
    }
    struct element as = from->at[name];
    as.first = as.next = 0;
    uint16_t copy = new_element(&tree, as, parent), last = 0;
    for (uint16_t it = from->at[name].first; it != 0; it = from->at[it].next) {
        uint16_t inside = copy_element(from, it, copy);
        if (inside == 0) {
            return 0;
        }
        *(last == 0 ? &tree.at[copy].first : &tree.at[last].next) = inside;
        last = inside;
    }
    return copy;
}

/* What a change is of. */
typedef int is_wanted(const struct tree *, const struct element *, uint32_t);

static inline int is_any_element(const struct tree *of, const struct element *it, uint32_t what) {
    (void)of, (void)it, (void)what;
    return 1;
}

static inline int has_identifier(const struct tree *of, const struct element *it, uint32_t what) {
    (void)of;
    return it->identifier == what;
}

static inline int is_leaf(const struct tree *of, const struct element *it, uint32_t least) {
    (void)of;
    return it->first == 0 && (it->identifier & 32) == 0 && it->len >= least;
}

static inline int is_container(const struct tree *of, const struct element *it, uint32_t what) {
    (void)of, (void)what;
    return it->first != 0;
}

/* What elements have in common that are alike: their identifier octet, and that of the first one in them. */
static inline uint32_t likeness(const struct tree *of, const struct element *it) {
    return it->identifier + 256u * of->at[it->first].identifier * (it->first != 0);
}

static inline int is_alike(const struct tree *of, const struct element *it, uint32_t what) {
    return likeness(of, it) == what;
}

/* Draws one of the elements from `first` on that are wanted; `seen` is how many there were. */
static inline void draw_wanted(const struct tree *of, uint16_t first, is_wanted *wanted, uint32_t what, uint32_t *seen,
                               uint16_t *drawn) {
    for (uint16_t it = first; it != 0; it = of->at[it].next) {
        if (wanted(of, &of->at[it], what) && chance(++*seen) == 0) {
            *drawn = it;
        }
        draw_wanted(of, of->at[it].first, wanted, what, seen, drawn);
    }
}

/* One of the elements that are wanted; 0 where there is none. */
static inline uint16_t pick(const struct tree *of, is_wanted *wanted, uint32_t what) {
    uint32_t seen = 0;
    uint16_t drawn = 0;
    draw_wanted(of, of->at[0].first, wanted, what, &seen, &drawn);
    return drawn;
}

static inline struct element *drawn_element(is_wanted *wanted, uint32_t what) {
    return &tree.at[pick(&tree, wanted, what)];
}

/* Where an element is named by what is before it. */
static inline uint16_t *link_to(uint16_t name) {
    uint16_t *link = &tree.at[tree.at[name].parent].first;
    while (*link != name) {
        link = &tree.at[*link].next;
    }
    return link;
}

/* Puts an element, if it is one, after another. */
static inline void insert_after(uint16_t name, uint16_t added) {
    if (name != 0 && added != 0) {
        tree.at[added].next = tree.at[name].next;
        tree.at[name].next = added;
    }
}

/* Puts an element, if it is one, in the place of another. */
static inline void replace(uint16_t name, uint16_t by) {
    if (name != 0 && by != 0) {
        tree.at[by].next = tree.at[name].next;
        *link_to(name) = by;
    }
}

static inline size_t contents_size(uint16_t name) {
    uint8_t *end = scratch + sizeof scratch;
    return (size_t)(end - put_contents(&tree, name, end));
}

/* Lets the lengths of what is around an element stay as they are, whatever becomes of it. */
static inline void claim_lengths(uint16_t name) {
    for (uint16_t it = tree.at[name].parent; it != 0; it = tree.at[it].parent) {
        if (!tree.at[it].is_claimed) {
            tree.at[it].claimed = (uint32_t)contents_size(it);
            tree.at[it].is_claimed = 1;
        }
        if (chance(3) == 0) {
            return;
        }
    }
}

/* Gives an element contents of its own of this length, which begin with what there was; NULL where there is no room. */
static inline uint8_t *own_contents(struct element *it, size_t len) {
    uint8_t *own = new_contents(len);
    if (own != NULL) {
        put_octets(own + (len < it->len ? len : it->len), it->contents, len < it->len ? len : it->len);
        it->contents = own;
        it->len = len;
    }
    return own;
}

/* One octet of a leaf is another. */
static inline void change_octet(void) {
    struct element *it = drawn_element(is_leaf, chance(4) == 0 ? 1 : 9);
    uint8_t *own = it->len > 0 ? own_contents(it, it->len) : NULL;
    if (own != NULL) {
        uint8_t *octet = own + (chance(3) == 0 ? 0 : chance((uint32_t)it->len));
        uint8_t others[] = {(uint8_t)chance(256), (uint8_t)(*octet ^ 1u << chance(8)), 0, 0x7F, 0x80, 0xFF};
        *octet = others[chance(sizeof others)];
    }
}

/* A leaf is longer or shorter: by little, or so that its length has more octets or fewer. */
static inline void change_size(void) {
    static const uint32_t sizes[] = {0, 1, 126, 127, 128, 129, 254, 255, 256, 257};
    struct element *it = drawn_element(is_leaf, chance(4) == 0 ? 0 : 9);
    size_t old = it->len, len = old + chance(5);
    len = len < 2 ? 0 : len - 2;
    if (chance(4) == 0) {
        len = chance(200) == 0 ? 65534 + chance(4) : sizes[chance(sizeof sizes / sizeof *sizes)];
    }
    uint8_t *own = it->identifier == 0 ? NULL : own_contents(it, len);
    for (size_t i = old; own != NULL && i < len; i++) {
        own[i] = (uint8_t)('A' + i % 26);
    }
}

static inline const struct tree *drawn_file(void) {
    return &files[chance((uint32_t)file_count)].tree;
}

/* A copy of an element of a file that is like this one; 0 where it has none, or there are too many. */
static inline uint16_t copy_alike(uint16_t name) {
    const struct tree *from = drawn_file();
    uint16_t alike = pick(from, is_alike, likeness(&tree, &tree.at[name]));
    return alike == 0 ? 0 : copy_element(from, alike, tree.at[name].parent);
}

static inline void replace_alike(void) {
    uint16_t name = pick(&tree, is_any_element, 0);
    replace(name, copy_alike(name));
}

static inline void replace_any(void) {
    uint16_t name = pick(&tree, is_any_element, 0);
    const struct tree *from = drawn_file();
    replace(name, copy_element(from, pick(from, is_any_element, 0), tree.at[name].parent));
}

static inline void insert_alike(void) {
    uint16_t name = pick(&tree, is_any_element, 0);
    insert_after(name, copy_alike(name));
}

static inline void insert_any(void) {
    uint16_t name = pick(&tree, is_any_element, 0);
    const struct tree *from = drawn_file();
    insert_after(name, copy_element(from, pick(from, is_any_element, 0), tree.at[name].parent));
}

static inline void duplicate(void) {
    uint16_t name = pick(&tree, is_any_element, 0);
    insert_after(name, copy_element(&tree, name, tree.at[name].parent));
}

static inline void delete_one(void) {
    uint16_t name = pick(&tree, is_any_element, 0);
    *link_to(name) = tree.at[name].next;
}

/* Swaps an element and the one after it. */
static inline void swap_after(uint16_t name) {
    uint16_t next = tree.at[name].next;
    if (name != 0 && next != 0) {
        *link_to(name) = next;
        tree.at[name].next = tree.at[next].next;
        tree.at[next].next = name;
    }
}

static inline void swap_two(void) {
    swap_after(pick(&tree, is_any_element, 0));
}

static inline void change_tag(void) {
    static const uint8_t identifiers[] = {1,    2,    3,    4,    5,    6,    10,   12,   19,   22,   0x1F, 0x20,
                                          0x23, 0x24, 0x2C, 0x30, 0x31, 0x3F, 0x80, 0x81, 0xA0, 0xA1, 0xA2, 0};
    struct element *it = drawn_element(is_any_element, 0);
    uint8_t others[] = {identifiers[chance(sizeof identifiers)], (uint8_t)(it->identifier ^ 32),
                        (uint8_t)(it->identifier ^ 128), (uint8_t)chance(256)};
    it->identifier = others[chance(sizeof others)];
    it->number = (uint8_t)chance(129);
}

/* A length in more octets than it needs. */
static inline void change_form(void) {
    drawn_element(is_any_element, 0)->form = (uint8_t)(1 + chance(chance(4) == 0 ? 9 : 4));
}

static inline void make_indefinite(void) {
    drawn_element(chance(8) == 0 ? is_any_element : is_container, 0)->form = INDEFINITE;
}

/* A length that isn't what follows. */
static inline void change_length(void) {
    uint16_t name = pick(&tree, is_any_element, 0);
    uint32_t size = (uint32_t)contents_size(name);
    uint32_t others[] = {size + 1, size - 1, size + 2, size - 2, chance(300), UINT32_C(1) << chance(32), 0xFFFFFFFF};
    tree.at[name].claimed = others[chance(sizeof others / sizeof *others)];
    tree.at[name].is_claimed = 1;
}

/* Elements of few octets, which follow another or are the first in one. */
static inline void insert_small(void) {
    static const char *const small[] = {
        "\1\1\0",    "\1\1\377", "\1\1\1",     "\5\0",       "\2\1\0", "\2\1\1",    "\2\2\0\177", "\2\2\0\200",
        "\2\0",      "\3\1\0",   "\3\2\7\200", "\3\2\7\201", "\3\0",   "\4\0",      "\4\1\0",     "\60\0",
        "\61\0",     "\240\0",   "\6\1\52",    "\6\0",       "\14\1A", "\14\1\377", "\23\1A",     "\200\0",
        "\201\2\0",  "\201\0",   "\44\0",      "\43\0",      "\5\1\0", "\0",        "\240\2\5",   "\12\1\1",
        "\201\2\0A", "\3\2\0A",  "\61\2\5",    "\60\2\5"};
    const uint8_t *drawn = (const uint8_t *)small[chance(sizeof small / sizeof *small)];
    uint16_t name = pick(&tree, is_any_element, 0);
    struct element as = {.identifier = drawn[0], .len = drawn[1], .contents = drawn + 2};
    if (tree.used < MANY_ELEMENTS && chance(4) != 0) {
        insert_after(name, new_element(&tree, as, tree.at[name].parent));
    } else if (tree.used < MANY_ELEMENTS) {
        as.next = tree.at[name].first;
        uint16_t added = new_element(&tree, as, name);
        tree.at[name].first = added;
    }
}

/* An INTEGER with an octet more in front, with one less, or with another one there. */
static inline void change_integer(void) {
    struct element *it = drawn_element(has_identifier, 2);
    size_t old = it->len;
    uint32_t how = chance(3);
    if (it->identifier == 0 || old == 0) {
        return;
    }
    if (how == 0) {
        it->contents++;
        it->len--;
        return;
    }
    uint8_t *own = own_contents(it, old + (how == 1));
    if (own != NULL) {
        memmove(own + (how == 1), own, old);
        own[0] = (uint8_t[]){0, 0xFF, 1, 0x80}[chance(4)];
    }
}

/* The number of unused bits is another one, and mostly the bits are 0 then. */
static inline void change_bits(void) {
    struct element *it = drawn_element(has_identifier, chance(4) == 0 ? 0x81 : 3);
    uint8_t *own = it->identifier != 0 && it->len > 0 ? own_contents(it, it->len) : NULL;
    if (own != NULL) {
        own[0] = (uint8_t)chance(9);
        if (it->len > 1 && own[0] < 8 && chance(3) != 0) {
            own[it->len - 1] = (uint8_t)(own[it->len - 1] >> own[0] << own[0]);
        }
    }
}

/* A BOOLEAN is another one, or stands after an identifier, where an extension has its own. */
static inline void change_boolean(void) {
    static const uint8_t values[] = {0xFF, 0, 1, 0xFE};
    struct element as = {.identifier = 1, .len = chance(16) != 0, .contents = &values[chance(sizeof values)]};
    uint16_t name = pick(&tree, has_identifier, 1);
    if (name != 0 && chance(2) == 0) {
        tree.at[name].contents = as.contents;
        tree.at[name].len = as.len;
        return;
    }
    name = pick(&tree, has_identifier, 6);
    if (tree.used < MANY_ELEMENTS) {
        insert_after(name, new_element(&tree, as, tree.at[name].parent));
    }
}

/* Octets of a string as its last segment, of a BIT STRING behind a number of unused bits. */
static inline void add_segment(uint16_t into, uint16_t *last, const uint8_t *octets, size_t len, int unused) {
    uint8_t *own = new_contents(len + 1);
    if (own == NULL || tree.used >= MANY_ELEMENTS) {
        return;
    }
    own[0] = (uint8_t)unused;
    put_octets(own + 1 + len, octets, len);
    int is_bits = unused >= 0;
    uint8_t other = tree.at[into].identifier & 31, identifier = is_bits ? 3 : 4;
    struct element as = {.identifier = chance(16) == 0 ? other : identifier, .contents = own, .len = len + 1};
    as.contents += !is_bits;
    as.len -= !is_bits;
    uint16_t segment = new_element(&tree, as, into);
    *(*last == 0 ? &tree.at[into].first : &tree.at[*last].next) = segment;
    *last = segment;
}

/* A string in segments. */
static inline void cut_string(void) {
    static const uint8_t strings[] = {4, 4, 3, 3, 0x81, 12, 19};
    uint8_t identifier = strings[chance(sizeof strings)], is_bits = identifier == 3 || identifier == 0x81;
    uint16_t name = pick(&tree, has_identifier, identifier), last = 0;
    size_t len = name == 0 ? 0 : contents_size(name), most = len / (1 + chance(4)) + 1;
    uint8_t *own = new_contents(len);
    if (name == 0 || own == NULL || (is_bits && len == 0)) {
        return;
    }
    put_contents(&tree, name, own + len);
    struct element *it = &tree.at[name];
    *it = (struct element){.identifier = identifier | 32, .next = it->next, .parent = it->parent};
    it->form = chance(2) == 0 ? INDEFINITE : FEWEST;
    for (size_t at = is_bits; at < len; at += most) {
        size_t size = len - at < most ? len - at : most;
        add_segment(name, &last, own + at, size, !is_bits ? -1 : at + size == len ? own[0] : 0);
    }
}

/* One element more, or many, around another. */
static inline void wrap(void) {
    static const uint8_t identifiers[] = {0x30, 0x31, 0x24, 0xA0};
    struct element around = {.identifier = identifiers[chance(sizeof identifiers)]};
    around.form = chance(3) == 0 ? INDEFINITE : FEWEST;
    uint16_t name = pick(&tree, is_any_element, 0);
    for (uint32_t times = chance(4) == 0 ? chance(40) : 1; name != 0 && times > 0; times--) {
        if (tree.used >= MANY_ELEMENTS) {
            return;
        }
        uint16_t added = new_element(&tree, around, tree.at[name].parent);
        replace(name, added);
        tree.at[added].first = name;
        tree.at[name].next = 0;
        tree.at[name].parent = added;
    }
}

/* What is in an element, in its place. */
static inline void unwrap(void) {
    uint16_t name = pick(&tree, is_container, 0), last = 0;
    for (uint16_t it = tree.at[name].first; it != 0; it = tree.at[it].next) {
        tree.at[it].parent = tree.at[name].parent;
        last = it;
    }
    if (name != 0 && last != 0) {
        tree.at[last].next = tree.at[name].next;
        *link_to(name) = tree.at[name].first;
    }
}

static inline uint16_t last_in(uint16_t around) {
    uint16_t last = tree.at[around].first;
    while (last != 0 && tree.at[last].next != 0) {
        last = tree.at[last].next;
    }
    return last;
}

/* A key is of the other version, and mostly has a public key where that has one. */
static inline void change_version(void) {
    static const uint8_t versions[] = {0, 1}, key[] = "\0an array of 32 octets or so.....";
    uint16_t around = pick(&tree, is_container, 0), name = tree.at[around].first, last = last_in(around);
    if (name == 0 || tree.at[name].identifier != 2 || tree.at[name].len != 1) {
        return;
    }
    int is_of_1 = tree.at[name].contents[0] == 0;
    tree.at[name].contents = &versions[is_of_1];
    if (is_of_1 && chance(4) != 0 && tree.used < MANY_ELEMENTS) {
        struct element as = {.identifier = 0x81, .len = sizeof key - 1, .contents = key};
        insert_after(last, new_element(&tree, as, around));
    } else if (tree.at[last].identifier == 0x81) {
        *link_to(last) = 0;
    }
}

/* One more in a SET OF, that differs from another one at its end. */
static inline void vary_member(void) {
    uint16_t around = pick(&tree, has_identifier, chance(3) == 0 ? 0xA0 : 0x31);
    uint16_t member = around == 0 ? 0 : tree.at[around].first;
    uint16_t copy = member == 0 ? 0 : copy_element(&tree, member, around), leaf = copy;
    insert_after(member, copy);
    while (tree.at[leaf].first != 0 && leaf != 0) {
        leaf = last_in(leaf);
    }
    struct element *it = &tree.at[leaf];
    uint8_t *own = leaf != 0 && it->len > 0 ? own_contents(it, it->len) : NULL;
    if (own != NULL) {
        own[it->len - 1] ^= (uint8_t)(1 + chance(15));
    }
}

/* Attributes at the end of what begins with an INTEGER, as a key does, and often one of them once more. */
static inline void add_attributes(void) {
    uint16_t around = pick(&tree, is_alike, 0x0230), from = 0;
    const struct tree *file = NULL;
    for (int tries = 0; tries < 20 && from == 0; tries++) {
        file = drawn_file();
        from = pick(file, is_alike, 0x30A0);
    }
    if (around != 0 && from != 0) {
        insert_after(last_in(around), copy_element(file, from, around));
        vary_member();
    }
}

/* Each change, as often as it stands here: first the gentle ones, which leave most documents what they are. */
static void (*const changes[])(void) = {change_octet,   change_octet,   change_octet,   change_octet,   change_size,
                                        replace_alike,  replace_alike,  replace_alike,  insert_alike,   duplicate,
                                        change_version, vary_member,    vary_member,    add_attributes, change_bits,
                                        change_size,    change_boolean, change_integer, change_form,    change_length,
                                        change_tag,     replace_any,    insert_any,     insert_small,   make_indefinite,
                                        cut_string,     delete_one,     swap_two,       wrap,           unwrap};
enum { CHANGES = sizeof changes / sizeof *changes, GENTLE = 14 };

/* The order of two elements in DER, of SET OF (X.690 11.6). */
static inline int is_behind(uint16_t name, uint16_t other) {
    uint8_t *end = scratch + sizeof scratch, *first = put_element(&tree, name, end);
    uint8_t *second = put_element(&tree, other, first);
    size_t len = (size_t)(end - first), other_len = (size_t)(first - second);
    int order = memcmp(first, second, len < other_len ? len : other_len);
    return order > 0 || (order == 0 && len > other_len);
}

/* Puts the members of each SET OF, and of what may be one, in the order of DER. */
static inline void sort_sets(uint16_t around) {
    for (uint16_t it = tree.at[around].first; it != 0; it = tree.at[it].next) {
        sort_sets(it);
    }
    if (around == 0 || (tree.at[around].identifier != 0x31 && tree.at[around].identifier != 0xA0)) {
        return;
    }
    for (int has_swapped = 1; has_swapped;) {
        has_swapped = 0;
        for (uint16_t it = tree.at[around].first; it != 0 && tree.at[it].next != 0; it = tree.at[it].next) {
            if (is_behind(it, tree.at[it].next)) {
                swap_after(it);
                has_swapped = 1;
            }
        }
    }
}

#endif
