/* What stands under the library in a page, where there is no C library: its heap, room for the caller's octets, and
 * numbers of 128 bits. Not proved: what the library's proofs assume of rattle_alloc, rattle_realloc and rattle_dealloc
 * has to be read here.
 *
 * The library keeps nothing from call to call, so each call begins with an empty heap after the caller's room. A block
 * has 16, 32, 64 .. octets after a header; one that is freed is wiped, and goes on the list of its size, from which
 * the next of that size is taken. */
typedef __UINT64_TYPE__ uint64_t; /* (the toolchain's clang has no headers) */
typedef __UINT8_TYPE__ uint8_t;

typedef struct {
    uint64_t ok;
    uint64_t at;
} tried;

typedef struct block {
    uint64_t size; /* of what stands after the header */
    struct block *next;
} block;

#define PAGE 65536u
#define SIZES 40
#define MOST ((uint64_t)1 << 36)

extern uint8_t __heap_base[], __stack_low[], __stack_high[]; /* (the linker's) */
static uint64_t top;                                         /* where what no block was made of begins */
static block *freed[SIZES];
static uint8_t nothing[16];

static uint64_t rounded(uint64_t n) {
    return (n + 15) & ~(uint64_t)15;
}

static uint64_t memory(void) {
    return (uint64_t)__builtin_wasm_memory_size(0) * PAGE;
}

/* Whether memory reaches up to `end`, after growth if need be. What growing answers isn't asked: it is another number
 * where addresses of 64 bits were lowered to 32. */
static int reaches(uint64_t end) {
    if (end > memory()) {
        (void)__builtin_wasm_memory_grow(0, (end - memory() + PAGE - 1) / PAGE);
    }
    return end <= memory();
}

static void empty_heap(uint64_t from) {
    top = from;
    for (unsigned i = 0; i < SIZES; i++) {
        freed[i] = 0;
    }
}

/* Room for n octets of the caller's, with an empty heap after it; 0 where there is none. To be asked for before each
 * call of the library. */
uint64_t pkder_page_room(uint64_t n) {
    uint64_t from = rounded((uint64_t)__heap_base);
    if (n > MOST || !reaches(from + rounded(n))) {
        return 0;
    }
    empty_heap(from + rounded(n));
    return from;
}

/* Wipes the stack, the caller's room, and all after it. It has no frame of its own there. */
void pkder_page_wipe(void) {
    uint64_t from = rounded((uint64_t)__heap_base);
    __builtin_memset(__stack_low, 0, (uint64_t)(__stack_high - __stack_low));
    __builtin_memset((void *)from, 0, memory() - from);
    empty_heap(from);
}

static unsigned index_of(uint64_t n) {
    return n <= 16 ? 0 : 60 - (unsigned)__builtin_clzll(n - 1);
}

/* (A block is aligned to 16, which is the greatest that is asked for.) */
tried rattle_alloc(uint64_t n, uint64_t align) {
    tried none = {0, (uint64_t)nothing};
    (void)align;
    if (n > MOST) {
        return none;
    }
    unsigned index = index_of(n);
    block *it = freed[index];
    if (it != 0) {
        freed[index] = it->next;
    } else {
        uint64_t size = (uint64_t)16 << index;
        if (!reaches(top + sizeof(block) + size)) {
            return none;
        }
        it = (block *)top;
        it->size = size;
        top += sizeof(block) + size;
    }
    return (tried){1, (uint64_t)(it + 1)};
}

void rattle_dealloc(void *at) {
    if (at == 0) {
        return;
    }
    block *it = (block *)at - 1;
    unsigned index = index_of(it->size);
    __builtin_memset(at, 0, it->size);
    it->next = freed[index];
    freed[index] = it;
}

tried rattle_realloc(void *old, uint64_t kept, uint64_t n, uint64_t align) {
    block *it = (block *)old - 1;
    if (n <= it->size) {
        return (tried){1, (uint64_t)old};
    }
    tried made = rattle_alloc(n, align);
    if (made.ok) {
        __builtin_memcpy((void *)made.at, old, kept < n ? kept : n);
        rattle_dealloc(old);
    }
    return made;
}

/* What LLVM calls for products and shifts of 128 bits, which the processor doesn't have: by halves, since the
 * compiler's own product and shift are these. A shift is by less than 128. */
typedef unsigned __int128 wide;

static wide joined(uint64_t high, uint64_t low) {
    return ((wide)high << 64) | low;
}

wide __multi3(wide one, wide other);
wide __multi3(wide one, wide other) {
    uint64_t a = (uint64_t)one, b = (uint64_t)other, half = 0xFFFFFFFF;
    uint64_t low = (a & half) * (b & half);
    uint64_t middle = (a >> 32) * (b & half) + (low >> 32);
    uint64_t other_middle = (a & half) * (b >> 32) + (middle & half);
    uint64_t high = (a >> 32) * (b >> 32) + (middle >> 32) + (other_middle >> 32);
    high += a * (uint64_t)(other >> 64) + b * (uint64_t)(one >> 64);
    return joined(high, (other_middle << 32) | (low & half));
}

wide __ashlti3(wide it, int by);
wide __ashlti3(wide it, int by) {
    uint64_t high = (uint64_t)(it >> 64), low = (uint64_t)it;
    if (by >= 64) {
        return joined(low << (by - 64), 0);
    }
    return by == 0 ? it : joined((high << by) | (low >> (64 - by)), low << by);
}

wide __lshrti3(wide it, int by);
wide __lshrti3(wide it, int by) {
    uint64_t high = (uint64_t)(it >> 64), low = (uint64_t)it;
    if (by >= 64) {
        return joined(0, high >> (by - 64));
    }
    return by == 0 ? it : joined(high >> by, (low >> by) | (high << (64 - by)));
}
