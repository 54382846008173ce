/* heap.c: memory for the runtime in a page: what the library takes from malloc, realloc and free in a C program, by the names that it
 * calls.
 *
 * Blocks have sizes that are powers of two, with a header of 16 bytes. A block that is given back is put in front of a list of those of its
 * size, from which the next of that size comes. What the host has given is never handed back. Nothing here is proved. */
typedef unsigned long word;

typedef struct Block {
    word power;
    struct Block *next;
} Block;

typedef struct {
    word ok;
    void *at;
} Taken;

enum { PAGE_POWER = 16, LEAST_POWER = 5, MOST_POWER = 31 };

extern char __heap_base;
static Block *spare[MOST_POWER + 1];
static word front, end;
static char nothing;

/* room: whether the host's memory reaches this far, or did when it was asked for more */
static int room(word behind) {
    if (behind <= end) return 1;
    word pages = (behind - end + (1ul << PAGE_POWER) - 1) >> PAGE_POWER;
    /* The host answers -1 where it refuses, in 32 bits where memory has 32-bit addresses. */
    if ((unsigned)__builtin_wasm_memory_grow(0, pages) == ~0u) return 0;
    end += pages << PAGE_POWER;
    return 1;
}

static Block *fresh(word power) {
    if (!front) {
        front = ((word)&__heap_base + 15) & -16ul;
        end = __builtin_wasm_memory_size(0) << PAGE_POWER;
    }
    if (!room(front + (1ul << power))) return 0;
    Block *block = (Block *)front;
    front += 1ul << power;
    block->power = power;
    return block;
}

void *sfc_take(word bytes) {
    word power = LEAST_POWER;
    if (bytes > (1ul << MOST_POWER) - sizeof(Block)) return 0;
    while ((1ul << power) - sizeof(Block) < bytes) power++;
    Block *block = spare[power];
    if (block) {
        spare[power] = block->next;
    } else {
        block = fresh(power);
    }
    return block ? block + 1 : 0;
}

void sfc_give(void *at) {
    Block *block = (Block *)at - 1;
    block->next = spare[block->power];
    spare[block->power] = block;
}

static Taken taken(void *at) { return (Taken){at != 0, at ? at : &nothing}; }

Taken rattle_alloc(word bytes, word align) {
    (void)align;
    return taken(sfc_take(bytes));
}

void rattle_dealloc(void *at) { sfc_give(at); }

Taken rattle_realloc(void *at, word kept, word bytes, word align) {
    (void)align;
    word held = (1ul << ((Block *)at - 1)->power) - sizeof(Block);
    if (bytes <= held) return taken(at);
    void *to = sfc_take(bytes);
    if (to) {
        __builtin_memcpy(to, at, kept < bytes ? kept : bytes);
        sfc_give(at);
    }
    return taken(to);
}
