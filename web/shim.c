/* What the module needs besides the code that was proved: a heap in its own memory, and the functions that clang calls
   for numbers of 128 bits. There is no C library, and the module imports nothing. This is trusted, as malloc is of the
   native program.

   The heap: blocks have sizes of classes, four to each doubling. A block begins at a multiple of 16, behind 16 bytes
   that hold its class. One that is given back goes to the list of its class. Where that is empty, a new block is cut
   off behind the last one, and the memory grows. */

typedef __UINT64_TYPE__ uint64_t;
typedef __UINTPTR_TYPE__ uintptr_t;

enum { PAGE = 65536, HEAD = 16, CLASSES = 128 };
/* The memory has less than 4 GiB, so that the address behind it is one of 32 bits. */
#define MOST_MEMORY 0xFFFF0000ull

extern unsigned char __heap_base;
/* Where the next block is cut off, or 0 before the first one. */
static uint64_t top;
/* For each class the first free block, which begins with the address of the next one. */
static uintptr_t free_blocks[CLASSES];

/* The number of a block's class, from its address. */
static uint64_t *class_at(uintptr_t block) {
    return (uint64_t *)(block - HEAD);
}

/* The bytes of a block of a class: 16 to 64 by 16, and then 5, 6, 7 and 8 eighths of each power of two. */
static uint64_t size_of(unsigned class) {
    return class < 4 ? 16 * (class + 1ull) : 16 * (5ull + class % 4) << (class / 4 - 1);
}

/* The class of the smallest blocks that have so many bytes. */
static unsigned class_for(uint64_t bytes) {
    if (bytes <= 64) return bytes <= 16 ? 0 : (unsigned)((bytes - 1) / 16);
    uint64_t last = (bytes - 1) / 16;
    unsigned doublings = 63 - (unsigned)__builtin_clzll(last);
    return 4 * (doublings - 1) + (unsigned)(last >> (doublings - 2)) % 4;
}

/* Grows the memory up to an end, by an eighth at least where that can be had; answers 0 where it can't reach it. */
static int reach(uint64_t end) {
    uint64_t pages = __builtin_wasm_memory_size(0), wanted = (end + PAGE - 1) / PAGE;
    if (wanted <= pages) return 1;
    if (end > MOST_MEMORY) return 0;
    uint64_t more = wanted - pages, eager = pages / 8;
    return (eager > more && __builtin_wasm_memory_grow(0, (uintptr_t)eager) != (uintptr_t)-1) ||
           __builtin_wasm_memory_grow(0, (uintptr_t)more) != (uintptr_t)-1;
}

/* A block of at least so many bytes, or 0. */
__attribute__((export_name("take"))) uintptr_t take(uint64_t bytes) {
    if (bytes > MOST_MEMORY) return 0;
    unsigned class = class_for(bytes);
    uintptr_t block = free_blocks[class];
    if (block) {
        free_blocks[class] = *(uintptr_t *)block;
        return block;
    }
    if (!top) top = ((uintptr_t)&__heap_base + 15) / 16 * 16;
    uint64_t end = top + HEAD + size_of(class);
    if (!reach(end)) return 0;
    block = (uintptr_t)top + HEAD;
    top = end;
    *class_at(block) = class;
    return block;
}

/* Gives a block back. */
__attribute__((export_name("give"))) void give(uintptr_t block) {
    uint64_t class = *class_at(block);
    *(uintptr_t *)block = free_blocks[class];
    free_blocks[class] = block;
}

/* The three functions of Rattle's heap: whether there was memory, and the address. No type asks for blocks at
   multiples of more than 16. */
struct taken {
    uint64_t is_taken, address;
};

struct taken rattle_alloc(uint64_t bytes, uint64_t alignment) {
    uintptr_t block = alignment > 16 ? 0 : take(bytes);
    return (struct taken){block != 0, block};
}

struct taken rattle_realloc(uintptr_t block, uint64_t kept, uint64_t bytes, uint64_t alignment) {
    uint64_t size = size_of((unsigned)*class_at(block));
    if (bytes <= size && size <= 4 * bytes + 64) return (struct taken){1, block};
    struct taken other = rattle_alloc(bytes, alignment);
    if (!other.is_taken) return (struct taken){0, block};
    __builtin_memcpy((void *)(uintptr_t)other.address, (void *)block, (uintptr_t)(kept < bytes ? kept : bytes));
    give(block);
    return other;
}

void rattle_dealloc(uintptr_t block) {
    give(block);
}

/* Numbers of 128 bits, as two halves. */
struct halves {
    uint64_t low, high;
};

struct halves __multi3(uint64_t a_low, uint64_t a_high, uint64_t b_low, uint64_t b_high) {
    const uint64_t half = 0xFFFFFFFFull;
    uint64_t low = (a_low & half) * (b_low & half), high = (a_low >> 32) * (b_low >> 32);
    uint64_t one = (a_low & half) * (b_low >> 32), other = (a_low >> 32) * (b_low & half);
    uint64_t middle = (low >> 32) + (one & half) + (other & half);
    return (struct halves){
        (low & half) | middle << 32,
        high + (one >> 32) + (other >> 32) + (middle >> 32) + a_low * b_high + a_high * b_low,
    };
}

struct halves __ashlti3(uint64_t low, uint64_t high, int by) {
    if (by >= 64) return (struct halves){0, low << (by - 64)};
    if (by == 0) return (struct halves){low, high};
    return (struct halves){low << by, high << by | low >> (64 - by)};
}

struct halves __lshrti3(uint64_t low, uint64_t high, int by) {
    if (by >= 64) return (struct halves){high >> (by - 64), 0};
    if (by == 0) return (struct halves){low, high};
    return (struct halves){low >> by | high << (64 - by), high >> by};
}
