// The heap of a module: blocks of powers of two, each behind a head that has its power, and a list of the free blocks of
// each power. A block that was given back is taken again for what has its power, and never cut or joined.
typedef unsigned long size_t;

enum { HEAD = 16, LEAST_POWER = 5, MOST_POWER = 34, PAGE_BITS = 16 };

// what the program takes for an allocation: whether there is one, and where
struct tried {
    unsigned long is_there;
    void *block;
};

extern unsigned char __heap_base;
static size_t top; // where the heap ends; 0 before its first block
static void *free_blocks[MOST_POWER + 1];

static size_t power_of(const void *block) {
    return *(const size_t *)((const char *)block - HEAD);
}

static size_t power_for(size_t size) {
    size_t power = LEAST_POWER;
    while (((size_t)1 << power) < size + HEAD) power++;
    return power;
}

// whether the memory reaches so far, which is asked of the engine where it did not yet
static int reaches(size_t end) {
    size_t has = __builtin_wasm_memory_size(0) << PAGE_BITS;
    size_t more = end > has ? (end - has + ((size_t)1 << PAGE_BITS) - 1) >> PAGE_BITS : 0;
    return more == 0 || __builtin_wasm_memory_grow(0, more) != (size_t)-1;
}

static void *take(size_t size) {
    if (size >= ((size_t)1 << MOST_POWER) - HEAD) return 0;
    size_t power = power_for(size);
    void *block = free_blocks[power];
    if (block) {
        free_blocks[power] = *(void **)block;
        return block;
    }
    size_t start = top ? top : ((size_t)&__heap_base + HEAD - 1) & ~(size_t)(HEAD - 1);
    if (!reaches(start + ((size_t)1 << power))) return 0;
    top = start + ((size_t)1 << power);
    *(size_t *)start = power;
    return (char *)start + HEAD;
}

static void give(void *block) {
    size_t power = power_of(block);
    *(void **)block = free_blocks[power];
    free_blocks[power] = block;
}

// the three calls of the program. Every alignment that it asks for divides 16.
struct tried rattle_alloc(size_t size, size_t alignment) {
    void *block = take(size);
    return (struct tried){block != 0, block};
}

void rattle_dealloc(void *block) {
    if (block) give(block);
}

struct tried rattle_realloc(void *block, size_t kept, size_t size, size_t alignment) {
    if (size + HEAD <= (size_t)1 << power_of(block)) return (struct tried){1, block};
    void *larger = take(size);
    if (larger) {
        __builtin_memcpy(larger, block, kept);
        give(block);
    }
    return (struct tried){larger != 0, larger};
}

// room for what the page itself keeps in the memory
__attribute__((export_name("page_room"))) void *page_room(size_t size) {
    return take(size);
}
