// The heap of the page's module: what the planner takes its memory from. Freed blocks of each size
// class are kept in a list; new ones come from the end of the memory, which grows. Blocks are never
// joined, which is enough here: each module is planned in a memory of its own. There is one thread.
// Nothing proves this file.
typedef unsigned long long u64;
typedef unsigned char u8;

extern u8 __heap_base;

// What stands before the bytes of a block, which begin at a multiple of 16.
typedef struct Block {
    u64 class;
    struct Block *next; // of a free block alone
} Block;

#define HEAD sizeof(Block)
#define PAGE 65536ULL
#define MOST (1ULL << 40)
#define CLASSES 160

static Block *freed[CLASSES];
static u64 top;

// The bytes of a block with its head. From one class to the next they grow by a quarter of a power
// of two, so four classes double them.
static u64 size_of_class(u64 class) {
    return ((4 + class % 4) << (class / 4) << 3) + 15 & ~15ULL;
}

// The first class whose blocks have so many bytes, rounded up to 16.
static u64 class_of(u64 size) {
    if (size <= 32) return 0;
    u64 eighths = (size - 1) >> 3;
    u64 high = 63 - __builtin_clzll(eighths);
    return (high - 2) * 4 + (eighths >> (high - 2) & 3) + 1;
}

// Whether the memory grew by so many pages. Refused, the answer is -1: of 64 bits or, where the
// memory was made narrow, of 32.
static int grow(u64 pages) {
    return (int)__builtin_wasm_memory_grow(0, pages) != -1;
}

// Bytes at the end of the memory that were never given out. It grows by an eighth at least, so that
// growing is rare.
static Block *fresh(u64 size) {
    if (top == 0) top = (u64)&__heap_base + 15 & ~15ULL;
    u64 end = top + size, now = __builtin_wasm_memory_size(0) * PAGE;
    if (end > now) {
        u64 needed = (end - now + PAGE - 1) / PAGE, eighth = now / PAGE / 8;
        if (!(needed < eighth && grow(eighth)) && !grow(needed)) return 0;
    }
    Block *block = (Block *)top;
    top = end;
    return block;
}

__attribute__((export_name("malloc"))) void *malloc(u64 size) {
    if (size > MOST) return 0;
    u64 class = class_of(size + HEAD);
    Block *block = freed[class];
    if (block) freed[class] = block->next;
    else {
        block = fresh(size_of_class(class));
        if (!block) return 0;
        block->class = class;
    }
    return (u8 *)block + HEAD;
}

__attribute__((export_name("free"))) void free(void *bytes) {
    if (!bytes) return;
    Block *block = (Block *)((u8 *)bytes - HEAD);
    block->next = freed[block->class];
    freed[block->class] = block;
}

// The three calls of the planner's allocator. An alignment is at most 16.
typedef struct { u64 ok; void *bytes; } Tried;

Tried rattle_alloc(u64 size, u64 align) {
    void *bytes = malloc(size);
    return (Tried){bytes != 0, bytes};
}

Tried rattle_realloc(void *bytes, u64 kept, u64 size, u64 align) {
    Block *block = (Block *)((u8 *)bytes - HEAD);
    if (size <= MOST && class_of(size + HEAD) == block->class) return (Tried){1, bytes};
    void *larger = malloc(size);
    if (!larger) return (Tried){0, bytes};
    __builtin_memcpy(larger, bytes, kept < size ? kept : size);
    free(bytes);
    return (Tried){1, larger};
}

void rattle_dealloc(void *bytes) {
    free(bytes);
}
