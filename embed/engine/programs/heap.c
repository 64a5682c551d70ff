// An allocator with a list of free blocks behind what the linker placed.
extern unsigned char __heap_base;
struct Block {
    struct Block *next;
    unsigned size;
};
static struct Block sentinel = {&sentinel, 0};
static struct Block *const lists[4] = {&sentinel, 0, &sentinel, 0};
static unsigned char *end;
struct {
    const char *message;
    unsigned code;
    void (*handler)(unsigned);
} faults[2];
static void stop(unsigned code) { __builtin_trap(); }
static void ignore(unsigned code) { faults[0].code = code; }
void (*handlers[])(unsigned) = {ignore, stop, ignore, stop};

__attribute__((visibility("default"))) void *allocate(unsigned size) {
    for (struct Block **at = &sentinel.next; *at != &sentinel; at = &(*at)->next)
        if ((*at)->size >= size) {
            struct Block *found = *at;
            *at = found->next;
            return found + 1;
        }
    if (!end) end = &__heap_base;
    struct Block *made = (struct Block *)end;
    end += sizeof *made + ((size + 15) & -16u);
    if (size > 1 << 20) handlers[size & 3](size);
    made->size = size;
    return made + 1;
}

__attribute__((visibility("default"))) void give_back(void *block) {
    struct Block *one = (struct Block *)block - 1;
    one->next = lists[0]->next;
    sentinel.next = one;
}
