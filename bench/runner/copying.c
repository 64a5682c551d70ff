/* Copies 64 MiB so many times by memcpy: into memory that is allocated and freed each time, or into
 * the same. */
typedef unsigned long size_t;
void *malloc(size_t), free(void *);
void *memcpy(void *, const void *, size_t), *memset(void *, int, size_t);
int strcmp(const char *, const char *);
long atol(const char *);

enum { SIZE = 64 << 20 };

int main(int count, char **words) {
    if (count != 3) return 2;
    int is_fresh = strcmp(words[1], "fresh") == 0;
    long times = atol(words[2]);
    char *from = malloc(SIZE), *kept = is_fresh ? 0 : malloc(SIZE);
    if (!from || (!is_fresh && !kept)) return 5;
    memset(from, 7, SIZE);
    if (kept) memset(kept, 1, SIZE);
    for (long i = 0; i < times; i++) {
        char *to = is_fresh ? malloc(SIZE) : kept;
        if (!to) return 5;
        memcpy(to, from, SIZE);
        __asm__ volatile("" : : "r"(to) : "memory");
        if (is_fresh) free(to);
    }
    return 0;
}
