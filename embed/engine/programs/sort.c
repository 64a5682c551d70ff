// Sorts numbers by one of several orders.
typedef int Order(const int *, const int *);
static int rising(const int *a, const int *b) { return (*a > *b) - (*a < *b); }
static int falling(const int *a, const int *b) { return rising(b, a); }
static int by_digits(const int *a, const int *b) { return rising(&(int){*a % 10}, &(int){*b % 10}); }
static Order *const orders[] = {rising, falling, by_digits};
static int numbers[1000] = {[0] = 42, -7, 300, 5, 5, [100] = -2147483647, 2147483647, [900] = 17, [999] = 1};

static void swap(int *a, int *b) {
    int kept = *a;
    *a = *b, *b = kept;
}

static void sink(Order *order, int from, int end) {
    for (int child; (child = 2 * from + 1) < end; from = child) {
        if (child + 1 < end && order(&numbers[child], &numbers[child + 1]) < 0) child++;
        if (order(&numbers[from], &numbers[child]) >= 0) return;
        swap(&numbers[from], &numbers[child]);
    }
}

__attribute__((visibility("default"))) int sorted(unsigned order, int place) {
    for (int i = 499; i >= 0; i--) sink(orders[order % 3], i, 1000);
    for (int i = 999; i > 0; i--) swap(&numbers[0], &numbers[i]), sink(orders[order % 3], 0, i);
    return numbers[place % 1000];
}
