// A machine with a stack, each of whose operators is a function in a table.
static int stack[256], *top = stack;
static const unsigned char *next;

static void push(void) { *++top = *next++; }
static void add(void) { top--, top[0] += top[1]; }
static void multiply(void) { top--, top[0] *= top[1]; }
static void negate(void) { *top = -*top; }
static void duplicate(void) { top[1] = top[0], top++; }
static void jump(void) { if (*top--) next -= *next; else next++; }
extern void print(int);
static void show(void) { print(*top--); }

void (*const operators[8])(void) = {0, push, add, multiply, negate, duplicate, jump, show};
const unsigned char program[] = {1, 6, 5, 5, 3, 4, 7, 1, 1, 4, 2, 5, 6, 10, 0};

__attribute__((visibility("default"))) int run(void) {
    for (next = program; *next;) operators[*next++]();
    return *top;
}
