// Finds the keyword that a text begins with: structs that hold pointers to strings and to functions.
struct Keyword {
    const char *name;
    int (*weight)(const struct Keyword *);
    const struct Keyword *opposite;
    short kind;
};
extern const struct Keyword keywords[6];

static int length(const struct Keyword *one) {
    int n = 0;
    while (one->name[n]) n++;
    return n;
}
static int twice(const struct Keyword *one) { return 2 * length(one); }
static int by_opposite(const struct Keyword *one) { return one->opposite ? one->opposite->weight(one->opposite) : one->kind; }

const struct Keyword keywords[6] = {
    {"begin", length, &keywords[1], 1},      {"end", twice, &keywords[0], 1},     {"if", by_opposite, &keywords[3], 2},
    {"otherwise", length, &keywords[2], -2}, {"while", by_opposite, 0, 0x7FFF}, {"return\tat\x01once", twice, 0, 4},
};
const char *found = "nothing yet";

__attribute__((visibility("default"))) int keyword(const char *text) {
    for (int i = 0; i < 6; i++) {
        int n = 0;
        while (keywords[i].name[n] && keywords[i].name[n] == text[n]) n++;
        if (!keywords[i].name[n]) return found = keywords[i].name, keywords[i].weight(&keywords[i]);
    }
    return -1;
}
