/* times FILE.wasm RUNS : the median time of each call over a module, in microseconds. */
#include "files.h"
#include <time.h>

enum { PLAN, TEXT, BOTH, NOTHING, KINDS };

static double now(void) {
    struct timespec t;
    timespec_get(&t, TIME_UTC);
    return (double)t.tv_sec * 1e6 + (double)t.tv_nsec / 1e3;
}

static int less(const void *a, const void *b) {
    double x = *(const double *)a, y = *(const double *)b;
    return (x > y) - (x < y);
}

static double one(int kind, const uint8_t *bytes, size_t len, const bobbinazure_options *options) {
    bobbinazure_plan plan = bobbinazure_plan_init();
    bobbinazure_text text = bobbinazure_text_init();
    double start = now();
    switch (kind) {
    case PLAN: bobbinazure_make_plan(bytes, len, options, &plan); break;
    case TEXT: bobbinazure_make_text(bytes, len, options, &text); break;
    case BOTH: bobbinazure_make_plan_and_text(bytes, len, options, &plan, &text); break;
    default: bobbinazure_make_plan(bytes, 0, options, &plan); break;    /* refused at once */
    }
    bobbinazure_plan_free(&plan);
    bobbinazure_text_free(&text);
    return now() - start;
}

int main(int argc, char **argv) {
    static const char *const names[KINDS] = {"plan", "text", "both", "a refusal of no bytes"};
    if (argc < 3) return 2;
    size_t len, runs = (size_t)atoi(argv[2]);
    uint8_t *bytes = read_file(argv[1], &len);
    double *times = calloc(runs, sizeof *times);
    if (!bytes || !times || !runs) return 3;
    bobbinazure_options options = bobbinazure_options_init();
    options.cow = options.lazy_tables = 1;
    printf("%zu bytes:", len);
    for (int kind = 0; kind < KINDS; kind++) {
        for (size_t i = 0; i < runs; i++) times[i] = one(kind, bytes, len, &options);
        qsort(times, runs, sizeof *times, less);
        printf(" %s %.1f us%s", names[kind], times[runs / 2], kind + 1 < KINDS ? "," : "\n");
    }
    free(bytes), free(times);
    return 0;
}
