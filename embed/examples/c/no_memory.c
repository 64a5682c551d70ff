/* no_memory FILE.wasm [OPTION].. : lets each allocation of each call fail in turn. Each such call
 * must answer that there is no memory, or plan the module all the same, where memory was only
 * reserved ahead. Once the record is freed no block may be left. Linked with
 * -Wl,--wrap=malloc,--wrap=realloc,--wrap=free. */
#include "files.h"

void *__real_malloc(size_t size);
void *__real_realloc(void *block, size_t size);
void __real_free(void *block);

static size_t calls, fails_at, blocks;      /* how many allocations there were, which fails, and how many blocks there are */

void *__wrap_malloc(size_t size) {
    if (++calls == fails_at) return 0;
    void *block = __real_malloc(size);
    blocks += block != 0;
    return block;
}

void *__wrap_realloc(void *block, size_t size) {
    if (!block) return __wrap_malloc(size);
    if (++calls == fails_at) return 0;
    return __real_realloc(block, size);
}

void __wrap_free(void *block) {
    blocks -= block != 0;
    __real_free(block);
}

enum { PLAN, TEXT, BOTH, LINK, PROGRAM, KINDS };

static uint32_t call(int kind, const uint8_t *bytes, size_t len, const bobbinazure_options *options) {
    bobbinazure_plan plan = bobbinazure_plan_init();
    bobbinazure_text text = bobbinazure_text_init();
    bobbinazure_link_record links = bobbinazure_link_init();
    bobbinazure_program program = bobbinazure_program_init();
    const bobbinazure_named_module twice[] = {{{(const uint8_t *)"m", 1}, {bytes, len}}, {{(const uint8_t *)"n", 1}, {bytes, len}}};
    uint32_t status = kind == PLAN   ? bobbinazure_make_plan(bytes, len, options, &plan)
                      : kind == TEXT ? bobbinazure_make_text(bytes, len, options, &text)
                      : kind == BOTH ? bobbinazure_make_plan_and_text(bytes, len, options, &plan, &text)
                      : kind == LINK ? bobbinazure_link(bytes, len, bytes, len, (const uint8_t *)"m", 1, options, &links)    /* with itself */
                                     : bobbinazure_link_program(twice, 2, options, &program);
    bobbinazure_plan_free(&plan);
    bobbinazure_text_free(&text);
    bobbinazure_link_free(&links);
    bobbinazure_program_free(&program);
    return status;
}

int main(int argc, char **argv) {
    bobbinazure_options options = bobbinazure_options_init();
    if (argc < 2) return 2;
    for (int i = 2; i < argc; i++)
        if (!set_option(&options, argv[i])) return 2;
    size_t len;
    uint8_t *bytes = read_file(argv[1], &len);
    if (!bytes) return 3;
    size_t before = blocks, tried = 0, planned = 0;
    for (int kind = 0; kind < KINDS; kind++) {
        for (size_t place = 1;; place++) {
            calls = 0, fails_at = place;
            uint32_t status = call(kind, bytes, len, &options);
            fails_at = 0;
            if (blocks != before) return printf("call %d, allocation %zu: %zu blocks are left\n", kind, place, blocks - before), 1;
            if (calls < place) break;       /* none failed */
            if (status != BOBBINAZURE_NO_MEMORY && status != BOBBINAZURE_PLANNED) return printf("call %d, allocation %zu: status %u\n", kind, place, (unsigned)status), 1;
            tried++;
            planned += status == BOBBINAZURE_PLANNED;
        }
    }
    free(bytes);
    printf("%zu allocations failed in turn, %zu of them without need\n", tried, planned);
    return 0;
}
