/* plan FILE.wasm [--tables] [OPTION].. : prints the plan of a module; with --tables out of its tables
 * alone, which gives the same lines. */
#include "files.h"
#include "tables.h"

int main(int argc, char **argv) {
    bobbinazure_options options = bobbinazure_options_init();
    int tables = 0;
    if (argc < 2) return 2;
    for (int i = 2; i < argc; i++) {
        if (!strcmp(argv[i], "--tables")) tables = 1;
        else if (!set_option(&options, argv[i])) return 2;
    }
    size_t len;
    uint8_t *bytes = read_file(argv[1], &len);
    if (!bytes) return 3;
    uint32_t status;
    if (tables) {
        bobbinazure_plan plan = bobbinazure_plan_init();
        status = bobbinazure_make_plan(bytes, len, &options, &plan);
        if (status == BOBBINAZURE_PLANNED) print_plan(stdout, &plan);
        else if (status == BOBBINAZURE_REFUSED) fwrite(plan.refusal_line.at, 1, plan.refusal_line.len, stdout);
        bobbinazure_plan_free(&plan);
    } else {
        bobbinazure_text text = bobbinazure_text_init();
        status = bobbinazure_make_text(bytes, len, &options, &text);
        fwrite(text.text.at, 1, text.text.len, stdout);
        bobbinazure_text_free(&text);
    }
    free(bytes);
    return (int)status;
}
