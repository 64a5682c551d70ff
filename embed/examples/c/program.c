/* program : links three small modules, and prints the index of each type and what each import is given. */
#include <bobbinazure.h>
#include <stdio.h>

/* It exports a function f of type [i32] -> [i32], and a global g, which is an i32 that cannot be written. Its other type is [i32] -> []. */
static const uint8_t first[] = {
    0x00, 0x61, 0x73, 0x6D, 0x01, 0x00, 0x00, 0x00,                         /* the header */
    0x01, 0x0A, 0x02, 0x60, 0x01, 0x7F, 0x01, 0x7F, 0x60, 0x01, 0x7F, 0x00, /* types */
    0x03, 0x02, 0x01, 0x00,                                                 /* functions */
    0x06, 0x06, 0x01, 0x7F, 0x00, 0x41, 0x2A, 0x0B,                         /* globals */
    0x07, 0x09, 0x02, 0x01, 0x66, 0x00, 0x00, 0x01, 0x67, 0x03, 0x00,       /* exports */
    0x0A, 0x06, 0x01, 0x04, 0x00, 0x20, 0x00, 0x0B,                         /* code */
};

/* It exports a memory m of three pages at least. */
static const uint8_t second[] = {
    0x00, 0x61, 0x73, 0x6D, 0x01, 0x00, 0x00, 0x00, /* the header */
    0x05, 0x03, 0x01, 0x00, 0x03,                   /* memories */
    0x07, 0x05, 0x01, 0x01, 0x6D, 0x02, 0x00,       /* exports */
};

/* Its types are those of the first in the other order. It imports f, g and a function z of a, and m of b twice, of one and of four pages. */
static const uint8_t third[] = {
    0x00, 0x61, 0x73, 0x6D, 0x01, 0x00, 0x00, 0x00,                         /* the header */
    0x01, 0x0A, 0x02, 0x60, 0x01, 0x7F, 0x00, 0x60, 0x01, 0x7F, 0x01, 0x7F, /* types */
    0x02, 0x22, 0x05,                                                       /* five imports */
    0x01, 0x61, 0x01, 0x66, 0x00, 0x01,                                     /* a function */
    0x01, 0x61, 0x01, 0x67, 0x03, 0x7F, 0x00,                               /* a global */
    0x01, 0x61, 0x01, 0x7A, 0x00, 0x00,                                     /* another function */
    0x01, 0x62, 0x01, 0x6D, 0x02, 0x00, 0x01,                               /* a memory */
    0x01, 0x62, 0x01, 0x6D, 0x02, 0x00, 0x04,                               /* the same memory */
};

static bobbinazure_named_module named(const char *name, const uint8_t *bytes, size_t len) {
    bobbinazure_named_module module = {{(const uint8_t *)name, strlen(name)}, {bytes, len}};
    return module;
}

static void print_answer(size_t import, const bobbinazure_program_answer *row) {
    switch (row->answer) {
    case BOBBINAZURE_GIVEN: printf("  import %zu is export %zu of module %zu\n", import, row->export_number, row->module); break;
    case BOBBINAZURE_MISSING: printf("  import %zu is missing\n", import); break;
    default: printf("  import %zu breaks rule %u: %.*s\n", import, (unsigned)row->rule, (int)row->line.len, (const char *)row->line.at); break;
    }
}

static void print_module(const bobbinazure_program *program, size_t number) {
    const bobbinazure_linked_module *module = &program->modules.at[number];
    printf("module %zu, after %zu exports\n", number, module->first_export);
    for (size_t i = 0; i < module->types.len; i++)
        printf("  type %zu has index %u\n", i, (unsigned)program->types.at[module->types.begin + i]);
    for (size_t i = 0; i < module->answers.len; i++) print_answer(i, &program->answers.at[module->answers.begin + i]);
}

static uint32_t print_program(const bobbinazure_named_module *modules, size_t count) {
    bobbinazure_options options = bobbinazure_options_init();
    bobbinazure_program program = bobbinazure_program_init();
    uint32_t status = bobbinazure_link_program(modules, count, &options, &program);
    if (status == BOBBINAZURE_REFUSED && program.cause == BOBBINAZURE_CAUSE_MODULE)
        printf("module %zu: %.*s", program.refused, (int)program.refusal_line.len, (const char *)program.refusal_line.at);
    else if (status == BOBBINAZURE_REFUSED)
        printf("module %zu: cause %u\n", program.refused, (unsigned)program.cause);
    for (size_t i = 0; i < program.modules.len; i++) print_module(&program, i);
    bobbinazure_program_free(&program);
    return status;
}

int main(void) {
    const bobbinazure_named_module modules[] = {
        named("a", first, sizeof first), named("b", second, sizeof second), named("c", third, sizeof third),
        named("b", second, sizeof second), named("d", third, 4),
    };
    uint32_t linked = print_program(modules, 3);
    uint32_t duplicate = print_program(modules, 4);
    uint32_t refused = print_program(modules, 5); /* the last is not even a header */
    return linked == BOBBINAZURE_PLANNED && duplicate == BOBBINAZURE_REFUSED && refused == BOBBINAZURE_REFUSED ? 0 : 1;
}
