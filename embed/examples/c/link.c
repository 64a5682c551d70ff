/* link : links small modules, and prints which export of the first each import of the second is
 * given. */
#include <bobbinazure.h>
#include <stdio.h>

/* It exports a function f, a table t of one to two functions, a memory m of one to two pages, a
 * global g, which is an i32 that cannot be written, and a tag e. */
static const uint8_t exporter[] = {
    0x00, 0x61, 0x73, 0x6D, 0x01, 0x00, 0x00, 0x00,                         /* the header */
    0x01, 0x0A, 0x02, 0x60, 0x01, 0x7F, 0x01, 0x7F, 0x60, 0x01, 0x7F, 0x00, /* types */
    0x03, 0x02, 0x01, 0x00,                                                 /* functions */
    0x04, 0x05, 0x01, 0x70, 0x01, 0x01, 0x02,                               /* tables */
    0x05, 0x04, 0x01, 0x01, 0x01, 0x02,                                     /* memories */
    0x0D, 0x03, 0x01, 0x00, 0x01,                                           /* tags */
    0x06, 0x06, 0x01, 0x7F, 0x00, 0x41, 0x2A, 0x0B,                         /* globals */
    0x07, 0x15, 0x05, 0x01, 0x66, 0x00, 0x00, 0x01, 0x74, 0x01, 0x00, 0x01, 0x6D, 0x02, 0x00, 0x01, 0x67, 0x03, 0x00, 0x01, 0x65, 0x04, 0x00, /* exports */
    0x0A, 0x06, 0x01, 0x04, 0x00, 0x20, 0x00, 0x0B,                         /* code */
};

/* It imports all of these of m, the last first, but a tag z in place of e, and a memory of two pages
 * at least. */
static const uint8_t importer[] = {
    0x00, 0x61, 0x73, 0x6D, 0x01, 0x00, 0x00, 0x00,                         /* the header */
    0x01, 0x0A, 0x02, 0x60, 0x01, 0x7F, 0x00, 0x60, 0x01, 0x7F, 0x01, 0x7F, /* types */
    0x02, 0x26, 0x05,                                                       /* five imports */
    0x01, 0x6D, 0x01, 0x7A, 0x04, 0x00, 0x00,                               /* a tag */
    0x01, 0x6D, 0x01, 0x67, 0x03, 0x7F, 0x00,                               /* a global */
    0x01, 0x6D, 0x01, 0x6D, 0x02, 0x01, 0x02, 0x02,                         /* a memory */
    0x01, 0x6D, 0x01, 0x74, 0x01, 0x70, 0x01, 0x01, 0x02,                   /* a table */
    0x01, 0x6D, 0x01, 0x66, 0x00, 0x01,                                     /* a function */
};

static void print_answer(size_t import, const bobbinazure_import_answer *row) {
    switch (row->answer) {
    case BOBBINAZURE_GIVEN: printf("import %zu is export %u\n", import, (unsigned)row->detail); break;
    case BOBBINAZURE_MISSING: printf("import %zu is missing\n", import); break;
    default: printf("import %zu breaks rule %u: %.*s\n", import, (unsigned)row->detail, (int)row->line.len, (const char *)row->line.at); break;
    }
}

static uint32_t print_links(const uint8_t *second, size_t len) {
    bobbinazure_options options = bobbinazure_options_init();
    bobbinazure_link_record links = bobbinazure_link_init();
    uint32_t status = bobbinazure_link(exporter, sizeof exporter, second, len, (const uint8_t *)"m", 1, &options, &links);
    if (status == BOBBINAZURE_REFUSED) printf("module %u: %.*s", (unsigned)links.refused, (int)links.refusal_line.len, (const char *)links.refusal_line.at);
    for (size_t i = 0; i < links.answers.len; i++) print_answer(i, &links.answers.at[i]);
    bobbinazure_link_free(&links);
    return status;
}

int main(void) {
    uint32_t planned = print_links(importer, sizeof importer);
    uint32_t refused = print_links(importer, 4);    /* not even a header */
    return planned == BOBBINAZURE_PLANNED && refused == BOBBINAZURE_REFUSED ? 0 : 1;
}
