/* segments : prints the segments of a small module, and the functions that ref.func in a body of it
 * may name. */
#include "tables.h"

/* Five functions; a table and a memory; a global that begins as a reference to function 3; an export
 * of function 4; function 2 starts. Then four element segments and two data segments. */
static const uint8_t module[] = {
    0x00, 0x61, 0x73, 0x6D, 0x01, 0x00, 0x00, 0x00,                 /* the header */
    0x01, 0x04, 0x01, 0x60, 0x00, 0x00,                             /* the type of each function */
    0x03, 0x06, 0x05, 0x00, 0x00, 0x00, 0x00, 0x00,                 /* functions */
    0x04, 0x04, 0x01, 0x70, 0x00, 0x0A,                             /* a table */
    0x05, 0x03, 0x01, 0x00, 0x01,                                   /* a memory */
    0x06, 0x06, 0x01, 0x70, 0x00, 0xD2, 0x03, 0x0B,                 /* a global */
    0x07, 0x05, 0x01, 0x01, 0x66, 0x00, 0x04,                       /* an export */
    0x08, 0x01, 0x02,                                               /* start */
    0x09, 0x1D, 0x04,                                               /* element segments: */
    0x00, 0x41, 0x01, 0x0B, 0x01, 0x00,                             /* active, function 0 */
    0x01, 0x00, 0x02, 0x01, 0x00,                                   /* passive, functions 1 and 0 */
    0x07, 0x63, 0x00, 0x01, 0xD0, 0x00, 0x0B,                       /* declarative, a null reference of type 0 */
    0x06, 0x00, 0x41, 0x02, 0x0B, 0x70, 0x01, 0xD2, 0x01, 0x0B,     /* active, a reference to function 1 */
    0x0A, 0x10, 0x05, 0x02, 0x00, 0x0B, 0x02, 0x00, 0x0B, 0x02, 0x00, 0x0B, 0x02, 0x00, 0x0B, 0x02, 0x00, 0x0B, /* bodies */
    0x0B, 0x0B, 0x02,                                               /* data segments: */
    0x00, 0x41, 0x08, 0x0B, 0x02, 0x61, 0x62,                       /* active */
    0x01, 0x01, 0x63,                                               /* passive */
};

static const char *const kinds[] = {"passive", "active", "declarative"};

static void print_element(const bobbinazure_segment_list *list, const bobbinazure_element_segment *row) {
    printf("elements %s ", kinds[row->kind]);
    print_value(stdout, row->element);
    if (row->kind == BOBBINAZURE_ACTIVE_SEGMENT) {
        printf(" table %u at ", (unsigned)row->table);
        print_expression(stdout, &list->expressions, row->offset);
    }
    printf(":");
    for (size_t i = 0; i < row->functions.len; i++) printf(" %u", (unsigned)list->functions.at[row->functions.begin + i]);
    for (size_t i = 0; i < row->expressions.len; i++) {
        printf(" (");
        print_expression(stdout, &list->expressions, row->expressions.begin + i);
        printf(")");
    }
    printf("\n");
}

static void print_data(const bobbinazure_segment_list *list, const bobbinazure_data_segment *row) {
    printf("data %s", kinds[row->kind]);
    if (row->kind == BOBBINAZURE_ACTIVE_SEGMENT) {
        printf(" memory %u at ", (unsigned)row->memory);
        print_expression(stdout, &list->expressions, row->offset);
    }
    printf(": %.*s\n", (int)row->bytes.len, (const char *)row->bytes.at);
}

int main(void) {
    bobbinazure_segment_list list = bobbinazure_segments_init();
    uint32_t refused = bobbinazure_segments(module, 4, &list);  /* not even a header */
    uint32_t status = bobbinazure_segments(module, sizeof module, &list);
    for (size_t i = 0; i < list.element_segments.len; i++) print_element(&list, &list.element_segments.at[i]);
    for (size_t i = 0; i < list.data_segments.len; i++) print_data(&list, &list.data_segments.at[i]);
    printf("references");
    for (size_t i = 0; i < list.references.len; i++) printf(" %u", (unsigned)list.references.at[i]);
    printf("\n");
    bobbinazure_segments_free(&list);
    return refused == BOBBINAZURE_REFUSED && status == BOBBINAZURE_PLANNED ? 0 : 1;
}
