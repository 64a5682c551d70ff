// The inline functions of the C interface's header, as calls of the module: what they fill and free
// is written there alone.
#include "bobbinazure.h"

#define CALL(name) __attribute__((export_name(#name))) void name

CALL(page_options_init)(bobbinazure_options *options) {
    *options = bobbinazure_options_init();
}

CALL(page_plan_init)(bobbinazure_plan *plan) {
    *plan = bobbinazure_plan_init();
}

CALL(page_plan_free)(bobbinazure_plan *plan) {
    bobbinazure_plan_free(plan);
}

CALL(page_text_init)(bobbinazure_text *text) {
    *text = bobbinazure_text_init();
}

CALL(page_text_free)(bobbinazure_text *text) {
    bobbinazure_text_free(text);
}

CALL(page_place_init)(bobbinazure_place *place) {
    *place = bobbinazure_place_init();
}

CALL(page_place_free)(bobbinazure_place *place) {
    bobbinazure_place_free(place);
}

CALL(page_broken_rule_init)(bobbinazure_broken_rule *broken) {
    *broken = bobbinazure_broken_rule_init();
}

CALL(page_broken_rule_free)(bobbinazure_broken_rule *broken) {
    bobbinazure_broken_rule_free(broken);
}

CALL(page_excess_init)(bobbinazure_excess *excess) {
    *excess = bobbinazure_excess_init();
}

CALL(page_excess_free)(bobbinazure_excess *excess) {
    bobbinazure_excess_free(excess);
}

CALL(page_link_record_init)(bobbinazure_link_record *links) {
    *links = bobbinazure_link_init();
}

CALL(page_link_record_free)(bobbinazure_link_record *links) {
    bobbinazure_link_free(links);
}
