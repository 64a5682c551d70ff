/* Writes the sections of a module. */
#ifndef SECTIONS_H
#define SECTIONS_H

#include "writer.h"

/* Those of any input, refused or not. */
static void put_sections(const bobbinazure_section_list *list) {
    open_list("sections");
    for (size_t i = 0; i < list->sections.len; i++) {
        const bobbinazure_section *section = &list->sections.at[i];
        open_object(0);
        number("id", section->id);
        number("start", section->start);
        number("contents", section->contents);
        number("size", section->size);
        if (section->has_name) bytes("name", section->name);
        else null("name");
        close_object();
    }
    close_list();
}

#endif
