/* What the examples share: a file's bytes, and the options by their words. */
#ifndef FILES_H
#define FILES_H

#include <bobbinazure.h>
#include <stdio.h>

static inline int set_option(bobbinazure_options *options, const char *word) {
#define SET(flag, spelled) if (!strcmp(word, spelled)) return options->flag = 1;
    BOBBINAZURE_FLAGS(SET)
#undef SET
    if (!strncmp(word, "--ptr=", 6)) options->pointer = (uint8_t)atoi(word + 6);
    else if (!strcmp(word, "--gc=drc")) options->collector = 0;
    else if (!strcmp(word, "--gc=null")) options->collector = 1;
    else if (!strncmp(word, "--page=", 7)) options->page_size = strtoull(word + 7, 0, 10);
    else if (!strncmp(word, "--max-image=", 12)) options->max_image = strtoull(word + 12, 0, 10);
    else return 0;
    return 1;
}

/* The bytes of a file, to be freed; none where it cannot be read. */
static inline uint8_t *read_file(const char *name, size_t *len) {
    FILE *file = fopen(name, "rb");
    if (!file) return 0;
    size_t room = 1 << 16, n;
    uint8_t *bytes = malloc(room);
    *len = 0;
    while (bytes && (n = fread(bytes + *len, 1, room - *len, file)) > 0) {
        *len += n;
        if (*len == room) {
            uint8_t *more = realloc(bytes, room *= 2);
            if (!more) free(bytes);
            bytes = more;
        }
    }
    fclose(file);
    return bytes;
}

#endif
