/* Writes JSON to standard output: members and items, and the commas between them. */
#ifndef WRITER_H
#define WRITER_H

#include <bobbinazure.h>
#include <inttypes.h>
#include <stdio.h>

/* From here on a number of JavaScript is no longer exact, so a string has the digits. */
#define INEXACT ((uint64_t)1 << 53)

/* Whether nothing is yet in the open list or object, and how many are open. */

static int is_first = 1, depth = 0;

/* Begins a member of that name; without a name an item of a list. Each item of the two outer levels has
 * its own line. */
static void item(const char *name) {
    if (!is_first) fputs(depth <= 2 ? "," : ", ", stdout);
    if (depth && depth <= 2) printf("\n%*s", depth, "");
    if (name) printf("\"%s\": ", name);
    is_first = 0;
}

static void open_with(const char *name, char bracket) {
    item(name);
    putchar(bracket);
    depth++;
    is_first = 1;
}

static void close_with(char bracket) {
    putchar(bracket);
    depth--;
    is_first = 0;
}

static void open_object(const char *name) { open_with(name, '{'); }
static void close_object(void) { close_with('}'); }
static void open_list(const char *name) { open_with(name, '['); }
static void close_list(void) { close_with(']'); }

static void null(const char *name) {
    item(name);
    fputs("null", stdout);
}

static void boolean(const char *name, int is) {
    item(name);
    fputs(is ? "true" : "false", stdout);
}

static void number(const char *name, uint64_t value) {
    item(name);
    printf(value < INEXACT ? "%" PRIu64 : "\"%" PRIu64 "\"", value);
}

static void signed_number(const char *name, int64_t value) {
    item(name);
    printf(value < (int64_t)INEXACT && value > -(int64_t)INEXACT ? "%" PRId64 : "\"%" PRId64 "\"", value);
}

static void index_or_null(const char *name, uint32_t index) {
    if (index == BOBBINAZURE_NONE) null(name);
    else number(name, index);
}

static void string(const char *name, const uint8_t *at, size_t len) {
    item(name);
    putchar('"');
    for (size_t i = 0; i < len; i++) {
        if (at[i] == '"' || at[i] == '\\') putchar('\\');
        if (at[i] < 0x20) printf("\\u%04x", at[i]);
        else putchar(at[i]);
    }
    putchar('"');
}

static void bytes(const char *name, bobbinazure_bytes part) { string(name, part.at, part.len); }
static void word(const char *name, const char *text) { string(name, (const uint8_t *)text, strlen(text)); }

/* Begins and ends a string of what tables.h prints, in which nothing is to be escaped. */
static void open_text(void) {
    item("text");
    putchar('"');
}

static void close_text(void) { putchar('"'); }

#endif
