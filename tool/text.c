/* Reading a text, line by line and word by word. See command.h. */
#include <stdarg.h>
#include <string.h>

#include "command.h"

reader read_text(desk *d, const file *text) {
    return (reader){.desk = d, .text = text, .line = 1, .is_new = true};
}

static bool at_end(const reader *r) { return r->at >= r->text->bytes; }
static uint8_t here(const reader *r) { return r->text->at[r->at]; }
static bool is_blank(uint8_t c) { return c == ' ' || c == '\t' || c == '\r'; }

static void skip_blanks(reader *r) {
    while (!at_end(r) && is_blank(here(r))) r->at++;
}

/* A line's end, a remark, or the text's end. */
static bool no_word(const reader *r) { return at_end(r) || here(r) == '\n' || here(r) == '#'; }

/* Goes on to the line after this one. */
static void pass_line(reader *r) {
    while (!at_end(r) && here(r) != '\n') r->at++;
    if (at_end(r)) return;
    r->at++;
    r->line++;
    r->line_start = r->at;
}

bool next_line(reader *r) {
    bool has_word = r->is_new && next_word(r);
    r->is_new = false;
    while (!has_word && !at_end(r)) {
        pass_line(r);
        has_word = next_word(r);
    }
    return has_word;
}

/* A quote behind a backslash does not end a text between quotes. */
static void pass_quoted(reader *r) {
    for (r->at++; !at_end(r) && here(r) != '"' && here(r) != '\n'; r->at++)
        if (here(r) == '\\' && r->at + 1 < r->text->bytes && r->text->at[r->at + 1] != '\n')
            r->at++;
    r->is_quoted = !at_end(r) && here(r) == '"';
    if (r->is_quoted) r->at++;
}

bool next_word(reader *r) {
    skip_blanks(r);
    r->word = r->word_end = r->at;
    r->is_quoted = false;
    if (no_word(r)) return false;
    if (here(r) == '"')
        pass_quoted(r);
    else
        while (!no_word(r) && !is_blank(here(r))) r->at++;
    r->word_end = r->at;
    return true;
}

bool is_word(const reader *r, const char *word) {
    size_t bytes = strlen(word);
    return r->word_end - r->word == bytes && memcmp(r->text->at + r->word, word, bytes) == 0;
}

/* Digits, with one minus before them where `least` is below 0. */
bool word_number(const reader *r, int64_t least, int64_t most, int64_t *out) {
    const uint8_t *at = r->text->at + r->word, *end = r->text->at + r->word_end;
    bool minus = least < 0 && at < end && *at == '-';
    int64_t sum = 0;
    if (minus) at++;
    if (at == end) return false;
    for (; at < end; at++) {
        if (*at < '0' || *at > '9') return false;
        if (sum <= INT64_C(99999999999)) sum = 10 * sum + (*at - '0');
    }
    *out = minus ? -sum : sum;
    return *out >= least && *out <= most;
}

/* Columns are counted in characters, from 1. */
static unsigned column_of(const reader *r) {
    unsigned column = 1;
    for (size_t k = r->line_start; k < r->word; k++)
        if ((r->text->at[k] & 0xC0) != 0x80) column++;
    return column;
}

/* Says what is wrong at the last word, once for a text. */
bool bad(reader *r, const char *form, ...) {
    va_list rest;
    va_start(rest, form);
    if (!r->is_bad) {
        fprintf(r->desk->err, "%s: line %u, column %u: ", r->text->name, r->line, column_of(r));
        vfprintf(r->desk->err, form, rest);
        fputc('\n', r->desk->err);
    }
    va_end(rest);
    r->is_bad = true;
    return false;
}

bool line_ends(reader *r) { return !next_word(r) || bad(r, "the line should end here"); }
