/* What is printed, as a row of bytes that grows. See command.h. */
#include <stdarg.h>
#include <stdlib.h>
#include <string.h>

#include "command.h"

static void make_room(buffer *b, size_t more) {
    if (b->room - b->bytes >= more) return;
    b->room = 2 * b->room + more;
    b->at = must(realloc(b->at, b->room));
}

void add(buffer *b, const char *form, ...) {
    va_list rest, again;
    va_start(rest, form);
    va_copy(again, rest);
    size_t more = (size_t)vsnprintf(NULL, 0, form, rest);
    make_room(b, more + 1);
    vsnprintf(b->at + b->bytes, more + 1, form, again);
    b->bytes += more;
    va_end(again);
    va_end(rest);
}

void append(buffer *b, const void *from, size_t bytes) {
    if (bytes == 0) return;
    make_room(b, bytes);
    memcpy(b->at + b->bytes, from, bytes);
    b->bytes += bytes;
}

void put(const desk *d, buffer *b) {
    if (b->bytes > 0) fwrite(b->at, 1, b->bytes, d->out);
    b->bytes = 0;
}

void drop(buffer *b) { free(b->at); }

/* ---- Labels and texts ----------------------------------------------------- */

/* The name of a label, an attribute's with @ before it; without one, the number. */
void add_label(buffer *b, const desk *d, unsigned label) {
    if (d->name == NULL || label >= LABELS || d->name[label] == NULL)
        add(b, "%u", label);
    else
        add(b, "%s%s", is_attribute(label) ? "@" : "", d->name[label]);
}

/* How many bytes behind the first a character of UTF-8 has, or -1. */
static int tail_of(uint8_t first) {
    if (first < 0x80) return 0;
    if (first >= 0xC2 && first <= 0xDF) return 1;
    if (first >= 0xE0 && first <= 0xEF) return 2;
    return first >= 0xF0 && first <= 0xF4 ? 3 : -1;
}

/* The range of the second byte shuts out longer forms than needed, surrogates and
 * what lies past the last character. */
static bool second_fits(uint8_t first, uint8_t second) {
    switch (first) {
    case 0xE0: return second >= 0xA0;
    case 0xED: return second <= 0x9F;
    case 0xF0: return second >= 0x90;
    case 0xF4: return second <= 0x8F;
    default: return true;
    }
}

bool is_utf8(const uint8_t *text, size_t bytes) {
    for (size_t at = 0; at < bytes;) {
        int tail = tail_of(text[at]);
        if (tail < 0 || bytes - at <= (size_t)tail) return false;
        if (tail > 0 && !second_fits(text[at], text[at + 1])) return false;
        for (int k = 1; k <= tail; k++)
            if ((text[at + (size_t)k] & 0xC0) != 0x80) return false;
        at += (size_t)tail + 1;
    }
    return true;
}

/* A control character of two bytes (U+0080 to U+009F) could move a terminal. */
static bool is_plain(const uint8_t *text, size_t bytes) {
    if (!is_utf8(text, bytes)) return false;
    for (size_t k = 0; k + 1 < bytes; k++)
        if (text[k] == 0xC2 && text[k + 1] < 0xA0) return false;
    return true;
}

static const char *short_escape(uint8_t c) {
    switch (c) {
    case '"': return "\\\"";
    case '\\': return "\\\\";
    case '\n': return "\\n";
    case '\r': return "\\r";
    case '\t': return "\\t";
    default: return NULL;
    }
}

/* A text between quotes, so that make gives its very bytes back. */
void add_quoted(buffer *b, const uint8_t *text, size_t bytes) {
    bool plain = is_plain(text, bytes);
    add(b, "\"");
    for (size_t k = 0; k < bytes; k++) {
        const char *escape = short_escape(text[k]);
        if (escape != NULL)
            add(b, "%s", escape);
        else if (text[k] < 0x20 || text[k] == 0x7F || (text[k] >= 0x80 && !plain))
            add(b, "\\x%02x", text[k]);
        else
            append(b, text + k, 1);
    }
    add(b, "\"");
}

void add_hex(buffer *b, const uint8_t *from, size_t bytes) {
    for (size_t k = 0; k < bytes; k++) add(b, "%s%02x", k == 0 ? "" : " ", from[k]);
}

/* ---- JSON ----------------------------------------------------------------- */

/* Bytes that are no UTF-8, as a file's name may have, become U+FFFD. */
void json_string(buffer *b, const char *text, size_t bytes) {
    bool whole = is_utf8((const uint8_t *)text, bytes);
    add(b, "\"");
    for (size_t k = 0; k < bytes; k++) {
        uint8_t c = (uint8_t)text[k];
        const char *escape = short_escape(c);
        if (escape != NULL)
            add(b, "%s", escape);
        else if (c < 0x20)
            add(b, "\\u%04x", c);
        else if (c >= 0x80 && !whole)
            add(b, "\\ufffd");
        else
            append(b, &c, 1);
    }
    add(b, "\"");
}

void json_field(buffer *b, const char *name, const char *text) {
    add(b, ",\"%s\":", name);
    json_string(b, text, strlen(text));
}

void json_built(buffer *b, const char *name, buffer *words) {
    add(b, ",\"%s\":", name);
    json_string(b, words->at, words->bytes);
    words->bytes = 0;
}
