/* Files, numbers and names that a call is given. See command.h. */
#include <errno.h>
#include <stdarg.h>
#include <stdlib.h>
#include <string.h>

#include "command.h"

enum { USUAL_SLOTS = 64, MOST_NAME = 255, FIRST_ROOM = 1 << 16, NAME_PLACES = 2 * LABELS };

void *must(void *room) {
    if (room == NULL) {
        fprintf(stderr, "esquirmell: there is not enough memory\n");
        exit(FAILED);
    }
    return room;
}

/* A line on standard error that names the command. */
void say(desk *d, const char *head, const char *form, va_list rest, const char *tail) {
    fprintf(d->err, "esquirmell: %s", head);
    vfprintf(d->err, form, rest);
    fprintf(d->err, "%s\n", tail);
}

/* Says why the call could not be tried. */
int fail(desk *d, const char *form, ...) {
    va_list rest;
    va_start(rest, form);
    say(d, "", form, rest, "");
    va_end(rest);
    return FAILED;
}

/* ---- Files --------------------------------------------------------------- */

/* Reads what decides: once there are `most` bytes, no further one is asked for. */
static bool read_stream(FILE *from, size_t most, file *out) {
    size_t room = most < FIRST_ROOM ? most : FIRST_ROOM, got = 1;
    out->at = must(malloc(room));
    while (got > 0 && out->bytes < most) {
        got = fread(out->at + out->bytes, 1, room - out->bytes, from);
        out->bytes += got;
        if (out->bytes == room && room < most) {
            room = room > most / 2 ? most : 2 * room;
            out->at = must(realloc(out->at, room));
        }
    }
    return !ferror(from);
}

int read_file(desk *d, const char *path, size_t most, file *out) {
    bool is_stream = strcmp(path, "-") == 0;
    *out = (file){.name = is_stream ? "standard input" : path};
    if (is_stream && d->in_taken) return fail(d, "standard input can stand for one file only");
    d->in_taken |= is_stream;
    FILE *from = is_stream ? d->in : fopen(path, "rb");
    bool is_read = from != NULL && read_stream(from, most, out);
    int why = errno;
    if (from != NULL && !is_stream) fclose(from);
    return is_read ? DONE : fail(d, "%s can't be read: %s", out->name, strerror(why));
}

/* A text is read whole or not at all. */
int read_text_file(desk *d, const char *path, file *out) {
    int status = read_file(d, path, MOST_TEXT_READ, out);
    if (status != DONE || out->bytes < MOST_TEXT_READ) return status;
    return fail(d, "%s is too long for a text: it has %d bytes or more", out->name, MOST_TEXT_READ);
}

/* The first two words are a book and a day file. */
int read_book_and_day(desk *d, file *book, file *day) {
    int status = read_file(d, d->word[0], MOST_BOOK_READ, book);
    return status != DONE ? status : read_file(d, d->word[1], MOST_DAY_READ, day);
}

/* ---- Numbers -------------------------------------------------------------- */

/* Digits alone; what is over `most` counts as `most`. */
bool is_number(const char *word, uint64_t most, uint64_t *out) {
    uint64_t sum = 0;
    if (*word == '\0') return false;
    for (; *word != '\0'; word++) {
        if (*word < '0' || *word > '9') return false;
        uint64_t digit = (uint64_t)(*word - '0');
        sum = sum > (most - digit) / 10 ? most : 10 * sum + digit;
    }
    *out = sum;
    return true;
}

/* Slots past 4,096 are never used, so none are lent. */
int read_slots(desk *d, unsigned at, size_t *slots) {
    uint64_t number = USUAL_SLOTS;
    if (d->words > at && !is_number(d->word[at], ESQ_MOST_SLOTS, &number))
        return fail(d, "%s is no number of slots", d->word[at]);
    *slots = number;
    return DONE;
}

/* ---- Names ---------------------------------------------------------------- */

static bool may_begin(uint8_t c) {
    return (c >= 'a' && c <= 'z') || (c >= 'A' && c <= 'Z') || c == '_' || c >= 0x80;
}

static bool may_go_on(uint8_t c) {
    return may_begin(c) || (c >= '0' && c <= '9') || c == '.' || c == '-';
}

static bool is_name(const reader *r) {
    const uint8_t *at = r->text->at + r->word;
    size_t bytes = r->word_end - r->word;
    if (bytes == 0 || bytes > MOST_NAME || !may_begin(at[0]) || !is_utf8(at, bytes)) return false;
    for (size_t k = 1; k < bytes; k++)
        if (!may_go_on(at[k])) return false;
    return true;
}

/* Where the label with this name stands among the places, or where it belongs: the
 * first place from its hash on that is free or has it. Half of them stay free. */
static uint32_t *place_of(const desk *d, bool of_attribute, const uint8_t *name, size_t bytes) {
    uint32_t hash = of_attribute ? 1 : 2;
    for (size_t k = 0; k < bytes; k++) hash = (hash ^ name[k]) * UINT32_C(16777619);
    for (;; hash++) {
        uint32_t *place = &d->named[hash % NAME_PLACES];
        const char *there = *place == 0 ? NULL : d->name[*place];
        if (there == NULL) return place;
        if (is_attribute(*place) == of_attribute && strlen(there) == bytes &&
            memcmp(there, name, bytes) == 0)
            return place;
    }
}

unsigned label_of(const desk *d, bool of_attribute, const uint8_t *name, size_t bytes) {
    return d->name == NULL ? 0 : *place_of(d, of_attribute, name, bytes);
}

static bool read_name(reader *r) {
    int64_t label;
    desk *d = r->desk;
    if (!word_number(r, 1, LABELS - 1, &label) || label == ANY_ATTRIBUTE)
        return bad(r, "a label is expected, 1 to 32,767 or 32,769 to 65,535");
    if (d->name[label] != NULL) return bad(r, "label %d has a name already", (int)label);
    if (!next_word(r)) return bad(r, "a name is expected");
    if (!is_name(r)) return bad(r, "this is no name: a letter or _, then letters, digits, . - _");
    const uint8_t *name = r->text->at + r->word;
    size_t bytes = r->word_end - r->word;
    uint32_t *place = place_of(d, is_attribute((unsigned)label), name, bytes);
    if (*place != 0) return bad(r, "this name has a label already");
    d->name[label] = must(calloc(bytes + 1, 1));
    memcpy(d->name[label], name, bytes);
    *place = (uint32_t)label;
    return line_ends(r);
}

/* Lines of a label and its name. */
int read_names(desk *d) {
    file text;
    if (d->names_path == NULL) return DONE;
    int status = read_text_file(d, d->names_path, &text);
    d->name = must(calloc(LABELS, sizeof *d->name));
    d->named = must(calloc(NAME_PLACES, sizeof *d->named));
    reader r = read_text(d, &text);
    while (status == DONE && next_line(&r))
        if (!read_name(&r)) status = REFUSED;
    free(text.at);
    return status;
}

void drop_names(desk *d) {
    for (unsigned k = 0; d->name != NULL && k < LABELS; k++) free(d->name[k]);
    free(d->name);
    free(d->named);
}
