/* `make`: from the text that `show` prints back to the very bytes. See command.h.
 *
 * A bad text is told by line and column, and nothing is written. A book that the
 * proved library would refuse is a bad text, too, at the line of its fault. A
 * message may be a refused one: `show` prints such, and it comes back as it was. */
#define _POSIX_C_SOURCE 200809L /* isatty, fileno */
#include <errno.h>
#include <stdlib.h>
#include <string.h>
#include <unistd.h>

#include "command.h"

enum { MOST_TEXT = 255 };

/* Where a line began, for what is found wrong only when the whole is there. */
typedef struct {
    unsigned line;
    size_t line_start, word;
} spot;

/* A book or a day file while it is being made. */
typedef struct {
    reader reader;
    buffer contents, bodies; /* entries and what follows them */
    unsigned entries, states;
    int64_t first_message;
    size_t body; /* where the last entry's body starts in `bodies` */
    spot filter[MOST_FILTERS], state[MOST_STATES];
} making;

static spot spot_of(const reader *r) { return (spot){r->line, r->line_start, r->word}; }

static bool bad_at(reader *r, spot where, const fault *f) {
    r->line = where.line;
    r->line_start = where.line_start;
    r->word = where.word;
    return bad(r, "refused, %u: %s", f->number, f->cause);
}

/* ---- Bytes ------------------------------------------------------------------------ */

static void add_two(buffer *b, unsigned number) {
    uint8_t bytes[2] = {(uint8_t)number, (uint8_t)(number >> 8)};
    append(b, bytes, 2);
}

static void add_four(buffer *b, uint32_t number) {
    add_two(b, number & 0xFFFF);
    add_two(b, number >> 16);
}

/* ---- Words -------------------------------------------------------------------------- */

static bool take_number(reader *r, int64_t least, int64_t most, int64_t *out, const char *what) {
    if (next_word(r) && word_number(r, least, most, out)) return true;
    return bad(r, "%s is expected, %lld to %lld", what, (long long)least, (long long)most);
}

/* The label that has this name, or 0, which none has. */
static unsigned named_label(const reader *r) {
    const uint8_t *name = r->text->at + r->word;
    bool of_attribute = name[0] == '@';
    return label_of(r->desk, of_attribute, name + of_attribute,
                    r->word_end - r->word - of_attribute);
}

static bool take_label(reader *r, bool in_step, unsigned *label) {
    int64_t number = ANY_ELEMENT;
    if (!next_word(r)) return bad(r, "a label is expected");
    if (in_step && is_word(r, "@*")) {
        number = ANY_ATTRIBUTE;
    } else if (!(in_step && is_word(r, "*")) && !word_number(r, 0, LABELS - 1, &number)) {
        number = named_label(r);
        if (number == 0 && r->desk->name != NULL) return bad(r, "no label has this name");
        if (number == 0) return bad(r, "a label is expected, 0 to 65,535; names need --names");
    }
    *label = (unsigned)number;
    return true;
}

/* ---- A book -------------------------------------------------------------------------- */

static bool take_leaf(reader *r, buffer *b) {
    int64_t constant;
    unsigned relation = 1;
    if (!next_word(r)) return bad(r, "a relation is expected: = != < <= > >=");
    while (relation <= 6 && !is_word(r, relation_sign(relation))) relation++;
    if (relation > 6) return bad(r, "a relation is expected: = != < <= > >=");
    if (!take_number(r, INT32_MIN, INT32_MAX, &constant, "a constant")) return false;
    add_two(b, LEAF_KIND | relation << 8);
    add_two(b, 0);
    add_four(b, (uint32_t)(int32_t)constant);
    return true;
}

static bool take_step(reader *r, buffer *b) {
    int64_t to;
    unsigned label;
    if (!take_label(r, true, &label)) return false;
    if (!next_word(r) || !is_word(r, "->")) return bad(r, "-> is expected");
    if (!take_number(r, 0, LABELS - 1, &to, "a state")) return false;
    add_two(b, STEP_KIND);
    add_two(b, label);
    add_two(b, (unsigned)to);
    add_two(b, 0);
    return true;
}

/* A kind with so many successors. */
static bool take_successors(reader *r, buffer *b, unsigned kind, unsigned count) {
    int64_t to[2] = {0, 0};
    for (unsigned k = 0; k < count; k++)
        if (!take_number(r, 0, LABELS - 1, &to[k], "a state")) return false;
    add_two(b, kind);
    add_two(b, (unsigned)to[0]);
    add_two(b, (unsigned)to[1]);
    add_two(b, 0);
    return true;
}

static bool take_kind(reader *r, buffer *b) {
    if (!next_word(r)) return bad(r, "a kind is expected: TRUE LEAF AND OR NOT STEP");
    if (is_word(r, "TRUE")) return take_successors(r, b, TRUE_KIND, 0);
    if (is_word(r, "LEAF")) return take_leaf(r, b);
    if (is_word(r, "AND")) return take_successors(r, b, AND_KIND, 2);
    if (is_word(r, "OR")) return take_successors(r, b, OR_KIND, 2);
    if (is_word(r, "NOT")) return take_successors(r, b, NOT_KIND, 1);
    if (is_word(r, "STEP")) return take_step(r, b);
    return bad(r, "a kind is expected: TRUE LEAF AND OR NOT STEP");
}

static bool take_state(making *m) {
    int64_t number;
    reader *r = &m->reader;
    size_t here = (m->bodies.bytes - m->body) / 8;
    if (m->entries == 0) return bad(r, "a filter is expected before its states");
    if (!word_number(r, 0, LABELS - 1, &number)) return bad(r, "a state or a filter is expected");
    if ((size_t)number != here) return bad(r, "this is state %zu of its filter", here);
    if (m->states == MOST_STATES) return bad(r, "refused, 4: this would be the 513th state");
    m->state[m->states++] = spot_of(r);
    return take_kind(r, &m->bodies);
}

static bool take_filter(making *m) {
    int64_t id;
    reader *r = &m->reader;
    if (m->entries == MOST_FILTERS) return bad(r, "refused, 2: this would be the 65th filter");
    m->filter[m->entries++] = spot_of(r);
    if (!take_number(r, 0, UINT32_MAX, &id, "an id")) return false;
    m->body = m->bodies.bytes;
    add_four(&m->contents, (uint32_t)id);
    add_two(&m->contents, (unsigned)m->body); /* its place among the bodies, until all are there */
    add_two(&m->contents, 0);
    return true;
}

static bool take_book_line(making *m) {
    bool taken = is_word(&m->reader, "filter") ? take_filter(m) : take_state(m);
    return taken && line_ends(&m->reader);
}

/* Writes each entry's start and number of states into the contents. */
static void lay_out_book(making *m) {
    for (unsigned k = 0; k < m->entries; k++) {
        uint8_t *entry = (uint8_t *)m->contents.at + 8 * k;
        unsigned from = two_bytes(entry + 4);
        unsigned to = k + 1 < m->entries ? two_bytes(entry + 12) : (unsigned)m->bodies.bytes;
        unsigned start = 2 + 8 * m->entries + from, states = (to - from) / 8;
        uint8_t fields[4] = {(uint8_t)start, (uint8_t)(start >> 8), (uint8_t)states,
                             (uint8_t)(states >> 8)};
        memcpy(entry + 4, fields, sizeof fields);
    }
}

/* The book that was made must be one that is accepted. */
static int check_made_book(making *m, const buffer *whole) {
    file f = {.name = m->reader.text->name, .at = (uint8_t *)whole->at, .bytes = whole->bytes};
    fault own = book_fault(f.at, f.bytes);
    int status = agree(m->reader.desk, &f, proved_book(&f), &own);
    if (status != DONE || own.number == 0) return status;
    spot where = m->filter[own.filter];
    if (own.has_state) where = m->state[states_before(f.at, own.filter) + own.state];
    bad_at(&m->reader, where, &own);
    return REFUSED;
}

/* ---- A day file ------------------------------------------------------------------------ */

static bool take_message(making *m) {
    int64_t number;
    reader *r = &m->reader;
    if (m->entries == ESQ_MOST_MESSAGES)
        return bad(r, "refused, 9: this would be the 4,097th message");
    if (!take_number(r, 1, ESQ_MOST_MESSAGES, &number, "a message's number")) return false;
    if (m->entries == 0) m->first_message = number;
    if (number != m->first_message + m->entries)
        return bad(r, "this is message %lld", (long long)(m->first_message + m->entries));
    m->entries++;
    add_four(&m->contents, (uint32_t)m->bodies.bytes); /* as for a book */
    add_four(&m->contents, 0);
    return true;
}

static bool take_node(reader *r, buffer *b, uint8_t kind) {
    unsigned label;
    if (!take_label(r, false, &label)) return false;
    append(b, &kind, 1);
    add_two(b, label);
    return true;
}

static int hex_digit(uint8_t c) {
    if (c >= '0' && c <= '9') return c - '0';
    if (c >= 'a' && c <= 'f') return c - 'a' + 10;
    return c >= 'A' && c <= 'F' ? c - 'A' + 10 : -1;
}

/* The byte that an escape stands for, behind its backslash; -1 if it is none. */
static int escaped(const uint8_t *at, const uint8_t *end, size_t *length) {
    static const char FROM[] = "\"\\nrt", TO[] = "\"\\\n\r\t";
    const char *place = *at == '\0' ? NULL : strchr(FROM, *at);
    *length = place != NULL ? 1 : 3;
    if (place != NULL) return TO[place - FROM];
    if (*at != 'x' || end - at < 3) return -1;
    int high = hex_digit(at[1]), low = hex_digit(at[2]);
    return high < 0 || low < 0 ? -1 : 16 * high + low;
}

/* What stands between the quotes. */
static bool unquote(reader *r, buffer *out) {
    const uint8_t *at = r->text->at + r->word + 1, *end = r->text->at + r->word_end - 1;
    while (at < end) {
        size_t length = 1;
        int byte = *at == '\\' ? escaped(at + 1, end, &length) : *at;
        if (byte < 0) {
            r->word = (size_t)(at - r->text->at);
            return bad(r, "an escape is one of \\\" \\\\ \\n \\r \\t \\xHH");
        }
        append(out, &(uint8_t){(uint8_t)byte}, 1);
        at += *at == '\\' ? 1 + length : 1;
    }
    return true;
}

static bool take_quoted(reader *r, buffer *b) {
    buffer text = {0};
    if (!next_word(r) || !r->is_quoted) return bad(r, "a text between quotes is expected");
    bool fine = unquote(r, &text);
    if (fine && text.bytes > MOST_TEXT)
        fine = bad(r, "a text has at most 255 bytes, and this has %zu", text.bytes);
    if (fine) {
        uint8_t head[2] = {2, (uint8_t)text.bytes};
        append(b, head, 2);
        append(b, text.at, text.bytes);
    }
    drop(&text);
    return fine;
}

static bool take_raw(reader *r, buffer *b) {
    bool some = false;
    for (; next_word(r); some = true) {
        const uint8_t *at = r->text->at + r->word;
        int high = hex_digit(at[0]), low = r->word_end - r->word == 2 ? hex_digit(at[1]) : -1;
        if (high < 0 || low < 0) return bad(r, "a byte is expected, as two digits of base 16");
        append(b, &(uint8_t){(uint8_t)(16 * high + low)}, 1);
    }
    return some || bad(r, "bytes are expected, each as two digits of base 16");
}

static bool take_event(making *m) {
    reader *r = &m->reader;
    if (m->entries == 0) return bad(r, "a message is expected before its events");
    if (is_word(r, "start")) return take_node(r, &m->bodies, 1);
    if (is_word(r, "text")) return take_quoted(r, &m->bodies);
    if (is_word(r, "end")) return take_node(r, &m->bodies, 3);
    if (is_word(r, "bytes")) return take_raw(r, &m->bodies);
    return bad(r, "message, start, text, end or bytes is expected");
}

static bool take_day_line(making *m) {
    reader *r = &m->reader;
    spot here = spot_of(r);
    bool taken = is_word(r, "message") ? take_message(m) : take_event(m);
    if (!taken || !line_ends(r)) return false;
    fault f = found(8, 0, "with this line the file has more than 1,048,576 bytes");
    return 2 + m->contents.bytes + m->bodies.bytes < MOST_DAY_READ || bad_at(r, here, &f);
}

static void lay_out_day(making *m) {
    for (unsigned k = 0; k < m->entries; k++) {
        uint8_t *entry = (uint8_t *)m->contents.at + 8 * k;
        uint32_t from = four_bytes(entry);
        uint32_t to = k + 1 < m->entries ? four_bytes(entry + 8) : (uint32_t)m->bodies.bytes;
        buffer fields = {0};
        add_four(&fields, 2 + 8 * m->entries + from);
        add_four(&fields, to - from);
        memcpy(entry, fields.at, 8);
        drop(&fields);
    }
}

/* ---- The word ---------------------------------------------------------------------------- */

static int write_out(desk *d, const buffer *b) {
    if (d->words < 2) {
        if (isatty(fileno(d->out))) return fail(d, "name a file for the bytes: make TEXT FILE");
        fwrite(b->at, 1, b->bytes, d->out);
        return DONE;
    }
    FILE *to = fopen(d->word[1], "wb");
    bool is_written = to != NULL && fwrite(b->at, 1, b->bytes, to) == b->bytes;
    int why = errno;
    if (to != NULL && fclose(to) != 0 && is_written) {
        is_written = false;
        why = errno;
    }
    return is_written ? DONE : fail(d, "%s can't be written: %s", d->word[1], strerror(why));
}

static int finish(making *m, bool is_book) {
    buffer whole = {0};
    if (is_book)
        lay_out_book(m);
    else
        lay_out_day(m);
    add_two(&whole, m->entries);
    append(&whole, m->contents.at, m->contents.bytes);
    append(&whole, m->bodies.at, m->bodies.bytes);
    int status = is_book ? check_made_book(m, &whole) : DONE;
    if (status == DONE) status = write_out(m->reader.desk, &whole);
    drop(&whole);
    return status;
}

static int make_text(making *m) {
    reader *r = &m->reader;
    bool fine = next_line(r), is_book = fine && is_word(r, "book");
    fine = fine && (is_book || is_word(r, "day"));
    if (!fine) bad(r, "book or day is expected");
    fine = fine && line_ends(r);
    while (fine && next_line(r)) fine = is_book ? take_book_line(m) : take_day_line(m);
    return fine ? finish(m, is_book) : REFUSED;
}

int do_make(desk *d) {
    file text = {0};
    making *m = must(calloc(1, sizeof *m));
    int status = read_text_file(d, d->word[0], &text);
    m->reader = read_text(d, &text);
    if (status == DONE) status = make_text(m);
    drop(&m->contents);
    drop(&m->bodies);
    free(m);
    free(text.at);
    return status;
}
