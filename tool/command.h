/* The desk's command, in parts. main.c calls `command`, which reads the words and
 * calls one of run, show, why, make and check; what these share is declared here,
 * in the order of the files that hold it.
 *
 * Everything is written to the streams of a desk and nothing ends the program but
 * a lack of memory, so that a test can make thousands of calls in one process. */
#ifndef TOOL_COMMAND_H
#define TOOL_COMMAND_H

#include <stdarg.h>
#include <stdbool.h>
#include <stddef.h>
#include <stdint.h>
#include <stdio.h>

#include "esquirmell.h"

/* Exit statuses. */
enum { DONE = 0, REFUSED = 1, FAILED = 2, SOME_REFUSED = 3, DIFFER = 4 };

enum {
    MOST_WORDS = 5,
    MOST_BOOK_READ = 524290, /* a longer book is refused as its first bytes are */
    MOST_DAY_READ = 1048577, /* a longer day file is refused by 8 */
    MOST_TEXT_READ = 1 << 28,
    MOST_FILTERS = 64,
    MOST_STATES = 512,
    MOST_OPEN = 64,
    LABELS = 65536,
    ANY_ELEMENT = 0,
    ANY_ATTRIBUTE = 32768
};

/* A row of bytes that grows. */
typedef struct {
    char *at;
    size_t bytes, room;
} buffer;

/* A file that was read, as far as its size matters. */
typedef struct {
    const char *name;
    uint8_t *at;
    size_t bytes;
} file;

/* Streams, options and words of one call. */
typedef struct {
    FILE *in, *out, *err;
    bool json, strict, memory, as_book, as_day, all;
    bool in_taken; /* standard input has been read */
    const char *names_path;
    char **name;     /* of each label, or null; a null table if no names were given */
    uint32_t *named; /* the labels, by the hash of their names */
    const char *word[MOST_WORDS];
    unsigned words;
} desk;

/* ---- input.c: files, numbers, names ------------------------------------- */

void *must(void *room);
void say(desk *d, const char *head, const char *form, va_list rest, const char *tail)
    __attribute__((format(printf, 3, 0)));
int fail(desk *d, const char *form, ...) __attribute__((format(printf, 2, 3)));
int read_file(desk *d, const char *path, size_t most, file *out);
int read_text_file(desk *d, const char *path, file *out);
int read_book_and_day(desk *d, file *book, file *day);
bool is_number(const char *word, uint64_t most, uint64_t *out);
int read_slots(desk *d, unsigned at, size_t *slots);
int read_names(desk *d);
void drop_names(desk *d);
unsigned label_of(const desk *d, bool of_attribute, const uint8_t *name, size_t bytes); /* or 0 */

/* ---- output.c: growing rows of bytes, labels, texts, JSON --------------- */

void add(buffer *b, const char *form, ...) __attribute__((format(printf, 2, 3)));
void append(buffer *b, const void *from, size_t bytes);
void add_label(buffer *b, const desk *d, unsigned label);
void add_quoted(buffer *b, const uint8_t *text, size_t bytes);
void add_hex(buffer *b, const uint8_t *from, size_t bytes);
void put(const desk *d, buffer *b); /* to standard output, and empties it */
void drop(buffer *b);
bool is_utf8(const uint8_t *text, size_t bytes);
void json_string(buffer *b, const char *text, size_t bytes);
/* Each of these has a comma before it; the second empties the words. */
void json_field(buffer *b, const char *name, const char *text);
void json_built(buffer *b, const char *name, buffer *words);

/* ---- book.c and day.c: the bytes, and where they are wrong --------------- */

enum { TRUE_KIND, LEAF_KIND, AND_KIND, OR_KIND, NOT_KIND, STEP_KIND, KINDS };

/* A state; its successors are numbered in its body. */
typedef struct {
    unsigned kind, relation, label, first, second;
    int32_t constant;
} state;

/* What the command itself finds wrong with a book or a day file, in the order of
 * the refusals. The verdict is the proved library's: this only says where. */
typedef struct {
    unsigned number; /* 0 if nothing is wrong */
    size_t byte;
    bool has_filter, has_state, has_message;
    uint32_t id;
    unsigned filter, state, message;
    char cause[160];
} fault;

unsigned two_bytes(const uint8_t *at);
uint32_t four_bytes(const uint8_t *at);
fault found(unsigned number, size_t byte, const char *form, ...)
    __attribute__((format(printf, 3, 4)));

uint32_t filter_id(const uint8_t *book, unsigned filter);
unsigned filter_start(const uint8_t *book, unsigned filter);
unsigned filter_states(const uint8_t *book, unsigned filter);
unsigned states_before(const uint8_t *book, unsigned filter);
state state_at(const uint8_t *bytes);
const char *kind_name(unsigned kind);
const char *relation_sign(unsigned relation);
void add_state(buffer *b, const desk *d, state s);
fault book_fault(const uint8_t *book, size_t bytes);

size_t message_start(const uint8_t *day, unsigned message);
size_t message_bytes(const uint8_t *day, unsigned message);
fault day_fault(const uint8_t *day, size_t bytes);

/* ---- message.c: a message as a tree -------------------------------------- */

enum value_kind { NO_TEXT, NO_NUMBER, NUMBER, OUT_OF_RANGE };
enum { ROOT = 0, NONE = 0 }; /* the root is nobody's child, so 0 also says "none" */

typedef struct {
    unsigned label;
    uint32_t parent, first, last, next;
    uint32_t rank, alike; /* among its parent's children with its label; how many there are */
    size_t place, text;   /* of its start, and of its text's bytes */
    unsigned text_bytes;
    bool has_child;
    enum value_kind value;
    int64_t number;
} node;

typedef struct {
    const uint8_t *body;
    size_t bytes;
    node *node;         /* node[0] is the root, the others in the order of their starts */
    uint32_t nodes, at; /* at: the innermost open node, the root if nothing is open */
    unsigned open;
    unsigned refusal; /* 0 if the message is read */
    size_t place;
    const char *cause;
} tree;

size_t event_bytes(const uint8_t *at, size_t left); /* 0 if no whole event stands there */
bool is_attribute(unsigned label);
tree read_message(const uint8_t *body, size_t bytes);
void drop_tree(tree *t);
void add_path(buffer *b, const desk *d, const tree *t, uint32_t at);
void add_event(buffer *b, const desk *d, const uint8_t *at, size_t bytes, bool is_whole);
/* Where a message is refused: the event there, and what may stand in its place. */
void add_refused_event(buffer *b, const desk *d, const tree *t);
void add_allowed(buffer *b, const desk *d, const tree *t);

/* ---- match.c: the match rule on a tree ----------------------------------- */

/* Which states of one filter match which nodes. */
typedef struct {
    const tree *tree;
    const uint8_t *body;
    unsigned states;
    uint8_t *holds, *said; /* a bit for each node and state; said: it was explained */
} table;

table match(const tree *t, const uint8_t *body, unsigned states);
void drop_table(table *m);
bool has_bit(const table *m, const uint8_t *bits, uint32_t at, unsigned k);
void set_bit(const table *m, uint8_t *bits, uint32_t at, unsigned k);
bool label_fits(unsigned wanted, unsigned label);
bool in_relation(int64_t value, unsigned relation, int64_t constant);

/* ---- proved.c: the proved library's answers, and refusals in words ------- */

/* A run with room for every message. Its areas stand until the next run. */
typedef struct {
    esq_total total;
    unsigned messages;
    const uint64_t *answers, *memory;
} outcome;

outcome proved_run(const file *book, const file *day, size_t slots);
unsigned proved_book(const file *book);
outcome proved_day(const file *day);
/* The ids of a row's filters, with these words before the first and the others. */
void add_ids(buffer *b, const file *book, uint64_t filters, const char *first, const char *between);
const char *words_of(uint64_t refusal);
/* Each of these adds a line's end. */
void add_verdict(buffer *b, const char *name, const char *what, uint64_t refusal);
void add_place(buffer *b, const char *name, const fault *f);
void add_message_verdict(buffer *b, const file *day, unsigned message, const uint64_t *row);
/* What the run says of a refused book or day file, on standard error. */
int say_refused_run(desk *d, const file *book, const file *day, uint64_t refusal);
/* Says loudly that the proved library and the command's own reading part: DIFFER. */
int differ(desk *d, const char *form, ...) __attribute__((format(printf, 2, 3)));
/* DONE if both give a file, or a message, the same refusal; or DIFFER, loudly. */
int agree(desk *d, const file *f, uint64_t proved, const fault *own);
int agree_on_message(desk *d, const file *day, unsigned message, const uint64_t *row,
                     const tree *t);

/* ---- text.c: reading a text, line by line and word by word --------------- */

/* Where a text is being read. Words end at blanks; `#` begins a remark. */
typedef struct {
    desk *desk;
    const file *text;
    size_t at, line_start;
    unsigned line;
    size_t word, word_end; /* the last word taken */
    bool is_new;           /* no line has been taken */
    bool is_quoted;        /* the last word is a text between quotes */
    bool is_bad;           /* something was said of it */
} reader;

reader read_text(desk *d, const file *text);
bool next_line(reader *r); /* goes on to the next line that has a word */
bool next_word(reader *r); /* takes the next word of the line, if there is one */
bool is_word(const reader *r, const char *word);
bool word_number(const reader *r, int64_t least, int64_t most, int64_t *out);
bool bad(reader *r, const char *form, ...) __attribute__((format(printf, 2, 3))); /* false */
bool line_ends(reader *r);

/* ---- the words of the command --------------------------------------------- */

int command(int count, char **word, FILE *in, FILE *out, FILE *err);
int do_run(desk *d);
int do_show(desk *d);
int do_why(desk *d);
int do_make(desk *d);
int do_check(desk *d);
/* Whether a file is to be taken for a book or a day file; false if nothing tells. */
bool tell_kind(const desk *d, const file *f, bool *is_book);

#endif
