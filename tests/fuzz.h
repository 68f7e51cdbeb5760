/* What the parts of the command's fuzz share. Inputs, and all that is held of them,
 * come from fuzz_inputs.c, which knows the second engine and its generators;
 * command_fuzz.c makes the calls. The two sides have types of the same names, so
 * there are plain ones alone here. */
#ifndef TESTS_FUZZ_H
#define TESTS_FUZZ_H

#include <stdbool.h>
#include <stddef.h>
#include <stdint.h>

enum {
    FUZZ_FILTERS = 64,
    FUZZ_MESSAGES = 4096,
    FUZZ_SLOTS = 4096,
    FUZZ_SLOT_NUMBERS = 17,
    FUZZ_LABELS = 65536
};

/* How an input was made. Its seed says which: in a row of FUZZ_TURNS seeds each
 * refusal of a book, a day file and a message has its turn. */
enum made { VALID, BAD_BOOK, BAD_DAY, BAD_MESSAGES, DAMAGED, NOISE, VALUES, LARGE, MADE_WAYS };
enum { FUZZ_TURNS = 38 };

typedef struct {
    const uint8_t *at;
    size_t bytes;
    unsigned refusal; /* 0 if it is accepted */
    size_t low, high; /* a fault must be told to be from byte `low` to byte `high` */
} fuzz_file;

typedef struct {
    uint64_t seed;
    enum made made;
    fuzz_file book, day;
    const char *slots_word; /* empty if none is given */
    unsigned slots;
    unsigned refusal; /* of the run */
    uint64_t asked, anew, filled;
    unsigned filters, messages; /* 0 if the book, or the day file, is refused */
    uint32_t id[FUZZ_FILTERS];
    size_t start[FUZZ_MESSAGES], length[FUZZ_MESSAGES];
    uint64_t row[3 * FUZZ_MESSAGES]; /* refusal, place and filters of each message */
    uint64_t memory[FUZZ_SLOT_NUMBERS * FUZZ_SLOTS];
    bool label[FUZZ_LABELS]; /* those in states and events */
} fuzz_input;

void fuzz_make(uint64_t seed, fuzz_input *i);
unsigned fuzz_below(unsigned end); /* from the input's dice */
bool fuzz_chance(unsigned percent);
unsigned fuzz_book_refusal(const uint8_t *book, size_t bytes);
unsigned fuzz_day_refusal(const uint8_t *day, size_t bytes);
/* The filter, and in a body the state, that has this byte of a book whose contents
 * are whole; false if none has it. `state` is -1 in the contents. */
bool fuzz_filter_of(const fuzz_file *book, size_t byte, uint32_t *id, int *state);

/* ---- fuzz_json.c ------------------------------------------------------------ */

/* Whether a text is one line of well-formed JSON. */
bool is_json_line(const char *text, size_t bytes);

/* ---- fuzz_calls.c: a call of the command, and what it gave ------------------- */

typedef struct {
    int status;
    char *out, *err; /* each with a 0 behind it */
    size_t out_bytes, err_bytes;
} fuzz_answer;

extern fuzz_answer said; /* of the last call */
extern uint64_t calls, statuses[5];

void begin_calls(void);
void begin_input(uint64_t seed);
/* What the next call finds on standard input. */
void give_input(const char *text, size_t bytes);
/* The words end with a null pointer; empty ones are left out. */
void call(const char *word, ...);
void call_words(const char *const *word, unsigned count);
/* Each of these ends the program if something else was said. */
_Noreturn void wrong(const char *form, ...) __attribute__((format(printf, 1, 2)));
void want_status(int status);
void want_no_out(void);
void want_out(const char *text, size_t bytes);
void want_json(void);
/* Each line of the text begins with the line of `heads` in its place. */
void want_heads(const char *text, const char *heads);
/* The lines of a text that begin so; a string to be freed. */
char *lines_with(const char *text, const char *head);

/* ---- fuzz_words.c: calls with wrong words -------------------------------------- */

void fuzz_words(const fuzz_input *i, const char *book, const char *day);

#endif
