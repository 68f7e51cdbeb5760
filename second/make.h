/* Makes books, messages and day files: valid ones from a small alphabet, so that
 * filters become true often, and ones with a chosen thing wrong in them. */
#ifndef SECOND_MAKE_H
#define SECOND_MAKE_H

#include "case.h"

typedef struct {
    uint64_t at;
} dice;

uint64_t roll(dice *d);
unsigned below(dice *d, unsigned end); /* 0 to end - 1 */
unsigned from_to(dice *d, unsigned low, unsigned high);
bool chance(dice *d, unsigned percent);

enum { TRUE_ROW, LEAF_ROW, AND_ROW, OR_ROW, NOT_ROW, STEP_ROW, ROWS };
enum { PLAN_FILTERS = 72, PLAN_STATES = 640, PLAN_MESSAGES = 4200 };

/* A book before it is written out, right or with something wrong. */
typedef struct {
    unsigned filters, states;
    uint32_t id[PLAN_FILTERS];
    unsigned n[PLAN_FILTERS];
    int start_off[PLAN_FILTERS];   /* added to the start that is right */
    uint8_t state[PLAN_STATES][8]; /* all bodies, one after the other */
    int tail;                      /* bytes too many, or too few if negative */
    size_t cut;                    /* the book is cut to this length */
} book_plan;

void new_book(book_plan *p);
void new_filter(book_plan *p, uint32_t id);
void add_leaf(book_plan *p, unsigned relation, int32_t constant);
void add_row(book_plan *p, unsigned kind, unsigned at_2, unsigned at_4);
void write_book(const book_plan *p, bytes *out);
/* The plan of a well-formed book, for making it smaller; false if it is not. */
bool plan_of_book(const bytes *book, book_plan *p);
void drop_filter(book_plan *p, unsigned filter);

void make_filter(dice *d, book_plan *p);                /* a filter of the railway */
void make_soup(dice *d, book_plan *p, unsigned states); /* any states that are allowed */
void make_book(dice *d, book_plan *p);
/* Fills up with filters to exactly so many states. */
void fill_book(dice *d, book_plan *p, unsigned filters, unsigned states);
/* Gives the book what refusal 1 to 7 stands for. It must have 3 filters or more. */
void spoil_book(dice *d, book_plan *p, unsigned refusal);

/* A message's tree before it is written out. */
enum { PLAN_NODES = 48 };
typedef struct {
    unsigned nodes;
    struct {
        unsigned label, parent;
        int text_len; /* -1 if there is no text */
        uint8_t text[255];
    } node[PLAN_NODES];
} message_plan;

void make_message(dice *d, message_plan *p);
/* With dice, attributes and child elements are written in some other order. */
void write_message(const message_plan *p, bytes *out, dice *order);
unsigned choose_label(dice *d, bool element);
size_t choose_text(dice *d, uint8_t *text); /* never a whole number out of range */
void add_start(bytes *out, unsigned label);
void add_text(bytes *out, const void *text, size_t len);
void add_end(bytes *out, unsigned label);
/* The length of the event at this place, were it whole. */
size_t event_size(const uint8_t *at, size_t left);

typedef struct {
    unsigned messages;
    uint32_t length[PLAN_MESSAGES];
    bytes bodies;
    size_t ended;              /* bytes of the bodies that belong to a message */
    int start_off, length_off; /* at message `off_at` */
    unsigned off_at;
    int tail;
    size_t cut, pad_to;
} day_plan;

void new_day(day_plan *p);
void end_message(day_plan *p); /* what was added to the bodies since is a message */
void write_day(const day_plan *p, bytes *out);
bool plan_of_day(const bytes *day, day_plan *p);
void make_day(dice *d, day_plan *p, unsigned messages);
/* Gives the day what refusal 8, 9 or 10 stands for. */
void spoil_day(dice *d, day_plan *p, unsigned refusal);
/* Alters some bytes: other values, bytes left out, bytes put in. */
void damage(dice *d, bytes *b, size_t from);

/* The paper's small book and small day, and what they are made of. */
void small_book(book_plan *p);
void small_day(day_plan *p);
void add_call(day_plan *p, const char *late);
void add_service(day_plan *p, bool with_day, unsigned calls, const char *one, const char *other);

#endif
