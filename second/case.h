/* A case is all the arguments of one public call and the contents of everything
 * lent to it. An outcome is the call's result and the contents afterwards. */
#ifndef SECOND_CASE_H
#define SECOND_CASE_H

#include "under_test.h"

#include <stdbool.h>
#include <stdio.h>

enum {
    SET_NUMBERS = 8,
    QUESTION_NUMBERS = 9,
    SLOT_NUMBERS = 17,
    LEVEL_NUMBERS = 650, /* what the workspace must have */
    SLOTS_AT_MOST = 4096,
    STATES_AT_MOST = 512,
    DAY_AT_MOST = 1048576,
    GUARD = 24, /* numbers before and after everything lent */
    FEW = 16    /* room for a question or an answer of a wrong count */
};

typedef struct {
    uint8_t *at;
    size_t len, room;
} bytes;
typedef struct {
    uint64_t *at;
    size_t len, room;
} numbers;

enum call { CALL_RUN, CALL_BODY, CALL_ASK, CALL_PASS, CALLS };
extern const char *const CALL_NAME[CALLS];

typedef struct {
    enum call call;
    bytes book, day;
    uint64_t memory, answers, workspace; /* counts lent */
    uint64_t seed;                       /* of the noise in everything lent */
    numbers slots;                       /* in front of the memory, instead of noise */
    uint64_t asked, anew, filled;        /* counts handed to the inner call and the pass */
    uint64_t id;                         /* of the filter whose body is wanted */
    uint64_t question[FEW], question_len, answer_len;
} test_case;

enum lent { MEMORY, ANSWERS, WORKSPACE, ANSWER, LENT };
extern const char *const LENT_NAME[LENT];

typedef struct {
    uint64_t result[4]; /* result, part or reply, in the order of its fields */
    numbers lent[LENT]; /* each with GUARD numbers before and after it */
    bool inputs_kept;   /* book, day and question are what they were */
} outcome;

typedef struct {
    esq_result (*run)(const uint8_t *, size_t, const uint8_t *, size_t, uint64_t *, size_t,
                      uint64_t *, size_t, uint64_t *, size_t);
    esq_part (*body)(const uint8_t *, size_t, uint32_t);
    esq_reply (*ask)(const uint8_t *, size_t, uint64_t *, size_t, uint64_t, uint64_t,
                     const uint64_t *, size_t, uint64_t *, size_t);
    esq_result (*pass)(const uint8_t *, size_t, const uint8_t *, size_t, uint64_t *, size_t,
                       uint64_t *, size_t, uint64_t *, size_t, uint64_t, uint64_t, uint64_t);
} engine;

extern const engine SECOND_ENGINE, ENGINE_UNDER_TEST;

void add_byte(bytes *b, unsigned byte);
void add_two(bytes *b, unsigned number);
void add_four(bytes *b, uint32_t number);
void add_bytes(bytes *b, const void *from, size_t len);
void add_number(numbers *n, uint64_t number);
unsigned get_two(const uint8_t *at);
uint32_t get_four(const uint8_t *at);

uint64_t mix(uint64_t *state); /* the next of a repeatable row of numbers */

test_case copy_case(const test_case *c);
void drop_case(test_case *c);

/* The numbers of one kind that a case lends, and their contents before the call. */
uint64_t lent_count(const test_case *c, enum lent which);
void before(const test_case *c, enum lent which, numbers *out);

void call_engine(const engine *e, const test_case *c, outcome *out);
bool same_outcome(const outcome *a, const outcome *b);

void drop_outcome(outcome *o);

/* The numbers lent, without their guards. */
const uint64_t *contents(const outcome *o, enum lent which);

void print_case(FILE *to, const test_case *c);
void print_outcome(FILE *to, const test_case *c, const outcome *o);
/* Reads what print_case wrote, up to the outcome's first line. */
bool read_case(FILE *from, test_case *c);

#endif
