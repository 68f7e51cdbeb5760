/* Gives a case to both engines and compares; notes what has been covered. */
#ifndef SECOND_CHECK_H
#define SECOND_CHECK_H

#include "case.h"

/* Quickly: no large day, and a disagreement is printed as it stands. */
typedef struct {
    bool quick;
    unsigned seconds_a_call;
} manner;

/* The parts of a comparison. Each says that it begins, and each must compare something. */
enum part {
    PART_SMALL,
    PART_RANDOM,
    PART_MESSAGES,
    PART_VALUES,
    PART_REFUSALS,
    PART_PASS,
    PART_ASK,
    PART_IN_TWO,
    PART_BODY,
    PART_ODD,
    PART_TWINS,
    PART_DAMAGE,
    PART_LIMITS,
    PART_SLOTS,
    PART_LARGE,
    PARTS
};

void begin(enum part p);

void start_checks(manner m);

/* Compares the engines on a case; a disagreement is printed and ends the program.
 * What the second engine gave can be read until the next check. */
const outcome *check(const test_case *c);
/* The same, and the paper itself says which refusal must come. */
const outcome *check_gives(const test_case *c, uint64_t refusal);
/* The same for one message's refusal and place, in a run that is not refused. */
const outcome *check_row(const test_case *c, unsigned message, uint64_t refusal, uint64_t place);
/* What the engine under test gave to the last check. */
const outcome *last_under_test(void);
/* Ends the program because of something that is wrong in itself. */
void complain(const test_case *c, const char *what);

void print_table(void);
bool all_covered(void);
void print_counts(const char *how);

#endif
