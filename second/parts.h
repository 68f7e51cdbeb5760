/* What the parts of the comparison share: the dice and the case in the making. */
#ifndef SECOND_PARTS_H
#define SECOND_PARTS_H

#include "check.h"
#include "make.h"

extern dice luck;
extern unsigned percent; /* of the random inputs of a whole comparison */
extern test_case now;    /* the case in the making */
extern book_plan book;
extern day_plan day;

enum { MEMORY_COUNTS_END = 13 };
extern const uint64_t MEMORY_COUNTS[MEMORY_COUNTS_END];

unsigned times(unsigned whole); /* how often, if a whole comparison does so often */

/* Sizes with which the run is not refused, if the day file has its messages. */
void choose_sizes(void);
/* Writes out the plans as a run with good sizes. */
void plans_to_case(void);
/* The same, compares, and begins a new day. */
void check_day(void);
void spoil_answer(uint64_t *answer);
/* Lends slots as a run leaves them, with so many answers of a hundred spoilt. */
void lend_slots(unsigned spoilt);

void part_small(void);
void part_random(void);
void part_in_two(void);
void part_twins(void);
void part_odd(void);
void part_values(void);
void part_slots(void);
void part_large(void);
void part_damage(void);
void part_refusals(void);
void part_messages(void);
void part_limits(void);
void part_body(void);
void part_ask(void);
void part_pass(void);

#endif
