/* The hand-chosen cases whose results are stored. */
#ifndef SECOND_HAND_H
#define SECOND_HAND_H

#include "case.h"

/* `gives` is the result, and `rows` the rows of the messages (or the inner call's
 * answer), where they were worked out by hand from the paper; NULL where not. */
typedef void case_user(const char *name, const test_case *c, const char *gives, const char *rows);

void each_case(case_user *use);

#endif
