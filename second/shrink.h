/* Makes a case smaller as long as the engines still disagree about it. */
#ifndef SECOND_SHRINK_H
#define SECOND_SHRINK_H

#include "case.h"

void shrink(test_case *c, bool (*differs)(const test_case *));

#endif
