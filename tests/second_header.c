/* Compiles only if the declarations for callers, include/esquirmell.h, and those for
 * the comparison, second/under_test.h, are the same. */
#define esq_result second_total
#define esq_reply second_reply
#define esq_part second_part
#include "engine.h"
#undef esq_result
#undef esq_reply
#undef esq_part

#include "esquirmell.h"

/* The calls, declared once more with the header's results: one with other parameters is refused. */
#define esq_result esq_total
#include "under_test.h"

#define WIDTH(type, field) sizeof(((type *)0)->field)
#define SAME_SIZE(ours, theirs)                                                                    \
    _Static_assert(sizeof(ours) == sizeof(theirs), #ours " has another size in second/engine.h")
#define SAME_PLACE(ours, theirs, field)                                                            \
    _Static_assert(offsetof(ours, field) == offsetof(theirs, field) &&                             \
                       WIDTH(ours, field) == WIDTH(theirs, field),                                 \
                   #ours "." #field " stands elsewhere in second/engine.h")

SAME_SIZE(esq_total, second_total);
SAME_PLACE(esq_total, second_total, refusal);
SAME_PLACE(esq_total, second_total, asked);
SAME_PLACE(esq_total, second_total, anew);
SAME_PLACE(esq_total, second_total, filled);
SAME_SIZE(esq_reply, second_reply);
SAME_PLACE(esq_reply, second_reply, refusal);
SAME_PLACE(esq_reply, second_reply, anew);
SAME_PLACE(esq_reply, second_reply, filled);
SAME_SIZE(esq_part, second_part);
SAME_PLACE(esq_part, second_part, start);
SAME_PLACE(esq_part, second_part, length);
