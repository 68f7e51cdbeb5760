/* The public calls of the engine under test, as a C program sees them. A slice
 * is a pointer and a count, and results come back by value. */
#ifndef SECOND_UNDER_TEST_H
#define SECOND_UNDER_TEST_H

#include "engine.h"

esq_result esquirmell_run(const uint8_t *book, size_t book_len, const uint8_t *day, size_t day_len,
                          uint64_t *memory, size_t memory_len, uint64_t *answers,
                          size_t answers_len, uint64_t *workspace, size_t workspace_len);
esq_part esquirmell_filter_body(const uint8_t *book, size_t book_len, uint32_t id);
esq_reply esquirmell_ask(const uint8_t *book, size_t book_len, uint64_t *memory, size_t memory_len,
                         uint64_t filled, uint64_t anew, const uint64_t *question,
                         size_t question_len, uint64_t *answer, size_t answer_len);
esq_result esquirmell_pass(const uint8_t *book, size_t book_len, const uint8_t *day, size_t day_len,
                           uint64_t *memory, size_t memory_len, uint64_t *answers,
                           size_t answers_len, uint64_t *workspace, size_t workspace_len,
                           uint64_t asked, uint64_t anew, uint64_t filled);

#endif
