/* The second engine. It is written from the paper alone and shares no file,
 * table or generator with the engine that it is compared with. */
#ifndef SECOND_ENGINE_H
#define SECOND_ENGINE_H

#include <stddef.h>
#include <stdint.h>

typedef struct {
    uint64_t refusal, asked, anew, filled;
} esq_result;
typedef struct {
    uint64_t start, length;
} esq_part;
typedef struct {
    uint64_t refusal, anew, filled;
} esq_reply;

/* The whole run. */
esq_result second_run(const uint8_t *book, size_t book_len, const uint8_t *day, size_t day_len,
                      uint64_t *memory, size_t memory_len, uint64_t *answers, size_t answers_len,
                      uint64_t *workspace, size_t workspace_len);

/* Where a filter's body stands in the book; 0 and 0 if there is none. */
void second_filter_body(const uint8_t *book, size_t book_len, uint32_t id, uint64_t *start,
                        uint64_t *length);

/* The inner call: one question (set of eight, label), from any filled slots. */
esq_reply second_ask(const uint8_t *book, size_t book_len, uint64_t *memory, size_t memory_len,
                     uint64_t filled, uint64_t anew, const uint64_t *question, size_t question_len,
                     uint64_t *answer, size_t answer_len);

/* The pass over the messages, from any filled slots and counts. */
esq_result second_pass(const uint8_t *book, size_t book_len, const uint8_t *day, size_t day_len,
                       uint64_t *memory, size_t memory_len, uint64_t *answers, size_t answers_len,
                       uint64_t *workspace, size_t workspace_len, uint64_t asked, uint64_t anew,
                       uint64_t filled);

#endif
