/* Puts the second engine in the place of the engine under test, so that the
 * comparison can be tried on itself and on copies with a fault put in
 * (faults.py). It is never part of a comparison with the real engine. */
#define second_run shim_run
#define second_filter_body shim_filter_body
#define second_ask shim_ask
#define second_pass shim_pass
#include "engine.c"
#include "under_test.h"

esq_result esquirmell_run(const uint8_t *book_bytes, size_t book_len, const uint8_t *day,
                          size_t day_len, uint64_t *memory, size_t memory_len, uint64_t *answers,
                          size_t answers_len, uint64_t *workspace, size_t workspace_len) {
    return shim_run(book_bytes, book_len, day, day_len, memory, memory_len, answers, answers_len,
                    workspace, workspace_len);
}

esq_part esquirmell_filter_body(const uint8_t *book_bytes, size_t book_len, uint32_t id) {
    esq_part part;
    shim_filter_body(book_bytes, book_len, id, &part.start, &part.length);
    return part;
}

esq_reply esquirmell_ask(const uint8_t *book_bytes, size_t book_len, uint64_t *memory,
                         size_t memory_len, uint64_t filled, uint64_t anew, const uint64_t *asked,
                         size_t asked_len, uint64_t *answer, size_t answer_len) {
    return shim_ask(book_bytes, book_len, memory, memory_len, filled, anew, asked, asked_len,
                    answer, answer_len);
}

esq_result esquirmell_pass(const uint8_t *book_bytes, size_t book_len, const uint8_t *day,
                           size_t day_len, uint64_t *memory, size_t memory_len, uint64_t *answers,
                           size_t answers_len, uint64_t *workspace, size_t workspace_len,
                           uint64_t asked, uint64_t anew, uint64_t filled) {
    return shim_pass(book_bytes, book_len, day, day_len, memory, memory_len, answers, answers_len,
                     workspace, workspace_len, asked, anew, filled);
}
