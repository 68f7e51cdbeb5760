/* The proved engine, and a loop that only reads the events: what any engine must do. */
#include "bench.h"

esq_total proved_run(const filter_book *book, const day_file *day, size_t slots, lent_areas *lent) {
    return esquirmell_run(
        book->bytes, book->length, day->bytes, day->length, lent->memory, ESQ_SLOT_NUMBERS * slots,
        lent->answers, ESQ_ROW_NUMBERS * ESQ_MOST_MESSAGES, lent->workspace, ESQ_WORKSPACE_NUMBERS);
}

uint64_t read_events(const day_file *day) {
    const uint8_t *at = day->bytes + 2 + 8 * day->messages, *end = day->bytes + day->length;
    uint64_t starts = 0;
    while (at < end) {
        starts += at[0] == 1;
        at += at[0] == 2 ? 2 + (size_t)at[1] : 3;
    }
    return starts;
}

/* The second engine is declared here and not by its own header, which names its
 * results as the library's header does; on x86-64 they are the same. */
esq_total second_run(const uint8_t *book, size_t book_bytes, const uint8_t *day, size_t day_bytes,
                     uint64_t *memory, size_t memory_numbers, uint64_t *answers,
                     size_t answers_numbers, uint64_t *workspace, size_t workspace_numbers);

esq_total second_engine_run(const filter_book *book, const day_file *day, size_t slots,
                            lent_areas *lent) {
    return second_run(book->bytes, book->length, day->bytes, day->length, lent->memory,
                      ESQ_SLOT_NUMBERS * slots, lent->answers, ESQ_ROW_NUMBERS * ESQ_MOST_MESSAGES,
                      lent->workspace, ESQ_WORKSPACE_NUMBERS);
}
