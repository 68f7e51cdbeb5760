/* Stands in the library's place, to see what a program lends and what it makes of
 * any result. It reads every byte that it is handed and writes every number that
 * is lent, so a count that is not true is found by the compiler's sanitizers. A book
 * of two bytes is the run's refusal, and message k, counted from 1, is refused by k
 * at place 2k + 1; with a longer book every message is read and has no filter. The
 * counts say what is lent: asked the memory's numbers, anew those of the answers,
 * filled those of the workspace. */
#include <string.h>

#include "esquirmell.h"

static unsigned sum_of(const uint8_t *bytes, size_t count) {
    unsigned sum = 0;
    for (size_t k = 0; k < count; k++) sum += bytes[k];
    return sum;
}

esq_total esquirmell_run(const uint8_t *book, size_t book_bytes, const uint8_t *day,
                         size_t day_bytes, uint64_t *memory, size_t memory_numbers,
                         uint64_t *answers, size_t answers_numbers, uint64_t *workspace,
                         size_t workspace_numbers) {
    memset(memory, sum_of(book, book_bytes) & 0xFF, memory_numbers * sizeof *memory);
    memset(answers, 0, answers_numbers * sizeof *answers);
    memset(workspace, sum_of(day, day_bytes) & 0xFF, workspace_numbers * sizeof *workspace);
    unsigned messages = book_bytes == 2 ? day[0] | day[1] << 8 : 0;
    for (unsigned k = 0; k < messages; k++) {
        answers[ESQ_ROW_NUMBERS * k] = k + 1;
        answers[ESQ_ROW_NUMBERS * k + 1] = 2 * (k + 1) + 1;
    }
    esq_total total;
    total.refusal = book_bytes == 2 ? book[0] | book[1] << 8 : 0;
    total.asked = memory_numbers;
    total.anew = answers_numbers;
    total.filled = workspace_numbers;
    return total;
}
