/* How much stack a call takes: each call runs on a stack of its own that was
 * painted first, and what is no longer paint afterwards was used.
 *   stack BOOK DAY */
#define _GNU_SOURCE
#include <stdio.h>
#include <stdlib.h>
#include <string.h>
#include <ucontext.h>

#include "esquirmell.h"

enum { STACK = 1 << 20, PAINT = 0xA5, SLOTS = 4096 };

static struct {
    uint8_t *book, *day;
    size_t book_bytes, day_bytes;
    uint64_t *memory, *answers, *workspace;
    uint64_t refusal;
} lent;

static void nothing(void) { lent.refusal = 0; }

static void run(void) {
    lent.refusal =
        esquirmell_run(lent.book, lent.book_bytes, lent.day, lent.day_bytes, lent.memory,
                       ESQ_SLOT_NUMBERS * SLOTS, lent.answers, ESQ_ROW_NUMBERS * ESQ_MOST_MESSAGES,
                       lent.workspace, ESQ_WORKSPACE_NUMBERS)
            .refusal;
}

static void pass(void) {
    lent.refusal =
        esquirmell_pass(lent.book, lent.book_bytes, lent.day, lent.day_bytes, lent.memory,
                        ESQ_SLOT_NUMBERS * SLOTS, lent.answers, ESQ_ROW_NUMBERS * ESQ_MOST_MESSAGES,
                        lent.workspace, ESQ_WORKSPACE_NUMBERS, 0, 0, 0)
            .refusal;
}

static void ask(void) {
    uint64_t question[ESQ_QUESTION_NUMBERS] = {0}, answer[ESQ_ANSWER_NUMBERS] = {0};
    question[8] = 1;
    lent.refusal = esquirmell_ask(lent.book, lent.book_bytes, lent.memory, ESQ_SLOT_NUMBERS * SLOTS,
                                  0, 0, question, ESQ_QUESTION_NUMBERS, answer, ESQ_ANSWER_NUMBERS)
                       .refusal;
}

static void filter_body(void) {
    lent.refusal = esquirmell_filter_body(lent.book, lent.book_bytes, 10).length == 0;
}

static void call_on(uint8_t *stack, void (*call)(void)) {
    static ucontext_t here, there;
    getcontext(&there);
    there.uc_stack.ss_sp = stack;
    there.uc_stack.ss_size = STACK;
    there.uc_link = &here;
    makecontext(&there, call, 0);
    swapcontext(&here, &there);
}

static void measure(const char *name, void (*call)(void)) {
    uint8_t *stack = malloc(STACK);
    size_t paint = 0;
    if (stack == NULL) abort();
    memset(stack, PAINT, STACK);
    call_on(stack, call);
    while (paint < STACK && stack[paint] == PAINT) paint++;
    printf("%-24s %6zu bytes of stack, refusal %d\n", name, (size_t)STACK - paint,
           (int)lent.refusal);
    free(stack);
}

static uint8_t *whole_file(const char *path, size_t *bytes) {
    FILE *file = fopen(path, "rb");
    uint8_t *room = malloc(1 << 21);
    if (file == NULL || room == NULL) {
        fprintf(stderr, "%s can't be read\n", path);
        exit(2);
    }
    *bytes = fread(room, 1, 1 << 21, file);
    fclose(file);
    return room;
}

int main(int count, char **word) {
    if (count != 3) {
        fprintf(stderr, "stack BOOK DAY\n");
        return 2;
    }
    lent.book = whole_file(word[1], &lent.book_bytes);
    lent.day = whole_file(word[2], &lent.day_bytes);
    lent.memory = calloc(ESQ_SLOT_NUMBERS * SLOTS, 8);
    lent.answers = calloc(ESQ_ROW_NUMBERS * ESQ_MOST_MESSAGES, 8);
    lent.workspace = calloc(ESQ_WORKSPACE_NUMBERS, 8);
    if (lent.memory == NULL || lent.answers == NULL || lent.workspace == NULL) return 2;
    measure("nothing", nothing);
    measure("esquirmell_run", run);
    measure("esquirmell_pass", pass);
    measure("esquirmell_ask", ask);
    measure("esquirmell_filter_body", filter_body);
    return 0;
}
