/* See check.h. */
#define _DEFAULT_SOURCE
#include "check.h"
#include "shrink.h"

#include <inttypes.h>
#include <setjmp.h>
#include <signal.h>
#include <stdlib.h>
#include <string.h>
#include <unistd.h>

static manner how;
static outcome by_second, by_other;
static uint64_t cases, messages, questions;

static const char *const PART_NAME[PARTS] = {"small", "random", "messages", "values", "refusals",
                                             "pass",  "ask",    "in two",   "body",   "odd",
                                             "twins", "damage", "limits",   "slots",  "large"};
static enum part part;
static uint64_t compared[PARTS];

void begin(enum part p) { part = p; }

/* ---- What has been covered --------------------------------------------------- */

enum { NUMBERS_END = 32 };
static uint64_t refused[CALLS][NUMBERS_END], rows[NUMBERS_END];

enum situation {
    RUN_WITHOUT_SLOTS,
    RUN_SLOTS_LEFT,
    RUN_JUST_FULL,
    RUN_OVERFULL,
    RUN_4096_FILLED,
    RUN_MORE_LENT,
    RUN_KEPT_ANSWER_USED,
    RUN_PLAUSIBLE_SLOTS,
    ASK_FIRST_SLOT,
    ASK_LATER_SLOT,
    ASK_TWO_SLOTS,
    ASK_WRONG_ANSWER,
    ASK_UNFILLED_SLOT,
    ASK_KEPT,
    ASK_LAST_SLOT_KEPT,
    ASK_FULL,
    ASK_WITHOUT_SLOTS,
    ASK_OTHER_STATES,
    ASK_PAST_STATES,
    ASK_NO_NODES_LABEL,
    ASK_FULL_NUMBERS,
    PASS_FROM_SLOTS,
    PASS_FROM_COUNTS,
    PASS_WRONG_ROW,
    PASS_WRONG_COUNT,
    PASS_KEPT_MORE,
    BODY_FOUND,
    BODY_NO_ID,
    BODY_REFUSED,
    SITUATIONS
};
static const char *const SITUATION_NAME[SITUATIONS] = {"run: no slot lent, questions asked",
                                                       "run: slots left over",
                                                       "run: just full",
                                                       "run: more different questions than slots",
                                                       "run: 4,096 slots filled",
                                                       "run: more lent than 4,096 slots",
                                                       "run: a kept answer used",
                                                       "run: plausible wrong slots lent",
                                                       "ask: the first slot asks it",
                                                       "ask: a later slot asks it",
                                                       "ask: two slots ask it, answers differ",
                                                       "ask: a wrong answer comes back",
                                                       "ask: only an unfilled slot asks it",
                                                       "ask: kept",
                                                       "ask: kept in the last slot",
                                                       "ask: none asks it and all full",
                                                       "ask: no slot lent",
                                                       "ask: a set with TRUE, AND, OR, NOT",
                                                       "ask: a set past the last state",
                                                       "ask: a label that no node has",
                                                       "ask: full numbers",
                                                       "pass: from filled slots",
                                                       "pass: from counts",
                                                       "pass: wrong answers change a row",
                                                       "pass: wrong answers change a count",
                                                       "pass: more kept after filled slots",
                                                       "body: found",
                                                       "body: no such id",
                                                       "body: book refused"};
static uint64_t situations[SITUATIONS];

static void saw(enum situation s, bool it) { situations[s] += it; }

static uint64_t slots_of(const test_case *c) {
    uint64_t slots = c->memory / SLOT_NUMBERS;
    return slots < SLOTS_AT_MOST ? slots : SLOTS_AT_MOST;
}

static void note_rows(const test_case *c, const outcome *o) {
    unsigned n = get_two(c->day.at);
    messages += n;
    for (unsigned m = 0; m < n; m++) rows[contents(o, ANSWERS)[3 * m] % NUMBERS_END]++;
}

static void note_run(const test_case *c, const outcome *o) {
    uint64_t asked = o->result[1], anew = o->result[2], filled = o->result[3], slots = slots_of(c);
    questions += asked;
    note_rows(c, o);
    saw(RUN_WITHOUT_SLOTS, slots == 0 && asked > 0);
    saw(RUN_SLOTS_LEFT, filled > 0 && filled < slots);
    saw(RUN_JUST_FULL, slots > 0 && filled == slots && anew == filled);
    saw(RUN_OVERFULL, slots > 0 && anew > filled);
    saw(RUN_4096_FILLED, filled == SLOTS_AT_MOST);
    saw(RUN_MORE_LENT, filled == SLOTS_AT_MOST && c->memory > SLOT_NUMBERS * SLOTS_AT_MOST);
    saw(RUN_KEPT_ANSWER_USED, anew < asked);
    saw(RUN_PLAUSIBLE_SLOTS, c->slots.len > 0);
}

/* The pass as it would go if the filled slots asked what they ask, but their
 * answers were all right. */
static void pass_from_right_slots(const test_case *c, outcome *o) {
    test_case right = copy_case(c);
    numbers memory = {0};
    uint64_t none[1] = {0}, answer[SET_NUMBERS];
    before(c, MEMORY, &memory);
    right.slots.len = 0;
    for (uint64_t i = 0; i < c->filled; i++) {
        const uint64_t *slot = memory.at + GUARD + SLOT_NUMBERS * i;
        second_ask(c->book.at, c->book.len, none, 0, 0, 0, slot, QUESTION_NUMBERS, answer,
                   SET_NUMBERS);
        for (int k = 0; k < QUESTION_NUMBERS; k++) add_number(&right.slots, slot[k]);
        for (int k = 0; k < SET_NUMBERS; k++) add_number(&right.slots, answer[k]);
    }
    call_engine(&SECOND_ENGINE, &right, o);
    free(memory.at);
    drop_case(&right);
}

static void note_pass(const test_case *c, const outcome *o) {
    questions += o->result[1] - c->asked;
    note_rows(c, o);
    saw(PASS_FROM_SLOTS, c->filled > 0);
    saw(PASS_FROM_COUNTS, c->asked > 0 && c->anew > 0);
    saw(PASS_KEPT_MORE, c->filled > 0 && o->result[3] > c->filled);
    if (c->day.len > 5000 || c->memory > 5000) return;
    static outcome right;
    size_t len = 3 * (size_t)get_two(c->day.at) * sizeof(uint64_t);
    pass_from_right_slots(c, &right);
    saw(PASS_WRONG_ROW, memcmp(contents(&right, ANSWERS), contents(o, ANSWERS), len) != 0);
    saw(PASS_WRONG_COUNT, right.result[2] != o->result[2]);
}

static void note_slots_asked(const test_case *c, const uint64_t *memory, const uint64_t *right) {
    uint64_t equal = 0, first = 0;
    bool differ = false, unfilled = false;
    size_t size = QUESTION_NUMBERS * sizeof *memory, answer_size = SET_NUMBERS * sizeof *memory;
    for (uint64_t i = 0; i < slots_of(c); i++) {
        const uint64_t *slot = memory + SLOT_NUMBERS * i;
        if (memcmp(slot, c->question, size) != 0) continue;
        if (i >= c->filled) {
            unfilled = true;
            continue;
        }
        if (equal++ == 0) first = i;
        const uint64_t *answer = memory + SLOT_NUMBERS * first + QUESTION_NUMBERS;
        differ = differ || memcmp(slot + QUESTION_NUMBERS, answer, answer_size) != 0;
    }
    const uint64_t *answer = memory + SLOT_NUMBERS * first + QUESTION_NUMBERS;
    saw(ASK_FIRST_SLOT, equal > 0 && first == 0);
    saw(ASK_LATER_SLOT, equal > 0 && first > 0);
    saw(ASK_TWO_SLOTS, differ);
    saw(ASK_WRONG_ANSWER, equal > 0 && memcmp(answer, right, answer_size) != 0);
    saw(ASK_UNFILLED_SLOT, equal == 0 && unfilled);
    saw(ASK_KEPT, equal == 0 && c->filled < slots_of(c));
    saw(ASK_LAST_SLOT_KEPT, equal == 0 && c->filled + 1 == slots_of(c));
    saw(ASK_FULL, equal == 0 && c->filled == slots_of(c) && c->filled > 0);
    saw(ASK_WITHOUT_SLOTS, slots_of(c) == 0);
}

static void note_asked_set(const test_case *c) {
    unsigned filters = get_two(c->book.at);
    size_t first = 2 + 8 * (size_t)filters, states = (c->book.len - first) / 8;
    bool other = false, past = false, full = true;
    for (unsigned k = 0; k < STATES_AT_MOST; k++) {
        if ((c->question[k / 64] >> (k % 64) & 1) == 0) continue;
        if (k >= states)
            past = true;
        else
            other = other || (c->book.at[first + 8 * k] != 1 && c->book.at[first + 8 * k] != 5);
    }
    for (unsigned i = 0; i < SET_NUMBERS; i++) full = full && c->question[i] == UINT64_MAX;
    uint64_t label = c->question[SET_NUMBERS];
    saw(ASK_OTHER_STATES, other);
    saw(ASK_PAST_STATES, past);
    saw(ASK_FULL_NUMBERS, full);
    saw(ASK_NO_NODES_LABEL, label == 0 || label == 32768 || label > 65535);
}

static void note_ask(const test_case *c) {
    numbers memory = {0};
    uint64_t right[SET_NUMBERS], none[1] = {0};
    before(c, MEMORY, &memory);
    second_ask(c->book.at, c->book.len, none, 0, 0, 0, c->question, QUESTION_NUMBERS, right,
               SET_NUMBERS);
    note_slots_asked(c, memory.at + GUARD, right);
    note_asked_set(c);
    free(memory.at);
}

static void note_body(const test_case *c, const outcome *o) {
    uint64_t none[1] = {0}, question[QUESTION_NUMBERS] = {0}, answer[SET_NUMBERS];
    esq_reply r = second_ask(c->book.at, c->book.len, none, 0, 0, 0, question, QUESTION_NUMBERS,
                             answer, SET_NUMBERS);
    saw(BODY_FOUND, o->result[1] > 0);
    saw(BODY_NO_ID, o->result[1] == 0 && r.refusal == 0);
    saw(BODY_REFUSED, r.refusal != 0);
}

static void note(const test_case *c, const outcome *o) {
    cases++;
    compared[part]++;
    if (c->call == CALL_BODY) {
        note_body(c, o);
        return;
    }
    refused[c->call][o->result[0] % NUMBERS_END]++;
    if (o->result[0] != 0) return;
    if (c->call == CALL_RUN) note_run(c, o);
    if (c->call == CALL_PASS) note_pass(c, o);
    if (c->call == CALL_ASK) note_ask(c);
}

/* The refusal numbers that a call can give. */
static bool wanted(enum call call, unsigned number) {
    if (call == CALL_ASK) return number <= 7 || number == 14 || number == 18 || number == 19;
    if (call == CALL_PASS) return number <= 12 || number == 14 || number == 19;
    return call == CALL_RUN && number <= 12;
}

static bool wanted_row(unsigned number) { return number == 0 || (number >= 21 && number <= 29); }

static bool wanted_part(int p) { return !(how.quick && p == PART_LARGE); }

void print_table(void) {
    for (int call = 0; call < CALLS; call++)
        for (unsigned i = 0; i < NUMBERS_END; i++)
            if (wanted((enum call)call, i))
                printf("%8" PRIu64 "  %s, refusal %u\n", refused[call][i], CALL_NAME[call], i);
    for (unsigned i = 0; i < NUMBERS_END; i++)
        if (wanted_row(i)) printf("%8" PRIu64 "  message, refusal %u\n", rows[i], i);
    for (int i = 0; i < SITUATIONS; i++)
        printf("%8" PRIu64 "  %s\n", situations[i], SITUATION_NAME[i]);
    for (int i = 0; i < PARTS; i++)
        if (wanted_part(i)) printf("%8" PRIu64 "  part %s, inputs\n", compared[i], PART_NAME[i]);
}

bool all_covered(void) {
    bool all = true;
    for (int call = 0; call < CALLS; call++)
        for (unsigned i = 0; i < NUMBERS_END; i++)
            all = all && (!wanted((enum call)call, i) || refused[call][i] > 0);
    for (unsigned i = 0; i < NUMBERS_END; i++) all = all && (!wanted_row(i) || rows[i] > 0);
    for (int i = 0; i < SITUATIONS; i++) all = all && situations[i] > 0;
    for (int i = 0; i < PARTS; i++) all = all && (!wanted_part(i) || compared[i] > 0);
    return all;
}

void print_counts(const char *how_it_went) {
    printf("%s: %" PRIu64 " inputs, %" PRIu64 " messages, %" PRIu64 " questions\n", how_it_went,
           cases, messages, questions);
}

/* ---- Comparing ------------------------------------------------------------------ */

/* If the engine under test falls over or does not come back, the comparison goes
 * on from here, so that the case can still be made smaller and printed. */
static sigjmp_buf back;
static volatile sig_atomic_t in_other, fell; /* fell: the signal that ended the call, or 0 */

/* Outside of the engine under test nothing can be relied on any more, printing
 * included: most likely that engine wrote where it must not. */
static void fell_over(int number) {
    static const char words[] = "Fell over after a call of the engine under test.\n";
    if (!in_other) {
        ssize_t written = write(STDOUT_FILENO, words, sizeof words - 1);
        _exit(written < 0 ? 2 : 1);
    }
    fell = number;
    siglongjmp(back, 1);
}

static void call_under_test(const test_case *c) {
    fell = 0;
    in_other = 1;
    alarm(how.seconds_a_call);
    if (sigsetjmp(back, 1) == 0) call_engine(&ENGINE_UNDER_TEST, c, &by_other);
    alarm(0);
    in_other = 0;
}

static bool differs(const test_case *c) {
    call_engine(&SECOND_ENGINE, c, &by_second);
    call_under_test(c);
    return fell != 0 || !same_outcome(&by_second, &by_other);
}

static void disagree(const test_case *c) {
    test_case smaller = copy_case(c);
    if (fell != SIGALRM) {
        if (!how.quick) shrink(&smaller, differs);
        differs(&smaller);
    }
    printf("The engines disagree.\n");
    print_case(stdout, &smaller);
    printf("--- the second engine:\n");
    print_outcome(stdout, &smaller, &by_second);
    printf("--- the engine under test:\n");
    if (fell == SIGALRM)
        printf("does not come back within %u seconds\n", how.seconds_a_call);
    else if (fell != 0)
        printf("falls over with signal %d\n", (int)fell);
    else
        print_outcome(stdout, &smaller, &by_other);
    exit(1);
}

void complain(const test_case *c, const char *what) {
    printf("%s\n", what);
    print_case(stdout, c);
    printf("--- the second engine:\n");
    print_outcome(stdout, c, &by_second);
    exit(1);
}

const outcome *check(const test_case *c) {
    if (differs(c)) disagree(c);
    note(c, &by_second);
    return &by_second;
}

const outcome *check_gives(const test_case *c, uint64_t refusal) {
    const outcome *o = check(c);
    if (o->result[0] != refusal) complain(c, "The refusal is not the one that the paper gives.");
    return o;
}

const outcome *check_row(const test_case *c, unsigned message, uint64_t refusal, uint64_t place) {
    const outcome *o = check_gives(c, 0);
    const uint64_t *row = contents(o, ANSWERS) + 3 * message;
    if (row[0] != refusal || row[1] != place)
        complain(c, "The message's refusal or place is not the one that the paper gives.");
    return o;
}

const outcome *last_under_test(void) { return &by_other; }

void start_checks(manner m) {
    static const int number[] = {SIGSEGV, SIGBUS, SIGFPE, SIGILL, SIGABRT, SIGALRM};
    static char room[1 << 16]; /* a stack of its own, as the other may be used up */
    stack_t stack = {.ss_sp = room, .ss_size = sizeof room};
    struct sigaction action = {.sa_handler = fell_over, .sa_flags = SA_ONSTACK};
    how = m;
    sigaltstack(&stack, NULL);
    for (size_t i = 0; i < sizeof number / sizeof number[0]; i++)
        sigaction(number[i], &action, NULL);
}
