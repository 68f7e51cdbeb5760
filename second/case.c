/* See case.h. */
#define _DEFAULT_SOURCE
#include "case.h"

#include <inttypes.h>
#include <stdlib.h>
#include <string.h>
#include <sys/mman.h>
#include <unistd.h>

const char *const CALL_NAME[CALLS] = {"run", "body", "ask", "pass"};
const char *const LENT_NAME[LENT] = {"memory", "answers", "workspace", "answer"};

static esq_part second_body(const uint8_t *book, size_t len, uint32_t id) {
    esq_part part;
    second_filter_body(book, len, id, &part.start, &part.length);
    return part;
}

const engine SECOND_ENGINE = {second_run, second_body, second_ask, second_pass};
const engine ENGINE_UNDER_TEST = {esquirmell_run, esquirmell_filter_body, esquirmell_ask,
                                  esquirmell_pass};

static void *must(void *room) {
    if (room == NULL) {
        fprintf(stderr, "no room\n");
        exit(2);
    }
    return room;
}

/* ---- Rows of bytes and numbers ------------------------------------------ */

void add_bytes(bytes *b, const void *from, size_t len) {
    if (len == 0) return;
    if (b->len + len > b->room) {
        b->room = 2 * (b->len + len) + 64;
        b->at = must(realloc(b->at, b->room));
    }
    memcpy(b->at + b->len, from, len);
    b->len += len;
}

void add_byte(bytes *b, unsigned byte) {
    uint8_t one = (uint8_t)byte;
    add_bytes(b, &one, 1);
}

void add_two(bytes *b, unsigned number) {
    add_byte(b, number & 255);
    add_byte(b, number >> 8 & 255);
}

void add_four(bytes *b, uint32_t number) {
    add_two(b, number & 65535);
    add_two(b, number >> 16);
}

void add_number(numbers *n, uint64_t number) {
    if (n->len == n->room) {
        n->room = 2 * n->room + 64;
        n->at = must(realloc(n->at, n->room * sizeof *n->at));
    }
    n->at[n->len++] = number;
}

unsigned get_two(const uint8_t *at) { return at[0] | (unsigned)at[1] << 8; }
uint32_t get_four(const uint8_t *at) { return get_two(at) | (uint32_t)get_two(at + 2) << 16; }

static void set_room(numbers *n, size_t len) {
    if (n->room < len) {
        n->room = len + 64;
        n->at = must(realloc(n->at, n->room * sizeof *n->at));
    }
    n->len = len;
}

uint64_t mix(uint64_t *state) {
    uint64_t z = *state += UINT64_C(0x9e3779b97f4a7c15);
    z = (z ^ z >> 30) * UINT64_C(0xbf58476d1ce4e5b9);
    z = (z ^ z >> 27) * UINT64_C(0x94d049bb133111eb);
    return z ^ z >> 31;
}

test_case copy_case(const test_case *c) {
    test_case copy = *c;
    copy.book = copy.day = (bytes){0};
    copy.slots = (numbers){0};
    add_bytes(&copy.book, c->book.at, c->book.len);
    add_bytes(&copy.day, c->day.at, c->day.len);
    for (size_t i = 0; i < c->slots.len; i++) add_number(&copy.slots, c->slots.at[i]);
    return copy;
}

void drop_case(test_case *c) {
    free(c->book.at);
    free(c->day.at);
    free(c->slots.at);
    *c = (test_case){0};
}

/* ---- Calling an engine --------------------------------------------------- */

/* Does this call lend numbers of this kind? */
static bool lends(enum call call, enum lent which) {
    if (call == CALL_BODY) return false;
    if (call == CALL_ASK) return which == MEMORY || which == ANSWER;
    return which != ANSWER;
}

uint64_t lent_count(const test_case *c, enum lent which) {
    const uint64_t count[LENT] = {c->memory, c->answers, c->workspace, c->answer_len};
    return lends(c->call, which) ? count[which] : 0;
}

/* Noise everywhere, the guards included; given slots stand in front. */
void before(const test_case *c, enum lent which, numbers *out) {
    uint64_t count = lent_count(c, which), noise = c->seed * LENT + which;
    set_room(out, count + 2 * GUARD);
    for (size_t i = 0; i < out->len; i++) out->at[i] = mix(&noise);
    if (which != MEMORY) return;
    size_t given = c->slots.len < count ? c->slots.len : count;
    if (given > 0) memcpy(out->at + GUARD, c->slots.at, given * sizeof *out->at);
}

enum { INPUT_ROOM = 1 << 21 };

/* Puts an input at the very end of a room, after which no byte can be read: an
 * engine that reads past its input falls over. */
static uint8_t *at_the_edge(uint8_t **room, const void *input, size_t len) {
    size_t page = (size_t)sysconf(_SC_PAGESIZE);
    if (*room == NULL) {
        *room = mmap(NULL, INPUT_ROOM + page, PROT_READ | PROT_WRITE, MAP_PRIVATE | MAP_ANONYMOUS,
                     -1, 0);
        if (*room == MAP_FAILED || mprotect(*room + INPUT_ROOM, page, PROT_NONE) != 0) must(NULL);
    }
    if (len > INPUT_ROOM) must(NULL);
    if (len > 0) memcpy(*room + INPUT_ROOM - len, input, len);
    return *room + INPUT_ROOM - len;
}

static bool kept(const uint8_t *now, const void *was, size_t len) {
    return len == 0 || memcmp(now, was, len) == 0;
}

static void call(const engine *e, const test_case *c, const uint8_t *book, const uint8_t *day,
                 const uint64_t *question, outcome *o) {
    uint64_t *to[LENT];
    esq_result r = {0};
    for (int i = 0; i < LENT; i++) to[i] = o->lent[i].at + GUARD;
    if (c->call == CALL_RUN) {
        r = e->run(book, c->book.len, day, c->day.len, to[MEMORY], c->memory, to[ANSWERS],
                   c->answers, to[WORKSPACE], c->workspace);
    } else if (c->call == CALL_PASS) {
        r = e->pass(book, c->book.len, day, c->day.len, to[MEMORY], c->memory, to[ANSWERS],
                    c->answers, to[WORKSPACE], c->workspace, c->asked, c->anew, c->filled);
    } else if (c->call == CALL_ASK) {
        esq_reply reply = e->ask(book, c->book.len, to[MEMORY], c->memory, c->filled, c->anew,
                                 question, c->question_len, to[ANSWER], c->answer_len);
        r = (esq_result){reply.refusal, reply.anew, reply.filled, 0};
    } else {
        esq_part part = e->body(book, c->book.len, (uint32_t)c->id);
        r = (esq_result){part.start, part.length, 0, 0};
    }
    memcpy(o->result, &r, sizeof o->result);
}

void call_engine(const engine *e, const test_case *c, outcome *o) {
    static uint8_t *book_room, *day_room, *question_room;
    size_t question_bytes = c->question_len * sizeof c->question[0];
    uint8_t *book = at_the_edge(&book_room, c->book.at, c->book.len);
    uint8_t *day = at_the_edge(&day_room, c->day.at, c->day.len);
    uint8_t *question = at_the_edge(&question_room, c->question, question_bytes);
    for (int i = 0; i < LENT; i++) before(c, (enum lent)i, &o->lent[i]);
    call(e, c, book, day, (const uint64_t *)(const void *)question, o);
    o->inputs_kept = kept(book, c->book.at, c->book.len) && kept(day, c->day.at, c->day.len) &&
                     kept(question, c->question, question_bytes);
}

static bool same_numbers(const numbers *a, const numbers *b) {
    return a->len == b->len && memcmp(a->at, b->at, a->len * sizeof *a->at) == 0;
}

bool same_outcome(const outcome *a, const outcome *b) {
    if (memcmp(a->result, b->result, sizeof a->result) != 0) return false;
    for (int i = 0; i < LENT; i++)
        if (!same_numbers(&a->lent[i], &b->lent[i])) return false;
    return a->inputs_kept && b->inputs_kept;
}

void drop_outcome(outcome *o) {
    for (int i = 0; i < LENT; i++) free(o->lent[i].at);
    *o = (outcome){0};
}

const uint64_t *contents(const outcome *o, enum lent which) { return o->lent[which].at + GUARD; }

/* ---- As text -------------------------------------------------------------- */

/* Equal bytes in a row are written once, with a star and their number. */
static void print_bytes(FILE *to, const char *name, const bytes *b) {
    fprintf(to, "%s ", name);
    for (size_t i = 0, same; i < b->len; i += same) {
        for (same = 1; i + same < b->len && b->at[i + same] == b->at[i];) same++;
        if (same >= 16) {
            fprintf(to, " %02x*%zu ", b->at[i], same);
        } else {
            for (size_t k = 0; k < same; k++) fprintf(to, "%02x", b->at[i]);
        }
    }
    fprintf(to, "\n");
}

static void print_numbers(FILE *to, const uint64_t *at, size_t len) {
    for (size_t i = 0, same; i < len; i += same) {
        for (same = 1; i + same < len && at[i + same] == at[i];) same++;
        fprintf(to, " %" PRIx64, at[i]);
        if (same > 1) fprintf(to, "*%zu", same);
    }
    fprintf(to, "\n");
}

typedef struct {
    const char *name;
    uint64_t *at;
} field;
enum { FIELDS = 9 };

static void fields_of(test_case *c, field *f) {
    const field all[FIELDS] = {
        {"memory", &c->memory}, {"answers", &c->answers}, {"workspace", &c->workspace},
        {"seed", &c->seed},     {"asked", &c->asked},     {"anew", &c->anew},
        {"filled", &c->filled}, {"id", &c->id},           {"answer", &c->answer_len}};
    memcpy(f, all, sizeof all);
}

void print_case(FILE *to, const test_case *c) {
    test_case copy = *c;
    field f[FIELDS];
    fields_of(&copy, f);
    fprintf(to, "call %s\n", CALL_NAME[c->call]);
    print_bytes(to, "book", &c->book);
    if (c->call == CALL_RUN || c->call == CALL_PASS) print_bytes(to, "day", &c->day);
    for (int i = 0; i < FIELDS; i++) fprintf(to, "%s %" PRIu64 "\n", f[i].name, *f[i].at);
    if (c->call == CALL_ASK) {
        fprintf(to, "question");
        print_numbers(to, c->question, c->question_len);
    }
    if (c->slots.len > 0) {
        fprintf(to, "slots");
        print_numbers(to, c->slots.at, c->slots.len);
    }
}

/* What was written: everything up to the last number that is not as before. */
static void print_written(FILE *to, const test_case *c, const outcome *o, enum lent which) {
    numbers was = {0};
    before(c, which, &was);
    const numbers *now = &o->lent[which];
    size_t end = now->len;
    while (end > 0 && now->at[end - 1] == was.at[end - 1]) end--;
    bool front_kept = memcmp(now->at, was.at, GUARD * sizeof *was.at) == 0;
    if (!front_kept) fprintf(to, "%s BEFORE ITS START\n", LENT_NAME[which]);
    if (end > GUARD) {
        fprintf(to, "%s", LENT_NAME[which]);
        print_numbers(to, now->at + GUARD, end - GUARD);
    }
    if (end > now->len - GUARD) fprintf(to, "%s PAST ITS END\n", LENT_NAME[which]);
    free(was.at);
}

void print_outcome(FILE *to, const test_case *c, const outcome *o) {
    const int figures[CALLS] = {4, 2, 3, 4};
    fprintf(to, "gives");
    for (int i = 0; i < figures[c->call]; i++) fprintf(to, " %" PRIu64, o->result[i]);
    fprintf(to, "\n");
    for (int i = 0; i < LENT; i++) print_written(to, c, o, (enum lent)i);
    if (!o->inputs_kept) fprintf(to, "INPUTS CHANGED\n");
    fprintf(to, "all else unchanged\n");
}

static bool read_bytes(char *text, bytes *b) {
    for (char *word = strtok(text, " \n"); word != NULL; word = strtok(NULL, " \n")) {
        unsigned byte;
        unsigned long times;
        if (sscanf(word, "%2x*%lu", &byte, &times) == 2) {
            for (unsigned long i = 0; i < times; i++) add_byte(b, byte);
            continue;
        }
        for (; *word != 0; word += 2) {
            if (word[1] == 0 || sscanf(word, "%2x", &byte) != 1) return false;
            add_byte(b, byte);
        }
    }
    return true;
}

static bool read_numbers(char *text, numbers *n) {
    for (char *word = strtok(text, " \n"); word != NULL; word = strtok(NULL, " \n")) {
        uint64_t number;
        unsigned long times = 1;
        if (sscanf(word, "%" SCNx64 "*%lu", &number, &times) < 1) return false;
        for (unsigned long i = 0; i < times; i++) add_number(n, number);
    }
    return true;
}

static bool read_call(const char *text, test_case *c) {
    for (int i = 0; i < CALLS; i++)
        if (strncmp(text, CALL_NAME[i], strlen(CALL_NAME[i])) == 0) {
            c->call = (enum call)i;
            return true;
        }
    return false;
}

static bool read_question(char *text, test_case *c) {
    numbers n = {0};
    bool good = read_numbers(text, &n) && n.len <= FEW;
    for (size_t i = 0; good && i < n.len; i++) c->question[i] = n.at[i];
    c->question_len = n.len;
    free(n.at);
    return good;
}

static bool read_line(char *line, test_case *c) {
    char *text = strchr(line, ' ');
    if (text == NULL) {
        text = line + strcspn(line, "\n");
    } else {
        *text++ = 0;
    }
    line[strcspn(line, "\n")] = 0;
    if (strcmp(line, "call") == 0) return read_call(text, c);
    if (strcmp(line, "book") == 0) return read_bytes(text, &c->book);
    if (strcmp(line, "day") == 0) return read_bytes(text, &c->day);
    if (strcmp(line, "slots") == 0) return read_numbers(text, &c->slots);
    if (strcmp(line, "question") == 0) return read_question(text, c);
    field f[FIELDS];
    fields_of(c, f);
    for (int i = 0; i < FIELDS; i++)
        if (strcmp(line, f[i].name) == 0) return sscanf(text, "%" SCNu64, f[i].at) == 1;
    return false;
}

/* Lines that start with # are for the reader. The outcome starts with "gives",
 * and the file is left standing before that line. */
bool read_case(FILE *from, test_case *c) {
    char *line = NULL;
    size_t room = 0;
    bool good = true, ended = false;
    *c = (test_case){0};
    long at = ftell(from);
    while (good && !ended && getline(&line, &room, from) >= 0) {
        ended = strncmp(line, "gives", 5) == 0;
        if (!ended && line[0] != '#') good = read_line(line, c);
        if (!ended) at = ftell(from);
    }
    free(line);
    return good && ended && fseek(from, at, SEEK_SET) == 0;
}
