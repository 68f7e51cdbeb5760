/* A call of the command inside this process, and what it gave. See fuzz.h. */
#include "fuzz.h"

#include <inttypes.h>
#include <signal.h>
#include <stdarg.h>
#include <stdlib.h>
#include <string.h>
#include <unistd.h>

#include "../tool/command.h"

enum { MOST_CALL_WORDS = 12, SECONDS_A_CALL = 20 };

fuzz_answer said;
uint64_t calls, statuses[5];

static uint64_t seed_now;
static const char *word_now[MOST_CALL_WORDS + 2];
static unsigned words_now;
static const char *input_text = "";
static size_t input_bytes;

/* ---- When something is wrong ---------------------------------------------------- */

static void print_call(void) {
    printf("fuzz: input %" PRIu64 ", the call:", seed_now);
    for (unsigned k = 1; k < words_now; k++) printf(" '%s'", word_now[k]);
    printf("\nfuzz: again with the words %" PRIu64 " 1 FOLDER\n", seed_now);
    fflush(stdout);
}

/* A sanitizer that found something aborts, so that the call can still be printed. With
 * fewer than two callers written down for each area, lost ones would not be told. */
const char *__asan_default_options(void);
const char *__ubsan_default_options(void);
const char *__asan_default_options(void) {
    return "abort_on_error=1:quarantine_size_mb=8:malloc_context_size=2";
}
const char *__ubsan_default_options(void) { return "abort_on_error=1:print_stacktrace=1"; }

static void fell_over(int number) {
    print_call();
    if (number == SIGALRM) printf("fuzz: the call takes more than %d seconds\n", SECONDS_A_CALL);
    fflush(stdout);
    _exit(1);
}

_Noreturn void wrong(const char *form, ...) {
    va_list rest;
    va_start(rest, form);
    print_call();
    printf("fuzz: ");
    vprintf(form, rest);
    printf("\nfuzz: it ended with %d, standard output:\n%.2000s\nfuzz: standard error:\n%.2000s\n",
           said.status, said.out, said.err);
    va_end(rest);
    exit(1);
}

void begin_calls(void) {
    signal(SIGABRT, fell_over);
    signal(SIGALRM, fell_over);
}

void begin_input(uint64_t seed) {
    seed_now = seed;
    words_now = 0;
}

/* ---- The call ---------------------------------------------------------------------- */

void give_input(const char *text, size_t bytes) {
    input_text = text;
    input_bytes = bytes;
}

static FILE *open_input(void) {
    if (input_bytes == 0) return fopen("/dev/null", "r");
    return fmemopen((char *)input_text, input_bytes, "r");
}

void call_words(const char *const *word, unsigned count) {
    word_now[0] = "esquirmell";
    for (unsigned k = 0; k < count; k++) word_now[k + 1] = word[k];
    words_now = count + 1;
    word_now[words_now] = NULL;
    free(said.out);
    free(said.err);
    said = (fuzz_answer){.status = -1};
    FILE *in = open_input(), *out = open_memstream(&said.out, &said.out_bytes);
    FILE *err = open_memstream(&said.err, &said.err_bytes);
    if (in == NULL || out == NULL || err == NULL) wrong("no stream can be opened");
    alarm(SECONDS_A_CALL);
    said.status = command((int)words_now, (char **)word_now, in, out, err);
    alarm(0);
    fclose(in);
    fclose(out);
    fclose(err);
    give_input("", 0);
    calls++;
    if (said.status < 0 || said.status > 3) wrong("it should end with 0, 1, 2 or 3");
    statuses[said.status]++;
}

void call(const char *word, ...) {
    const char *all[MOST_CALL_WORDS];
    unsigned count = 0;
    va_list rest;
    va_start(rest, word);
    for (; word != NULL; word = va_arg(rest, const char *))
        if (*word != '\0') all[count++] = word;
    va_end(rest);
    call_words(all, count);
}

/* ---- What it should give --------------------------------------------------------------- */

void want_status(int status) {
    if (said.status != status) wrong("it should end with %d", status);
}

void want_no_out(void) {
    if (said.out_bytes > 0) wrong("nothing should be on standard output");
}

void want_out(const char *text, size_t bytes) {
    if (said.out_bytes == bytes && memcmp(said.out, text, bytes) == 0) return;
    size_t same = 0;
    while (same < bytes && same < said.out_bytes && said.out[same] == text[same]) same++;
    wrong(
        "standard output has %zu bytes, should have %zu, and differs at byte %zu; wanted:\n%.1000s",
        said.out_bytes, bytes, same, text);
}

void want_json(void) {
    if (!is_json_line(said.out, said.out_bytes)) wrong("this is no line of JSON");
}

void want_heads(const char *text, const char *heads) {
    while (*heads != '\0') {
        size_t head = strcspn(heads, "\n");
        if (strncmp(text, heads, head) != 0)
            wrong("a line should begin with '%.*s':\n%.300s", (int)head, heads, text);
        heads += head + (heads[head] == '\n');
        text += strcspn(text, "\n");
        text += *text == '\n';
    }
    if (*text != '\0') wrong("there should be no further line:\n%.300s", text);
}

char *lines_with(const char *text, const char *head) {
    char *found = NULL;
    size_t bytes;
    FILE *to = open_memstream(&found, &bytes);
    while (*text != '\0') {
        size_t line = strcspn(text, "\n");
        if (strncmp(text, head, strlen(head)) == 0) fprintf(to, "%.*s\n", (int)line, text);
        text += line + (text[line] == '\n');
    }
    fclose(to);
    return found;
}
