/* The command's words and options. See command.h; docs/COMMAND.md says what each
 * word does, and help.txt is what --help prints. */
#include <errno.h>
#include <stdlib.h>
#include <string.h>

#include "command.h"

/* A word of the command: how many words follow it, and the options that it takes. */
typedef struct {
    const char *name;
    int (*does)(desk *);
    unsigned least, most;
    const char *options, *usage;
} verb;

static const verb VERB[] = {
    {"run", do_run, 2, 3, " --strict --json ", "[--strict] [--json] BOOK DAY [SLOTS]"},
    {"show", do_show, 1, 3, " --names --json --book --day --memory ",
     "[--names NAMES] [--json] [--book | --day] FILE [MESSAGE], or show --memory BOOK DAY [SLOTS]"},
    {"why", do_why, 3, 4, " --names --json --all ",
     "[--names NAMES] [--json] [--all] BOOK DAY MESSAGE [ID]"},
    {"make", do_make, 1, 2, " --names ", "[--names NAMES] TEXT [FILE]"},
    {"check", do_check, 1, 1, " --names --strict --json --book --day ",
     "[--names NAMES] [--strict] [--json] [--book | --day] FILE"},
};
enum { VERBS = sizeof VERB / sizeof VERB[0] };

static const verb *verb_of(const char *name) {
    for (unsigned k = 0; k < VERBS; k++)
        if (strcmp(VERB[k].name, name) == 0) return &VERB[k];
    return NULL;
}

static int usage(desk *d, const verb *v) {
    return fail(d, "usage: esquirmell %s %s; esquirmell --help says more", v->name, v->usage);
}

/* Whether the word takes this option. */
static bool takes(const verb *v, const char *option) {
    const char *at = strstr(v->options, option);
    return at != NULL && at[-1] == ' ' && at[strlen(option)] == ' ';
}

/* Sets an option that is a yes or no; false if it is none. */
static bool set_option(desk *d, const char *option) {
    struct {
        const char *name;
        bool *is_set;
    } known[] = {{"--json", &d->json},    {"--strict", &d->strict}, {"--memory", &d->memory},
                 {"--book", &d->as_book}, {"--day", &d->as_day},    {"--all", &d->all}};
    for (unsigned k = 0; k < sizeof known / sizeof known[0]; k++)
        if (strcmp(known[k].name, option) == 0) return *known[k].is_set = true;
    return false;
}

/* Takes an option at `at`; how many words it took, or 0 if it is none of this word. */
static int take_option(desk *d, const verb *v, int count, char **word, int at) {
    if (!takes(v, word[at])) return 0;
    if (set_option(d, word[at])) return 1;
    if (at + 1 >= count || strcmp(word[at], "--names") != 0) return 0;
    d->names_path = word[at + 1];
    return 2;
}

/* Options may stand anywhere, until `--`; `-` is a file. */
static int take_words(desk *d, const verb *v, int count, char **word) {
    bool options = true;
    for (int at = 2; at < count;) {
        int taken = 1;
        if (options && strcmp(word[at], "--") == 0) {
            options = false;
        } else if (options && strncmp(word[at], "--", 2) == 0) {
            taken = take_option(d, v, count, word, at);
            if (taken == 0) return usage(d, v);
        } else if (d->words == v->most) {
            return usage(d, v);
        } else {
            d->word[d->words++] = word[at];
        }
        at += taken;
    }
    return DONE;
}

/* Whether the words that were taken make sense together. */
static bool fit_together(const desk *d, const verb *v) {
    if (d->as_book && d->as_day) return false;
    if (v->does != do_show) return d->words >= v->least;
    if (d->memory) return d->words >= 2 && !d->as_book && !d->as_day;
    return d->words == 1 || d->words == 2;
}

static int finish(desk *d, int status) {
    if (fflush(d->out) == 0 && !ferror(d->out)) return status;
    return fail(d, "the lines can't be written: %s", strerror(errno));
}

int command(int count, char **word, FILE *in, FILE *out, FILE *err) {
    desk d = {.in = in, .out = out, .err = err};
    const verb *v = count < 2 ? NULL : verb_of(word[1]);
    if (v == NULL)
        return fail(&d, "usage: esquirmell run | show | why | make | check ..; "
                        "esquirmell --help says more");
    int status = take_words(&d, v, count, word);
    if (status == DONE && !fit_together(&d, v)) status = usage(&d, v);
    if (status == DONE) status = read_names(&d);
    if (status == DONE) status = v->does(&d);
    drop_names(&d);
    return finish(&d, status);
}
