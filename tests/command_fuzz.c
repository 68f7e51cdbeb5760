/* Calls the command, some thousand times in one process, with books and day files of
 * every sort, and holds each answer against the second engine's.
 *   command_fuzz SEED COUNT FOLDER    inputs of the seeds SEED, SEED + 1 and so on
 * The folder is for the files that the command is given.
 * The first difference is printed, with the input's seed and the words of the call,
 * and ends it with 1, as does a refusal, an exit status or a sort that never came up. */
#include "fuzz.h"

#include <inttypes.h>
#include <stdio.h>
#include <stdlib.h>
#include <string.h>

enum { NUMBERS_END = 30, MOST_WHYS = 5, MOST_NAMED = 40, MOST_PATH = 500, MOST_LINE = 4000 };

static fuzz_input now;
static uint64_t refusals[NUMBERS_END], ways[MADE_WAYS], texts[2], words;
static char book_path[MOST_PATH], day_path[MOST_PATH], names_path[MOST_PATH], made_path[MOST_PATH];

/* A text in the making. */
typedef struct {
    char *at;
    size_t bytes;
    FILE *to;
} text;

static void begin(text *t) { t->to = open_memstream(&t->at, &t->bytes); }

static void write_file(const char *path, const void *from, size_t bytes) {
    FILE *to = fopen(path, "wb");
    if (to == NULL || fwrite(from, 1, bytes, to) != bytes || fclose(to) != 0)
        wrong("%s can't be written", path);
}

static const uint64_t *row_of(unsigned message) { return now.row + 3 * message; }
static bool is_true(unsigned message, unsigned filter) { return row_of(message)[2] >> filter & 1; }

static bool some_refused(void) {
    for (unsigned k = 0; k < now.messages; k++)
        if (row_of(k)[0] != 0) return true;
    return false;
}

/* The next line of a text; false if there is none. Searching in lines that stand
 * alone is quick, for the sanitizer measures all that is searched. */
static bool take_line(const char **at, char *line) {
    size_t length = strcspn(*at, "\n");
    if (**at == '\0') return false;
    if (length >= MOST_LINE) wrong("a line has %zu bytes", length);
    memcpy(line, *at, length);
    line[length] = '\0';
    *at += length + ((*at)[length] == '\n');
    return true;
}

/* Whether this byte of the file has this place in some message. */
static bool is_place(uint64_t byte, uint64_t place) {
    for (unsigned k = 0; k < now.messages; k++)
        if (byte == now.start[k] + place && place <= now.length[k]) return true;
    return false;
}

/* ---- Verdicts on a file and on its messages ---------------------------------------- */

/* The number behind these words, if they come next. */
static bool take(const char **at, const char *words, uint64_t *number) {
    size_t bytes = strlen(words);
    if (strncmp(*at, words, bytes) != 0) return false;
    char *end;
    *number = strtoull(*at + bytes, &end, 10);
    if (end == *at + bytes) return false;
    *at = end + (strncmp(end, ", ", 2) == 0 ? 2 : 0);
    return true;
}

/* The second line about a refused file: filter, state or message, byte and cause. */
static void want_place(const char *line, const char *path, const fuzz_file *f) {
    uint64_t filter, state = 0, message = 0, byte;
    uint32_t id = 0;
    int in_body = -1;
    const char *at = line + strlen(path) + 2;
    bool has_filter = take(&at, "filter ", &filter), has_state = take(&at, "state ", &state);
    bool has_message = take(&at, "message ", &message);
    if (!take(&at, "byte ", &byte) || strncmp(at, ": ", 2) != 0 || at[2] == '\n')
        wrong("the place should be told: %.200s", line);
    if (byte < f->low || byte > f->high)
        wrong("the place should be from byte %zu to byte %zu", f->low, f->high);
    if (has_filter && (!fuzz_filter_of(f, byte, &id, &in_body) || id != filter))
        wrong("byte %" PRIu64 " is not of filter %" PRIu64, byte, filter);
    if (has_state != (in_body >= 0) || (has_state && (int)state != in_body))
        wrong("byte %" PRIu64 " is of state %d", byte, in_body);
    if (has_message && byte != 8 * message - 6)
        wrong("the entry of message %" PRIu64 " is at byte %" PRIu64, message, 8 * message - 6);
}

/* Two lines about a refused file: number and words, place and cause. */
static void want_verdict(const char *said_so, const char *path, const fuzz_file *f) {
    char head[2 * MOST_PATH + 8], number[32];
    snprintf(number, sizeof number, "refused, %u: ", f->refusal);
    snprintf(head, sizeof head, "%s: \n%s: ", path, path);
    want_heads(said_so, head);
    const char *line = strchr(said_so, '\n') + 1, *at = strstr(said_so, number);
    if (at == NULL || at > line) wrong("the first line should hold '%s'", number);
    want_place(line, path, f);
}

static void add_message_head(text *t, unsigned k) {
    const uint64_t *row = row_of(k);
    fprintf(t->to,
            "%s: message %u, byte %" PRIu64 " (byte %" PRIu64 " of the file), %" PRIu64 ": \n",
            day_path, k + 1, row[1], row[1] + now.start[k], row[0]);
}

/* The lines of all refused messages, and no other. */
static void want_messages(const char *lines) {
    text t;
    begin(&t);
    for (unsigned k = 0; k < now.messages; k++)
        if (row_of(k)[0] != 0) add_message_head(&t, k);
    fclose(t.to);
    want_heads(lines, t.at);
    free(t.at);
}

/* ---- run ------------------------------------------------------------------------------- */

static void add_rows(text *t) {
    for (unsigned k = 0; k < now.messages; k++) {
        fprintf(t->to, "%u %" PRIu64 " %" PRIu64, k + 1, row_of(k)[0], row_of(k)[1]);
        for (unsigned f = 0; f < now.filters; f++)
            if (is_true(k, f)) fprintf(t->to, " %" PRIu32, now.id[f]);
        fprintf(t->to, "\n");
    }
}

static void want_run(bool strict) {
    bool refused = now.refusal != 0;
    want_status(refused ? 1 : strict && some_refused() ? 3 : 0);
    if (!refused)
        want_messages(said.err);
    else if (now.refusal <= 7)
        want_verdict(said.err, book_path, &now.book);
    else
        want_verdict(said.err, day_path, &now.day);
}

static void try_run(void) {
    text t;
    bool strict = fuzz_chance(50);
    begin(&t);
    if (now.refusal == 0) add_rows(&t);
    fprintf(t.to, "total %u %u %" PRIu64 " %" PRIu64 " %" PRIu64 "\n", now.refusal,
            now.refusal == 0 ? now.messages : 0, now.asked, now.anew, now.filled);
    fclose(t.to);
    call("run", strict ? "--strict" : "", book_path, day_path, now.slots_word, NULL);
    want_run(strict);
    want_out(t.at, t.bytes);
    free(t.at);
    call("run", "--json", book_path, day_path, strict ? "--strict" : "", now.slots_word, NULL);
    want_run(strict);
    want_json();
    char head[32];
    snprintf(head, sizeof head, "{\"refusal\":%u,", now.refusal);
    want_heads(said.out, head);
}

/* ---- check ------------------------------------------------------------------------------- */

static void want_check(const char *path, const fuzz_file *f, bool is_day, bool strict) {
    want_status(f->refusal != 0 ? 1 : strict && is_day && some_refused() ? 3 : 0);
    if (f->refusal != 0) {
        want_verdict(said.out, path, f);
        return;
    }
    char head[MOST_PATH + 16];
    const char *end = strchr(said.out, '\n');
    if (end == NULL || strncmp(end - 8, "accepted", 8) != 0) wrong("it should be accepted");
    snprintf(head, sizeof head, "%s: message ", path);
    char *lines = lines_with(said.out, head);
    if (is_day) want_messages(lines);
    free(lines);
}

static void want_json_number(const char *name, uint64_t number) {
    char field[64];
    snprintf(field, sizeof field, "\"%s\":%" PRIu64, name, number);
    const char *at = strstr(said.out, field);
    if (at == NULL || (at[strlen(field)] >= '0' && at[strlen(field)] <= '9'))
        wrong("it should have the field %s", field);
}

/* An accepted file with an entry needs no option that says what it is. */
static void try_check(const char *path, const fuzz_file *f, bool is_day) {
    bool strict = fuzz_chance(50), has_entry = (is_day ? now.messages : now.filters) > 0;
    const char *kind = has_entry && fuzz_chance(50) ? "" : is_day ? "--day" : "--book";
    call("check", kind, path, strict ? "--strict" : "", NULL);
    want_check(path, f, is_day, strict);
    call("check", kind, "--json", path, NULL);
    want_status(f->refusal != 0);
    want_json();
    want_json_number("refusal", f->refusal);
    want_json_number("bytes", f->bytes < 1048577 ? f->bytes : 1048577);
}

/* ---- show, and make of what it shows --------------------------------------------------------- */

static unsigned named(void) {
    unsigned count = 0;
    for (unsigned label = 0; label < FUZZ_LABELS; label++)
        count += now.label[label] && label % 32768 != 0;
    return count;
}

/* A name for each label met. An element and an attribute may have the same. */
static void add_names(text *t) {
    static const char *const FORM[] = {"n%u", "Gr\xc3\xb6\xc3\x9f-%u", "_%u.x"};
    fprintf(t->to, "# names of the labels\n\n");
    for (unsigned label = 0; label < FUZZ_LABELS; label++)
        if (now.label[label] && label % 32768 != 0) {
            fprintf(t->to, "%u ", label);
            fprintf(t->to, FORM[label % 32768 % 3], label % 32768);
            fprintf(t->to, fuzz_chance(20) ? " # remark\n" : "\n");
        }
}

static void write_names(void) {
    text t;
    begin(&t);
    add_names(&t);
    fclose(t.to);
    write_file(names_path, t.at, t.bytes);
    free(t.at);
}

/* The label of a line of the text form, or null. */
static const char *label_of(const char *line) {
    const char *word = line + strspn(line, " "), *step = strstr(line, " STEP ");
    if (strncmp(word, "start ", 6) == 0) return word + 6;
    if (strncmp(word, "end ", 4) == 0) return word + 4;
    return strncmp(word, "text ", 5) != 0 && step != NULL ? step + 6 : NULL;
}

/* Where each label met has a name, a number is 0 or 32,768 only. */
static void want_names(const char *shown) {
    char line[MOST_LINE];
    while (take_line(&shown, line)) {
        const char *label = label_of(line);
        if (label == NULL || strncmp(label, "32768 ", 6) == 0) continue;
        if (*label >= '1' && *label <= '9') wrong("a label should have its name: %s", line);
    }
}

/* The file that make wrote has these bytes, and there is nothing on standard output. */
static void want_made(const char *from, size_t bytes) {
    char *made = malloc(bytes + 1);
    FILE *file = fopen(made_path, "rb");
    want_no_out();
    if (file == NULL || fread(made, 1, bytes + 1, file) != bytes || memcmp(made, from, bytes) != 0)
        wrong("%s should have the bytes", made_path);
    fclose(file);
    remove(made_path);
    free(made);
}

/* The bytes that a remark shows stand there in the file. */
static void want_bytes(const fuzz_file *f, size_t byte, const char *hex) {
    for (unsigned shown; sscanf(hex, "%2x", &shown) == 1 && strncmp(hex, "..", 2) != 0; hex += 3) {
        if (byte >= f->bytes || f->at[byte++] != shown)
            wrong("other bytes stand there: %.60s", hex);
        if (hex[2] != ' ') return;
    }
}

static void want_remark(const char *line, const fuzz_file *f) {
    uint64_t byte, place;
    const char *last = NULL;
    for (const char *at = line; (at = strstr(at, "# byte ")) != NULL; at++) last = at;
    if (last == NULL || !take(&last, "# byte ", &byte)) wrong("no remark: %s", line);
    if (take(&last, "place ", &place) && !is_place(byte, place))
        wrong("byte %" PRIu64 " is not at place %" PRIu64 " of a message", byte, place);
    if (strncmp(last, ": ", 2) == 0) want_bytes(f, byte, last + 2);
}

/* Behind each line its byte in the file, in a message its place, and its bytes. */
static void want_remarks(const char *shown, const fuzz_file *f) {
    char line[MOST_LINE];
    while (take_line(&shown, line)) want_remark(line, f);
}

/* The text of a day file says of each refused message where it is, and why. */
static void want_refused_here(const char *shown) {
    for (unsigned k = 0; k < now.messages; k++) {
        char words[80];
        const uint64_t *row = row_of(k);
        if (row[0] == 0) continue;
        shown = strstr(shown, "; refused here, ");
        snprintf(words, sizeof words, "; refused here, %" PRIu64 ": ", row[0]);
        if (shown == NULL || strncmp(shown++, words, strlen(words)) != 0)
            wrong("message %u should be refused by %" PRIu64, k + 1, row[0]);
    }
    if (strstr(shown, "; refused here, ") != NULL) wrong("no further message is refused");
}

/* The text of an accepted file, from which make gives the very bytes back. The
 * text is to be freed. */
static char *round_trip(const char *path, const fuzz_file *f, bool is_day, bool with_names) {
    bool has_entry = (is_day ? now.messages : now.filters) > 0;
    const char *kind = has_entry && fuzz_chance(50) ? "" : is_day ? "--day" : "--book";
    const char *names = with_names ? "--names" : "", *where = with_names ? names_path : "";
    call("show", names, where, kind, path, NULL);
    want_status(0);
    if (with_names) want_names(said.out);
    char *shown = strdup(said.out);
    if (strlen(shown) != said.out_bytes) wrong("a text should hold no byte 0");
    want_remarks(shown, f);
    if (is_day) want_refused_here(shown);
    bool to_file = fuzz_chance(10);
    give_input(shown, strlen(shown));
    call("make", "-", names, where, to_file ? made_path : "", NULL);
    want_status(0);
    if (to_file)
        want_made((const char *)f->at, f->bytes);
    else
        want_out((const char *)f->at, f->bytes);
    return shown;
}

static void try_json_show(const char *path, bool is_day, bool with_names) {
    const char *names = with_names ? "--names" : "", *where = with_names ? names_path : "";
    call("show", is_day ? "--day" : "--book", "--json", path, names, where, NULL);
    want_status(0);
    want_json();
}

/* One message alone comes back as a day file of one message. */
static void try_one_message(unsigned k) {
    char number[16];
    uint8_t head[10] = {1, 0, 10};
    text t;
    snprintf(number, sizeof number, "%u", k + 1);
    call("show", day_path, number, NULL);
    want_status(0);
    char *shown = strdup(said.out);
    for (unsigned byte = 0; byte < 4; byte++) head[6 + byte] = (uint8_t)(now.length[k] >> 8 * byte);
    begin(&t);
    fwrite(head, 1, sizeof head, t.to);
    fwrite(now.day.at + now.start[k], 1, now.length[k], t.to);
    fclose(t.to);
    give_input(shown, strlen(shown));
    call("make", "-", NULL);
    want_status(0);
    want_out(t.at, t.bytes);
    free(t.at);
    free(shown);
}

static void try_refused_show(const char *path, const fuzz_file *f, bool is_day) {
    call("show", is_day ? "--day" : "--book", fuzz_chance(50) ? "--json" : "", path, NULL);
    want_status(1);
    want_no_out();
    want_verdict(said.err, path, f);
}

/* ---- make of a text that was damaged ------------------------------------------------------------ */

static void swap_lines(char *at) {
    char *line = at;
    unsigned skip = fuzz_below(6);
    while (skip-- > 0 && strchr(line, '\n') != NULL) line = strchr(line, '\n') + 1;
    char *second = strchr(line, '\n');
    if (second == NULL || second[1] == '\0') return;
    size_t one = (size_t)(second + 1 - line), other = strcspn(second + 1, "\n");
    if (second[1 + other] != '\n') return;
    char *kept = strndup(line, one);
    memmove(line, second + 1, other + 1);
    memcpy(line + other + 1, kept, one);
    free(kept);
}

/* Changes, leaves out or puts in a byte, or exchanges lines. There is room for one more. */
static void damage_text(char *at, size_t *bytes) {
    static const char LIKELY[] = "0123456789 \n\"\\#@*->=<x-abkSTEPnd\t\xc3\xff";
    size_t where = fuzz_below((unsigned)*bytes);
    char byte = LIKELY[fuzz_below(sizeof LIKELY - 1)];
    switch (fuzz_below(4)) {
    case 0: at[where] = byte; break;
    case 1: memmove(at + where, at + where + 1, (*bytes)-- - where); break;
    case 2:
        memmove(at + where + 1, at + where, ++*bytes - where);
        at[where] = byte;
        break;
    default: swap_lines(at); break;
    }
}

static bool is_blank(char c) { return c == ' ' || c == '\t' || c == '\r'; }

/* A byte that goes on with a character of UTF-8, or stands where none begins. */
static bool goes_on(const char *at, const char *end) {
    return at < end && ((unsigned char)*at & 0xC0) == 0x80;
}

/* Whether a word begins, a remark begins, an escape stands or the line ends here. A
 * word begins behind a blank or a closing quote. */
static bool is_start(const char *at, const char *line, const char *end) {
    if (at == line || at == end) return true;
    return strchr("\n#\\", *at) != NULL || is_blank(at[-1]) || at[-1] == '"';
}

/* Whether there is something to speak of at this column. */
static bool is_spot(const char *line, const char *end, uint64_t column) {
    const char *at = line;
    for (; column > 1; column--) {
        while (goes_on(at, end)) at++;
        if (at == end || *at == '\n') return false;
        at++;
    }
    while (!is_start(at, line, end) && goes_on(at, end)) at++;
    return is_start(at, line, end);
}

/* Line and column are in the text, the column at most one past the line's characters. */
static void want_spot(const char *name, const char *at, size_t bytes) {
    uint64_t line, column;
    const char *spot = said.err, *end = at + bytes;
    if (strncmp(spot, name, strlen(name)) != 0) wrong("the text should be named %s", name);
    spot += strlen(name);
    if (!take(&spot, ": line ", &line) || !take(&spot, "column ", &column) ||
        strncmp(spot, ": ", 2) != 0)
        wrong("a line and a column should be told");
    for (uint64_t k = 1; k < line; k++) {
        at = memchr(at, '\n', (size_t)(end - at));
        if (at == NULL) wrong("the text has %" PRIu64 " lines", k);
        at++;
    }
    if (line < 1 || column < 1 || !is_spot(at, end, column))
        wrong("line %" PRIu64 " has nothing at column %" PRIu64 " to speak of", line, column);
}

static void try_bad_text(const char *shown, bool is_day, bool with_names) {
    size_t bytes = strlen(shown);
    unsigned times = 1 + fuzz_below(3);
    char *text = malloc(bytes + times + 1);
    memcpy(text, shown, bytes + 1);
    for (unsigned k = 0; k < times && bytes > 0; k++) damage_text(text, &bytes);
    give_input(text, bytes);
    call("make", with_names ? "--names" : "", with_names ? names_path : "", "-", NULL);
    if (said.status > 1) wrong("it should end with 0 or 1");
    texts[said.status]++;
    if (said.status == 1) {
        want_no_out();
        want_spot("standard input", text, bytes);
    } else {
        const uint8_t *made = (const uint8_t *)said.out;
        unsigned refusal = is_day ? fuzz_day_refusal(made, said.out_bytes)
                                  : fuzz_book_refusal(made, said.out_bytes);
        if (refusal != 0) wrong("what was made is refused by %u", refusal);
    }
    free(text);
}

/* A bad text leaves a file as it was. */
static void try_bad_text_to_file(const char *shown) {
    char *cut = strndup(shown, strlen(shown) / 2);
    write_file(made_path, "kept", 4);
    give_input(cut, strlen(cut));
    call("make", "-", made_path, NULL);
    if (said.status == 1)
        want_made("kept", 4);
    else
        want_status(0);
    free(cut);
}

static void try_bad_names(void) {
    text t;
    begin(&t);
    add_names(&t);
    fprintf(t.to, " ");
    fclose(t.to);
    size_t bytes = t.bytes - 1;
    damage_text(t.at, &bytes);
    write_file(names_path, t.at, bytes);
    call("show", "--names", names_path, "--book", book_path, NULL);
    if (said.status == 0) want_remarks(said.out, &now.book);
    if (said.status != 0) want_status(1);
    if (said.status != 0) want_spot(names_path, t.at, bytes);
    if (said.status != 0) want_no_out();
    free(t.at);
}

static void try_show(const char *path, const fuzz_file *f, bool is_day) {
    if (f->refusal != 0) {
        try_refused_show(path, f, is_day);
        return;
    }
    bool with_names = fuzz_chance(7) && named() <= MOST_NAMED;
    if (with_names) write_names();
    char *shown = round_trip(path, f, is_day, with_names);
    try_bad_text(shown, is_day, with_names);
    try_bad_text(shown, is_day, false);
    if (fuzz_chance(10)) try_bad_text_to_file(shown);
    free(shown);
    if (fuzz_chance(35)) try_json_show(path, is_day, with_names);
    if (is_day && now.messages > 0) try_one_message(fuzz_below(now.messages));
    if (!is_day && fuzz_chance(5) && named() <= MOST_NAMED) try_bad_names();
}

/* ---- A file of which no option says what it is ---------------------------------------- */

/* Each verdict is a line of JSON. */
static void want_json_lines(unsigned most) {
    const char *at = said.out, *end = at + said.out_bytes;
    unsigned lines = 0;
    for (; at < end; lines++) {
        const char *stop = memchr(at, '\n', (size_t)(end - at));
        if (stop == NULL || !is_json_line(at, (size_t)(stop + 1 - at))) wrong("this is no JSON");
        at = stop + 1;
    }
    if (lines < 1 || lines > most) wrong("there should be a verdict, at most %u", most);
}

/* It is taken for what it is accepted as. A bad one may be taken for either; of one
 * that could be both, which has no entry, nothing tells. */
static void try_untold(const char *path, const fuzz_file *f) {
    bool as_book = fuzz_book_refusal(f->at, f->bytes) == 0;
    bool as_day = fuzz_day_refusal(f->at, f->bytes) == 0;
    call("check", path, "--json", NULL);
    want_status(as_book || as_day ? 0 : 1);
    want_json_lines(as_book == as_day ? 2 : 1);
    call("show", path, NULL);
    if (as_book != as_day)
        want_status(0);
    else if (as_book || said.status != 1)
        want_status(2);
    if (said.status != 0) want_no_out();
}

/* ---- show --memory --------------------------------------------------------------------------------- */

static void add_set(text *t, const uint64_t *set) {
    bool some = false;
    for (unsigned k = 0; k < 512; k++)
        if (set[k / 64] >> k % 64 & 1) {
            fprintf(t->to, "%s%u", some ? " " : "", k);
            some = true;
        }
    if (!some) fprintf(t->to, "none");
}

static void want_memory(void) {
    text t;
    char head[160];
    snprintf(head, sizeof head,
             "memory of %u slots: asked %" PRIu64 ", worked out anew %" PRIu64 ", filled %" PRIu64
             "\n",
             now.slots, now.asked, now.anew, now.filled);
    if (strncmp(said.out, head, strlen(head)) != 0) wrong("the first line should be: %s", head);
    begin(&t);
    for (unsigned k = 0; k < now.filled; k++) {
        const uint64_t *slot = now.memory + FUZZ_SLOT_NUMBERS * k;
        fprintf(t.to, "slot %u: %" PRIu64 " with states ", k, slot[8]);
        add_set(&t, slot);
        fprintf(t.to, " -> ");
        add_set(&t, slot + 9);
        fprintf(t.to, "\n");
    }
    fclose(t.to);
    char *slots = lines_with(said.out, "slot ");
    if (strcmp(slots, t.at) != 0) wrong("the slots should be:\n%.500s", t.at);
    free(slots);
    free(t.at);
}

static void try_memory(void) {
    bool json = fuzz_chance(50);
    call("show", "--memory", book_path, json ? "--json" : "", day_path, now.slots_word, NULL);
    want_status(now.refusal != 0);
    if (now.refusal != 0)
        want_no_out();
    else if (json)
        want_json();
    else
        want_memory();
}

/* ---- why ---------------------------------------------------------------------------------------------- */

/* Each filter's verdict, and behind it the reason's first line, which is state 0's at the root. */
static void want_filters(unsigned message, unsigned first, unsigned end) {
    const char *at = said.out;
    for (unsigned f = first; f < end; f++) {
        char line[120];
        bool yes = is_true(message, f);
        snprintf(line, sizeof line,
                 "\nfilter %" PRIu32 ": %s by the proved run, %s by the match rule\n  0 ",
                 now.id[f], yes ? "true" : "not true", yes ? "true" : "not true");
        at = strstr(at, line);
        if (at == NULL) wrong("there should be the lines:%s", line);
        at += strlen(line);
        const char *root = strstr(at, yes ? " at /: yes, " : " at /: no, ");
        if (root == NULL || root > strchr(at, '\n')) wrong("the reason should begin at the root");
    }
    char *lines = lines_with(said.out, "filter ");
    unsigned count = 0;
    for (const char *k = lines; *k != '\0'; k++) count += *k == '\n';
    if (count != end - first) wrong("there should be %u filters", end - first);
    free(lines);
}

/* Each line of a reason is of a node, which begins with a start in this message. */
static void want_nodes(unsigned message) {
    char line[MOST_LINE];
    size_t start = now.start[message], end = start + now.length[message];
    for (const char *left = said.out; take_line(&left, line);) {
        uint64_t byte;
        const char *at = strstr(line, ", byte ");
        if (at == NULL) continue;
        if (!take(&at, ", byte ", &byte) || strncmp(at, ": ", 2) != 0) wrong("no byte: %s", line);
        if (byte < start || byte >= end || now.day.at[byte] != 1)
            wrong("byte %" PRIu64 " is no start in the message", byte);
    }
}

static void want_why(unsigned message, unsigned first, unsigned end) {
    want_status(0);
    if (row_of(message)[0] == 0) {
        want_filters(message, first, end);
        want_nodes(message);
        return;
    }
    text t;
    begin(&t);
    add_message_head(&t, message);
    fclose(t.to);
    if (strncmp(said.out, t.at, t.bytes - 1) != 0) wrong("the refusal should be told: %s", t.at);
    if (strstr(said.out, "\nfilter ") != NULL) wrong("a refused message has no filter");
    free(t.at);
}

static void want_json_why(unsigned message, unsigned first, unsigned end) {
    want_status(0);
    want_json();
    want_json_number("refusal", row_of(message)[0]);
    want_json_number("place", row_of(message)[1]);
    for (unsigned f = first; f < end && row_of(message)[0] == 0; f++) {
        char verdict[120];
        const char *yes = is_true(message, f) ? "true" : "false";
        snprintf(verdict, sizeof verdict, "{\"filter\":%" PRIu32 ",\"proved\":%s,\"rule\":%s,",
                 now.id[f], yes, yes);
        if (strstr(said.out, verdict) == NULL) wrong("it should have %s", verdict);
    }
}

static void try_why(unsigned message, bool with_names) {
    char number[16], id[16];
    const char *names = with_names ? "--names" : "", *where = with_names ? names_path : "";
    const char *all = fuzz_chance(30) ? "--all" : "";
    snprintf(number, sizeof number, "%u", message + 1);
    call("why", all, names, where, book_path, day_path, number, NULL);
    want_why(message, 0, now.filters);
    if (fuzz_chance(30)) {
        call("why", "--json", all, book_path, day_path, number, names, where, NULL);
        want_json_why(message, 0, now.filters);
    }
    if (now.filters == 0) return;
    unsigned filter = fuzz_below(now.filters);
    snprintf(id, sizeof id, "%" PRIu32, now.id[filter]);
    call("why", book_path, day_path, number, id, all, NULL);
    want_why(message, filter, filter + 1);
}

static void try_whys(void) {
    if (now.refusal != 0) {
        call("why", fuzz_chance(50) ? "--json" : "", book_path, day_path, "1", NULL);
        want_status(1);
        want_no_out();
        return;
    }
    bool with_names = fuzz_chance(3) && named() <= MOST_NAMED;
    if (with_names) write_names();
    for (unsigned k = 0; k < now.messages && k < MOST_WHYS; k++) try_why(k, with_names);
}

/* ---- All of it ------------------------------------------------------------------------------------------ */

static void count_input(void) {
    ways[now.made]++;
    refusals[now.book.refusal]++;
    refusals[now.day.refusal]++;
    for (unsigned k = 0; k < now.messages; k++) refusals[row_of(k)[0]]++;
}

static void try_input(uint64_t seed) {
    begin_input(seed);
    fuzz_make(seed, &now);
    count_input();
    write_file(book_path, now.book.at, now.book.bytes);
    write_file(day_path, now.day.at, now.day.bytes);
    try_run();
    try_check(book_path, &now.book, false);
    try_check(day_path, &now.day, true);
    try_show(book_path, &now.book, false);
    try_show(day_path, &now.day, true);
    if (fuzz_chance(20)) try_untold(book_path, &now.book);
    if (fuzz_chance(20)) try_untold(day_path, &now.day);
    if (fuzz_chance(30)) try_memory();
    try_whys();
    if (now.refusal == 0 && now.messages > 0 && now.filters > 0 && fuzz_chance(25)) {
        fuzz_words(&now, book_path, day_path);
        words++;
    }
}

static bool came_up(const char *what, unsigned number, uint64_t times) {
    if (times == 0) printf("fuzz: %s %u never came up\n", what, number);
    return times > 0;
}

static bool all_came_up(void) {
    bool all = came_up("the part of wrong words,", 0, words);
    for (unsigned k = 0; k < NUMBERS_END; k++)
        if (k <= 10 || k >= 21) all &= came_up("refusal", k, refusals[k]);
    for (unsigned k = 0; k < 4; k++) all &= came_up("exit status", k, statuses[k]);
    for (unsigned k = 0; k < MADE_WAYS; k++) all &= came_up("the way of making", k, ways[k]);
    for (unsigned k = 0; k < 2; k++) all &= came_up("a damaged text with status", k, texts[k]);
    return all;
}

/* The files' names must not tell what they are, and one is hard to write as JSON. */
static void choose_paths(const char *folder) {
    snprintf(book_path, sizeof book_path, "%s/one", folder);
    snprintf(day_path, sizeof day_path, "%s/oth\"er\xff", folder);
    snprintf(names_path, sizeof names_path, "%s/names", folder);
    snprintf(made_path, sizeof made_path, "%s/made", folder);
}

int main(int count, char **word) {
    if (count != 4) {
        fprintf(stderr, "usage: command_fuzz SEED COUNT FOLDER\n");
        return 2;
    }
    uint64_t seed = strtoull(word[1], NULL, 10), inputs = strtoull(word[2], NULL, 10);
    begin_calls();
    choose_paths(word[3]);
    for (uint64_t k = 0; k < inputs; k++) try_input(seed + k);
    begin_input(seed + inputs); /* none: what is found behind the last is of all of them */
    if (!all_came_up()) return 1;
    printf("fuzz: %" PRIu64 " inputs, %" PRIu64 " calls, each as the second engine says\n", inputs,
           calls);
    return 0;
}
