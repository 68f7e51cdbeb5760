/* Well-formed JSON, by RFC 8259, and nothing else. See fuzz.h. */
#include "fuzz.h"

#include <string.h>

enum { DEEPEST = 8 };

typedef struct {
    const char *at, *end;
} place;

static bool take(place *p, char c) {
    if (p->at == p->end || *p->at != c) return false;
    p->at++;
    return true;
}

static bool take_word(place *p, const char *word) {
    size_t bytes = strlen(word);
    if ((size_t)(p->end - p->at) < bytes || memcmp(p->at, word, bytes) != 0) return false;
    p->at += bytes;
    return true;
}

static bool take_digits(place *p) {
    const char *from = p->at;
    while (p->at < p->end && *p->at >= '0' && *p->at <= '9') p->at++;
    return p->at > from;
}

/* The command prints whole numbers only. */
static bool take_number(place *p) {
    take(p, '-');
    bool zero = p->at < p->end && *p->at == '0';
    const char *from = p->at;
    return take_digits(p) && !(zero && p->at - from > 1);
}

static bool take_one_of(place *p, const char *some) {
    return p->at < p->end && *p->at != '\0' && strchr(some, *p->at++) != NULL;
}

static bool take_hex(place *p) {
    for (int k = 0; k < 4; k++)
        if (!take_one_of(p, "0123456789abcdefABCDEF")) return false;
    return true;
}

static bool take_escape(place *p) {
    return take(p, 'u') ? take_hex(p) : take_one_of(p, "\"\\/bfnrt");
}

/* The bytes behind the first of a character; no surrogate, nothing longer than need be. */
static bool take_tail(place *p, unsigned first) {
    static const uint32_t LEAST[] = {0, 0x80, 0x800, 0x10000};
    if (first < 0xC2 || first > 0xF4) return false;
    int tail = first < 0xE0 ? 1 : first < 0xF0 ? 2 : 3;
    uint32_t character = first & (0x3Fu >> tail);
    for (int k = 0; k < tail; k++) {
        if (p->at == p->end || ((unsigned char)*p->at & 0xC0) != 0x80) return false;
        character = character << 6 | ((unsigned char)*p->at++ & 0x3F);
    }
    if (character < LEAST[tail] || character > 0x10FFFF) return false;
    return character < 0xD800 || character > 0xDFFF;
}

static bool take_string(place *p) {
    if (!take(p, '"')) return false;
    while (p->at < p->end && *p->at != '"') {
        unsigned c = (unsigned char)*p->at++;
        if (c < 0x20 || (c == '\\' && !take_escape(p)) || (c >= 0x80 && !take_tail(p, c)))
            return false;
    }
    return take(p, '"');
}

static bool take_value(place *p, int depth);

static bool take_row(place *p, int depth, bool named, char end) {
    if (take(p, end)) return true;
    do {
        if (named && (!take_string(p) || !take(p, ':'))) return false;
        if (!take_value(p, depth + 1)) return false;
    } while (take(p, ','));
    return take(p, end);
}

static bool take_value(place *p, int depth) {
    if (depth > DEEPEST || p->at == p->end) return false;
    if (take(p, '{')) return take_row(p, depth, true, '}');
    if (take(p, '[')) return take_row(p, depth, false, ']');
    if (*p->at == '"') return take_string(p);
    return take_word(p, "true") || take_word(p, "false") || take_word(p, "null") || take_number(p);
}

bool is_json_line(const char *text, size_t bytes) {
    place p = {text, text + bytes};
    return take_value(&p, 0) && take(&p, '\n') && p.at == p.end;
}
