/* See shrink.h. Everything is tried in turn until a round brings nothing. */
#include "shrink.h"
#include "make.h"

#include <stdlib.h>
#include <string.h>
#include <time.h>

static bool (*still_differs)(const test_case *);
static time_t stop_at;

/* Takes the smaller case in place of the case if the engines still disagree. */
static bool take(test_case *c, test_case *smaller) {
    bool better = time(NULL) < stop_at && still_differs(smaller);
    if (better) {
        drop_case(c);
        *c = copy_case(smaller);
    }
    drop_case(smaller);
    return better;
}

static bool set_number(test_case *c, uint64_t *field, uint64_t to) {
    if (*field <= to) return false;
    test_case smaller = copy_case(c);
    *(uint64_t *)((char *)&smaller + ((char *)field - (char *)c)) = to;
    return take(c, &smaller);
}

static bool shrink_numbers(test_case *c) {
    bool any = false;
    uint64_t *field[] = {&c->memory, &c->answers, &c->workspace, &c->filled, &c->asked, &c->anew};
    for (unsigned i = 0; i < sizeof field / sizeof field[0]; i++) {
        bool again = true;
        while (again) {
            uint64_t now = *field[i], step = now / 2;
            for (again = false; step > 0 && !again; step /= 2)
                again = set_number(c, field[i], now - step);
            any = any || again;
        }
        any = set_number(c, field[i], 0) || any;
    }
    any = set_number(c, &c->workspace, LEVEL_NUMBERS) || any;
    return any;
}

/* Leaves messages out, many at once first. */
static bool drop_messages(test_case *c, day_plan *p, unsigned from, unsigned count) {
    size_t start = 0, len = 0;
    for (unsigned m = 0; m < from; m++) start += p->length[m];
    for (unsigned m = from; m < from + count; m++) len += p->length[m];
    memmove(p->bodies.at + start, p->bodies.at + start + len, p->bodies.len - start - len);
    p->bodies.len -= len;
    p->messages -= count;
    memmove(p->length + from, p->length + from + count, (p->messages - from) * sizeof *p->length);
    test_case smaller = copy_case(c);
    write_day(p, &smaller.day);
    return take(c, &smaller);
}

/* Leaves bytes of one message out. */
static bool cut_message(test_case *c, day_plan *p, unsigned message, size_t from, size_t count) {
    size_t start = from;
    for (unsigned m = 0; m < message; m++) start += p->length[m];
    memmove(p->bodies.at + start, p->bodies.at + start + count, p->bodies.len - start - count);
    p->bodies.len -= count;
    p->length[message] -= (uint32_t)count;
    test_case smaller = copy_case(c);
    write_day(p, &smaller.day);
    return take(c, &smaller);
}

static bool shrink_messages(test_case *c, day_plan *p) {
    if (!plan_of_day(&c->day, p)) return false;
    bool any = false;
    for (unsigned count = p->messages; count > 0; count /= 2)
        for (unsigned from = 0; from + count <= p->messages;) {
            bool dropped = drop_messages(c, p, from, count);
            any = any || dropped;
            if (!dropped) from += count;
            plan_of_day(&c->day, p);
        }
    for (unsigned m = 0; m < p->messages; m++)
        for (size_t count = p->length[m]; count > 0; count = count > 9 ? count / 2 : count - 1)
            for (size_t from = 0; from + count <= p->length[m];) {
                bool cut = cut_message(c, p, m, from, count);
                any = any || cut;
                if (!cut) from += count > 9 ? count : 1;
                plan_of_day(&c->day, p);
            }
    return any;
}

static bool shrink_filters(test_case *c) {
    book_plan p;
    bool any = false;
    for (unsigned f = 0; plan_of_book(&c->book, &p) && f < p.filters;) {
        test_case smaller = copy_case(c);
        drop_filter(&p, f);
        write_book(&p, &smaller.book);
        if (take(c, &smaller))
            any = true;
        else
            f++;
    }
    return any;
}

/* An input that is not well-formed is only cut from its end. */
static bool cut_end(test_case *c, bool day) {
    bool any = false;
    for (size_t count = day ? c->day.len : c->book.len; count > 0; count /= 2) {
        bool again = true;
        while (again && count <= (day ? c->day.len : c->book.len)) {
            test_case smaller = copy_case(c);
            *(day ? &smaller.day.len : &smaller.book.len) -= count;
            again = take(c, &smaller);
            any = any || again;
        }
    }
    return any;
}

static bool shrink_slots(test_case *c) {
    bool any = false;
    for (size_t from = 0; from + SLOT_NUMBERS <= c->slots.len;) {
        test_case smaller = copy_case(c);
        memmove(smaller.slots.at + from, smaller.slots.at + from + SLOT_NUMBERS,
                (smaller.slots.len - from - SLOT_NUMBERS) * sizeof *smaller.slots.at);
        smaller.slots.len -= SLOT_NUMBERS;
        if (smaller.filled > 0) smaller.filled--;
        if (take(c, &smaller))
            any = true;
        else
            from += SLOT_NUMBERS;
    }
    return any;
}

void shrink(test_case *c, bool (*differs)(const test_case *)) {
    static day_plan p;
    still_differs = differs;
    stop_at = time(NULL) + 20;
    bool again = true;
    while (again && time(NULL) < stop_at) {
        again = shrink_messages(c, &p);
        again = shrink_filters(c) || again;
        again = cut_end(c, true) || again;
        again = cut_end(c, false) || again;
        again = shrink_slots(c) || again;
        again = shrink_numbers(c) || again;
    }
}
