/* A day file's bytes: its table, and where a refused file is wrong. See command.h;
 * docs/FORMATS.md has the layout. */
#include "command.h"

static const uint8_t *entry(const uint8_t *day, unsigned message) { return day + 2 + 8 * message; }

/* Messages are counted from 0 here. */
size_t message_start(const uint8_t *day, unsigned message) {
    return four_bytes(entry(day, message));
}

size_t message_bytes(const uint8_t *day, unsigned message) {
    return four_bytes(entry(day, message) + 4);
}

static const fault FINE = {0};

static fault table_cut(const uint8_t *day, size_t bytes) {
    if (bytes < 2)
        return found(8, bytes, "the file has %zu of the 2 bytes that say how many messages", bytes);
    size_t contents = 2 + 8 * (size_t)two_bytes(day);
    if (bytes < contents)
        return found(8, bytes, "%u messages need a table of %zu bytes, and the file has %zu",
                     two_bytes(day), contents, bytes);
    if (bytes >= MOST_DAY_READ)
        return found(8, MOST_DAY_READ - 1, "the file has more than 1,048,576 bytes");
    return FINE;
}

static fault messages_astray(const uint8_t *day, size_t bytes) {
    uint64_t at = 2 + 8 * (uint64_t)two_bytes(day);
    for (unsigned k = 0; k < two_bytes(day); k++) {
        if (message_start(day, k) != at) {
            fault f = found(10, 2 + 8 * k, "it is said to start at byte %zu, and must start at %zu",
                            message_start(day, k), (size_t)at);
            f.has_message = true;
            f.message = k + 1;
            return f;
        }
        at += message_bytes(day, k);
    }
    if (at < bytes) return found(10, (size_t)at, "the last message ends here, and bytes follow");
    if (at == bytes) return FINE;
    return found(10, bytes, "the file ends here, and its last message only at byte %zu",
                 (size_t)at);
}

/* Each check is made over the whole file before the next. */
fault day_fault(const uint8_t *day, size_t bytes) {
    fault f = table_cut(day, bytes);
    if (f.number == 0 && two_bytes(day) > ESQ_MOST_MESSAGES)
        f = found(9, 0, "it says that it has %u messages", two_bytes(day));
    if (f.number == 0) f = messages_astray(day, bytes);
    return f;
}
