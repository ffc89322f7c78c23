// What the extensions of SQLite and PostgreSQL share: replicas that are texts, calls with the values of SQL, whose truth values may come as
// numbers, and the number that a state file begins with. It is trusted, as the bindings are.
#ifndef KATARA_SQL_H
#define KATARA_SQL_H
#include "katara.h"
#include <stdbool.h>

// An operation or query has at most so many arguments.
enum { KATARA_MOST_VALUES = 4 };
// A type or a design in a file has at most so many bytes, as the commands read them.
enum { KATARA_MOST_BYTES = 16777216 };

// What is written of a replica: its state file, its share file, its marks, the keys of a query, those of them at which it has something
// beyond a known state, or a packet of what it has beyond a known share.
enum katara_part { KATARA_ITS_STATE, KATARA_ITS_SHARE, KATARA_ITS_MARKS, KATARA_ITS_KEYS, KATARA_ITS_KEYS_BEYOND, KATARA_ITS_DIFFERENCE };

typedef struct {
    enum katara_part part;
    // the number of the query, and the bytes of what is known
    uint32_t query;
    const uint8_t *known;
    size_t known_length;
} katara_wanted;

static inline uint32_t katara_sql_write(katara *k, const katara_wanted *it, uint8_t *out, size_t room, size_t *length) {
    switch (it->part) {
        case KATARA_ITS_STATE: return katara_state(k, out, room, length);
        case KATARA_ITS_SHARE: return katara_share(k, out, room, length);
        case KATARA_ITS_MARKS: return katara_marks(k, out, room, length);
        case KATARA_ITS_KEYS: return katara_keys(k, it->query, out, room, length);
        case KATARA_ITS_KEYS_BEYOND: return katara_keys_beyond(k, it->query, it->known, it->known_length, out, room, length);
        default: return katara_difference(k, it->known, it->known_length, out, room, length);
    }
}

// Becomes the replica in a state file or a share file, and tells as which it is to be written again. No text is both: a share file has more
// than one line, and a state file is one value, though whoever wrote it may have put that into lines.
static inline uint32_t katara_sql_restore(katara *k, const uint8_t *bytes, size_t length, enum katara_part *part) {
    const uint8_t *line = length ? memchr(bytes, '\n', length) : NULL;
    *part = KATARA_ITS_STATE;
    if (line && line + 1 < bytes + length) {
        uint32_t code = katara_restore_share(k, bytes, length);
        if (code == KATARA_DONE) *part = KATARA_ITS_SHARE;
        if (code != KATARA_BAD_SHARE) return code;
    }
    return katara_restore(k, bytes, length);
}

// A value that no call takes, for one that is none of a truth value, a number of 64 bits and a name.
static inline katara_value katara_no_value(void) {
    katara_value v = {3, 0, 0, {0}};
    return v;
}

// A name from outside: one with a zero byte is no name, though a part of it may be.
static inline katara_value katara_sql_name(const char *name, size_t length) {
    return length && memchr(name, 0, length) ? katara_no_value() : katara_name(name, length);
}

static inline bool katara_may_be_truth(const katara_value *v) {
    return v->kind == KATARA_NUMBER && v->high == 0 && v->low < 2;
}

// Makes a call by the number of an operation (if `time` isn't null) or a query. SQLite has no truth values, so 0 and 1 are passed as
// numbers, and, if the call takes no such values, as truth values too. Each operation and query has its sorts, so at most one of these
// calls is one that it takes; and a call that is refused changes nothing.
static inline uint32_t katara_sql_call(katara *k, uint32_t number, katara_value *passed, size_t count, uint64_t *time, katara_value *answer) {
    uint32_t code = KATARA_NO_CALL;
    unsigned may = 0;
    for (size_t i = 0; i < count; i++) may |= katara_may_be_truth(&passed[i]) ? 1u << i : 0;
    for (unsigned truths = 0; code == KATARA_NO_CALL && truths < 1u << count; truths++) {
        if (truths & ~may) continue;
        for (size_t i = 0; i < count; i++)
            if (may & 1u << i) passed[i].kind = truths & 1u << i ? KATARA_TRUTH : KATARA_NUMBER;
        code = time ? katara_do_numbered(k, number, passed, count, time) : katara_ask_numbered(k, number, passed, count, answer);
    }
    return code;
}

// The replica's number in a state file that the library wrote, or 0 if the text isn't written as the library does.
static inline uint32_t katara_number_of(const uint8_t *state, size_t length) {
    static const char head[] = "[\"state\",1,";
    size_t at = sizeof head - 1;
    uint32_t number = 0;
    if (length <= at || memcmp(state, head, at)) return 0;
    for (; at < length && number < 100 && state[at] >= '0' && state[at] <= '9'; at++) number = 10 * number + (state[at] - '0');
    return at < length && state[at] == ',' && number < 33 ? number : 0;
}

// The text of a number, in a buffer of 48 bytes; where it begins there.
static inline const char *katara_digits(const katara_value *v, char *out) {
    __int128 number = (__int128)((unsigned __int128)v->high << 64 | v->low);
    unsigned __int128 left = number < 0 ? -(unsigned __int128)number : (unsigned __int128)number;
    char *at = out + 47;
    *at = 0;
    do *--at = (char)('0' + (int)(left % 10));
    while (left /= 10);
    if (number < 0) *--at = '-';
    return at;
}
#endif
