// Replicas of designs whose proof was accepted, as functions of SQLite over libkatara. docs/howto/sqlite.md shows them; they are trusted,
// as the bindings of other languages are.
//
//     katara_new(type, design, number)                a new replica's state
//     katara_do(type, design, state, call)            the state after an operation that is a text, as a script has it: add "milk" 2
//     katara_do(type, design, state, name, value..)   the same by a name and values: 'add', 'milk', 2
//     katara_ask(type, design, state, call)           the answer to a query
//     katara_ask(type, design, state, name, value..)
//     katara_merge(type, design, state, other)        the state after another replica's state was merged
//     katara_merge(type, design, state)               an aggregate: all states merged
//     katara_keys(type, design, state, query)         the keys at which a query may find something, as a list in JSON
//     katara_keys_beyond(type, design, state, query, known)    those at which there is something that a known state lacks
//
//     katara_new_share(type, design, number)                   a new replica's share: its marks and its state
//     katara_difference(type, design, share, known)            a packet of what it has beyond a known share; of all, without one
//     katara_merge_difference(type, design, share, packet)     the share after a packet was merged
//     katara_marks(type, design, share), katara_state(type, design, share)     its marks; its state
//
// `katara_do` and the questions take a share in place of a state too, and what was one stays one.
//
// A type with its design is opened, and so its proof checked, once: each connection keeps those that it used last.
#include "../sql.h"
#include <errno.h>
#include <limits.h>
#include <sqlite3ext.h>
#include <stdlib.h>
SQLITE_EXTENSION_INIT1

// how many types with their designs a connection keeps, and how many handles of one that no call uses
enum { KEPT = 8, IDLE = 2 };
// after a state with more bytes than these a handle is emptied, so that its memory isn't kept
enum { LARGE = 1 << 16 };

typedef struct {
    const uint8_t *bytes;
    size_t length;
} text;

// A type with a design whose proof was accepted for it.
typedef struct opened {
    struct opened *next;
    // the list, arguments of statements and aggregates that use it
    int uses;
    text type, design, fresh;
    katara idle[IDLE];
    int idles;
} opened;

// What a connection keeps: those that were used last come first.
typedef struct {
    opened *first;
    // functions that use it
    int uses;
} kept;

// Why a call did nothing. A code of SQLite's is told as it is.
typedef struct {
    uint32_t code;
    uint64_t condition, line;
    const char *words;
} fault;

static const fault NONE = {KATARA_DONE, 0, 0, NULL};
static const fault NO_MEMORY = {KATARA_NO_MEMORY, 0, 0, NULL};

static fault of_code(uint32_t code) { return (fault){code, 0, 0, NULL}; }

// (whether a merge changed anything isn't asked: the texts before and after tell it)
static fault merged_state(katara *k, text state) {
    uint32_t changed;
    return of_code(katara_merge(k, state.bytes, state.length, &changed));
}

static fault merged_packet(katara *k, text packet) {
    uint32_t changed;
    return of_code(katara_merge_difference(k, packet.bytes, packet.length, &changed));
}

static bool failed(const fault *f) { return f->words || f->code != KATARA_DONE; }

static void tell(sqlite3_context *context, const char *name, const fault *f) {
    uint8_t words[100];
    size_t length = 0;
    if (!f->words && f->code == KATARA_NO_MEMORY) return sqlite3_result_error_nomem(context);
    if (!f->words && katara_message(f->code, words, sizeof words, &length) != KATARA_DONE) return sqlite3_result_error_nomem(context);
    char *said = f->words ? sqlite3_mprintf("%s: %s", name, f->words)
        : f->code == KATARA_BAD_PROOF
        ? sqlite3_mprintf("%s: %.*s: condition %llu, line %llu", name, (int)length, words, f->condition, f->line)
        : sqlite3_mprintf("%s: %.*s", name, (int)length, words);
    if (!said) return sqlite3_result_error_nomem(context);
    sqlite3_result_error(context, said, -1);
    sqlite3_free(said);
}

// An argument's bytes: of a text, or of a blob.
static fault text_of(sqlite3_value *value, size_t most, text *out) {
    int type = sqlite3_value_type(value);
    if (type != SQLITE_TEXT && type != SQLITE_BLOB) return (fault){0, 0, 0, "a type, a design, a state, a share, a packet and a call are texts"};
    const void *bytes = type == SQLITE_TEXT ? (const void *)sqlite3_value_text(value) : sqlite3_value_blob(value);
    *out = (text){bytes, (size_t)sqlite3_value_bytes(value)};
    if (!bytes && out->length) return NO_MEMORY;
    if (!bytes && type == SQLITE_TEXT) return NO_MEMORY;
    if (!bytes) out->bytes = (const uint8_t *)"";
    return out->length > most ? (fault){0, 0, 0, "a type or a design has at most 16777216 bytes"} : NONE;
}

static bool same(text a, text b) { return a.length == b.length && (a.bytes == b.bytes || !memcmp(a.bytes, b.bytes, a.length)); }

static bool copied(text from, text *to) {
    uint8_t *bytes = sqlite3_malloc64(from.length + 1);
    if (bytes) memcpy(bytes, from.bytes, from.length);
    *to = (text){bytes, from.length};
    return bytes;
}

// == Handles

static uint32_t open_handle(katara *k, text type, text design, uint32_t number, fault *place) {
    k->at = NULL;
    place->condition = place->line = 0;
    return place->code = katara_open(k, type.bytes, type.length, design.bytes, design.length, number, &place->condition, &place->line);
}

static void let_go(void *at) {
    opened *of = at;
    if (--of->uses) return;
    while (of->idles) katara_free(&of->idle[--of->idles]);
    sqlite3_free((void *)of->type.bytes);
    sqlite3_free((void *)of->design.bytes);
    sqlite3_free((void *)of->fresh.bytes);
    sqlite3_free(of);
}

// A handle with any replica of the design.
static fault take_handle(opened *of, katara *k) {
    fault f = NONE;
    if (of->idles) {
        *k = of->idle[--of->idles];
        of->idle[of->idles].at = NULL;
        return NONE;
    }
    open_handle(k, of->type, of->design, 1, &f);
    return f;
}

// Keeps a handle that no call uses any more, with `used` bytes of a state.
static void give_back(opened *of, katara *k, size_t used) {
    bool keeps = of->idles < IDLE && (used < LARGE || katara_restore(k, of->fresh.bytes, of->fresh.length) == KATARA_DONE);
    if (keeps) of->idle[of->idles++] = *k;
    else katara_free(k);
    k->at = NULL;
}

static const katara_wanted ITS_STATE = {KATARA_ITS_STATE, 0, NULL, 0};

// What is wanted of a replica, in memory of SQLite's.
static fault text_in(katara *k, const katara_wanted *wanted, size_t guess, text *out) {
    size_t length = guess + 256;
    for (;;) {
        uint8_t *bytes = sqlite3_malloc64(length);
        if (!bytes) return NO_MEMORY;
        size_t room = length;
        uint32_t code = katara_sql_write(k, wanted, bytes, room, &length);
        if (code == KATARA_DONE) {
            *out = (text){bytes, length};
            return NONE;
        }
        sqlite3_free(bytes);
        if (code != KATARA_ROOM) return of_code(code);
    }
}

// == What a connection keeps

// Opens a type with its design, and keeps it; the one that was used longest ago goes, if there are too many.
static fault open_kept(kept *list, text type, text design, opened **out) {
    katara k;
    fault f = NONE;
    opened *of = sqlite3_malloc64(sizeof *of);
    if (!of) return NO_MEMORY;
    *of = (opened){.uses = 1};
    if (!copied(type, &of->type) || !copied(design, &of->design)) f = NO_MEMORY;
    else if (open_handle(&k, type, design, 1, &f) == KATARA_DONE) {
        of->idle[of->idles++] = k;
        f = text_in(&of->idle[0], &ITS_STATE, 0, &of->fresh);
    }
    if (failed(&f)) {
        let_go(of);
        return f;
    }
    of->next = list->first;
    list->first = of;
    opened **at = &list->first;
    for (int i = 0; i < KEPT && *at; i++) at = &(*at)->next;
    if (*at) {
        let_go(*at);
        *at = NULL;
    }
    *out = of;
    return NONE;
}

static fault find_kept(kept *list, text type, text design, opened **out) {
    for (opened **at = &list->first; *at; at = &(*at)->next) {
        opened *of = *at;
        if (!same(of->type, type) || !same(of->design, design)) continue;
        *at = of->next;
        of->next = list->first;
        list->first = of;
        *out = of;
        return NONE;
    }
    return open_kept(list, type, design, out);
}

static void forget(void *at) {
    kept *list = at;
    if (--list->uses) return;
    while (list->first) {
        opened *of = list->first;
        list->first = of->next;
        let_go(of);
    }
    sqlite3_free(list);
}

static fault find_texts(kept *list, sqlite3_value **values, opened **out) {
    text type, design;
    fault f = text_of(values[0], KATARA_MOST_BYTES, &type);
    if (!failed(&f)) f = text_of(values[1], KATARA_MOST_BYTES, &design);
    return failed(&f) ? f : find_kept(list, type, design, out);
}

// The type and design that a function's first two arguments say. If these are constants of the statement, SQLite keeps with each what was
// found at the first row, and they aren't compared again.
static fault find_opened(sqlite3_context *context, sqlite3_value **values, opened **out) {
    opened *of = sqlite3_get_auxdata(context, 0);
    if (of && of == sqlite3_get_auxdata(context, 1)) {
        *out = of;
        return NONE;
    }
    fault f = find_texts(sqlite3_user_data(context), values, &of);
    if (failed(&f)) return f;
    for (int i = 0; i < 2; i++) {
        of->uses++;
        sqlite3_set_auxdata(context, i, of, let_go);
    }
    *out = of;
    return NONE;
}

// == Functions of a row

// Without a state there is no answer. Another NULL is an error, so that no state is replaced by NULL since something wasn't found.
static bool is_null(sqlite3_value *state) { return sqlite3_value_type(state) == SQLITE_NULL; }

static fault result_wanted(sqlite3_context *context, katara *k, const katara_wanted *wanted, size_t guess) {
    text written;
    fault f = text_in(k, wanted, guess, &written);
    if (!failed(&f)) sqlite3_result_text64(context, (const char *)written.bytes, written.length, sqlite3_free, SQLITE_UTF8);
    return f;
}

// A new replica of the type and the design of those that were opened.
static fault result_new(sqlite3_context *context, opened *of, uint32_t number, enum katara_part part) {
    katara k = {NULL}, first;
    katara_wanted wanted = {part, 0, NULL, 0};
    fault f = take_handle(of, &first);
    if (failed(&f)) return f;
    f = of_code(katara_replica_new(&first, &k, number));
    give_back(of, &first, 0);
    if (!failed(&f)) f = result_wanted(context, &k, &wanted, 0);
    katara_free(&k);
    return f;
}

static void call_new_as(sqlite3_context *context, sqlite3_value **values, const char *name, enum katara_part part) {
    opened *of;
    fault f = find_opened(context, values, &of);
    if (!failed(&f) && sqlite3_value_type(values[2]) != SQLITE_INTEGER) f = (fault){0, 0, 0, "a replica's number is a whole number from 1 to 32"};
    if (!failed(&f)) {
        sqlite3_int64 number = sqlite3_value_int64(values[2]);
        f = result_new(context, of, number > 0 && number < 33 ? (uint32_t)number : 0, part);
    }
    if (failed(&f)) tell(context, name, &f);
}

static void call_new(sqlite3_context *context, int count, sqlite3_value **values) {
    (void)count;
    call_new_as(context, values, "katara_new", KATARA_ITS_STATE);
}

static void call_new_share(sqlite3_context *context, int count, sqlite3_value **values) {
    (void)count;
    call_new_as(context, values, "katara_new_share", KATARA_ITS_SHARE);
}

// The values after a name.
static fault values_of(int count, sqlite3_value **values, katara_value *passed) {
    for (int i = 0; i < count; i++) {
        text name;
        fault f;
        switch (sqlite3_value_type(values[i])) {
            case SQLITE_INTEGER:
                passed[i] = katara_number(sqlite3_value_int64(values[i]));
                break;
            case SQLITE_FLOAT:
            case SQLITE_NULL:
                return (fault){0, 0, 0, "a value is a whole number or a name, and 0 or 1 for a truth value"};
            default:
                f = text_of(values[i], INT_MAX, &name);
                if (failed(&f)) return f;
                passed[i] = katara_sql_name((const char *)name.bytes, name.length);
        }
    }
    return NONE;
}

static fault do_call(katara *k, text call, int count, sqlite3_value **values) {
    katara_value passed[KATARA_MOST_VALUES];
    uint32_t number;
    uint64_t time;
    if (!count) return of_code(katara_do(k, call.bytes, call.length, &time));
    fault f = values_of(count, values, passed);
    if (!failed(&f)) f = of_code(katara_operation(k, call.bytes, call.length, &number));
    return failed(&f) ? f : of_code(katara_sql_call(k, number, passed, (size_t)count, &time, NULL));
}

// The answer that is a text: a truth value as 1 or 0, a number that has more than 64 bits as its digits, and a name without its quotes.
static void result_words(sqlite3_context *context, const char *words, size_t length) {
    if (words[0] == '"') return sqlite3_result_text(context, words + 1, (int)length - 2, SQLITE_TRANSIENT);
    if (words[0] == 't' || words[0] == 'f') return sqlite3_result_int(context, words[0] == 't');
    errno = 0;
    long long number = strtoll(words, NULL, 10);
    if (errno) sqlite3_result_text(context, words, (int)length, SQLITE_TRANSIENT);
    else sqlite3_result_int64(context, number);
}

static void result_value(sqlite3_context *context, const katara_value *answer) {
    char digits[48];
    if (answer->kind == KATARA_TRUTH) sqlite3_result_int(context, answer->low != 0);
    else if (answer->kind == KATARA_NAME) sqlite3_result_text(context, answer->name, (int)strnlen(answer->name, 16), SQLITE_TRANSIENT);
    else if (answer->high == (int64_t)answer->low >> 63) sqlite3_result_int64(context, (sqlite3_int64)answer->low);
    else sqlite3_result_text(context, katara_digits(answer, digits), -1, SQLITE_TRANSIENT);
}

static fault ask_call(sqlite3_context *context, katara *k, text call, int count, sqlite3_value **values) {
    katara_value passed[KATARA_MOST_VALUES], answer;
    uint32_t number;
    uint8_t words[64];
    size_t length;
    if (!count) {
        // (a value has at most 41 bytes as a text)
        fault f = of_code(katara_ask(k, call.bytes, call.length, words, sizeof words - 1, &length));
        if (failed(&f)) return f;
        words[length] = 0;
        result_words(context, (const char *)words, length);
        return NONE;
    }
    fault f = values_of(count, values, passed);
    if (!failed(&f)) f = of_code(katara_query(k, call.bytes, call.length, &number));
    if (!failed(&f)) f = of_code(katara_sql_call(k, number, passed, (size_t)count, NULL, &answer));
    if (!failed(&f)) result_value(context, &answer);
    return f;
}

// (those from MERGE_DIFFERENCE on are of a share)
enum verb { DO, ASK, KEYS, KEYS_BEYOND, MERGE, MERGE_DIFFERENCE, STATE, MARKS, DIFFERENCE };
static const char *const VERBS[] = {
    "katara_do", "katara_ask", "katara_keys", "katara_keys_beyond", "katara_merge", "katara_merge_difference", "katara_state", "katara_marks", "katara_difference",
};

// A handle becomes the replica in a text, and `part` is what is to be written of it again. A merge of states takes no share: what it gave
// wouldn't know its marks.
static fault restore(katara *k, enum verb verb, text replica, enum katara_part *part) {
    *part = verb < MERGE_DIFFERENCE ? KATARA_ITS_STATE : KATARA_ITS_SHARE;
    if (verb < MERGE) return of_code(katara_sql_restore(k, replica.bytes, replica.length, part));
    if (verb == MERGE) return of_code(katara_restore(k, replica.bytes, replica.length));
    return of_code(katara_restore_share(k, replica.bytes, replica.length));
}

// Does with a replica what is asked for, and says what is to be written of it then: `wanted`, as it was read, unless something else is
// asked for. `call` is the argument after the replica, and `values` are those after it.
static fault do_verb(katara *k, enum verb verb, katara_wanted *wanted, text call, int count, sqlite3_value **values) {
    text known = call;
    fault f = NONE;
    switch (verb) {
        case ASK: break;
        case DO: return do_call(k, call, count, values);
        case MERGE: return merged_state(k, call);
        case MERGE_DIFFERENCE: return merged_packet(k, call);
        case STATE: wanted->part = KATARA_ITS_STATE; break;
        case MARKS: wanted->part = KATARA_ITS_MARKS; break;
        case DIFFERENCE: *wanted = (katara_wanted){KATARA_ITS_DIFFERENCE, 0, known.bytes, known.length}; break;
        case KEYS: wanted->part = KATARA_ITS_KEYS; return of_code(katara_query(k, call.bytes, call.length, &wanted->query));
        case KEYS_BEYOND:
            f = text_of(values[0], INT_MAX, &known);
            *wanted = (katara_wanted){KATARA_ITS_KEYS_BEYOND, 0, known.bytes, known.length};
            if (!failed(&f)) f = of_code(katara_query(k, call.bytes, call.length, &wanted->query));
    }
    return f;
}

// A handle becomes the replica of the text, does what is asked for, and goes back.
static void call_on_replica(sqlite3_context *context, int count, sqlite3_value **values, enum verb verb) {
    static const uint8_t none[] = "";
    opened *of;
    text replica = {NULL, 0}, call = {none, 0};
    katara_wanted wanted = {0};
    int further = count > 4 ? count - 4 : 0;
    katara k;
    if (is_null(values[2])) return;
    fault f = text_of(values[2], INT_MAX, &replica);
    if (!failed(&f) && count > 3) f = text_of(values[3], INT_MAX, &call);
    if (!failed(&f)) f = find_opened(context, values, &of);
    if (!failed(&f)) f = take_handle(of, &k);
    if (failed(&f)) return tell(context, VERBS[verb], &f);
    f = restore(&k, verb, replica, &wanted.part);
    if (!failed(&f) && verb == ASK) f = ask_call(context, &k, call, further, values + count - further);
    else if (!failed(&f)) {
        f = do_verb(&k, verb, &wanted, call, further, values + count - further);
        if (!failed(&f)) f = result_wanted(context, &k, &wanted, wanted.part <= KATARA_ITS_SHARE ? replica.length + call.length : 0);
    }
    give_back(of, &k, replica.length + call.length);
    if (failed(&f)) tell(context, VERBS[verb], &f);
}

static void call_do(sqlite3_context *context, int count, sqlite3_value **values) { call_on_replica(context, count, values, DO); }
static void call_ask(sqlite3_context *context, int count, sqlite3_value **values) { call_on_replica(context, count, values, ASK); }
static void call_merge(sqlite3_context *context, int count, sqlite3_value **values) { call_on_replica(context, count, values, MERGE); }
static void call_merge_difference(sqlite3_context *context, int count, sqlite3_value **values) { call_on_replica(context, count, values, MERGE_DIFFERENCE); }
static void call_state(sqlite3_context *context, int count, sqlite3_value **values) { call_on_replica(context, count, values, STATE); }
static void call_marks(sqlite3_context *context, int count, sqlite3_value **values) { call_on_replica(context, count, values, MARKS); }
static void call_difference(sqlite3_context *context, int count, sqlite3_value **values) { call_on_replica(context, count, values, DIFFERENCE); }
static void call_keys(sqlite3_context *context, int count, sqlite3_value **values) { call_on_replica(context, count, values, KEYS); }
static void call_keys_beyond(sqlite3_context *context, int count, sqlite3_value **values) { call_on_replica(context, count, values, KEYS_BEYOND); }

static void call_version(sqlite3_context *context, int count, sqlite3_value **values) {
    (void)count, (void)values;
    sqlite3_result_text(context, KATARA_VERSION, -1, SQLITE_STATIC);
}

// == The aggregate

// The states that were merged so far. The replica has the smallest of their numbers, so that the order of the rows doesn't matter.
typedef struct {
    opened *of;
    katara k;
    uint32_t number;
    size_t used;
} merging;

// The number of a state that the library has read, as it writes it if the text isn't written so.
static fault number_of(opened *of, text state, uint32_t *number) {
    katara k;
    text written = {NULL, 0};
    *number = katara_number_of(state.bytes, state.length);
    if (*number) return NONE;
    fault f = take_handle(of, &k);
    if (failed(&f)) return f;
    f = of_code(katara_restore(&k, state.bytes, state.length));
    if (!failed(&f)) f = text_in(&k, &ITS_STATE, state.length, &written);
    if (!failed(&f)) *number = katara_number_of(written.bytes, written.length);
    sqlite3_free((void *)written.bytes);
    give_back(of, &k, state.length);
    return f;
}

// The replica of a smaller number goes on in the place of the one that merged so far.
static fault go_on_as(merging *m, text state, uint32_t number) {
    katara k;
    uint32_t changed;
    fault f = take_handle(m->of, &k);
    if (failed(&f)) return f;
    f = of_code(katara_restore(&k, state.bytes, state.length));
    if (!failed(&f)) f = of_code(katara_merge_from(&k, &m->k, &changed));
    if (failed(&f)) {
        give_back(m->of, &k, state.length);
        return f;
    }
    give_back(m->of, &m->k, m->used);
    m->k = k;
    m->number = number;
    return NONE;
}

static fault begin_merge(merging *m, kept *list, sqlite3_value **values, text state) {
    opened *of;
    fault f = find_texts(list, values, &of);
    if (!failed(&f)) f = take_handle(of, &m->k);
    if (failed(&f)) return f;
    of->uses++;
    m->of = of;
    f = of_code(katara_restore(&m->k, state.bytes, state.length));
    return failed(&f) ? f : number_of(of, state, &m->number);
}

static fault merge_further(merging *m, sqlite3_value **values, text state) {
    text type, design;
    uint32_t number;
    fault f = text_of(values[0], KATARA_MOST_BYTES, &type);
    if (!failed(&f)) f = text_of(values[1], KATARA_MOST_BYTES, &design);
    if (failed(&f)) return f;
    if (!same(m->of->type, type) || !same(m->of->design, design)) return (fault){0, 0, 0, "rows of one group have different types or designs"};
    f = merged_state(&m->k, state);
    if (!failed(&f)) f = number_of(m->of, state, &number);
    return failed(&f) || number >= m->number ? f : go_on_as(m, state, number);
}

static void step_merge(sqlite3_context *context, int count, sqlite3_value **values) {
    (void)count;
    if (is_null(values[2])) return;
    merging *m = sqlite3_aggregate_context(context, sizeof *m);
    if (!m) return sqlite3_result_error_nomem(context);
    text state;
    fault f = text_of(values[2], INT_MAX, &state);
    if (!failed(&f)) f = m->of ? merge_further(m, values, state) : begin_merge(m, sqlite3_user_data(context), values, state);
    if (failed(&f)) return tell(context, "katara_merge", &f);
    if (state.length > m->used) m->used = state.length;
}

// After an error in a step this is called too, and what it answers isn't used.
static void end_merge(sqlite3_context *context) {
    merging *m = sqlite3_aggregate_context(context, 0);
    if (!m || !m->of) return;
    fault f = result_wanted(context, &m->k, &ITS_STATE, m->used);
    give_back(m->of, &m->k, m->used);
    let_go(m->of);
    m->of = NULL;
    if (failed(&f)) tell(context, "katara_merge", &f);
}

// == The extension

typedef void row_function(sqlite3_context *, int, sqlite3_value **);

// The functions have no effect outside of their answer, which depends on their arguments alone.
static int add_function(sqlite3 *base, kept *list, const char *name, int count, row_function *row, row_function *step, void (*end)(sqlite3_context *)) {
    int flags = SQLITE_UTF8 | SQLITE_DETERMINISTIC | SQLITE_INNOCUOUS;
    list->uses++;
    return sqlite3_create_function_v2(base, name, count, flags, list, row, step, end, forget);
}

// those that always take as many arguments
static const struct {
    const char *name;
    int count;
    row_function *row;
} ROWS[] = {
    {"katara_version", 0, call_version},         {"katara_new", 3, call_new},               {"katara_merge", 4, call_merge},
    {"katara_keys", 4, call_keys},               {"katara_keys_beyond", 5, call_keys_beyond}, {"katara_new_share", 3, call_new_share},
    {"katara_difference", 3, call_difference},   {"katara_difference", 4, call_difference}, {"katara_merge_difference", 4, call_merge_difference},
    {"katara_marks", 3, call_marks},             {"katara_state", 3, call_state},
};

__attribute__((visibility("default"))) int sqlite3_katara_init(sqlite3 *base, char **error, const sqlite3_api_routines *api) {
    (void)error;
    SQLITE_EXTENSION_INIT2(api);
    kept *list = sqlite3_malloc64(sizeof *list);
    if (!list) return SQLITE_NOMEM;
    *list = (kept){NULL, 1};
    int code = SQLITE_OK;
    for (size_t i = 0; code == SQLITE_OK && i < sizeof ROWS / sizeof *ROWS; i++) code = add_function(base, list, ROWS[i].name, ROWS[i].count, ROWS[i].row, NULL, NULL);
    for (int count = 4; code == SQLITE_OK && count <= 4 + KATARA_MOST_VALUES; count++) {
        code = add_function(base, list, "katara_do", count, call_do, NULL, NULL);
        if (code == SQLITE_OK) code = add_function(base, list, "katara_ask", count, call_ask, NULL, NULL);
    }
    if (code == SQLITE_OK) code = add_function(base, list, "katara_merge", 3, NULL, step_merge, end_merge);
    forget(list);
    return code;
}
