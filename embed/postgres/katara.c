// Replicas of designs whose proof was accepted, as functions of PostgreSQL over libkatara. docs/howto/postgres.md shows them; they are
// trusted, as the bindings of other languages are.
//
// A type with its design is opened, and so its proof checked, once: each backend keeps those that it used last. The library's memory isn't
// PostgreSQL's, so nothing that may raise an error comes between a call that gives memory and the note that it is there.
#include "postgres.h"

#include "catalog/pg_type.h"
#include "fmgr.h"
#include "libpq/pqformat.h"
#include "miscadmin.h"
#include "utils/builtins.h"
#include "utils/lsyscache.h"
#include "utils/memutils.h"

#include "../sql.h"

PG_MODULE_MAGIC;

// how many types with their designs a backend keeps
enum { KEPT = 8 };
// after a state with more bytes than these a handle is emptied, so that its memory isn't kept
enum { LARGE = 1 << 16 };

typedef struct {
    const uint8_t *bytes;
    size_t length;
} span;

struct merging;

// A type with a design whose proof was accepted for it. `scratch` is for the call that is being made, `sum` for an aggregate, the `holder`,
// whose states it has merged.
typedef struct opened {
    struct opened *next;
    // the list and aggregates that use it
    int uses;
    span type, design;
    katara scratch, sum;
    // the state of a new replica, if it has room here
    uint8_t fresh[1024];
    size_t fresh_length;
    struct merging *holder;
} opened;

// those that were used last come first
static opened *kept = NULL;

// An aggregate: the states that were merged so far, with the smallest of their numbers, so that their order doesn't matter. If it isn't the
// holder, `state` has them.
typedef struct merging {
    opened *of;
    MemoryContext context;
    MemoryContextCallback at_end;
    text *state;
    uint32_t number;
} merging;

// == Errors

static int sqlstate(uint32_t code) {
    switch (code) {
        case KATARA_NO_MEMORY: return ERRCODE_OUT_OF_MEMORY;
        case KATARA_LIMIT: return ERRCODE_NUMERIC_VALUE_OUT_OF_RANGE;
        case KATARA_BAD_STATE:
        case KATARA_BAD_SHARE: return ERRCODE_INVALID_TEXT_REPRESENTATION;
        // (so that PL/pgSQL tells it from a packet that is damaged)
        case KATARA_GAP: return ERRCODE_OBJECT_NOT_IN_PREREQUISITE_STATE;
        default: return ERRCODE_INVALID_PARAMETER_VALUE;
    }
}

pg_attribute_noreturn() static void fail(const char *name, uint32_t code) {
    uint8_t words[100];
    size_t length = 0;
    if (katara_message(code, words, sizeof words, &length) != KATARA_DONE) length = 0;
    ereport(ERROR, (errcode(sqlstate(code)), errmsg("%s: %.*s", name, (int)length, (const char *)words)));
}

static void check(const char *name, uint32_t code) {
    if (code != KATARA_DONE) fail(name, code);
}

pg_attribute_noreturn() static void fail_open(const char *name, uint32_t code, uint64_t condition, uint64_t line) {
    if (code != KATARA_BAD_PROOF) fail(name, code);
    ereport(ERROR, (errcode(sqlstate(code)), errmsg("%s: the proof isn't accepted: condition %llu, line %llu", name, (unsigned long long)condition, (unsigned long long)line)));
}

// == Texts

static span span_of(text *t) { return (span){(const uint8_t *)VARDATA_ANY(t), VARSIZE_ANY_EXHDR(t)}; }

static bool same(span a, span b) { return a.length == b.length && !memcmp(a.bytes, b.bytes, a.length); }

static void check_length(const char *name, span file) {
    if (file.length > KATARA_MOST_BYTES) ereport(ERROR, (errcode(ERRCODE_PROGRAM_LIMIT_EXCEEDED), errmsg("%s: a type or a design has at most 16777216 bytes", name)));
}

static const katara_wanted ITS_STATE = {KATARA_ITS_STATE, 0, NULL, 0};

// What is wanted of a replica, in the current memory context.
static text *text_in(const char *name, katara *k, const katara_wanted *wanted, size_t guess) {
    size_t length = guess + 256;
    for (;;) {
        size_t room = length;
        text *written = palloc(VARHDRSZ + room);
        uint32_t code = katara_sql_write(k, wanted, (uint8_t *)VARDATA(written), room, &length);
        if (code == KATARA_DONE) {
            SET_VARSIZE(written, VARHDRSZ + length);
            return written;
        }
        pfree(written);
        if (code != KATARA_ROOM) fail(name, code);
    }
}

static text *state_of(const char *name, katara *k, size_t guess) { return text_in(name, k, &ITS_STATE, guess); }

// == What a backend keeps

static void let_go(opened *of) {
    if (--of->uses) return;
    katara_free(&of->scratch);
    katara_free(&of->sum);
    pfree(of);
}

static uint32_t open_handle(katara *k, span type, span design, uint32_t number, uint64_t *condition, uint64_t *line) {
    *condition = *line = 0;
    return katara_open(k, type.bytes, type.length, design.bytes, design.length, number, condition, line);
}

// Opens a type with its design, and keeps it; the one that was used longest ago goes, if there are too many.
static opened *open_kept(const char *name, span type, span design) {
    uint64_t condition, line;
    opened *of = MemoryContextAllocZero(TopMemoryContext, sizeof *of + type.length + design.length);
    uint8_t *at = (uint8_t *)(of + 1);
    memcpy(at, type.bytes, type.length);
    memcpy(at + type.length, design.bytes, design.length);
    of->type = (span){at, type.length};
    of->design = (span){at + type.length, design.length};
    uint32_t code = open_handle(&of->scratch, type, design, 1, &condition, &line);
    if (code != KATARA_DONE) {
        pfree(of);
        fail_open(name, code, condition, line);
    }
    if (katara_state(&of->scratch, of->fresh, sizeof of->fresh, &of->fresh_length) != KATARA_DONE) of->fresh_length = 0;
    of->uses = 1;
    of->next = kept;
    kept = of;
    opened **last = &kept;
    for (int i = 0; i < KEPT && *last; i++) last = &(*last)->next;
    if (*last) {
        opened *old = *last;
        *last = NULL;
        let_go(old);
    }
    return of;
}

static opened *find_opened(const char *name, span type, span design) {
    check_length(name, type);
    check_length(name, design);
    for (opened **at = &kept; *at; at = &(*at)->next) {
        opened *of = *at;
        if (!same(of->type, type) || !same(of->design, design)) continue;
        *at = of->next;
        of->next = kept;
        kept = of;
        return of;
    }
    return open_kept(name, type, design);
}

// The type and design that a function's first two arguments say.
static opened *opened_of(FunctionCallInfo fcinfo, const char *name) {
    return find_opened(name, span_of(PG_GETARG_TEXT_PP(0)), span_of(PG_GETARG_TEXT_PP(1)));
}

// After a large state the scratch replica is a new one, so that its memory isn't kept.
static void empty_scratch(opened *of, size_t used) {
    if (used > LARGE && of->fresh_length) katara_restore(&of->scratch, of->fresh, of->fresh_length);
}

// == Functions of a row

PG_FUNCTION_INFO_V1(sql_katara_version);
Datum sql_katara_version(PG_FUNCTION_ARGS) { PG_RETURN_TEXT_P(cstring_to_text(KATARA_VERSION)); }

// A new replica of the type and the design of the scratch one.
static Datum new_replica(FunctionCallInfo fcinfo, const char *name, enum katara_part part) {
    katara_wanted wanted = {part, 0, NULL, 0};
    int32 number = PG_GETARG_INT32(2);
    CHECK_FOR_INTERRUPTS();
    opened *of = opened_of(fcinfo, name);
    // (so that nothing raises an error as long as the replica is there)
    text *room = palloc(VARHDRSZ + 65536);
    size_t length = 0;
    katara k = {NULL};
    check(name, katara_replica_new(&of->scratch, &k, number > 0 && number < 33 ? (uint32_t)number : 0));
    uint32_t code = katara_sql_write(&k, &wanted, (uint8_t *)VARDATA(room), 65536, &length);
    katara_free(&k);
    check(name, code);
    SET_VARSIZE(room, VARHDRSZ + length);
    PG_RETURN_TEXT_P(room);
}

PG_FUNCTION_INFO_V1(sql_katara_new);
Datum sql_katara_new(PG_FUNCTION_ARGS) { return new_replica(fcinfo, "katara_new", KATARA_ITS_STATE); }

PG_FUNCTION_INFO_V1(sql_katara_new_share);
Datum sql_katara_new_share(PG_FUNCTION_ARGS) { return new_replica(fcinfo, "katara_new_share", KATARA_ITS_SHARE); }

// A value by its type, or by what that is a domain of: a truth value, a whole number or a text.
static katara_value value_of(FunctionCallInfo fcinfo, const char *name, int place) {
    Oid type = get_fn_expr_argtype(fcinfo->flinfo, place);
    if (OidIsValid(type)) type = getBaseType(type);
    switch (type) {
        case BOOLOID: return katara_truth(PG_GETARG_BOOL(place));
        case INT2OID: return katara_number(PG_GETARG_INT16(place));
        case INT4OID: return katara_number(PG_GETARG_INT32(place));
        case INT8OID: return katara_number(PG_GETARG_INT64(place));
        case UNKNOWNOID: {
            const char *words = PG_GETARG_CSTRING(place);
            return katara_sql_name(words, strlen(words));
        }
        case TEXTOID:
        case VARCHAROID: {
            span words = span_of(PG_GETARG_TEXT_PP(place));
            return katara_sql_name((const char *)words.bytes, words.length);
        }
        default:
            ereport(ERROR, (errcode(ERRCODE_DATATYPE_MISMATCH), errmsg("%s: a value is a boolean, a whole number or a text", name)));
    }
}

static size_t values_of(FunctionCallInfo fcinfo, const char *name, katara_value *passed) {
    size_t count = (size_t)PG_NARGS() - 4;
    if (get_fn_expr_variadic(fcinfo->flinfo)) ereport(ERROR, (errcode(ERRCODE_FEATURE_NOT_SUPPORTED), errmsg("%s: values are passed one by one, not as an array", name)));
    if (count > KATARA_MOST_VALUES) fail(name, KATARA_NO_CALL);
    for (size_t i = 0; i < count; i++) passed[i] = value_of(fcinfo, name, 4 + (int)i);
    return count;
}

static text *answer_of(const katara_value *answer) {
    char digits[48];
    if (answer->kind == KATARA_TRUTH) return cstring_to_text(answer->low ? "true" : "false");
    if (answer->kind == KATARA_NAME) return cstring_to_text_with_len(answer->name, (int)strnlen(answer->name, 16));
    return cstring_to_text(katara_digits(answer, digits));
}

// The answer that is a text, a name without its quotes.
static text *answer_in(const char *words, size_t length) {
    bool is_name = length && words[0] == '"';
    return cstring_to_text_with_len(words + is_name, (int)length - 2 * is_name);
}

static uint32_t do_call(FunctionCallInfo fcinfo, const char *name, katara *k, span call) {
    katara_value passed[KATARA_MOST_VALUES];
    uint32_t number;
    uint64_t time;
    if (PG_NARGS() == 4) return katara_do(k, call.bytes, call.length, &time);
    size_t count = values_of(fcinfo, name, passed);
    check(name, katara_operation(k, call.bytes, call.length, &number));
    return katara_do_numbered(k, number, passed, count, &time);
}

static text *ask_call(FunctionCallInfo fcinfo, const char *name, katara *k, span call) {
    katara_value passed[KATARA_MOST_VALUES], answer;
    uint32_t number;
    uint8_t words[64];
    size_t length;
    if (PG_NARGS() == 4) {
        // (a value has at most 41 bytes as a text)
        check(name, katara_ask(k, call.bytes, call.length, words, sizeof words, &length));
        return answer_in((const char *)words, length);
    }
    size_t count = values_of(fcinfo, name, passed);
    check(name, katara_query(k, call.bytes, call.length, &number));
    check(name, katara_ask_numbered(k, number, passed, count, &answer));
    return answer_of(&answer);
}

// (those from MERGE_DIFFERENCE on are of a share)
enum verb { DO, ASK, KEYS, KEYS_BEYOND, MERGE, MERGE_DIFFERENCE, STATE, MARKS, DIFFERENCE };
static const char *const VERBS[] = {
    "katara_do", "katara_ask", "katara_keys", "katara_keys_beyond", "katara_merge", "katara_merge_difference", "katara_state", "katara_marks", "katara_difference",
};

// A handle becomes the replica in a text; and what is to be written of it again. A merge of states takes no share: what it gave wouldn't
// know its marks.
static enum katara_part restore(katara *k, enum verb verb, span replica) {
    enum katara_part part = verb < MERGE_DIFFERENCE ? KATARA_ITS_STATE : KATARA_ITS_SHARE;
    if (verb < MERGE) check(VERBS[verb], katara_sql_restore(k, replica.bytes, replica.length, &part));
    else if (verb == MERGE) check(VERBS[verb], katara_restore(k, replica.bytes, replica.length));
    else check(VERBS[verb], katara_restore_share(k, replica.bytes, replica.length));
    return part;
}

// Does with a replica what is asked for, and says what is to be written of it then: `part`, as it was read, unless something else is asked
// for. `call` is the argument after the replica.
static katara_wanted do_verb(FunctionCallInfo fcinfo, katara *k, enum verb verb, enum katara_part part, span call) {
    const char *name = VERBS[verb];
    katara_wanted wanted = {part, 0, call.bytes, call.length};
    // (whether a merge changed anything isn't asked: the texts before and after tell it)
    uint32_t changed;
    switch (verb) {
        case ASK: break;
        case DO: check(name, do_call(fcinfo, name, k, call)); break;
        case MERGE: check(name, katara_merge(k, call.bytes, call.length, &changed)); break;
        case MERGE_DIFFERENCE: check(name, katara_merge_difference(k, call.bytes, call.length, &changed)); break;
        case STATE: wanted.part = KATARA_ITS_STATE; break;
        case MARKS: wanted.part = KATARA_ITS_MARKS; break;
        case DIFFERENCE: wanted.part = KATARA_ITS_DIFFERENCE; break;
        case KEYS: wanted.part = KATARA_ITS_KEYS; break;
        case KEYS_BEYOND: {
            span known = span_of(PG_GETARG_TEXT_PP(4));
            wanted = (katara_wanted){KATARA_ITS_KEYS_BEYOND, 0, known.bytes, known.length};
        }
    }
    if (verb == KEYS || verb == KEYS_BEYOND) check(name, katara_query(k, call.bytes, call.length, &wanted.query));
    return wanted;
}

// The scratch replica becomes that of the text, and does what is asked for.
static Datum call_on_replica(FunctionCallInfo fcinfo, enum verb verb) {
    const char *name = VERBS[verb];
    span replica = span_of(PG_GETARG_TEXT_PP(2)), call = {(const uint8_t *)"", 0};
    text *result;
    if (PG_NARGS() > 3) call = span_of(PG_GETARG_TEXT_PP(3));
    CHECK_FOR_INTERRUPTS();
    opened *of = opened_of(fcinfo, name);
    enum katara_part part = restore(&of->scratch, verb, replica);
    if (verb == ASK) result = ask_call(fcinfo, name, &of->scratch, call);
    else {
        katara_wanted wanted = do_verb(fcinfo, &of->scratch, verb, part, call);
        result = text_in(name, &of->scratch, &wanted, wanted.part <= KATARA_ITS_SHARE ? replica.length + call.length : 0);
    }
    empty_scratch(of, replica.length + call.length);
    PG_RETURN_TEXT_P(result);
}

PG_FUNCTION_INFO_V1(sql_katara_do);
Datum sql_katara_do(PG_FUNCTION_ARGS) { return call_on_replica(fcinfo, DO); }

PG_FUNCTION_INFO_V1(sql_katara_ask);
Datum sql_katara_ask(PG_FUNCTION_ARGS) { return call_on_replica(fcinfo, ASK); }

PG_FUNCTION_INFO_V1(sql_katara_merge);
Datum sql_katara_merge(PG_FUNCTION_ARGS) { return call_on_replica(fcinfo, MERGE); }

PG_FUNCTION_INFO_V1(sql_katara_merge_difference);
Datum sql_katara_merge_difference(PG_FUNCTION_ARGS) { return call_on_replica(fcinfo, MERGE_DIFFERENCE); }

PG_FUNCTION_INFO_V1(sql_katara_state);
Datum sql_katara_state(PG_FUNCTION_ARGS) { return call_on_replica(fcinfo, STATE); }

PG_FUNCTION_INFO_V1(sql_katara_marks);
Datum sql_katara_marks(PG_FUNCTION_ARGS) { return call_on_replica(fcinfo, MARKS); }

PG_FUNCTION_INFO_V1(sql_katara_difference);
Datum sql_katara_difference(PG_FUNCTION_ARGS) { return call_on_replica(fcinfo, DIFFERENCE); }

PG_FUNCTION_INFO_V1(sql_katara_keys);
Datum sql_katara_keys(PG_FUNCTION_ARGS) { return call_on_replica(fcinfo, KEYS); }

PG_FUNCTION_INFO_V1(sql_katara_keys_beyond);
Datum sql_katara_keys_beyond(PG_FUNCTION_ARGS) { return call_on_replica(fcinfo, KEYS_BEYOND); }

// == The aggregate

static const char MERGING[] = "katara_merge";

// At the end of the aggregate's memory, also after an error.
static void end_merging(void *at) {
    opened *of = ((merging *)at)->of;
    if (of->holder == at) {
        of->holder = NULL;
        if (of->fresh_length) katara_restore(&of->sum, of->fresh, of->fresh_length);
    }
    let_go(of);
}

static merging *new_merging(MemoryContext context, opened *of) {
    merging *m = MemoryContextAllocZero(context, sizeof *m);
    *m = (merging){.of = of, .context = context, .at_end = {end_merging, m, NULL}};
    of->uses++;
    MemoryContextRegisterResetCallback(context, &m->at_end);
    return m;
}

// The states of the holder are kept as a text, so that another aggregate of the design can have the replica.
static void put_aside(opened *of) {
    merging *m = of->holder;
    if (!m) return;
    MemoryContext before = MemoryContextSwitchTo(m->context);
    m->state = state_of(MERGING, &of->sum, 0);
    MemoryContextSwitchTo(before);
    of->holder = NULL;
}

static void hold(merging *m) {
    opened *of = m->of;
    uint64_t condition, line;
    if (of->holder == m) return;
    put_aside(of);
    if (!of->sum.at) {
        uint32_t code = open_handle(&of->sum, of->type, of->design, 1, &condition, &line);
        if (code != KATARA_DONE) fail_open(MERGING, code, condition, line);
    }
    if (!m->state) return;
    span state = span_of(m->state);
    check(MERGING, katara_restore(&of->sum, state.bytes, state.length));
    of->holder = m;
    pfree(m->state);
    m->state = NULL;
}

// The number of a state that the library has read, as it writes it if the text isn't written so.
static uint32_t number_of(opened *of, span state) {
    uint32_t number = katara_number_of(state.bytes, state.length);
    if (number) return number;
    check(MERGING, katara_restore(&of->scratch, state.bytes, state.length));
    text *written = state_of(MERGING, &of->scratch, state.length);
    number = katara_number_of((uint8_t *)VARDATA(written), VARSIZE_ANY_EXHDR(written));
    pfree(written);
    return number;
}

// Merges a state. If its number is smaller, its replica goes on in the place of the one that merged so far.
static void merge_state(merging *m, span state) {
    opened *of = m->of;
    // (whether a merge changed anything isn't asked)
    uint32_t changed;
    hold(m);
    if (of->holder != m) {
        check(MERGING, katara_restore(&of->sum, state.bytes, state.length));
        m->number = number_of(of, state);
        of->holder = m;
        return;
    }
    check(MERGING, katara_merge(&of->sum, state.bytes, state.length, &changed));
    uint32_t number = number_of(of, state);
    if (number >= m->number) return;
    check(MERGING, katara_restore(&of->scratch, state.bytes, state.length));
    check(MERGING, katara_merge_from(&of->scratch, &of->sum, &changed));
    katara smaller = of->scratch;
    of->scratch = of->sum;
    of->sum = smaller;
    m->number = number;
}

static text *merged(merging *m) {
    return m->of->holder == m ? state_of(MERGING, &m->of->sum, 0) : m->state;
}

static MemoryContext aggregate_context(FunctionCallInfo fcinfo) {
    MemoryContext context;
    if (!AggCheckCallContext(fcinfo, &context)) elog(ERROR, "katara_merge: called outside of an aggregate");
    return context;
}

PG_FUNCTION_INFO_V1(sql_katara_merge_step);
Datum sql_katara_merge_step(PG_FUNCTION_ARGS) {
    MemoryContext context = aggregate_context(fcinfo);
    merging *m = PG_ARGISNULL(0) ? NULL : (merging *)PG_GETARG_POINTER(0);
    CHECK_FOR_INTERRUPTS();
    if (PG_ARGISNULL(3)) {
        if (m) PG_RETURN_POINTER(m);
        PG_RETURN_NULL();
    }
    if (PG_ARGISNULL(1) || PG_ARGISNULL(2)) ereport(ERROR, (errcode(ERRCODE_NULL_VALUE_NOT_ALLOWED), errmsg("katara_merge: the type or the design is NULL")));
    span type = span_of(PG_GETARG_TEXT_PP(1)), design = span_of(PG_GETARG_TEXT_PP(2)), state = span_of(PG_GETARG_TEXT_PP(3));
    if (!m) m = new_merging(context, find_opened(MERGING, type, design));
    else if (!same(m->of->type, type) || !same(m->of->design, design))
        ereport(ERROR, (errcode(ERRCODE_INVALID_PARAMETER_VALUE), errmsg("katara_merge: rows of one group have different types or designs")));
    merge_state(m, state);
    PG_RETURN_POINTER(m);
}

PG_FUNCTION_INFO_V1(sql_katara_merge_end);
Datum sql_katara_merge_end(PG_FUNCTION_ARGS) {
    aggregate_context(fcinfo);
    if (PG_ARGISNULL(0)) PG_RETURN_NULL();
    PG_RETURN_TEXT_P(merged((merging *)PG_GETARG_POINTER(0)));
}

PG_FUNCTION_INFO_V1(sql_katara_merge_combine);
Datum sql_katara_merge_combine(PG_FUNCTION_ARGS) {
    MemoryContext context = aggregate_context(fcinfo);
    merging *one = PG_ARGISNULL(0) ? NULL : (merging *)PG_GETARG_POINTER(0);
    CHECK_FOR_INTERRUPTS();
    if (PG_ARGISNULL(1)) {
        if (one) PG_RETURN_POINTER(one);
        PG_RETURN_NULL();
    }
    merging *other = (merging *)PG_GETARG_POINTER(1);
    if (!one) one = new_merging(context, other->of);
    else if (one->of != other->of && (!same(one->of->type, other->of->type) || !same(one->of->design, other->of->design)))
        ereport(ERROR, (errcode(ERRCODE_INVALID_PARAMETER_VALUE), errmsg("katara_merge: rows of one group have different types or designs")));
    merge_state(one, span_of(merged(other)));
    PG_RETURN_POINTER(one);
}

PG_FUNCTION_INFO_V1(sql_katara_merge_serialize);
Datum sql_katara_merge_serialize(PG_FUNCTION_ARGS) {
    aggregate_context(fcinfo);
    merging *m = (merging *)PG_GETARG_POINTER(0);
    text *state = merged(m);
    StringInfoData out;
    pq_begintypsend(&out);
    span parts[] = {m->of->type, m->of->design, span_of(state)};
    for (int i = 0; i < 3; i++) {
        pq_sendint32(&out, (uint32)parts[i].length);
        pq_sendbytes(&out, (const char *)parts[i].bytes, (int)parts[i].length);
    }
    PG_RETURN_BYTEA_P(pq_endtypsend(&out));
}

PG_FUNCTION_INFO_V1(sql_katara_merge_deserialize);
Datum sql_katara_merge_deserialize(PG_FUNCTION_ARGS) {
    aggregate_context(fcinfo);
    bytea *bytes = PG_GETARG_BYTEA_PP(0);
    StringInfoData in;
    span parts[3];
    initStringInfo(&in);
    appendBinaryStringInfo(&in, VARDATA_ANY(bytes), (int)VARSIZE_ANY_EXHDR(bytes));
    for (int i = 0; i < 3; i++) {
        size_t length = pq_getmsgint(&in, 4);
        parts[i] = (span){(const uint8_t *)pq_getmsgbytes(&in, (int)length), length};
    }
    pq_getmsgend(&in);
    merging *m = new_merging(CurrentMemoryContext, find_opened(MERGING, parts[0], parts[1]));
    m->state = cstring_to_text_with_len((const char *)parts[2].bytes, (int)parts[2].length);
    m->number = katara_number_of(parts[2].bytes, parts[2].length);
    PG_RETURN_POINTER(m);
}
