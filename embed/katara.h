// Replicas of designs whose proof was accepted, inside a C program. docs/EMBEDDING.md says what is proved and where it stops.
//
// What a caller must keep; nothing checks it:
// - No pointer is null. A pointer to bytes or values leads to as many of them as the number after it says (it isn't null if that is 0
//   either); every other pointer leads to what its type says.
// - An output buffer (`out`) overlaps nothing else that the call is given; nor do the numbers and the value that a call writes.
// - A handle is all zero before its first call and is never copied, and nothing else reads or writes its memory. One call at a time
//   uses it, also one that changes nothing; `katara_merge_from` and `katara_replica_new` use two. Different handles may be used by
//   different threads. (After `katara_merge_from` two replicas share what never changes, the shapes of a table's entries, with atomic
//   reference counts.)
// - No call is made from a signal handler.
//
// What a caller must keep so that the answers are the type's; nothing checks this either:
// - No two replicas that exchange states have the same number.
// - What is passed to `katara_merge` and `katara_restore` was written by `katara_state` of a replica of the same design, and arrived
//   whole; and what is passed to `katara_merge_from` is a replica of the same design. Likewise with share files (`katara_share`) and
//   packets (`katara_difference`).
// - After a fork only one of the two processes goes on with the replicas.
// - A replica that was set up again by `katara_restore` or `katara_restore_share` isn't older than a state of it that others have
//   merged: otherwise it would use times again that it used before.
#ifndef KATARA_H
#define KATARA_H
// The version of this header, of the packages and of the library (`katara_version`).
#define KATARA_VERSION "1.0.0"
#include <stddef.h>
#include <stdint.h>
#include <string.h>

#ifdef __cplusplus
extern "C" {
#endif

// Codes. After any other than KATARA_DONE the replica is unchanged.
enum {
    KATARA_DONE = 0,
    KATARA_NO_MEMORY = 1,
    KATARA_ROOM = 2,             // the answer is longer than the buffer: `length` says how long, and nothing was written
    KATARA_HANDLE = 3,           // the handle has no replica; or, if it is to be opened, has one already
    KATARA_BAD_TYPE = 4,         // the type file is refused
    KATARA_BAD_DESIGN = 5,       // the design file is refused
    KATARA_OTHER_SIGNATURE = 6,  // the design file has another signature than the type
    KATARA_BAD_PROOF = 7,        // the proof isn't accepted
    KATARA_NO_CALL = 8,          // the design has no such operation or query, or it takes other arguments
    KATARA_LIMIT = 9,            // a replica's number isn't from 1 to 32, a time would pass 10^9, or a sum 10^18
    KATARA_BAD_STATE = 10,       // the text isn't a state file of the design
    KATARA_BAD_SCRIPT = 11,      // the script is refused
    KATARA_OTHER_DESIGN = 12,    // the other replica has a design that keeps something else; one that keeps the same is merged
    KATARA_GAP = 13,             // operations are missing that come before those of the packet: ask the sender for more
    KATARA_NO_MARKS = 14,        // the replica doesn't know its marks, since it merged or restored a state that came without any
    KATARA_BAD_SHARE = 15        // the text isn't a share file, or isn't a packet, of the design
};

typedef struct {
    void *at;
} katara;

// Makes a new replica with this number, of the design in a file whose proof is accepted for a type. If the proof isn't accepted,
// `condition` and `line` are the place of its first fault, as `katara check` reports it; otherwise they say nothing.
uint32_t katara_open(katara *k, const uint8_t *type, size_t type_length, const uint8_t *design, size_t design_length,
                     uint32_t number, uint64_t *condition, uint64_t *line);

// Makes a new replica with this number, of the type and the design of the replica at another handle, without checking the proof again.
// `type` is any replica, and stays as it is; the two handles are different.
uint32_t katara_replica_new(katara *type, katara *k, uint32_t number);

// Opens a handle that stands for a type with its design, of which `katara_replica_new` makes replicas.
static inline uint32_t katara_type_open(katara *type, const uint8_t *type_text, size_t type_length, const uint8_t *design,
                                        size_t design_length, uint64_t *condition, uint64_t *line) {
    return katara_open(type, type_text, type_length, design, design_length, 1, condition, line);
}

// Does an operation, as a script has it: add "milk" 2. Its time is the replica's clock plus one, and is written to `time`. This and
// `katara_ask` are for what is text already, as a log. Never build such a text from user input: `milk" 1000000 #` between the quotes
// adds a million. Pass values, by `katara_do_numbered`.
uint32_t katara_do(katara *k, const uint8_t *call, size_t call_length, uint64_t *time);

// The text of the answer to a query, as a script has it: count "milk".
uint32_t katara_ask(katara *k, const uint8_t *call, size_t call_length, uint8_t *out, size_t room, size_t *length);

// A value of a call by number. Only the fields that its kind names are read.
enum {
    KATARA_TRUTH = 0,   // `low` is 0 or 1
    KATARA_NUMBER = 1,  // high * 2^64 + low. `high` is 0 of a number from 0 to 2^64 - 1, and -1 of one from -2^64 to -1. An answer may be
                        // past these, with another `high`: a sum is at most 10^18 for each of 32 replicas, and a query adds and subtracts
    KATARA_NAME = 2     // the bytes of `name` before the first zero byte, at most 15
};

typedef struct {
    uint64_t kind;
    int64_t high;
    uint64_t low;
    char name[16];
} katara_value;

static inline katara_value katara_truth(int truth) {
    katara_value v = {KATARA_TRUTH, 0, (uint64_t)(truth != 0), {0}};
    return v;
}

static inline katara_value katara_number(int64_t number) {
    katara_value v = {KATARA_NUMBER, number < 0 ? -1 : 0, (uint64_t)number, {0}};
    return v;
}

// A name of more than 15 bytes makes a value that no call takes. A zero byte ends the name early.
static inline katara_value katara_name(const char *name, size_t length) {
    katara_value v = {KATARA_NAME, 0, 0, {0}};
    memcpy(v.name, name, length < 16 ? length : 16);
    return v;
}

// The number of an operation, or of a query, by its name: its place in the type file, from 0. It holds for all replicas of the type.
uint32_t katara_operation(katara *k, const uint8_t *name, size_t name_length, uint32_t *number);
uint32_t katara_query(katara *k, const uint8_t *name, size_t name_length, uint32_t *number);

// As `katara_do` and `katara_ask`, by the number of the operation or query, without a text. `passed` leads to the arguments, as many as
// `count` says; it isn't null, even if there are none.
uint32_t katara_do_numbered(katara *k, uint32_t number, const katara_value *passed, size_t count, uint64_t *time);
uint32_t katara_ask_numbered(katara *k, uint32_t number, const katara_value *passed, size_t count, katara_value *answer);

// The text of the replica's state file: other replicas merge it, and the replica can be restored from it. It may be longer than the
// 16,777,216 bytes that the commands of katara read.
uint32_t katara_state(katara *k, uint8_t *out, size_t room, size_t *length);

// The keys at which the query with this number may find something, as a JSON list: ["eggs","milk"]. They are those that one of the
// tables, sets and sums by key has which the query reads, ascending: all that were ever touched, also those of things that were removed.
uint32_t katara_keys(katara *k, uint32_t query, uint8_t *out, size_t room, size_t *length);

// Those of these keys at which the replica has something that a state file lacks. With an earlier state file of the replica itself, they
// are the keys at which it has changed since, so that only these need to be drawn anew, if the query reads nothing else: what it reads
// without a key, as the time at which a table was emptied, isn't looked at, and with it all answers may have changed.
uint32_t katara_keys_beyond(katara *k, uint32_t query, const uint8_t *known, size_t known_length, uint8_t *out, size_t room,
                            size_t *length);

// Merges the state of another replica of the design, or an older one of this replica. `changed` is 0 if the replica's state and clock
// were left as they were, and else 1. A state file has no marks, so the replica doesn't know its own any more.
uint32_t katara_merge(katara *k, const uint8_t *state, size_t state_length, uint32_t *changed);

// Merges the state of another handle's replica, as `katara_merge` does with what `katara_state` writes of it, without a text. The two
// handles are different; the other replica is unchanged.
uint32_t katara_merge_from(katara *k, katara *other, uint32_t *changed);

// Becomes the replica in a state file of the design, with its number and its clock, whatever number it was opened with. It doesn't know
// its marks.
uint32_t katara_restore(katara *k, const uint8_t *state, size_t state_length);

// Differences: what a peer lacks, whoever did it. A replica can tell and merge them as long as it knows its marks: for each replica the
// time of its latest operation in the state. It knows them from the beginning, until a state without marks is merged or restored.

// The replica's share file: its marks and its state file. It says what a peer has once it merged the replica's packets; and the replica
// can be set up again from it.
uint32_t katara_share(katara *k, uint8_t *out, size_t room, size_t *length);

// A packet of what the replica has beyond a share file that the peer is known to have. With no bytes (`known_length` 0) it is of all
// that the replica has.
uint32_t katara_difference(katara *k, const uint8_t *known, size_t known_length, uint8_t *out, size_t room, size_t *length);

// Merges a packet, late, again, or from a third replica, if the replica has all that comes before it; else KATARA_GAP. `changed` as for
// `katara_merge`.
uint32_t katara_merge_difference(katara *k, const uint8_t *packet, size_t packet_length, uint32_t *changed);

// The replica's marks, as a text of one line.
uint32_t katara_marks(katara *k, uint8_t *out, size_t room, size_t *length);

// Becomes the replica in a share file of the design, with its number, its clock and its marks.
uint32_t katara_restore_share(katara *k, const uint8_t *share, size_t share_length);

// Frees the replica's memory. The handle then has no replica, and may be opened again.
void katara_free(katara *k);

// Writes what a design writes on a script with any number of replicas, if its proof is accepted for the type, as `katara run` does.
uint32_t katara_run(const uint8_t *type, size_t type_length, const uint8_t *design, size_t design_length,
                    const uint8_t *script, size_t script_length, uint8_t *out, size_t room, size_t *length);

// What a code says, in a few words.
uint32_t katara_message(uint32_t code, uint8_t *out, size_t room, size_t *length);

// The version of the library, as KATARA_VERSION is that of this header.
uint32_t katara_version(uint8_t *out, size_t room, size_t *length);

#ifdef __cplusplus
}
#endif
#endif
