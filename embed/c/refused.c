// Calls that must be refused, each with its code, and what is as it was after them.
//     refused TYPE DESIGN
#include "../katara.h"
#include <stdio.h>
#include <stdlib.h>
#include <string.h>

static int wrong;

static void wants(const char *what, uint32_t got, uint32_t wanted) {
    if (got == wanted) return;
    fprintf(stderr, "%s: code %u and not %u\n", what, got, wanted);
    wrong = 1;
}

static void is(const char *what, int so) {
    if (so) return;
    fprintf(stderr, "%s\n", what);
    wrong = 1;
}

typedef struct {
    uint8_t *bytes;
    size_t length;
} text;

static text file(const char *path) {
    FILE *f = fopen(path, "rb");
    text t = {malloc(1 << 20), 0};
    if (!f || !t.bytes) exit(1);
    t.length = fread(t.bytes, 1, 1 << 20, f);
    fclose(f);
    return t;
}

static uint32_t act(katara *k, const char *call) {
    uint64_t time;
    return katara_do(k, (const uint8_t *)call, strlen(call), &time);
}

// a counter, and a design of it
static const char *counter = "type counter\nstate n: int = 0\nop visit() rank 0: n := n + 1\nquery visits(): int = n\n";
static const char *sum = "[\"katara\",2,[[[\"visit\",[]]],[[\"visits\",[],\"int\"]]],[[[\"tally\",[1]]],[[\"leaf\",0,0]]],[[\"q\",0],[\"e\",0,[0,0]],[\"t\",0]],"
                         "[[[\"r\",[],[1]]],[[\"r\",[],[1]]],[[\"r\",[],[1]]],[[\"r\",[],[21,22,26]]],[[\"r\",[],[21,22,26]]],"
                         "[[\"l\",[6,-26],[1,1]],[\"r\",[],[25,26,27]]],[[\"r\",[],[14,15,19]]]],[]]";

// what each code says, from 0, and one that there isn't
static const char *const messages[] = {"done",
                                       "out of memory",
                                       "the answer is longer than the room for it",
                                       "the handle has no replica, or has one already",
                                       "the type file is refused",
                                       "the design file is refused",
                                       "the design file has another signature than the type",
                                       "the proof isn't accepted",
                                       "the call is none that the design has",
                                       "a number is past its limit",
                                       "the text is no state file of the design",
                                       "the script is refused",
                                       "the other replica has another design",
                                       "operations are missing that come before those of the packet",
                                       "the replica doesn't know its marks",
                                       "the text is no share file or packet of the design",
                                       "no such code"};

static uint32_t act_numbered(katara *k, uint32_t number, const katara_value *passed, size_t count) {
    uint64_t time;
    return katara_do_numbered(k, number, passed, count, &time);
}

// calls by numbers that are none of the cart, whose operation `add` takes a name and a number from 0 on
static void wrong_numbers(katara *k, uint32_t add, uint32_t count) {
    katara_value milk = katara_name("milk", 4), two = katara_number(2), answer = two;
    katara_value good[2] = {milk, two};
    const uint32_t numbers[] = {1, 12, UINT32_MAX};
    for (size_t i = 0; i < sizeof numbers / sizeof *numbers; i++) {
        wants("no such operation", act_numbered(k, numbers[i], good, 2), KATARA_NO_CALL);
        wants("no such query", katara_ask_numbered(k, numbers[i], good, 1, &answer), KATARA_NO_CALL);
    }
    katara_value more[3] = {milk, two, two}, turned[2] = {two, milk};
    wants("no arguments", act_numbered(k, add, good, 0), KATARA_NO_CALL);
    wants("one argument", act_numbered(k, add, good, 1), KATARA_NO_CALL);
    wants("three arguments", act_numbered(k, add, more, 3), KATARA_NO_CALL);
    wants("turned arguments", act_numbered(k, add, turned, 2), KATARA_NO_CALL);
    wants("a query without its argument", katara_ask_numbered(k, count, good, 0, &answer), KATARA_NO_CALL);
    wants("a query of a number", katara_ask_numbered(k, count, &two, 1, &answer), KATARA_NO_CALL);
    is("nothing was answered", !memcmp(&answer, &two, sizeof two));
    const katara_value names[] = {katara_name("a b", 3), katara_name("a_name_of_16_xxx", 16), katara_name("a_name_of_more_than_16", 22),
                                  katara_name("\xff", 1), {KATARA_NUMBER, 0, 0, "milk"}, {3, 0, 0, "milk"}, {UINT64_MAX, 0, 0, "milk"}};
    for (size_t i = 0; i < sizeof names / sizeof *names; i++) {
        katara_value passed[2] = {names[i], two};
        wants("no name", act_numbered(k, add, passed, 2), KATARA_NO_CALL);
    }
    const katara_value amounts[] = {katara_number(-1), katara_number(1000000000001), katara_number(INT64_MIN), katara_truth(1),
                                    {KATARA_NUMBER, 1, 2, ""}, {KATARA_NUMBER, INT64_MIN, 0, ""}, {KATARA_NUMBER, INT64_MAX, UINT64_MAX, ""}};
    for (size_t i = 0; i < sizeof amounts / sizeof *amounts; i++) {
        katara_value passed[2] = {milk, amounts[i]};
        wants("no amount", act_numbered(k, add, passed, 2), KATARA_NO_CALL);
    }
}

// the state, in a room of exactly its length
static text state(katara *k) {
    text t = {malloc(1), 0};
    wants("a state without room", katara_state(k, t.bytes, 0, &t.length), KATARA_ROOM);
    t.bytes = realloc(t.bytes, t.length);
    size_t length;
    wants("a state", katara_state(k, t.bytes, t.length, &length), KATARA_DONE);
    is("a state has the length that was told", length == t.length);
    return t;
}

// the state is this
static void same(const char *what, katara *k, text t) {
    text now = state(k);
    is(what, now.length == t.length && !memcmp(now.bytes, t.bytes, t.length));
    free(now.bytes);
}

// replicas of the type and the design of another one, and packets between them
static void sharing(katara *model) {
    katara here = {0}, there = {0};
    uint8_t whole[512], later[512], share[512], small[64];
    size_t whole_length, later_length, share_length, length;
    uint32_t changed = 7;
    uint64_t time;
    wants("number 0 of a type", katara_replica_new(model, &here, 0), KATARA_LIMIT);
    wants("number 33 of a type", katara_replica_new(model, &here, 33), KATARA_LIMIT);
    wants("a replica of a type", katara_replica_new(model, &here, 3), KATARA_DONE);
    wants("another one", katara_replica_new(&here, &there, 4), KATARA_DONE);
    wants("one that is open", katara_replica_new(model, &there, 5), KATARA_HANDLE);
    wants("its first operation", katara_do(&here, (const uint8_t *)"add \"milk\" 2", 12, &time), KATARA_DONE);
    is("it did nothing before", time == 1);
    wants("marks", katara_marks(&here, small, sizeof small, &length), KATARA_DONE);
    is("the marks of one operation", length == 26 && !memcmp(small, "[\"state\",1,3,1,[[[3,1]]]]\n", 26));
    wants("marks without room", katara_marks(&here, small, 25, &length), KATARA_ROOM);
    wants("a packet", katara_difference(&here, small, 0, whole, sizeof whole, &whole_length), KATARA_DONE);
    wants("a share", katara_share(&here, share, sizeof share, &share_length), KATARA_DONE);
    wants("a share without room", katara_share(&here, small, 1, &length), KATARA_ROOM);
    wants("its second operation", katara_do(&here, (const uint8_t *)"add \"eggs\" 1", 12, &time), KATARA_DONE);
    wants("a packet of what is new", katara_difference(&here, share, share_length, later, sizeof later, &later_length), KATARA_DONE);
    wants("a packet without room", katara_difference(&here, share, share_length, small, 1, &length), KATARA_ROOM);
    wants("beyond no share", katara_difference(&here, whole, whole_length, small, sizeof small, &length), KATARA_BAD_SHARE);
    wants("no packet", katara_merge_difference(&there, share, share_length, &changed), KATARA_BAD_SHARE);
    wants("a gap", katara_merge_difference(&there, later, later_length, &changed), KATARA_GAP);
    is("nothing is told of a change", changed == 7);
    wants("the first packet", katara_merge_difference(&there, whole, whole_length, &changed), KATARA_DONE);
    is("it changes something", changed == 1);
    wants("the second one", katara_merge_difference(&there, later, later_length, &changed), KATARA_DONE);
    is("it changes something too", changed == 1);
    wants("the first one again", katara_merge_difference(&there, whole, whole_length, &changed), KATARA_DONE);
    is("it changes nothing", changed == 0);
    wants("keys after packets", katara_keys(&there, 0, small, sizeof small, &length), KATARA_DONE);
    is("the keys of both packets", length == 15 && !memcmp(small, "[\"eggs\",\"milk\"]", 15));
    wants("no share", katara_restore_share(&there, later, later_length), KATARA_BAD_SHARE);
    wants("a share that is restored", katara_restore_share(&there, share, share_length), KATARA_DONE);
    wants("the same share", katara_share(&there, later, sizeof later, &length), KATARA_DONE);
    is("it is as it was", length == share_length && !memcmp(later, share, length));
    wants("the version", katara_version(small, sizeof small, &length), KATARA_DONE);
    is("it is that of the header", length == strlen(KATARA_VERSION) && !memcmp(small, KATARA_VERSION, length));
    wants("the version without room", katara_version(small, 1, &length), KATARA_ROOM);
    katara_free(&here);
    katara_free(&there);
}

int main(int count, char **words) {
    if (count != 3) return 2;
    text type = file(words[1]), design = file(words[2]);
    katara k = {0};
    uint64_t condition = 7, line = 7, time = 7;
    uint8_t room[64];
    size_t length;
    const uint8_t *none = (const uint8_t *)"";
    // a handle that has no replica
    wants("do of none", act(&k, "add \"milk\" 2"), KATARA_HANDLE);
    wants("ask of none", katara_ask(&k, none, 0, room, sizeof room, &length), KATARA_HANDLE);
    wants("state of none", katara_state(&k, room, sizeof room, &length), KATARA_HANDLE);
    uint32_t changed = 7;
    wants("merge of none", katara_merge(&k, none, 0, &changed), KATARA_HANDLE);
    wants("restore of none", katara_restore(&k, none, 0), KATARA_HANDLE);
    katara_value value = katara_truth(0);
    uint32_t add = 7, count_of = 7;
    katara other = {0};
    wants("operation of none", katara_operation(&k, (const uint8_t *)"add", 3, &add), KATARA_HANDLE);
    wants("query of none", katara_query(&k, (const uint8_t *)"count", 5, &add), KATARA_HANDLE);
    wants("numbered do of none", act_numbered(&k, 0, &value, 0), KATARA_HANDLE);
    wants("numbered ask of none", katara_ask_numbered(&k, 0, &value, 0, &value), KATARA_HANDLE);
    wants("merge from none to none", katara_merge_from(&k, &other, &changed), KATARA_HANDLE);
    is("nothing was found", add == 7);
    wants("keys of none", katara_keys(&k, 0, room, sizeof room, &length), KATARA_HANDLE);
    wants("new keys of none", katara_keys_beyond(&k, 0, none, 0, room, sizeof room, &length), KATARA_HANDLE);
    wants("share of none", katara_share(&k, room, sizeof room, &length), KATARA_HANDLE);
    wants("marks of none", katara_marks(&k, room, sizeof room, &length), KATARA_HANDLE);
    wants("difference of none", katara_difference(&k, none, 0, room, sizeof room, &length), KATARA_HANDLE);
    wants("packet of none", katara_merge_difference(&k, none, 0, &changed), KATARA_HANDLE);
    wants("share to none", katara_restore_share(&k, none, 0), KATARA_HANDLE);
    wants("a replica of none", katara_replica_new(&other, &k, 1), KATARA_HANDLE);
    is("nothing was told of a change", changed == 7);
    katara_free(&k);
    is("none is freed", !k.at);
    // texts that aren't opened
    wants("number 0", katara_open(&k, type.bytes, type.length, design.bytes, design.length, 0, &condition, &line), KATARA_LIMIT);
    wants("number 33", katara_open(&k, type.bytes, type.length, design.bytes, design.length, 33, &condition, &line), KATARA_LIMIT);
    wants("no type", katara_open(&k, none, 0, design.bytes, design.length, 1, &condition, &line), KATARA_BAD_TYPE);
    wants("no design", katara_open(&k, type.bytes, type.length, none, 0, 1, &condition, &line), KATARA_BAD_DESIGN);
    const uint8_t *max = (const uint8_t *)"builtin max";
    wants("another design", katara_open(&k, type.bytes, type.length, max, 11, 1, &condition, &line), KATARA_OTHER_SIGNATURE);
    is("no place but of a proof", condition == 7 && line == 7);
    // the number of the first line by propagation, 63, is another one
    uint8_t *unproved = malloc(design.length);
    memcpy(unproved, design.bytes, design.length);
    for (size_t i = 0; i + 4 < design.length; i++) {
        if (!memcmp(unproved + i, "[63]", 4)) {
            unproved[i + 1] = '5';
            break;
        }
    }
    wants("no proof", katara_open(&k, type.bytes, type.length, unproved, design.length, 1, &condition, &line), KATARA_BAD_PROOF);
    is("a proof's fault has a place", condition > 0 && line > 0 && line != 7);
    is("nothing is open", !k.at);
    // one that is open
    wants("open", katara_open(&k, type.bytes, type.length, design.bytes, design.length, 32, &condition, &line), KATARA_DONE);
    void *at = k.at;
    wants("open again", katara_open(&k, type.bytes, type.length, design.bytes, design.length, 1, &condition, &line), KATARA_HANDLE);
    is("the same replica", k.at == at);
    wants("do", katara_do(&k, (const uint8_t *)"add \"milk\" 2", 12, &time), KATARA_DONE);
    is("the first time is 1", time == 1);
    text before = state(&k);
    const char *calls[] = {"", "add", "add \"milk\"", "add 2 \"milk\"", "add \"milk\" -1", "add \"milk\" 2 3", "remove \"milk\" 2",
                           "count \"milk\"", "add \"milk\" 2\ndo add \"milk\" 2", "\n", "\"", "add \"milk\" 9999999999999"};
    for (size_t i = 0; i < sizeof calls / sizeof *calls; i++) wants(calls[i], act(&k, calls[i]), KATARA_NO_CALL);
    wants("a query that isn't one", katara_ask(&k, (const uint8_t *)calls[3], strlen(calls[3]), room, sizeof room, &length), KATARA_NO_CALL);
    wants("the number of add", katara_operation(&k, (const uint8_t *)"add", 3, &add), KATARA_DONE);
    wants("the number of count", katara_query(&k, (const uint8_t *)"count", 5, &count_of), KATARA_DONE);
    const char *nothings[] = {"", "ad", "adda", "count ", "add\0", "\xff", "a_name_of_more_than_16"};
    for (size_t i = 0; i < sizeof nothings / sizeof *nothings; i++) {
        uint32_t found = 7;
        wants("no operation", katara_operation(&k, (const uint8_t *)nothings[i], i == 4 ? 4 : strlen(nothings[i]), &found), KATARA_NO_CALL);
        wants("no query", katara_query(&k, (const uint8_t *)nothings[i], i == 4 ? 4 : strlen(nothings[i]), &found), KATARA_NO_CALL);
        is("no number", found == 7);
    }
    wrong_numbers(&k, add, count_of);
    wants("merge from none", katara_merge_from(&k, &other, &changed), KATARA_HANDLE);
    wants("merge to none", katara_merge_from(&other, &k, &changed), KATARA_HANDLE);
    wants("open a counter", katara_open(&other, (const uint8_t *)counter, strlen(counter), (const uint8_t *)sum, strlen(sum), 1, &condition, &line), KATARA_DONE);
    wants("merge from another design", katara_merge_from(&k, &other, &changed), KATARA_OTHER_DESIGN);
    wants("merge to another design", katara_merge_from(&other, &k, &changed), KATARA_OTHER_DESIGN);
    katara_free(&other);
    const char *states[] = {"", "[]", "{}", "[\"state\",2,1,0,[[]]]", "[\"state\",1,33,0,[[]]]", "[\"state\",1,1,0,[]]", "[\"state\",1,1,0,[[],[]]]",
                            "[\"state\",1,1,0,[[[\"milk\",[[1,0]]]]]]", "[\"state\",1,1,1000000001,[[]]]", "[\"state\",1,1,0,[[[\"b\",[[1,1]]],[\"a\",[[1,1]]]]]]"};
    for (size_t i = 0; i < sizeof states / sizeof *states; i++) {
        wants(states[i], katara_merge(&k, (const uint8_t *)states[i], strlen(states[i]), &changed), KATARA_BAD_STATE);
        wants(states[i], katara_restore(&k, (const uint8_t *)states[i], strlen(states[i])), KATARA_BAD_STATE);
    }
    for (size_t cut = 0; cut + 2 < before.length; cut++) wants("a state that is cut off", katara_merge(&k, before.bytes, cut, &changed), KATARA_BAD_STATE);
    same("refused calls leave the state", &k, before);
    // room
    memset(room, 7, sizeof room);
    wants("no room", katara_ask(&k, (const uint8_t *)"count \"milk\"", 12, room, 0, &length), KATARA_ROOM);
    is("the length is told, and nothing is written", length == 1 && room[0] == 7);
    wants("room", katara_ask(&k, (const uint8_t *)"count \"milk\"", 12, room, 1, &length), KATARA_DONE);
    is("the answer alone is written", length == 1 && room[0] == '2' && room[1] == 7);
    // limits
    const char *late = "[\"state\",1,31,1000000000,[[]]]", *full = "[\"state\",1,32,5,[[[\"milk\",[[32,1000000000000000000]]]]]]";
    wants("a late state", katara_restore(&k, (const uint8_t *)late, strlen(late)), KATARA_DONE);
    wants("past the last time", act(&k, "add \"milk\" 2"), KATARA_LIMIT);
    wants("a full state", katara_restore(&k, (const uint8_t *)full, strlen(full)), KATARA_DONE);
    wants("past the greatest sum", act(&k, "add \"milk\" 1"), KATARA_LIMIT);
    wants("another thing", act(&k, "add \"eggs\" 1"), KATARA_DONE);
    wants("back", katara_restore(&k, before.bytes, before.length), KATARA_DONE);
    same("a state that is restored is as it was", &k, before);
    // a state of another number, and its own older one
    wants("its own state", katara_merge(&k, before.bytes, before.length, &changed), KATARA_DONE);
    is("its own state changes nothing, and that is told", changed == 0);
    same("its own state changes nothing", &k, before);
    // another replica, by numbers and as it is
    wants("open another", katara_open(&other, type.bytes, type.length, design.bytes, design.length, 2, &condition, &line), KATARA_DONE);
    const katara_value eggs[2] = {katara_name("eggs", 4), katara_number(12)};
    wants("a numbered do", katara_do_numbered(&other, add, eggs, 2, &time), KATARA_DONE);
    is("the other's first time is 1", time == 1);
    wants("merge from another", katara_merge_from(&k, &other, &changed), KATARA_DONE);
    is("that it changed something is told", changed == 1);
    wants("a numbered ask", katara_ask_numbered(&k, count_of, eggs, 1, &value), KATARA_DONE);
    is("the number is answered", value.kind == KATARA_NUMBER && value.high == 0 && value.low == 12);
    text there = state(&other), both = state(&k);
    wants("merge of what is there", katara_merge(&k, there.bytes, there.length, &changed), KATARA_DONE);
    is("nor does what is there", changed == 0);
    same("a merge by text changes nothing more", &k, both);
    free(there.bytes);
    free(both.bytes);
    katara_free(&other);
    // keys, and what only a replica with marks does
    wants("keys", katara_keys(&k, count_of, room, sizeof room, &length), KATARA_DONE);
    is("the keys of a state", length == 15 && !memcmp(room, "[\"eggs\",\"milk\"]", 15));
    wants("keys without room", katara_keys(&k, count_of, room, 14, &length), KATARA_ROOM);
    wants("keys of no query", katara_keys(&k, 1, room, sizeof room, &length), KATARA_NO_CALL);
    wants("new keys", katara_keys_beyond(&k, count_of, before.bytes, before.length, room, sizeof room, &length), KATARA_DONE);
    is("the keys beyond an earlier state", length == 8 && !memcmp(room, "[\"eggs\"]", 8));
    wants("new keys of no query", katara_keys_beyond(&k, 1, before.bytes, before.length, room, sizeof room, &length), KATARA_NO_CALL);
    wants("new keys of no state", katara_keys_beyond(&k, count_of, none, 0, room, sizeof room, &length), KATARA_BAD_STATE);
    wants("a share without marks", katara_share(&k, room, sizeof room, &length), KATARA_NO_MARKS);
    wants("marks that aren't known", katara_marks(&k, room, sizeof room, &length), KATARA_NO_MARKS);
    wants("a difference without marks", katara_difference(&k, none, 0, room, sizeof room, &length), KATARA_NO_MARKS);
    wants("a packet to one without marks", katara_merge_difference(&k, none, 0, &changed), KATARA_NO_MARKS);
    sharing(&k);
    // run
    text out = {malloc(256), 256};
    const char *script = "replicas 2\ndo 1 add \"milk\" 2\nship 1 p\ndeliver p 2\nask 2 count \"milk\"\n";
    wants("run", katara_run(type.bytes, type.length, design.bytes, design.length, (const uint8_t *)script, strlen(script), out.bytes, out.length, &length), KATARA_DONE);
    is("what run writes", length == 19 && !memcmp(out.bytes, "2 count \"milk\" = 2\n", 19));
    wants("run without room", katara_run(type.bytes, type.length, design.bytes, design.length, (const uint8_t *)script, strlen(script), out.bytes, 18, &length), KATARA_ROOM);
    wants("no script", katara_run(type.bytes, type.length, design.bytes, design.length, none, 0, out.bytes, out.length, &length), KATARA_BAD_SCRIPT);
    wants("run, no proof", katara_run(type.bytes, type.length, unproved, design.length, (const uint8_t *)script, strlen(script), out.bytes, out.length, &length), KATARA_BAD_PROOF);
    // messages
    for (uint32_t code = 0; code < 17; code++) {
        wants("a message", katara_message(code, out.bytes, out.length, &length), KATARA_DONE);
        is("a message says what its code means", length == strlen(messages[code]) && !memcmp(out.bytes, messages[code], length));
    }
    wants("a message without room", katara_message(KATARA_DONE, out.bytes, 3, &length), KATARA_ROOM);
    is("the message's length is told", length == 4);
    katara_free(&k);
    is("freed", !k.at);
    wants("do behind free", act(&k, "add \"milk\" 2"), KATARA_HANDLE);
    wants("open behind free", katara_open(&k, type.bytes, type.length, design.bytes, design.length, 1, &condition, &line), KATARA_DONE);
    katara_free(&k);
    free(before.bytes);
    free(out.bytes);
    free(unproved);
    free(type.bytes);
    free(design.bytes);
    if (!wrong) puts("calls that must be refused are, with no error of memory");
    return wrong;
}
