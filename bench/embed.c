// Calls of libkatara beside a plain implementation, for a counter and a set: what bench/embed.sh measures. Each line of the output is
// what is called, how, and the nanoseconds of a call.
//     embed COUNTER_TYPE COUNTER_DESIGN SET_TYPE SET_DESIGN
// The plain counter keeps a sum for each of 32 replicas, the plain set keeps for each name the time and the kind of the last call, in
// an array in the order of the names; both are called with numbers and names, and merge by a loop over what the other has.
#include "../embed/katara.h"
#include <stdio.h>
#include <stdlib.h>
#include <string.h>
#include <time.h>

enum { CALLS = 100000, NAMES = 200, MERGES = 1000 };

typedef struct {
    uint8_t *bytes;
    size_t length;
} text;

static text file(const char *path) {
    FILE *f = fopen(path, "rb");
    text t = {malloc(1 << 20), 0};
    if (!f || !t.bytes) exit(1);
    t.length = fread(t.bytes, 1, 1 << 20, f);
    fclose(f);
    return t;
}

static double from;

static void begin(void) {
    struct timespec t;
    clock_gettime(CLOCK_PROCESS_CPUTIME_ID, &t);
    from = t.tv_sec + t.tv_nsec * 1e-9;
}

static void said(const char *what, const char *how, int calls) {
    double began = from;
    begin();
    printf("%s %s %.1f\n", what, how, (from - began) / calls * 1e9);
}

static void check(uint32_t code) {
    if (code) {
        fprintf(stderr, "code %u\n", code);
        exit(1);
    }
}

static uint32_t number(uint32_t (*find)(katara *, const uint8_t *, size_t, uint32_t *), katara *k, const char *name) {
    uint32_t found;
    check(find(k, (const uint8_t *)name, strlen(name), &found));
    return found;
}

typedef struct {
    uint64_t sums[33];
} counter;

typedef struct {
    char key[16];
    uint64_t time;
    int in, replica;
} entry;

typedef struct {
    entry entries[NAMES];
    int count;
    uint64_t clock;
} set;

static int place(const set *s, const char *key, int *found) {
    int low = 0, high = s->count;
    while (low < high) {
        int mid = (low + high) / 2, order = strcmp(s->entries[mid].key, key);
        if (!order) {
            *found = 1;
            return mid;
        }
        if (order < 0) low = mid + 1;
        else high = mid;
    }
    *found = 0;
    return low;
}

static void put(set *s, entry e) {
    int found, at = place(s, e.key, &found);
    if (found) {
        entry *old = &s->entries[at];
        if (e.time > old->time || (e.time == old->time && (e.in > old->in || (e.in == old->in && e.replica > old->replica)))) *old = e;
        return;
    }
    memmove(s->entries + at + 1, s->entries + at, (s->count - at) * sizeof(entry));
    s->entries[at] = e;
    s->count += 1;
}

static uint8_t state[1 << 20];
static volatile uint64_t sink;

static void open_both(katara *here, katara *there, text type, text design) {
    uint64_t condition, line;
    check(katara_open(here, type.bytes, type.length, design.bytes, design.length, 1, &condition, &line));
    check(katara_open(there, type.bytes, type.length, design.bytes, design.length, 2, &condition, &line));
}

static void merges(const char *what, katara *here, katara *there, int calls) {
    size_t length;
    uint32_t changed;
    begin();
    for (int i = 0; i < calls; i++) {
        check(katara_state(here, state, sizeof state, &length));
        check(katara_merge(there, state, length, &changed));
    }
    said(what, "text", calls);
    for (int i = 0; i < calls; i++) check(katara_state(here, state, sizeof state, &length));
    said(what, "text_written", calls);
    for (int i = 0; i < calls; i++) check(katara_merge_from(there, here, &changed));
    said(what, "as_it_is", calls);
}

static void counters(text type, text design) {
    katara here = {0}, there = {0};
    uint64_t time;
    open_both(&here, &there, type, design);
    uint32_t visit = number(katara_operation, &here, "visit"), visits = number(katara_query, &here, "visits");
    katara_value none, answer;
    begin();
    for (int i = 0; i < CALLS; i++) check(katara_do(&here, (const uint8_t *)"visit", 5, &time));
    said("counter_do", "text", CALLS);
    for (int i = 0; i < CALLS; i++) check(katara_do_numbered(&here, visit, &none, 0, &time));
    said("counter_do", "numbers", CALLS);
    counter mine = {{0}}, theirs = {{0}};
    begin();
    for (int i = 0; i < CALLS; i++) {
        mine.sums[1] += 1;
        sink = mine.sums[1];
    }
    said("counter_do", "plain", CALLS);
    size_t length;
    uint8_t out[32];
    begin();
    for (int i = 0; i < CALLS; i++) check(katara_ask(&here, (const uint8_t *)"visits", 6, out, sizeof out, &length));
    said("counter_ask", "text", CALLS);
    for (int i = 0; i < CALLS; i++) check(katara_ask_numbered(&here, visits, &none, 0, &answer));
    said("counter_ask", "numbers", CALLS);
    if (answer.kind != KATARA_NUMBER || answer.low != 2 * CALLS) exit(1);
    begin();
    for (int i = 0; i < CALLS; i++) {
        uint64_t sum = 0;
        for (int r = 1; r <= 32; r++) sum += mine.sums[r];
        sink = sum;
    }
    said("counter_ask", "plain", CALLS);
    merges("counter_merge", &here, &there, CALLS);
    begin();
    for (int i = 0; i < CALLS; i++) {
        for (int r = 1; r <= 32; r++)
            if (mine.sums[r] > theirs.sums[r]) theirs.sums[r] = mine.sums[r];
        sink = theirs.sums[1];
    }
    said("counter_merge", "plain", CALLS);
    katara_free(&here);
    katara_free(&there);
}

static void sets(text type, text design) {
    katara here = {0}, there = {0};
    uint64_t time;
    open_both(&here, &there, type, design);
    uint32_t operations[2] = {number(katara_operation, &here, "remove"), number(katara_operation, &here, "insert")};
    uint32_t contains = number(katara_query, &here, "contains");
    static set mine, theirs;
    static char calls[CALLS][32], asks[CALLS][32];
    static entry entries[CALLS];
    for (int i = 0; i < CALLS; i++) {
        int in = rand() % 3 > 0;
        entries[i] = (entry){.in = in, .replica = 1};
        sprintf(entries[i].key, "key%03d", rand() % NAMES);
        sprintf(calls[i], "%s \"%.15s\"", in ? "insert" : "remove", entries[i].key);
        sprintf(asks[i], "contains \"%.15s\"", entries[i].key);
    }
    begin();
    for (int i = 0; i < CALLS; i++) check(katara_do(&here, (const uint8_t *)calls[i], strlen(calls[i]), &time));
    said("set_do", "text", CALLS);
    for (int i = 0; i < CALLS; i++) {
        katara_value name = katara_name(entries[i].key, strlen(entries[i].key));
        check(katara_do_numbered(&here, operations[entries[i].in], &name, 1, &time));
    }
    said("set_do", "numbers", CALLS);
    begin();
    for (int i = 0; i < CALLS; i++) {
        entries[i].time = ++mine.clock;
        put(&mine, entries[i]);
    }
    said("set_do", "plain", CALLS);
    // what the text of a call costs alone: one that is read whole, and refused for its last word
    for (int i = 0; i < CALLS; i++) strcat(calls[i], " 1");
    begin();
    for (int i = 0; i < CALLS; i++)
        if (katara_do(&here, (const uint8_t *)calls[i], strlen(calls[i]), &time) != KATARA_NO_CALL) exit(1);
    said("set_do", "text_refused", CALLS);
    size_t length;
    uint8_t out[32];
    katara_value answer;
    begin();
    for (int i = 0; i < CALLS; i++) check(katara_ask(&here, (const uint8_t *)asks[i], strlen(asks[i]), out, sizeof out, &length));
    said("set_ask", "text", CALLS);
    for (int i = 0; i < CALLS; i++) {
        katara_value name = katara_name(entries[i].key, strlen(entries[i].key));
        check(katara_ask_numbered(&here, contains, &name, 1, &answer));
    }
    said("set_ask", "numbers", CALLS);
    begin();
    for (int i = 0; i < CALLS; i++) {
        int found, at = place(&mine, entries[i].key, &found);
        sink = found && mine.entries[at].in;
    }
    said("set_ask", "plain", CALLS);
    merges("set_merge", &here, &there, MERGES);
    begin();
    for (int i = 0; i < MERGES; i++) {
        for (int e = 0; e < mine.count; e++) put(&theirs, mine.entries[e]);
        if (mine.clock > theirs.clock) theirs.clock = mine.clock;
        sink = theirs.count;
    }
    said("set_merge", "plain", MERGES);
    katara_free(&here);
    katara_free(&there);
}

int main(int count, char **words) {
    if (count != 5) return 2;
    counters(file(words[1]), file(words[2]));
    sets(file(words[3]), file(words[4]));
    return 0;
}
