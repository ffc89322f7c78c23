// Each request for memory that a call makes is refused in turn, and all after it: the call answers KATARA_NO_MEMORY, and the replica is as
// it was. It is linked with --wrap=malloc and --wrap=realloc, by which embed/heap.c asks here.
//     memory TYPE DESIGN
#include "../katara.h"
#include <stdio.h>
#include <stdlib.h>
#include <string.h>

void *__real_malloc(size_t size);
void *__real_realloc(void *at, size_t size);

// how many requests are granted before all are refused; below 0 all are granted
static long granted = -1;

static int is_refused(void) {
    if (granted > 0) granted--;
    return granted == 0;
}

void *__wrap_malloc(size_t size) { return is_refused() ? NULL : __real_malloc(size); }

void *__wrap_realloc(void *at, size_t size) { return is_refused() ? NULL : __real_realloc(at, size); }

typedef struct {
    const uint8_t *bytes;
    size_t length;
} text;

static text type, design;
static katara one, other, fresh;
static uint8_t packet[4096], share[4096], difference[4096], now[4096], out[4096];
static size_t packet_length, share_length, difference_length;

static text of(const char *words) { return (text){(const uint8_t *)words, strlen(words)}; }

static text file(const char *path) {
    FILE *f = fopen(path, "rb");
    uint8_t *bytes = __real_malloc(1 << 20);
    if (!f || !bytes) exit(1);
    text t = {bytes, fread(bytes, 1, 1 << 20, f)};
    fclose(f);
    return t;
}

static uint32_t open_it(katara *k, uint32_t number) {
    uint64_t condition, line;
    return katara_open(k, type.bytes, type.length, design.bytes, design.length, number, &condition, &line);
}

static uint32_t call_open(void) { return open_it(&fresh, 3); }

static uint32_t call_do(void) {
    text call = of("add \"bread\" 2");
    uint64_t time;
    return katara_do(&one, call.bytes, call.length, &time);
}

static uint32_t call_do_numbered(void) {
    const katara_value passed[2] = {katara_name("butter", 6), katara_number(2)};
    uint64_t time;
    return katara_do_numbered(&one, 0, passed, 2, &time);
}

static uint32_t call_ask(void) {
    text call = of("count \"milk\"");
    size_t length;
    return katara_ask(&one, call.bytes, call.length, out, sizeof out, &length);
}

static uint32_t call_ask_numbered(void) {
    const katara_value passed = katara_name("milk", 4);
    katara_value answer;
    return katara_ask_numbered(&one, 0, &passed, 1, &answer);
}

static uint32_t call_state(void) {
    size_t length;
    return katara_state(&one, out, sizeof out, &length);
}

static uint32_t call_keys(void) {
    size_t length;
    return katara_keys(&one, 0, out, sizeof out, &length);
}

static uint32_t call_keys_beyond(void) {
    size_t length;
    return katara_keys_beyond(&one, 0, packet, packet_length, out, sizeof out, &length);
}

static uint32_t call_merge(void) {
    uint32_t changed;
    return katara_merge(&one, packet, packet_length, &changed);
}

static uint32_t call_merge_from(void) {
    uint32_t changed;
    return katara_merge_from(&one, &other, &changed);
}

static uint32_t call_restore(void) { return katara_restore(&one, packet, packet_length); }

static uint32_t call_marks(void) {
    size_t length;
    return katara_marks(&one, out, sizeof out, &length);
}

static uint32_t call_share(void) {
    size_t length;
    return katara_share(&one, out, sizeof out, &length);
}

static uint32_t call_difference(void) {
    size_t length;
    return katara_difference(&one, share, share_length, out, sizeof out, &length);
}

static uint32_t call_merge_difference(void) {
    uint32_t changed;
    return katara_merge_difference(&one, difference, difference_length, &changed);
}

static uint32_t call_restore_share(void) { return katara_restore_share(&one, share, share_length); }

static uint32_t call_replica_new(void) { return katara_replica_new(&one, &fresh, 3); }

static uint32_t call_run(void) {
    text script = of("replicas 2\ndo 1 add \"milk\" 2\nship 1 p\ndeliver p 2\nask 2 count \"milk\"\n");
    size_t length;
    return katara_run(type.bytes, type.length, design.bytes, design.length, script.bytes, script.length, out, sizeof out, &length);
}

static const struct {
    const char *name;
    uint32_t (*call)(void);
    // by how many the refused request grows: a first one has thousands of them
    long step;
    // whether it asks for memory at all
    int asks;
} calls[] = {{"open", call_open, 97, 1},
             {"do", call_do, 1, 1},
             {"do by number", call_do_numbered, 1, 1},
             {"ask", call_ask, 1, 1},
             {"ask by number", call_ask_numbered, 1, 0},
             {"state", call_state, 1, 1},
             {"keys", call_keys, 1, 1},
             {"keys beyond", call_keys_beyond, 1, 1},
             {"marks", call_marks, 1, 1},
             {"share", call_share, 1, 1},
             {"difference", call_difference, 1, 1},
             {"merge difference", call_merge_difference, 1, 1},
             {"restore share", call_restore_share, 1, 1},
             {"replica new", call_replica_new, 1, 1},
             {"merge", call_merge, 1, 1},
             {"merge from", call_merge_from, 1, 1},
             {"restore", call_restore, 1, 1},
             {"run", call_run, 197, 1}};

static void fail(const char *name, long request, const char *what) {
    fprintf(stderr, "%s, request %ld: %s\n", name, request, what);
    exit(1);
}

// a replica that has milk, and another that has milk and eggs
static void begin(void) {
    uint64_t time;
    text milk = of("add \"milk\" 2"), eggs = of("add \"eggs\" 12");
    if (open_it(&one, 1) || open_it(&other, 2)) exit(1);
    if (katara_do(&one, milk.bytes, milk.length, &time) || katara_do(&other, milk.bytes, milk.length, &time)) exit(1);
    if (katara_do(&other, eggs.bytes, eggs.length, &time) || katara_state(&other, packet, sizeof packet, &packet_length)) exit(1);
    if (katara_share(&other, share, sizeof share, &share_length)) exit(1);
    if (katara_difference(&other, share, 0, difference, sizeof difference, &difference_length)) exit(1);
}

int main(int count, char **words) {
    if (count != 3) return 2;
    type = file(words[1]);
    design = file(words[2]);
    for (size_t i = 0; i < sizeof calls / sizeof *calls; i++) {
        begin();
        uint8_t before[4096];
        size_t before_length, length;
        if (katara_state(&one, before, sizeof before, &before_length)) return 1;
        for (long request = 1;; request += calls[i].step) {
            granted = request;
            uint32_t code = calls[i].call();
            granted = -1;
            if (code == KATARA_DONE && request == 1 && calls[i].asks) fail(calls[i].name, request, "asks for no memory");
            if (code == KATARA_DONE) break;
            if (code != KATARA_NO_MEMORY) fail(calls[i].name, request, "another code than that of no memory");
            if (fresh.at) fail(calls[i].name, request, "a replica was opened");
            if (katara_state(&one, now, sizeof now, &length)) return 1;
            if (length != before_length || memcmp(now, before, length)) fail(calls[i].name, request, "the replica isn't as it was");
        }
        katara_free(&one);
        katara_free(&other);
        katara_free(&fresh);
    }
    return 0;
}
