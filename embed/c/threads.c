// Two threads call two replicas, of which one was merged into the other directly, so that both share the shapes of their table's entries.
// Each call takes and drops such a share. At the end the states are those of replicas that share nothing, since they were merged as a
// text, and all memory was given back once. It is linked with --wrap=malloc, --wrap=realloc and --wrap=free, by which embed/heap.c asks here.
//     threads TYPE DESIGN CALLS
#include "../katara.h"
#include <pthread.h>
#include <stdatomic.h>
#include <stdio.h>
#include <stdlib.h>
#include <string.h>

enum { KEYS = 97, FIRST = 64, ROOM = 1 << 16 };

void *__real_malloc(size_t size);
void *__real_realloc(void *at, size_t size);
void __real_free(void *at);

// how many blocks are given out
static atomic_long blocks;

void *__wrap_malloc(size_t size) {
    void *at = __real_malloc(size);
    if (at) atomic_fetch_add(&blocks, 1);
    return at;
}

void *__wrap_realloc(void *at, size_t size) {
    void *moved = __real_realloc(at, size);
    if (!at && moved) atomic_fetch_add(&blocks, 1);
    return moved;
}

void __wrap_free(void *at) {
    if (at) atomic_fetch_sub(&blocks, 1);
    __real_free(at);
}

typedef struct {
    katara replica;
    uint32_t insert, remove;
    long calls;
} caller;

typedef struct {
    const uint8_t *bytes;
    size_t length;
} text;

static pthread_barrier_t both;

static void must(int so, const char *what) {
    if (so) return;
    puts(what);
    exit(1);
}

static text file(const char *path) {
    FILE *f = fopen(path, "rb");
    uint8_t *bytes = __real_malloc(ROOM);
    must(f && bytes, path);
    text t = {bytes, fread(bytes, 1, ROOM, f)};
    fclose(f);
    return t;
}

static void open_it(caller *c, text type, text design, uint32_t number, long calls) {
    uint64_t condition, line;
    memset(c, 0, sizeof *c);
    c->calls = calls;
    must(katara_open(&c->replica, type.bytes, type.length, design.bytes, design.length, number, &condition, &line) == KATARA_DONE, "open");
    must(katara_operation(&c->replica, (const uint8_t *)"insert", 6, &c->insert) == KATARA_DONE, "insert");
    must(katara_operation(&c->replica, (const uint8_t *)"remove", 6, &c->remove) == KATARA_DONE, "remove");
}

// inserts a key, or removes it, by turns
static void call(caller *c, long n) {
    char name[16];
    uint64_t time;
    katara_value key = katara_name(name, (size_t)snprintf(name, sizeof name, "k%ld", n % KEYS));
    must(katara_do_numbered(&c->replica, n / KEYS % 2 ? c->remove : c->insert, &key, 1, &time) == KATARA_DONE, "a call");
}

static void *run(void *at) {
    caller *c = at;
    pthread_barrier_wait(&both);
    for (long n = 0; n < c->calls; n++) call(c, n);
    return NULL;
}

static size_t state(caller *c, uint8_t *out) {
    size_t length;
    must(katara_state(&c->replica, out, ROOM, &length) == KATARA_DONE, "state");
    return length;
}

int main(int argc, char **argv) {
    must(argc == 4, "threads TYPE DESIGN CALLS");
    text type = file(argv[1]), design = file(argv[2]);
    long calls = atol(argv[3]), before = atomic_load(&blocks);
    static caller shared[2], apart[2];
    static uint8_t one[ROOM], other[ROOM];
    uint32_t changed;
    for (int i = 0; i < 2; i++) {
        open_it(&shared[i], type, design, (uint32_t)i + 1, calls);
        open_it(&apart[i], type, design, (uint32_t)i + 1, calls);
    }
    for (long n = 0; n < FIRST; n++) {
        call(&shared[0], n);
        call(&apart[0], n);
    }
    must(katara_merge_from(&shared[1].replica, &shared[0].replica, &changed) == KATARA_DONE && changed, "merged directly");
    must(katara_merge(&apart[1].replica, one, state(&apart[0], one), &changed) == KATARA_DONE && changed, "merged as a text");
    pthread_t threads[2];
    must(!pthread_barrier_init(&both, NULL, 2), "barrier");
    for (int i = 0; i < 2; i++) must(!pthread_create(&threads[i], NULL, run, &shared[i]), "thread");
    for (int i = 0; i < 2; i++) must(!pthread_join(threads[i], NULL), "join");
    for (int i = 0; i < 2; i++) {
        for (long n = 0; n < calls; n++) call(&apart[i], n);
        size_t length = state(&shared[i], one);
        must(length == state(&apart[i], other) && !memcmp(one, other, length), "a state differs from that of a replica that shares nothing");
    }
    for (int i = 0; i < 2; i++) {
        katara_free(&shared[i].replica);
        katara_free(&apart[i].replica);
    }
    must(atomic_load(&blocks) == before, "memory wasn't given back once");
    return 0;
}
