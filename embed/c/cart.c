// Two replicas of a shopping cart: each does something, they exchange their states, and both answer alike.
//     cart TYPE DESIGN
#include <inttypes.h>
#include <katara.h>
#include <stdio.h>
#include <stdlib.h>
#include <string.h>

typedef struct {
    uint8_t *bytes;
    size_t length;
} text;

static void fail(uint32_t code) {
    uint8_t words[80];
    size_t length;
    if (katara_message(code, words, sizeof words, &length) == KATARA_DONE)
        fprintf(stderr, "katara: %.*s\n", (int)length, words);
    exit(1);
}

static void check(uint32_t code) {
    if (code != KATARA_DONE) fail(code);
}

static text file(const char *path) {
    FILE *f = fopen(path, "rb");
    text t = {malloc(1 << 20), 0};
    if (!f || !t.bytes) exit(1);
    t.length = fread(t.bytes, 1, 1 << 20, f);
    fclose(f);
    return t;
}

// The room grows until the state fits.
static text state(katara *k) {
    text t = {malloc(16), 16};
    uint32_t code;
    size_t length;
    while (t.bytes && (code = katara_state(k, t.bytes, t.length, &length)) == KATARA_ROOM) {
        t.bytes = realloc(t.bytes, length);
        t.length = length;
    }
    if (!t.bytes) exit(1);
    check(code);
    t.length = length;
    return t;
}

static void add(katara *k, uint32_t operation, const char *thing, int64_t count) {
    const katara_value passed[2] = {katara_name(thing, strlen(thing)), katara_number(count)};
    uint64_t time;
    check(katara_do_numbered(k, operation, passed, 2, &time));
}

static void tell(katara *k, uint32_t query, const char *thing) {
    const katara_value passed = katara_name(thing, strlen(thing));
    katara_value answer;
    check(katara_ask_numbered(k, query, &passed, 1, &answer));
    // (a count is below 2^63)
    printf("count \"%s\" = %" PRIu64 "\n", thing, answer.low);
}

int main(int count, char **words) {
    if (count != 3) return 2;
    text type = file(words[1]), design = file(words[2]);
    katara here = {0}, there = {0};
    uint64_t condition, line;
    check(katara_open(&here, type.bytes, type.length, design.bytes, design.length, 1, &condition, &line));
    check(katara_open(&there, type.bytes, type.length, design.bytes, design.length, 2, &condition, &line));
    // the numbers hold for both, which have one type
    uint32_t operation, query;
    check(katara_operation(&here, (const uint8_t *)"add", 3, &operation));
    check(katara_query(&here, (const uint8_t *)"count", 5, &query));
    add(&here, operation, "milk", 2);
    add(&there, operation, "milk", 3);
    add(&there, operation, "eggs", 12);
    text packet = state(&there);
    // once more changes nothing
    for (int again = 0; again < 2; again++) {
        uint32_t changed;
        check(katara_merge(&here, packet.bytes, packet.length, &changed));
        if (changed != !again) return 1;
    }
    tell(&here, query, "milk");
    tell(&here, query, "eggs");
    free(packet.bytes);
    free(type.bytes);
    free(design.bytes);
    katara_free(&here);
    katara_free(&there);
    return 0;
}
