// Makes the calls that lines of standard input ask for, and answers each with a line, for fuzz.py, which has the form of both. Each text,
// state and answer lies in a block of exactly its length, so that a checker of memory sees each byte that is read or written past it.
#include "../katara.h"
#include <inttypes.h>
#include <stdio.h>
#include <stdlib.h>
#include <string.h>

enum { SLOTS = 4096, VALUES = 8 };

static katara slots[SLOTS];

typedef struct {
    uint8_t *bytes;
    size_t length;
} text;

static void *block(size_t size) {
    void *at = malloc(size ? size : 1);
    if (!at) exit(3);
    return at;
}

// bytes that a word has as hexadecimal digits, or `-` for none
static text bytes_of(const char *word) {
    text t = {NULL, word[0] == '-' ? 0 : strlen(word) / 2};
    t.bytes = block(t.length);
    for (size_t i = 0; i < t.length; i++) {
        unsigned byte;
        if (sscanf(word + 2 * i, "%2x", &byte) != 1) exit(3);
        t.bytes[i] = (uint8_t)byte;
    }
    return t;
}

static void put_bytes(const uint8_t *bytes, size_t length) {
    if (!length) putchar('-');
    for (size_t i = 0; i < length; i++) printf("%02x", bytes[i]);
}

static text next_bytes(void) {
    const char *word = strtok(NULL, " \n");
    if (!word) exit(3);
    return bytes_of(word);
}

static unsigned long next_number(void) {
    const char *word = strtok(NULL, " \n");
    if (!word) exit(3);
    return strtoul(word, NULL, 10);
}

static katara *next_slot(void) { return &slots[next_number() % SLOTS]; }

static void told(uint32_t code, const char *condition, const char *line) {
    uint8_t words[128];
    size_t length;
    if (katara_message(code, words, sizeof words, &length) != KATARA_DONE) exit(3);
    printf("error %" PRIu32 " %s %s ", code, condition, line);
    put_bytes(words, length);
}

// an answer by a room that is first none, and then exactly as long as it must be; of a query with this number
typedef struct {
    const char *word;
    katara *k;
    uint32_t query;
    text given[3];
} asked;

static uint32_t ask(const asked *a, uint8_t *out, size_t room, size_t *length) {
    const text *t = a->given;
    if (!strcmp(a->word, "state")) return katara_state(a->k, out, room, length);
    if (!strcmp(a->word, "ask_text")) return katara_ask(a->k, t[0].bytes, t[0].length, out, room, length);
    if (!strcmp(a->word, "share")) return katara_share(a->k, out, room, length);
    if (!strcmp(a->word, "marks")) return katara_marks(a->k, out, room, length);
    if (!strcmp(a->word, "difference")) return katara_difference(a->k, t[0].bytes, t[0].length, out, room, length);
    if (!strcmp(a->word, "keys")) return katara_keys(a->k, a->query, out, room, length);
    if (!strcmp(a->word, "keys_beyond")) return katara_keys_beyond(a->k, a->query, t[1].bytes, t[1].length, out, room, length);
    return katara_run(t[0].bytes, t[0].length, t[1].bytes, t[1].length, t[2].bytes, t[2].length, out, room, length);
}

// the keys of a list: of each name its bytes, and of each number its digits
static void put_keys(const uint8_t *list, size_t length) {
    if (length == 2) putchar('-');
    for (size_t at = 1; at + 1 < length;) {
        size_t end = at;
        while (list[end] != ',' && list[end] != ']') end++;
        if (at > 1) putchar(',');
        putchar(list[at] == '"' ? 's' : 'n');
        if (list[at] == '"') put_bytes(list + at + 1, end - at - 2);
        else printf("%.*s", (int)(end - at), (const char *)list + at);
        at = end + 1;
    }
}

static void answer(const asked *a) {
    size_t length = 0;
    uint8_t *out = block(0);
    uint32_t code = ask(a, out, 0, &length);
    if (code == KATARA_ROOM) {
        free(out);
        out = block(length);
        code = ask(a, out, length, &length);
    }
    if (code == KATARA_DONE && !strncmp(a->word, "keys", 4)) {
        printf("ok ");
        put_keys(out, length);
    } else if (code == KATARA_DONE) {
        printf("ok ");
        put_bytes(out, length);
    } else {
        told(code, "-", "-");
    }
    free(out);
}

// a whole number of at most 128 bits, by the function of the header if that takes it
static int whole(const char *digits, katara_value *value) {
    int negative = digits[0] == '-';
    unsigned __int128 number = 0;
    for (const char *at = digits + negative; *at; at++) {
        unsigned __int128 last = number;
        number = number * 10 + (unsigned)(*at - '0');
        if (number / 10 != last) return 0;
    }
    if (number > ((unsigned __int128)1 << 127) - !negative) return 0;
    if (number <= INT64_MAX) {
        *value = katara_number(negative ? -(int64_t)number : (int64_t)number);
    } else {
        __int128 said = negative ? -(__int128)(number - 1) - 1 : (__int128)number;
        *value = (katara_value){KATARA_NUMBER, (int64_t)(said >> 64), (uint64_t)said, {0}};
    }
    return 1;
}

// the values of the rest of the line; 0 if one of them is none that C has
static int next_values(katara_value *values, size_t *count) {
    int good = 1;
    *count = 0;
    for (const char *word = strtok(NULL, " \n"); word && *count < VALUES; word = strtok(NULL, " \n")) {
        katara_value *value = &values[(*count)++];
        if (word[0] == 't') {
            *value = katara_truth(word[1] == '1');
        } else if (word[0] == 'n') {
            good = good && whole(word + 1, value);
        } else {
            text name = bytes_of(word + 1);
            *value = katara_name((const char *)name.bytes, name.length);
            good = good && !memchr(name.bytes, 0, name.length);
            free(name.bytes);
        }
    }
    return good;
}

static void put_value(const katara_value *value) {
    if (value->kind == KATARA_TRUTH) printf("ok t%" PRIu64, value->low);
    if (value->kind == KATARA_NUMBER) printf("ok n%s%" PRIu64, value->high < 0 ? "-" : "", value->high < 0 ? -value->low : value->low);
    if (value->kind == KATARA_NAME) {
        printf("ok s");
        put_bytes((const uint8_t *)value->name, strnlen(value->name, sizeof value->name));
    }
}

static void numbered(int does) {
    katara *k = next_slot();
    text name = next_bytes();
    katara_value *values = block(VALUES * sizeof *values), answered = {3, 0, 0, {0}};
    size_t count;
    int good = next_values(values, &count);
    // (a block of as many as are passed)
    katara_value *passed = block(count * sizeof *passed);
    memcpy(passed, values, count * sizeof *passed);
    uint32_t number = 0;
    uint64_t time = 0;
    uint32_t code = (does ? katara_operation : katara_query)(k, name.bytes, name.length, &number);
    if (code == KATARA_DONE && !good) code = KATARA_NO_CALL;
    if (code == KATARA_DONE) code = does ? katara_do_numbered(k, number, passed, count, &time) : katara_ask_numbered(k, number, passed, count, &answered);
    if (code != KATARA_DONE) told(code, "-", "-");
    else if (does) printf("ok %" PRIu64, time);
    else put_value(&answered);
    free(name.bytes);
    free(values);
    free(passed);
}

static void open_one(void) {
    katara *k = next_slot();
    uint32_t number = (uint32_t)next_number();
    text type = next_bytes(), design = next_bytes();
    uint64_t condition, line;
    katara kept = {0};
    // (replicas with an even number by a type that is opened first)
    uint32_t code = number % 2 ? katara_open(k, type.bytes, type.length, design.bytes, design.length, number, &condition, &line)
                               : katara_type_open(&kept, type.bytes, type.length, design.bytes, design.length, &condition, &line);
    if (code == KATARA_DONE && number % 2 == 0) code = katara_replica_new(&kept, k, number);
    katara_free(&kept);
    char places[2][24] = {"-", "-"};
    if (code == KATARA_BAD_PROOF) {
        snprintf(places[0], sizeof places[0], "%" PRIu64, condition);
        snprintf(places[1], sizeof places[1], "%" PRIu64, line);
    }
    if (code == KATARA_DONE) printf("ok");
    else told(code, places[0], places[1]);
    free(type.bytes);
    free(design.bytes);
}

// a call with a text
static void with_text(const char *word) {
    katara *k = next_slot();
    text t = next_bytes();
    uint64_t time = 0;
    uint32_t changed = 7;
    int merges = !strncmp(word, "merge", 5);
    uint32_t code = !strcmp(word, "do_text")            ? katara_do(k, t.bytes, t.length, &time)
                    : !strcmp(word, "merge")            ? katara_merge(k, t.bytes, t.length, &changed)
                    : !strcmp(word, "merge_difference") ? katara_merge_difference(k, t.bytes, t.length, &changed)
                    : !strcmp(word, "restore_share")    ? katara_restore_share(k, t.bytes, t.length)
                                                        : katara_restore(k, t.bytes, t.length);
    if (code != KATARA_DONE) told(code, "-", "-");
    else if (!strcmp(word, "do_text")) printf("ok %" PRIu64, time);
    else if (merges) printf("ok %" PRIu32, changed);
    else printf("ok");
    free(t.bytes);
}

// how many texts a call has that writes to a room; -1 if it doesn't
static int texts_of(const char *word) {
    static const struct {
        const char *word;
        int texts;
    } calls[] = {{"state", 0}, {"share", 0}, {"marks", 0}, {"ask_text", 1}, {"difference", 1}, {"keys", 1}, {"keys_beyond", 2}, {"run", 3}};
    for (size_t i = 0; i < sizeof calls / sizeof *calls; i++)
        if (!strcmp(word, calls[i].word)) return calls[i].texts;
    return -1;
}

static void call(const char *word) {
    asked a = {word, NULL, 0, {{NULL, 0}, {NULL, 0}, {NULL, 0}}};
    if (!strcmp(word, "open")) {
        open_one();
    } else if (!strcmp(word, "free")) {
        katara_free(next_slot());
        printf("ok");
    } else if (!strcmp(word, "do") || !strcmp(word, "ask")) {
        numbered(word[0] == 'd');
    } else if (!strcmp(word, "merge_from")) {
        katara *k = next_slot();
        uint32_t changed = 7, code = katara_merge_from(k, next_slot(), &changed);
        if (code == KATARA_DONE) printf("ok %" PRIu32, changed);
        else told(code, "-", "-");
    } else if (texts_of(word) >= 0) {
        int texts = texts_of(word);
        if (texts < 3) a.k = next_slot();
        for (int i = 0; i < texts; i++) a.given[i] = next_bytes();
        uint32_t code = strncmp(word, "keys", 4) ? KATARA_DONE : katara_query(a.k, a.given[0].bytes, a.given[0].length, &a.query);
        if (code == KATARA_DONE) answer(&a);
        else told(code, "-", "-");
        for (int i = 0; i < texts; i++) free(a.given[i].bytes);
    } else {
        with_text(word);
    }
}

int main(void) {
    char *line = NULL;
    size_t room = 0;
    while (getline(&line, &room, stdin) > 0) {
        const char *word = strtok(line, " \n");
        if (!word) break;
        call(word);
        putchar('\n');
        fflush(stdout);
    }
    free(line);
    for (size_t i = 0; i < SLOTS; i++) katara_free(&slots[i]);
    return 0;
}
