// A fuzzer inside the program that it tries. It is loaded before a program of Rattle, takes its `main`, and calls that again and
// again with words and files of its own, which it makes by changing those that it has. Files are served from memory, what is
// written is kept, and memory is given from an arena, which is emptied after each call. What a call reaches is seen by
// breakpoints: at the head of each block of the program's code there is one until the block is reached for the first time. So the
// program is tried as it was built, and a call that reaches nothing new costs what it costs without all this.
//
// The calls are made by a child, up to a number; if it dies, hangs or has made them, the next one goes on. All that must
// outlast it (inputs, counts, blocks reached) is in memory that it shares with its parent.
//
//     gcc -O2 -shared -fPIC -o fuzz.so fuzz.c -ldl
//     LD_PRELOAD=./fuzz.so PROGRAM SEEDS DICTIONARY BLOCKS FOLDER CALLS SECONDS SEED
//
// SEEDS has a line for each call: the command, then its files and options, with tabs between. DICTIONARY has a word a line, BLOCKS
// a place of the code a line, in hexadecimal. What was found goes into FOLDER: an input is a folder with the files 0, 1, .. and
// the words. fuzz.sh makes all of these.
#define _GNU_SOURCE
#include <dlfcn.h>
#include <errno.h>
#include <fcntl.h>
#include <link.h>
#include <setjmp.h>
#include <signal.h>
#include <stdarg.h>
#include <stdint.h>
#include <stdio.h>
#include <stdlib.h>
#include <string.h>
#include <sys/mman.h>
#include <sys/stat.h>
#include <sys/time.h>
#include <sys/uio.h>
#include <sys/wait.h>
#include <time.h>
#include <ucontext.h>
#include <unistd.h>

enum { FILES = 6, OPTIONS = 4, WORD = 40, CAP = 16 << 10, INPUTS = 1 << 17, WORDS = 1024, STATUSES = 11, COMMANDS = 13 };
enum { CALLS_OF_A_CHILD = 50000, TICK = 100000, SLOW_TICKS = 10, LONG_TICKS = 100, KEPT = 5000, FIRST_FILE = 1 << 20 };
#define ARENA ((size_t)2 << 30)
#define SHARED ((size_t)6 << 30)

typedef enum { TYPE, DESIGN, SCRIPT, STATE, ACTIONS, QUESTIONS, REPORT, KINDS } Kind;
typedef struct { const char *name; int count; Kind kinds[4]; const char *options; int weight; } Command;
// A weight is how often a command is tried, among all.
static const Command commands[COMMANDS] = {
    {"check", 2, {TYPE, DESIGN}, "", 24},
    {"migrate", 2, {TYPE, DESIGN}, "", 10},
    {"run", 3, {TYPE, DESIGN, SCRIPT}, "", 12},
    {"deltas", 3, {TYPE, DESIGN, SCRIPT}, "", 12},
    {"converge", 2, {DESIGN, SCRIPT}, "", 14},
    {"model", 2, {TYPE, SCRIPT}, "", 14},
    {"node-new", 1, {DESIGN}, "r", 6},
    {"node-step", 3, {DESIGN, STATE, ACTIONS}, "", 14},
    {"node-ask", 4, {TYPE, DESIGN, STATE, QUESTIONS}, "", 10},
    {"list", 1, {TYPE}, "sdk", 4},
    {"synth", 1, {TYPE}, "sdke", 1},
    {"sample", 0, {0}, "l", 0},
    {"audit", 2, {TYPE, REPORT}, "sdke", 6},
};

typedef struct { uint32_t length; uint8_t *at; } Text;
typedef struct { int command, files, options, reached; uint32_t micros; Kind kinds[FILES]; Text file[FILES]; char option[OPTIONS][WORD]; } Input;
typedef struct {
    uint64_t calls, blocks, slow, hangs, crashes, wrong, peak, longest, began, count[COMMANDS][STATUSES];
    uint64_t inputs, used, random, ticks, seen, saved;
    int inside, is_noted, is_done;
    char why[128];
    Input now, entries[INPUTS];
    uint8_t texts[FILES][CAP], first[1 << 20];
} Shared;

static Shared *all;
static uint8_t *heap, *room;                 // of the shared memory: texts of inputs; of a call: its memory
static size_t heap_used, room_used, live, peak;
static uint8_t *code, *code_end, *kept, *is_reached;  // the program's code, its bytes below breakpoints, and which were reached
static int words_count;
static char *dictionary[WORDS];
static int (*real_main)(int, char **, char **);
static void (**started)(int, char **, char **);
static size_t starts;
static char **environment;
static const char *folder;
static uint64_t most_calls, most_seconds;
static void (*leave)(int);
static sigjmp_buf back;
static volatile sig_atomic_t inside;
static uint8_t out[2][1 << 20];
static size_t out_length[2];

static void fail(const char *what) { fprintf(stderr, "fuzz: %s\n", what); leave(2); }
static uint64_t draw(uint64_t below) {
    uint64_t x = all->random;
    x ^= x >> 12, x ^= x << 25, x ^= x >> 27;
    all->random = x;
    return below ? (x * 2685821657736338717ull >> 16) % below : 0;
}
static uint64_t micros(void) {
    struct timespec t;
    clock_gettime(CLOCK_PROCESS_CPUTIME_ID, &t);
    return t.tv_sec * 1000000ull + t.tv_nsec / 1000;
}

/* Memory of a call: blocks one after the other, each with its size before it and a mark after it. */

typedef struct { size_t size, is_live; } Head;
static const uint64_t mark = 0xA5C3A5C3DEADBEEFull;
extern void *__libc_malloc(size_t), *__libc_realloc(void *, size_t);
extern void __libc_free(void *);

static int is_ours(void *at) { return (uint8_t *)at >= room && (uint8_t *)at < room + ARENA && room; }
static void wrong(const char *what) {
    if (!all->is_noted) snprintf(all->why, sizeof all->why, "%s", what);
    all->is_noted = 1;
}
void *malloc(size_t size) {
    if (!inside) return __libc_malloc(size);
    size_t whole = (sizeof(Head) + size + sizeof mark + 15) & ~(size_t)15;
    if (size > ARENA || room_used + whole > ARENA) return NULL;
    Head *head = (Head *)(room + room_used);
    room_used += whole;
    *head = (Head){size, 1};
    memcpy((uint8_t *)(head + 1) + size, &mark, sizeof mark);
    live += size;
    if (live > peak) peak = live;
    return head + 1;
}
void free(void *at) {
    if (!at) return;
    if (!is_ours(at)) { __libc_free(at); return; }
    Head *head = (Head *)at - 1;
    if (!head->is_live) { wrong("memory given back twice"); return; }
    if (memcmp((uint8_t *)at + head->size, &mark, sizeof mark)) wrong("written behind a piece of memory");
    head->is_live = 0;
    live -= head->size;
    memset(at, 0xDB, head->size < 4096 ? head->size : 4096);
}
void *realloc(void *at, size_t size) {
    if (!inside && !is_ours(at)) return __libc_realloc(at, size);
    void *to = malloc(size);
    if (to && at) {
        size_t before = ((Head *)at - 1)->size;
        memcpy(to, at, before < size ? before : size);
        free(at);
    }
    return to;
}
void *calloc(size_t count, size_t size) {
    void *at = malloc(count * size);
    return at ? memset(at, 0, count * size) : at;
}

/* Files of a call: `@0`, `@1` and so on, from memory; what it writes is kept. */

static size_t place_in[FILES];
static int opened(const char *path) {
    if (path[0] == '@' && path[1] >= '0' && path[1] < '0' + all->now.files && !path[2]) {
        place_in[path[1] - '0'] = 0;
        return FIRST_FILE + path[1] - '0';
    }
    errno = ENOENT;
    return -1;
}
#define REAL(name) ((__typeof__(&name))dlsym(RTLD_NEXT, #name))
int open(const char *path, int flags, ...) {
    va_list more;
    va_start(more, flags);
    int mode = va_arg(more, int);
    va_end(more);
    return inside ? opened(path) : REAL(open)(path, flags, mode);
}
int open64(const char *path, int flags, ...) { return inside ? opened(path) : REAL(open64)(path, flags, 0600); }
int openat(int at, const char *path, int flags, ...) { return inside ? opened(path) : REAL(openat)(at, path, flags, 0600); }
int close(int of) { return of >= FIRST_FILE ? 0 : REAL(close)(of); }
ssize_t read(int of, void *into, size_t most) {
    if (of < FIRST_FILE) return REAL(read)(of, into, most);
    Text *text = &all->now.file[of - FIRST_FILE];
    size_t left = text->length - place_in[of - FIRST_FILE], taken = left < most ? left : most;
    memcpy(into, text->at + place_in[of - FIRST_FILE], taken);
    place_in[of - FIRST_FILE] += taken;
    return taken;
}
int fstat(int of, struct stat *into) {
    if (of < FIRST_FILE) return REAL(fstat)(of, into);
    memset(into, 0, sizeof *into);
    into->st_mode = S_IFREG | 0600, into->st_size = all->now.file[of - FIRST_FILE].length;
    return 0;
}
off_t lseek(int of, off_t to, int from) {
    if (of >= FIRST_FILE) { errno = ESPIPE; return -1; }
    return REAL(lseek)(of, to, from);
}
static void keep_written(int of, const void *bytes, size_t length) {
    size_t left = sizeof out[0] - out_length[of - 1];
    memcpy(out[of - 1] + out_length[of - 1], bytes, length < left ? length : left);
    out_length[of - 1] += length < left ? length : left;
}
ssize_t write(int of, const void *bytes, size_t length) {
    if (!inside || of < 1 || of > 2) return REAL(write)(of, bytes, length);
    keep_written(of, bytes, length);
    return length;
}
ssize_t __write(int of, const void *bytes, size_t length) { return write(of, bytes, length); }
ssize_t writev(int of, const struct iovec *parts, int count) {
    if (!inside || of < 1 || of > 2) return REAL(writev)(of, parts, count);
    ssize_t whole = 0;
    for (int i = 0; i < count; i++) keep_written(of, parts[i].iov_base, parts[i].iov_len), whole += parts[i].iov_len;
    return whole;
}
void exit(int status) {
    if (inside) siglongjmp(back, 1 + status);
    REAL(exit)(status);
    __builtin_unreachable();
}
void _exit(int status) {
    if (inside) siglongjmp(back, 1 + status);
    leave(status);
    __builtin_unreachable();
}

/* One call */

// The program with the input `all->now`: its status, or -1 where the input can't be called.
static int call(void) {
    static char names[FILES][3] = {"@0", "@1", "@2", "@3", "@4", "@5"};
    static char word[FILES + OPTIONS + 3][WORD];
    static char *words[FILES + OPTIONS + 3];
    Input *input = &all->now;
    int count = 0, status;
    words[count++] = "katara";
    words[count++] = (char *)commands[input->command].name;
    for (int i = 0; i < input->files; i++) words[count++] = names[i];
    for (int i = 0; i < input->options; i++) words[count] = strcpy(word[count], input->option[i]), count++;
    words[count] = NULL;
    out_length[0] = out_length[1] = room_used = live = peak = 0;
    all->ticks = 0;
    all->inside = 1;
    uint64_t before = micros();
    if ((status = sigsetjmp(back, 0)) == 0) {
        inside = 1;
        for (size_t i = 0; i < starts; i++) started[i](count, words, environment);
        status = 1 + real_main(count, words, environment);
    }
    inside = 0;
    input->micros = micros() - before;
    all->inside = 0;
    all->calls++;
    if (input->micros > all->longest) all->longest = input->micros;
    if (peak > all->peak) all->peak = peak;
    if (room_used > (size_t)64 << 20) madvise(room, room_used, MADV_DONTNEED);
    status = status - 1 < STATUSES && status > 0 ? status - 1 : STATUSES - 1;
    all->count[input->command][status]++;
    return status;
}

static int begins(const char *with) { return out_length[1] >= strlen(with) && !memcmp(out[1], with, strlen(with)); }
static int has(const char *part) { return memmem(out[1], out_length[1], part, strlen(part)) != NULL; }
// What must hold of every call whose files can be read, with memory and a place to write to.
static void judge(int status) {
    static const char *const lines[] = {"", "usage\n", NULL, NULL, "no design\n", "undecided\n", "stopped\n", NULL, NULL, "proof refused: condition "};
    if (status == 2 || status == 7 || status == 8 || status > 9) wrong("a status that isn't due");
    else if (status == 0 && out_length[1]) wrong("done, with a line on standard error");
    else if (status == 3 && (!begins("@") || !(has(" at ") || has(" 20\n") || has(" 22\n")))) wrong("a refusal without a place");
    else if (status && lines[status] && !begins(lines[status])) wrong("another line on standard error");
    else if (status && (!out_length[1] || memchr(out[1], '\n', out_length[1]) != out[1] + out_length[1] - 1)) wrong("not one line on standard error");
    else if ((status == 1 || status == 2 || status == 3 || status == 9) && out_length[0]) wrong("output before a refusal");
}

// Whether a second call of the same files writes the same: `model` after `run`, `check` of what `migrate` writes.
static void judge_pair(int status) {
    static Input saved;
    uint8_t *first = all->first;
    size_t length = out_length[0];
    int command = all->now.command, is_run = !strcmp(commands[command].name, "run"), is_migration = !strcmp(commands[command].name, "migrate");
    if (status || all->is_noted || !(is_run || is_migration) || length == sizeof out[0]) return;
    if (is_run && memmem(all->now.file[2].at, all->now.file[2].length, "show", 4)) return;
    memcpy(first, out[0], length);
    saved = all->now;
    if (is_run) all->now.file[1] = all->now.file[2], all->now.files = 2, all->now.command = 5;
    else all->now.file[1] = (Text){length, first}, all->now.command = 0;
    status = call();
    if (is_run ? status || out_length[0] != length || memcmp(out[0], first, length) : status || out_length[0] != 9 || memcmp(out[0], "accepted\n", 9))
        wrong(is_run ? "run writes something else than model" : "what migrate writes isn't accepted");
    saved.micros = all->now.micros;
    all->now = saved;
}

/* Inputs */

static uint8_t *take(size_t length) {
    if (heap_used + length > SHARED - sizeof(Shared)) fail("no room for more inputs");
    heap_used += length;
    return heap + heap_used - length;
}
static void keep_input(const Input *input) {
    if (all->inputs == INPUTS) return;
    Input *to = &all->entries[all->inputs];
    heap_used = all->used;
    *to = *input;
    for (int i = 0; i < input->files; i++) to->file[i].at = memcpy(take(input->file[i].length + 1), input->file[i].at, input->file[i].length);
    all->used = heap_used;
    all->inputs++;
}
static void save(const char *name, uint64_t number) {
    char path[512];
    const Input *input = &all->now;
    if (number >= KEPT) return;
    snprintf(path, sizeof path, "%s/%s-%lu", folder, name, (unsigned long)number);
    mkdir(path, 0755);
    for (int i = -1; i < input->files; i++) {
        if (i < 0) snprintf(path, sizeof path, "%s/%s-%lu/words", folder, name, (unsigned long)number);
        else snprintf(path, sizeof path, "%s/%s-%lu/%d", folder, name, (unsigned long)number, i);
        FILE *file = fopen(path, "w");
        if (!file) continue;
        if (i >= 0) fwrite(input->file[i].at, 1, input->file[i].length, file);
        else {
            fprintf(file, "%s", commands[input->command].name);
            for (int k = 0; k < input->files; k++) fprintf(file, " %d", k);
            for (int k = 0; k < input->options; k++) fprintf(file, " %s", input->option[k]);
            fprintf(file, "\n%s\n", all->why);
        }
        fclose(file);
    }
}

static Text drawn_text(Kind kind) {
    for (int tries = 0; tries < 1000; tries++) {
        const Input *input = &all->entries[draw(all->inputs)];
        int i = draw(input->files + 1);
        if (i < input->files && input->kinds[i] == kind) return input->file[i];
    }
    return (Text){0, (uint8_t *)""};
}
static void set_text(int place, Text text) {
    Input *input = &all->now;
    input->file[place] = (Text){text.length < CAP ? text.length : CAP, all->texts[place]};
    memmove(all->texts[place], text.at, input->file[place].length);
}
static void replace(Text *text, size_t from, size_t removed, const uint8_t *bytes, size_t length) {
    static uint8_t copy[CAP];
    if (length > CAP) length = CAP;
    memcpy(copy, bytes, length);
    if (text->length - removed + length > CAP) return;
    memmove(text->at + from + length, text->at + from + removed, text->length - from - removed);
    memcpy(text->at + from, copy, length);
    text->length += length - removed;
}
// a piece of a text: some bytes, a line, a word, or what is between brackets
static void drawn_piece(Text text, size_t *from, size_t *length) {
    size_t at = draw(text.length + 1), to;
    *from = at, *length = draw(1 + draw(text.length - at + 1));
    if (at == text.length) return;
    switch (draw(4)) {
        case 0:
            while (at > 0 && text.at[at - 1] != '\n') at--;
            for (to = at; to < text.length && text.at[to] != '\n'; to++) {}
            *from = at, *length = to - at + (to < text.length);
            break;
        case 1:
            for (to = at; to < text.length && strchr("0123456789abcdefghijklmnopqrstuvwxyzABCDEFGHIJKLMNOPQRSTUVWXYZ_-", text.at[to]) && text.at[to]; to++) {}
            *length = to - at;
            break;
        case 2: {
            int depth = 0;
            while (at > 0 && text.at[at] != '[') at--;
            for (to = at; to < text.length; to++) {
                depth += text.at[to] == '[' ? 1 : text.at[to] == ']' ? -1 : 0;
                if (depth <= 0) break;
            }
            *from = at, *length = (to < text.length ? to + 1 : to) - at;
        }
    }
}
static const char *drawn_number(void) {
    static const char *const numbers[] = {"0", "1", "2", "3", "-1", "-0", "9", "10", "12", "31", "32", "33", "100", "399", "400", "401", "1000000000", "999999999",
        "1000000001", "1000000000000", "1000000000001", "-1000000000000", "4294967295", "4294967296", "2147483647", "2147483648", "-2147483648",
        "9223372036854775807", "9223372036854775808", "-9223372036854775808", "18446744073709551615", "18446744073709551616", "1000000000000000000",
        "999999999999999999", "4611686018427387904", "4611686018427387905", "340282366920938463463374607431768211456", "1e3", "1.0", "00", "+1"};
    return numbers[draw(sizeof numbers / sizeof *numbers)];
}
static void change_text(int place) {
    Text *text = &all->now.file[place], other;
    size_t from, length, from2, length2;
    uint8_t byte = draw(256);
    const char *word;
    drawn_piece(*text, &from, &length);
    switch (draw(11)) {
        case 0: if (text->length) text->at[draw(text->length)] ^= 1 << draw(8); break;
        case 1: if (text->length) text->at[draw(text->length)] = byte; break;
        case 2: replace(text, draw(text->length + 1), 0, &byte, 1); break;
        case 3: word = dictionary[draw(words_count)]; replace(text, from, draw(2) ? length : 0, (const uint8_t *)word, strlen(word)); break;
        case 4: replace(text, from, length, NULL, 0); break;
        case 5: for (int n = 1 + draw(draw(4) ? 2 : 40); n; n--) replace(text, from, 0, text->at + from, length); break;
        case 6: drawn_piece(*text, &from2, &length2); replace(text, from, length, text->at + from2, length2); break;
        case 7: other = drawn_text(all->now.kinds[place]); drawn_piece(other, &from2, &length2); replace(text, from, draw(2) ? length : 0, other.at + from2, length2); break;
        case 8: other = drawn_text(draw(KINDS)); drawn_piece(other, &from2, &length2); replace(text, from, draw(2) ? length : 0, other.at + from2, length2); break;
        case 9:
            for (from = draw(text->length + 1); from < text->length && (text->at[from] < '0' || text->at[from] > '9'); from++) {}
            for (length = 0; from + length < text->length && text->at[from + length] >= '0' && text->at[from + length] <= '9'; length++) {}
            word = drawn_number();
            replace(text, from, length, (const uint8_t *)word, strlen(word));
            break;
        case 10: set_text(place, drawn_text(all->now.kinds[place])); break;
    }
}
static void change_options(void) {
    Input *input = &all->now;
    const char *may = commands[input->command].options;
    static const char *const kinds[] = {"cell", "table", "set", "tally", "tallies"};
    input->options = 0;
    for (; *may; may++) {
        char *to = input->option[input->options++];
        switch (*may) {
            case 's': sprintf(to, "--size=%d", (int)(1 + draw(6))); break;
            case 'd': sprintf(to, "--designs=%d", (int)(1 + draw(input->command == 10 || input->command == 12 ? 20 : 200))); break;
            case 'e': sprintf(to, "--effort=%d", (int)(1 + draw(60))); break;
            case 'r': sprintf(to, "--replica=%d", (int)(1 + draw(33))); break;
            case 'k': draw(3) ? (void)input->options-- : (void)sprintf(to, "--kinds=%s,%s", kinds[draw(5)], kinds[draw(5)]);
        }
    }
}
static void change_command(void) {
    int sum = 0, chosen = 0;
    Input *input = &all->now, before = *input;
    static uint8_t texts[FILES][CAP];
    for (int i = 0; i < COMMANDS; i++) sum += commands[i].weight;
    for (int left = draw(sum); (left -= commands[chosen].weight) >= 0; chosen++) {}
    for (int i = 0; i < before.files; i++) before.file[i].at = memcpy(texts[i], before.file[i].at, before.file[i].length);
    input->command = chosen, input->files = commands[chosen].count;
    for (int i = 0; i < input->files; i++) {
        Text text = drawn_text(input->kinds[i] = commands[chosen].kinds[i]);
        for (int k = 0; k < before.files; k++) if (before.kinds[k] == input->kinds[i]) text = before.file[k];
        set_text(i, text);
    }
    if (!strcmp(commands[chosen].name, "node-step"))
        for (int n = draw(3); n; n--) input->kinds[input->files] = STATE, set_text(input->files, drawn_text(STATE)), input->files++;
    change_options();
}
static void draw_input(void) {
    const Input *from;
    // later inputs, and quick ones, are taken more often
    do from = &all->entries[draw(2) ? draw(all->inputs) : all->inputs - 1 - draw(draw(all->inputs) + 1)];
    while (draw(2000 + from->micros) > 2000);
    all->now = *from;
    for (int i = 0; i < from->files; i++) set_text(i, from->file[i]);
    if (draw(12) == 0) change_command();
    if (draw(40) == 0) change_options();
    for (int n = 1 << draw(5); n; n--) if (all->now.files) change_text(draw(all->now.files));
}

/* Breakpoints */

static void reached(int signal, siginfo_t *info, void *context) {
    (void)info;
    ucontext_t *at = context;
    uint8_t *place = (uint8_t *)at->uc_mcontext.gregs[REG_RIP] - 1;
    if (signal == SIGTRAP && place >= code && place < code_end && kept[place - code] != 0xCC) {
        *place = kept[place - code];
        if (!is_reached[place - code]) is_reached[place - code] = 1, all->blocks++, all->now.reached++;
        at->uc_mcontext.gregs[REG_RIP]--;
        return;
    }
    if (!all->is_noted) snprintf(all->why, sizeof all->why, "signal %d", signal);
    leave(101);
}
static void tick(int signal) {
    (void)signal;
    if (!all->inside) return;
    all->ticks++;
    if (all->ticks == SLOW_TICKS) all->slow++, snprintf(all->why, sizeof all->why, "longer than a second");
    if (all->ticks == SLOW_TICKS) { inside = 0; save("slow", all->slow); inside = 1; }
    if (all->ticks >= LONG_TICKS) inside = 0, leave(102);
}

/* Children, and all of it */

static void note_wrong(void) {
    if (!all->is_noted) return;
    save("wrong", all->wrong++);
    all->is_noted = 0, all->why[0] = 0;
}
static void child(void) {
    static uint8_t stack[1 << 16];
    sigaltstack(&(stack_t){.ss_sp = stack, .ss_size = sizeof stack}, NULL);
    int signals[] = {SIGTRAP, SIGSEGV, SIGBUS, SIGILL, SIGFPE, SIGABRT};
    for (size_t i = 0; i < sizeof signals / sizeof *signals; i++)
        sigaction(signals[i], &(struct sigaction){.sa_sigaction = reached, .sa_flags = SA_SIGINFO | SA_ONSTACK | SA_NODEFER}, NULL);
    sigaction(SIGPROF, &(struct sigaction){.sa_handler = tick, .sa_flags = SA_ONSTACK | SA_RESTART}, NULL);
    setitimer(ITIMER_PROF, &(struct itimerval){{0, TICK}, {0, TICK}}, NULL);
    for (uint8_t *place = code; place < code_end; place++) if (is_reached[place - code]) *place = kept[place - code];
    for (int n = 0; n < CALLS_OF_A_CHILD && all->calls < most_calls; n++) {
        if (all->seen < all->inputs && all->began == 0) all->now = all->entries[all->seen++];
        else all->began = 1, draw_input();
        all->now.reached = 0;
        int status = call();
        judge(status);
        if (all->now.reached && all->began) keep_input(&all->now);
        judge_pair(status);
        note_wrong();
        if (n % 256 == 0 && (uint64_t)time(NULL) >= most_seconds) break;
    }
    leave(0);
}
static void tell(void) {
    fprintf(stderr, "fuzz: %lu calls, %lu inputs, %lu blocks, %lu crashes, %lu hangs, %lu past a second, %lu otherwise wrong; greatest memory %lu bytes, longest %lu microseconds\n",
            all->calls, all->inputs, all->blocks, all->crashes, all->hangs, all->slow, all->wrong, all->peak, all->longest);
}
static void read_seeds(const char *path) {
    static char line[1 << 16];
    FILE *file = fopen(path, "r");
    while (file && fgets(line, sizeof line, file)) {
        Input *input = &all->now;
        char *word = strtok(line, "\t\n");
        memset(input, 0, sizeof *input);
        while (input->command < COMMANDS && word && strcmp(commands[input->command].name, word)) input->command++;
        if (!word || input->command == COMMANDS) continue;
        while ((word = strtok(NULL, "\t\n"))) {
            FILE *text = word[0] == '-' ? NULL : fopen(word, "r");
            int place = input->files;
            if (word[0] == '-' && input->options < OPTIONS && strlen(word) < WORD) strcpy(input->option[input->options++], word);
            if (!text || place == FILES) continue;
            input->file[place] = (Text){fread(all->texts[place], 1, CAP, text), all->texts[place]};
            input->kinds[place] = place < commands[input->command].count ? commands[input->command].kinds[place] : STATE;
            input->files++;
            fclose(text);
        }
        if (input->files >= commands[input->command].count) keep_input(input);
    }
    if (!all->inputs) fail("no seeds");
}
static void read_dictionary(const char *path) {
    static char line[256];
    FILE *file = fopen(path, "r");
    while (file && fgets(line, sizeof line, file) && words_count < WORDS) {
        line[strcspn(line, "\n")] = 0;
        dictionary[words_count++] = strdup(line[0] ? line : "\n");
    }
    if (!words_count) fail("no dictionary");
}
static int find_code(struct dl_phdr_info *info, size_t size, void *base) {
    (void)size;
    *(uintptr_t *)base = info->dlpi_addr;
    for (int i = 0; i < info->dlpi_phnum; i++) {
        const ElfW(Phdr) *part = &info->dlpi_phdr[i];
        if (part->p_type == PT_LOAD && part->p_flags & PF_X) code = (uint8_t *)info->dlpi_addr + part->p_vaddr, code_end = code + part->p_memsz;
        if (part->p_type != PT_DYNAMIC) continue;
        for (ElfW(Dyn) *it = (void *)(info->dlpi_addr + part->p_vaddr); it->d_tag; it++) {
            if (it->d_tag == DT_INIT_ARRAY) started = (void *)(info->dlpi_addr + it->d_un.d_ptr);
            if (it->d_tag == DT_INIT_ARRAYSZ) starts = it->d_un.d_val / sizeof *started;
        }
    }
    return 1;  // the program comes first
}
static void set_breakpoints(const char *path) {
    uintptr_t base;
    char line[64];
    dl_iterate_phdr(find_code, &base);
    uint8_t *from = (uint8_t *)((uintptr_t)code & ~4095ul);
    size_t length = code_end - code;
    kept = malloc(length);
    is_reached = mmap(NULL, length, PROT_READ | PROT_WRITE, MAP_SHARED | MAP_ANONYMOUS, -1, 0);
    memset(kept, 0xCC, length);
    if (mprotect(from, code_end - from, PROT_READ | PROT_WRITE | PROT_EXEC)) fail("the code can't be changed");
    FILE *file = fopen(path, "r");
    long blocks = 0;
    while (file && fgets(line, sizeof line, file)) {
        uint8_t *place = (uint8_t *)base + strtoul(line, NULL, 16);
        if (place < code || place >= code_end || kept[place - code] != 0xCC || *place == 0xCC) continue;
        kept[place - code] = *place, *place = 0xCC, blocks++;
    }
    fprintf(stderr, "fuzz: %ld blocks of code\n", blocks);
}
static int fuzz(int count, char **words, char **others) {
    if (count != 8) fail("SEEDS DICTIONARY BLOCKS FOLDER CALLS SECONDS SEED are wanted");
    environment = others, folder = words[4];
    most_calls = strtoull(words[5], NULL, 10), most_seconds = time(NULL) + strtoull(words[6], NULL, 10);
    all = mmap(NULL, SHARED, PROT_READ | PROT_WRITE, MAP_SHARED | MAP_ANONYMOUS | MAP_NORESERVE, -1, 0);
    room = mmap(NULL, ARENA, PROT_READ | PROT_WRITE, MAP_PRIVATE | MAP_ANONYMOUS | MAP_NORESERVE, -1, 0);
    if (all == MAP_FAILED || room == MAP_FAILED) fail("no memory");
    heap = (uint8_t *)all + sizeof(Shared), all->random = strtoull(words[7], NULL, 10) * 2654435761u + 88172645463325252ull;
    read_seeds(words[1]), read_dictionary(words[2]), set_breakpoints(words[3]);
    time_t told = 0;
    while (all->calls < most_calls && (uint64_t)time(NULL) < most_seconds) {
        int ended = 0;
        pid_t other = fork();
        if (other == 0) child();
        if (other < 0 || waitpid(other, &ended, 0) != other) fail("no child");
        int is_hang = WIFEXITED(ended) && WEXITSTATUS(ended) == 102;
        if (!WIFEXITED(ended) || WEXITSTATUS(ended)) {
            if (!WIFEXITED(ended)) snprintf(all->why, sizeof all->why, "ended by signal %d", WTERMSIG(ended));
            save(is_hang ? "hang" : "crash", is_hang ? all->hangs++ : all->crashes++);
            all->calls++, all->is_noted = 0, all->inside = 0, all->why[0] = 0;
        }
        if (time(NULL) >= told + 60) tell(), told = time(NULL);
    }
    tell();
    printf("| command |");
    for (int i = 0; i < STATUSES - 1; i++) printf(" %d |", i);
    printf("\n|---|%s\n", "---|---|---|---|---|---|---|---|---|---|");
    for (int i = 0; i < COMMANDS; i++) {
        printf("| `%s` |", commands[i].name);
        for (int k = 0; k < STATUSES - 1; k++) printf(" %lu |", all->count[i][k]);
        printf("\n");
    }
    for (uint64_t i = 0; i < all->inputs; i++) if (all->entries[i].reached) all->now = all->entries[i], save("input", all->saved++);
    fflush(stdout);
    leave(all->crashes || all->hangs || all->wrong);
    return 2;
}

int __libc_start_main(int (*main)(int, char **, char **), int count, char **words, int (*init)(int, char **, char **), void (*fini)(void), void (*rtld_fini)(void), void *stack) {
    real_main = main;
    leave = REAL(_exit);
    return REAL(__libc_start_main)(fuzz, count, words, init, fini, rtld_fini, stack);
}
