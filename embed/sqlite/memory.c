// Each request for memory that a statement makes, of SQLite or of libkatara, is refused in turn, and all after it: the statement ends as
// out of memory or with its answer, and changes nothing if it didn't end. It is linked with the extension, and with --wrap=malloc and
// --wrap=realloc, by which embed/heap.c asks here.
//     memory TYPE DESIGN
#include <sqlite3.h>
#include <stdbool.h>
#include <stdio.h>
#include <stdlib.h>
#include <string.h>

int sqlite3_katara_init(sqlite3 *base, char **error, const void *api);

void *__real_malloc(size_t size);
void *__real_realloc(void *at, size_t size);

// how many requests are granted before all are refused; below 0 all are granted
static long granted = -1;
static sqlite3_mem_methods heap;

static bool is_refused(void) {
    if (granted > 0) granted--;
    return granted == 0;
}

void *__wrap_malloc(size_t size) { return is_refused() ? NULL : __real_malloc(size); }
void *__wrap_realloc(void *at, size_t size) { return is_refused() ? NULL : __real_realloc(at, size); }
static void *sqlite_malloc(int size) { return is_refused() ? NULL : heap.xMalloc(size); }
static void *sqlite_realloc(void *at, int size) { return is_refused() ? NULL : heap.xRealloc(at, size); }

static void fail(const char *call, long request, const char *what) {
    fprintf(stderr, "SQLite, %s, request %ld: %s\n", call, request, what);
    exit(1);
}

static char *text_of(const char *path) {
    FILE *f = fopen(path, "rb");
    char *bytes = __real_malloc(1 << 20);
    if (!f || !bytes) exit(1);
    bytes[fread(bytes, 1, (1 << 20) - 1, f)] = 0;
    fclose(f);
    return bytes;
}

static const char *type, *design;

// Runs a statement, and keeps the first column of its last row.
static int run(sqlite3 *base, const char *call, char *answer, size_t room) {
    sqlite3_stmt *it = NULL;
    int code = sqlite3_prepare_v2(base, call, -1, &it, NULL);
    *answer = 0;
    if (code == SQLITE_OK && sqlite3_bind_parameter_count(it) == 2) {
        sqlite3_bind_text(it, 1, type, -1, SQLITE_STATIC);
        sqlite3_bind_text(it, 2, design, -1, SQLITE_STATIC);
    }
    while (code == SQLITE_OK || code == SQLITE_ROW) {
        code = sqlite3_step(it);
        const char *words = code == SQLITE_ROW ? (const char *)sqlite3_column_text(it, 0) : NULL;
        if (words) snprintf(answer, room, "%s", words);
        else if (code == SQLITE_ROW) code = SQLITE_NOMEM;
    }
    int end = sqlite3_finalize(it);
    return code == SQLITE_DONE ? SQLITE_OK : end ? end : code;
}

static sqlite3 *opened(void) {
    sqlite3 *base;
    char answer[4096];
    if (sqlite3_open(":memory:", &base) || sqlite3_katara_init(base, NULL, NULL)) exit(1);
    if (run(base, "create table replica (n integer primary key, state text not null)", answer, sizeof answer)) exit(1);
    if (run(base, "insert into replica select column1, katara_do(?1, ?2, katara_new(?1, ?2, column1), 'add', 'milk', column1) from (values (3), (1), (2))", answer, sizeof answer)) exit(1);
    if (run(base, "create table shared (n integer primary key, share text not null)", answer, sizeof answer)) exit(1);
    if (run(base, "insert into shared select column1, katara_do(?1, ?2, katara_new_share(?1, ?2, column1), 'add', 'milk', column1) from (values (3), (1), (2))", answer, sizeof answer)) exit(1);
    return base;
}

static const char *const CALLS[] = {
    "select katara_new(?1, ?2, 7)",
    "select katara_do(?1, ?2, state, 'add \"bread\" 2') from replica order by n",
    "select katara_do(?1, ?2, state, 'add', 'bread', 2) from replica order by n",
    "select katara_ask(?1, ?2, state, 'count \"milk\"') from replica order by n",
    "select katara_ask(?1, ?2, state, 'count', 'milk') from replica order by n",
    "select katara_merge(?1, ?2, state, (select state from replica where n = 2)) from replica order by n",
    "select katara_merge(?1, ?2, state) from (select state from replica order by n desc)",
    "select katara_merge(?1, ?2, ' ' || state) from (select state from replica order by n desc)",
    "update replica set state = katara_do(?1, ?2, state, 'add', 'bread', n)",
    "select katara_keys(?1, ?2, state, 'count') from replica order by n",
    "select katara_keys_beyond(?1, ?2, state, 'count', (select state from replica where n = 2)) from replica order by n",
    "select katara_new_share(?1, ?2, 7)",
    "select katara_do(?1, ?2, share, 'add', 'bread', n) from shared order by n",
    "select katara_ask(?1, ?2, share, 'count', 'milk') from shared order by n",
    "select katara_marks(?1, ?2, share) from shared order by n",
    "select katara_state(?1, ?2, share) from shared order by n",
    "select katara_difference(?1, ?2, share) from shared order by n",
    "select katara_difference(?1, ?2, share, (select share from shared where n = 2)) from shared order by n",
    "select katara_merge_difference(?1, ?2, share, katara_difference(?1, ?2, (select share from shared where n = 2))) from shared order by n",
    "update shared set share = katara_do(?1, ?2, share, 'add', 'bread', n)",
};
static const char STATES[] = "select (select group_concat(state) from replica) || (select group_concat(share) from shared)";

// With the design opened before (`warm`) or not, when each request for memory would take long, so only some are refused.
static void refuse(const char *call, bool warm) {
    char before[4096], after[4096], wanted[4096], answer[4096];
    sqlite3 *base = opened();
    if (run(base, STATES, before, sizeof before) || run(base, "begin", answer, 9) || run(base, call, wanted, sizeof wanted) || run(base, "rollback", answer, 9)) fail(call, 0, sqlite3_errmsg(base));
    for (long request = 1;; request += warm ? 1 : 61) {
        if (!warm) {
            sqlite3_close(base);
            base = opened();
            // (functions that are added anew have no design open)
            sqlite3_katara_init(base, NULL, NULL);
        }
        if (run(base, "begin", answer, 9)) fail(call, request, "no transaction begins");
        granted = request;
        int code = run(base, call, answer, sizeof answer);
        bool all_granted = granted != 0;
        granted = -1;
        if (code != SQLITE_OK && (code & 0xff) != SQLITE_NOMEM) fail(call, request, sqlite3_errmsg(base));
        if (code == SQLITE_OK && strcmp(answer, wanted)) fail(call, request, "another answer");
        if (all_granted && code != SQLITE_OK) fail(call, request, "out of memory, though all was granted");
        if (run(base, STATES, after, sizeof after)) fail(call, request, sqlite3_errmsg(base));
        if (code != SQLITE_OK && strcmp(before, after)) fail(call, request, "a row was changed");
        if (!sqlite3_get_autocommit(base) && run(base, "rollback", answer, 9)) fail(call, request, "no transaction ends");
        if (all_granted) break;
    }
    sqlite3_close(base);
}

// The functions themselves are added, or it is told that they weren't.
static void refuse_adding(void) {
    for (long request = 1;; request++) {
        sqlite3 *base;
        if (sqlite3_open(":memory:", &base)) exit(1);
        granted = request;
        int code = sqlite3_katara_init(base, NULL, NULL);
        bool all_granted = granted != 0;
        granted = -1;
        if (code != SQLITE_OK && code != SQLITE_NOMEM) fail("init", request, sqlite3_errmsg(base));
        sqlite3_close(base);
        if (all_granted) break;
    }
}

int main(int count, char **words) {
    if (count != 3) return 2;
    sqlite3_config(SQLITE_CONFIG_GETMALLOC, &heap);
    sqlite3_mem_methods refusing = heap;
    refusing.xMalloc = sqlite_malloc;
    refusing.xRealloc = sqlite_realloc;
    if (sqlite3_config(SQLITE_CONFIG_MALLOC, &refusing) || sqlite3_config(SQLITE_CONFIG_LOOKASIDE, 0, 0) || sqlite3_initialize()) return 1;
    type = text_of(words[1]);
    design = text_of(words[2]);
    refuse_adding();
    for (size_t i = 0; i < sizeof CALLS / sizeof *CALLS; i++)
        for (int warm = 0; warm < 2; warm++) refuse(CALLS[i], warm);
    free((void *)type);
    free((void *)design);
    sqlite3_int64 left = sqlite3_memory_used();
    if (left) fail("all calls", 0, "memory isn't given back");
    return 0;
}
