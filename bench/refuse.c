// Refuses each request for memory of a program in turn. At each call of malloc and realloc the process is forked, and the request
// is refused in the child, which goes on by itself; then the program goes on as if nothing had been. So one run tries as many
// refusals as it makes requests. What the child writes goes to a file of its own, and its end is looked at: it must be "out of
// memory" (status 7) or what the program ends with without any refusal, and what was written in all must be a prefix of what the
// program writes. Standard output must be a file. The counts are written into the file that COUNTED names.
//
//     gcc -O2 -shared -fPIC -o refuse.so refuse.c -ldl
//     COUNTED=counts WHOLE=output LD_PRELOAD=./refuse.so PROGRAM WORDS >scratch      (output: what it writes without refusals)
#define _GNU_SOURCE
#include <dlfcn.h>
#include <fcntl.h>
#include <stdio.h>
#include <stdlib.h>
#include <string.h>
#include <sys/wait.h>
#include <unistd.h>

enum { MEMORY = 7, MOST = 1 << 26 };
static unsigned long asked, ended_for_memory, ended_as_ever, ended_otherwise, wrote_otherwise;
static int is_child, is_ready, status_as_ever;
static long whole_length;
static char whole[MOST], written[MOST];
static void *(*real_malloc)(size_t), *(*real_realloc)(void *, size_t);

static void look_up(void) {
    real_malloc = dlsym(RTLD_NEXT, "malloc");
    real_realloc = dlsym(RTLD_NEXT, "realloc");
}

__attribute__((constructor)) static void begin(void) {
    look_up();
    const char *path = getenv("WHOLE"), *status = getenv("STATUS");
    int from = path ? open(path, O_RDONLY) : -1;
    if (from < 0 || (whole_length = read(from, whole, MOST)) < 0) _exit(99);
    close(from);
    status_as_ever = status ? atoi(status) : 0;
    is_ready = 1;
}

// whether the request is refused: in a child, which this call makes
static int is_refused(void) {
    if (!is_ready || is_child) return 0;
    asked++;
    long before = lseek(1, 0, SEEK_CUR);
    int to = open("refused.out", O_RDWR | O_CREAT | O_TRUNC, 0600), said = open("/dev/null", O_WRONLY), status;
    pid_t child = fork();
    if (child == 0) {
        is_child = 1;
        dup2(to, 1);
        dup2(said, 2);
        return 1;
    }
    if (child < 0 || waitpid(child, &status, 0) != child) _exit(98);
    long length = pread(to, written, MOST, 0);
    if (!WIFEXITED(status)) ended_otherwise++;
    else if (WEXITSTATUS(status) == MEMORY) ended_for_memory++;
    else if (WEXITSTATUS(status) == status_as_ever && before + length == whole_length) ended_as_ever++;
    else ended_otherwise++;
    if (length < 0 || before + length > whole_length || memcmp(written, whole + before, length)) wrote_otherwise++;
    close(to);
    close(said);
    return 0;
}

void *malloc(size_t size) {
    if (!real_malloc) look_up();
    return is_refused() ? NULL : real_malloc(size);
}

void *realloc(void *at, size_t size) {
    if (!real_realloc) look_up();
    return is_refused() ? NULL : real_realloc(at, size);
}

__attribute__((destructor)) static void end(void) {
    const char *path = getenv("COUNTED");
    is_ready = 0;
    FILE *file = path && !is_child ? fopen(path, "w") : NULL;
    if (!file) return;
    fprintf(file, "%lu requests: %lu end for memory, %lu as ever, %lu otherwise; %lu write something else\n", asked, ended_for_memory,
            ended_as_ever, ended_otherwise, wrote_otherwise);
    fclose(file);
}
