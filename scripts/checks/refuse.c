/* Loaded before a program (LD_PRELOAD), runs it once for each N = 1, 2, 3 ... with its Nth request for
   memory refused, until a run meets no refusal. To the descriptor REFUSE_TO it writes for each run a line
   "N STATUS MET LENGTH", and then so many bytes that the run has written. N goes on from REFUSE_FROM by
   REFUSE_STEP, and ends with the first one where REFUSE_ONCE is set; REFUSE_COUNT is set where a single run
   is wanted that refuses nothing: then MET is the number of requests. scripts/checks/memory_refused.py calls it. */
#define _GNU_SOURCE
#include <dlfcn.h>
#include <stdio.h>
#include <stdlib.h>
#include <sys/mman.h>
#include <sys/wait.h>
#include <unistd.h>

static void *(*true_malloc)(size_t);
static void *(*true_realloc)(void *, size_t);
static long *asked, refused_at;
static int is_program;

static int is_refused(void) { return is_program && ++*asked == refused_at; }

void *malloc(size_t size) {
    if (!true_malloc) true_malloc = dlsym(RTLD_NEXT, "malloc");
    return is_refused() ? NULL : true_malloc(size);
}

void *realloc(void *old, size_t size) {
    if (!true_realloc) true_realloc = dlsym(RTLD_NEXT, "realloc");
    return is_refused() ? NULL : true_realloc(old, size);
}

static long number(const char *name, long otherwise) {
    const char *text = getenv(name);
    return text ? atol(text) : otherwise;
}

/* Whether it is the child, which goes on to the program. */
static int run(int to, long n) {
    static char said[1 << 20];
    int ends[2], status;
    if (pipe(ends)) _exit(99);
    *asked = 0, refused_at = n;
    pid_t child = fork();
    if (child < 0) _exit(99);
    if (child == 0) {
        dup2(ends[1], 1), dup2(ends[1], 2), close(ends[0]), close(ends[1]), close(to);
        alarm(60);
        return is_program = 1;
    }
    close(ends[1]);
    size_t length = 0;
    ssize_t got;
    while ((got = read(ends[0], said + length, sizeof said - length)) > 0) length += got;
    close(ends[0]);
    waitpid(child, &status, 0);
    dprintf(to, "%ld %d %ld %zu\n", n, status, n ? *asked >= n : *asked, length);
    for (size_t done = 0; done < length; done += got)
        if ((got = write(to, said + done, length - done)) <= 0) _exit(99);
    return 0;
}

__attribute__((constructor)) static void runs(void) {
    int to = number("REFUSE_TO", 1);
    asked = mmap(0, sizeof *asked, PROT_READ | PROT_WRITE, MAP_SHARED | MAP_ANONYMOUS, -1, 0);
    if (getenv("REFUSE_COUNT")) {
        if (run(to, 0)) return;
        _exit(0);
    }
    long n = number("REFUSE_FROM", 1);
    do {
        if (run(to, n)) return;
        n += number("REFUSE_STEP", 1);
    } while (*asked >= refused_at && !getenv("REFUSE_ONCE"));
    _exit(0);
}
