/* Refuses a program's requests for memory and its starts of threads, as the tests ask, and
   interrupts its calls on the standard streams.

   It is loaded by LD_PRELOAD and answers in place of the C library. What it counts begins with the
   program's main: the loader's and the C library's own start, before that, is left alone. From
   there on every request of every thread counts, the C library's own too, as those that a start of
   a thread makes. The settings are numbers in the environment, 0 where they are not given:

   REFUSE_MEMORY   the request for memory that is refused, from 1; 0 for none
   REFUSE_START    the start of a thread that is refused, from 1; 0 for none
   REFUSE_ONWARD   1 where all that come later are refused too
   REFUSE_THREADS  how many threads there may be at once, the first one counted; 0 for any number
   REFUSE_CALLS    how many reads of standard input are interrupted before each that isn't, and how
                   many writes to standard output
   REFUSE_COUNTS   a file of 40 bytes, where the counts below are kept */
#define _GNU_SOURCE
#include <dlfcn.h>
#include <errno.h>
#include <fcntl.h>
#include <pthread.h>
#include <stdatomic.h>
#include <stdint.h>
#include <stdlib.h>
#include <string.h>
#include <sys/mman.h>
#include <unistd.h>

/* Requests for memory and starts of threads, and how many of each were refused; and how many calls
   on the standard streams were interrupted. */
struct counts {
    _Atomic uint64_t requests, requests_refused, starts, starts_refused, interrupted;
};

/* A started thread's function and its argument, until it runs. */
struct started {
    atomic_flag taken;
    void *(*run)(void *);
    void *argument;
};

enum { MOST_STARTED = 1024 };

static struct counts none, *counts = &none;
static struct started started[MOST_STARTED];
static atomic_int counting, threads = 1;
static uint64_t refused_request, refused_start, onward, most_threads, interrupted_calls;

/* The GNU C library's own calls, which these names reach past the ones below. */
void *__libc_malloc(size_t);
void *__libc_calloc(size_t, size_t);
void *__libc_realloc(void *, size_t);
void *__libc_memalign(size_t, size_t);

static uint64_t setting(const char *name) {
    const char *value = getenv(name);
    return value ? strtoull(value, 0, 10) : 0;
}

static int is_refused(_Atomic uint64_t *asked, _Atomic uint64_t *refused, uint64_t which) {
    if (!atomic_load(&counting)) return 0;
    uint64_t number = atomic_fetch_add(asked, 1) + 1;
    if (!which || number < which || (number > which && !onward)) return 0;
    atomic_fetch_add(refused, 1);
    return 1;
}

static int no_memory(void) {
    if (!is_refused(&counts->requests, &counts->requests_refused, refused_request)) return 0;
    errno = ENOMEM;
    return 1;
}

void *malloc(size_t size) { return no_memory() ? 0 : __libc_malloc(size); }

void *calloc(size_t count, size_t size) { return no_memory() ? 0 : __libc_calloc(count, size); }

void *realloc(void *old, size_t size) { return no_memory() ? 0 : __libc_realloc(old, size); }

void *memalign(size_t align, size_t size) {
    return no_memory() ? 0 : __libc_memalign(align, size);
}

void *aligned_alloc(size_t align, size_t size) { return memalign(align, size); }

int posix_memalign(void **made, size_t align, size_t size) {
    void *room = memalign(align, size);
    if (!room) return ENOMEM;
    *made = room;
    return 0;
}

/* Whether this call, of those on one stream, is interrupted. */
static int is_interrupted(_Atomic uint64_t *calls) {
    if (!interrupted_calls || !atomic_load(&counting)) return 0;
    if (atomic_fetch_add(calls, 1) % (interrupted_calls + 1) == interrupted_calls) return 0;
    atomic_fetch_add(&counts->interrupted, 1);
    errno = EINTR;
    return 1;
}

ssize_t read(int file, void *room, size_t size) {
    static _Atomic uint64_t calls;
    static ssize_t (*real)(int, void *, size_t);
    if (file == STDIN_FILENO && is_interrupted(&calls)) return -1;
    if (!real) real = dlsym(RTLD_NEXT, "read");
    return real(file, room, size);
}

ssize_t write(int file, const void *bytes, size_t size) {
    static _Atomic uint64_t calls;
    static ssize_t (*real)(int, const void *, size_t);
    if (file == STDOUT_FILENO && is_interrupted(&calls)) return -1;
    if (!real) real = dlsym(RTLD_NEXT, "write");
    return real(file, bytes, size);
}

static void *run_started(void *at) {
    struct started *mine = at;
    void *(*run)(void *) = mine->run;
    void *argument = mine->argument;
    atomic_flag_clear(&mine->taken);
    void *result = run(argument);
    atomic_fetch_sub(&threads, 1);
    return result;
}

/* Starts a thread that counts as long as it runs. */
static int start(pthread_t *made, const pthread_attr_t *how, void *(*run)(void *), void *argument) {
    int (*real)(pthread_t *, const pthread_attr_t *, void *(*)(void *), void *) =
        dlsym(RTLD_NEXT, "pthread_create");
    struct started *mine = started;
    while (atomic_flag_test_and_set(&mine->taken))
        if (++mine == started + MOST_STARTED) return EAGAIN;
    mine->run = run;
    mine->argument = argument;
    atomic_fetch_add(&threads, 1);
    int fault = real(made, how, run_started, mine);
    if (fault) {
        atomic_fetch_sub(&threads, 1);
        atomic_flag_clear(&mine->taken);
    }
    return fault;
}

int pthread_create(pthread_t *made, const pthread_attr_t *how, void *(*run)(void *),
                   void *argument) {
    if (is_refused(&counts->starts, &counts->starts_refused, refused_start)) return EAGAIN;
    if (most_threads && (uint64_t)atomic_load(&threads) >= most_threads) {
        atomic_fetch_add(&counts->starts_refused, 1);
        return EAGAIN;
    }
    return start(made, how, run, argument);
}

static int (*real_main)(int, char **, char **);

static int counted_main(int count, char **words, char **environment) {
    atomic_store(&counting, 1);
    return real_main(count, words, environment);
}

/* What calls main: the settings are read here, and it calls counted_main in its place. */
int __libc_start_main(int (*given)(int, char **, char **), int count, char **words,
                      void (*begin)(void), void (*end)(void), void (*last)(void), void *stack) {
    int (*real)(int (*)(int, char **, char **), int, char **, void (*)(void), void (*)(void),
                void (*)(void), void *) = dlsym(RTLD_NEXT, "__libc_start_main");
    const char *path = getenv("REFUSE_COUNTS");
    int file = path ? open(path, O_RDWR) : -1;
    if (file >= 0) {
        void *kept = mmap(0, sizeof none, PROT_READ | PROT_WRITE, MAP_SHARED, file, 0);
        if (kept != MAP_FAILED) counts = kept;
        close(file);
    }
    refused_request = setting("REFUSE_MEMORY");
    refused_start = setting("REFUSE_START");
    onward = setting("REFUSE_ONWARD");
    most_threads = setting("REFUSE_THREADS");
    interrupted_calls = setting("REFUSE_CALLS");
    real_main = given;
    return real(counted_main, count, words, begin, end, last, stack);
}
