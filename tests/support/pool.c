/* Tries include/tensor_pool.c for tests/test_pool.py, which builds it of both files: pool MODE.
     callers   sixteen threads call on one pool at once, and each gets its own answer
     wake      parts wait for each other, so a call ends only if each thread of the pool takes one
     refused   no thread, one, or two can be started
     paying    without a number of parts there are as many as pay
     failing   parts fail on the threads of the pool, or everywhere
     close     the pool is closed and opened again while threads call
     fork      children are forked while threads call; each uses the pool, and one of its own
   The library's calls are stood in for by functions that add to what is there, so a part that is
   evaluated twice, or never, leaves another value. Plans and headers are not read. The status is 0 where
   all is well, and else 1, with a line on standard error. A mode that never ends is ended by its alarm. */

#define _GNU_SOURCE
#include <errno.h>
#include <pthread.h>
#include <stdatomic.h>
#include <stdbool.h>
#include <stdio.h>
#include <stdlib.h>
#include <string.h>
#include <sys/wait.h>
#include <time.h>
#include <unistd.h>

#include "tensor.h"

enum { CALLERS = 16, WORKERS = 4, MOST_LENGTH = 600, SPARE = 3, SECONDS = 240 };

/* How the calls that stand in behave. */
static pthread_mutex_t meeting = PTHREAD_MUTEX_INITIALIZER;
static pthread_cond_t has_met = PTHREAD_COND_INITIALIZER;
static size_t to_meet, met;
static atomic_bool fails_elsewhere, fails_everywhere;
static atomic_int starts_left = 1000;
static _Thread_local bool is_caller;
/* How many parts were evaluated, how many of them by threads of a pool, and how much parts repeat. */
static atomic_size_t evaluated, by_others;
static atomic_int_least64_t shared;

static void fail(const char *why)
{
    fprintf(stderr, "pool: %s\n", why);
    _exit(1);
}

static void set_alarm(void)
{
    alarm(SECONDS);
}

/* Lets the next parts that are evaluated meet: each waits until so many are. */
static void let_meet(size_t count)
{
    pthread_mutex_lock(&meeting);
    to_meet = count;
    met = 0;
    pthread_mutex_unlock(&meeting);
}

/* Waits for the others, if parts are to meet. */
static void meet(void)
{
    pthread_mutex_lock(&meeting);
    if (met < to_meet) {
        met++;
        pthread_cond_broadcast(&has_met);
        while (met < to_meet)
            pthread_cond_wait(&has_met, &meeting);
    }
    pthread_mutex_unlock(&meeting);
}

/* The value of an answer at a place: of the first array, the number of arrays, and the place. */
static int64_t value(const struct tensor_array *arrays, size_t count, uint64_t place)
{
    return arrays[0].values[place] + 1000 * (int64_t)count + 7 * (int64_t)place;
}

static int64_t stand_in(const struct tensor_array *arrays, size_t count, uint64_t first, int64_t *out,
                        size_t out_length)
{
    size_t length = arrays[0].length, written = 0;
    atomic_fetch_add(&evaluated, 1);
    if (!is_caller)
        atomic_fetch_add(&by_others, 1);
    meet();
    if (atomic_load(&fails_everywhere))
        return -7;
    if (!is_caller && atomic_load(&fails_elsewhere))
        return TENSOR_NO_MEMORY;
    for (; written < out_length && first + written < length; written++)
        out[written] += value(arrays, count, first + written);
    return (int64_t)written;
}

int64_t (tensor_run)(const uint64_t *plan, size_t plan_length, const struct tensor_array *arrays,
                     size_t count, uint64_t first, int64_t *out, size_t out_length)
{
    (void)plan, (void)plan_length;
    return stand_in(arrays, count, first, out, out_length);
}

int64_t (tensor_evaluate_arrays)(const uint8_t *header, size_t header_length,
                                 const struct tensor_array *arrays, size_t count, uint64_t first,
                                 int64_t *out, size_t out_length)
{
    (void)header, (void)header_length;
    return stand_in(arrays, count, first, out, out_length);
}

int64_t (tensor_shared)(const uint8_t *header, size_t header_length, const struct tensor_array *arrays,
                        size_t count)
{
    (void)header, (void)header_length, (void)arrays, (void)count;
    return atomic_load(&shared);
}

/* The start of a thread, of which there may be so many. */
int __real_pthread_create(pthread_t *, const pthread_attr_t *, void *(*)(void *), void *);

int __wrap_pthread_create(pthread_t *thread, const pthread_attr_t *how, void *(*run)(void *), void *of)
{
    if (atomic_fetch_sub(&starts_left, 1) <= 0)
        return EAGAIN;
    return __real_pthread_create(thread, how, run, of);
}

/* A call of a drawn length, from a drawn place, in a drawn number of parts, by a plan or a header, and
   whether it returned and wrote what one call does. What it returned, where parts fail. */
static int64_t call(struct tensor_pool *pool, unsigned *seed, size_t parts)
{
    static const uint8_t header[1];
    static const uint64_t plan[1];
    int64_t values[MOST_LENGTH], out[MOST_LENGTH + SPARE] = {0};
    size_t length = (size_t)rand_r(seed) % MOST_LENGTH + 1, most = (size_t)rand_r(seed) % MOST_LENGTH + 1;
    uint64_t first = (uint64_t)rand_r(seed) % length;
    if (parts > 0) {
        length = MOST_LENGTH, most = MOST_LENGTH, first = 0;
    } else {
        parts = (size_t)rand_r(seed) % (2 * WORKERS);
    }
    for (size_t i = 0; i < length; i++)
        values[i] = rand_r(seed);
    size_t count = (size_t)rand_r(seed) % 3 + 1, wanted = length - first < most ? length - first : most;
    struct tensor_array arrays[3] = {{values, length}, {values, 0}, {values, 0}};
    int64_t got = rand_r(seed) % 2 ? tensor_pool_run(pool, plan, 1, arrays, count, first, out, most, parts)
                                   : tensor_pool_evaluate_arrays(pool, header, 1, arrays, count, first, out,
                                                                 most, parts);
    if (got < 0)
        return got;
    if ((size_t)got != wanted)
        fail("another number of values");
    for (size_t i = 0; i < MOST_LENGTH + SPARE; i++)
        if (out[i] != (i < wanted ? value(arrays, count, first + i) : 0))
            fail("another answer");
    return got;
}

struct caller {
    pthread_t thread;
    struct tensor_pool *pool;
    size_t calls;
    unsigned seed;
};

static atomic_bool is_over;

/* Calls so many times, or until it is over. */
static void *call_often(void *of)
{
    struct caller *it = of;
    is_caller = true;
    for (size_t i = 0; it->calls == 0 ? !atomic_load(&is_over) : i < it->calls; i++)
        if (call(it->pool, &it->seed, 0) < 0)
            fail("a fault");
    return NULL;
}

static void begin(struct caller *callers, size_t count, struct tensor_pool *pool, size_t calls)
{
    for (size_t i = 0; i < count; i++) {
        callers[i].pool = pool;
        callers[i].calls = calls;
        callers[i].seed = (unsigned)i + 1;
        if (__real_pthread_create(&callers[i].thread, NULL, call_often, &callers[i]))
            fail("no thread");
    }
}

static void end(struct caller *callers, size_t count)
{
    atomic_store(&is_over, true);
    for (size_t i = 0; i < count; i++)
        pthread_join(callers[i].thread, NULL);
}

static struct tensor_pool *opened(size_t workers)
{
    struct tensor_pool *pool = tensor_pool_open(workers);
    if (!pool)
        fail("no pool");
    return pool;
}

static void try_callers(void)
{
    struct caller callers[CALLERS];
    struct tensor_pool *pool = opened(WORKERS);
    begin(callers, CALLERS, pool, 100);
    end(callers, CALLERS);
    tensor_pool_close(pool);
}

static void try_wake(void)
{
    struct tensor_pool *pool = opened(WORKERS);
    unsigned seed = 1;
    time_t until = time(NULL) + 10;
    for (int i = 0; i < 5000 && time(NULL) < until; i++) {
        let_meet(WORKERS);
        call(pool, &seed, WORKERS);
        /* Threads that have nothing to do spin, are about to sleep, or sleep. */
        if (i % 3)
            usleep((useconds_t)rand_r(&seed) % 100);
    }
    tensor_pool_close(pool);
}

static void try_refused(void)
{
    for (int starts = 0; starts < 3; starts++) {
        atomic_store(&starts_left, starts);
        struct tensor_pool *pool = opened(WORKERS);
        struct caller callers[2];
        unsigned seed = 1;
        begin(callers, 2, pool, 20);
        end(callers, 2);
        /* Those that were started take parts. */
        let_meet((size_t)starts + 1);
        call(pool, &seed, (size_t)starts + 1);
        tensor_pool_close(pool);
    }
}

/* How many parts there are of an answer of so many values, of which each repeats so many. */
static size_t parts_of(struct tensor_pool *pool, size_t length, int64_t repeated, bool by_plan)
{
    int64_t *values = calloc(length, sizeof *values), *out = calloc(length, sizeof *out);
    struct tensor_array array = {values, length};
    atomic_store(&shared, repeated);
    atomic_store(&evaluated, 0);
    if (values && out && by_plan)
        tensor_pool_run(pool, NULL, 0, &array, 1, 0, out, length, 0);
    else if (values && out)
        tensor_pool_evaluate_arrays(pool, NULL, 0, &array, 1, 0, out, length, 0);
    free(values);
    free(out);
    return atomic_load(&evaluated);
}

static void try_paying(void)
{
    static const struct {
        size_t length;
        int64_t repeated;
        size_t parts, by_plan;
    } rows[] = {{65535, 0, 1, 1},      {65536, 0, 2, 2},      {98304, 0, 3, 3},   {150000, 0, 4, 4},
                {150000, 60000, 2, 4}, {150000, 80000, 1, 4}, {150000, -7, 1, 4}, {1, 0, 1, 1}};
    struct tensor_pool *pool = opened(WORKERS);
    for (size_t i = 0; i < sizeof rows / sizeof *rows; i++)
        if (parts_of(pool, rows[i].length, rows[i].repeated, false) != rows[i].parts ||
            parts_of(pool, rows[i].length, rows[i].repeated, true) != rows[i].by_plan ||
            parts_of(NULL, rows[i].length, rows[i].repeated, false) != 1)
            fail("another number of parts");
    tensor_pool_close(pool);
}

static void try_failing(void)
{
    struct tensor_pool *pool = opened(WORKERS);
    unsigned seed = 1;
    atomic_store(&fails_elsewhere, true);
    for (int i = 0; i < 20; i++) {
        let_meet(WORKERS);
        if (call(pool, &seed, WORKERS) < 0)
            fail("a part that failed on a thread is a fault");
    }
    atomic_store(&fails_everywhere, true);
    if (call(pool, &seed, WORKERS) != -7)
        fail("another fault");
    tensor_pool_close(pool);
}

static void try_close(void)
{
    struct caller callers[CALLERS];
    struct tensor_pool *pool = opened(WORKERS);
    begin(callers, CALLERS, pool, 0);
    for (int i = 0; i < 40; i++) {
        usleep(500);
        tensor_pool_close(pool);
        usleep(200);
        if (opened(WORKERS) != pool)
            fail("a closed pool isn't opened again");
    }
    tensor_pool_close(pool);
    tensor_pool_close(pool);
    end(callers, CALLERS);
    /* As many as there may be, and no more. */
    size_t count = 0;
    while (count <= 64 && (pool = tensor_pool_open(1)))
        count++;
    if (count != 64 || call(NULL, &callers[0].seed, WORKERS) != MOST_LENGTH)
        fail("another number of pools");
}

/* What a child does with the pool of its parent, and with one of its own. */
static void be_child(struct tensor_pool *pool)
{
    unsigned seed = 1;
    set_alarm();
    /* A thread of the parent may have been at a meeting. */
    pthread_mutex_init(&meeting, NULL);
    pthread_cond_init(&has_met, NULL);
    to_meet = met = 0;
    atomic_store(&by_others, 0);
    call(pool, &seed, WORKERS);
    if (atomic_load(&by_others) != 0)
        fail("a child has a thread of its parent");
    struct tensor_pool *own = opened(WORKERS);
    let_meet(WORKERS);
    call(own, &seed, WORKERS);
    tensor_pool_close(pool);
    tensor_pool_close(own);
    _exit(0);
}

static void try_fork(void)
{
    struct caller callers[CALLERS];
    struct tensor_pool *pool = opened(WORKERS);
    begin(callers, CALLERS, pool, 0);
    for (int i = 0; i < 60; i++) {
        int status;
        pid_t child = fork();
        if (child == 0)
            be_child(pool);
        if (child < 0 || waitpid(child, &status, 0) != child || status != 0)
            fail("a child isn't well");
    }
    end(callers, CALLERS);
    tensor_pool_close(pool);
}

int main(int count, char **words)
{
    static const struct {
        const char *name;
        void (*run)(void);
    } modes[] = {{"callers", try_callers}, {"wake", try_wake},       {"refused", try_refused},
                 {"paying", try_paying},   {"failing", try_failing}, {"close", try_close},
                 {"fork", try_fork}};
    is_caller = true;
    set_alarm();
    for (size_t i = 0; count == 2 && i < sizeof modes / sizeof *modes; i++)
        if (strcmp(words[1], modes[i].name) == 0) {
            modes[i].run();
            return 0;
        }
    fail("which mode?");
}
