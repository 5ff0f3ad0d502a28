/* The pool of threads of tensor.h. Parked threads evaluate parts of an answer, each by one call of the
   proved library. No proof speaks of this file. The law `parts_make_the_whole` of tensor_c says that the
   parts make the answer, on whatever threads and in whatever order they are evaluated. So this file has
   to see that each part is evaluated, into its own places, before the call returns.

   An `answer` lies on the stack of its caller, and in the list of a pool until all its parts have ended.
   A part is taken, and its end is counted, under the lock of the pool. The caller takes parts too, so
   it needs no thread that wakes.

   Pools lie in a table and are never freed, so a call on a pool that is closed, or is open again, is
   safe. A pool belongs to the process that opened it. A forked child has none of its threads, and may
   find its lock held for ever: so it does not touch them. */

#define _POSIX_C_SOURCE 200809L

#include <pthread.h>
#include <signal.h>
#include <stdbool.h>
#include <unistd.h>

#include "tensor.h"

/* If the caller names no number of parts, each has LEAST_VALUES values or more. SPINS pauses of the
   processor take some 15 microseconds, as long as it takes to wake a thread. */
enum { MOST_POOLS = 64, LEAST_VALUES = 32768, SPINS = 400 };

/* What a caller asks for: the arguments of tensor_run, or of tensor_evaluate_arrays if `plan` is null. */
struct request {
    const uint64_t *plan;
    const uint8_t *header;
    size_t length;
    const struct tensor_array *arrays;
    size_t count;
    uint64_t first;
    int64_t *out;
    size_t out_length;
};

/* A request in parts, and what each call for a part returned. */
struct answer {
    const struct request *asked;
    size_t parts;
    int64_t results[TENSOR_MOST_PARTS];
    /* How many parts are taken, and how many of these have ended. Both change under the lock. */
    size_t taken, ended;
    pthread_cond_t all_ended;
    struct answer *next;
};

struct tensor_pool {
    /* The process in which the pool is open: 0 if it is closed, negated while it is being opened. */
    pid_t process;
    /* The process in which the lock and the condition were made. */
    pid_t made_in;
    pthread_mutex_t lock;
    pthread_cond_t has_parts;
    /* These change under the lock: the answers, the oldest first; how many have come; and how many
       threads there are, how many of them sleep, and how many are about to. */
    struct answer *answers;
    size_t arrivals, threads, sleeping, spinning;
    bool is_closed;
    pthread_t started[TENSOR_MOST_WORKERS];
};

static struct tensor_pool pools[MOST_POOLS];

/* The first place of a part. The parts lie in order, and their lengths differ by one at most. */
static size_t begin_of(const struct answer *it, size_t part)
{
    size_t each = it->asked->out_length / it->parts, longer = it->asked->out_length % it->parts;
    return part * each + (part < longer ? part : longer);
}

/* Evaluates places of a request, and returns how many values it wrote, or the fault. */
static int64_t evaluate(const struct request *it, size_t begin, size_t length)
{
    int64_t *out = length > 0 ? it->out + begin : NULL;
    if (it->plan != NULL)
        return tensor_run(it->plan, it->length, it->arrays, it->count, it->first + begin, out, length);
    return tensor_evaluate_arrays(it->header, it->length, it->arrays, it->count, it->first + begin, out,
                                  length);
}

static void evaluate_part(struct answer *it, size_t part)
{
    size_t begin = begin_of(it, part);
    it->results[part] = evaluate(it->asked, begin, begin_of(it, part + 1) - begin);
}

/* Takes a part of an answer, and evaluates it without the lock. The lock is held before and after. */
static void take_part(struct tensor_pool *pool, struct answer *it)
{
    size_t part = it->taken++;
    pthread_mutex_unlock(&pool->lock);
    evaluate_part(it, part);
    pthread_mutex_lock(&pool->lock);
    __atomic_store_n(&it->ended, it->ended + 1, __ATOMIC_RELAXED);
    if (it->ended == it->parts)
        pthread_cond_signal(&it->all_ended);
}

/* Waits some microseconds for a number to change, without the lock, and returns whether it did. The lock
   is held before and after. */
static bool spin(struct tensor_pool *pool, const size_t *number)
{
    size_t before = *number;
    pthread_mutex_unlock(&pool->lock);
    for (int i = 0; i < SPINS && __atomic_load_n(number, __ATOMIC_RELAXED) == before; i++)
        __builtin_ia32_pause();
    pthread_mutex_lock(&pool->lock);
    return *number != before;
}

/* The oldest answer with a part that nobody has taken, or null. The lock is held. */
static struct answer *with_parts(const struct tensor_pool *pool)
{
    struct answer *it = pool->answers;
    while (it != NULL && it->taken == it->parts)
        it = it->next;
    return it;
}

/* Spins, and then sleeps if there is still nothing to do. The lock is held before and after. */
static void wait_for_parts(struct tensor_pool *pool)
{
    pool->spinning++;
    spin(pool, &pool->arrivals);
    pool->spinning--;
    if (with_parts(pool) != NULL || pool->is_closed)
        return;
    pool->sleeping++;
    pthread_cond_wait(&pool->has_parts, &pool->lock);
    pool->sleeping--;
}

/* What a thread of a pool does. */
static void *work(void *of)
{
    struct tensor_pool *pool = of;
    pthread_mutex_lock(&pool->lock);
    while (!pool->is_closed) {
        struct answer *it = with_parts(pool);
        if (it != NULL)
            take_part(pool, it);
        else
            wait_for_parts(pool);
    }
    pthread_mutex_unlock(&pool->lock);
    return NULL;
}

/* Puts an answer into the list, and returns how many threads to wake for it. The lock is held. */
static size_t announce(struct tensor_pool *pool, struct answer *it)
{
    struct answer **end = &pool->answers;
    while (*end != NULL)
        end = &(*end)->next;
    *end = it;
    __atomic_store_n(&pool->arrivals, pool->arrivals + 1, __ATOMIC_RELAXED);
    size_t others = it->parts - 1;
    size_t missing = others > pool->spinning ? others - pool->spinning : 0;
    return missing < pool->sleeping ? missing : pool->sleeping;
}

/* Evaluates an answer by the threads of a pool and by this one. Returns false if there are none, and then
   evaluates nothing. */
static bool evaluate_together(struct tensor_pool *pool, struct answer *it)
{
    pthread_mutex_lock(&pool->lock);
    if (pool->threads == 0) {
        pthread_mutex_unlock(&pool->lock);
        return false;
    }
    pthread_cond_init(&it->all_ended, NULL);
    size_t missing = announce(pool, it);
    pthread_mutex_unlock(&pool->lock);
    while (missing-- > 0)
        pthread_cond_signal(&pool->has_parts);
    pthread_mutex_lock(&pool->lock);
    while (it->taken < it->parts)
        take_part(pool, it);
    while (it->ended < it->parts && spin(pool, &it->ended))
        ;
    while (it->ended < it->parts)
        pthread_cond_wait(&it->all_ended, &pool->lock);
    struct answer **at = &pool->answers;
    while (*at != it)
        at = &(*at)->next;
    *at = it->next;
    pthread_mutex_unlock(&pool->lock);
    pthread_cond_destroy(&it->all_ended);
    return true;
}

/* The values that all parts wrote, or the first fault. A part that failed is evaluated again, here: a
   thread may have found no memory where the caller finds some. */
static int64_t result_of(struct answer *it)
{
    int64_t sum = 0;
    for (size_t part = 0; part < it->parts; part++) {
        if (it->results[part] < 0)
            evaluate_part(it, part);
        if (it->results[part] < 0)
            return it->results[part];
        sum += it->results[part];
    }
    return sum;
}

/* Whether a pool is open, by this process. */
static bool is_open(const struct tensor_pool *pool)
{
    return pool != NULL && __atomic_load_n(&pool->process, __ATOMIC_ACQUIRE) == getpid();
}

/* The answer to a request in at most this many parts, as one call returns it. */
static int64_t answered(struct tensor_pool *pool, const struct request *asked, size_t parts)
{
    struct answer it;
    it.asked = asked;
    it.parts = parts < asked->out_length ? parts : asked->out_length;
    if (it.parts > TENSOR_MOST_PARTS)
        it.parts = TENSOR_MOST_PARTS;
    it.taken = it.ended = 0;
    it.next = NULL;
    /* No place of an answer is behind the last number, and the places of parts may not wrap. */
    bool has_parts = it.parts > 1 && asked->first <= UINT64_MAX - asked->out_length;
    if (has_parts && is_open(pool) && evaluate_together(pool, &it))
        return result_of(&it);
    return evaluate(asked, 0, asked->out_length);
}

/* How many parts pay if each has at least so many values, and LEAST_VALUES. */
static size_t paying(const struct tensor_pool *pool, size_t values, size_t least)
{
    size_t workers = pool != NULL ? __atomic_load_n(&pool->threads, __ATOMIC_RELAXED) + 1 : 1;
    size_t parts = values / (least > LEAST_VALUES ? least : LEAST_VALUES);
    return parts < workers ? parts : workers;
}

int64_t tensor_pool_run(struct tensor_pool *pool, const uint64_t *plan, size_t plan_length,
                        const struct tensor_array *arrays, size_t count,
                        uint64_t first, int64_t *out, size_t out_length, size_t parts)
{
    const uint64_t *given = tensor_place(plan, plan_length);
    struct request asked = {given, NULL, plan_length, arrays, count, first, out, out_length};
    return answered(pool, &asked, parts != 0 ? parts : paying(pool, out_length, 0));
}

int64_t tensor_pool_evaluate_arrays(struct tensor_pool *pool,
                                    const uint8_t *header, size_t header_length,
                                    const struct tensor_array *arrays, size_t count,
                                    uint64_t first, int64_t *out, size_t out_length, size_t parts)
{
    struct request asked = {NULL, header, header_length, arrays, count, first, out, out_length};
    if (parts == 0 && (parts = paying(pool, out_length, 0)) > 1) {
        int64_t shared = tensor_shared(header, header_length, arrays, count);
        parts = shared < 0 ? 1 : paying(pool, out_length, (size_t)shared);
    }
    return answered(pool, &asked, parts);
}

/* Makes the lock of a pool that is being opened, unless it was made in this process: then a late caller
   may hold it. */
static void make_lock(struct tensor_pool *pool, pid_t process)
{
    if (pool->made_in == process)
        return;
    pthread_mutex_init(&pool->lock, NULL);
    pthread_cond_init(&pool->has_parts, NULL);
    pool->answers = NULL;
    pool->threads = pool->sleeping = pool->spinning = 0;
    pool->made_in = process;
}

/* Starts threads, on which no signal of the program is handled, and returns how many it could start. */
static size_t start(struct tensor_pool *pool, size_t threads)
{
    sigset_t all, before;
    size_t count = 0;
    sigfillset(&all);
    pthread_sigmask(SIG_SETMASK, &all, &before);
    while (count < threads && pthread_create(&pool->started[count], NULL, work, pool) == 0)
        count++;
    pthread_sigmask(SIG_SETMASK, &before, NULL);
    return count;
}

struct tensor_pool *tensor_pool_open(size_t workers)
{
    pid_t process = getpid();
    struct tensor_pool *pool = pools;
    for (; pool < pools + MOST_POOLS; pool++) {
        pid_t before = __atomic_load_n(&pool->process, __ATOMIC_RELAXED);
        bool is_free = before != process && before != -process;
        if (is_free && __atomic_compare_exchange_n(&pool->process, &before, -process, false,
                                                   __ATOMIC_ACQUIRE, __ATOMIC_RELAXED))
            break;
    }
    if (pool == pools + MOST_POOLS)
        return NULL;
    make_lock(pool, process);
    pthread_mutex_lock(&pool->lock);
    pool->is_closed = false;
    pthread_mutex_unlock(&pool->lock);
    size_t most = workers < TENSOR_MOST_WORKERS ? workers : TENSOR_MOST_WORKERS;
    size_t threads = most > 1 ? start(pool, most - 1) : 0;
    pthread_mutex_lock(&pool->lock);
    __atomic_store_n(&pool->threads, threads, __ATOMIC_RELAXED);
    pthread_mutex_unlock(&pool->lock);
    __atomic_store_n(&pool->process, process, __ATOMIC_RELEASE);
    return pool;
}

void tensor_pool_close(struct tensor_pool *pool)
{
    if (!is_open(pool))
        return;
    pthread_mutex_lock(&pool->lock);
    bool was_closed = pool->is_closed;
    size_t threads = pool->threads;
    pool->is_closed = true;
    __atomic_store_n(&pool->threads, 0, __ATOMIC_RELAXED);
    pthread_cond_broadcast(&pool->has_parts);
    pthread_mutex_unlock(&pool->lock);
    if (was_closed)
        return;
    for (size_t it = 0; it < threads; it++)
        pthread_join(pool->started[it], NULL);
    __atomic_store_n(&pool->process, 0, __ATOMIC_RELEASE);
}
