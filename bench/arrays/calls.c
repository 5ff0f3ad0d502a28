/* Times calls of the library for bench/arrays/run: calls WAY HEADER COUNT ARRAYS ROUNDS THREADS SIZE,
   where COUNT is how many values the ARRAYS tensors have together, each as many as another, and SIZE
   how many values the answer has. Each round is one answer, or as many as take LEAST nanoseconds
   together, by one WAY:

     whole     tensor_evaluate
     parts     tensor_evaluate_part, as many parts as THREADS, each on a thread that stays
     prepared  tensor_prepare once, and parts by tensor_run
     cut       each thread has a share of the operand, which the header is for, by tensor_run, and its
               answer of one value is added to the others */

#include <pthread.h>
#include <string.h>

#include "rounds.h"
#include "tensor.h"

enum { LEAST = 100000, MOST_THREADS = 64, MOST_ARRAYS = 2, MOST_VALUES = 1048576 };

enum way { WHOLE, PARTS, PREPARED, CUT };

/* What is asked for, and where its answer goes. */
static enum way way;
static const uint8_t *header;
static size_t header_length, places, tensors, size, threads, plan_length;
static int64_t *values, *out, results[MOST_THREADS];
static uint64_t plan[TENSOR_PLAN_ROOM(MOST_ARRAYS)];

/* All threads wait for an answer to begin, and for all of its parts. */
static pthread_barrier_t begin, end;
static int is_over;

static int64_t work_out(size_t part)
{
    size_t first = size * part / threads, last = size * (part + 1) / threads;
    size_t length = places / (way == CUT ? threads : tensors);
    struct tensor_array arrays[MOST_ARRAYS];
    for (size_t it = 0; it < tensors; it++)
        arrays[it] = (struct tensor_array){values + (it + (way == CUT) * part) * length, length};
    switch (way) {
    case WHOLE:
        return tensor_evaluate(header, header_length, values, places, out, MOST_VALUES,
                               (uint64_t[TENSOR_DIMS_ROOM]){0}, TENSOR_DIMS_ROOM);
    case PARTS:
        return tensor_evaluate_part(header, header_length, values, places, first, out + first,
                                    last - first);
    case PREPARED:
        return tensor_run(plan, plan_length, arrays, tensors, first, out + first, last - first);
    default:
        return tensor_run(plan, plan_length, arrays, tensors, 0, out + part, 1);
    }
}

static void *work(void *part)
{
    for (;;) {
        pthread_barrier_wait(&begin);
        if (is_over)
            return NULL;
        results[(size_t)part] = work_out((size_t)part);
        pthread_barrier_wait(&end);
    }
}

/* One answer: how many values it has, or its fault. */
static int64_t answer(void)
{
    if (threads > 1)
        pthread_barrier_wait(&begin);
    results[0] = work_out(0);
    if (threads > 1)
        pthread_barrier_wait(&end);
    int64_t sum = 0;
    for (size_t part = 0; part < threads; part++)
        if (results[part] < 0)
            return results[part];
        else
            sum += results[part];
    if (way != CUT)
        return sum;
    for (size_t part = 1; part < threads; part++)
        out[0] = (int64_t)((uint64_t)out[0] + (uint64_t)out[part]);
    return 1;
}

/* Takes the words in, and makes what they speak of; 0 where that can't be. */
static int prepare(char **words)
{
    const char *names[] = {"whole", "parts", "prepared", "cut"};
    for (way = WHOLE; way < CUT && strcmp(words[1], names[way]); way++)
        ;
    header = (const uint8_t *)words[2], header_length = strlen(words[2]);
    places = strtoull(words[3], NULL, 10), tensors = strtoull(words[4], NULL, 10);
    threads = strtoull(words[6], NULL, 10), size = strtoull(words[7], NULL, 10);
    values = malloc(8 * places + 8), out = malloc(8 * MOST_VALUES);
    if (!values || !out || threads < 1 || threads > MOST_THREADS || tensors > MOST_ARRAYS)
        return 0;
    fill(values, places);
    memset(out, 0, 8 * MOST_VALUES);
    if (way < PREPARED)
        return 1;
    size_t count = way == CUT ? places / threads : places;
    int64_t written = tensor_prepare(header, header_length, count, plan, TENSOR_PLAN_ROOM(MOST_ARRAYS));
    plan_length = written < 0 ? 0 : (size_t)written;
    return written > 0;
}

int main(int count, char **words)
{
    if (count != 8 || !prepare(words))
        return 2;
    int rounds = atoi(words[5]);
    double *times = malloc((size_t)rounds * sizeof *times);
    pthread_t others[MOST_THREADS];
    pthread_barrier_init(&begin, NULL, (unsigned)threads);
    pthread_barrier_init(&end, NULL, (unsigned)threads);
    for (size_t part = 1; part < threads; part++)
        if (pthread_create(&others[part], NULL, work, (void *)part))
            return 2;
    int64_t result = 0, calls = 1;
    for (int round = -1; round < rounds; round++) {
        int64_t start = now();
        for (int64_t call = 0; call < calls; call++)
            result = answer();
        int64_t taken = now() - start;
        if (round < 0)
            calls += LEAST / (taken + 1);
        else
            times[round] = (double)taken / (double)calls;
    }
    is_over = 1;
    if (threads > 1)
        pthread_barrier_wait(&begin);
    for (size_t part = 1; part < threads; part++)
        pthread_join(others[part], NULL);
    report(times, rounds, out, result);
    return result < 0;
}
