/* Measures how much stack each call of the library takes, for tests/test_library.py:
     stack HEADER LENGTH..  the header of a request, and how many values each of its tensors has
   Each call is made on a thread whose stack is painted. For each call a line is printed: its name, what
   it returned, and how many bytes of the paint are gone below the frame that made the call. The first
   line has TENSOR_STACK in place of these bytes. The status is 0, or 1 if a thread can't be started. */

#define _GNU_SOURCE
#include <inttypes.h>
#include <pthread.h>
#include <stdio.h>
#include <stdlib.h>
#include <string.h>
#include <sys/mman.h>

#include "tensor.h"

enum { PAINT = 0xA5, PAINTED = 8 << 20, MOST_ARRAYS = 64, ROOM = 64, TEXT_ROOM = 1 << 20 };

/* The request, and where its answer and its plan are written. */
static const uint8_t *header;
static size_t header_length, count, all;
static struct tensor_array arrays[MOST_ARRAYS];
static int64_t *values, out[ROOM];
static uint64_t *plan, dims[TENSOR_DIMS_ROOM];
static uint8_t text[TEXT_ROOM];
static size_t plan_length;

enum call {
    EVALUATE, PART, ARRAYS, SHARED, DIMS, DIMS_OF_ARRAYS, PREPARE, EXPLAIN, RUN, POOL_RUN,
    POOL_ARRAYS, CALLS,
};

static const char *const names[CALLS] = {
    "evaluate", "evaluate_part", "evaluate_arrays", "shared", "dims", "dims_of_arrays",
    "prepare", "explain", "run", "pool_run", "pool_evaluate_arrays",
};

static int64_t prepare(void)
{
    int64_t result = tensor_prepare(header, header_length, all, plan, TENSOR_PLAN_ROOM(count));
    plan_length = result < 0 ? 0 : (size_t)result;
    return result;
}

static int64_t result_of(enum call call)
{
    switch (call) {
    case EVALUATE:
        return tensor_evaluate(header, header_length, values, all, out, ROOM, dims, TENSOR_DIMS_ROOM);
    case PART:
        return tensor_evaluate_part(header, header_length, values, all, 0, out, ROOM);
    case ARRAYS:
        return tensor_evaluate_arrays(header, header_length, arrays, count, 0, out, ROOM);
    case SHARED:
        return tensor_shared(header, header_length, arrays, count);
    case DIMS:
        return tensor_dims(header, header_length, all, dims, TENSOR_DIMS_ROOM);
    case DIMS_OF_ARRAYS:
        return tensor_dims_of_arrays(header, header_length, arrays, count, dims, TENSOR_DIMS_ROOM);
    case PREPARE:
        return prepare();
    case EXPLAIN:
        return tensor_explain(header, header_length, all, text, sizeof text);
    case RUN:
        return tensor_run(plan, plan_length, arrays, count, 0, out, ROOM);
    case POOL_RUN:
        return tensor_pool_run(NULL, plan, plan_length, arrays, count, 0, out, ROOM, 2);
    default:
        return tensor_pool_evaluate_arrays(NULL, header, header_length, arrays, count, 0, out, ROOM, 2);
    }
}

/* A call, what it returned, and where the frame lies that made it. */
struct made {
    enum call call;
    int64_t result;
    unsigned char *frame;
};

static void *make(void *given)
{
    struct made *made = given;
    made->frame = __builtin_frame_address(0);
    made->result = result_of(made->call);
    return NULL;
}

/* Makes a call on a thread with this stack, and prints its line. */
static int measure(enum call call, unsigned char *stack)
{
    struct made made = {call, 0, NULL};
    unsigned char *deepest = stack;
    pthread_attr_t attributes;
    pthread_t thread;
    memset(stack, PAINT, PAINTED);
    if (pthread_attr_init(&attributes) || pthread_attr_setstack(&attributes, stack, PAINTED)
        || pthread_create(&thread, &attributes, make, &made) || pthread_join(thread, NULL))
        return 1;
    pthread_attr_destroy(&attributes);
    while (*deepest == PAINT)
        deepest++;
    printf("%s %" PRId64 " %td\n", names[call], made.result, made.frame - deepest);
    return 0;
}

int main(int argc, char **argv)
{
    int flags = MAP_PRIVATE | MAP_ANONYMOUS, status = 0;
    unsigned char *stack = mmap(NULL, PAINTED, PROT_READ | PROT_WRITE, flags, -1, 0);
    header = (const uint8_t *)argv[1];
    header_length = strlen(argv[1]);
    for (int at = 2; at < argc && count < MOST_ARRAYS; at++)
        all += arrays[count++].length = strtoul(argv[at], NULL, 10);
    values = calloc(all + 1, sizeof *values);
    plan = calloc(TENSOR_PLAN_ROOM(count), sizeof *plan);
    if (stack == MAP_FAILED || !values || !plan)
        return 1;
    for (size_t at = 0, from = 0; at < count; from += arrays[at++].length)
        arrays[at].values = values + from;
    printf("TENSOR_STACK 0 %d\n", TENSOR_STACK);
    for (enum call call = EVALUATE; call < CALLS; call++)
        status |= measure(call, stack);
    free(values);
    free(plan);
    return status;
}
