/* Calls the library on frames for tests/test_library.py, which builds it of this file and libtensor.a:
     library FILE                 prints the answer of each frame of the file, a line each
     library FILE THREADS PASSES  answers each of them by a part a thread, on so many threads; and
                                  each whole and by a part on each thread, in so many passes, and
                                  in as many again, behind which there is no more memory
     library FILE refuse          refuses each request for memory of each call in turn
     library FILE peaks           prints how many bytes each way of answering a frame holds at most
   Before that each is answered whole, and by parts of drawn sizes, with the values joined, with an
   array a tensor, and by its plan; how many values parts share is compared; and plans are spoilt,
   cut, and run over arrays of others. What is read ends before a page that may not be read. A list
   of nothing is null. FILE has frames: two numbers of 64 bits, h and v, then h bytes of header, then
   v values; FILE.arrays how many arrays each has, or 2^64 - 1, how many values the parts of its
   answer share, and how long each array is. The memory that the library takes is counted, and
   refused, by --wrap=malloc,realloc,free. The status is 0 where all is well, and else 1, with a line
   on standard error. */

#define _GNU_SOURCE
#include <inttypes.h>
#include <malloc.h>
#include <pthread.h>
#include <stdatomic.h>
#include <stdbool.h>
#include <stdio.h>
#include <stdlib.h>
#include <string.h>
#include <sys/mman.h>
#include <unistd.h>

#include "tensor.h"

enum { SPARE = 3, SENTINEL = 77, MOST_RUNS = 10000, MOST_THREADS = 64, FROM_SYSTEM = 1 << 17 };
/* How many numbers of a plan are spoilt at most, and how many frames' arrays a plan is run over. */
enum { MOST_SPOILT = 400, MOST_MIXED = 50 };
/* A header with fewer bytes gets all the room for its explanation. */
enum { MOST_SHORT = 1 << 16 };

struct frame {
    const uint8_t *header;
    const int64_t *values;
    size_t header_length, values_length;
    /* The same values, an array a tensor, if it is known how long each is. */
    struct tensor_array *arrays;
    size_t array_count;
    bool has_arrays;
    /* How many values each part of the answer is to work out anew. */
    int64_t shared;
    /* The answer of the first call: its result, and the values and dims behind it. */
    int64_t result;
    int64_t *out;
    uint64_t dims[TENSOR_DIMS_ROOM];
    /* The plan of the header, in a block of its own, where there is one and arrays to run it over. */
    uint64_t *plan;
    size_t plan_length;
};

/* How a frame is given to the library: its values joined, an array a tensor, or these and a plan. */
enum way { JOINED, APART, PLANNED, WAYS };

static struct frame *frames;
static size_t frame_count;

/* How many blocks the library holds on this thread, and how many more it is given: -1 is all. */
static _Thread_local int64_t held, left = -1;
static _Thread_local bool was_refused;

/* How many bytes these blocks have, and the most that they had since this was set. */
static _Thread_local int64_t bytes_held, most_bytes;

void *__real_malloc(size_t size);
void *__real_realloc(void *block, size_t size);
void __real_free(void *block);

/* Whether a request is refused: one is, and later ones are given again. */
static bool refuses(void)
{
    bool refused = left == 0;
    was_refused |= refused;
    left -= left >= 0;
    return refused;
}

/* Counts so many bytes more, and then so many fewer: a block that moves is there twice. */
static void count_bytes(size_t more, size_t fewer)
{
    bytes_held += (int64_t)more;
    if (bytes_held > most_bytes)
        most_bytes = bytes_held;
    bytes_held -= (int64_t)fewer;
}

void *__wrap_malloc(size_t size)
{
    void *block = refuses() ? NULL : __real_malloc(size);
    held += block != NULL;
    count_bytes(malloc_usable_size(block), 0);
    return block;
}

void *__wrap_realloc(void *block, size_t size)
{
    size_t before = malloc_usable_size(block);
    void *moved = refuses() ? NULL : __real_realloc(block, size);
    held += block == NULL && moved != NULL;
    if (moved)
        count_bytes(malloc_usable_size(moved), before);
    return moved;
}

void __wrap_free(void *block)
{
    held -= block != NULL;
    count_bytes(0, malloc_usable_size(block));
    __real_free(block);
}

static void fail(const char *what)
{
    fprintf(stderr, "library: %s\n", what);
    exit(1);
}

static uint8_t *contents(const char *path, size_t *size)
{
    FILE *file = fopen(path, "rb");
    if (!file || fseek(file, 0, SEEK_END))
        fail("no file of frames");
    *size = (size_t)ftell(file);
    uint8_t *bytes = __real_malloc(*size + 1);
    rewind(file);
    if (!bytes || fread(bytes, 1, *size, file) != *size)
        fail("the frames can't be read");
    fclose(file);
    return bytes;
}

/* How many bytes the pages have that so many bytes take. */
static size_t paged(size_t size)
{
    size_t page = (size_t)sysconf(_SC_PAGESIZE);
    return (size + page - 1) / page * page;
}

/* A copy of so many bytes that ends where a page begins that may not be read, so that a read past
   its end ends this program; of none it is null. */
static void *copied(const uint8_t *bytes, size_t size)
{
    if (size == 0)
        return NULL;
    size_t room = paged(size), page = paged(1);
    uint8_t *pages = mmap(NULL, room + page, PROT_READ | PROT_WRITE, MAP_PRIVATE | MAP_ANONYMOUS,
                          -1, 0);
    if (pages == MAP_FAILED || mprotect(pages + room, page, PROT_NONE))
        fail("no memory");
    return memcpy(pages + room - size, bytes, size);
}

static void free_copied(void *block, size_t size)
{
    if (size > 0 && munmap((uint8_t *)block + size - paged(size), paged(size) + paged(1)))
        fail("a copy can't be freed");
}

/* A list of no elements, as it may be given too. */
static int64_t *or_null(int64_t *list, size_t room)
{
    return room > 0 ? list : NULL;
}

static void read_frames(const char *path)
{
    size_t size, at = 0, room = 0;
    uint8_t *bytes = contents(path, &size);
    while (at < size) {
        uint64_t lengths[2];
        memcpy(lengths, bytes + at, sizeof lengths);
        at += sizeof lengths;
        if (frame_count == room) {
            room = 2 * room + 64;
            frames = __real_realloc(frames, room * sizeof *frames);
        }
        struct frame *it = &frames[frame_count++];
        *it = (struct frame){.header_length = lengths[0], .values_length = lengths[1]};
        it->header = copied(bytes + at, it->header_length);
        at += it->header_length;
        it->values = copied(bytes + at, 8 * it->values_length);
        at += 8 * it->values_length;
    }
    __real_free(bytes);
}

/* The next number of bytes that are read. */
static uint64_t number(const uint8_t *bytes, size_t *at)
{
    uint64_t found;
    memcpy(&found, bytes + *at, sizeof found);
    *at += sizeof found;
    return found;
}

/* Reads how long the arrays of each frame are, each of which is given a block of its own, and how
   many values the parts of its answer share. */
static void read_arrays(const char *path)
{
    char beside[4096];
    snprintf(beside, sizeof beside, "%s.arrays", path);
    size_t size, at = 0;
    uint8_t *bytes = contents(beside, &size);
    for (size_t i = 0; i < frame_count; i++) {
        struct frame *it = &frames[i];
        uint64_t count = number(bytes, &at);
        it->has_arrays = count != UINT64_MAX;
        it->shared = (int64_t)number(bytes, &at);
        it->array_count = it->has_arrays ? count : 0;
        it->arrays = __real_malloc((it->array_count + 1) * sizeof *it->arrays);
        const uint8_t *values = (const uint8_t *)it->values;
        for (size_t k = 0; k < it->array_count; k++) {
            size_t length = number(bytes, &at);
            it->arrays[k] = (struct tensor_array){copied(values, 8 * length), length};
            values += 8 * length;
        }
    }
    __real_free(bytes);
}

/* Answers a frame. What stands behind the room that the library is given has to stay. */
static int64_t answer(const struct frame *it, int64_t *out, size_t room, uint64_t *dims)
{
    for (size_t place = room; place < room + SPARE; place++)
        out[place] = SENTINEL;
    int64_t before = held;
    int64_t result = tensor_evaluate(it->header, it->header_length, it->values, it->values_length,
                                     or_null(out, room), room, dims, TENSOR_DIMS_ROOM);
    if (held != before)
        fail("a call keeps memory");
    for (size_t place = room; place < room + SPARE; place++)
        if (out[place] != SENTINEL)
            fail("written past the room");
    return result;
}

/* Asks for a frame's answer with too little room for its values. */
static void too_little_room(const struct frame *it, size_t room)
{
    uint64_t dims[TENSOR_DIMS_ROOM] = {0};
    int64_t *out = __real_malloc((room + SPARE) * sizeof *out);
    memset(out, 0, (room + SPARE) * sizeof *out);
    if (answer(it, out, room, dims) != TENSOR_NO_ROOM)
        fail("too little room is not told");
    for (size_t place = 0; place < room; place++)
        if (out[place] != 0)
            fail("written where there is too little room");
    if (dims[0] != 0)
        fail("dims written where there is too little room");
    __real_free(out);
}

/* A list of so many elements with others before and behind it, which have to stay. */
static int64_t *guarded(size_t room)
{
    int64_t *list = __real_malloc((room + 2 * SPARE) * sizeof *list);
    if (!list)
        fail("no memory");
    for (size_t place = 0; place < room + 2 * SPARE; place++)
        list[place] = SENTINEL;
    return list + SPARE;
}

static void free_guarded(int64_t *list, size_t room)
{
    for (size_t place = 0; place < SPARE; place++)
        if (list[(ptrdiff_t)place - SPARE] != SENTINEL || list[room + place] != SENTINEL)
            fail("a part is written past its room");
    __real_free(list - SPARE);
}

/* How many values a part has, of as many as the frame's answer has. */
static size_t part_size(const struct frame *it, uint64_t first, size_t room)
{
    uint64_t size = it->result > 0 ? (uint64_t)it->result : 0;
    uint64_t left = size > first ? size - first : 0;
    return left < room ? (size_t)left : room;
}

/* Whether a frame may be given in this way. */
static bool has_way(const struct frame *it, enum way way)
{
    return way == JOINED || (way == APART ? it->has_arrays : it->plan != NULL);
}

/* The way of this number, or the first where the frame hasn't that one. */
static enum way way_of(const struct frame *it, uint64_t number)
{
    enum way way = (enum way)(number % WAYS);
    return has_way(it, way) ? way : JOINED;
}

/* Answers a part of a frame, its values from a place on. */
static int64_t answer_part(const struct frame *it, enum way way, uint64_t first, int64_t *out,
                           size_t room)
{
    int64_t before = held, result;
    if (way == PLANNED)
        result = tensor_run(it->plan, it->plan_length, it->arrays, it->array_count, first,
                            or_null(out, room), room);
    else if (way == APART)
        result = tensor_evaluate_arrays(it->header, it->header_length, it->arrays,
                                        it->array_count, first, or_null(out, room), room);
    else
        result = tensor_evaluate_part(it->header, it->header_length, it->values,
                                      it->values_length, first, or_null(out, room), room);
    if (held != before)
        fail("a call for a part keeps memory");
    return result;
}

/* Answers a part, and sees that it is that of the first answer, and that the rest of its room is as
   it was; or else that there is no memory, where it is refused. */
static void check_part_by(const struct frame *it, enum way way, uint64_t first, size_t room)
{
    int64_t *out = guarded(room);
    size_t count = part_size(it, first, room);
    int64_t result = answer_part(it, way, first, out, room);
    if (result != -15 || !was_refused) {
        if (result != (it->result < 0 ? it->result : (int64_t)count))
            fail("another number of values in a part");
        if (count > 0 && memcmp(out, it->out + first, count * sizeof *out))
            fail("other values in a part");
        for (size_t place = count; place < room; place++)
            if (out[place] != SENTINEL)
                fail("written behind the values of a part");
    }
    free_guarded(out, room);
}

static void check_part(const struct frame *it, uint64_t first, size_t room)
{
    for (enum way way = JOINED; way < WAYS; way++)
        if (has_way(it, way))
            check_part_by(it, way, first, room);
}

/* The next of numbers that are drawn, below this one. */
static uint64_t drawn(uint64_t *state, uint64_t below)
{
    *state = *state * 6364136223846793005u + 1442695040888963407u;
    return (*state >> 33) % below;
}

/* Parts of a frame: of no values, of one, of all, past the end, and of drawn sizes one behind the
   other up to the end and over it. */
static void check_parts(const struct frame *it, uint64_t *state)
{
    size_t size = part_size(it, 0, SIZE_MAX);
    check_part(it, 0, 0);
    check_part(it, 0, size);
    check_part(it, 0, size + 1);
    check_part(it, size, 1);
    check_part(it, size + 1, 2);
    check_part(it, UINT64_MAX, 2);
    check_part(it, drawn(state, size + 1), 1);
    for (uint64_t first = 0; first < size;) {
        size_t room = 1 + (size_t)drawn(state, size / 2 + 2);
        check_part(it, first, room);
        first += room;
    }
}

/* Asks how many values the parts of a frame's answer share, where memory may be refused. */
static void check_shared(const struct frame *it)
{
    int64_t before = held;
    int64_t result = tensor_shared(it->header, it->header_length, it->arrays, it->array_count);
    if (held != before)
        fail("a call that counts keeps memory");
    if (result != (it->result < 0 ? it->result : it->shared) && (result != -15 || !was_refused))
        fail("another number of values that parts share");
}

/* Prepares a frame's header into a list with others before and behind it, which have to stay. */
static int64_t prepare(const struct frame *it, uint64_t *plan, size_t room)
{
    int64_t before = held;
    int64_t count = tensor_prepare(it->header, it->header_length, it->values_length, plan, room);
    if (held != before)
        fail("a call that prepares keeps memory");
    for (size_t place = count < 0 ? 0 : (size_t)count; place < room; place++)
        if (plan[place] != SENTINEL)
            fail("written behind the numbers of a plan");
    return count;
}

/* Prepares a frame again, where memory may be refused. */
static void check_plan(const struct frame *it)
{
    size_t room = it->plan_length + 1;
    uint64_t *plan = (uint64_t *)guarded(room);
    int64_t count = prepare(it, plan, room);
    if (count != -15 || !was_refused) {
        if (count != (it->result < 0 ? it->result : (int64_t)it->plan_length))
            fail("another number of numbers in a plan");
        if (count > 0 && memcmp(plan, it->plan, (size_t)count * sizeof *plan))
            fail("another plan");
    }
    free_guarded((int64_t *)plan, room);
}

/* The plan of a frame that has been answered: its numbers in a block of just as many. */
static void first_plan(struct frame *it)
{
    if (it->result >= 0 && !it->has_arrays)
        fail("an answer to arrays whose lengths are not known");
    size_t most = TENSOR_PLAN_ROOM(it->array_count);
    uint64_t *plan = (uint64_t *)guarded(most);
    int64_t count = prepare(it, plan, most);
    if (it->result < 0 ? count != it->result : count <= 0)
        fail("another fault of a header that is prepared");
    if (count > 0) {
        it->plan_length = (size_t)count;
        it->plan = copied((const uint8_t *)plan, it->plan_length * sizeof *plan);
    }
    free_guarded((int64_t *)plan, most);
    check_plan(it);
    for (size_t room = 0; room < it->plan_length; room += 1 + room / 2) {
        plan = (uint64_t *)guarded(room);
        if (prepare(it, plan, room) != TENSOR_NO_ROOM)
            fail("too little room for a plan is not told");
        free_guarded((int64_t *)plan, room);
    }
}

/* Runs numbers over a frame's arrays: a fault, by which nothing is written, or values within the
   room. What is returned. */
static int64_t run_numbers(const struct frame *it, const uint64_t *plan, size_t length, size_t room)
{
    int64_t *out = guarded(room), before = held;
    int64_t result = tensor_run(plan, length, it->arrays, it->array_count, 0, or_null(out, room),
                                room);
    if (held != before)
        fail("a call that runs numbers keeps memory");
    if (result > (int64_t)room)
        fail("more values than there is room for");
    if (result < 0 && result != TENSOR_NO_PLAN && result != -7 && result != -15)
        fail("numbers with another fault");
    size_t written = result == -15 ? room : result < 0 ? 0 : (size_t)result;
    for (size_t place = written; place < room; place++)
        if (out[place] != SENTINEL)
            fail("numbers that write behind their values");
    free_guarded(out, room);
    return result;
}

/* Runs the numbers of a plan of which each in turn is another, and the plan cut at each length, which
   is none. How many were spoilt. */
static size_t spoil_plan(const struct frame *it, uint64_t *state)
{
    size_t room = part_size(it, 0, SIZE_MAX) + 2, length = it->plan_length, runs = 0;
    uint64_t *plan = copied((const uint8_t *)it->plan, length * sizeof *plan);
    for (size_t at = 0; at < length; at += 1 + length / MOST_SPOILT) {
        uint64_t right = plan[at];
        uint64_t wrong[] = {right + 1, 0, right - 1, UINT64_C(1) << 63, drawn(state, 40), ~right};
        for (size_t i = 0; i < sizeof wrong / sizeof *wrong; i++, runs++) {
            plan[at] = wrong[i];
            run_numbers(it, plan, length, room);
        }
        plan[at] = right;
        uint64_t *part = copied((const uint8_t *)plan, at * sizeof *plan);
        int64_t result = run_numbers(it, part, at, room);
        if (result != TENSOR_NO_PLAN && result != -7)
            fail("a plan that is cut short is run");
        free_copied(part, at * sizeof *plan);
    }
    free_copied(plan, length * sizeof *plan);
    return runs;
}

/* Runs a frame's plan over the arrays of all others. A plan with a number behind it is none. */
static void mix_plans(const struct frame *it)
{
    for (size_t at = 0; at < frame_count; at += 1 + frame_count / MOST_MIXED)
        if (frames[at].has_arrays)
            run_numbers(&frames[at], it->plan, it->plan_length, SPARE);
    uint64_t *longer = __real_malloc((it->plan_length + 1) * sizeof *longer);
    memcpy(longer, it->plan, it->plan_length * sizeof *longer);
    longer[it->plan_length] = 0;
    if (run_numbers(it, longer, it->plan_length + 1, SPARE) != TENSOR_NO_PLAN)
        fail("a plan with a number behind it is run");
    __real_free(longer);
}

/* Asks for a frame's dims by its arrays, where memory may be refused. */
static void check_dims(const struct frame *it)
{
    uint64_t dims[TENSOR_DIMS_ROOM] = {0}, none[TENSOR_DIMS_ROOM] = {0};
    if (!it->has_arrays)
        return;
    int64_t before = held;
    int64_t count = tensor_dims_of_arrays(it->header, it->header_length, it->arrays,
                                          it->array_count, dims, TENSOR_DIMS_ROOM);
    if (held != before)
        fail("a call for dims keeps memory");
    if (count == -15 && was_refused ? memcmp(dims, none, sizeof dims)
                                    : count != it->result || memcmp(dims, it->dims, sizeof dims))
        fail("other dims of arrays");
}

/* Explains a frame in this room, of which it fills the first byte before. */
static int64_t explained(const struct frame *it, uint8_t *text, size_t room)
{
    int64_t before = held;
    text[0] = '?';
    int64_t length = tensor_explain(it->header, it->header_length, it->values_length, text, room);
    if (held != before)
        fail("a call for an explanation keeps memory");
    if (length < 0 && text[0] != '?')
        fail("an explanation is written and refused");
    return length;
}

/* Checks what is written about a frame: the line of its fault and the begin of the next line, or that it
   has no fault. */
static void check_explanation(const struct frame *it)
{
    size_t room = TENSOR_TEXT_ROOM(it->header_length < MOST_SHORT ? it->header_length : 0);
    uint8_t *text = __real_malloc(room), name[TENSOR_NAME_ROOM] = {0};
    char first[64] = "no fault\ndims [";
    int64_t length = explained(it, text, room);
    if (it->result < 0) {
        tensor_fault_name((uint32_t)-it->result, name, sizeof name);
        snprintf(first, sizeof first, "error %" PRId64 " %s\nat ", -it->result, (char *)name);
    }
    if (length < 0) {
        if (length != -15 || !was_refused)
            fail("no explanation");
    } else if (strlen((char *)text) != (size_t)length || text[length - 1] != '\n'
               || strncmp((char *)text, first, strlen(first))) {
        fail("another explanation");
    } else if (!was_refused) {
        length = explained(it, text, (size_t)length);
        if (length != TENSOR_NO_ROOM && (length != -15 || !was_refused))
            fail("an explanation in too little room");
    }
    __real_free(text);
}

/* The first answer of a frame, whose dims were asked for before it. */
static void first_answer(struct frame *it)
{
    uint64_t dims[TENSOR_DIMS_ROOM] = {0};
    int64_t count = tensor_dims(it->header, it->header_length, it->values_length,
                                dims, TENSOR_DIMS_ROOM);
    size_t room = count > 0 ? (size_t)count : 0;
    it->out = __real_malloc((room + SPARE) * sizeof *it->out);
    it->result = answer(it, it->out, room, it->dims);
    if (it->result != count || memcmp(it->dims, dims, sizeof dims))
        fail("tensor_dims and tensor_evaluate differ");
    check_dims(it);
    check_explanation(it);
    if (room > 0)
        too_little_room(it, room - 1);
}

static void print(const struct frame *it)
{
    if (it->result < 0) {
        uint8_t name[TENSOR_NAME_ROOM];
        if (tensor_fault_name((uint32_t)-it->result, name, sizeof name) <= 0)
            fail("a fault without a name");
        printf("error %" PRId64 " %s\n", -it->result, (char *)name);
        return;
    }
    printf("{\"data\":[");
    for (int64_t place = 0; place < it->result; place++)
        printf("%s%" PRId64, place ? "," : "", it->out[place]);
    printf("],\"dims\":[");
    for (uint64_t axis = 1; axis <= it->dims[0]; axis++)
        printf("%s%" PRIu64, axis > 1 ? "," : "", it->dims[axis]);
    printf("]}\n");
}

/* Answers a frame again, and says whether the answer is the first one. */
static int64_t again(const struct frame *it, bool *is_same)
{
    uint64_t dims[TENSOR_DIMS_ROOM] = {0};
    size_t room = it->result > 0 ? (size_t)it->result : 0;
    int64_t *out = __real_malloc((room + SPARE) * sizeof *out);
    memset(out, 0, (room + SPARE) * sizeof *out);
    int64_t result = answer(it, out, room, dims);
    *is_same = result == it->result && !memcmp(out, it->out, room * sizeof *out)
               && !memcmp(dims, it->dims, sizeof dims);
    if (result < 0)
        for (size_t place = 0; place < room; place++)
            if (out[place] != 0)
                fail("a fault's answer with values written");
    __real_free(out);
    return result;
}

static atomic_ullong calls;
static uint64_t thread_count, pass_count;
static pthread_barrier_t turn;
static int64_t *shared;
/* The memory that the process had behind each round of passes. */
static long memory[2];

/* Works a frame's answer out with the other threads, each of which writes its part of one list. */
static void answer_together(const struct frame *it, uint64_t thread)
{
    size_t size = part_size(it, 0, SIZE_MAX);
    if (thread == 0)
        shared = guarded(size);
    pthread_barrier_wait(&turn);
    size_t first = size * thread / thread_count, end = size * (thread + 1) / thread_count;
    int64_t result = answer_part(it, way_of(it, thread), first, shared + first, end - first);
    if (result != (it->result < 0 ? it->result : (int64_t)(end - first)))
        fail("another number of values in a thread's part");
    pthread_barrier_wait(&turn);
    if (thread == 0) {
        if (size > 0 && memcmp(shared, it->out, size * sizeof *shared))
            fail("other values in parts of several threads");
        free_guarded(shared, size);
    }
}

/* Answers a frame whole, and a part of it that is drawn. */
static void answer_both(size_t at, uint64_t *state)
{
    const struct frame *it = &frames[at];
    bool is_same;
    again(it, &is_same);
    if (!is_same)
        fail("another answer on another thread");
    size_t size = part_size(it, 0, SIZE_MAX);
    check_part_by(it, way_of(it, at), drawn(state, size + 1), (size_t)drawn(state, size + 2));
    calls += 2;
}

/* Answers all frames so many times, of which parts are drawn. */
static void answer_passes(uint64_t *state)
{
    for (uint64_t pass = 0; pass < pass_count; pass++)
        for (size_t at = 0; at < frame_count; at++)
            answer_both(at, state);
}

/* How much memory the process has, in KiB. */
static long resident(void)
{
    long pages = 0;
    FILE *file = fopen("/proc/self/statm", "r");
    if (!file || fscanf(file, "%*s %ld", &pages) != 1)
        fail("no /proc/self/statm");
    fclose(file);
    return 4 * pages;
}

/* Answers all frames with the other threads, and then alone in two rounds of the same passes. After
   each round all wait while the process's memory is looked at. */
static void *answer_on(void *number)
{
    uint64_t thread = (uint64_t)(uintptr_t)number;
    for (size_t at = 0; at < frame_count; at++)
        answer_together(&frames[at], thread);
    for (int round = 0; round < 2; round++) {
        uint64_t state = thread;
        answer_passes(&state);
        pthread_barrier_wait(&turn);
        if (thread == 0)
            memory[round] = resident();
        pthread_barrier_wait(&turn);
    }
    return NULL;
}

static void answer_on_threads(int count, int passes)
{
    pthread_t threads[MOST_THREADS];
    /* Large blocks go back to the system where they are freed, so what stays is what is held. */
    mallopt(M_MMAP_THRESHOLD, FROM_SYSTEM);
    thread_count = (uint64_t)count;
    pass_count = (uint64_t)passes;
    if (count > MOST_THREADS || passes < 1 || pthread_barrier_init(&turn, NULL, (unsigned)count))
        fail("no threads, or no passes");
    for (uint64_t i = 0; i < thread_count; i++)
        if (pthread_create(&threads[i], NULL, answer_on, (void *)(uintptr_t)i))
            fail("no thread");
    for (uint64_t i = 0; i < thread_count; i++)
        pthread_join(threads[i], NULL);
    printf("%llu calls on %d threads, %ld KiB more behind %d passes than behind as many before\n",
           calls, count, memory[1] - memory[0], passes);
}

/* A call of the library that is right, or finds no memory where that is refused. */
static void call_whole(const struct frame *it)
{
    bool is_same;
    int64_t result = again(it, &is_same);
    if (!is_same && (result != -15 || !was_refused))
        fail("another answer where memory is refused");
}

static void call_part_by(const struct frame *it, enum way way)
{
    size_t size = part_size(it, 0, SIZE_MAX);
    check_part_by(it, way, size / 3, size / 3 + 1);
}

static void call_part(const struct frame *it)
{
    call_part_by(it, JOINED);
}

static void call_arrays(const struct frame *it)
{
    call_part_by(it, APART);
}

static void call_run(const struct frame *it)
{
    call_part_by(it, PLANNED);
}

/* Refuses the first request for memory of a call, then the second, and so on. How many were. */
static size_t refuse_each(const struct frame *it, void (*call)(const struct frame *))
{
    for (size_t given = 0; given < MOST_RUNS; given++) {
        left = (int64_t)given;
        was_refused = false;
        call(it);
        left = -1;
        if (!was_refused)
            return given;
    }
    fail("no end of requests for memory");
    return 0;
}

static void refuse_all(void)
{
    size_t refusals = 0;
    for (size_t at = 0; at < frame_count; at++) {
        const struct frame *it = &frames[at];
        refusals += refuse_each(it, call_whole) + refuse_each(it, call_part);
        refusals += refuse_each(it, check_plan) + refuse_each(it, check_dims);
        refusals += refuse_each(it, check_explanation);
        if (it->has_arrays)
            refusals += refuse_each(it, call_arrays) + refuse_each(it, check_shared);
        if (it->plan)
            refusals += refuse_each(it, call_run);
    }
    printf("%zu requests for memory refused\n", refusals);
}

/* Spoils and mixes the plans of all frames. */
static void spoil_plans(uint64_t *state)
{
    size_t runs = 0;
    for (size_t at = 0; at < frame_count; at++)
        if (frames[at].plan) {
            runs += spoil_plan(&frames[at], state);
            mix_plans(&frames[at]);
        }
    if (runs == 0)
        fail("no plan was spoilt");
}

/* Prints how many bytes the library holds at most for a frame's answer: in one call that writes
   nothing before it has all, in one for a part that is the whole, and by the plan. */
static void print_peaks(struct frame *it)
{
    first_answer(it);
    first_plan(it);
    size_t room = part_size(it, 0, SIZE_MAX);
    int64_t *out = guarded(room), peaks[3];
    uint64_t dims[TENSOR_DIMS_ROOM];
    for (int way = 0; way < 3; way++) {
        most_bytes = bytes_held = 0;
        if ((way == 0 ? answer(it, out, room, dims)
                      : answer_part(it, way == 1 ? JOINED : PLANNED, 0, out, room)) != it->result)
            fail("another answer where bytes are counted");
        peaks[way] = most_bytes;
    }
    free_guarded(out, room);
    printf("%" PRId64 " %" PRId64 " %" PRId64 "\n", peaks[0], peaks[1], peaks[2]);
}

int main(int count, char **words)
{
    if (count < 2)
        fail("which frames?");
    read_frames(words[1]);
    read_arrays(words[1]);
    if (count == 3 && strcmp(words[2], "peaks") == 0) {
        for (size_t at = 0; at < frame_count; at++)
            print_peaks(&frames[at]);
        return 0;
    }
    uint64_t state = 1;
    for (size_t at = 0; at < frame_count; at++) {
        first_answer(&frames[at]);
        first_plan(&frames[at]);
        check_parts(&frames[at], &state);
        if (frames[at].has_arrays)
            check_shared(&frames[at]);
    }
    spoil_plans(&state);
    if (count == 4)
        answer_on_threads(atoi(words[2]), atoi(words[3]));
    else if (count == 3)
        refuse_all();
    else
        for (size_t at = 0; at < frame_count; at++)
            print(&frames[at]);
    return 0;
}
