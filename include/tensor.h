/* Tensor expressions over wrapping 64-bit integers: arrays in, arrays out, in the calling process.

   A frame is a header and values. The header is the text of a request (docs/REQUEST.md) in which each
   tensor is an object with the one field `dims`:

     {"version":1,"workers":1,"block":1024,"inputs":{"a":{"dims":[2]},"b":{"dims":[2]}},
      "expr":["add","a","b"]}

   The values are the values of all tensors, one tensor after the other. The tensors come in the order
   of their names, compared byte by byte. Each tensor is column-major: the first index changes fastest.
   The version may also be 3 (docs/FRAMES.md), which has larger tensors and more operations.

   A frame has the answer, or the fault, of the request text that holds the values as `data`, without
   the limit on the length of a text. A call does all its work on the calling thread, except the calls of
   a pool, whose threads take parts. `workers` and `block` are checked, and change nothing.

   What a caller must do:
   - Each pointer points to as many elements as its length says, aligned for their type. If the length
     is 0, the pointer may be null. No list has 2^63 bytes or more: the lengths of `values`, `out`,
     `dims` and `plan` are below 2^60, and the number of `arrays` is below 2^59.
   - What a call writes (`out`, `dims`, `name`, `text`, and `plan` of tensor_prepare) overlaps nothing
     else that the call is given. No other thread reads or writes it during the call. No thread writes what
     the call reads.
   - Any number of threads may call at the same time. A signal handler must not call. The forked child of
     a process with threads may call if it may call malloc, as with the GNU C library.
   - The processor has all instructions of x86-64-v2, or of x86-64-v3 if the library was built for it.
     The library does not check this.
   - malloc, realloc and free of the program belong to one allocator, as in the C library.
   - The calling thread has TENSOR_STACK bytes of stack left. The library does not check this. No proof
     says how much stack a call takes: tests measure it.

   The library itself does not take null pointers; the inline functions at the end of this file replace
   them. A caller from another language, or by the address of a function, must pass a valid address for
   an empty list.

   Link libtensor.a or libtensor.so, and nothing else: cc program.c -Iinclude out/libtensor.a
   With a GNU C library before 2.34 libtensor.a also needs -pthread. */

#ifndef TENSOR_H
#define TENSOR_H

#include <stddef.h>
#include <stdint.h>
#include <stdlib.h>

#ifdef __cplusplus
extern "C" {
#endif

/* The version of the library, as the file VERSION has it; and as one number, 3002001 for 3.2.1. */
#define TENSOR_VERSION "4.1.0"
#define TENSOR_VERSION_NUMBER 4001000

/* The most values of a tensor of version 3, and so of an answer. In versions 1 and 2 a tensor has at
   most 1,048,576 values. */
#define TENSOR_MOST_VALUES 268435456

/* The most numbers that are written to `dims`: the rank, and up to 8 dimensions. */
#define TENSOR_DIMS_ROOM 9

/* The most bytes of the name of a fault, including the 0 at its end. */
#define TENSOR_NAME_ROOM 16

/* The most bytes that tensor_explain writes about a header of this length, including the 0 at the end. */
#define TENSOR_TEXT_ROOM(header_length) (1024 + 8 * (size_t)(header_length))

/* The most numbers of a plan over `tensors` tensors. */
#define TENSOR_PLAN_ROOM(tensors) (190004 + 9 * (size_t)(tensors))

/* How many bytes of stack are enough for any call. The deepest request takes half of them, and `add` of
   two tensors less than a tenth. */
#define TENSOR_STACK 1048576

/* Returned if `out`, `dims`, `name`, `text` or `plan` is too short. */
#define TENSOR_NO_ROOM (-100)

/* Returned if the numbers of `plan` are not a plan. */
#define TENSOR_NO_PLAN (-101)

/* Returned if an allocation failed: fault 15. */
#define TENSOR_NO_MEMORY (-15)

/* The values of one tensor, in the caller's memory. */
struct tensor_array {
    const int64_t *values;
    size_t length;
};

/* Evaluates a frame. Writes the values of the answer to `out`, and its rank and then its dimensions to
   `dims`. Returns the number of values. If the frame has a fault, it returns the number of the fault,
   negated (-1 to -15, docs/REQUEST.md). If `out` or `dims` is too short, it returns TENSOR_NO_ROOM. In
   both cases it writes nothing. It changes nothing behind what it writes. */
int64_t tensor_evaluate(const uint8_t *header, size_t header_length,
                        const int64_t *values, size_t values_length,
                        int64_t *out, size_t out_length,
                        uint64_t *dims, size_t dims_length);

/* Evaluates a part of a frame: writes the values of the answer from place `first` on to `out`, as many
   as there are and as fit. Returns how many it wrote, which is 0 if `first` is behind the last value.
   Faults are returned as by tensor_evaluate, and then nothing is written; but if an allocation fails
   (-15), `out` may hold anything. It changes nothing behind what it writes.

   Calls with equal headers and values are parts of one answer. A call from place 0 with room for n
   values, a call from place n, and so on up to the number of values that tensor_dims returns, together
   write what tensor_evaluate writes, on whatever threads and in whatever order they are made. So
   threads of the caller can share one answer, each with a range of one list, and so do the threads of a
   pool. No further list of the values is made.

   Each part reads the header again, and computes again what tensor_shared counts. */
int64_t tensor_evaluate_part(const uint8_t *header, size_t header_length,
                             const int64_t *values, size_t values_length,
                             uint64_t first, int64_t *out, size_t out_length);

/* Evaluates a part of a frame whose tensors lie in separate arrays, which come in the order of the
   names. If each array has as many values as its tensor has places, the answer is the answer of the
   frame with all arrays joined. Other lengths, and more or fewer arrays than tensors, are fault 7.
   More values in all than a frame may have are fault 1. `count` of tensor_dims is the number of values
   of all arrays together. */
int64_t tensor_evaluate_arrays(const uint8_t *header, size_t header_length,
                               const struct tensor_array *arrays, size_t count,
                               uint64_t first, int64_t *out, size_t out_length);

/* Returns how many values each part of an answer computes again before its own first value, for
   tensor_evaluate_arrays, tensor_evaluate_part and tensor_run. It computes none of them, and does not
   read the values of the arrays. Faults are returned as by tensor_evaluate_arrays.

   These values are counted:
   - all values of each reduction, contraction, convolution, cumsum, cumprod, argmax, argmin and take
     below the outermost operation;
   - all values of each operand of such an operation, also of an outermost one, unless the operand is a
     list already: an input, one of these operations, or a reshape of such a list. An operand of a
     contraction may also be any movement of a list. The operand of an outermost reduction along the
     first axes of an operation on values is counted, though a part computes only its own share;
   - all values of each tensor that a `let` names, and what lies below its outermost operation.

   These values are not counted: up to 32,768 values that a movement repeats, what a contraction packs,
   and what a part of an outermost cumsum or cumprod reads before its own places.

   Parts pay if this count is small beside the number of values of a part, or beside the number of
   products of a contraction or convolution. So they pay for operations on values and movements of
   inputs, for reductions, argmax and argmin of an input to many values, and for cumsum, cumprod, take,
   contractions and convolutions of inputs. */
int64_t tensor_shared(const uint8_t *header, size_t header_length,
                      const struct tensor_array *arrays, size_t count);

/* Writes the plan of a header whose tensors have `count` values together. Returns how many numbers the
   plan has: 16 for `add` of two tensors with one axis. Faults and TENSOR_NO_ROOM are returned as by
   tensor_evaluate, and then nothing is written.

   A plan is a header that is read and checked: the dims of the tensors and the expressions, as numbers
   in the caller's memory. It is not a handle, owns nothing, and need not be freed. It may be copied.
   Any number of threads may run one plan as long as no thread writes it. A plan is valid for this
   version of the library (tensor_version) and this kind of machine.

   tensor_prepare takes no values. Its memory grows with the length of the header, and not with `count`. */
int64_t tensor_prepare(const uint8_t *header, size_t header_length, uint64_t count,
                       uint64_t *plan, size_t plan_length);

/* Evaluates a part as tensor_evaluate_arrays does, with a plan in place of the header, and reads no
   text. The arrays come in the order of the names. `plan_length` is what tensor_prepare returned. If
   there are more or fewer arrays than tensors, or an array has another length than its tensor, it
   returns -7. If an allocation fails, it returns -15. A plan has no other fault, because its header had
   none. If the numbers are not a plan, it returns TENSOR_NO_PLAN, -7 or -15, and TENSOR_NO_PLAN if the
   first four numbers are not those of a plan. In all these cases it writes nothing, with one exception:
   after -15 for a plan `out` may hold anything. Whatever the numbers are,
   it reads and writes nothing but the lists of this call. If they are the plan of another header, it
   evaluates that header. */
int64_t tensor_run(const uint64_t *plan, size_t plan_length,
                   const struct tensor_array *arrays, size_t count,
                   uint64_t first, int64_t *out, size_t out_length);

/* Writes the rank and the dimensions of the answer to a frame with this header and `count` values.
   Returns the number of values of the answer, and computes none of them. Faults and TENSOR_NO_ROOM are
   returned as by tensor_evaluate. Its memory does not grow with `count`. */
int64_t tensor_dims(const uint8_t *header, size_t header_length, uint64_t count,
                    uint64_t *dims, size_t dims_length);

/* Does what tensor_dims does for tensors in separate arrays, as tensor_evaluate_arrays takes them. It
   reads no value, and its memory does not grow with the number of values. */
int64_t tensor_dims_of_arrays(const uint8_t *header, size_t header_length,
                              const struct tensor_array *arrays, size_t count,
                              uint64_t *dims, size_t dims_length);

/* Writes lines about a frame with this header and `count` values, with a 0 at their end. If the frame has a
   fault, the lines say its number and name, its place in the header, and the reason:

     error 12 ShapeMismatch
     at /expr/1: the operands of "add" must have the same dims; they have [2] and [3]

   If it has none, the first line is `no fault`, and the second line has the dimensions of the answer.
   docs/REQUEST.md says more of the place. Returns how many bytes the lines have, or TENSOR_NO_ROOM if `text`
   is too short. If an allocation fails, it returns -15. In the last two cases it writes nothing. It reads no
   values, and its memory does not grow with `count`. */
int64_t tensor_explain(const uint8_t *header, size_t header_length, uint64_t count,
                       uint8_t *text, size_t text_length);

/* Writes the name of the fault `number`, from 1 to 15, with a 0 at its end. Returns how many bytes the
   name has, 0 if no fault has this number, or TENSOR_NO_ROOM if `name` is too short. In the last two
   cases it writes nothing. */
int64_t tensor_fault_name(uint32_t number, uint8_t *name, size_t name_length);

/* Returns the version of the library as one number. It is TENSOR_VERSION_NUMBER if the library and this
   header have one version. A program that stores plans stores this number with them. */
int64_t tensor_version(void);

/* A pool of threads, which evaluate parts of answers for their callers (include/tensor_pool.c). */
struct tensor_pool;

/* The most workers of a pool, and the most parts of an answer. */
#define TENSOR_MOST_WORKERS 256
#define TENSOR_MOST_PARTS 256

/* Opens a pool of `workers` workers, and returns it. A calling thread is a worker, so one thread less is
   started. If a thread cannot be started, the pool has fewer workers: this is no fault. More than
   TENSOR_MOST_WORKERS are not started. Returns null if 64 pools are open. A call on a null pool is right.

   The library owns the pool, and the caller closes it. The threads have the stack size that pthread_create
   gives (`ulimit -s`): it has to be TENSOR_STACK or more. They run no signal handler. A thread without
   parts spins for some microseconds, and then sleeps. */
struct tensor_pool *tensor_pool_open(size_t workers);

/* Does what tensor_run does, in at most `parts` parts. The threads of the pool take some parts, and the
   calling thread takes the others. A part that failed on another thread is evaluated again on the calling
   thread. Faults are returned as by tensor_run; but if an allocation fails (-15), `out` may hold anything.

   If `parts` is 1, no other thread takes part, and more than TENSOR_MOST_PARTS parts are not made. If
   `parts` is 0, there is a part for each 32,768 values of `out_length`, and at most one for each worker.
   Parts do not pay if each computes much again (tensor_shared), which a plan does not say: then pass 1.
   For an operation that combines many values into one, name a number of parts.

   Any number of threads may call on one pool at the same time. The threads of the pool take parts of the
   oldest call first, and no call waits for another one. A call needs 3 KiB of stack more than tensor_run.
   A call on a null pool or on a closed pool is evaluated on the calling thread. So is a call in a forked
   child, where the pools of its parent have no threads: the child may open a pool of its own. */
int64_t tensor_pool_run(struct tensor_pool *pool, const uint64_t *plan, size_t plan_length,
                        const struct tensor_array *arrays, size_t count,
                        uint64_t first, int64_t *out, size_t out_length, size_t parts);

/* Does what tensor_evaluate_arrays does, in parts as tensor_pool_run makes them. If `parts` is 0, each part
   also has at least as many values as tensor_shared counts. */
int64_t tensor_pool_evaluate_arrays(struct tensor_pool *pool,
                                    const uint8_t *header, size_t header_length,
                                    const struct tensor_array *arrays, size_t count,
                                    uint64_t first, int64_t *out, size_t out_length, size_t parts);

/* Closes a pool, and returns after its threads have ended. Other threads may call on the pool meanwhile and
   later: each call evaluates the parts that no thread has taken. A null pool, a closed pool, and in a
   forked child a pool of the parent stay as they are. tensor_pool_open may return the address of a closed
   pool again, so close a pool once. Close all pools before the library is unloaded. */
void tensor_pool_close(struct tensor_pool *pool);

/* The functions below replace null pointers of empty lists by a valid address. */
static inline void *tensor_place(const void *list, size_t length)
{
    static uint64_t nothing;
    return length == 0 ? (void *)&nothing : (void *)(uintptr_t)list;
}

/* Returns these arrays; or, if an empty array is null, a copy in which it is not, or null if there is no
   memory for the copy. */
static inline struct tensor_array *tensor_places(struct tensor_array *arrays, size_t count)
{
    struct tensor_array *copy;
    size_t at = 0;
    while (at < count && (arrays[at].values != NULL || arrays[at].length > 0))
        at++;
    if (at == count)
        return arrays;
    copy = (struct tensor_array *)malloc(count * sizeof *copy);
    for (at = 0; copy != NULL && at < count; at++) {
        copy[at].values = (const int64_t *)tensor_place(arrays[at].values, arrays[at].length);
        copy[at].length = arrays[at].length;
    }
    return copy;
}

static inline int64_t tensor_evaluate_nullable(const uint8_t *header, size_t header_length,
                                               const int64_t *values, size_t values_length,
                                               int64_t *out, size_t out_length,
                                               uint64_t *dims, size_t dims_length)
{
    return tensor_evaluate((const uint8_t *)tensor_place(header, header_length), header_length,
                           (const int64_t *)tensor_place(values, values_length), values_length,
                           (int64_t *)tensor_place(out, out_length), out_length,
                           (uint64_t *)tensor_place(dims, dims_length), dims_length);
}

static inline int64_t tensor_evaluate_part_nullable(const uint8_t *header, size_t header_length,
                                                    const int64_t *values, size_t values_length,
                                                    uint64_t first, int64_t *out, size_t out_length)
{
    return tensor_evaluate_part((const uint8_t *)tensor_place(header, header_length), header_length,
                                (const int64_t *)tensor_place(values, values_length), values_length,
                                first, (int64_t *)tensor_place(out, out_length), out_length);
}

static inline int64_t tensor_evaluate_arrays_nullable(
    const uint8_t *header, size_t header_length, const struct tensor_array *arrays, size_t count,
    uint64_t first, int64_t *out, size_t out_length)
{
    struct tensor_array *given = (struct tensor_array *)tensor_place(arrays, count);
    struct tensor_array *all = tensor_places(given, count);
    int64_t result = TENSOR_NO_MEMORY;
    if (all != NULL)
        result = tensor_evaluate_arrays((const uint8_t *)tensor_place(header, header_length),
                                        header_length, all, count, first,
                                        (int64_t *)tensor_place(out, out_length), out_length);
    if (all != given)
        free(all);
    return result;
}

static inline int64_t tensor_shared_nullable(const uint8_t *header, size_t header_length,
                                             const struct tensor_array *arrays, size_t count)
{
    struct tensor_array *given = (struct tensor_array *)tensor_place(arrays, count);
    struct tensor_array *all = tensor_places(given, count);
    int64_t result = TENSOR_NO_MEMORY;
    if (all != NULL)
        result = tensor_shared((const uint8_t *)tensor_place(header, header_length), header_length,
                               all, count);
    if (all != given)
        free(all);
    return result;
}

static inline int64_t tensor_prepare_nullable(const uint8_t *header, size_t header_length,
                                              uint64_t count, uint64_t *plan, size_t plan_length)
{
    return tensor_prepare((const uint8_t *)tensor_place(header, header_length), header_length,
                          count, (uint64_t *)tensor_place(plan, plan_length), plan_length);
}

static inline int64_t tensor_run_nullable(const uint64_t *plan, size_t plan_length,
                                          const struct tensor_array *arrays, size_t count,
                                          uint64_t first, int64_t *out, size_t out_length)
{
    struct tensor_array *given = (struct tensor_array *)tensor_place(arrays, count);
    struct tensor_array *all = tensor_places(given, count);
    int64_t result = TENSOR_NO_MEMORY;
    if (all != NULL)
        result = tensor_run((const uint64_t *)tensor_place(plan, plan_length), plan_length, all,
                            count, first, (int64_t *)tensor_place(out, out_length), out_length);
    if (all != given)
        free(all);
    return result;
}

static inline int64_t tensor_dims_nullable(const uint8_t *header, size_t header_length,
                                           uint64_t count, uint64_t *dims, size_t dims_length)
{
    return tensor_dims((const uint8_t *)tensor_place(header, header_length), header_length,
                       count, (uint64_t *)tensor_place(dims, dims_length), dims_length);
}

static inline int64_t tensor_dims_of_arrays_nullable(
    const uint8_t *header, size_t header_length, const struct tensor_array *arrays, size_t count,
    uint64_t *dims, size_t dims_length)
{
    struct tensor_array *given = (struct tensor_array *)tensor_place(arrays, count);
    struct tensor_array *all = tensor_places(given, count);
    int64_t result = TENSOR_NO_MEMORY;
    if (all != NULL)
        result = tensor_dims_of_arrays((const uint8_t *)tensor_place(header, header_length),
                                       header_length, all, count,
                                       (uint64_t *)tensor_place(dims, dims_length), dims_length);
    if (all != given)
        free(all);
    return result;
}

static inline int64_t tensor_explain_nullable(const uint8_t *header, size_t header_length,
                                              uint64_t count, uint8_t *text, size_t text_length)
{
    return tensor_explain((const uint8_t *)tensor_place(header, header_length), header_length,
                          count, (uint8_t *)tensor_place(text, text_length), text_length);
}

static inline int64_t tensor_fault_name_nullable(uint32_t number, uint8_t *name, size_t name_length)
{
    return tensor_fault_name(number, (uint8_t *)tensor_place(name, name_length), name_length);
}

#define tensor_evaluate(...) tensor_evaluate_nullable(__VA_ARGS__)
#define tensor_evaluate_part(...) tensor_evaluate_part_nullable(__VA_ARGS__)
#define tensor_evaluate_arrays(...) tensor_evaluate_arrays_nullable(__VA_ARGS__)
#define tensor_shared(...) tensor_shared_nullable(__VA_ARGS__)
#define tensor_prepare(...) tensor_prepare_nullable(__VA_ARGS__)
#define tensor_run(...) tensor_run_nullable(__VA_ARGS__)
#define tensor_dims(...) tensor_dims_nullable(__VA_ARGS__)
#define tensor_dims_of_arrays(...) tensor_dims_of_arrays_nullable(__VA_ARGS__)
#define tensor_explain(...) tensor_explain_nullable(__VA_ARGS__)
#define tensor_fault_name(...) tensor_fault_name_nullable(__VA_ARGS__)

#ifdef __cplusplus
}
#endif

#endif
