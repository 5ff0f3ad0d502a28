/* Adds two arrays by the library: cc examples/c/add.c -Iinclude out/libtensor.a -o out/add
   (./build/library makes the library). Prints 11 22 33 of dims 3, and then the name of a fault. */

#include <inttypes.h>
#include <stdio.h>
#include <string.h>

#include "tensor.h"

/* Prints the tensor of a header and six values, or its fault. */
static void answer(const char *header)
{
    const int64_t values[6] = {1, 2, 3, 10, 20, 30};
    int64_t out[6];
    uint64_t dims[TENSOR_DIMS_ROOM];
    int64_t count = tensor_evaluate((const uint8_t *)header, strlen(header), values, 6, out, 6,
                                    dims, TENSOR_DIMS_ROOM);
    if (count < 0) {
        uint8_t name[TENSOR_NAME_ROOM];
        int64_t length = tensor_fault_name((uint32_t)-count, name, sizeof name);
        printf("fault %" PRId64 " %s\n", -count, length > 0 ? (const char *)name : "no room");
        return;
    }
    for (int64_t place = 0; place < count; place++)
        printf("%" PRId64 " ", out[place]);
    printf("of dims");
    for (uint64_t axis = 0; axis < dims[0]; axis++)
        printf(" %" PRIu64, dims[1 + axis]);
    printf("\n");
}

int main(void)
{
    if (tensor_version() != TENSOR_VERSION_NUMBER) {
        fprintf(stderr, "the library has version %" PRId64 ", the header %d\n", tensor_version(),
                TENSOR_VERSION_NUMBER);
        return 1;
    }
    answer("{\"version\":1,\"workers\":1,\"block\":1024,"
           "\"inputs\":{\"a\":{\"dims\":[3]},\"b\":{\"dims\":[3]}},"
           "\"expr\":[\"add\",\"a\",\"b\"]}");
    answer("{\"version\":1,\"workers\":1,\"block\":1024,"
           "\"inputs\":{\"a\":{\"dims\":[3]},\"b\":{\"dims\":[3]}},"
           "\"expr\":[\"add\",\"a\",\"c\"]}");
    return 0;
}
