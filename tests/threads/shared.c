/* A wrong library, laid over the entry by the linker's --wrap: the line goes
 * through one buffer that all threads share. The tests must find it. */
#include <sched.h>
#include <string.h>

#include "cetv.h"

size_t __real_cetv_value_block(const uint8_t *, size_t, uint32_t, uint8_t *, size_t);
size_t __wrap_cetv_value_block(const uint8_t *, size_t, uint32_t, uint8_t *, size_t);

static uint8_t shared[CETV_LINE_SIZE];

size_t __wrap_cetv_value_block(const uint8_t *block, size_t block_len, uint32_t place, uint8_t *out, size_t out_len)
{
    if (out_len < CETV_LINE_SIZE)
        return 0;
    size_t n = __real_cetv_value_block(block, block_len, place, shared, sizeof shared);
    /* So that another thread comes in between, on one processor too. */
    sched_yield();
    memcpy(out, shared, n);
    return n;
}
