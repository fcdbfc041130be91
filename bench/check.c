/* The check of 100,000 blocks, a byte at a time and a word at a time. By bytes
 * is stages_check_by_bytes, the sum as it is defined, kept for this comparison
 * alone; by words is stages_check, the one that reading goes by. The time is
 * the processor's, the best of the rounds, in which the two take turns. Where
 * two numbers differ, the block is named and nothing is timed. */
#include "timing.h"

uint32_t stages_check(const uint8_t *block, size_t length);
uint32_t stages_check_by_bytes(const uint8_t *block, size_t length);

#define MOST 100000
#define FEW 32

/* Times both over the blocks, gone through so many times in a round. */
static void compare(const char *where, const uint8_t *data, size_t blocks, size_t times)
{
    uint32_t (*const checks[2])(const uint8_t *, size_t) = {stages_check_by_bytes, stages_check};
    double best[2] = {1e9, 1e9};
    volatile uint32_t kept = 0;
    for (int round = 0; round < ROUNDS; round++)
        for (int which = 0; which < 2; which++) {
            uint32_t sum = 0;
            double start = now();
            for (size_t t = 0; t < times; t++)
                for (size_t i = 0; i < blocks; i++)
                    sum += checks[which](data + CETV_BLOCK_SIZE * i, CETV_BLOCK_SIZE);
            double took = now() - start;
            best[which] = took < best[which] ? took : best[which];
            kept += sum;
        }
    double each = 1e9 / (double)(blocks * times);
    printf("  %s: by bytes %.1f ms (%.0f ns a block), by words %.1f ms (%.0f ns), %.1f times as fast\n", where,
        best[0] * 1e3, best[0] * each, best[1] * 1e3, best[1] * each, best[0] / best[1]);
}

int main(int argc, char **argv)
{
    if (argc != 2)
        return 1;
    size_t blocks;
    const uint8_t *data = blocks_of(argv[1], &blocks);
    blocks = blocks < MOST ? blocks : MOST;
    for (size_t i = 0; i < blocks; i++)
        if (stages_check(data + CETV_BLOCK_SIZE * i, CETV_BLOCK_SIZE) != stages_check_by_bytes(data + CETV_BLOCK_SIZE * i, CETV_BLOCK_SIZE)) {
            printf("block %zu: the check by words differs from that by bytes\n", i + 1);
            return 1;
        }
    printf("the check of %zu blocks, by bytes and by words the same number for each:\n", blocks);
    compare("one block after another", data, blocks, 1);
    if (blocks >= FEW)
        compare("from cache, the first 32 over and over", data, FEW, blocks / FEW);
    return 0;
}
