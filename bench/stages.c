/* Where the time goes: the stages of the way of a block, each timed with those
 * before it, on the blocks of a file that is held in memory. The time is the
 * processor's, the best of the rounds, in which the stages take turns. */
#include "timing.h"

uint32_t stages_check(const uint8_t *block, size_t length);
uint32_t stages_read(const uint8_t *block, size_t length);
uint64_t stages_value(const uint8_t *block, size_t length);

static uint64_t kept;

static void stage(int which, const uint8_t *b)
{
    uint8_t line[CETV_LINE_SIZE];
    switch (which) {
    case 0: kept += stages_check(b, CETV_BLOCK_SIZE); break;
    case 1: kept += stages_read(b, CETV_BLOCK_SIZE); break;
    case 2: kept += stages_value(b, CETV_BLOCK_SIZE); break;
    default: kept += cetv_value_block(b, CETV_BLOCK_SIZE, 1, line, sizeof line); break;
    }
}

int main(int argc, char **argv)
{
    if (argc != 2)
        return 1;
    size_t blocks;
    const uint8_t *data = blocks_of(argv[1], &blocks);
    static const char *const names[4] = {"check", "reading", "valuing", "forming"};
    double best[4] = {1e9, 1e9, 1e9, 1e9};
    for (int round = 0; round < ROUNDS; round++)
        for (int which = 0; which < 4; which++) {
            double start = now();
            for (size_t i = 0; i < blocks; i++)
                stage(which, data + CETV_BLOCK_SIZE * i);
            double took = (now() - start) / (double)blocks * 1e9;
            best[which] = took < best[which] ? took : best[which];
        }
    for (int which = 0; which < 4; which++)
        printf("  %-8s %4.0f ns a block\n", names[which], best[which] - (which ? best[which - 1] : 0));
    return kept == 0;
}
