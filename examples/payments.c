/* `payments FILE` shows what each block of a case file pays, in whole pence, or
 * why it pays nothing. */
#include <inttypes.h>
#include <stdio.h>

#include "cetv.h"
#include "read_line.h"

static int show(const uint8_t *block, size_t length, uint32_t place)
{
    uint8_t line[CETV_LINE_SIZE];
    struct line_answer answer;
    size_t n = cetv_value_block(block, length, place, line, sizeof line);
    switch (read_line(line, n, &answer)) {
    case LINE_PAYMENT:
        printf("block %" PRIu32 ", case %" PRIu32 ": %" PRIu64 "p\n", place, answer.case_number, answer.pay);
        return 1;
    case LINE_REFUSAL:
        printf("block %" PRIu32 ", case %" PRIu32 ": refusal %d, %s\n", place, answer.case_number, answer.refusal, answer.name);
        return 1;
    default:
        fprintf(stderr, "block %" PRIu32 ": the library's line cannot be read\n", place);
        return 0;
    }
}

int main(int argc, char **argv)
{
    if (argc != 2) {
        fputs("usage: payments FILE\n", stderr);
        return 1;
    }
    if (cetv_version() != CETV_VERSION) {
        fputs("the library is not of version " CETV_VERSION_TEXT "\n", stderr);
        return 1;
    }
    FILE *file = fopen(argv[1], "rb");
    uint8_t block[CETV_BLOCK_SIZE];
    size_t length;
    int ok = file != NULL;
    for (uint32_t place = 1; ok && (length = fread(block, 1, sizeof block, file)) != 0 && !ferror(file); place++)
        ok = show(block, length, place);
    if (!file || ferror(file)) {
        perror(argv[1]);
        ok = 0;
    }
    if (file)
        fclose(file);
    return ok ? 0 : 1;
}
