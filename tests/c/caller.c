/* Calls the library as a case system would: `caller FILE` reads blocks from a
 * file and shows their lines; `caller` alone tests the entry. */
#include <stdio.h>
#include <stdlib.h>
#include <string.h>

#include "cetv.h"

static int failures;

static void expect(int holds, const char *what)
{
    if (!holds) {
        printf("not so: %s\n", what);
        failures++;
    }
}

static void put(uint8_t *block, size_t at, size_t width, uint64_t value)
{
    for (size_t i = 0; i < width; i++)
        block[at + i] = (uint8_t)(value >> (8 * i));
}

static void put_date(uint8_t *block, size_t at, unsigned year, unsigned month, unsigned day)
{
    put(block, at, 2, year);
    block[at + 2] = (uint8_t)month;
    block[at + 3] = (uint8_t)day;
}

static void put_check(uint8_t *block)
{
    uint32_t sum = 0;
    for (uint32_t i = 0; i < CETV_AT_CHECK; i++)
        sum += (i + 1) * block[i];
    put(block, CETV_AT_CHECK, 4, sum);
}

/* A deferred member with one line, and a defined benefit scheme to go to. */
static void start(uint8_t *block, enum cetv_kind kind, uint32_t case_number, unsigned months, uint32_t revaluation)
{
    memset(block, 0, CETV_BLOCK_SIZE);
    put(block, CETV_AT_KIND, 2, kind);
    put(block, CETV_AT_CASE_NUMBER, 4, case_number);
    block[CETV_AT_STATUS] = CETV_STATUS_DEFERRED;
    block[CETV_AT_RECEIVING_SCHEME] = CETV_RECEIVING_DEFINED_BENEFIT;
    block[CETV_AT_COUNT] = 1;
    put(block, CETV_AT_SERVICE, 2, months);
    put(block, CETV_AT_REVALUATION, 4, revaluation);
}

/* Example B of the 2015 scheme's note. */
static void example_b(uint8_t *block)
{
    start(block, CETV_KIND_2015, 2, 29, 10660);
    put_date(block, CETV_AT_BIRTH, 1977, 8, 7);
    put_date(block, CETV_AT_LEAVING, 2017, 9, 1);
    put_date(block, CETV_AT_GUARANTEE, 2020, 12, 1);
    put_date(block, CETV_AT_PENSION_DATE(1), 2045, 1, 6);
    put(block, CETV_AT_PENSION(1), 8, 250000);
    put(block, CETV_AT_SURVIVORS_PENSION(1), 8, 84375);
    put_check(block);
}

static const char line_b[] =
    "2 2 pay 25900.81 pension 24704.5500 lump 0.0000 survivor 1196.2552 deduct 0.0000 underpin 0.00 avc 0.00\n";

/* Example D of the note for the older sections: a Choice Optant of the 2008
 * section. */
static void example_d(uint8_t *block)
{
    start(block, CETV_KIND_2008, 3, 120, 11700);
    block[CETV_AT_FLAGS] = CETV_FLAG_CHOICE_OPTANT;
    block[CETV_AT_SEX] = CETV_SEX_MALE;
    put_date(block, CETV_AT_BIRTH, 1969, 5, 1);
    put_date(block, CETV_AT_LEAVING, 2012, 4, 1);
    put_date(block, CETV_AT_GUARANTEE, 2020, 1, 1);
    put(block, CETV_AT_PENSION(1), 8, 1087500);
    put(block, CETV_AT_SURVIVORS_PENSION(1), 8, 506300);
    put(block, CETV_AT_LUMP_SUM(1), 8, 3150000);
    put_check(block);
}

static const char line_d[] =
    "3 3 pay 198188.62 pension 163372.9500 lump 26167.0500 survivor 8648.6166 deduct 0.0000 underpin 0.00 avc 0.00\n";

/* Every amount of kind 2 and the revaluation factor at its limit, on lines 4, 3,
 * 2 and 1 years ahead: factors 15.72, 16.24, 16.65 and 17.08 for the pension,
 * 1.61 and three times 1.60 for the survivor's pension. */
static void largest(uint8_t *block)
{
    start(block, CETV_KIND_2015, UINT32_MAX, 65535, CETV_MAX_REVALUATION);
    block[CETV_AT_FLAGS] = CETV_FLAG_TRANSFER_IN;
    block[CETV_AT_COUNT] = CETV_MAX_LINES;
    put_date(block, CETV_AT_BIRTH, 1959, 12, 1);
    put_date(block, CETV_AT_LEAVING, 2017, 9, 1);
    put_date(block, CETV_AT_GUARANTEE, 2020, 12, 1);
    put(block, CETV_AT_AVC, 8, CETV_MAX_AMOUNT);
    put(block, CETV_AT_TRANSFER_IN, 8, CETV_MAX_AMOUNT);
    put(block, CETV_AT_CONTRIBUTIONS, 8, CETV_MAX_AMOUNT);
    put(block, CETV_AT_ADDITIONAL_PENSION(1), 8, CETV_MAX_AMOUNT);
    put(block, CETV_AT_DEPENDANTS_ADDITIONAL_PENSION(1), 8, CETV_MAX_AMOUNT);
    for (unsigned n = 1; n <= CETV_MAX_LINES; n++) {
        put_date(block, CETV_AT_PENSION_DATE(n), 2025 - n, 12, 1);
        put(block, CETV_AT_PENSION(n), 8, CETV_MAX_AMOUNT);
        put(block, CETV_AT_SURVIVORS_PENSION(n), 8, CETV_MAX_AMOUNT);
    }
    put_check(block);
}

static const char line_largest[] =
    "4294967295 4294967295 pay 8953000000.00 pension 8141000000.0000 lump 0.0000 survivor 802000000.0000 deduct 0.0000"
    " underpin 20000000.00 avc 10000000.00\n";

/* The line for a block in a buffer of a size, with canary bytes around it. */
static void formed(const char *what, const uint8_t *block, size_t length, uint32_t place, size_t size, const char *line)
{
    uint8_t room[1024];
    memset(room, 0xA5, sizeof room);
    size_t n = cetv_value_block(block, length, place, room + 64, size);
    size_t want = size < CETV_LINE_SIZE ? 0 : strlen(line);
    expect(n == want, what);
    if (want != 0)
        expect(memcmp(room + 64, line, want) == 0, what);
    for (size_t i = 0; i < sizeof room; i++)
        if (i < 64 || i >= 64 + want)
            expect(room[i] == 0xA5, what);
}

static void lengths(void)
{
    uint8_t block[600];
    memset(block, 0, sizeof block);
    example_b(block);
    uint8_t before[CETV_BLOCK_SIZE];
    memcpy(before, block, sizeof before);

    formed("a block and a buffer of 256 bytes", block, 512, 2, 256, line_b);
    formed("a longer buffer", block, 512, 2, 700, line_b);
    for (size_t size = 0; size < 256; size++)
        formed("a buffer that is too short", block, 512, 2, size, line_b);
    expect(memcmp(before, block, sizeof before) == 0, "the block is only read");

    formed("NULL of length 0", NULL, 0, 4294967295u, 256, "4294967295 0 refused 1 length\n");
    formed("no bytes", block, 0, 0, 256, "0 0 refused 1 length\n");
    formed("a block that is too short", block, 511, 1, 256, "1 0 refused 1 length\n");
    formed("a block that is too long", block, 513, 1, 256, "1 0 refused 1 length\n");
    expect(cetv_value_block(block, 512, 1, NULL, 0) == 0, "a NULL buffer of length 0");
    expect(cetv_value_block(NULL, 0, 1, NULL, 0) == 0, "NULL for both");
}

static void cases(void)
{
    uint8_t block[CETV_BLOCK_SIZE];
    example_b(block);
    block[CETV_AT_STATUS] = 9;
    formed("a damaged byte", block, 512, 3, 256, "3 0 refused 2 check\n");
    put_check(block);
    formed("a status that is not listed", block, 512, 3, 256, "3 0 refused 5 range\n");
    block[CETV_AT_STATUS] = CETV_STATUS_ACTIVE;
    put_check(block);
    formed("an active member", block, 512, 3, 256, "3 2 refused 7 status\n");

    example_d(block);
    formed("a Choice Optant", block, 512, 3, 256, line_d);
    block[CETV_AT_SEX] = CETV_SEX_FEMALE;
    put_check(block);
    formed("a woman of the same age", block, 512, 3, 256, line_d);
    block[CETV_AT_SEX] = 3;
    put_check(block);
    formed("a sex that is not listed", block, 512, 3, 256, "3 0 refused 5 range\n");
    block[CETV_AT_FLAGS] = 0;
    put_check(block);
    formed("that sex, and a lump sum of one who is no Choice Optant", block, 512, 3, 256, "3 0 refused 4 reserved\n");
    block[CETV_AT_SEX] = CETV_SEX_MALE;
    put_check(block);
    formed("a lump sum of one who is no Choice Optant", block, 512, 3, 256, "3 0 refused 4 reserved\n");
    largest(block);
    formed("the largest amounts of kind 2", block, 512, 4294967295u, 256, line_largest);
    memset(block, 0, sizeof block);
    formed("a block of zeros", block, 512, 3, 256, "3 0 refused 3 kind\n");
}

/* A last block of a file may be short: it is handed over as it is. */
static int show(const char *name)
{
    FILE *file = fopen(name, "rb");
    if (!file) {
        perror(name);
        return 1;
    }
    uint8_t block[CETV_BLOCK_SIZE], line[CETV_LINE_SIZE];
    size_t got;
    for (uint32_t place = 1; (got = fread(block, 1, sizeof block, file)) != 0; place++) {
        size_t n = cetv_value_block(block, got, place, line, sizeof line);
        fwrite(line, 1, n, stdout);
    }
    int failed = ferror(file);
    fclose(file);
    return failed ? 1 : 0;
}

int main(int argc, char **argv)
{
    if (argc == 2)
        return show(argv[1]);
    expect(cetv_version() == CETV_VERSION, "header and library are of one version");
    lengths();
    cases();
    printf("C caller: %s\n", failures == 0 ? "all as expected" : "FAILED");
    return failures == 0 ? 0 : 1;
}
