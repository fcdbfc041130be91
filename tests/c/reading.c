/* Tests examples/read_line.h: `reading REFUSALS`, a file with the number and
 * name of each refusal, one to a line. Whatever is taken for a line must be the
 * line that is written from its reading, byte for byte. */
#include <inttypes.h>
#include <stdio.h>
#include <stdlib.h>
#include <string.h>

#include "cetv.h"
#include "../../examples/read_line.h"

static int failures;
static unsigned long readings;

static void expect(int holds, const char *what, const char *line)
{
    if (!holds && failures++ < 20)
        printf("not so: %s: %s\n", what, line);
}

/* The line of a reading. */
static int write_line(char *text, size_t size, enum line_form form, const struct line_answer *a)
{
    int n = snprintf(text, size, "%" PRIu32 " %" PRIu32, a->place, a->case_number);
    if (form == LINE_REFUSAL)
        return n + snprintf(text + n, size - (size_t)n, " refused %d %s\n", a->refusal, a->name);
    const uint64_t pence = 100, parts = 10000;
    return n + snprintf(text + n, size - (size_t)n,
        " pay %" PRIu64 ".%02" PRIu64 " pension %" PRIu64 ".%04" PRIu64 " lump %" PRIu64 ".%04" PRIu64
        " survivor %" PRIu64 ".%04" PRIu64 " deduct %" PRIu64 ".%04" PRIu64
        " underpin %" PRIu64 ".%02" PRIu64 " avc %" PRIu64 ".%02" PRIu64 "\n",
        a->pay / pence, a->pay % pence, a->pension / parts, a->pension % parts, a->lump / parts, a->lump % parts,
        a->survivor / parts, a->survivor % parts, a->deduct / parts, a->deduct % parts,
        a->underpin / pence, a->underpin % pence, a->avc / pence, a->avc % pence);
}

/* Reads bytes that stand at the end of their memory; where they are taken for
 * a line, the reading gives the same bytes. */
static enum line_form reading(const uint8_t *bytes, size_t length, struct line_answer *a)
{
    char text[512];
    struct line_answer nothing = {0};
    enum line_form form = read_line(bytes, length, a);
    readings++;
    if (form == LINE_UNREADABLE)
        expect(memcmp(a, &nothing, sizeof nothing) == 0, "nothing is given where nothing was read", "");
    else if (length != 0) {
        int n = write_line(text, sizeof text, form, a);
        expect((size_t)n == length && memcmp(text, bytes, length) == 0, "a reading is of all its bytes", text);
    }
    return form;
}

/* The bytes in memory of just their size, so that a checker of memory sees a
 * read past them. */
static uint8_t *exact(const char *text, size_t length)
{
    uint8_t *bytes = malloc(length);
    if (!bytes)
        exit(2);
    memcpy(bytes, text, length);
    return bytes;
}

static enum line_form read_text(const char *text, struct line_answer *a)
{
    size_t length = strlen(text);
    uint8_t *bytes = exact(text, length);
    enum line_form form = reading(bytes, length, a);
    free(bytes);
    return form;
}

/* A good line cut short, made longer by any byte, with any byte changed, left
 * out or doubled. */
static void damaged(const char *line)
{
    struct line_answer a;
    size_t length = strlen(line);
    uint8_t *bytes = exact(line, length);
    char other[512];
    for (size_t i = 0; i < length; i++) {
        for (unsigned step = 1; step < 256; step++) {
            bytes[i] = (uint8_t)((unsigned char)line[i] + step);
            reading(bytes, length, &a);
        }
        bytes[i] = (uint8_t)line[i];
    }
    free(bytes);
    for (size_t cut = 1; cut < length; cut++) {
        bytes = exact(line, cut);
        expect(reading(bytes, cut, &a) == LINE_UNREADABLE, "a line cut short", line);
        free(bytes);
    }
    for (unsigned byte = 0; byte < 256; byte++) {
        memcpy(other, line, length);
        other[length] = (char)byte;
        bytes = exact(other, length + 1);
        expect(reading(bytes, length + 1, &a) == LINE_UNREADABLE, "a byte after the line", line);
        free(bytes);
    }
    for (size_t i = 0; i < length; i++) {
        snprintf(other, sizeof other, "%.*s%s", (int)i, line, line + i + 1);
        read_text(other, &a);
        snprintf(other, sizeof other, "%.*s%s", (int)i + 1, line, line + i);
        read_text(other, &a);
    }
}

static void payments(void)
{
    static const char line[] =
        "1 2 pay 136868.93 pension 117921.6000 lump 14364.0012 survivor 4817.9250 deduct 234.6000 underpin 0.07 avc 10.10\n";
    struct line_answer a;
    expect(read_text(line, &a) == LINE_PAYMENT && a.refusal == 0 && a.name == NULL, "a payment", line);
    expect(a.place == 1 && a.case_number == 2 && a.pay == 13686893 && a.underpin == 7 && a.avc == 1010, "its pence", line);
    expect(a.pension == 1179216000 && a.lump == 143640012 && a.survivor == 48179250 && a.deduct == 2346000, "its items", line);
    damaged(line);

    static const char largest[] =
        "4294967295 4294967295 pay 184467440737095516.15 pension 1844674407370955.1615 lump 1844674407370955.1615"
        " survivor 1844674407370955.1615 deduct 1844674407370955.1615 underpin 184467440737095516.15 avc 184467440737095516.15\n";
    expect(read_text(largest, &a) == LINE_PAYMENT, "the largest numbers", largest);
    expect(a.place == UINT32_MAX && a.case_number == UINT32_MAX && a.pay == UINT64_MAX && a.underpin == UINT64_MAX
        && a.avc == UINT64_MAX && a.pension == UINT64_MAX && a.lump == UINT64_MAX && a.survivor == UINT64_MAX
        && a.deduct == UINT64_MAX, "each of them", largest);
    damaged(largest);

    /* The line that tests/c/caller.c has from the library for the largest amounts of kind 2. */
    static const char paid[] =
        "4294967295 4294967295 pay 8953000000.00 pension 8141000000.0000 lump 0.0000 survivor 802000000.0000 deduct 0.0000"
        " underpin 20000000.00 avc 10000000.00\n";
    expect(read_text(paid, &a) == LINE_PAYMENT && a.pay == 895300000000 && a.underpin == 2000000000 && a.avc == 1000000000
        && a.pension == 81410000000000 && a.lump == 0 && a.survivor == 8020000000000 && a.deduct == 0, "the largest paid", paid);
}

static void others(void)
{
    static const char *const lines[] = {
        "4294967296 1 refused 9 service\n", "1 4294967296 refused 9 service\n", "01 1 refused 9 service\n",
        "1 1 refused 09 service\n", "1 1 refused 9 service", "1 1 refused 9 service \n", "1 1  refused 9 service\n",
        "1 1 refused 9 Service\n", "1 1 refused 9 status\n", "1 1 refused 0 \n", "1 1 refused 18 order\n",
        "1 1 refused 15 buffer\n", "1 0 refused 15 buffer\n", "1 1 refused 4 reserved\n", "1 0 refused 6 dates\n",
        "-1 1 refused 9 service\n", "transfer values\n", "end 3 blocks 2 paid\n", "\n", " ",
        "1 0 pay 0.00 pension 0.0000 lump 0.0000 survivor 0.0000 deduct 0.0000 underpin 0.00 avc 0.00\n",
        "1 1 pay .00 pension 0.0000 lump 0.0000 survivor 0.0000 deduct 0.0000 underpin 0.00 avc 0.00\n",
        "1 1 pay 00.00 pension 0.0000 lump 0.0000 survivor 0.0000 deduct 0.0000 underpin 0.00 avc 0.00\n",
        "1 1 pay 184467440737095516.16 pension 0.0000 lump 0.0000 survivor 0.0000 deduct 0.0000 underpin 0.00 avc 0.00\n",
        "1 1 pay 0.00 pension 1844674407370955.1616 lump 0.0000 survivor 0.0000 deduct 0.0000 underpin 0.00 avc 0.00\n",
    };
    struct line_answer a;
    for (size_t i = 0; i < sizeof lines / sizeof lines[0]; i++)
        expect(read_text(lines[i], &a) == LINE_UNREADABLE, "no line of the library's", lines[i]);
    expect(reading(NULL, 0, &a) == LINE_REFUSAL && a.refusal == CETV_REFUSAL_BUFFER && strcmp(a.name, "buffer") == 0
        && a.place == 0 && a.case_number == 0, "a length of 0 is refusal 15", "");
}

/* Each refusal under its own number and name, with a case number only where the block could be read. */
static void refusals(const char *file_name)
{
    FILE *file = fopen(file_name, "r");
    int number, count = 0;
    char name[32], line[128];
    if (!file) {
        perror(file_name);
        exit(2);
    }
    while (fscanf(file, "%d %31s", &number, name) == 2) {
        struct line_answer a;
        count++;
        uint32_t case_number = number <= CETV_REFUSAL_RANGE ? 0 : 4000000000u;
        snprintf(line, sizeof line, "30 %" PRIu32 " refused %d %s\n", case_number, number, name);
        enum line_form form = read_text(line, &a);
        if (number == CETV_REFUSAL_BUFFER) {
            expect(form == LINE_UNREADABLE, "15 stands on no line", line);
            expect(reading(NULL, 0, &a) == LINE_REFUSAL && strcmp(a.name, name) == 0, "the name of 15", name);
            continue;
        }
        expect(form == LINE_REFUSAL && a.refusal == number && strcmp(a.name, name) == 0 && a.place == 30
            && a.case_number == case_number, "a refusal", line);
        damaged(line);
    }
    fclose(file);
    expect(count == CETV_REFUSAL_ORDER, "a name for each refusal", file_name);
}

/* Bytes that lines are made of, in any order. */
static void scrambled(void)
{
    static const char made_of[] = "0123456789. \nadefnprsuy";
    uint32_t seed = 1;
    struct line_answer a;
    for (int i = 0; i < 100000; i++) {
        char text[64];
        size_t length = 1 + (size_t)i % 40;
        for (size_t j = 0; j < length; j++) {
            seed = seed * 1664525u + 1013904223u;
            text[j] = made_of[(seed >> 16) % (sizeof made_of - 1)];
        }
        uint8_t *bytes = exact(text, length);
        reading(bytes, length, &a);
        free(bytes);
    }
}

int main(int argc, char **argv)
{
    if (argc != 2)
        return 2;
    payments();
    refusals(argv[1]);
    others();
    scrambled();
    printf("reading a line: %lu readings, %s\n", readings, failures == 0 ? "all as expected" : "FAILED");
    return failures == 0 ? 0 : 1;
}
