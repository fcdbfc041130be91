/* Calls the library from many threads at once: `calls BLOCKS LINES ROUNDS`.
 *
 * BLOCKS is a case file, LINES what `values` prints of it without the first
 * and the last line. One thread forms the lines first, and they must be those
 * of LINES. Then eight threads value the same blocks ROUNDS times each, each in
 * an order of its own, and every line must be the one formed before. */
#include <pthread.h>
#include <stdio.h>
#include <stdlib.h>
#include <string.h>

#include "cetv.h"

enum { THREADS = 8 };

struct line {
    uint8_t text[CETV_LINE_SIZE];
    size_t length;
};

static const uint8_t *blocks;
static size_t size, count, rounds;
static struct line *formed;
static pthread_barrier_t start;

/* The threads' buffers adjoin, so that a line too long spoils another's. */
static uint8_t lent[THREADS][CETV_LINE_SIZE];

static void *must(void *got, const char *what)
{
    if (!got) {
        perror(what);
        exit(2);
    }
    return got;
}

static uint8_t *contents(const char *name, size_t *length)
{
    FILE *file = must(fopen(name, "rb"), name);
    size_t room = 1 << 16;
    uint8_t *bytes = must(malloc(room), name);
    size_t got;
    *length = 0;
    while ((got = fread(bytes + *length, 1, room - *length, file)) != 0) {
        *length += got;
        if (*length == room)
            bytes = must(realloc(bytes, room *= 2), name);
    }
    if (ferror(file))
        must(NULL, name);
    fclose(file);
    return bytes;
}

/* Values block i, numbered from 0; the last one may be short. */
static size_t value(size_t i, uint8_t *out)
{
    size_t at = i * CETV_BLOCK_SIZE;
    size_t length = size - at < CETV_BLOCK_SIZE ? size - at : CETV_BLOCK_SIZE;
    return cetv_value_block(blocks + at, length, (uint32_t)(i + 1), out, CETV_LINE_SIZE);
}

static void form_alone(void)
{
    formed = must(calloc(count, sizeof *formed), "lines");
    for (size_t i = 0; i < count; i++)
        formed[i].length = value(i, formed[i].text);
}

static int same_as_printed(const uint8_t *printed, size_t length)
{
    size_t at = 0;
    for (size_t i = 0; i < count; i++) {
        const struct line *line = &formed[i];
        if (line->length == 0 || line->length > length - at || memcmp(printed + at, line->text, line->length) != 0) {
            printf("one thread: block %zu has another line than `values` printed\n", i + 1);
            return 0;
        }
        at += line->length;
    }
    if (at != length)
        printf("`values` printed more lines than there are blocks\n");
    return at == length;
}

/* The block of a step: each thread and round starts elsewhere, every other
 * thread goes backwards. */
static size_t block_of(size_t thread, size_t round, size_t step)
{
    size_t i = (step + thread * count / THREADS + round * 7) % count;
    return thread % 2 == 0 ? i : count - 1 - i;
}

static void *run(void *own)
{
    size_t thread = (size_t)((uint8_t(*)[CETV_LINE_SIZE])own - lent);
    uint8_t *out = lent[thread];
    size_t differ = 0;
    pthread_barrier_wait(&start);
    for (size_t round = 0; round < rounds; round++)
        for (size_t step = 0; step < count; step++) {
            size_t i = block_of(thread, round, step);
            size_t n = value(i, out);
            differ += n != formed[i].length || memcmp(out, formed[i].text, n) != 0;
        }
    return (void *)differ;
}

static size_t differences(void)
{
    pthread_t threads[THREADS];
    size_t total = 0;
    pthread_barrier_init(&start, NULL, THREADS);
    for (size_t t = 0; t < THREADS; t++)
        if (pthread_create(&threads[t], NULL, run, lent[t]) != 0)
            must(NULL, "thread");
    for (size_t t = 0; t < THREADS; t++) {
        void *differ;
        pthread_join(threads[t], &differ);
        total += (size_t)differ;
    }
    pthread_barrier_destroy(&start);
    return total;
}

int main(int argc, char **argv)
{
    if (argc != 4) {
        fprintf(stderr, "usage: calls BLOCKS LINES ROUNDS\n");
        return 2;
    }
    size_t printed_length;
    uint8_t *read_blocks = contents(argv[1], &size);
    uint8_t *printed = contents(argv[2], &printed_length);
    blocks = read_blocks;
    count = (size + CETV_BLOCK_SIZE - 1) / CETV_BLOCK_SIZE;
    rounds = strtoul(argv[3], NULL, 10);
    form_alone();
    int same = same_as_printed(printed, printed_length);
    size_t differ = same ? differences() : 0;
    if (same)
        printf("%d threads, %zu calls: %zu lines differ\n", THREADS, THREADS * rounds * count, differ);
    free(formed);
    free(printed);
    free(read_blocks);
    return same && differ == 0 ? 0 : 1;
}
