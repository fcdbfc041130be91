/* Loaded before the C library (LD_PRELOAD), makes reads on descriptor 0 and
 * writes on descriptor 1 fail or fall short. SHIM_READ and SHIM_WRITE say what
 * becomes of each call in turn, a word to a call:
 *
 *   EIO, ENOSPC, EINTR   it fails with that error
 *   700                  it is asked for at most so many bytes
 *   ok                   it goes through
 *   3*EINTR              the same for three calls
 *   ...                  last: from the first word again
 *
 * Calls after the last word go through, so that a program that carries on
 * where it ought to stop is seen to do so. */
#define _GNU_SOURCE
#include <errno.h>
#include <stdio.h>
#include <stdlib.h>
#include <string.h>
#include <sys/syscall.h>
#include <unistd.h>

struct plan {
    const char *variable;
    const char *next; /* the words to come */
    unsigned long repeats; /* calls that the word before them still counts for */
    char action[16];
};

static struct plan reads = {"SHIM_READ", NULL, 0, ""};
static struct plan writes = {"SHIM_WRITE", NULL, 0, ""};

static void take_word(struct plan *plan)
{
    const char *words = getenv(plan->variable);
    if (!plan->next)
        plan->next = words ? words : "";
    plan->next += strspn(plan->next, " ");
    if (strcmp(plan->next, "...") == 0)
        plan->next = words;
    int length = 0;
    if (sscanf(plan->next, "%lu*%15s%n", &plan->repeats, plan->action, &length) == 2) {
        plan->next += length;
        return;
    }
    plan->repeats = 1;
    if (sscanf(plan->next, "%15s%n", plan->action, &length) != 1)
        strcpy(plan->action, "ok");
    plan->next += length;
}

/* How many of the bytes to ask for; -1 and errno where the call fails. */
static ssize_t allowed(struct plan *plan, size_t asked)
{
    while (plan->repeats == 0)
        take_word(plan);
    plan->repeats--;
    const char *action = plan->action;
    if (strcmp(action, "ok") == 0)
        return (ssize_t)asked;
    if (action[0] >= '0' && action[0] <= '9') {
        size_t most = strtoul(action, NULL, 10);
        return (ssize_t)(most < asked ? most : asked);
    }
    if (strcmp(action, "EIO") == 0)
        errno = EIO;
    else if (strcmp(action, "ENOSPC") == 0)
        errno = ENOSPC;
    else if (strcmp(action, "EINTR") == 0)
        errno = EINTR;
    else
        abort();
    return -1;
}

ssize_t read(int descriptor, void *buffer, size_t size)
{
    ssize_t most = descriptor == 0 ? allowed(&reads, size) : (ssize_t)size;
    return most < 0 ? -1 : syscall(SYS_read, descriptor, buffer, most);
}

ssize_t write(int descriptor, const void *buffer, size_t size)
{
    ssize_t most = descriptor == 1 ? allowed(&writes, size) : (ssize_t)size;
    return most < 0 ? -1 : syscall(SYS_write, descriptor, buffer, most);
}
