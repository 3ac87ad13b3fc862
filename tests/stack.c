/*
 * How much stack nest_run takes, besides the buffers that it is lent: each job runs on a stack of its own that was
 * filled with a pattern, and what is no longer the pattern was used. More than 256 KiB fails. Each job runs without a
 * margin and with one, and again from the layout that the run before it held.
 * usage: stack BUDGET JOB...
 */
#define _GNU_SOURCE
#include <pthread.h>
#include <stdint.h>
#include <stdio.h>
#include <stdlib.h>
#include <string.h>
#include <sys/mman.h>

#include "nest.h"

enum { STACK = 1 << 20, LIMIT = 256 * 1024, PATTERN = 0xA5 };

static unsigned char *stack;
static uint8_t job[2048], layout[96], work[49152], answer[96], content[4096];
static size_t job_len, layout_len;
static uint64_t margin, result;
static uint32_t budget;

static void *run(void *unused)
{
    result = nest_run(job, job_len, margin, budget, layout, layout_len, work, sizeof work, answer, sizeof answer);
    return unused;
}

static void *nothing(void *unused)
{
    result = 0;
    return unused;
}

/* The bytes of stack that a thread took which ran f. */
static size_t used_by(void *(*f)(void *))
{
    pthread_attr_t attributes;
    pthread_t thread;
    size_t untouched = 0;
    memset(stack, PATTERN, STACK);
    pthread_attr_init(&attributes);
    pthread_attr_setstack(&attributes, stack, STACK);
    if (pthread_create(&thread, &attributes, f, NULL) != 0 || pthread_join(thread, NULL) != 0)
        exit(2);
    while (untouched < STACK && stack[untouched] == PATTERN)
        untouched++;
    return STACK - untouched;
}

/* The bytes of the layout that the last run holds, 0 if it holds none. N is the last number that read writes. */
static size_t held(void)
{
    size_t last = 2 * NEST_COUNT(nest_read(job, job_len, content, sizeof content));
    if (NEST_NUMBER(result) != NEST_OK || NEST_VERDICT(result) == NEST_STOPPED_WITH_NOTHING)
        return 0;
    return NEST_LAYOUT_BYTES(content[last - 2]);
}

/* What the present job takes, first from no layout and then from the one that is held. */
static size_t used_by_job(void)
{
    size_t first, second;
    layout_len = 0;
    first = used_by(run);
    layout_len = held();
    memcpy(layout, answer, layout_len);
    second = used_by(run);
    return first > second ? first : second;
}

int main(int argc, char **argv)
{
    size_t most = 0, of_a_thread;
    stack = mmap(NULL, STACK, PROT_READ | PROT_WRITE, MAP_PRIVATE | MAP_ANONYMOUS, -1, 0);
    if (argc < 3 || stack == MAP_FAILED)
        return 2;
    budget = (uint32_t)strtoul(argv[1], NULL, 10);
    of_a_thread = used_by(nothing);
    for (int i = 2; i < argc; i++) {
        FILE *file = fopen(argv[i], "rb");
        if (file == NULL)
            return 2;
        job_len = fread(job, 1, sizeof job, file);
        fclose(file);
        for (margin = 0; margin <= 1; margin++) {
            size_t used = used_by_job() - of_a_thread;
            if (used > most)
                most = used;
        }
    }
    printf("stack of nest_run: %zu bytes at most, %d allowed\n", most, LIMIT);
    return most <= LIMIT ? 0 : 1;
}
