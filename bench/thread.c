/* What the timing program cannot ask for in Rust: the processor's time of a thread, and how much stack a call takes. */
#include <pthread.h>
#include <stddef.h>
#include <stdint.h>
#include <stdlib.h>
#include <string.h>
#include <time.h>

double cpu_seconds(void) {
    struct timespec t;
    clock_gettime(CLOCK_THREAD_CPUTIME_ID, &t);
    return (double)t.tv_sec + 1e-9 * (double)t.tv_nsec;
}

enum { SIZE = 1 << 20, PATTERN = 0xa5 };

struct job {
    void (*call)(void *);
    void *with;
};

static void *run(void *job) {
    ((struct job *)job)->call(((struct job *)job)->with);
    return NULL;
}

/* Bytes of stack that call(with) touches at its deepest, the thread's own start included: its stack is filled with a pattern, and
   what the pattern no longer holds was touched. 0 if no thread could be had. */
size_t stack_touched(void (*call)(void *), void *with) {
    struct job job = {call, with};
    pthread_attr_t how;
    pthread_t thread;
    size_t kept = 0;
    uint8_t *stack = aligned_alloc(4096, SIZE);
    if (!stack || pthread_attr_init(&how))
        return 0;
    memset(stack, PATTERN, SIZE);
    if (pthread_attr_setstack(&how, stack, SIZE) || pthread_create(&thread, &how, run, &job) || pthread_join(thread, NULL))
        return 0;
    while (kept < SIZE && stack[kept] == PATTERN)
        kept++;
    pthread_attr_destroy(&how);
    free(stack);
    return SIZE - kept;
}
