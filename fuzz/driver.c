/* The fuzz run over the C border: random calls on spans between guard pages, each held to the model's answer and to its whole
   output. Stops at the first fault, with the seed and the number of the case.
   driver SECONDS SEED        calls for so long; the last line is 'fuzz: N calls, 0 faults'
   driver case SEED NUMBER    that case alone
   driver teeth               faults put in by hand: each must be caught */
#define _GNU_SOURCE
#include <errno.h>
#include <signal.h>
#include <stdio.h>
#include <stdlib.h>
#include <string.h>
#include <time.h>
#include <unistd.h>

#include "fuzz.h"

static const char *const names[FUNCTIONS] = {"seal", "open", "sm3", "hmac_sm3", "sm4_encrypt_block", "sm4_decrypt_block",
                                             "master_secret", "key_block", "key_halves", "finished", "sm3_start", "sm3_update",
                                             "sm3_finish"};
static const char *const possible[FUNCTIONS] = {"0129", "0234569", "09", "09", "09", "09", "09", "09", "09", "09", "0", "07",
                                                "079"};
static uint64_t counts[FUNCTIONS][10], calls, the_seed, the_case, state;

uint64_t random_word(void)
{
    uint64_t x = state += 0x9E3779B97F4A7C15u;
    x = (x ^ x >> 30) * 0xBF58476D1CE4E5B9u;
    x = (x ^ x >> 27) * 0x94D049BB133111EBu;
    return x ^ x >> 31;
}

size_t below(size_t n)
{
    return (size_t)(random_word() % n);
}

size_t between(size_t a, size_t b)
{
    return a + below(b - a + 1);
}

int one_in(size_t n)
{
    return below(n) == 0;
}

void random_bytes(uint8_t *at, size_t n)
{
    uint64_t word;
    for (; n >= 8; at += 8, n -= 8) {
        word = random_word();
        memcpy(at, &word, 8);
    }
    word = random_word();
    memcpy(at, &word, n);
}

/* another size than the right one, one time in two */
size_t size_near(size_t right)
{
    switch (below(10)) {
    case 0:
        return right - 1;
    case 1:
        return right + 1;
    case 2:
        return 0;
    case 3:
        return below(140);
    case 4:
        return one_in(2) ? 2 * right : below(3000);
    default:
        return right;
    }
}

void fault(enum fault kind, const char *words)
{
    printf("fuzz: seed %llu case %llu: %s\nfuzz: %llu calls, 1 fault\n", (unsigned long long)the_seed,
           (unsigned long long)the_case, words, (unsigned long long)calls);
    fflush(stdout);
    _exit(kind);
}

void judge(enum function f, uint32_t answer, uint32_t expected)
{
    char words[100];
    calls++;
    if (answer != expected) {
        snprintf(words, sizeof words, "%s answers %u, not %u", names[f], answer, expected);
        fault(ANSWER, words);
    }
    counts[f][answer]++;
    spans_check();
}

/* ---- what stops a program */
static void stopped(int number, siginfo_t *info, void *context)
{
    char words[100];
    long distance = 0;
    int span = nearest_span(info->si_addr, &distance);
    (void)context;
    if (number == SIGALRM)
        fault(ENDLESS, "a call does not end");
    snprintf(words, sizeof words, "signal %d at byte %ld of the call's span %d", number, distance, span);
    fault(CRASHED, words);
}

static void handlers(void)
{
    static const int signals[] = {SIGSEGV, SIGBUS, SIGILL, SIGFPE, SIGABRT, SIGTRAP, SIGALRM};
    static char room[65536];
    stack_t stack = {.ss_sp = room, .ss_size = sizeof room};
    struct sigaction action;
    size_t i;
    memset(&action, 0, sizeof action);
    action.sa_sigaction = stopped;
    action.sa_flags = SA_SIGINFO | SA_ONSTACK;
    sigaltstack(&stack, NULL);
    for (i = 0; i < sizeof signals / sizeof *signals; i++)
        sigaction(signals[i], &action, NULL);
}

/* ---- the run */
static void one_case(uint64_t seed, uint64_t number)
{
    the_case = number;
    state = seed;
    state = random_word() ^ number * 0xD1B54A32D192ED03u;
    switch (below(16)) {
    case 0: case 1: case 2: case 3:
        seal_case();
        break;
    case 4: case 5: case 6: case 7: case 8: case 9: case 10:
        open_case();
        break;
    case 11:
        sm3_case();
        break;
    case 12:
        hmac_case();
        break;
    case 13:
        block_case();
        break;
    case 14:
        key_case();
        break;
    default:
        stream_case();
    }
}

static double now(void)
{
    struct timespec t;
    clock_gettime(CLOCK_MONOTONIC, &t);
    return (double)t.tv_sec + (double)t.tv_nsec / 1e9;
}

/* every answer that a function can give must have come up */
static void summary(void)
{
    int f, a;
    for (f = 0; f < FUNCTIONS; f++) {
        printf("fuzz: %-18s", names[f]);
        for (a = 0; a < 10; a++)
            if (counts[f][a])
                printf(" %d: %llu ", a, (unsigned long long)counts[f][a]);
        printf("\n");
    }
    for (f = 0; f < FUNCTIONS; f++)
        for (a = 0; possible[f][a]; a++)
            if (!counts[f][possible[f][a] - '0'])
                fault(MISSED, "an answer in this table never came up");
}

int run(double seconds, uint64_t seed, uint64_t cases)
{
    double from = now(), said = from, at;
    uint64_t number;
    the_seed = seed;
    for (number = 0; number < cases; number++) {
        if (number % 64 == 0) {
            alarm(20);
            at = now();
            if (at - from >= seconds)
                break;
            if (at - said >= 60) {
                said = at;
                printf("fuzz: %.0f minutes, %llu calls\n", (at - from) / 60, (unsigned long long)calls);
                fflush(stdout);
            }
        }
        one_case(seed, number);
    }
    alarm(0);
    return 0;
}

static uint64_t whole(const char *word)
{
    char *end;
    unsigned long long n;
    errno = 0;
    n = strtoull(word, &end, 10);
    if (*word < '0' || *word > '9' || *end || errno) {
        fprintf(stderr, "fuzz: '%s' is no number\nusage: driver SECONDS SEED | driver case SEED NUMBER | driver teeth\n", word);
        exit(2);
    }
    return n;
}

int main(int argc, char **argv)
{
    int alone = argc == 4 && strcmp(argv[1], "case") == 0, faults = argc == 2 && strcmp(argv[1], "teeth") == 0;
    uint64_t seconds = 0, number = 0;
    if (!faults && !alone && argc != 3)
        whole("");
    if (alone)
        number = whole(argv[3]);
    else if (!faults)
        seconds = whole(argv[1]);
    if (!faults)
        the_seed = whole(argv[2]);
    model_make();
    spans_make();
    handlers();
    if (faults)
        return teeth();
    if (alone) {
        alarm(20);
        one_case(the_seed, number);
        printf("fuzz: seed %llu case %llu: no fault\n", (unsigned long long)the_seed, (unsigned long long)number);
        return 0;
    }
    run((double)seconds, the_seed, UINT64_MAX);
    if (seconds >= 30)
        summary();
    printf("fuzz: %llu calls, 0 faults\n", (unsigned long long)calls);
    return 0;
}
