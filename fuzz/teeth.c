/* Faults put in by hand, each in a process of its own: the library behind a call that does what it must not, or the model with an
   error that looks right. The driver must stop at each, and in the way that is named. */
#include <stdio.h>
#include <sys/wait.h>
#include <unistd.h>

#include "fuzz.h"

#define SEALING                                                                                                              \
    const uint8_t *mac_key, size_t mac_key_len, const uint8_t *enc_key, size_t enc_key_len, uint64_t number, uint8_t type,    \
        uint16_t version, const uint8_t *iv, size_t iv_len, const uint8_t *text, size_t text_len, uint8_t *out, size_t out_len, \
        size_t *length
#define SEALED                                                                                                            \
    noustrel_seal(mac_key, mac_key_len, enc_key, enc_key_len, number, type, version, iv, iv_len, text, text_len, out, out_len, \
                  length)

static volatile uint8_t seen;

static uint32_t writes_behind(SEALING)
{
    uint32_t answer = SEALED;
    ((volatile uint8_t *)out)[out_len] ^= 1;
    return answer;
}

static uint32_t writes_in_front(SEALING)
{
    uint32_t answer = SEALED;
    ((volatile uint8_t *)out)[-1] ^= 1;
    return answer;
}

static uint32_t reads_behind(SEALING)
{
    seen = ((const volatile uint8_t *)text)[text_len];
    return SEALED;
}

static uint32_t reads_in_front(SEALING)
{
    seen = ((const volatile uint8_t *)iv)[-1];
    return SEALED;
}

static uint32_t writes_an_input(SEALING)
{
    uint32_t answer = SEALED;
    ((volatile uint8_t *)mac_key)[0] = 0;
    return answer;
}

static uint32_t clears_the_rest(SEALING)
{
    uint32_t answer = SEALED;
    if (answer == 0 && out_len > *length)
        out[*length] = 0;
    return answer;
}

static uint32_t length_on_refusal(SEALING)
{
    uint32_t answer = SEALED;
    if (answer == 1)
        *length = text_len;
    return answer;
}

static uint32_t never_ends(SEALING)
{
    while (seen == 0)
        alarm(1), pause();
    return SEALED;
}

struct tooth {
    const char *what;
    seal_call *seal;
    enum wrong wrong;
    int side;
    enum fault caught;
};

static const struct tooth all[] = {
    {"a byte written behind a span, at the guard", writes_behind, RIGHT, 1, CRASHED},
    {"a byte written behind a span, inside the page", writes_behind, RIGHT, 0, OUTSIDE},
    {"a byte written in front of a span, at the guard", writes_in_front, RIGHT, 0, CRASHED},
    {"a byte written in front of a span, inside the page", writes_in_front, RIGHT, 1, OUTSIDE},
    {"a byte read behind a span", reads_behind, RIGHT, -1, CRASHED},
    {"a byte read in front of a span", reads_in_front, RIGHT, -1, CRASHED},
    {"an input written", writes_an_input, RIGHT, -1, CRASHED},
    {"a byte behind the record cleared", clears_the_rest, RIGHT, -1, CONTENTS},
    {"a length reported with a refusal", length_on_refusal, RIGHT, -1, CONTENTS},
    {"a call that does not end", never_ends, RIGHT, -1, ENDLESS},
    {"sealing of 16,385 bytes", noustrel_seal, TEXT_LIMIT, -1, ANSWER},
    {"opening of a body of 16,448 bytes", noustrel_seal, BODY_LIMIT, -1, ANSWER},
    {"16 padding bytes scanned", noustrel_seal, SCANS_16, -1, ANSWER},
    {"the shortest padding asked", noustrel_seal, SHORTEST_PADDING, -1, ANSWER},
    {"the record's length in the header", noustrel_seal, HEADER_LENGTH, -1, CONTENTS},
    {"stale bytes of a hash's buffer cleared", noustrel_seal, STALE_BUFFER, -1, CONTENTS},
    {"a fill of 64 taken", noustrel_seal, FILL_64, -1, ANSWER},
    {"an even role taken for the client", noustrel_seal, ROLE, -1, CONTENTS},
    {"one step too many at bodies of whole 64 bytes", noustrel_seal, COUNT, -1, CONTENTS},
    {"the key block cut by side", noustrel_seal, BY_SIDE, -1, CONTENTS},
    {"a key cut with a refusal", noustrel_seal, CUT_ON_9, -1, CONTENTS},
};

static int caught(const struct tooth *t)
{
    int status = 0;
    pid_t child;
    fflush(stdout);
    child = fork();
    if (child == 0) {
        if (freopen("/dev/null", "w", stdout) == NULL)
            _exit(2);
        the_seal = t->seal;
        wrong = t->wrong;
        side = t->side;
        run(60, 1, 300000);
        _exit(0);
    }
    if (child < 0 || waitpid(child, &status, 0) != child)
        return 0;
    return WIFEXITED(status) && WEXITSTATUS(status) == (int)t->caught;
}

int teeth(void)
{
    size_t i, n = sizeof all / sizeof *all;
    for (i = 0; i < n; i++)
        if (!caught(&all[i])) {
            fprintf(stderr, "fuzz: not caught: %s\n", all[i].what);
            return 1;
        }
    printf("fuzz: %zu faults put in by hand, each caught\n", n);
    return 0;
}
