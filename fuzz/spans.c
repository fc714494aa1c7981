/* Spans between guard pages. A room is some pages of memory between two pages that can't be touched, and it is mapped more than
   once: the driver writes its own view; the library is lent one that it can only read, or one that it can write. So a write to an
   input stops the program. A span lies at the very beginning of its room or at its very end; what is left of the room holds a
   pattern, which is compared afterwards. */
#define _GNU_SOURCE
#include <stdio.h>
#include <stdlib.h>
#include <string.h>
#include <sys/mman.h>
#include <unistd.h>

#include "fuzz.h"

#define SPANS 8
#define ROOMS 3

struct room {
    uint8_t *own, *readable, *writable;
    size_t pages;
};

static struct room rooms[SPANS][ROOMS];
static struct span spans[SPANS];
static uint8_t wants[SPANS][LONGEST + 64] __attribute__((aligned(64)));
static uint8_t *patterns;
static size_t used, guard, largest;
int side = -1;

static void *need(void *at)
{
    if (at == MAP_FAILED || at == NULL) {
        perror("fuzz: no memory");
        exit(2);
    }
    return at;
}

/* a view of a room, with a page on each side that can't be touched */
static uint8_t *view(int file, size_t pages, int protection)
{
    uint8_t *at = need(mmap(NULL, pages + 2 * guard, PROT_NONE, MAP_PRIVATE | MAP_ANONYMOUS, -1, 0));
    need(mmap(at + guard, pages, protection, MAP_SHARED | MAP_FIXED, file, 0));
    return at + guard;
}

static void room_make(struct room *r, size_t bytes)
{
    int file = memfd_create("room", 0);
    r->pages = (bytes + guard - 1) / guard * guard;
    if (file < 0 || ftruncate(file, (off_t)r->pages) != 0)
        need(NULL);
    r->own = need(mmap(NULL, r->pages, PROT_READ | PROT_WRITE, MAP_SHARED, file, 0));
    r->readable = view(file, r->pages, PROT_READ);
    r->writable = view(file, r->pages, PROT_READ | PROT_WRITE);
    close(file);
    if (r->pages > largest)
        largest = r->pages;
}

void spans_make(void)
{
    static const size_t bytes[ROOMS] = {4096, 20480, LONGEST};
    size_t i, j;
    guard = (size_t)sysconf(_SC_PAGESIZE);
    for (i = 0; i < SPANS; i++)
        for (j = 0; j < ROOMS; j++)
            room_make(&rooms[i][j], bytes[j]);
    patterns = need(malloc(largest + 4096));
    random_bytes(patterns, largest + 4096);
}

void spans_begin(void)
{
    used = 0;
}

static struct span *lend(size_t len, int writable)
{
    struct span *s = &spans[used];
    size_t j = 0, start;
    struct room *r;
    if (used == SPANS || len > LONGEST) {
        fprintf(stderr, "fuzz: a case asks for more than there is\n");
        exit(2);
    }
    while (len > rooms[used][j].pages)
        j++;
    r = &rooms[used][j];
    start = (side < 0 ? one_in(2) : side) ? r->pages - len : 0;
    s->pattern = below(4096);
    memcpy(r->own, patterns + s->pattern, r->pages);
    s->room = start;
    s->pages = r->pages;
    s->len = len;
    s->writable = writable;
    s->content = r->own + start;
    s->at = (writable ? r->writable : r->readable) + start;
    s->want = wants[used++];
    return s;
}

struct span *input(size_t len)
{
    struct span *s = lend(len, 0);
    random_bytes(s->content, len);
    return s;
}

struct span *output(size_t len)
{
    struct span *s = lend(len, 1);
    memcpy(s->want, s->content, len);
    return s;
}

/* nothing beside a span has changed, and an output holds what it must */
void spans_check(void)
{
    size_t i;
    for (i = 0; i < used; i++) {
        const struct span *s = &spans[i];
        const uint8_t *pattern = patterns + s->pattern, *first = s->content - s->room;
        size_t end = s->room + s->len;
        if (memcmp(first, pattern, s->room) != 0)
            fault(OUTSIDE, "a byte in front of a span has changed");
        if (memcmp(first + end, pattern + end, s->pages - end) != 0)
            fault(OUTSIDE, "a byte behind a span has changed");
        if (s->writable && memcmp(s->content, s->want, s->len) != 0)
            fault(CONTENTS, "an output holds something else");
    }
}

/* the span that lies next to an address: its number in the call, and how far from its first byte */
int nearest_span(const void *at, long *distance)
{
    size_t i;
    int best = -1;
    for (i = 0; i < used; i++) {
        long d = (long)((const uint8_t *)at - spans[i].at);
        if (best < 0 || labs(d) < labs(*distance)) {
            best = (int)i;
            *distance = d;
        }
    }
    return best;
}
