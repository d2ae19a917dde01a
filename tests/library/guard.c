#define _GNU_SOURCE /* MAP_ANONYMOUS */
#include "guard.h"

#include <signal.h>
#include <stdio.h>
#include <stdlib.h>
#include <string.h>
#include <sys/mman.h>
#include <unistd.h>

enum { MOST = 16, AROUND = 0x3c };

/* The piece stands at `at` in `inner`, the pages that may be touched; `map` has a page more on both sides. */
static struct piece {
    uint8_t *map, *inner, *at, *before;
    size_t mapped, room, size;
} pieces[MOST];
static size_t held;

enum place place;
unsigned long calls;
uint64_t digest;
static const char *last = "nothing";

void must(bool holds, const char *what)
{
    if (holds)
        return;
    printf("calls: %s, guarded %s, after %lu calls, the last %s\n", what, place == BEHIND ? "behind" : "before", calls,
           last);
    exit(1);
}

static void touched(int number)
{
    static const char text[] = "calls: memory was touched that is not lent, or written that is only shown; the call before: ";
    (void)number;
    if (write(1, text, sizeof text - 1) < 0 || write(1, last, strlen(last)) < 0 || write(1, "\n", 1) < 0)
        _exit(2);
    _exit(1);
}

void watch(void)
{
    signal(SIGSEGV, touched);
    signal(SIGBUS, touched);
}

static struct piece *piece(const void *content, size_t size)
{
    size_t page = (size_t)sysconf(_SC_PAGESIZE), pages = (size + page - 1) / page;
    struct piece *p = &pieces[held];
    must(held < MOST, "too many pieces");
    held++;
    p->size = size;
    p->room = pages * page;
    p->mapped = p->room + 2 * page;
    p->map = mmap(NULL, p->mapped, PROT_NONE, MAP_PRIVATE | MAP_ANONYMOUS, -1, 0);
    must(p->map != MAP_FAILED, "no memory");
    p->inner = p->map + page;
    p->at = place == BEHIND ? p->inner + (p->room - size) : p->inner;
    p->before = malloc(size + 1);
    must(p->before != NULL, "no memory");
    memset(p->before, FILL, size + 1);
    if (content && size)
        memcpy(p->before, content, size);
    if (p->room) {
        must(mprotect(p->inner, p->room, PROT_READ | PROT_WRITE) == 0, "mprotect fails");
        memset(p->inner, AROUND, p->room);
        memcpy(p->at, p->before, size);
    }
    return p;
}

void *lend(const void *content, size_t size)
{
    return piece(content, size)->at;
}

const void *show(const void *content, size_t size)
{
    struct piece *p = piece(content, size);
    if (p->room)
        must(mprotect(p->inner, p->room, PROT_READ) == 0, "mprotect fails");
    return p->at;
}

static void around(const struct piece *p)
{
    const uint8_t *at = p->inner, *end = p->inner + p->room;
    for (; at < end; at++)
        if ((at < p->at || at >= p->at + p->size) && *at != AROUND)
            must(false, "a byte beside lent memory was written");
}

static void look(const char *call, bool right, bool keeps, const void *told)
{
    size_t i, j;
    last = call;
    calls++;
    must(right, "another answer than expected");
    for (i = 0; i < held; i++) {
        const struct piece *p = &pieces[i];
        around(p);
        if (keeps && p->at != told)
            must(memcmp(p->at, p->before, p->size) == 0, "lent memory did not keep");
        for (j = 0; j < p->size; j++)
            digest = (digest ^ p->at[j]) * 1099511628211u;
    }
}

void answered(const char *call, uint64_t got, uint64_t want, const void *told)
{
    if (got != want)
        printf("calls: %s answers %lu, not %lu\n", call, (unsigned long)got, (unsigned long)want);
    look(call, got == want, want != 0, told);
}

void gave(const char *call, uint64_t got, uint64_t want, bool keeps)
{
    if (got != want)
        printf("calls: %s answers %lu, not %lu\n", call, (unsigned long)got, (unsigned long)want);
    look(call, got == want, keeps, NULL);
}

void take_back(void)
{
    while (held > 0) {
        struct piece *p = &pieces[--held];
        must(munmap(p->map, p->mapped) == 0, "munmap fails");
        free(p->before);
    }
}
