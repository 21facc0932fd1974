#define _DEFAULT_SOURCE
#include "guard.h"

#include <stdio.h>
#include <stdlib.h>
#include <string.h>
#include <sys/mman.h>
#include <unistd.h>

enum { BESIDE = 64 }; /* bytes that are checked beside the lent part */
static const uint8_t mark = 0xA5;

static size_t page_size(void)
{
    static size_t page;
    if (!page) page = (size_t)sysconf(_SC_PAGESIZE);
    return page;
}

static void protect(void *at, size_t bytes, int access)
{
    if (mprotect(at, bytes, access) == 0) return;
    perror("mprotect");
    exit(2);
}

void guard_make(guarded *g, size_t size)
{
    const size_t page = page_size();
    g->size = (size + BESIDE + page - 1) / page * page;
    uint8_t *all = mmap(NULL, g->size + 2 * page, PROT_NONE, MAP_PRIVATE | MAP_ANONYMOUS, -1, 0);
    if (all == MAP_FAILED) {
        perror("mmap");
        exit(2);
    }
    g->pages = all + page;
    protect(g->pages, g->size, PROT_READ | PROT_WRITE);
    guard_lend(g, 0, true);
}

static uint8_t *beside(const guarded *g)
{
    return (uint8_t *)g->at + (g->at_end ? -(ptrdiff_t)BESIDE : (ptrdiff_t)g->bytes);
}

void *guard_lend(guarded *g, size_t bytes, bool at_end)
{
    if (bytes + BESIDE > g->size) {
        fprintf(stderr, "a guarded buffer is too small\n");
        exit(2);
    }
    g->at = at_end ? g->pages + g->size - bytes : g->pages;
    g->bytes = bytes;
    g->at_end = at_end;
    memset(beside(g), mark, BESIDE);
    return g->at;
}

bool guard_intact(const guarded *g)
{
    static uint8_t marks[BESIDE];
    if (!marks[0]) memset(marks, mark, BESIDE);
    return memcmp(beside(g), marks, BESIDE) == 0;
}

static void access_of_lent(const guarded *g, int access)
{
    const size_t page = page_size();
    const size_t first = (size_t)((uint8_t *)g->at - g->pages) / page * page;
    const size_t last = ((size_t)((uint8_t *)g->at - g->pages) + g->bytes + page - 1) / page * page;
    if (last > first) protect(g->pages + first, last - first, access);
}

void guard_lock(const guarded *g) { access_of_lent(g, PROT_READ); }
void guard_unlock(const guarded *g) { access_of_lent(g, PROT_READ | PROT_WRITE); }
