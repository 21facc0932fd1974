/* Buffers between two pages that may not be touched. What is lent to the library ends exactly at such a page or begins exactly after one, so
 * that an access outside it dies at once; on its other side lie bytes that are checked after the call. */
#ifndef GUARD_H
#define GUARD_H

#include <stdbool.h>
#include <stddef.h>
#include <stdint.h>

typedef struct guarded {
    uint8_t *pages; /* the touchable pages */
    size_t size;    /* their bytes */
    void *at;       /* the part that is lent */
    size_t bytes;
    bool at_end;
} guarded;

/* Makes a guarded buffer for parts of up to `size` bytes. */
void guard_make(guarded *g, size_t size);

/* Chooses the part to lend, at the end or at the beginning of the pages. Its bytes are then for the caller to fill. */
void *guard_lend(guarded *g, size_t bytes, bool at_end);

/* Whether the bytes beside the lent part are as guard_lend left them. */
bool guard_intact(const guarded *g);

/* Makes the pages of the lent part read-only, and writable again. */
void guard_lock(const guarded *g);
void guard_unlock(const guarded *g);

#endif
