/* Preloaded before a program: its allocation number $REFUSE_NTH, from 1, is out of memory, and the
   file $REFUSE_MARK is made; with $REFUSE_STEP so does each so many behind it. The allocations of all
   its threads are counted together, so in a program of several threads the same number may be
   another's in another run. */
#define _GNU_SOURCE
#include <dlfcn.h>
#include <errno.h>
#include <fcntl.h>
#include <stdatomic.h>
#include <stddef.h>
#include <stdlib.h>
#include <unistd.h>

static atomic_long made;
/* Which one, and how many further each next one is, once it was read: to read it at each
   allocation would take longer than these. */
static atomic_long nth = -1, step;

static long number(const char *name) {
    const char *told = getenv(name);
    return told ? atol(told) : 0;
}

static int refused(void) {
    if (nth == -1) {
        step = number("REFUSE_STEP");
        nth = number("REFUSE_NTH");
    }
    if (nth == 0)
        return 0;
    long behind = atomic_fetch_add(&made, 1) + 1 - nth;
    if (behind != 0 && (behind < 0 || step == 0 || behind % step != 0))
        return 0;
    const char *mark = getenv("REFUSE_MARK");
    if (mark)
        close(creat(mark, 0600));
    return 1;
}

/* The C library's own, found at the first call. */
#define REAL(name)                                                                                 \
    ({                                                                                             \
        static _Atomic(__typeof__(&name)) found;                                                   \
        if (!found)                                                                                \
            found = (__typeof__(&name))dlsym(RTLD_NEXT, #name);                                    \
        found;                                                                                     \
    })

void *malloc(size_t size) {
    return refused() ? NULL : REAL(malloc)(size);
}

void *realloc(void *old, size_t size) {
    return refused() ? NULL : REAL(realloc)(old, size);
}

void *aligned_alloc(size_t align, size_t size) {
    return refused() ? NULL : REAL(aligned_alloc)(align, size);
}

int posix_memalign(void **place, size_t align, size_t size) {
    return refused() ? ENOMEM : REAL(posix_memalign)(place, align, size);
}
