// Refuses allocations of the program that it is loaded into: the one whose number the environment variable REFUSE gives, counted
// from 1, and, if REFUSE_ALL is set, all that come after it too. When an allocation is refused, the file that REFUSE_TOLD names is
// made. Threads that allocate at once are counted one after another, so each number is that of one allocation.
#define _GNU_SOURCE
#include <dlfcn.h>
#include <errno.h>
#include <fcntl.h>
#include <stdatomic.h>
#include <stddef.h>
#include <stdlib.h>
#include <unistd.h>

static atomic_long count = 0;

static int is_refused(void) {
    const char *number = getenv("REFUSE");
    long own = atomic_fetch_add(&count, 1) + 1, first = number == NULL ? 0 : atol(number);
    if (first == 0 || own < first || (own > first && getenv("REFUSE_ALL") == NULL))
        return 0;
    const char *told = getenv("REFUSE_TOLD");
    if (own == first && told != NULL)
        close(open(told, O_CREAT | O_WRONLY, 0600));
    errno = ENOMEM;
    return 1;
}

void *malloc(size_t size) {
    static void *(*next)(size_t) = NULL;
    if (next == NULL)
        next = dlsym(RTLD_NEXT, "malloc");
    return is_refused() ? NULL : next(size);
}

void *realloc(void *old, size_t size) {
    static void *(*next)(void *, size_t) = NULL;
    if (next == NULL)
        next = dlsym(RTLD_NEXT, "realloc");
    return is_refused() ? NULL : next(old, size);
}

void *aligned_alloc(size_t alignment, size_t size) {
    static void *(*next)(size_t, size_t) = NULL;
    if (next == NULL)
        next = dlsym(RTLD_NEXT, "aligned_alloc");
    return is_refused() ? NULL : next(alignment, size);
}

int posix_memalign(void **made, size_t alignment, size_t size) {
    static int (*next)(void **, size_t, size_t) = NULL;
    if (next == NULL)
        next = dlsym(RTLD_NEXT, "posix_memalign");
    return is_refused() ? ENOMEM : next(made, alignment, size);
}
