// Loaded before a program, refuses its allocation number REFUSE_AT (from 1 on) and says so on
// standard error. With REFUSE_COUNT it refuses so many, that one and the next ones. Threads count
// together.
#include <errno.h>
#include <stdatomic.h>
#include <stddef.h>
#include <stdlib.h>
#include <unistd.h>

extern void *__libc_malloc(size_t size);
extern void *__libc_calloc(size_t count, size_t size);
extern void *__libc_realloc(void *old, size_t size);
extern void *__libc_memalign(size_t alignment, size_t size);

// How many are left up to the last that is refused, that one included; 0 once it was.
static atomic_long left = -1;
// How many are refused.
static atomic_long count = 1;

static long number_of(const char *key, long without) {
    const char *text = getenv(key);
    return text ? atol(text) : without;
}

static int is_refused(void) {
    long now = atomic_load(&left);
    if (now < 0) {
        // the first allocation, which comes before any thread is started
        atomic_store(&count, number_of("REFUSE_COUNT", 1));
        long first = number_of("REFUSE_AT", 0);
        now = first > 0 ? first + atomic_load(&count) - 1 : 0;
        atomic_store(&left, now);
    }
    while (now > 0) {
        if (atomic_compare_exchange_weak(&left, &now, now - 1)) {
            if (now > atomic_load(&count) || write(2, "refused\n", 8) != 8) {
                return 0;
            }
            errno = ENOMEM; // which the C library trusts where it starts a thread
            return 1;
        }
    }
    return 0;
}

void *malloc(size_t size) { return is_refused() ? NULL : __libc_malloc(size); }

void *calloc(size_t count, size_t size) { return is_refused() ? NULL : __libc_calloc(count, size); }

void *realloc(void *old, size_t size) { return is_refused() ? NULL : __libc_realloc(old, size); }

void *aligned_alloc(size_t alignment, size_t size) {
    return is_refused() ? NULL : __libc_memalign(alignment, size);
}

int posix_memalign(void **place, size_t alignment, size_t size) {
    if (is_refused()) {
        return ENOMEM;
    }
    *place = __libc_memalign(alignment, size);
    return *place ? 0 : ENOMEM;
}
