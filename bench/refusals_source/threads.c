// Loaded before a program, says "started" on standard error for each thread that the program
// starts. It refuses the start of number REFUSE_THREAD (from 1 on), or each one if that is 0, and
// says "refused" in its place. Without REFUSE_THREAD it refuses none.
#define _GNU_SOURCE
#include <dlfcn.h>
#include <errno.h>
#include <pthread.h>
#include <stdatomic.h>
#include <stdlib.h>
#include <unistd.h>

typedef int create(pthread_t *, const pthread_attr_t *, void *(*)(void *), void *);

static atomic_long starts;

static void say(const char *line) {
    if (write(2, line, 8) != 8) {
        abort(); // a count that is wrong would show nothing
    }
}

int pthread_create(pthread_t *thread, const pthread_attr_t *options, void *(*body)(void *),
                   void *argument) {
    const char *text = getenv("REFUSE_THREAD");
    long number = atomic_fetch_add(&starts, 1) + 1;
    if (text && (atol(text) == 0 || atol(text) == number)) {
        say("refused\n");
        return EAGAIN;
    }
    create *real = (create *)dlsym(RTLD_NEXT, "pthread_create");
    say("started\n");
    return real(thread, options, body, argument);
}
