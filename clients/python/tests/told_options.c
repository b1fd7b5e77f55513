// Loaded before a program, says on standard error each option that it gives a socket: the level,
// the option's number and the value. Of a time these are the seconds.
#define _GNU_SOURCE
#include <dlfcn.h>
#include <stdio.h>
#include <string.h>
#include <sys/socket.h>

typedef int (*Set)(int socket, int level, int option, const void *value, socklen_t size);

int setsockopt(int socket, int level, int option, const void *value, socklen_t size) {
    Set set = (Set)dlsym(RTLD_NEXT, "setsockopt");
    long number = 0;
    memcpy(&number, value, size < sizeof number ? size : sizeof number);
    dprintf(2, "option %d %d %ld\n", level, option, number);
    return set(socket, level, option, value, size);
}
