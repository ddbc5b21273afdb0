/* Interrupts every other reading of standard input. It is loaded before the C library (LD_PRELOAD). */
#define _GNU_SOURCE
#include <dlfcn.h>
#include <errno.h>
#include <sys/types.h>
#include <unistd.h>

static unsigned long readings;

ssize_t read(int file, void *buffer, size_t size) {
    if (file == STDIN_FILENO && readings++ % 2 == 0) {
        errno = EINTR;
        return -1;
    }
    return ((__typeof__(&read))dlsym(RTLD_NEXT, "read"))(file, buffer, size);
}
