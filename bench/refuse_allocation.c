/* Refuses the growth of memory whose number is REFUSED_GROWTH, and then writes a byte to the descriptor 9.
   It is loaded before the C library (LD_PRELOAD). */
#define _GNU_SOURCE
#include <dlfcn.h>
#include <errno.h>
#include <stddef.h>
#include <stdlib.h>
#include <unistd.h>

static unsigned long asked;

static int is_refused(void) {
    const char *number = getenv("REFUSED_GROWTH");
    if (number == NULL || ++asked != strtoul(number, NULL, 10))
        return 0;
    if (write(9, "x", 1) != 1)
        _exit(99);
    errno = ENOMEM;
    return 1;
}

#define NEXT(name) ((__typeof__(&name))dlsym(RTLD_NEXT, #name))

void *malloc(size_t size) {
    return is_refused() ? NULL : NEXT(malloc)(size);
}

void *realloc(void *old, size_t size) {
    return is_refused() ? NULL : NEXT(realloc)(old, size);
}

void *aligned_alloc(size_t alignment, size_t size) {
    return is_refused() ? NULL : NEXT(aligned_alloc)(alignment, size);
}

int posix_memalign(void **out, size_t alignment, size_t size) {
    return is_refused() ? ENOMEM : NEXT(posix_memalign)(out, alignment, size);
}
