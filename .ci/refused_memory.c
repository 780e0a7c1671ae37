/* Refuses one allocation of the program before which it is loaded: the one whose number, from 1, is in the variable REFUSED. As it
 * does so it writes a byte to the file descriptor 9, so that whoever waits knows that there was such an allocation. */
#include <errno.h>
#include <stddef.h>
#include <stdlib.h>
#include <unistd.h>

extern void *__libc_malloc(size_t size);
extern void *__libc_calloc(size_t count, size_t size);
extern void *__libc_realloc(void *old, size_t size);
extern void *__libc_memalign(size_t alignment, size_t size);

static unsigned long made;
static unsigned long refused;

static int is_refused(void) {
    if (__atomic_add_fetch(&made, 1, __ATOMIC_RELAXED) != refused) {
        return 0;
    }
    if (write(9, "", 1) != 1) {
        abort();
    }
    errno = ENOMEM;
    return 1;
}

__attribute__((constructor)) static void begin(void) {
    const char *number = getenv("REFUSED");
    made = 0;
    refused = number == NULL ? 0 : strtoul(number, NULL, 10);
}

void *malloc(size_t size) {
    return is_refused() ? NULL : __libc_malloc(size);
}

void *calloc(size_t count, size_t size) {
    return is_refused() ? NULL : __libc_calloc(count, size);
}

void *realloc(void *old, size_t size) {
    return is_refused() ? NULL : __libc_realloc(old, size);
}

void *memalign(size_t alignment, size_t size) {
    return is_refused() ? NULL : __libc_memalign(alignment, size);
}

void *aligned_alloc(size_t alignment, size_t size) {
    return memalign(alignment, size);
}

int posix_memalign(void **into, size_t alignment, size_t size) {
    void *given = memalign(alignment, size);
    if (given == NULL) {
        return ENOMEM;
    }
    *into = given;
    return 0;
}
