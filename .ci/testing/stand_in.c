/* Stands between a program and the system. The file that the variable TRACE names it gives in pieces of 50 bytes, and every
 * other read of that file is interrupted. Where it is read from its beginning again, it has the bytes of the file that AGAIN
 * names, if one is named. FAILS has the numbers, 1 and 2, of the readings that fail where the bytes end. With the variable
 * HURRY the clock goes on by two seconds each time that it is looked at. To the file that THREADS names a byte is added for
 * each thread that is started. */
#define _GNU_SOURCE
#include <dlfcn.h>
#include <errno.h>
#include <fcntl.h>
#include <pthread.h>
#include <stdlib.h>
#include <string.h>
#include <sys/stat.h>
#include <sys/syscall.h>
#include <time.h>
#include <unistd.h>

enum { PIECE_LENGTH = 50, SECONDS_A_LOOK = 2 };

typedef int starter(pthread_t *, const pthread_attr_t *, void *(*)(void *), void *);

static struct stat trace;
static int has_trace;
static int again = -1;
static const char *failing = "";
static int reading = 1;
static off_t offset;
static int is_interrupted;
static long looks;

__attribute__((constructor)) static void begin(void) {
    const char *name = getenv("TRACE");
    const char *second = getenv("AGAIN");
    const char *numbers = getenv("FAILS");
    has_trace = name != NULL && stat(name, &trace) == 0;
    again = second == NULL ? -1 : open(second, O_RDONLY | O_CLOEXEC);
    failing = numbers == NULL ? "" : numbers;
}

static int is_trace(int file) {
    struct stat found;
    return has_trace && fstat(file, &found) == 0 && found.st_ino == trace.st_ino && found.st_dev == trace.st_dev;
}

ssize_t read(int file, void *into, size_t length) {
    ssize_t count;
    if (!is_trace(file)) {
        return syscall(SYS_read, file, into, length);
    }
    is_interrupted = !is_interrupted;
    if (is_interrupted) {
        errno = EINTR;
        return -1;
    }
    count = pread(reading == 2 && again >= 0 ? again : file, into, length < PIECE_LENGTH ? length : PIECE_LENGTH, offset);
    if (count == 0 && strchr(failing, '0' + reading) != NULL) {
        errno = EIO;
        return -1;
    }
    offset += count > 0 ? count : 0;
    return count;
}

/* The trace is read from its beginning alone. */
off_t lseek(int file, off_t to, int from) {
    if (!is_trace(file)) {
        return syscall(SYS_lseek, file, to, from);
    }
    reading = 2;
    offset = 0;
    return 0;
}

int clock_gettime(clockid_t clock, struct timespec *now) {
    int answer = (int)syscall(SYS_clock_gettime, clock, now);
    if (answer == 0 && getenv("HURRY") != NULL) {
        now->tv_sec += SECONDS_A_LOOK * __atomic_add_fetch(&looks, 1, __ATOMIC_RELAXED);
    }
    return answer;
}

int pthread_create(pthread_t *thread, const pthread_attr_t *how, void *(*work)(void *), void *given) {
    const char *name = getenv("THREADS");
    int file = name == NULL ? -1 : open(name, O_WRONLY | O_APPEND | O_CREAT | O_CLOEXEC, 0600);
    if (file >= 0) {
        if (write(file, "t", 1) != 1) {
            abort();
        }
        close(file);
    }
    return ((starter *)dlsym(RTLD_NEXT, "pthread_create"))(thread, how, work, given);
}
