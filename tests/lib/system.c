/* Changes what the system tells a program into which this library is preloaded:

   - The first 8 bytes of the file that CLOCK_FILE names are a number of milliseconds, which may grow at any time. All
     clocks go on as usual, and are ahead by this number.
   - If CLOCK_STANDS is set, the monotonic clock moves only when this number grows, and the other clocks are not changed.
     A wait for events then ends after at most WAIT milliseconds, so that the program notices a new number. The third 8 bytes
     of the file count these waits. A read that waits for data has no timeout, since the system would measure it.
   - If CLOCK_SLEEPS is set too, a sleep of at least TICK milliseconds ends only when the clock has moved by its length. The next
     8 bytes of the file count the sleeps that have begun. So a test lets the daemon's ticks happen one by one.
   - The first accepts fail, each with the next error of ACCEPT_ERRORS, which has numbers and commas.
   - If PROC is set, it names a folder. Files are opened there in place of /proc.
   - If PROCESSORS is set, the program may use this number of processors.

   It calls the system itself, because AddressSanitizer ends a program that calls `dlsym` here. */
#define _GNU_SOURCE
#include <errno.h>
#include <fcntl.h>
#include <limits.h>
#include <sched.h>
#include <stdarg.h>
#include <stdatomic.h>
#include <stdint.h>
#include <stdio.h>
#include <stdlib.h>
#include <string.h>
#include <sys/epoll.h>
#include <sys/mman.h>
#include <sys/socket.h>
#include <sys/syscall.h>
#include <time.h>
#include <unistd.h>

#define WAIT 10
#define TICK 100
/* How often a sleep looks at the clock, in nanoseconds. */
#define LOOK 200000

static struct timespec start;
static _Atomic int64_t *ahead;
static int stands, sleeps;
static _Atomic(char *) errors;

__attribute__((constructor)) static void begin(void) {
    const char *path = getenv("CLOCK_FILE");
    errors = getenv("ACCEPT_ERRORS");
    if (!path) return;
    int file = open(path, O_RDWR | O_CLOEXEC);
    void *found = mmap(NULL, 3 * sizeof *ahead, PROT_READ | PROT_WRITE, MAP_SHARED, file, 0);
    close(file);
    if (found == MAP_FAILED) abort();
    syscall(SYS_clock_gettime, CLOCK_MONOTONIC, &start);
    stands = getenv("CLOCK_STANDS") != NULL;
    sleeps = stands && getenv("CLOCK_SLEEPS") != NULL;
    ahead = found;
}

int clock_gettime(clockid_t clock, struct timespec *now) {
    int is_still = stands && clock == CLOCK_MONOTONIC;
    if (is_still) *now = start;
    else if (syscall(SYS_clock_gettime, clock, now) != 0) return -1;
    if (!ahead || (stands && !is_still)) return 0;
    int64_t more = *ahead, nanoseconds = now->tv_nsec + more % 1000 * 1000000;
    now->tv_sec += more / 1000 + nanoseconds / 1000000000;
    now->tv_nsec = nanoseconds % 1000000000;
    return 0;
}

int epoll_wait(int queue, struct epoll_event *events, int count, int wait) {
    if (stands) ahead[2]++;
    if (stands && (wait > WAIT || wait < 0)) wait = WAIT;
    return (int)syscall(SYS_epoll_pwait, queue, events, count, wait, NULL, 8);
}

int setsockopt(int socket, int level, int option, const void *value, socklen_t size) {
    if (stands && level == SOL_SOCKET && option == SO_RCVTIMEO) return 0;
    return (int)syscall(SYS_setsockopt, socket, level, option, value, size);
}

int nanosleep(const struct timespec *time, struct timespec *rest) {
    int64_t length = time->tv_sec * 1000 + time->tv_nsec / 1000000;
    if (!sleeps || length < TICK) return syscall(SYS_nanosleep, time, rest) < 0 ? -1 : 0;
    int64_t end = *ahead + length;
    ahead[1]++;
    while (*ahead < end) {
        struct timespec look = {0, LOOK};
        syscall(SYS_nanosleep, &look, NULL);
    }
    return 0;
}

/* One thread accepts at a time. */
int accept4(int listener, struct sockaddr *address, socklen_t *size, int flags) {
    char *rest = errors;
    if (rest && *rest) {
        errno = (int)strtol(rest, &rest, 10);
        errors = *rest ? rest + 1 : rest;
        return -1;
    }
    return (int)syscall(SYS_accept4, listener, address, size, flags);
}

int sched_getaffinity(pid_t process, size_t size, cpu_set_t *processors) {
    const char *count = getenv("PROCESSORS");
    memset(processors, 0, size);
    if (!count) return syscall(SYS_sched_getaffinity, process, size, processors) < 0 ? -1 : 0;
    for (int it = 0; it < atoi(count); it++) CPU_SET_S(it, size, processors);
    return 0;
}

int open(const char *path, int flags, ...) {
    va_list rest;
    va_start(rest, flags);
    mode_t mode = flags & O_CREAT ? va_arg(rest, mode_t) : 0;
    va_end(rest);
    char other[PATH_MAX];
    const char *folder = getenv("PROC");
    if (folder && strncmp(path, "/proc/", 6) == 0) {
        snprintf(other, sizeof other, "%s/%s", folder, path + 6);
        path = other;
    }
    return (int)syscall(SYS_openat, AT_FDCWD, path, flags, mode);
}

extern long __sysconf(int);

long sysconf(int name) {
    const char *count = getenv("PROCESSORS");
    return count && name == _SC_NPROCESSORS_ONLN ? atol(count) : __sysconf(name);
}
