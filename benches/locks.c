/* A library to preload into bayeuxd. It observes the locks of the hub, for benches/locks. The script creates the file that the
   environment variable LOCKS names, writes the addresses of the locks into it, and reads the counts. */
#define _GNU_SOURCE
#include <dlfcn.h>
#include <errno.h>
#include <fcntl.h>
#include <link.h>
#include <linux/futex.h>
#include <linux/perf_event.h>
#include <pthread.h>
#include <signal.h>
#include <stdatomic.h>
#include <stdint.h>
#include <stdlib.h>
#include <sys/mman.h>
#include <sys/prctl.h>
#include <sys/syscall.h>
#include <time.h>
#include <ucontext.h>
#include <unistd.h>

enum { LOCKS = 65, BLOCKS = 1 << 16, WAITS = 1 << 10, SITES = 1 << 13, MIN_BLOCK = 256, MAX_FRAME = 256, STACK_WORDS = 256, LENGTHS = 512 };
/* How often admission is looked at in one turn without a pause, and for how many nanoseconds the thread that looks may be away. */
enum { CLOSE_LOOKS = 1 << 16, MAX_GAP = 2000 };
/* The lock that is held: none, that of admission, or that of a shard. */
enum { NONE, ADMISSION, SHARD };
/* What a site counts: samples of the instruction pointer, or calls. */
enum { CODE = 1, MEMORY, LIBRARY, OBSERVER, ALLOCATE, RESIZE, FREE };

typedef _Atomic uint64_t number;

/* The waits of one word, with times in nanoseconds. */
struct wait { number word, sleeps, slept, wakes, waking; };

/* A count. `key`: in its upper 8 bits the lock that is held, in the next 8 bits what is counted, and below them an address. */
struct site { number key, count; };

/* What the script shares. `locks`: the addresses of the locks' words, first that of admission. `lengths`: how often admission was
   held how long, where number 8 * n + k is for (8 + k) / 8 * 2^n nanoseconds and more. */
static struct shared {
    number is_counting, period, base, watcher, lock_count, locks[LOCKS];
    number looks, held[LOCKS], wanted[LOCKS], is_close, lengths[LENGTHS];
    number block_count, blocks[BLOCKS][2];
    struct wait waits[WAITS];
    struct site sites[SITES];
    number lost;
} *shared;

/* Where the code of the program and the code of this library begin and end. */
static uintptr_t program[2], observer[2];
/* The caller of the memory function in which the thread is, or 0. */
static __thread uintptr_t memory_caller __attribute__((tls_model("initial-exec")));

void *__libc_malloc(size_t size);
void *__libc_realloc(void *old, size_t size);
void __libc_free(void *old);

static void add(number *to, uint64_t count) { atomic_fetch_add_explicit(to, count, memory_order_relaxed); }
static uint64_t get(number *from) { return atomic_load_explicit(from, memory_order_relaxed); }
static int is_between(uintptr_t address, const uintptr_t *ends) { return ends[0] <= address && address < ends[1]; }

static uint64_t now(void) {
    struct timespec time;
    clock_gettime(CLOCK_MONOTONIC, &time);
    return time.tv_sec * 1000000000ull + time.tv_nsec;
}

static uint64_t word_of(int lock) { return *(volatile uint64_t *)get(&shared->locks[lock]); }

/* A lock's word is 1 or 4 while the lock is free, 0 while it is held, and 2 or 3 while it is held and a thread may sleep. */
static int is_held(uint64_t word) { return word != 1 && word != 4; }

static int held_lock(void) {
    int count = get(&shared->lock_count);
    for (int lock = 0; lock < count; lock++)
        if (is_held(word_of(lock))) return lock ? SHARD : ADMISSION;
    return NONE;
}

/* Finds the entry of `key` in a table of entries of `size` numbers each, which begin with their keys. Returns NULL if it is full. */
static number *entry_of(number *table, size_t length, size_t size, uint64_t key) {
    for (size_t step = 0, at = key * 0x9e3779b97f4a7c15ull >> 40; step < length; step++, at++) {
        number *entry = table + at % length * size;
        uint64_t found = get(entry);
        if (found == key || (!found && (atomic_compare_exchange_strong(entry, &found, key) || found == key))) return entry;
    }
    add(&shared->lost, 1);
    return NULL;
}

static void count(uint64_t held, uint64_t what, uintptr_t address) {
    number *entry = entry_of(&shared->sites[0].key, SITES, sizeof(struct site) / sizeof(number), held << 56 | what << 48 | address);
    if (entry) add(entry + 1, 1);
}

/* The calls for memory. */

/* Returns the caller of the program's function that called malloc or realloc. `frame`: the frame of malloc or realloc. `direct`:
   its return address. The program's functions that call them have frame pointers. */
static uintptr_t caller_of(uintptr_t **frame, uintptr_t direct) {
    size_t distance = (uintptr_t)frame[0] - (uintptr_t)frame;
    return distance < MAX_FRAME && is_between(direct, program) ? frame[0][1] : direct;
}

static void enter(int what, uintptr_t caller) {
    memory_caller = caller;
    int held = shared && get(&shared->is_counting) ? held_lock() : NONE;
    if (held) count(held, what, caller);
}

static void *leave(void *block, size_t size) {
    memory_caller = 0;
    if (shared && block && size >= MIN_BLOCK && !get(&shared->lock_count) && get(&shared->block_count) < BLOCKS) {
        uint64_t at = atomic_fetch_add(&shared->block_count, 1);
        if (at < BLOCKS) atomic_store(&shared->blocks[at][0], (uintptr_t)block), atomic_store(&shared->blocks[at][1], size);
    }
    return block;
}

#define CALLER caller_of(__builtin_frame_address(0), (uintptr_t)__builtin_return_address(0))

void *malloc(size_t size) {
    enter(ALLOCATE, CALLER);
    return leave(__libc_malloc(size), size);
}

void *realloc(void *old, size_t size) {
    enter(RESIZE, CALLER);
    return leave(__libc_realloc(old, size), size);
}

void free(void *old) {
    enter(FREE, (uintptr_t)__builtin_return_address(0));
    __libc_free(old);
    leave(NULL, 0);
}

/* The calls with which threads wait. */

static long call(long number, long a, long b, long c, long d, long e, long f) {
    register long r10 __asm__("r10") = d, r8 __asm__("r8") = e, r9 __asm__("r9") = f;
    long result;
    __asm__ volatile("syscall" : "=a"(result) : "a"(number), "D"(a), "S"(b), "d"(c), "r"(r10), "r"(r8), "r"(r9) : "rcx", "r11", "memory");
    if (result >= 0) return result;
    errno = -result;
    return -1;
}

/* Counts a call of futex that began at time `begin`. `word`: its address. */
static void count_futex(uint64_t word, int operation, uint64_t begin) {
    struct wait *wait = (struct wait *)entry_of(&shared->waits[0].word, WAITS, sizeof(struct wait) / sizeof(number), word);
    int is_wait = operation == FUTEX_WAIT || operation == FUTEX_WAIT_BITSET;
    if (!wait) return;
    add(is_wait ? &wait->sleeps : &wait->wakes, 1);
    add(is_wait ? &wait->slept : &wait->waking, now() - begin);
}

long syscall(long number, ...) __attribute__((alias("observed_syscall")));
long observed_syscall(long number, long a, long b, long c, long d, long e, long f) {
    if (number != SYS_futex || !shared) return call(number, a, b, c, d, e, f);
    uint64_t begin = now();
    long result = call(number, a, b, c, d, e, f);
    int error = errno;
    count_futex(a, b & FUTEX_CMD_MASK, begin);
    errno = error;
    return result;
}

/* The samples. Each thread gets a signal after each `period` nanoseconds of its processor time. */

/* Returns the return address into the program that is nearest to the top of the stack, or 0. */
static uintptr_t caller_on(const uintptr_t *stack) {
    for (int at = 0; at < STACK_WORDS; at++)
        if (is_between(stack[at], program)) return stack[at];
    return 0;
}

static void sample(int signal, siginfo_t *about, void *context) {
    (void)signal, (void)about;
    const greg_t *registers = ((ucontext_t *)context)->uc_mcontext.gregs;
    uintptr_t place = registers[REG_RIP];
    int held = held_lock();
    if (!is_between(place, program)) {
        int what = is_between(place, observer) ? OBSERVER : memory_caller ? MEMORY : LIBRARY;
        count(held, what, !held ? 0 : memory_caller ? memory_caller : caller_on((uintptr_t *)registers[REG_RSP]));
    } else
        count(held, CODE, place);
}

static void start_samples(void) {
    struct perf_event_attr event = {.type = PERF_TYPE_SOFTWARE, .size = sizeof event, .config = PERF_COUNT_SW_CPU_CLOCK};
    event.sample_period = get(&shared->period);
    struct f_owner_ex owner = {F_OWNER_TID, call(SYS_gettid, 0, 0, 0, 0, 0, 0)};
    if (!event.sample_period) return;
    int file = call(SYS_perf_event_open, (long)&event, 0, -1, -1, PERF_FLAG_FD_CLOEXEC, 0);
    if (file < 0) event.exclude_kernel = 1, file = call(SYS_perf_event_open, (long)&event, 0, -1, -1, PERF_FLAG_FD_CLOEXEC, 0);
    if (file < 0) return;
    fcntl(file, F_SETFL, O_ASYNC);
    fcntl(file, F_SETSIG, SIGRTMAX);
    fcntl(file, F_SETOWN_EX, &owner);
}

struct start { void *(*run)(void *); void *with; };

static void *run_sampled(void *of) {
    struct start start = *(struct start *)of;
    __libc_free(of);
    start_samples();
    return start.run(start.with);
}

static int (*create)(pthread_t *, const pthread_attr_t *, void *(*)(void *), void *);

int pthread_create(pthread_t *thread, const pthread_attr_t *settings, void *(*run)(void *), void *with) {
    struct start *start = shared ? __libc_malloc(sizeof *start) : NULL;
    if (!create) *(void **)&create = dlsym(RTLD_NEXT, "pthread_create");
    if (!start) return create(thread, settings, run, with);
    *start = (struct start){run, with};
    return create(thread, settings, run_sampled, start);
}

/* Looks at all locks once. */
static void look(void) {
    int count = get(&shared->lock_count);
    add(&shared->looks, count > 0);
    for (int lock = 0; lock < count; lock++) {
        uint64_t word = word_of(lock);
        add(&shared->held[lock], is_held(word));
        add(&shared->wanted[lock], is_held(word) && word);
    }
}

/* Looks at admission's lock without a pause, and counts how long it is held each time. A time in which this thread was interrupted is
   left out. */
static void look_closely(void) {
    uint64_t begin = 0, last = now();
    int is_whole = 0;
    for (int step = 0; step < CLOSE_LOOKS; step++) {
        int is_begun = is_held(word_of(0));
        uint64_t time = now(), length = time - begin, power = 63 - __builtin_clzll(length | 8);
        if (time - last > MAX_GAP) is_whole = 0;
        if (is_whole && begin && !is_begun) add(&shared->lengths[power * 8 + (length >> (power - 3) & 7)], 1);
        if (!begin && is_begun) begin = time;
        if (!is_begun) begin = 0, is_whole = 1;
        last = time;
    }
}

/* Looks at the locks every 50 to 150 microseconds, or without a pause if `is_close` is set. */
static void *watch(void *nothing) {
    unsigned seed = 1;
    prctl(PR_SET_TIMERSLACK, 1);
    atomic_store(&shared->watcher, call(SYS_gettid, 0, 0, 0, 0, 0, 0));
    for (;;) {
        struct timespec pause = {0, 50000 + rand_r(&seed) % 100000};
        int is_close = get(&shared->is_close) && get(&shared->lock_count);
        if (is_close) look_closely();
        else nanosleep(&pause, NULL), look();
    }
    return nothing;
}

/* Stores where the code of the program and of this library is. The program is the first object. */
static int find_code(struct dl_phdr_info *object, size_t size, void *is_later) {
    (void)size;
    for (int at = 0; at < object->dlpi_phnum; at++) {
        const ElfW(Phdr) *part = &object->dlpi_phdr[at];
        uintptr_t ends[2] = {object->dlpi_addr + part->p_vaddr, object->dlpi_addr + part->p_vaddr + part->p_memsz};
        if (part->p_type != PT_LOAD || !(part->p_flags & PF_X)) continue;
        if (!*(int *)is_later) program[0] = ends[0], program[1] = ends[1], atomic_store(&shared->base, object->dlpi_addr);
        if (is_between((uintptr_t)find_code, ends)) observer[0] = ends[0], observer[1] = ends[1];
    }
    *(int *)is_later = 1;
    return 0;
}

__attribute__((constructor)) static void begin(void) {
    const char *name = getenv("LOCKS");
    int file = name ? open(name, O_RDWR | O_CLOEXEC) : -1, is_later = 0;
    void *found = file < 0 ? MAP_FAILED : mmap(NULL, sizeof *shared, PROT_READ | PROT_WRITE, MAP_SHARED, file, 0);
    struct sigaction action = {.sa_sigaction = sample, .sa_flags = SA_SIGINFO | SA_RESTART};
    pthread_t thread;
    if (found == MAP_FAILED) return;
    shared = found;
    dl_iterate_phdr(find_code, &is_later);
    sigaction(SIGRTMAX, &action, NULL);
    *(void **)&create = dlsym(RTLD_NEXT, "pthread_create");
    if (create) create(&thread, NULL, watch, NULL);
    start_samples();
}
