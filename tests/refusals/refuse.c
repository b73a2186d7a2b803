/* A library to preload into a program. It lets one allocation fail: the one with the number in the environment variable
   REFUSE, counted from 1. It then creates the file named in REFUSE_MET. */
#include "../lib/memory.h"

static atomic_ulong calls;
static unsigned long refused;

__attribute__((constructor)) static void begin(void) {
    const char *number = getenv("REFUSE");
    refused = number ? strtoul(number, NULL, 10) : 0;
    atomic_store(&calls, 0);
}

static int is_refused(void) {
    unsigned long call = atomic_fetch_add(&calls, 1) + 1;
    const char *name = getenv("REFUSE_MET");
    if (call != refused) return 0;
    if (name) close(open(name, O_WRONLY | O_CREAT, 0600));
    errno = ENOMEM;
    return 1;
}
