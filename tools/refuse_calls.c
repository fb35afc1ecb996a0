// Preloaded into a built test or program. It refuses one call: the growth of memory whose number, counted from 1, is
// FAIL_ALLOC, or the read of standard input whose number is FAIL_READ, with the error whose number is FAIL_ERROR, or EIO.
// Where the program makes the call, the file named by FAIL_MET is made. Each read takes at most READ_AT_MOST bytes.
#include <errno.h>
#include <fcntl.h>
#include <stdlib.h>
#include <unistd.h>

extern void *__libc_malloc(size_t);
extern void *__libc_realloc(void *, size_t);
extern ssize_t __read(int, void *, size_t);

// The number that a variable has, or another if it has none.
static long number_of(const char *variable, long other) {
    const char *number = getenv(variable);
    return number ? strtol(number, 0, 10) : other;
}

// Counts a call, and returns whether it is the one that the variable names.
static int is_refused(const char *variable, long *seen) {
    if (++*seen != number_of(variable, 0)) return 0;
    const char *met = getenv("FAIL_MET");
    if (met) close(creat(met, 0600));
    return 1;
}

static int is_growth_refused(void) {
    static long seen;
    return is_refused("FAIL_ALLOC", &seen);
}

void *malloc(size_t size) { return is_growth_refused() ? 0 : __libc_malloc(size); }

void *realloc(void *old, size_t size) { return is_growth_refused() ? 0 : __libc_realloc(old, size); }

ssize_t read(int file, void *bytes, size_t count) {
    static long seen;
    size_t most = (size_t)number_of("READ_AT_MOST", (long)count);
    if (file == STDIN_FILENO && is_refused("FAIL_READ", &seen)) {
        errno = (int)number_of("FAIL_ERROR", EIO);
        return -1;
    }
    return __read(file, bytes, most < count ? most : count);
}
