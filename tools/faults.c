/* Faults in a program as it is built: tools/hostile compiles this and has the system load it before the C library.

   FAULT says what happens: "alloc N" refuses the N-th allocation, "alloc_from N" the N-th and all later ones, "read N" and
   "write N" fail that call, "short N" lets every read and write move at most N bytes, "count 0" nothing. At the end the
   counts go to the descriptor that COUNTS names. Calls before main are the system's own and are not counted. */
#include <errno.h>
#include <stdio.h>
#include <stdlib.h>
#include <string.h>
#include <sys/syscall.h>
#include <sys/types.h>
#include <unistd.h>

void *__libc_malloc(size_t size);
void *__libc_calloc(size_t count, size_t size);
void *__libc_realloc(void *old, size_t size);
void *__libc_memalign(size_t align, size_t size);

static char kind[16];
static unsigned long at, allocations, reads, writes;
static int counts = -1, begun;

__attribute__((constructor)) static void begin(void) {
    const char *fault = getenv("FAULT"), *told = getenv("COUNTS");
    if (fault) sscanf(fault, "%15s %lu", kind, &at);
    if (told) counts = atoi(told);
    begun = 1;
}

__attribute__((destructor)) static void end(void) {
    char line[80];
    int length = snprintf(line, sizeof line, "%lu %lu %lu\n", allocations, reads, writes);
    if (counts >= 0) syscall(SYS_write, counts, line, length);
}

static int refused(void) {
    if (!begun) return 0;
    allocations++;
    return (!strcmp(kind, "alloc") && allocations == at) || (!strcmp(kind, "alloc_from") && allocations >= at);
}

void *malloc(size_t size) { return refused() ? NULL : __libc_malloc(size); }
void *calloc(size_t count, size_t size) { return refused() ? NULL : __libc_calloc(count, size); }
void *realloc(void *old, size_t size) { return refused() ? NULL : __libc_realloc(old, size); }
void *aligned_alloc(size_t align, size_t size) { return refused() ? NULL : __libc_memalign(align, size); }
int posix_memalign(void **place, size_t align, size_t size) {
    *place = refused() ? NULL : __libc_memalign(align, size);
    return *place ? 0 : ENOMEM;
}

static ssize_t moved(long call, unsigned long *calls, const char *name, int from, const void *bytes, size_t size) {
    if (++*calls == at && !strcmp(kind, name)) {
        errno = EIO;
        return -1;
    }
    if (!strcmp(kind, "short") && size > at) size = at;
    return syscall(call, from, bytes, size);
}

ssize_t read(int from, void *bytes, size_t size) { return moved(SYS_read, &reads, "read", from, bytes, size); }
ssize_t write(int to, const void *bytes, size_t size) { return moved(SYS_write, &writes, "write", to, bytes, size); }
ssize_t __write(int to, const void *bytes, size_t size) { return write(to, bytes, size); }
