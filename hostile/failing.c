// Loaded before a program, this makes one of its allocations, reads or writes fail: the one whose number, from 1, is in the
// variable FAIL_ALLOC, FAIL_READ or FAIL_WRITE. As the program exits it writes how many of each there were to the file that
// COUNTS names.
#define _GNU_SOURCE
#include <errno.h>
#include <fcntl.h>
#include <stdatomic.h>
#include <stdio.h>
#include <stdlib.h>
#include <sys/syscall.h>
#include <unistd.h>

static atomic_long allocations, reads, writes;
static long failing_allocation, failing_read, failing_write;

static long number(const char *name) {
    const char *text = getenv(name);
    return text ? atol(text) : 0;
}

__attribute__((constructor)) static void begin(void) {
    failing_allocation = number("FAIL_ALLOC");
    failing_read = number("FAIL_READ");
    failing_write = number("FAIL_WRITE");
    atomic_store(&allocations, 0);
}

void _exit(int status) {
    const char *name = getenv("COUNTS");
    int file = name ? open(name, O_WRONLY | O_CREAT | O_TRUNC, 0600) : -1;
    if (file >= 0) {
        char line[100];
        int size = snprintf(line, sizeof line, "%ld %ld %ld\n", atomic_load(&allocations), atomic_load(&reads), atomic_load(&writes));
        syscall(SYS_write, file, line, size);
    }
    for (;;) syscall(SYS_exit_group, status);
}

static int fails(atomic_long *count, long failing) {
    return atomic_fetch_add(count, 1) + 1 == failing;
}

extern void *__libc_malloc(size_t);
extern void *__libc_calloc(size_t, size_t);
extern void *__libc_realloc(void *, size_t);
extern void *__libc_memalign(size_t, size_t);

void *malloc(size_t size) {
    return fails(&allocations, failing_allocation) ? (errno = ENOMEM, NULL) : __libc_malloc(size);
}

void *calloc(size_t items, size_t size) {
    return fails(&allocations, failing_allocation) ? (errno = ENOMEM, NULL) : __libc_calloc(items, size);
}

void *realloc(void *old, size_t size) {
    return fails(&allocations, failing_allocation) ? (errno = ENOMEM, NULL) : __libc_realloc(old, size);
}

void *aligned_alloc(size_t align, size_t size) {
    return fails(&allocations, failing_allocation) ? (errno = ENOMEM, NULL) : __libc_memalign(align, size);
}

int posix_memalign(void **made, size_t align, size_t size) {
    if (fails(&allocations, failing_allocation)) return ENOMEM;
    void *block = __libc_memalign(align, size);
    if (!block) return ENOMEM;
    *made = block;
    return 0;
}

ssize_t read(int file, void *bytes, size_t size) {
    return fails(&reads, failing_read) ? (errno = EIO, -1) : syscall(SYS_read, file, bytes, size);
}

ssize_t write(int file, const void *bytes, size_t size) {
    return fails(&writes, failing_write) ? (errno = EIO, -1) : syscall(SYS_write, file, bytes, size);
}

ssize_t __write(int file, const void *bytes, size_t size) {
    return write(file, bytes, size);
}
