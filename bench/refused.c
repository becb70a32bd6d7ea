/* Put before a program by LD_PRELOAD, this refuses what it asks of the system, as the environment says:

       MEMORY_AT=k    the k-th request for memory is refused, from 1 on
       READ_AT=k      the k-th read from standard input fails
       WRITE_AT=k     the k-th write to standard output fails
       REPORT_AT=k    the k-th write to standard error fails
       PIECE=n        a read or write gives or takes at most n bytes
       STACK=n        the stack may grow by n bytes below the words of the command
       COUNTS=file    the counts of requests, reads, writes and reports are kept in this file, 8 bytes each

   Requests of the C library for itself are made on another way and are not counted. */

#define _GNU_SOURCE
#include <errno.h>
#include <fcntl.h>
#include <stdlib.h>
#include <string.h>
#include <sys/auxv.h>
#include <sys/mman.h>
#include <sys/resource.h>
#include <sys/syscall.h>
#include <sys/uio.h>
#include <unistd.h>

extern void *__libc_malloc(size_t size);
extern void *__libc_calloc(size_t count, size_t size);
extern void *__libc_realloc(void *old, size_t size);
extern void *__libc_memalign(size_t alignment, size_t size);

enum { MEMORY, READS, WRITES, REPORTS, KINDS };

static long own_counts[KINDS];
static long *counts = own_counts;
static long refused_at[KINDS];
static size_t piece;

static long number_of(const char *name) {
    const char *text = getenv(name);
    return text ? atol(text) : 0;
}

static void limit_stack(long most) {
    const char *last = (const char *)getauxval(AT_EXECFN);
    long used = last + strlen(last) + 4096 - (const char *)&most;
    struct rlimit limit;
    getrlimit(RLIMIT_STACK, &limit);
    limit.rlim_cur = used + most;
    setrlimit(RLIMIT_STACK, &limit);
}

static void keep_counts(const char *path) {
    int file = syscall(SYS_openat, AT_FDCWD, path, O_RDWR | O_CREAT, 0600);
    if (file < 0 || ftruncate(file, sizeof own_counts) != 0) return;
    long at = syscall(SYS_mmap, NULL, sizeof own_counts, PROT_READ | PROT_WRITE, MAP_SHARED, file, 0);
    syscall(SYS_close, file);
    if (at < 0 && at > -4096) return;
    counts = (long *)at;
    memset(counts, 0, sizeof own_counts);
}

__attribute__((constructor)) static void set_up(void) {
    const char *path = getenv("COUNTS");
    if (path) keep_counts(path);
    else memset(counts, 0, sizeof own_counts);
    refused_at[MEMORY] = number_of("MEMORY_AT");
    refused_at[READS] = number_of("READ_AT");
    refused_at[WRITES] = number_of("WRITE_AT");
    refused_at[REPORTS] = number_of("REPORT_AT");
    piece = number_of("PIECE");
    if (number_of("STACK")) limit_stack(number_of("STACK"));
}

/* Counts one more of a kind, and answers whether it is the one that is refused. */
static int is_refused(int kind, int error) {
    if (++counts[kind] != refused_at[kind]) return 0;
    errno = error;
    return 1;
}

void *malloc(size_t size) { return is_refused(MEMORY, ENOMEM) ? NULL : __libc_malloc(size); }

void *calloc(size_t count, size_t size) { return is_refused(MEMORY, ENOMEM) ? NULL : __libc_calloc(count, size); }

void *realloc(void *old, size_t size) { return is_refused(MEMORY, ENOMEM) ? NULL : __libc_realloc(old, size); }

void *aligned_alloc(size_t alignment, size_t size) {
    return is_refused(MEMORY, ENOMEM) ? NULL : __libc_memalign(alignment, size);
}

void *memalign(size_t alignment, size_t size) { return aligned_alloc(alignment, size); }

int posix_memalign(void **result, size_t alignment, size_t size) {
    void *found = aligned_alloc(alignment, size);
    if (found) *result = found;
    return found ? 0 : ENOMEM;
}

void *mmap(void *at, size_t size, int access, int flags, int file, off_t offset) {
    if (is_refused(MEMORY, ENOMEM)) return MAP_FAILED;
    return (void *)syscall(SYS_mmap, at, size, access, flags, file, offset);
}

void *mremap(void *old, size_t before, size_t after, int flags, ...) {
    if (is_refused(MEMORY, ENOMEM)) return MAP_FAILED;
    return (void *)syscall(SYS_mremap, old, before, after, flags, NULL);
}

static size_t cut(size_t size) { return piece && size > piece ? piece : size; }

ssize_t read(int file, void *into, size_t size) {
    if (file == 0 && is_refused(READS, EIO)) return -1;
    return syscall(SYS_read, file, into, file == 0 ? cut(size) : size);
}

ssize_t write(int file, const void *from, size_t size) {
    if (file == 1 && is_refused(WRITES, EIO)) return -1;
    if (file == 2 && is_refused(REPORTS, EIO)) return -1;
    return syscall(SYS_write, file, from, file == 1 || file == 2 ? cut(size) : size);
}

/* Of several parts the first that is not empty is given or taken. */
static struct iovec first_of(const struct iovec *parts, int count) {
    while (count > 1 && parts->iov_len == 0) parts++, count--;
    return count < 1 ? (struct iovec){NULL, 0} : *parts;
}

/* The C library's own name of it, which programs call too. */
ssize_t __write(int file, const void *from, size_t size) { return write(file, from, size); }

ssize_t readv(int file, const struct iovec *parts, int count) {
    struct iovec first = first_of(parts, count);
    return read(file, first.iov_base, first.iov_len);
}

ssize_t writev(int file, const struct iovec *parts, int count) {
    struct iovec first = first_of(parts, count);
    return write(file, first.iov_base, first.iov_len);
}
