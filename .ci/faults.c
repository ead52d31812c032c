/* Preloaded under a program: makes calls of one kind fail, and counts the calls of each kind.

     FAULT=KIND:FIRST:LAST:EACH   calls FIRST to LAST of the kind fail, counted from 1; where EACH is told, of these each EACH-th one
     FAULT_COUNTS=FILE            at the end the file gets a line `KIND COUNT` for each kind
     FAULT_SECONDS=N              the program is ended by SIGALRM after N seconds

   memory: malloc and its kin find no memory. read: standard input fails. write: standard output fails. line: standard error fails.
   interrupt: a read or a write of these is interrupted by a signal. cut: it takes at most 3 bytes. thread: a thread can't be made.
   wait: a wait for another thread ends at once. */
#define _GNU_SOURCE
#include <dlfcn.h>
#include <errno.h>
#include <fcntl.h>
#include <linux/futex.h>
#include <pthread.h>
#include <stdarg.h>
#include <stdatomic.h>
#include <stdio.h>
#include <stdlib.h>
#include <string.h>
#include <sys/syscall.h>
#include <sys/uio.h>
#include <unistd.h>

enum kind { MEMORY, READ, WRITE, LINE, INTERRUPT, CUT, THREAD, WAIT, KINDS };
static const char *const names[KINDS] = {"memory", "read", "write", "line", "interrupt", "cut", "thread", "wait"};
static atomic_long calls[KINDS];
static enum kind failing = KINDS;
static long first, last, each = 1;

/* A call of the system past the C library, whose calls are the ones that are made to fail. */
static long bare(long number, long a, long b, long c, long d, long e, long f)
{
    long answer;
    register long r10 __asm__("r10") = d;
    register long r8 __asm__("r8") = e;
    register long r9 __asm__("r9") = f;
    __asm__ volatile("syscall" : "=a"(answer) : "a"(number), "D"(a), "S"(b), "d"(c), "r"(r10), "r"(r8), "r"(r9) : "rcx", "r11", "memory");
    return answer;
}

static long answered(long answer)
{
    if (answer >= 0 || answer < -4095)
        return answer;
    errno = (int)-answer;
    return -1;
}

static int fails(enum kind kind)
{
    long call = atomic_fetch_add(&calls[kind], 1) + 1;
    return kind == failing && first <= call && call <= last && (call - first) % each == 0;
}

__attribute__((constructor)) static void begin(void)
{
    const char *fault = getenv("FAULT"), *seconds = getenv("FAULT_SECONDS");
    const char *colon = fault ? strchr(fault, ':') : NULL;
    int kind;
    for (kind = 0; colon && kind < KINDS; kind++)
        if (strlen(names[kind]) == (size_t)(colon - fault) && memcmp(fault, names[kind], (size_t)(colon - fault)) == 0)
            failing = (enum kind)kind;
    if (colon) {
        char *end;
        first = strtol(colon + 1, &end, 10);
        last = *end == ':' ? strtol(end + 1, &end, 10) : first;
        each = *end == ':' ? strtol(end + 1, NULL, 10) : 1;
    }
    if (seconds)
        alarm((unsigned)atol(seconds));
}

static void tell(void)
{
    const char *file = getenv("FAULT_COUNTS");
    char text[400];
    int kind, length = 0;
    long to;
    if (!file)
        return;
    for (kind = 0; kind < KINDS; kind++)
        length += snprintf(text + length, sizeof text - (size_t)length, "%s %ld\n", names[kind], (long)calls[kind]);
    to = bare(SYS_openat, AT_FDCWD, (long)file, O_WRONLY | O_CREAT | O_TRUNC, 0600, 0, 0);
    bare(SYS_write, to, (long)text, length, 0, 0, 0);
    bare(SYS_close, to, 0, 0, 0, 0, 0);
}

__attribute__((destructor)) static void end(void)
{
    tell();
}

void _exit(int status)
{
    tell();
    bare(SYS_exit_group, status, 0, 0, 0, 0, 0);
    __builtin_unreachable();
}

/* ---- Memory. */

void *__libc_malloc(size_t), *__libc_calloc(size_t, size_t), *__libc_realloc(void *, size_t), *__libc_memalign(size_t, size_t);

static int refused(void)
{
    if (!fails(MEMORY))
        return 0;
    errno = ENOMEM;
    return 1;
}

void *malloc(size_t size) { return refused() ? NULL : __libc_malloc(size); }
void *calloc(size_t count, size_t size) { return refused() ? NULL : __libc_calloc(count, size); }
void *realloc(void *block, size_t size) { return refused() ? NULL : __libc_realloc(block, size); }
void *memalign(size_t unit, size_t size) { return refused() ? NULL : __libc_memalign(unit, size); }
void *aligned_alloc(size_t unit, size_t size) { return refused() ? NULL : __libc_memalign(unit, size); }

int posix_memalign(void **block, size_t unit, size_t size)
{
    void *made = refused() ? NULL : __libc_memalign(unit, size);
    if (!made)
        return ENOMEM;
    *block = made;
    return 0;
}

/* ---- Streams. */

static int stream_fails(enum kind kind, int number)
{
    if (fails(INTERRUPT))
        errno = EINTR;
    else if (fails(kind))
        errno = number;
    else
        return 0;
    return 1;
}

ssize_t read(int from, void *bytes, size_t length)
{
    if (from == 0) {
        if (stream_fails(READ, EIO))
            return -1;
        if (fails(CUT) && length > 3)
            length = 3;
    }
    return answered(bare(SYS_read, from, (long)bytes, (long)length, 0, 0, 0));
}

ssize_t write(int to, const void *bytes, size_t length)
{
    if (to == 1 || to == 2) {
        if (to == 1 ? stream_fails(WRITE, ENOSPC) : stream_fails(LINE, EIO))
            return -1;
        if (fails(CUT) && length > 3)
            length = 3;
    }
    return answered(bare(SYS_write, to, (long)bytes, (long)length, 0, 0, 0));
}

ssize_t writev(int to, const struct iovec *parts, int count)
{
    int part;
    for (part = 0; part < count; part++)
        if (parts[part].iov_len > 0)
            return write(to, parts[part].iov_base, parts[part].iov_len);
    return 0;
}

/* ---- Threads. */

int pthread_create(pthread_t *thread, const pthread_attr_t *attributes, void *(*call)(void *), void *with)
{
    static int (*real)(pthread_t *, const pthread_attr_t *, void *(*)(void *), void *);
    if (!real)
        *(void **)&real = dlsym(RTLD_NEXT, "pthread_create");
    return fails(THREAD) ? EAGAIN : real(thread, attributes, call, with);
}

long syscall(long number, ...)
{
    va_list words;
    long a, b, c, d, e, f;
    va_start(words, number);
    a = va_arg(words, long), b = va_arg(words, long), c = va_arg(words, long);
    d = va_arg(words, long), e = va_arg(words, long), f = va_arg(words, long);
    va_end(words);
    if (number == SYS_futex && ((b & FUTEX_CMD_MASK) == FUTEX_WAIT || (b & FUTEX_CMD_MASK) == FUTEX_WAIT_BITSET) && fails(WAIT)) {
        errno = EINTR;
        return -1;
    }
    return answered(bare(number, a, b, c, d, e, f));
}
