// A preloaded library that refuses one call of the system's library. REFUSE names its kind and its number, as in
// "memory 12": the twelfth allocation answers that there is none. An "open", "read", "write" or "thread" fails as where
// the file may not be read, the device is broken or there are too many threads. With "short 1" every read and write
// moves one byte. Where the call came, the file that REFUSED names is made. At the end the file that LEFT names gets how
// many blocks of memory were not freed.
//
// With EACH, a folder, the program is run many times, each time by a process of its own and with the next allocation
// refused, until three numbers in a row are not reached: thousands of runs take seconds. The folder's file `right` is what
// standard output should be. Of each run its file `runs` gets a line: whether the allocation came, the status, whether
// standard output is `whole`, `none` of it or `wrong`, the blocks of memory that were not freed, and standard error.
#define _GNU_SOURCE
#include <dlfcn.h>
#include <errno.h>
#include <fcntl.h>
#include <pthread.h>
#include <stdarg.h>
#include <stdatomic.h>
#include <stdio.h>
#include <stdlib.h>
#include <string.h>
#include <sys/mman.h>
#include <sys/syscall.h>
#include <sys/wait.h>
#include <unistd.h>

// glibc's own allocator, below the names that are taken here
void *__libc_malloc(size_t size);
void *__libc_calloc(size_t count, size_t size);
void *__libc_realloc(void *old, size_t size);
void *__libc_memalign(size_t align, size_t size);
void __libc_free(void *block);

static int (*start)(pthread_t *, const pthread_attr_t *, void *(*)(void *), void *);
static char kind[16];
static long number;
static atomic_long calls;
static atomic_long blocks;

// what a run tells the process that tries each allocation
struct told {
    long came;
    long left;
};
static struct told *shared;

static int opened_in(const char *folder, const char *name, int flags) {
    char path[4096];
    snprintf(path, sizeof path, "%s/%s", folder, name);
    return (int)syscall(SYS_openat, AT_FDCWD, path, flags, 0666);
}

// The bytes of a file, up to most, and how many they are.
static size_t bytes_of(const char *folder, const char *name, char *to, size_t most) {
    int file = opened_in(folder, name, O_RDONLY);
    size_t size = 0;
    long more = 0;
    while (size < most && (more = syscall(SYS_read, file, to + size, most - size)) > 0)
        size += more;
    syscall(SYS_close, file);
    return size;
}

// Tries each allocation. Each run comes back from here, and goes on to the program's main.
static void try_each(const char *folder) {
    static char right[1 << 20], out[1 << 20], err[80];
    size_t wanted = bytes_of(folder, "right", right, sizeof right);
    int runs = opened_in(folder, "runs", O_CREAT | O_WRONLY | O_TRUNC);
    int beyond = 0;
    shared = mmap(NULL, sizeof *shared, PROT_READ | PROT_WRITE, MAP_SHARED | MAP_ANONYMOUS, -1, 0);
    for (long next = 1; beyond < 3; next++) {
        *shared = (struct told){0, 0};
        pid_t run = fork();
        if (run == 0) {
            dup2(opened_in(folder, "out", O_CREAT | O_WRONLY | O_TRUNC), 1);
            dup2(opened_in(folder, "err", O_CREAT | O_WRONLY | O_TRUNC), 2);
            alarm(60);
            strcpy(kind, "memory");
            number = next;
            return;
        }
        int ended = -1;
        waitpid(run, &ended, 0);
        size_t size = bytes_of(folder, "out", out, sizeof out);
        size_t told = bytes_of(folder, "err", err, sizeof err - 1);
        err[told > 0 && err[told - 1] == '\n' ? told - 1 : told] = 0;
        int whole = size == wanted && memcmp(out, right, size) == 0;
        dprintf(runs, "%s %d %s %ld %s\n", shared->came ? "refused" : "beyond", WIFEXITED(ended) ? WEXITSTATUS(ended) : -1,
                whole ? "whole" : size == 0 ? "none" : "wrong", shared->left, err);
        beyond = shared->came ? 0 : beyond + 1;
    }
    syscall(SYS_exit_group, 0);
}

// Nothing is refused before this has run.
__attribute__((constructor)) static void begin(void) {
    const char *asked = getenv("REFUSE");
    start = (int (*)(pthread_t *, const pthread_attr_t *, void *(*)(void *), void *))dlsym(RTLD_NEXT, "pthread_create");
    if (asked != NULL && sscanf(asked, "%15s %ld", kind, &number) != 2)
        abort();
    if (getenv("EACH") != NULL)
        try_each(getenv("EACH"));
}

// whether this call is the one to refuse
static int is_refused(const char *call) {
    if (strcmp(kind, call) != 0 || atomic_fetch_add(&calls, 1) + 1 != number)
        return 0;
    if (shared != NULL)
        shared->came = 1;
    const char *told = getenv("REFUSED");
    if (told != NULL)
        syscall(SYS_close, syscall(SYS_openat, AT_FDCWD, told, O_CREAT | O_WRONLY, 0666));
    return 1;
}

// Tells how many blocks were not freed.
static void tell_left(void) {
    const char *left = getenv("LEFT");
    char text[32];
    if (shared != NULL)
        shared->left = atomic_load(&blocks);
    if (left != NULL) {
        int file = (int)syscall(SYS_openat, AT_FDCWD, left, O_CREAT | O_WRONLY | O_TRUNC, 0666);
        int size = snprintf(text, sizeof text, "%ld\n", atomic_load(&blocks));
        syscall(SYS_write, file, text, size);
        syscall(SYS_close, file);
    }
}

// A program that starts no threads returns from its main, after it has given all back.
__attribute__((destructor)) static void end(void) {
    tell_left();
}

// One that may start some ends by this call, after it has.
void _exit(int status) {
    tell_left();
    for (;;)
        syscall(SYS_exit_group, status);
}

static void *no_memory(void) {
    errno = ENOMEM;
    return NULL;
}

static void *counted(void *block) {
    if (block != NULL)
        atomic_fetch_add(&blocks, 1);
    return block;
}

void *malloc(size_t size) {
    return is_refused("memory") ? no_memory() : counted(__libc_malloc(size));
}

void *calloc(size_t count, size_t size) {
    return is_refused("memory") ? no_memory() : counted(__libc_calloc(count, size));
}

void free(void *block) {
    if (block != NULL)
        atomic_fetch_sub(&blocks, 1);
    __libc_free(block);
}

void *realloc(void *old, size_t size) {
    if (old == NULL)
        return malloc(size);
    if (size == 0) {
        free(old);
        return NULL;
    }
    return is_refused("memory") ? no_memory() : __libc_realloc(old, size);
}

void *aligned_alloc(size_t align, size_t size) {
    return is_refused("memory") ? no_memory() : counted(__libc_memalign(align, size));
}

void *memalign(size_t align, size_t size) {
    return aligned_alloc(align, size);
}

int posix_memalign(void **to, size_t align, size_t size) {
    void *block = aligned_alloc(align, size);
    if (block == NULL)
        return ENOMEM;
    *to = block;
    return 0;
}

static int fails_with(int error) {
    errno = error;
    return -1;
}

static size_t moved(size_t size) {
    return size > 1 && strcmp(kind, "short") == 0 ? 1 : size;
}

ssize_t read(int file, void *to, size_t size) {
    return is_refused("read") ? fails_with(EIO) : syscall(SYS_read, file, to, moved(size));
}

ssize_t write(int file, const void *from, size_t size) {
    return is_refused("write") ? fails_with(EIO) : syscall(SYS_write, file, from, moved(size));
}

static int opened(int folder, const char *name, int flags, mode_t mode) {
    return is_refused("open") ? fails_with(EACCES) : syscall(SYS_openat, folder, name, flags, mode);
}

int openat(int folder, const char *name, int flags, ...) {
    va_list rest;
    va_start(rest, flags);
    mode_t mode = flags & O_CREAT ? va_arg(rest, mode_t) : 0;
    va_end(rest);
    return opened(folder, name, flags, mode);
}

int open(const char *name, int flags, ...) {
    va_list rest;
    va_start(rest, flags);
    mode_t mode = flags & O_CREAT ? va_arg(rest, mode_t) : 0;
    va_end(rest);
    return opened(AT_FDCWD, name, flags, mode);
}

int pthread_create(pthread_t *thread, const pthread_attr_t *with, void *(*run)(void *), void *given) {
    return is_refused("thread") ? EAGAIN : start(thread, with, run, given);
}
