/* Refuses what a program asks of the allocator, from one call to another, as REFUSE says ("7", "7-9"), and all while there is
   a file of the name that REFUSE_WHILE tells, and writes how many calls there were into the file that REFUSE_COUNT names.
   Built and preloaded by refusing.py. */
#define _GNU_SOURCE
#include <dlfcn.h>
#include <errno.h>
#include <stddef.h>
#include <stdio.h>
#include <stdlib.h>
#include <string.h>
#include <sys/syscall.h>
#include <unistd.h>

static long calls, first, last;
static const char *signal_file;
static void *(*next_malloc)(size_t);
static void *(*next_realloc)(void *, size_t);
static void *(*next_aligned_alloc)(size_t, size_t);
static int (*next_posix_memalign)(void **, size_t, size_t);

static int is_refused(void) {
    if (!next_malloc) {
        next_malloc = dlsym(RTLD_NEXT, "malloc");
        next_realloc = dlsym(RTLD_NEXT, "realloc");
        next_aligned_alloc = dlsym(RTLD_NEXT, "aligned_alloc");
        next_posix_memalign = dlsym(RTLD_NEXT, "posix_memalign");
        const char *told = getenv("REFUSE");
        const char *behind = told ? strchr(told, '-') : 0;
        first = told ? atol(told) : 0;
        last = behind ? atol(behind + 1) : first;
        signal_file = getenv("REFUSE_WHILE");
    }
    long call = __atomic_add_fetch(&calls, 1, __ATOMIC_SEQ_CST);
    if (signal_file && access(signal_file, F_OK) == 0) return 1;
    return first && call >= first && call <= last;
}

void *malloc(size_t size) {
    if (!is_refused()) return next_malloc(size);
    errno = ENOMEM;
    return 0;
}

void *realloc(void *old, size_t size) {
    if (!is_refused()) return next_realloc(old, size);
    errno = ENOMEM;
    return 0;
}

void *aligned_alloc(size_t align, size_t size) {
    if (!is_refused()) return next_aligned_alloc(align, size);
    errno = ENOMEM;
    return 0;
}

int posix_memalign(void **place, size_t align, size_t size) {
    return is_refused() ? ENOMEM : next_posix_memalign(place, align, size);
}

__attribute__((destructor)) static void tell(void) {
    const char *path = getenv("REFUSE_COUNT");
    FILE *file = path ? fopen(path, "w") : 0;
    if (!file) return;
    fprintf(file, "%ld\n", calls);
    fclose(file);
}

/* A program that has threads ends without its destructors. */
void _exit(int status) {
    tell();
    syscall(SYS_exit_group, status);
    __builtin_unreachable();
}
