// A disk that can't write, and loses what it could not: preloaded into a program, the sync of the file LOSSY_FILE whose number is
// LOSSY_FAILS fails (0: none does), and what was written since the sync before is lost, though who reads the file finds it: as
// Linux has it, which takes such pages for written. What is on the disk stands in the file LOSSY_DISK.
#define _GNU_SOURCE
#include <dlfcn.h>
#include <errno.h>
#include <fcntl.h>
#include <pthread.h>
#include <stdlib.h>
#include <sys/stat.h>
#include <unistd.h>

enum { MOST = 4096 };

static pthread_mutex_t lock = PTHREAD_MUTEX_INITIALIZER;
static struct { off_t from, to; } written[MOST];
static int count, syncs;

// Whether this descriptor is that of the file.
static int is_file(int file) {
    struct stat one, other;
    const char *name = getenv("LOSSY_FILE");
    return name && stat(name, &one) == 0 && fstat(file, &other) == 0 && one.st_ino == other.st_ino && one.st_dev == other.st_dev;
}

ssize_t write(int file, const void *bytes, size_t size) {
    static ssize_t (*real)(int, const void *, size_t);
    if (!real) real = (ssize_t (*)(int, const void *, size_t))dlsym(RTLD_NEXT, "write");
    if (!is_file(file)) return real(file, bytes, size);
    pthread_mutex_lock(&lock);
    ssize_t done = real(file, bytes, size);
    if (done > 0) {
        if (count == MOST) _exit(98);
        written[count].to = lseek(file, 0, SEEK_CUR);
        written[count].from = written[count].to - done;
        count++;
    }
    pthread_mutex_unlock(&lock);
    return done;
}

// Puts on the disk what was written.
static void put(void) {
    char piece[65536];
    struct stat found;
    int from = open(getenv("LOSSY_FILE"), O_RDONLY), to = open(getenv("LOSSY_DISK"), O_WRONLY | O_CREAT, 0600);
    if (from < 0 || to < 0 || fstat(from, &found) != 0 || ftruncate(to, found.st_size) != 0) _exit(97);
    for (int i = 0; i < count; i++) {
        for (off_t at = written[i].from; at < written[i].to;) {
            size_t wanted = (size_t)(written[i].to - at) < sizeof piece ? (size_t)(written[i].to - at) : sizeof piece;
            ssize_t taken = pread(from, piece, wanted, at);
            if (taken <= 0 || pwrite(to, piece, (size_t)taken, at) != taken) _exit(96);
            at += taken;
        }
    }
    close(from);
    close(to);
}

static int sync_file(int file, int (*real)(int)) {
    if (!is_file(file)) return real(file);
    const char *fails = getenv("LOSSY_FAILS");
    pthread_mutex_lock(&lock);
    int is_lost = ++syncs == (fails ? atoi(fails) : 0);
    if (!is_lost) put();
    count = 0;
    pthread_mutex_unlock(&lock);
    if (is_lost) errno = EIO;
    return is_lost ? -1 : 0;
}

int fdatasync(int file) { return sync_file(file, (int (*)(int))dlsym(RTLD_NEXT, "fdatasync")); }

int fsync(int file) { return sync_file(file, (int (*)(int))dlsym(RTLD_NEXT, "fsync")); }
