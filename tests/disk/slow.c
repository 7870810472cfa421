// A disk that takes a while: preloaded into a program, each fdatasync and fsync of it takes SLOW_SYNC_MICROS microseconds, and is
// counted in the file SLOW_SYNC_COUNT.
#include <fcntl.h>
#include <stdatomic.h>
#include <stdint.h>
#include <stdlib.h>
#include <sys/mman.h>
#include <time.h>
#include <unistd.h>

static _Atomic uint64_t *counted;
static long micros;

__attribute__((constructor)) static void begin(void) {
    const char *file = getenv("SLOW_SYNC_COUNT"), *given = getenv("SLOW_SYNC_MICROS");
    int opened = file ? open(file, O_RDWR | O_CREAT, 0600) : -1;
    if (opened < 0 || !given || ftruncate(opened, sizeof *counted) != 0) _exit(99);
    counted = mmap(0, sizeof *counted, PROT_READ | PROT_WRITE, MAP_SHARED, opened, 0);
    if (counted == MAP_FAILED) _exit(99);
    micros = atol(given);
    close(opened);
}

static int waited(void) {
    struct timespec left = { micros / 1000000, micros % 1000000 * 1000 };
    while (nanosleep(&left, &left) != 0) {}
    atomic_fetch_add(counted, 1);
    return 0;
}

int fdatasync(int file) { (void)file; return waited(); }

int fsync(int file) { (void)file; return waited(); }
