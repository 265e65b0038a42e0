// Notes when each record of a journal is durable, for bench/latencies: a library that the system loads before the C library's (LD_PRELOAD). A put by itself ends with a data sync behind a write of one
// byte, which opens the record's gate. The times, in nanoseconds, go into the file LATENCIES when the process ends.
#define _GNU_SOURCE
#include <dlfcn.h>
#include <stdint.h>
#include <stdio.h>
#include <stdlib.h>
#include <time.h>
#include <unistd.h>

enum { MOST = 1 << 22 };

static uint64_t times[MOST];
static size_t count;
static int opens;

ssize_t pwrite(int file, const void *bytes, size_t length, off_t at) {
    static ssize_t (*real)(int, const void *, size_t, off_t);
    if (!real) real = (ssize_t (*)(int, const void *, size_t, off_t))dlsym(RTLD_NEXT, "pwrite");
    opens = length == 1;
    return real(file, bytes, length, at);
}

int fdatasync(int file) {
    static int (*real)(int);
    if (!real) real = (int (*)(int))dlsym(RTLD_NEXT, "fdatasync");
    int done = real(file);
    if (opens && count < MOST) {
        struct timespec now;
        clock_gettime(CLOCK_MONOTONIC, &now);
        times[count++] = (uint64_t)now.tv_sec * 1000000000 + (uint64_t)now.tv_nsec;
    }
    opens = 0;
    return done;
}

__attribute__((destructor)) static void write_times(void) {
    const char *path = getenv("LATENCIES");
    FILE *file = path ? fopen(path, "w") : NULL;
    if (!file) return;
    for (size_t at = 0; at < count; at++) fprintf(file, "%lu\n", times[at]);
    fclose(file);
}
