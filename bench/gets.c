// Reads files by pread, in the order of a list, and digests each with SHA-256 (FIPS 180-4): gets LIST TIMES. Each line of LIST is a file's path; the list is gone through TIMES times, which
// may be a fraction. It prints the processor's seconds of the reading. Each file is opened once, before all reading, but for those of which the system lets no more be open: these are opened and closed at each read.
#define _GNU_SOURCE
#include <fcntl.h>
#include <search.h>
#include <stdint.h>
#include <stdio.h>
#include <stdlib.h>
#include <string.h>
#include <sys/resource.h>
#include <time.h>
#include <unistd.h>

static const uint32_t K[64] = {
    0x428a2f98, 0x71374491, 0xb5c0fbcf, 0xe9b5dba5, 0x3956c25b, 0x59f111f1, 0x923f82a4, 0xab1c5ed5, 0xd807aa98, 0x12835b01, 0x243185be, 0x550c7dc3, 0x72be5d74,
    0x80deb1fe, 0x9bdc06a7, 0xc19bf174, 0xe49b69c1, 0xefbe4786, 0x0fc19dc6, 0x240ca1cc, 0x2de92c6f, 0x4a7484aa, 0x5cb0a9dc, 0x76f988da, 0x983e5152, 0xa831c66d,
    0xb00327c8, 0xbf597fc7, 0xc6e00bf3, 0xd5a79147, 0x06ca6351, 0x14292967, 0x27b70a85, 0x2e1b2138, 0x4d2c6dfc, 0x53380d13, 0x650a7354, 0x766a0abb, 0x81c2c92e,
    0x92722c85, 0xa2bfe8a1, 0xa81a664b, 0xc24b8b70, 0xc76c51a3, 0xd192e819, 0xd6990624, 0xf40e3585, 0x106aa070, 0x19a4c116, 0x1e376c08, 0x2748774c, 0x34b0bcb5,
    0x391c0cb3, 0x4ed8aa4a, 0x5b9cca4f, 0x682e6ff3, 0x748f82ee, 0x78a5636f, 0x84c87814, 0x8cc70208, 0x90befffa, 0xa4506ceb, 0xbef9a3f7, 0xc67178f2};

#define ROTATED(x, n) ((x) >> (n) | (x) << (32 - (n)))
#define ROUND(a, b, c, d, e, f, g, h, i) \
    h += (ROTATED(e, 6) ^ ROTATED(e, 11) ^ ROTATED(e, 25)) + (g ^ (e & (f ^ g))) + K[i] + w[i]; \
    d += h; \
    h += (ROTATED(a, 2) ^ ROTATED(a, 13) ^ ROTATED(a, 22)) + ((a & b) | (c & (a | b)))

static void digest_block(uint32_t state[8], const uint8_t *block) {
    uint32_t w[64], a = state[0], b = state[1], c = state[2], d = state[3], e = state[4], f = state[5], g = state[6], h = state[7];
    for (int i = 0; i < 16; i++) w[i] = (uint32_t)block[4 * i] << 24 | block[4 * i + 1] << 16 | block[4 * i + 2] << 8 | block[4 * i + 3];
    for (int i = 16; i < 64; i++) {
        uint32_t p = w[i - 15], q = w[i - 2];
        w[i] = w[i - 16] + (ROTATED(p, 7) ^ ROTATED(p, 18) ^ p >> 3) + w[i - 7] + (ROTATED(q, 17) ^ ROTATED(q, 19) ^ q >> 10);
    }
    for (int i = 0; i < 64; i += 8) {
        ROUND(a, b, c, d, e, f, g, h, i);
        ROUND(h, a, b, c, d, e, f, g, i + 1);
        ROUND(g, h, a, b, c, d, e, f, i + 2);
        ROUND(f, g, h, a, b, c, d, e, i + 3);
        ROUND(e, f, g, h, a, b, c, d, i + 4);
        ROUND(d, e, f, g, h, a, b, c, i + 5);
        ROUND(c, d, e, f, g, h, a, b, i + 6);
        ROUND(b, c, d, e, f, g, h, a, i + 7);
    }
    state[0] += a, state[1] += b, state[2] += c, state[3] += d, state[4] += e, state[5] += f, state[6] += g, state[7] += h;
}

static uint32_t digest(const uint8_t *bytes, size_t length) {
    uint32_t state[8] = {0x6a09e667, 0xbb67ae85, 0x3c6ef372, 0xa54ff53a, 0x510e527f, 0x9b05688c, 0x1f83d9ab, 0x5be0cd19};
    size_t at = 0;
    for (; at + 64 <= length; at += 64) digest_block(state, bytes + at);
    uint8_t last[128] = {0};
    size_t rest = length - at, size = rest < 56 ? 64 : 128;
    memcpy(last, bytes + at, rest);
    last[rest] = 0x80;
    for (int i = 0; i < 8; i++) last[size - 1 - i] = (uint64_t)length * 8 >> 8 * i;
    for (at = 0; at < size; at += 64) digest_block(state, last + at);
    return state[0];
}

int main(int count, char **words) {
    struct rlimit most;
    if (count != 3 || getrlimit(RLIMIT_NOFILE, &most)) return 2;
    most.rlim_cur = most.rlim_max;
    setrlimit(RLIMIT_NOFILE, &most);
    size_t spare = most.rlim_cur > 64 ? most.rlim_cur - 64 : 0;
    FILE *list = fopen(words[1], "r");
    static char path[4096];
    static uint8_t bytes[1 << 25];
    size_t files = 0, room = 1 << 22;
    struct { char *path; int file; } *all = malloc(room * sizeof *all);
    if (!list || !all || !hcreate(1 << 20)) return 1;
    while (fgets(path, sizeof path, list) && files < room) {
        path[strcspn(path, "\n")] = 0;
        ENTRY *met = hsearch((ENTRY){.key = path}, FIND);
        if (!met) {
            int file = spare ? open(path, O_RDONLY) : -1;
            if (file < 0 && spare) return perror(path), 1;
            spare -= spare > 0;
            met = hsearch((ENTRY){.key = strdup(path), .data = (void *)(intptr_t)file}, ENTER);
        }
        if (!met) return 1;
        all[files].path = met->key;
        all[files++].file = (int)(intptr_t)met->data;
    }
    struct timespec begun, ended;
    clock_gettime(CLOCK_PROCESS_CPUTIME_ID, &begun);
    uint32_t sum = 0;
    size_t reads = (size_t)(files * atof(words[2]));
    for (size_t at = 0; at < reads; at++) {
        int kept = all[at % files].file, file = kept < 0 ? open(all[at % files].path, O_RDONLY) : kept;
        ssize_t length = pread(file, bytes, sizeof bytes, 0);
        if (length < 0) return perror("pread"), 1;
        sum ^= digest(bytes, length);
        if (kept < 0) close(file);
    }
    clock_gettime(CLOCK_PROCESS_CPUTIME_ID, &ended);
    printf("%.6f\n", ended.tv_sec - begun.tv_sec + (ended.tv_nsec - begun.tv_nsec) * 1e-9);
    // The sum is used, so no digest can be left out.
    return sum == 0x5eed5eed ? 3 : 0;
}
