// Gets and a scan by RocksDB, with a filter of 10 bits a key and no compression: gets_rocksdb FOLDER KEYS OTHERS GETS. KEYS and OTHERS have a key of 16 bytes a line; those of KEYS are put,
// with values of 100 bytes, in the order of a fixed shuffle. Prints one line. Times are of the processor, of the calling thread.
#include <rocksdb/c.h>
#include <stdio.h>
#include <stdlib.h>
#include <string.h>
#include <time.h>

enum { KEY = 16, VALUE = 100 };

static char *failed;

static void check(void) {
    if (failed) {
        fprintf(stderr, "%s\n", failed);
        exit(1);
    }
}

static char *read_keys(const char *path, size_t *count) {
    FILE *file = fopen(path, "r");
    char *keys = malloc(KEY * 10000000L);
    if (!file || !keys) exit(1);
    for (*count = 0; fread(keys + KEY * *count, KEY, 1, file) == 1 && fgetc(file) == '\n'; ++*count) {}
    return keys;
}

static double now(void) {
    struct timespec it;
    clock_gettime(CLOCK_THREAD_CPUTIME_ID, &it);
    return it.tv_sec + it.tv_nsec * 1e-9;
}

static unsigned long next_random(void) {
    static unsigned long state = 7;
    state ^= state << 13;
    state ^= state >> 7;
    return state ^= state << 17;
}

static double gets_a_second(rocksdb_t *store, const rocksdb_readoptions_t *options, const char *keys, size_t count, size_t gets, int there) {
    double begun = now();
    for (size_t left = gets; left; left--) {
        size_t length;
        char *found = rocksdb_get(store, options, keys + KEY * (next_random() % count), KEY, &length, &failed);
        check();
        if ((found != NULL) != there) exit(3);
        free(found);
    }
    return gets / (now() - begun);
}

int main(int words, char **word) {
    if (words != 5) return 2;
    size_t count, others_count, gets = strtoul(word[4], NULL, 10), scanned = 0;
    char *keys = read_keys(word[2], &count), *others = read_keys(word[3], &others_count), value[VALUE];
    rocksdb_options_t *options = rocksdb_options_create();
    rocksdb_block_based_table_options_t *table = rocksdb_block_based_options_create();
    rocksdb_block_based_options_set_filter_policy(table, rocksdb_filterpolicy_create_bloom_full(10));
    rocksdb_options_set_block_based_table_factory(options, table);
    rocksdb_options_set_create_if_missing(options, 1);
    rocksdb_options_set_compression(options, rocksdb_no_compression);
    rocksdb_t *store = rocksdb_open(options, word[1], &failed);
    check();
    rocksdb_writeoptions_t *unlogged = rocksdb_writeoptions_create();
    rocksdb_writeoptions_disable_WAL(unlogged, 1);
    for (size_t at = 0; at < count; at++) {
        for (int i = 0; i < VALUE; i++) value[i] = 'a' + next_random() % 26;
        // Steps of a prime that doesn't divide the count meet each key once.
        rocksdb_put(store, unlogged, keys + KEY * (at * 7368787 % count), KEY, value, VALUE, &failed);
        check();
    }
    rocksdb_flushoptions_t *flush = rocksdb_flushoptions_create();
    rocksdb_flush(store, flush, &failed);
    check();
    rocksdb_readoptions_t *reading = rocksdb_readoptions_create();
    double hits = gets_a_second(store, reading, keys, count, gets, 1), misses = gets_a_second(store, reading, others, others_count, gets, 0), begun = now();
    rocksdb_iterator_t *scan = rocksdb_create_iterator(store, reading);
    for (rocksdb_iter_seek_to_first(scan); rocksdb_iter_valid(scan); rocksdb_iter_next(scan)) {
        size_t length;
        rocksdb_iter_value(scan, &length);
        scanned += length == VALUE;
    }
    printf("RocksDB, in a program of its own: %.0f, %.0f, and %.0f a second\n", hits, misses, scanned / (now() - begun));
    return scanned == count ? 0 : 3;
}
