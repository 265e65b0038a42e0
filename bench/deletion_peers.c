// Deletes by RocksDB, LevelDB and SQLite, for bench/deletion and bench/latencies: deletion_peers ENGINE FOLDER OPTIONS. ENGINE is rocksdb, leveldb or sqlite. OPTIONS are RocksDB's own, as `ttl=10;..`, of which
// `collector=WINDOW,DELETES` is this program's, SQLite's pragmas, or those of LevelDB that are known below; `sync=1` makes each put durable by itself. Lines on standard input:
//   p KEY DAY VALUE   puts a pair            d KEY      deletes a key
//   e LO HI           erases the pairs whose days are at least LO and below HI, and does what the engine has for bringing them off the disk
//   r LO HI           the same of the keys from LO up to HI, by RocksDB's DeleteRange
//   a                 prints the seconds since the last such line, and the bytes that the process handed to the system
//   t                 prints for each put since the last such line its nanoseconds
// Days stand in front of values, in 8 bytes, where an engine has no column for them.
#define _GNU_SOURCE
#include <leveldb/c.h>
#include <rocksdb/c.h>
#include <sqlite3.h>
#include <stdint.h>
#include <stdio.h>
#include <stdlib.h>
#include <string.h>
#include <time.h>

enum { BATCH = 1000, MOST = 8192, PUTS = 1 << 22 };

static char *failed;
static char bytes[MOST + 8];
static uint64_t erased_lo, erased_hi;
static int is_synced;

static void check(void) {
    if (failed) {
        fprintf(stderr, "%s\n", failed);
        exit(1);
    }
}

static uint64_t day_of(const char *value) {
    uint64_t day;
    memcpy(&day, value, sizeof day);
    return day;
}

static size_t with_day(uint64_t day, const char *value) {
    size_t length = strlen(value);
    memcpy(bytes, &day, sizeof day);
    memcpy(bytes + sizeof day, value, length);
    return length + sizeof day;
}

// An option of this program, of the form NAME=VALUE;, which is taken out of the others.
static char *own_option(char *options, const char *name) {
    char *at = strstr(options, name);
    if (!at) return NULL;
    char *end = strchrnul(at, ';'), *value = strndup(at + strlen(name), end - at - strlen(name));
    memmove(at, *end ? end + 1 : end, strlen(*end ? end + 1 : end) + 1);
    return value;
}

// RocksDB

static rocksdb_t *rocks;
static rocksdb_writeoptions_t *rocks_writing;

static unsigned char is_erased(void *state, int level, const char *key, size_t key_length, const char *value, size_t length, char **other, size_t *other_length, unsigned char *changed) {
    (void)state, (void)level, (void)key, (void)key_length, (void)other, (void)other_length, (void)changed;
    return length >= 8 && erased_lo <= day_of(value) && day_of(value) < erased_hi;
}

static void forget(void *state) { (void)state; }

static const char *filter_name(void *state) {
    (void)state;
    return "days";
}

static void rocks_open(const char *folder, char *text) {
    char *collector = own_option(text, "collector=");
    rocksdb_options_t *base = rocksdb_options_create(), *options = rocksdb_options_create();
    rocksdb_options_set_create_if_missing(base, 1);
    rocksdb_options_set_compression(base, rocksdb_no_compression);
    rocksdb_get_options_from_string(base, text, options, &failed);
    check();
    if (collector) {
        unsigned long window, deletes;
        if (sscanf(collector, "%lu,%lu", &window, &deletes) != 2) exit(2);
        rocksdb_options_add_compact_on_deletion_collector_factory(options, window, deletes);
    }
    rocksdb_options_set_compaction_filter(options, rocksdb_compactionfilter_create(NULL, forget, is_erased, filter_name));
    rocks = rocksdb_open(options, folder, &failed);
    check();
    rocks_writing = rocksdb_writeoptions_create();
    rocksdb_writeoptions_set_sync(rocks_writing, is_synced);
}

static void rocks_put(const char *key, uint64_t day, const char *value) {
    rocksdb_put(rocks, rocks_writing, key, strlen(key), bytes, with_day(day, value), &failed);
}

static void rocks_delete(const char *key) { rocksdb_delete(rocks, rocks_writing, key, strlen(key), &failed); }

static void rocks_compact(const char *lo, const char *hi) {
    rocksdb_flushoptions_t *flushing = rocksdb_flushoptions_create();
    rocksdb_flush(rocks, flushing, &failed);
    check();
    rocksdb_compactoptions_t *compacting = rocksdb_compactoptions_create();
    // The last level too, once.
    rocksdb_compactoptions_set_bottommost_level_compaction(compacting, 3);
    rocksdb_compact_range_opt(rocks, compacting, lo, lo ? strlen(lo) : 0, hi, hi ? strlen(hi) : 0);
}

static void rocks_erase(uint64_t lo, uint64_t hi) {
    erased_lo = lo, erased_hi = hi;
    rocks_compact(NULL, NULL);
}

static void rocks_range(const char *lo, const char *hi) {
    rocksdb_writebatch_t *batch = rocksdb_writebatch_create();
    rocksdb_writebatch_delete_range(batch, lo, strlen(lo), hi, strlen(hi));
    rocksdb_write(rocks, rocks_writing, batch, &failed);
    check();
    rocks_compact(lo, hi);
}

// LevelDB

static leveldb_t *level;
static leveldb_writeoptions_t *level_writing;

static void level_open(const char *folder, char *text) {
    leveldb_options_t *options = leveldb_options_create();
    leveldb_options_set_create_if_missing(options, 1);
    leveldb_options_set_compression(options, leveldb_no_compression);
    char *buffer = own_option(text, "write_buffer_size=");
    if (buffer) leveldb_options_set_write_buffer_size(options, strtoul(buffer, NULL, 10));
    if (*text) exit(2);
    level = leveldb_open(options, folder, &failed);
    check();
    level_writing = leveldb_writeoptions_create();
    leveldb_writeoptions_set_sync(level_writing, is_synced);
}

static void level_put(const char *key, uint64_t day, const char *value) { leveldb_put(level, level_writing, key, strlen(key), bytes, with_day(day, value), &failed); }

static void level_delete(const char *key) { leveldb_delete(level, level_writing, key, strlen(key), &failed); }

static void level_erase(uint64_t lo, uint64_t hi) {
    leveldb_readoptions_t *reading = leveldb_readoptions_create();
    leveldb_iterator_t *all = leveldb_create_iterator(level, reading);
    leveldb_writebatch_t *batch = leveldb_writebatch_create();
    for (leveldb_iter_seek_to_first(all); leveldb_iter_valid(all); leveldb_iter_next(all)) {
        size_t length, key_length;
        const char *value = leveldb_iter_value(all, &length), *key = leveldb_iter_key(all, &key_length);
        if (lo <= day_of(value) && day_of(value) < hi) leveldb_writebatch_delete(batch, key, key_length);
    }
    leveldb_iter_destroy(all);
    leveldb_write(level, level_writing, batch, &failed);
    check();
    leveldb_compact_range(level, NULL, 0, NULL, 0);
}

// SQLite

static sqlite3 *lite;
static sqlite3_stmt *lite_putting, *lite_deleting, *lite_erasing;
static int waiting;

static void lite_do(const char *text) {
    if (sqlite3_exec(lite, text, NULL, NULL, &failed) != SQLITE_OK) check();
}

static sqlite3_stmt *lite_prepare(const char *text) {
    sqlite3_stmt *made;
    if (sqlite3_prepare_v2(lite, text, -1, &made, NULL) != SQLITE_OK) exit(1);
    return made;
}

static void lite_open(const char *folder, char *text) {
    char path[MOST];
    snprintf(path, sizeof path, "%s/store", folder);
    if (sqlite3_open(path, &lite) != SQLITE_OK) exit(1);
    lite_do(text);
    lite_do("CREATE TABLE IF NOT EXISTS pairs (key BLOB PRIMARY KEY, day INTEGER, value BLOB) WITHOUT ROWID; CREATE INDEX IF NOT EXISTS days ON pairs (day)");
    lite_putting = lite_prepare("INSERT OR REPLACE INTO pairs VALUES (?, ?, ?)");
    lite_deleting = lite_prepare("DELETE FROM pairs WHERE key = ?");
    lite_erasing = lite_prepare("DELETE FROM pairs WHERE ? <= day AND day < ?");
}

static void lite_commit(void) {
    if (waiting) lite_do("COMMIT");
    waiting = 0;
}

// A statement in the transaction that is open, or in one of its own.
static void lite_step(sqlite3_stmt *it) {
    if (!is_synced && !waiting) lite_do("BEGIN");
    if (sqlite3_step(it) != SQLITE_DONE) exit(1);
    sqlite3_reset(it);
    if (!is_synced && ++waiting == BATCH) lite_commit();
}

static void lite_put(const char *key, uint64_t day, const char *value) {
    sqlite3_bind_blob(lite_putting, 1, key, (int)strlen(key), SQLITE_STATIC);
    sqlite3_bind_int64(lite_putting, 2, (sqlite3_int64)day);
    sqlite3_bind_blob(lite_putting, 3, value, (int)strlen(value), SQLITE_STATIC);
    lite_step(lite_putting);
}

static void lite_delete(const char *key) {
    sqlite3_bind_blob(lite_deleting, 1, key, (int)strlen(key), SQLITE_STATIC);
    lite_step(lite_deleting);
}

static void lite_erase(uint64_t lo, uint64_t hi) {
    sqlite3_bind_int64(lite_erasing, 1, (sqlite3_int64)lo);
    sqlite3_bind_int64(lite_erasing, 2, (sqlite3_int64)hi);
    lite_step(lite_erasing);
    lite_commit();
}

static void no_commit(void) {}

static const struct engine {
    const char *name;
    void (*open)(const char *, char *), (*put)(const char *, uint64_t, const char *), (*remove)(const char *), (*erase)(uint64_t, uint64_t), (*commit)(void);
} engines[] = {
    {"rocksdb", rocks_open, rocks_put, rocks_delete, rocks_erase, no_commit},
    {"leveldb", level_open, level_put, level_delete, level_erase, no_commit},
    {"sqlite", lite_open, lite_put, lite_delete, lite_erase, lite_commit},
};

static uint64_t now(void) {
    struct timespec it;
    clock_gettime(CLOCK_MONOTONIC, &it);
    return (uint64_t)it.tv_sec * 1000000000 + (uint64_t)it.tv_nsec;
}

static uint64_t written(void) {
    uint64_t count = 0;
    FILE *file = fopen("/proc/self/io", "r");
    if (!file || fscanf(file, "rchar: %*u wchar: %lu", &count) != 1) exit(1);
    fclose(file);
    return count;
}

static void tell(uint64_t begun, uint64_t before) {
    printf("%.6f %lu\n", (double)(now() - begun) / 1e9, written() - before);
    fflush(stdout);
}

int main(int count, char **words) {
    static char line[MOST], first[MOST], last[MOST];
    static uint32_t taken[PUTS];
    size_t puts = 0;
    if (count == 2 && !strcmp(words[1], "version")) return printf("LevelDB %d.%d, SQLite %s\n", leveldb_major_version(), leveldb_minor_version(), sqlite3_libversion()) < 0;
    if (count != 4) return 2;
    const struct engine *it = engines;
    while (strcmp(it->name, words[1])) if (++it == engines + sizeof engines / sizeof *engines) return 2;
    char *options = strdup(words[3]), *sync = own_option(options, "sync=");
    is_synced = sync && *sync == '1';
    it->open(words[2], options);
    uint64_t begun = now(), before = written(), lo, hi;
    while (fgets(line, sizeof line, stdin)) {
        uint64_t started = now();
        switch (*line) {
        case 'p':
            if (sscanf(line, "p %s %lu %s", first, &lo, last) != 3) return 2;
            it->put(first, lo, last);
            if (puts < PUTS) taken[puts++] = (uint32_t)(now() - started);
            break;
        case 'd':
            if (sscanf(line, "d %s", first) != 1) return 2;
            it->remove(first);
            break;
        case 'e':
            if (sscanf(line, "e %lu %lu", &lo, &hi) != 2) return 2;
            it->erase(lo, hi);
            break;
        case 'r':
            if (sscanf(line, "r %s %s", first, last) != 2) return 2;
            rocks_range(first, last);
            break;
        case 'a':
            it->commit();
            tell(begun, before);
            begun = now(), before = written();
            break;
        case 't':
            for (size_t at = 0; at < puts; at++) printf("%u\n", taken[at]);
            puts = 0;
            printf("\n");
            fflush(stdout);
            break;
        default: return 2;
        }
        check();
    }
    return 0;
}
