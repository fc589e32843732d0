/* sqlite_batches: what SQLite itself takes for batches of rows, and the disk for a sync.

     sqlite_batches commit STORE < BATCHES   commits them, and prints how many batches and seconds
     sqlite_batches open STORE               opens it and reads all rows in order, and prints how many rows and seconds
     sqlite_batches check STORE              the same behind SQLite's check of the whole file
     sqlite_batches sync FILE TIMES          writes 4096 bytes at the end of the file and syncs, so many times, and prints times and seconds

   BATCHES has a line `KIND ID BYTES` for a row that is put, and an empty line behind each batch. The whole input is read before the first commit. */
#define _GNU_SOURCE
#include <fcntl.h>
#include <sqlite3.h>
#include <stdio.h>
#include <stdlib.h>
#include <string.h>
#include <time.h>
#include <unistd.h>

static void fail(const char *what) {
    fprintf(stderr, "sqlite_batches: %s\n", what);
    exit(1);
}

static double now(void) {
    struct timespec t;
    clock_gettime(CLOCK_MONOTONIC, &t);
    return (double)t.tv_sec + (double)t.tv_nsec * 1e-9;
}

static void run(sqlite3 *db, const char *sql) {
    if (sqlite3_exec(db, sql, NULL, NULL, NULL) != SQLITE_OK) fail(sqlite3_errmsg(db));
}

static sqlite3_stmt *prepared(sqlite3 *db, const char *sql) {
    sqlite3_stmt *statement;
    if (sqlite3_prepare_v2(db, sql, -1, &statement, NULL) != SQLITE_OK) fail(sqlite3_errmsg(db));
    return statement;
}

static void step(sqlite3 *db, sqlite3_stmt *statement) {
    if (sqlite3_step(statement) != SQLITE_DONE) fail(sqlite3_errmsg(db));
    sqlite3_reset(statement);
}

static sqlite3 *opened(const char *store) {
    sqlite3 *db;
    if (sqlite3_open(store, &db) != SQLITE_OK) fail(sqlite3_errmsg(db));
    run(db, "PRAGMA journal_mode = WAL");
    run(db, "PRAGMA synchronous = FULL");
    run(db, "CREATE TABLE IF NOT EXISTS rows (kind INTEGER NOT NULL, id INTEGER NOT NULL, bytes BLOB NOT NULL, PRIMARY KEY (kind, id)) STRICT");
    return db;
}

struct row {
    int kind;
    sqlite3_int64 id;
    const char *bytes;
    int length;
};

static void commit(const char *store) {
    size_t room = 1 << 20, length = 0, got;
    char *text = malloc(room);
    while (text && (got = fread(text + length, 1, room - length, stdin)) > 0) {
        length += got;
        if (length == room) text = realloc(text, room *= 2);
    }
    if (!text) fail("out of memory");
    size_t lines = 0;
    for (size_t i = 0; i < length; i++) lines += text[i] == '\n';
    struct row *rows = malloc((lines + 1) * sizeof *rows);
    if (!rows) fail("out of memory");
    size_t count = 0;
    for (char *line = text, *end; line < text + length; line = end + 1) {
        end = memchr(line, '\n', (size_t)(text + length - line));
        if (!end) fail("the last line has no newline");
        struct row *row = &rows[count++];
        if (end == line) {
            row->kind = -1;
            continue;
        }
        char *rest;
        row->kind = (int)strtol(line, &rest, 10);
        row->id = strtoll(rest, &rest, 10);
        row->bytes = rest + 1;
        row->length = (int)(end - row->bytes);
    }
    double began = now();
    sqlite3 *db = opened(store);
    sqlite3_stmt *begin = prepared(db, "BEGIN IMMEDIATE");
    sqlite3_stmt *put = prepared(db, "INSERT OR REPLACE INTO rows (kind, id, bytes) VALUES (?1, ?2, ?3)");
    sqlite3_stmt *end = prepared(db, "COMMIT");
    size_t batches = 0;
    int is_begun = 0;
    for (size_t i = 0; i < count; i++) {
        if (!is_begun) step(db, begin);
        is_begun = 1;
        if (rows[i].kind < 0) {
            step(db, end);
            is_begun = 0;
            batches++;
            continue;
        }
        sqlite3_bind_int(put, 1, rows[i].kind);
        sqlite3_bind_int64(put, 2, rows[i].id);
        sqlite3_bind_blob(put, 3, rows[i].bytes, rows[i].length, SQLITE_STATIC);
        step(db, put);
    }
    /* The log is copied into the database file at the end, as the program under test does. */
    sqlite3_finalize(begin);
    sqlite3_finalize(put);
    sqlite3_finalize(end);
    if (sqlite3_close(db) != SQLITE_OK) fail(sqlite3_errmsg(db));
    printf("%zu %.6f\n", batches, now() - began);
}

static void read_all(const char *store, int is_checked) {
    double began = now();
    sqlite3 *db = opened(store);
    if (is_checked) run(db, "PRAGMA integrity_check");
    sqlite3_stmt *all = prepared(db, "SELECT kind, id, bytes FROM rows ORDER BY kind, id");
    size_t rows = 0, bytes = 0;
    while (sqlite3_step(all) == SQLITE_ROW) {
        rows++;
        bytes += (size_t)sqlite3_column_bytes(all, 2);
    }
    printf("%zu %.6f %zu\n", rows, now() - began, bytes);
}

static void sync_each(const char *file, int times) {
    static char page[4096];
    int f = open(file, O_CREAT | O_WRONLY | O_APPEND, 0600);
    if (f < 0) fail("the file isn't opened");
    double began = now();
    for (int i = 0; i < times; i++)
        if (write(f, page, sizeof page) != sizeof page || fdatasync(f) != 0) fail("the disk failed");
    printf("%d %.6f\n", times, now() - began);
}

int main(int count, char **words) {
    if (count == 3 && !strcmp(words[1], "commit")) commit(words[2]);
    else if (count == 3 && !strcmp(words[1], "open")) read_all(words[2], 0);
    else if (count == 3 && !strcmp(words[1], "check")) read_all(words[2], 1);
    else if (count == 4 && !strcmp(words[1], "sync")) sync_each(words[2], atoi(words[3]));
    else fail("usage: sqlite_batches commit STORE | open STORE | check STORE | sync FILE TIMES");
    return 0;
}
