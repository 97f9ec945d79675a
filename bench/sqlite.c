/*
 * sqlite.c: (c), the transaction of an idle single in SQLite: begin, for each operation an update and a read of the new
 * content, commit, all prepared. At its best: in memory, no journal (so it could not even take a transaction back), no
 * mutex, no waiting for a disk.
 */
#include "bench.h"

#ifndef WITH_SQLITE

const char *stock_version(void) { return NULL; }
stock *stock_open(const plan *p) { (void)p; return NULL; }
void stock_reset(stock *s, const plan *p) { (void)s; (void)p; }
uint64_t stock_run(stock *s, const plan *p) { (void)s; (void)p; return 0; }
int stock_equal(stock *s, const uint32_t *contents, uint32_t cells) { (void)s; (void)contents; (void)cells; return 0; }
void stock_close(stock *s) { (void)s; }

#else

#include <sqlite3.h>
#include <stdlib.h>

struct stock {
    sqlite3 *db;
    sqlite3_stmt *begin, *update, *read, *commit, *put;
};

const char *stock_version(void) { return sqlite3_libversion(); }

static void done(int is, int expected)
{
    must(is == expected, "SQLite", sqlite3_errstr(is));
}

static sqlite3_stmt *prepare(stock *s, const char *text)
{
    sqlite3_stmt *statement;
    done(sqlite3_prepare_v3(s->db, text, -1, SQLITE_PREPARE_PERSISTENT, &statement, NULL), SQLITE_OK);
    return statement;
}

static void once(sqlite3_stmt *statement)
{
    done(sqlite3_step(statement), SQLITE_DONE);
    done(sqlite3_reset(statement), SQLITE_OK);
}

static uint64_t content(stock *s, uint32_t cell)
{
    uint64_t is;
    sqlite3_bind_int64(s->read, 1, cell);
    done(sqlite3_step(s->read), SQLITE_ROW);
    is = (uint64_t)sqlite3_column_int64(s->read, 0);
    done(sqlite3_reset(s->read), SQLITE_OK);
    return is;
}

stock *stock_open(const plan *p)
{
    stock *s = room_for(1, sizeof *s);
    int flags = SQLITE_OPEN_READWRITE | SQLITE_OPEN_CREATE | SQLITE_OPEN_MEMORY | SQLITE_OPEN_NOMUTEX;
    done(sqlite3_open_v2(":memory:", &s->db, flags, NULL), SQLITE_OK);
    done(sqlite3_exec(s->db,
                      "PRAGMA journal_mode = OFF; PRAGMA synchronous = OFF; PRAGMA locking_mode = EXCLUSIVE;"
                      "CREATE TABLE cells (cell INTEGER PRIMARY KEY, content INTEGER NOT NULL);",
                      NULL, NULL, NULL),
         SQLITE_OK);
    s->begin = prepare(s, "BEGIN");
    s->update = prepare(s, "UPDATE cells SET content = content + ?2 WHERE cell = ?1");
    s->read = prepare(s, "SELECT content FROM cells WHERE cell = ?1");
    s->commit = prepare(s, "COMMIT");
    s->put = prepare(s, "INSERT OR REPLACE INTO cells VALUES (?1, ?2)");
    stock_reset(s, p);
    return s;
}

void stock_reset(stock *s, const plan *p)
{
    uint32_t cell;
    once(s->begin);
    for (cell = 0; cell < p->cells; cell++) {
        sqlite3_bind_int64(s->put, 1, cell);
        sqlite3_bind_int64(s->put, 2, p->contents[cell]);
        once(s->put);
    }
    once(s->commit);
}

uint64_t stock_run(stock *s, const plan *p)
{
    size_t i;
    uint32_t place;
    uint64_t sum = 0;
    for (i = 0; i < p->timed_count; i++) {
        const uint32_t *event = p->timed[i].event;
        once(s->begin);
        for (place = 0; place < event[HARUKDALIS_EVENT_COUNT]; place++) {
            const uint32_t *o = &event[HARUKDALIS_EVENT_OPERATIONS + place * HARUKDALIS_OPERATION_WORDS];
            sqlite3_bind_int64(s->update, 1, o[HARUKDALIS_OPERATION_CELL]);
            sqlite3_bind_int64(s->update, 2, o[HARUKDALIS_OPERATION_AMOUNT]);
            once(s->update);
            sum += content(s, o[HARUKDALIS_OPERATION_CELL]);
        }
        once(s->commit);
    }
    return sum;
}

int stock_equal(stock *s, const uint32_t *contents, uint32_t cells)
{
    uint32_t cell;
    for (cell = 0; cell < cells && content(s, cell) == contents[cell]; cell++) {
    }
    return cell == cells;
}

void stock_close(stock *s)
{
    sqlite3_finalize(s->begin);
    sqlite3_finalize(s->update);
    sqlite3_finalize(s->read);
    sqlite3_finalize(s->commit);
    sqlite3_finalize(s->put);
    done(sqlite3_close(s->db), SQLITE_OK);
    free(s);
}

#endif
