// The same booking as SQLite would do it: one transaction with prepared statements on a database in memory. It reads the tube,
// writes it, and adds the log record. Prints `sqlite NANOSECONDS`, the best of several repeats.
#include <cstdint>
#include <cstdio>
#include <cstdlib>
#include <initializer_list>

#include <sqlite3.h>

#include "timing.hpp"

namespace {

sqlite3* db = nullptr;

void must(int code, int wanted) {
    if (code == wanted) return;
    std::fprintf(stderr, "sqlite: %s\n", sqlite3_errmsg(db));
    std::exit(1);
}

sqlite3_stmt* prepared(const char* sql) {
    sqlite3_stmt* statement = nullptr;
    must(sqlite3_prepare_v3(db, sql, -1, SQLITE_PREPARE_PERSISTENT, &statement, nullptr), SQLITE_OK);
    return statement;
}

void finish(sqlite3_stmt* statement) {
    must(sqlite3_step(statement), SQLITE_DONE);
    must(sqlite3_reset(statement), SQLITE_OK);
}

}  // namespace

int main() {
    must(sqlite3_open_v2(":memory:", &db, SQLITE_OPEN_READWRITE | SQLITE_OPEN_CREATE | SQLITE_OPEN_NOMUTEX, nullptr), SQLITE_OK);
    must(sqlite3_exec(db,
                      "pragma synchronous = off; pragma locking_mode = exclusive;"
                      "create table tubes (id integer primary key, value integer not null);"
                      "create table log (number integer primary key, txn integer not null);"
                      "with recursive n(i) as (select 0 union all select i + 1 from n where i < 31)"
                      " insert into tubes select i, 0 from n;",
                      nullptr, nullptr, nullptr),
         SQLITE_OK);
    sqlite3_stmt* const begin = prepared("begin immediate");
    sqlite3_stmt* const read = prepared("select value from tubes where id = ?1");
    sqlite3_stmt* const write = prepared("update tubes set value = ?2 where id = ?1");
    sqlite3_stmt* const record = prepared("insert into log (txn) values (?1)");
    sqlite3_stmt* const commit = prepared("commit");
    sqlite3_stmt* const clear = prepared("delete from log");
    int txn = 0;
    const auto book = [&](int tube) {
        finish(begin);
        must(sqlite3_bind_int(read, 1, tube), SQLITE_OK);
        must(sqlite3_step(read), SQLITE_ROW);
        const std::int64_t value = sqlite3_column_int64(read, 0);
        must(sqlite3_reset(read), SQLITE_OK);
        must(sqlite3_bind_int(write, 1, tube), SQLITE_OK);
        must(sqlite3_bind_int64(write, 2, value + 1), SQLITE_OK);
        finish(write);
        must(sqlite3_bind_int(record, 1, ++txn), SQLITE_OK);
        finish(record);
        finish(commit);
    };
    const double each = timing::best(3, [&] {
        finish(clear);
        for (int i = 0; i < 250; ++i) book(i % 32);
    });
    std::printf("sqlite %.1f\n", each / 250);
    for (sqlite3_stmt* s : {begin, read, write, record, commit, clear}) sqlite3_finalize(s);
    sqlite3_close(db);
}
