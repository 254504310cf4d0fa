// peers solve NEEDS, peers read DATABASE, peers write AFTER COPY: has other libraries do what smpe does, and prints the
// seconds of processor time of each part. libsolv makes packages of the SYSMODs in NEEDS (bench/generate writes it),
// solves for all of them, and orders them. SQLite reads each row of a database; or it puts into COPY, in one
// transaction, the rows of AFTER that COPY lacks. Each part is a function that is not inlined, so that callgrind can
// count it by its name.
#include <solv/pool.h>
#include <solv/repo.h>
#include <solv/solver.h>
#include <solv/transaction.h>
#include <sqlite3.h>
#include <stdarg.h>
#include <stdio.h>
#include <stdlib.h>
#include <string.h>
#include <time.h>

#define PART __attribute__((noinline)) static

__attribute__((noreturn, format(printf, 1, 2))) static void fail(const char *why, ...) {
  va_list rest;
  va_start(rest, why);
  fputs("peers: ", stderr);
  vfprintf(stderr, why, rest);
  fputs("\n", stderr);
  exit(2);
}

static void *room(size_t size) {
  void *made = malloc(size);
  if (!made) fail("out of memory");
  return made;
}

static double seconds(void) {
  struct timespec now;
  clock_gettime(CLOCK_PROCESS_CPUTIME_ID, &now);
  return now.tv_sec + now.tv_nsec / 1e9;
}

// libsolv

static char *text_of(const char *path) {
  FILE *file = fopen(path, "r");
  if (!file || fseek(file, 0, SEEK_END)) fail("cannot read %s", path);
  long size = ftell(file);
  rewind(file);
  char *text = size < 0 ? NULL : room(size + 1);
  if (!text || fread(text, 1, size, file) != (size_t)size) fail("cannot read %s", path);
  text[size] = 0;
  fclose(file);
  return text;
}

// A requisite that begins with `=` is for that id alone, as an FMID is; another is for the id or what supersedes it.
static Id dependency(Pool *pool, const char *id, Id version) {
  if (*id != '=') return pool_str2id(pool, id, 1);
  return pool_rel2id(pool, pool_str2id(pool, id + 1, 1), version, REL_EQ, 1);
}

PART void build_packages(Pool *pool, char *needs) {
  Repo *service = repo_create(pool, "service");
  Id version = pool_str2id(pool, "1", 1);
  char *rest = NULL;
  for (char *line = strtok_r(needs, "\n", &rest); line; line = strtok_r(NULL, "\n", &rest)) {
    char *own = strsep(&line, " "), *asked = strsep(&line, " "), *sup = line;
    if (!sup || strncmp(asked, "needs=", 6) || strncmp(sup, "sup=", 4)) fail("a line of NEEDS is none: %s", own);
    asked += 6, sup += 4;
    Solvable *made = pool_id2solvable(pool, repo_add_solvable(service));
    made->name = pool_str2id(pool, own, 1), made->evr = version, made->arch = ARCH_ALL;
    solvable_add_deparray(made, SOLVABLE_PROVIDES, pool_rel2id(pool, made->name, version, REL_EQ, 1), 0);
    for (char *id; (id = strsep(&asked, ","));)
      if (*id) solvable_add_deparray(made, SOLVABLE_REQUIRES, dependency(pool, id, version), 0);
    for (char *id; (id = strsep(&sup, ","));)
      if (*id) solvable_add_deparray(made, SOLVABLE_PROVIDES, dependency(pool, id, version), 0);
  }
  pool_createwhatprovides(pool);
}

// A weak job is one that may stay undone, so that a SYSMOD that cannot be installed keeps no other from it.
PART Solver *solve_jobs(Pool *pool) {
  Queue jobs;
  queue_init(&jobs);
  Id it;
  FOR_POOL_SOLVABLES(it) queue_push2(&jobs, SOLVER_INSTALL | SOLVER_SOLVABLE | SOLVER_WEAK, it);
  Solver *solver = solver_create(pool);
  solver_solve(solver, &jobs);
  queue_free(&jobs);
  return solver;
}

PART int order_packages(Solver *solver) {
  Transaction *made = solver_create_transaction(solver);
  transaction_order(made, 0);
  return made->steps.count;
}

static void solve(const char *path) {
  char *needs = text_of(path);
  double start = seconds();
  Pool *pool = pool_create();
  build_packages(pool, needs);
  double built = seconds();
  Solver *solver = solve_jobs(pool);
  double solved = seconds();
  int count = order_packages(solver);
  printf("%.6f %.6f %.6f %d\n", built - start, solved - built, seconds() - solved, count);
}

// SQLite

enum { MOST_TABLES = 64, MOST_COLUMNS = 32 };

typedef struct {
  char name[64];
  int columns;
  long count, room;
  sqlite3_value **values;
} Table;

static sqlite3 *opened(const char *path) {
  sqlite3 *made;
  if (sqlite3_open_v2(path, &made, SQLITE_OPEN_READWRITE, NULL)) fail("%s: %s", path, sqlite3_errmsg(made));
  return made;
}

static void run(sqlite3 *base, const char *sql) {
  char *why;
  if (sqlite3_exec(base, sql, NULL, NULL, &why)) fail("%s", why);
}

// The text may have SQLite's own %w and %Q.
static sqlite3_stmt *prepared(sqlite3 *base, const char *sql, ...) {
  va_list rest;
  va_start(rest, sql);
  char *text = sqlite3_vmprintf(sql, rest);
  va_end(rest);
  sqlite3_stmt *made;
  if (!text || sqlite3_prepare_v2(base, text, -1, &made, NULL)) fail("%s", sqlite3_errmsg(base));
  sqlite3_free(text);
  return made;
}

static int has_row(sqlite3 *base, sqlite3_stmt *statement) {
  int status = sqlite3_step(statement);
  if (status != SQLITE_ROW && status != SQLITE_DONE) fail("%s", sqlite3_errmsg(base));
  return status == SQLITE_ROW;
}

static int tables_of(sqlite3 *base, Table *tables) {
  sqlite3_stmt *names = prepared(base, "SELECT name FROM main.sqlite_schema WHERE type = 'table'");
  int count = 0;
  for (; has_row(base, names); count++) {
    if (count == MOST_TABLES) fail("more than %d tables", MOST_TABLES);
    tables[count] = (Table){0};
    snprintf(tables[count].name, sizeof tables[count].name, "%s", sqlite3_column_text(names, 0));
  }
  sqlite3_finalize(names);
  return count;
}

// The sum of all bytes, so that each column is fetched.
PART long read_rows(sqlite3 *base, const Table *tables, int count) {
  long sum = 0;
  for (int at = 0; at < count; at++) {
    sqlite3_stmt *rows = prepared(base, "SELECT * FROM main.\"%w\"", tables[at].name);
    while (has_row(base, rows))
      for (int column = 0; column < sqlite3_column_count(rows); column++)
        if (sqlite3_column_blob(rows, column)) sum += sqlite3_column_bytes(rows, column);
    sqlite3_finalize(rows);
  }
  return sum;
}

static void read_database(const char *path) {
  Table tables[MOST_TABLES];
  double start = seconds();
  sqlite3 *base = opened(path);
  int count = tables_of(base, tables);
  long sum = read_rows(base, tables, count);
  printf("%.6f %ld\n", seconds() - start, sum);
}

// The rows of a table that the other database has and this one lacks, in the order of their keys.
static void keep_new_rows(sqlite3 *base, Table *table) {
  const char *sql = "SELECT * FROM after.\"%w\" EXCEPT SELECT * FROM main.\"%w\"";
  sqlite3_stmt *rows = prepared(base, sql, table->name, table->name);
  table->columns = sqlite3_column_count(rows);
  if (table->columns > MOST_COLUMNS) fail("%s has more than %d columns", table->name, MOST_COLUMNS);
  for (; has_row(base, rows); table->count++) {
    if (table->count == table->room) {
      table->room = 2 * table->room + 1024;
      table->values = realloc(table->values, table->room * table->columns * sizeof *table->values);
      if (!table->values) fail("out of memory");
    }
    for (int column = 0; column < table->columns; column++) {
      sqlite3_value *copy = sqlite3_value_dup(sqlite3_column_value(rows, column));
      if (!copy) fail("out of memory");
      table->values[table->count * table->columns + column] = copy;
    }
  }
  sqlite3_finalize(rows);
}

PART void write_rows(sqlite3 *base, const Table *tables, int count) {
  run(base, "BEGIN");
  for (const Table *table = tables; table < tables + count; table++) {
    if (!table->count) continue;
    char places[2 * MOST_COLUMNS] = "?";
    for (int column = 1; column < table->columns; column++) strcat(places, ",?");
    sqlite3_stmt *insert = prepared(base, "INSERT OR REPLACE INTO main.\"%w\" VALUES (%s)", table->name, places);
    for (long row = 0; row < table->count; row++) {
      for (int column = 0; column < table->columns; column++)
        sqlite3_bind_value(insert, column + 1, table->values[row * table->columns + column]);
      has_row(base, insert);
      sqlite3_reset(insert);
    }
    sqlite3_finalize(insert);
  }
  run(base, "COMMIT");
  if (sqlite3_close(base)) fail("%s", sqlite3_errmsg(base));
}

// As smpe writes: with a log, each commit synced, and the log is moved into the file at the end.
static void write_database(const char *after, const char *copy) {
  Table tables[MOST_TABLES];
  sqlite3 *base = opened(copy);
  sqlite3_stmt *attach = prepared(base, "ATTACH %Q AS after", after);
  has_row(base, attach);
  sqlite3_finalize(attach);
  int count = tables_of(base, tables);
  long written = 0;
  for (int at = 0; at < count; at++) {
    keep_new_rows(base, &tables[at]);
    written += tables[at].count;
  }
  run(base, "DETACH after; PRAGMA journal_mode = WAL; PRAGMA synchronous = FULL; PRAGMA foreign_keys = OFF");
  double start = seconds();
  write_rows(base, tables, count);
  printf("%.6f %ld\n", seconds() - start, written);
}

int main(int count, char **words) {
  if (count == 3 && !strcmp(words[1], "solve"))
    solve(words[2]);
  else if (count == 3 && !strcmp(words[1], "read"))
    read_database(words[2]);
  else if (count == 4 && !strcmp(words[1], "write"))
    write_database(words[2], words[3]);
  else
    fail("solve NEEDS, read DATABASE or write AFTER COPY");
  return 0;
}
