/* sqlite SCRIPT QUERY SECONDS: SQLite's best time for a query, in nanoseconds, and the numbers that the query gives, a line each.
 *
 * SCRIPT names a file of statements that fill a database in memory. The query is prepared once; a time is that of all its steps and a reset. `timeout` is
 * printed where the query takes longer than so many seconds. The turns are those of the program for the library (src/main.rs). */
#include <sqlite3.h>
#include <stdio.h>
#include <stdlib.h>
#include <time.h>

enum { MOST_SCRIPT_BYTES = 1 << 22, MOST_NUMBERS = 1000, LEAST_TURNS = 5, OPERATIONS_BETWEEN_LOOKS = 100000 };
static const double TURN = 2e6, ALL_TURNS = 150e6, LONG = 1e9;

static char script[MOST_SCRIPT_BYTES + 1];
static int numbers[MOST_NUMBERS];
static double latest;

static double now(void) {
    struct timespec t;
    clock_gettime(CLOCK_MONOTONIC, &t);
    return t.tv_sec * 1e9 + t.tv_nsec;
}

static void must(sqlite3 *database, int fits) {
    if (fits) return;
    fprintf(stderr, "sqlite: %s\n", database ? sqlite3_errmsg(database) : "no database");
    exit(1);
}

static int is_late(void *unused) {
    (void)unused;
    return now() > latest;
}

static void read_script(const char *path) {
    FILE *stream = fopen(path, "rb");
    must(NULL, stream != NULL);
    must(NULL, fread(script, 1, MOST_SCRIPT_BYTES, stream) < MOST_SCRIPT_BYTES);
    fclose(stream);
}

/* how many numbers the query gives; they are then in the list. The program ends here where the query takes too long */
static int ask(sqlite3 *database, sqlite3_stmt *query) {
    int count = 0, status;
    while ((status = sqlite3_step(query)) == SQLITE_ROW && count < MOST_NUMBERS) numbers[count++] = sqlite3_column_int(query, 0);
    if (status == SQLITE_INTERRUPT) {
        puts("timeout");
        exit(0);
    }
    must(database, status == SQLITE_DONE);
    sqlite3_reset(query);
    return count;
}

static double time_of(sqlite3 *database, sqlite3_stmt *query, int times) {
    double start = now();
    for (int turn = 0; turn < times; turn++) ask(database, query);
    return (now() - start) / times;
}

static double best_time(sqlite3 *database, sqlite3_stmt *query) {
    double once = time_of(database, query, 1), best = once, start = now();
    int times = once < TURN ? (int)(TURN / once) : 1;
    for (int turn = 0; once < LONG && (turn < LEAST_TURNS || now() - start < ALL_TURNS); turn++) {
        double next = time_of(database, query, times);
        if (next < best) best = next;
    }
    return best;
}

int main(int count, char **words) {
    sqlite3 *database = NULL;
    sqlite3_stmt *query = NULL;
    if (count != 4) return 2;
    read_script(words[1]);
    must(database, sqlite3_open_v2(":memory:", &database, SQLITE_OPEN_READWRITE | SQLITE_OPEN_CREATE | SQLITE_OPEN_NOMUTEX, NULL) == SQLITE_OK);
    must(database, sqlite3_exec(database, script, NULL, NULL, NULL) == SQLITE_OK);
    must(database, sqlite3_prepare_v2(database, words[2], -1, &query, NULL) == SQLITE_OK);
    latest = now() + atof(words[3]) * 1e9;
    sqlite3_progress_handler(database, OPERATIONS_BETWEEN_LOOKS, is_late, NULL);
    int found = ask(database, query);
    latest = now() + 10 * atof(words[3]) * 1e9;
    printf("%.1f\n", best_time(database, query));
    for (int place = 0; place < found; place++) printf("%d\n", numbers[place]);
    sqlite3_finalize(query);
    return sqlite3_close(database) != SQLITE_OK;
}
