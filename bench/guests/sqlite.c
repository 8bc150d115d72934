/* Runs the SQL statements that are its input on a database in memory, and prints each row with `|` between its
   values. */
#include <stdio.h>
#include <string.h>

#include "sqlite3.h"
#include "system.h"

static char statements[65536];

/* SQLite wants a file system even for a database in memory. This one has no files. */
static int open_file(sqlite3_vfs *files, const char *name, sqlite3_file *file, int flags, int *answer)
{
    (void)files, (void)name, (void)flags, (void)answer;
    file->pMethods = NULL; /* there is nothing to close */
    return SQLITE_CANTOPEN;
}

static int delete_file(sqlite3_vfs *files, const char *name, int sync)
{
    (void)files, (void)name, (void)sync;
    return SQLITE_IOERR_DELETE_NOENT;
}

static int access_file(sqlite3_vfs *files, const char *name, int flags, int *answer)
{
    (void)files, (void)name, (void)flags;
    *answer = 0;
    return SQLITE_OK;
}

static int full_name(sqlite3_vfs *files, const char *name, int room, char *to)
{
    (void)files;
    sqlite3_snprintf(room, to, "%s", name);
    return SQLITE_OK;
}

/* Always the same bytes, so that each run is the same. */
static int random_bytes(sqlite3_vfs *files, int count, char *to)
{
    (void)files;
    memset(to, 1, count);
    return count;
}

static int wait_for(sqlite3_vfs *files, int microseconds)
{
    (void)files;
    return microseconds;
}

/* The machine has no clock: it is always noon of 1 January 2000. */
static int present_day(sqlite3_vfs *files, double *julian)
{
    (void)files;
    *julian = 2451545.0;
    return SQLITE_OK;
}

static sqlite3_vfs no_files = {
    .iVersion = 1,
    .szOsFile = sizeof(sqlite3_file),
    .mxPathname = 64,
    .zName = "none",
    .xOpen = open_file,
    .xDelete = delete_file,
    .xAccess = access_file,
    .xFullPathname = full_name,
    .xRandomness = random_bytes,
    .xSleep = wait_for,
    .xCurrentTime = present_day,
};

int sqlite3_os_init(void)
{
    return sqlite3_vfs_register(&no_files, 1);
}

int sqlite3_os_end(void)
{
    return SQLITE_OK;
}

static int print_row(void *unused, int count, char **values, char **names)
{
    (void)unused, (void)names;
    for (int i = 0; i < count; i++)
        printf(i ? "|%s" : "%s", values[i] ? values[i] : "");
    printf("\n");
    return 0;
}

int main(void)
{
    sqlite3 *database;
    read_input(statements, sizeof statements);
    if (sqlite3_open(":memory:", &database) || sqlite3_exec(database, statements, print_row, NULL, NULL)) {
        fprintf(stderr, "sqlite: %s\n", sqlite3_errmsg(database));
        return 1;
    }
    sqlite3_close(database);
    return 0;
}
