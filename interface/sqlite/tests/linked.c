/* linked: a program that has the extension in it, compiled with -DSQLITE_CORE, and asks in each of two connections
 * whether no octets are a key. */
#include <stdio.h>
#include <string.h>

#include <sqlite3.h>

int sqlite3_modpkder_init(sqlite3 *database, char **why, const struct sqlite3_api_routines *api);

static int is_answered(void) {
    sqlite3 *database = NULL;
    sqlite3_stmt *statement = NULL;
    int found = 0;
    if (sqlite3_open(":memory:", &database) == SQLITE_OK &&
        sqlite3_prepare_v2(database, "select pkder_check('key', x'')", -1, &statement, NULL) == SQLITE_OK &&
        sqlite3_step(statement) == SQLITE_ROW) {
        found = strcmp((const char *)sqlite3_column_text(statement, 0), "fault at 0: Truncated") == 0;
    }
    sqlite3_finalize(statement);
    sqlite3_close(database);
    return found;
}

int main(void) {
    sqlite3_auto_extension((void (*)(void))sqlite3_modpkder_init);
    if (!is_answered() || !is_answered()) {
        return 1;
    }
    puts("two connections");
    return 0;
}
