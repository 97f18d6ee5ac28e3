/* The work of bench/all.py in C over libsqlite3: about as fast as a machine can do it. It answers
 * what the office answers, with prepared statements and one transaction a request, and checks
 * nothing. It reads only requests of the form that bench/work.py writes.
 *
 *     baseline SCHEMA [FILE]      answers requests, over tables in memory or in a file
 */
#define _GNU_SOURCE
#include <sqlite3.h>
#include <stdarg.h>
#include <stdio.h>
#include <stdlib.h>
#include <string.h>

enum { BEGIN, COMMIT, FIND, ADD, MOVE, DRAFT, TAKE, DROP, INSPECT, ORDER, USE, LESS, DELIVER,
       PART, MORE, STATEMENTS };
static const char *const TEXTS[STATEMENTS] = {
    "BEGIN", "COMMIT",
    "SELECT name, days, revision, state, owner FROM intersection WHERE id = ?",
    "INSERT OR IGNORE INTO intersection VALUES (?, ?, ?, 0, 0, NULL)",
    "UPDATE intersection SET state = ?, owner = ?, revision = ? WHERE id = ?",
    "INSERT OR REPLACE INTO draft VALUES (?, ?, ?, ?, ?)",
    "INSERT OR REPLACE INTO timing SELECT * FROM draft WHERE inter = ?",
    "DELETE FROM draft WHERE inter = ?",
    "INSERT OR IGNORE INTO inspection VALUES (?, ?, ?, ?, ?)",
    "INSERT OR IGNORE INTO work_order VALUES (?, ?, ?, ?, ?, NULL, NULL)",
    "INSERT OR IGNORE INTO used_part VALUES (?, ?, ?, ?, ?)",
    "UPDATE part SET hand = hand - ? WHERE code = ?",
    "INSERT OR IGNORE INTO delivery VALUES (?, ?, ?, ?)",
    "INSERT OR IGNORE INTO part VALUES (?, 0)",
    "UPDATE part SET hand = hand + ? WHERE code = ?",
};
static const char *const RESULTS[] = {"{\"result\":\"same\"}", "{\"result\":\"added\"}"};
static const char *const STATES[] = {"normal", "transaction", "verify", "done"};
static sqlite3 *db;
static sqlite3_stmt *made[STATEMENTS];

static void must(int ok) {
    if (!ok)
        exit(fprintf(stderr, "baseline: %s\n", sqlite3_errmsg(db)));
}

/* Runs a statement on these values: `i` a number, `t` a text or none. Tells the rows changed. */
static int run(int which, const char *kinds, ...) {
    sqlite3_stmt *it = made[which];
    va_list values;
    va_start(values, kinds);
    for (int at = 1; *kinds; at++)
        *kinds++ == 'i' ? sqlite3_bind_int(it, at, va_arg(values, int))
            : sqlite3_bind_text(it, at, va_arg(values, const char *), -1, SQLITE_STATIC);
    va_end(values);
    must(sqlite3_step(it) == SQLITE_DONE);
    sqlite3_reset(it);
    return sqlite3_changes(db);
}

/* The text between quotes that begins at `*at`, which moves behind it; escapes are undone. */
static char *quoted(char **at) {
    char *from = *at + 1, *to = from, *read = from;
    for (; *read != '"'; read++)
        *to++ = *read != '\\' ? *read : *++read == 'n' ? '\n' : *read;
    *at = read + 1, *to = 0;
    return from;
}

/* Where the value of a key, which is given with its quotes and colon, begins. */
static char *value(char *body, const char *key) {
    char *found = strstr(body, key);
    must(found != NULL);
    return found + strlen(key);
}

static void put_rows(int inter, char *rows) {
    static char text[1 << 12];
    for (rows++; *rows == '[' || *rows == ',';) {
        char *fields[32], *to = text;
        int count = 0;
        for (rows += *rows == ','; *rows != ']'; rows += *rows == ',') {
            rows += *rows == '[';
            fields[count++] = quoted(&rows);
        }
        rows++;
        for (int at = 0; at < count; at++)
            to += sprintf(to, at ? ",%s" : "%s", fields[at]);
        int kind = *fields[0] == 'p' ? (fields[0][1] == 'h' ? 1 : 4) : fields[0][1] == 'e' ? 2 : 3;
        run(DRAFT, "iiiit", inter, kind, atoi(fields[1]), kind % 4 > 1 ? atoi(fields[2]) : 0, text);
    }
}

/* The statement that stands on the row of an intersection. */
static sqlite3_stmt *found(int inter) {
    sqlite3_bind_int(made[FIND], 1, inter);
    must(sqlite3_step(made[FIND]) == SQLITE_ROW);
    return made[FIND];
}

static void step(int inter, const char *name, char *body, char *told) {
    int revision = sqlite3_column_int(found(inter), 2);
    sqlite3_reset(made[FIND]);
    char *rows = *name == 'e' ? value(body, "\"rows\":") : NULL, *at = value(body, "\"clerk\":");
    const char *clerk = quoted(&at);
    int stage = *name == 'v' ? 2 : !strcmp(name, "check") ? 3 : 1;
    if (*name == 'e')
        put_rows(inter, rows);
    if (!strcmp(name, "commit"))
        run(TAKE, "i", inter), run(DROP, "i", inter), revision++, stage = 0, clerk = NULL;
    if (*name != 'e')
        run(MOVE, "itii", stage, clerk, revision, inter);
    sprintf(told, "{\"revision\":%d,\"state\":\"%s\",\"verify\":\"%s\"}", revision, STATES[stage],
            stage == 3 ? "doneWithNoError" : "notDone");
}

/* Takes a record: whether it was new. */
static int take(char **f) {
    int which = *f[0] == 'i' ? INSPECT : ORDER;
    if (*f[0] == 'i' || *f[0] == 'o')
        return run(which, "iittt", atoi(f[1]), atoi(f[2]), f[3], f[4], f[5]);
    if (*f[0] == 'u')
        return run(USE, "iiiti", atoi(f[1]), atoi(f[2]), atoi(f[3]), f[4], atoi(f[5]))
            && run(LESS, "it", atoi(f[5]), f[4]);
    if (!run(DELIVER, "titi", f[1], atoi(f[2]), f[3], atoi(f[4])))
        return 0;
    return run(PART, "t", f[1]), run(MORE, "it", atoi(f[4]), f[1]);
}

static void import(char *at, char *told) {
    int added = 0, all = 0;
    for (at = quoted(&at); *at; all++) {
        char *fields[8];
        for (int count = 0, end = 0; !end; count++) {
            int is_quoted = *at == '"';
            fields[count] = at += is_quoted;
            at = strpbrk(at, is_quoted ? "\"" : ",\n");
            at += is_quoted ? (*at = 0, 1) : 0;
            end = *at == '\n';
            *at++ = 0;
        }
        added += take(fields);
    }
    sprintf(told, "{\"added\":%d,\"same\":%d}", added, all - added);
}

static void show(int inter, char *told) {
    sqlite3_stmt *it = found(inter);
    sprintf(told, "{\"id\":%d,\"interval\":%d,\"name\":\"%s\",\"owner\":null,\"revision\":%d,"
            "\"rows\":0,\"state\":\"%s\",\"verify\":\"notDone\"}", inter, sqlite3_column_int(it, 1),
            sqlite3_column_text(it, 0), sqlite3_column_int(it, 2),
            STATES[sqlite3_column_int(it, 3)]);
    sqlite3_reset(it);
}

static void change(const char *path, char *body, char *told) {
    int inter = atoi(path + sizeof "/intersections");
    const char *last = strrchr(path, '/') + 1;
    run(BEGIN, "");
    if (!strcmp(path, "/import")) {
        import(value(body, "\"csv\":"), told);
    } else if (!strcmp(path, "/intersections")) {
        char *text = value(body, "\"name\":");
        int id = atoi(value(body, "\"id\":")), days = atoi(value(body, "\"interval\":"));
        strcpy(told, RESULTS[run(ADD, "iti", id, quoted(&text), days)]);
    } else if (!strcmp(last, "inspections")) {
        int number = atoi(value(body, "\"number\":"));
        char *day = value(body, "\"day\":"), *clerk = value(body, "\"clerk\":");
        char *text = value(body, "\"text\":");
        day = quoted(&day), clerk = quoted(&clerk), text = quoted(&text);
        strcpy(told, RESULTS[run(INSPECT, "iittt", inter, number, day, clerk, text)]);
    } else {
        step(inter, last, body, told);
    }
    run(COMMIT, "");
}

int main(int count, char **words) {
    char *line = NULL, *body = NULL, path[256], told[4096];
    size_t room = 0, length;
    must(sqlite3_open(count > 2 ? words[2] : ":memory:", &db) == SQLITE_OK);
    must(sqlite3_exec(db, words[1], NULL, NULL, NULL) == SQLITE_OK);
    for (int it = 0; it < STATEMENTS; it++)
        must(sqlite3_prepare_v2(db, TEXTS[it], -1, &made[it], NULL) == SQLITE_OK);
    while (getline(&line, &room, stdin) > 0) {
        must(sscanf(line, "%*s %255s", path) == 1);
        for (length = 0; getline(&line, &room, stdin) > 2;)
            sscanf(line, "Content-Length: %zu", &length);
        body = realloc(body, length + 1);
        must(body && fread(body, 1, length, stdin) == length);
        body[length] = 0;
        length ? change(path, body, told) : show(atoi(path + sizeof "/intersections"), told);
        printf("HTTP/1.1 200 OK\r\nContent-Type: application/json\r\nContent-Length: %zu\r\n\r\n"
               "%s", strlen(told), told);
    }
}
