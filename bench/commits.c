/* Commits of SQLite's own library: a thread for each file, each with the tables of a store, and transactions of so many acts, each of another subscriber.
 *
 *     commits FOLDER FILES ACTS_IN_A_COMMIT SECONDS SUBSCRIBERS    prints: acts N commits N nanoseconds N processor N written N
 *
 * An act has the rows of a store: the act with a body of 60 octets, one entry, and its subscriber's account, of which a top-up was there before. Build it
 * with cc -O2 commits.c -lsqlite3 -lpthread. */

#include <pthread.h>
#include <sqlite3.h>
#include <stdint.h>
#include <stdio.h>
#include <stdlib.h>
#include <string.h>
#include <time.h>

static const char *TABLES =
    "PRAGMA journal_mode = WAL; PRAGMA synchronous = FULL; PRAGMA foreign_keys = ON;"
    "CREATE TABLE act (sub BLOB NOT NULL, place INTEGER NOT NULL, body BLOB NOT NULL, PRIMARY KEY (sub, place)) STRICT;"
    "CREATE TABLE entry (sub BLOB NOT NULL, place INTEGER NOT NULL, line INTEGER NOT NULL, kind INTEGER NOT NULL, grp INTEGER, units INTEGER NOT NULL,"
    " amount INTEGER NOT NULL, PRIMARY KEY (sub, place, line), FOREIGN KEY (sub, place) REFERENCES act (sub, place)) STRICT;"
    "CREATE TABLE account (sub BLOB NOT NULL PRIMARY KEY, acts INTEGER NOT NULL, funds INTEGER NOT NULL) STRICT;";

enum { ACT, ENTRY, ACCOUNT, BEGIN, COMMIT, STATEMENTS };

static const char *TEXTS[STATEMENTS] = {
    "INSERT INTO act VALUES (?1, ?2, ?3)",
    "INSERT INTO entry VALUES (?1, ?2, 1, 2, NULL, 1000, -5)",
    "INSERT INTO account VALUES (?1, ?2, ?3) ON CONFLICT (sub) DO UPDATE SET acts = excluded.acts, funds = excluded.funds",
    "BEGIN IMMEDIATE",
    "COMMIT",
};

static int batch, seconds, subscribers;
static pthread_barrier_t barrier;

struct file {
    char path[1024];
    int number;
    sqlite3 *database;
    sqlite3_stmt *statements[STATEMENTS];
    uint64_t acts, commits;
};

static void must(struct file *file, int code, int wanted)
{
    if (code != wanted) {
        fprintf(stderr, "commits: %s: %s\n", file->path, sqlite3_errmsg(file->database));
        exit(1);
    }
}

static void run(struct file *file, int which)
{
    sqlite3_stmt *it = file->statements[which];
    must(file, sqlite3_step(it), SQLITE_DONE);
    sqlite3_reset(it);
}

static void act(struct file *file, uint64_t number)
{
    char sub[16], body[60] = {0};
    sub[0] = 0;
    snprintf(sub + 1, 15, "4917%03d%05d", file->number, (int)(number % (uint64_t)subscribers));
    sqlite3_int64 place = 1 + (sqlite3_int64)(number / (uint64_t)subscribers);
    for (int which = ACT; which <= ACCOUNT; which++) {
        sqlite3_bind_blob(file->statements[which], 1, sub, 13, SQLITE_TRANSIENT);
        sqlite3_bind_int64(file->statements[which], 2, place);
    }
    sqlite3_bind_blob(file->statements[ACT], 3, body, sizeof body, SQLITE_TRANSIENT);
    sqlite3_bind_int64(file->statements[ACCOUNT], 3, 1000000 - 5 * place);
    for (int which = ACT; which <= ACCOUNT; which++)
        run(file, which);
}

static uint64_t nanoseconds(clockid_t clock)
{
    struct timespec now;
    clock_gettime(clock, &now);
    return (uint64_t)now.tv_sec * 1000000000u + (uint64_t)now.tv_nsec;
}

static void *work(void *given)
{
    struct file *file = given;
    must(file, sqlite3_open(file->path, &file->database), SQLITE_OK);
    must(file, sqlite3_exec(file->database, TABLES, NULL, NULL, NULL), SQLITE_OK);
    for (int which = 0; which < STATEMENTS; which++)
        must(file, sqlite3_prepare_v2(file->database, TEXTS[which], -1, &file->statements[which], NULL), SQLITE_OK);
    uint64_t number = 0;
    run(file, BEGIN);
    for (; number < (uint64_t)subscribers; number++)
        act(file, number);
    run(file, COMMIT);
    pthread_barrier_wait(&barrier);
    uint64_t end = nanoseconds(CLOCK_MONOTONIC) + (uint64_t)seconds * 1000000000u;
    while (nanoseconds(CLOCK_MONOTONIC) < end) {
        run(file, BEGIN);
        for (int of = 0; of < batch; of++)
            act(file, number++);
        run(file, COMMIT);
        file->acts += (uint64_t)batch;
        file->commits++;
    }
    return NULL;
}

static uint64_t written(void)
{
    unsigned long long found = 0;
    char line[128];
    FILE *io = fopen("/proc/self/io", "r");
    while (io && fgets(line, sizeof line, io))
        sscanf(line, "wchar: %llu", &found);
    if (io)
        fclose(io);
    return found;
}

int main(int count, char **words)
{
    if (count != 6) {
        fprintf(stderr, "usage: commits FOLDER FILES ACTS_IN_A_COMMIT SECONDS SUBSCRIBERS\n");
        return 2;
    }
    int files = atoi(words[2]);
    batch = atoi(words[3]), seconds = atoi(words[4]), subscribers = atoi(words[5]);
    struct file *all = calloc((size_t)files, sizeof *all);
    pthread_t threads[64];
    pthread_barrier_init(&barrier, NULL, (unsigned)files + 1);
    for (int at = 0; at < files; at++) {
        snprintf(all[at].path, sizeof all[at].path, "%s/commits-%d.db", words[1], at);
        all[at].number = at;
        pthread_create(&threads[at], NULL, work, &all[at]);
    }
    pthread_barrier_wait(&barrier);
    uint64_t began = nanoseconds(CLOCK_MONOTONIC), processor = nanoseconds(CLOCK_PROCESS_CPUTIME_ID), octets = written(), acts = 0, commits = 0;
    for (int at = 0; at < files; at++)
        pthread_join(threads[at], NULL);
    uint64_t took = nanoseconds(CLOCK_MONOTONIC) - began;
    processor = nanoseconds(CLOCK_PROCESS_CPUTIME_ID) - processor;
    octets = written() - octets;
    for (int at = 0; at < files; at++)
        acts += all[at].acts, commits += all[at].commits;
    printf("acts %llu commits %llu nanoseconds %llu processor %llu written %llu\n", (unsigned long long)acts, (unsigned long long)commits,
           (unsigned long long)took, (unsigned long long)processor, (unsigned long long)octets);
    return 0;
}
