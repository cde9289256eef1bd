/* The same list of calls on the proved store and on the plain C store, in one process: answers compared, then nanoseconds a call.
   Under callgrind the counts of each call's function are read off the profile (benches/instructions).
   usage: store_bench WORKLOAD ENTRIES CELLS SESSIONS CYCLES
   Every value that `commit` and `update` write is a change; `written-back` reads ENTRIES cells, writes the same values and seals, which commits; `held` is
   `commit` with holds in place of reads, so that every cell is advanced.
   `look-up-known-read`, `look-up-new-read` and the same of writes and holds make that call in a log of ENTRIES entries.
   The workloads `many` and `singles` read a session's ENTRIES cells as new ones, by one call for many reads and by a loop of single reads, which counts
   as one call here; `many-known` and `singles-known` read them when they are in the log.
   `waits` asks a session with ENTRIES changed cells to advance while all fifteen others read the first of them, and is answered 104, whatever SESSIONS is.
   `caps-commit`, `look-up-known-write-caps` and `look-up-new-write-caps` write by the table of caps in force, after a set-up by it; `load` loads one of two
   tables in turn, ENTRIES times a cycle, with every session idle. */
#include "plain_store.h"
#include "rukkanei.h"

#include <stdio.h>
#include <stdlib.h>
#include <string.h>
#include <time.h>

enum { BEGIN = 1, READ, HOLD, WRITE, SEAL, ADVANCE, ABANDON, PEEK, MANY, SINGLES, WRITE_WITH_CAPS, LOAD };
enum { MAX_CALLS = 1 << 20 };

static uint32_t calls[4 * MAX_CALLS];
static uint32_t answers[2][2 * MAX_CALLS];
static size_t count;

static uint32_t values[2][PLAIN_MAX_CELLS];
static uint8_t classes[PLAIN_MAX_CELLS];
static uint16_t readers[2][PLAIN_MAX_CELLS];
static uint8_t claimants[2][PLAIN_MAX_CELLS];
static uint8_t exclusives[2][PLAIN_MAX_CELLS];
static uint32_t logs[2][PLAIN_LOG_WORDS];

/* The list and the targets of each session's many reads. */
static uint32_t lists[PLAIN_SESSIONS][PLAIN_MAX_LIST];
static uint32_t targets[2][PLAIN_SESSIONS][PLAIN_MAX_LIST];

/* The table in force of each store, and the tables that are loaded. Every run starts with the first. Set-up is by it where `own_caps` says so. */
static uint32_t caps[2][PLAIN_CAPS];
static uint32_t tables[2][PLAIN_CAPS];
static int own_caps;

static void add(uint32_t kind, uint32_t session, uint32_t cell, uint32_t value)
{
    if (count == MAX_CALLS) {
        return;
    }
    uint32_t *c = calls + 4 * count++;
    c[0] = kind;
    c[1] = session;
    c[2] = cell;
    c[3] = value;
}

/* A session's list by many reads, and by single reads up to the first that is not answered 101. The answer's value is the count. */
__attribute__((noinline)) static plain_answer plain_many(const plain_lent *lent, plain_session *sessions, uint8_t s, uint32_t entries)
{
    plain_many_answer a = plain_read_many(lent, sessions, s, lists[s], entries, targets[1][s], entries);
    return (plain_answer){a.number, a.count};
}

__attribute__((noinline)) static plain_answer plain_singles(const plain_lent *lent, plain_session *sessions, uint8_t s, uint32_t entries)
{
    for (uint32_t got = 0; got < entries; got++) {
        plain_answer a = plain_read(lent, sessions, s, lists[s][got]);
        if (a.number != 101) {
            return (plain_answer){a.number, got};
        }
        targets[1][s][got] = a.value;
    }
    return (plain_answer){101, entries};
}

/* The plain store's run of the list, in the shape of proved_run. */
__attribute__((noinline)) static uint32_t plain_run(size_t n)
{
    plain_session sessions[PLAIN_SESSIONS];
    memset(sessions, 0, sizeof sessions);
    plain_lent lent = {values[1], n, classes, n, readers[1], n, claimants[1], n, exclusives[1], n, logs[1], PLAIN_LOG_WORDS};
    plain_answer up = own_caps ? plain_set_up_with_caps(&lent, sessions, caps[1], PLAIN_CAPS) : plain_set_up(&lent, sessions);
    for (size_t i = 0; i < count; i++) {
        uint32_t *c = calls + 4 * i;
        plain_answer a;
        switch (c[0]) {
        case BEGIN:
            a = plain_begin(&lent, sessions, (uint8_t)c[1]);
            break;
        case READ:
            a = plain_read(&lent, sessions, (uint8_t)c[1], c[2]);
            break;
        case HOLD:
            a = plain_hold(&lent, sessions, (uint8_t)c[1], c[2]);
            break;
        case WRITE:
            a = plain_write(&lent, sessions, (uint8_t)c[1], c[2], c[3]);
            break;
        case SEAL:
            a = plain_seal(&lent, sessions, (uint8_t)c[1]);
            break;
        case ADVANCE:
            a = plain_advance(&lent, sessions, (uint8_t)c[1]);
            break;
        case ABANDON:
            a = plain_abandon(&lent, sessions, (uint8_t)c[1]);
            break;
        case MANY:
            a = plain_many(&lent, sessions, (uint8_t)c[1], c[2]);
            break;
        case SINGLES:
            a = plain_singles(&lent, sessions, (uint8_t)c[1], c[2]);
            break;
        case WRITE_WITH_CAPS:
            a = plain_write_with_caps(&lent, sessions, caps[1], PLAIN_CAPS, (uint8_t)c[1], c[2], c[3]);
            break;
        case LOAD:
            a = plain_load_caps(&lent, sessions, caps[1], PLAIN_CAPS, tables[c[2]], PLAIN_CAPS);
            break;
        default:
            a = plain_peek_number(&lent, sessions, (uint8_t)c[1], c[2]);
        }
        answers[1][2 * i] = a.number;
        answers[1][2 * i + 1] = a.value;
    }
    return up.number;
}

#define LENT values[0], n, classes, n, readers[0], n, claimants[0], n, exclusives[0], n, logs[0], PLAIN_LOG_WORDS

/* The same by the proved store. */
__attribute__((noinline)) static rukkanei_reply proved_many(size_t n, rukkanei_session record, uint8_t s, uint32_t entries)
{
    rukkanei_read_many_reply r = rukkanei_read_many(record, LENT, s, lists[s], entries, targets[0][s], entries);
    return (rukkanei_reply){r.number, r.count, r.session};
}

__attribute__((noinline)) static rukkanei_reply proved_singles(size_t n, rukkanei_session record, uint8_t s, uint32_t entries)
{
    for (uint32_t got = 0; got < entries; got++) {
        rukkanei_reply r = rukkanei_read(record, LENT, s, lists[s][got]);
        record = r.session;
        if (r.number != RUKKANEI_VALUE) {
            return (rukkanei_reply){r.number, got, record};
        }
        targets[0][s][got] = r.value;
    }
    return (rukkanei_reply){RUKKANEI_VALUE, entries, record};
}

/* A load takes and hands back all records; the reply is as session 0's. */
static rukkanei_reply proved_load(size_t n, rukkanei_sessions *sessions, uint32_t table)
{
    rukkanei_set_up_reply r = rukkanei_load_caps(*sessions, LENT, caps[0], PLAIN_CAPS, tables[table], PLAIN_CAPS);
    *sessions = r.sessions;
    return (rukkanei_reply){r.number, r.value, r.sessions.records[0]};
}

/* The proved store's run of the same list, by its calls for C: the record of the session that calls goes in, and what comes back takes its place. */
__attribute__((noinline)) static uint32_t proved_run(size_t n)
{
    rukkanei_sessions sessions;
    memset(&sessions, 0, sizeof sessions);
    rukkanei_set_up_reply up = own_caps ? rukkanei_set_up_with_caps(sessions, LENT, caps[0], PLAIN_CAPS) : rukkanei_set_up(sessions, LENT);
    sessions = up.sessions;
    for (size_t i = 0; i < count; i++) {
        uint32_t *c = calls + 4 * i;
        uint8_t s = (uint8_t)c[1];
        rukkanei_session *own = &sessions.records[s];
        rukkanei_reply r;
        switch (c[0]) {
        case LOAD:
            r = proved_load(n, &sessions, c[2]);
            break;
        case WRITE_WITH_CAPS:
            r = rukkanei_write_with_caps(*own, LENT, caps[0], PLAIN_CAPS, s, c[2], c[3]);
            break;
        case BEGIN:
            r = rukkanei_begin(*own, LENT, s);
            break;
        case READ:
            r = rukkanei_read(*own, LENT, s, c[2]);
            break;
        case HOLD:
            r = rukkanei_hold(*own, LENT, s, c[2]);
            break;
        case WRITE:
            r = rukkanei_write(*own, LENT, s, c[2], c[3]);
            break;
        case SEAL:
            r = rukkanei_seal(*own, LENT, s);
            break;
        case ADVANCE:
            r = rukkanei_advance(*own, LENT, s);
            break;
        case ABANDON:
            r = rukkanei_abandon(*own, LENT, s);
            break;
        case MANY:
            r = proved_many(n, *own, s, c[2]);
            break;
        case SINGLES:
            r = proved_singles(n, *own, s, c[2]);
            break;
        default:
            r = rukkanei_peek_number(*own, LENT, s, c[2]);
        }
        *own = r.session;
        answers[0][2 * i] = r.number;
        answers[0][2 * i + 1] = r.value;
    }
    return up.number;
}

/* A cell's value at the start of a round: none that a workload changes it to. */
static uint32_t start_of(uint32_t cell)
{
    return 1000 + cell;
}

/* Cells of a session's transaction: spread over the store, each session its own, in an order that is neither up nor down. */
static uint32_t cell_of(uint32_t s, uint32_t i, uint32_t n, uint32_t sessions, uint32_t entries)
{
    uint32_t share = n / sessions;
    uint32_t j = (i * 7 + 3) % entries;
    return s * share + (share >= entries ? j * (share / entries) : j % share);
}

/* Each session's list of cells, read in one call of this kind: new, or in the log by writes before and read four times. */
static void list_workload(uint32_t kind, int known, uint32_t entries, uint32_t n, uint32_t sessions, uint32_t cycles)
{
    for (uint32_t s = 0; s < sessions; s++) {
        for (uint32_t i = 0; i < entries; i++) {
            lists[s][i] = cell_of(s, i, n, sessions, entries);
        }
    }
    for (uint32_t k = 0; k < cycles; k++) {
        for (uint32_t s = 0; s < sessions; s++) {
            add(BEGIN, s, 0, 0);
            for (uint32_t i = 0; known && i < entries; i++) {
                add(WRITE, s, lists[s][entries - 1 - i], k & 0xff);
            }
            for (uint32_t i = 0; i < (known ? 4 : 1); i++) {
                add(kind, s, entries, 0);
            }
            add(ABANDON, s, 0, 0);
        }
    }
}

/* One call of this kind, which looks a cell up, in a log of ENTRIES entries, which calls of another kind entered: each of its cells in turn, or a new one. */
static void look_up_workload(uint32_t kind, int known, uint32_t entries, uint32_t n, uint32_t sessions, uint32_t cycles)
{
    for (uint32_t k = 0; k < cycles; k++) {
        for (uint32_t s = 0; s < sessions; s++) {
            add(BEGIN, s, 0, 0);
            for (uint32_t i = 0; i < entries; i++) {
                add(kind == WRITE || kind == WRITE_WITH_CAPS ? READ : WRITE, s, cell_of(s, i, n, sessions, entries + 1), k & 0xff);
            }
            for (uint32_t i = known ? 0 : entries; i < (known ? entries : entries + 1); i++) {
                add(kind, s, cell_of(s, i, n, sessions, entries + 1), k & 0xff);
            }
            add(ABANDON, s, 0, 0);
        }
    }
}

/* Session 0 changes ENTRIES cells, fifteen others read the first of them, and it waits for these four times. */
static void wait_workload(uint32_t entries, uint32_t cycles)
{
    for (uint32_t k = 0; k < cycles; k++) {
        for (uint32_t s = 0; s < PLAIN_SESSIONS; s++) {
            add(BEGIN, s, 0, 0);
        }
        for (uint32_t i = 0; i < entries; i++) {
            add(WRITE, 0, i, start_of(i) + 1);
        }
        for (uint32_t s = 1; s < PLAIN_SESSIONS; s++) {
            add(READ, s, 0, 0);
        }
        add(SEAL, 0, 0, 0);
        for (uint32_t i = 0; i < 4; i++) {
            add(ADVANCE, 0, 0, 0);
        }
        for (uint32_t s = 0; s < PLAIN_SESSIONS; s++) {
            add(ABANDON, s, 0, 0);
        }
    }
}

static void workload(const char *name, uint32_t entries, uint32_t n, uint32_t sessions, uint32_t cycles)
{
    if (!strncmp(name, "many", 4) || !strncmp(name, "singles", 7)) {
        list_workload(name[0] == 'm' ? MANY : SINGLES, strstr(name, "-known") != NULL, entries, n, sessions, cycles);
        return;
    }
    if (!strncmp(name, "look-up-", 8)) {
        uint32_t kind = strstr(name, "write-caps") ? WRITE_WITH_CAPS : strstr(name, "write") ? WRITE : strstr(name, "hold") ? HOLD : READ;
        look_up_workload(kind, strstr(name, "known") != NULL, entries, n, sessions, cycles);
        return;
    }
    if (!strcmp(name, "waits")) {
        wait_workload(entries, cycles);
        return;
    }
    if (!strcmp(name, "load")) {
        for (uint32_t i = 0; i < entries * cycles; i++) {
            add(LOAD, 0, (i + 1) % 2, 0);
        }
        return;
    }
    int held = !strcmp(name, "held");
    int commit = held || own_caps || !strcmp(name, "commit");
    for (uint32_t k = 0; k < cycles; k++) {
        for (uint32_t s = 0; s < sessions; s++) {
            add(BEGIN, s, 0, 0);
        }
        for (uint32_t i = 0; i < entries; i++) {
            for (uint32_t s = 0; s < sessions; s++) {
                int write = !strcmp(name, "write") || (commit && i % 2 == 1) || !strcmp(name, "update");
                add(write && own_caps ? WRITE_WITH_CAPS : write ? WRITE : held ? HOLD : READ, s, cell_of(s, i, n, sessions, entries), k & 0xff);
            }
        }
        for (uint32_t i = 0; !strcmp(name, "written-back") && i < entries; i++) {
            for (uint32_t s = 0; s < sessions; s++) {
                uint32_t cell = cell_of(s, i, n, sessions, entries);
                add(WRITE, s, cell, start_of(cell));
            }
        }
        if (!strcmp(name, "known")) {
            for (uint32_t i = 0; i < 4 * entries; i++) {
                for (uint32_t s = 0; s < sessions; s++) {
                    add(i % 2 ? WRITE : READ, s, cell_of(s, i % entries, n, sessions, entries), i);
                }
            }
        }
        if (commit || !strcmp(name, "update") || !strcmp(name, "reads") || !strcmp(name, "written-back")) {
            uint32_t published = held || !strcmp(name, "update") ? entries : commit ? entries / 2 : 0;
            for (uint32_t s = 0; s < sessions; s++) {
                add(SEAL, s, 0, 0);
            }
            for (uint32_t i = 0; i < 3 * published; i++) {
                for (uint32_t s = 0; s < sessions; s++) {
                    add(ADVANCE, s, 0, 0);
                }
            }
        } else {
            for (uint32_t s = 0; s < sessions; s++) {
                add(ABANDON, s, 0, 0);
            }
        }
    }
}

static double now(void)
{
    struct timespec t;
    clock_gettime(CLOCK_MONOTONIC, &t);
    return (double)t.tv_sec * 1e9 + (double)t.tv_nsec;
}

int main(int argc, char **argv)
{
    if (argc != 6) {
        return 2;
    }
    uint32_t n = (uint32_t)atoi(argv[3]);
    for (uint32_t i = 0; i < n; i++) {
        classes[i] = 15;
    }
    for (uint32_t k = 0; k < PLAIN_CAPS; k++) {
        tables[0][k] = 100 * (k + 1);
        tables[1][k] = 100 * (k + 1) + 50;
    }
    tables[0][PLAIN_CAPS - 1] = tables[1][PLAIN_CAPS - 1] = 4294967295u;
    own_caps = strstr(argv[1], "caps") != NULL || !strcmp(argv[1], "load");
    workload(argv[1], (uint32_t)atoi(argv[2]), n, (uint32_t)atoi(argv[4]), (uint32_t)atoi(argv[5]));
    double best[2] = {1e18, 1e18};
    for (int k = 0; k < 5; k++) {
        for (uint32_t i = 0; i < n; i++) {
            values[0][i] = values[1][i] = start_of(i);
        }
        memcpy(caps[0], tables[0], sizeof caps[0]);
        memcpy(caps[1], tables[0], sizeof caps[1]);
        double a = now();
        uint32_t p = proved_run(n);
        double b = now();
        uint32_t q = plain_run(n);
        double c = now();
        if (p != q || memcmp(answers[0], answers[1], count * 8) || memcmp(values[0], values[1], sizeof values[0]) ||
            memcmp(readers[0], readers[1], sizeof readers[0]) || memcmp(claimants[0], claimants[1], sizeof claimants[0]) ||
            memcmp(exclusives[0], exclusives[1], sizeof exclusives[0]) || memcmp(logs[0], logs[1], sizeof logs[0]) ||
            memcmp(targets[0], targets[1], sizeof targets[0]) || memcmp(caps[0], caps[1], sizeof caps[0])) {
            printf("DIFFER\n");
            return 1;
        }
        best[0] = b - a < best[0] ? b - a : best[0];
        best[1] = c - b < best[1] ? c - b : best[1];
    }
    uint32_t kinds[256] = {0};
    for (size_t i = 0; i < count; i++) {
        kinds[answers[0][2 * i] & 255]++;
    }
    printf("%-24s entries %2s cells %4s sessions %2s calls %7zu ns %6.1f C %6.1f ratio %.2f  [100:%u 101:%u 102:%u 103:%u 104:%u 105:%u 6:%u]\n", argv[1], argv[2], argv[3],
           argv[4], count, best[0] / (double)count, best[1] / (double)count, best[0] / best[1], kinds[100], kinds[101], kinds[102], kinds[103],
           kinds[104], kinds[105], kinds[6]);
    return 0;
}
