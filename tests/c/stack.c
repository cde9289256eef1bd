/* The stack that each function for C takes, with its arguments, its return address and its result: on a stack of its own, filled with a pattern, the call is
 * made in its ways that go deepest, and what it has written over is counted. Prints a line a function, and ends with 1 where one takes 512 bytes or more. */
#include "rukkanei.h"

#include <stdio.h>
#include <string.h>
#include <ucontext.h>

enum { CELLS = 64, ENTRIES = 32, MOST = 512, PATTERN = 0xa5 };

static uint32_t values[CELLS], logs[RUKKANEI_LOG_WORDS], cells[ENTRIES], target[ENTRIES], value;
static uint8_t classes[CELLS], claimants[CELLS], exclusives[CELLS], bytes[RUKKANEI_FIELD_MAX], tag, session, class_of;
static uint16_t readers[CELLS], cell_of;
static uint32_t caps[RUKKANEI_CAPS], table[RUKKANEI_CAPS];
static size_t length, place;
static rukkanei_session record;
static rukkanei_sessions records;
static rukkanei_reply reply;
static rukkanei_set_up_reply whole;
static rukkanei_read_many_reply many;
static uint8_t number;

#define LENT values, CELLS, classes, CELLS, readers, CELLS, claimants, CELLS, exclusives, CELLS, logs, RUKKANEI_LOG_WORDS

static void nothing(void) {}
static void set_up(void) { whole = rukkanei_set_up(records, LENT); }
static void set_up_with_caps(void) { whole = rukkanei_set_up_with_caps(records, LENT, caps, RUKKANEI_CAPS); }
static void load_caps(void) { whole = rukkanei_load_caps(records, LENT, caps, RUKKANEI_CAPS, table, RUKKANEI_CAPS); }
static void begin(void) { reply = rukkanei_begin(record, LENT, 0); }
static void read_cell(void) { reply = rukkanei_read(record, LENT, 0, CELLS - 1); }
static void hold(void) { reply = rukkanei_hold(record, LENT, 0, CELLS - 1); }
static void read_many(void) { many = rukkanei_read_many(record, LENT, 0, cells, ENTRIES, target, ENTRIES); }
static void write_cell(void) { reply = rukkanei_write(record, LENT, 0, CELLS - 1, 1); }
static void write_with_caps(void) { reply = rukkanei_write_with_caps(record, LENT, caps, RUKKANEI_CAPS, 0, CELLS - 1, 1); }
static void seal(void) { reply = rukkanei_seal(record, LENT, 0); }
static void advance(void) { reply = rukkanei_advance(record, LENT, 0); }
static void abandon(void) { reply = rukkanei_abandon(record, LENT, 0); }
static void peek_number(void) { reply = rukkanei_peek_number(record, LENT, 0, ENTRIES - 1); }
static void peek_place(void) { number = rukkanei_peek_place(record, LENT, 0, ENTRIES - 1, &place); }
static void field_read(void) { number = rukkanei_field_read(bytes, sizeof bytes, 0, &tag, &session, &class_of, &cell_of, &value, &length); }
static void field_write(void) { number = rukkanei_field_write(bytes, sizeof bytes, RUKKANEI_TAG_WRITE, 1, 2, 3, 4, &length); }

static unsigned char stack[1 << 16];
static ucontext_t here, there;

/* How many bytes of its stack a call of this function writes over. */
static size_t depth(void (*call)(void))
{
    size_t left = 0;
    memset(stack, PATTERN, sizeof stack);
    getcontext(&there);
    there.uc_stack.ss_sp = stack;
    there.uc_stack.ss_size = sizeof stack;
    there.uc_link = &here;
    makecontext(&there, call, 0);
    swapcontext(&here, &there);
    while (left < sizeof stack && stack[left] == PATTERN) {
        left++;
    }
    return sizeof stack - left;
}

/* A running session with so many entries, half of them changed, and with the last cell claimed by another or not. */
static void running(uint32_t entries, int claimed)
{
    memset(&records, 0, sizeof records);
    records = rukkanei_set_up(records, LENT).sessions;
    record = rukkanei_begin(records.records[0], LENT, 0).session;
    for (uint32_t i = 0; i < entries; i++) {
        record = i % 2 ? rukkanei_read(record, LENT, 0, i).session : rukkanei_write(record, LENT, 0, i, 1).session;
    }
    claimants[CELLS - 1] = claimed ? 5 : 16;
}

int main(void)
{
    static const struct {
        const char *name;
        void (*call)(void);
    } calls[] = {{"set_up", set_up},       {"set_up_with_caps", set_up_with_caps}, {"load_caps", load_caps},   {"begin", begin},
                 {"read", read_cell},      {"hold", hold},                         {"read_many", read_many},   {"write", write_cell},
                 {"write_with_caps", write_with_caps}, {"seal", seal},             {"advance", advance},       {"abandon", abandon},
                 {"peek_number", peek_number}, {"peek_place", peek_place},         {"field_read", field_read}, {"field_write", field_write}};
    size_t none = depth(nothing), most = 0;
    for (uint32_t i = 0; i < RUKKANEI_CAPS; i++) {
        caps[i] = table[i] = i + 1;
    }
    for (uint32_t i = 0; i < CELLS; i++) {
        classes[i] = 2;
    }
    for (uint32_t i = 0; i < ENTRIES; i++) {
        cells[i] = CELLS - 1 - i;
    }
    for (size_t k = 0; k < sizeof calls / sizeof *calls; k++) {
        size_t deepest = 0;
        /* Each length of a log; a cell that is free and one that is claimed; each phase, one that is damaged too. */
        for (uint32_t way = 0; way < (ENTRIES + 1) * 2 * 6; way++) {
            running(way / 12, way / 6 % 2);
            if (way % 6 > 1) {
                record = rukkanei_seal(record, LENT, 0).session;
            }
            record.phase = (uint8_t)(way % 6);
            if (way % 6 == 0) {
                memset(&records, 0, sizeof records);
            }
            size_t d = depth(calls[k].call) - none;
            deepest = d > deepest ? d : deepest;
        }
        printf("%s %zu\n", calls[k].name, deepest);
        most = deepest > most ? deepest : most;
    }
    return most >= MOST;
}
