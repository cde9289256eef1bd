/* A start for a maker's firmware. First the fields: it writes a begin, two reads, a write and a seal into one buffer, reads them back and prints
 * them, and shows what each refusal looks like. Then the store: it carries out one transaction, call for call as fields bring them. Then a tablet's
 * round: many cells read in one call. Then two desks that move shares crosswise, and hold what they read. Then a kiosk that shows how many are in its
 * way. Last a maker with caps of his own. Build it with
 *
 *   bash scripts/install PREFIX
 *   export PKG_CONFIG_PATH=PREFIX/lib/pkgconfig
 *   gcc -Wall -Wextra -Werror -std=c99 -o firmware examples/firmware/firmware.c $(pkg-config --cflags --libs rukkanei) */
#include <inttypes.h>
#include <stdio.h>

#include "rukkanei.h"

/* One call, as the fields carry it. */
struct call {
    uint8_t tag;
    uint8_t session;
    uint8_t cell_class;
    uint16_t cell;
    uint32_t value;
};

static const char *kind(uint8_t tag) {
    switch (tag) {
    case RUKKANEI_TAG_BEGIN:
        return "begin";
    case RUKKANEI_TAG_READ:
        return "read";
    case RUKKANEI_TAG_HOLD:
        return "hold";
    case RUKKANEI_TAG_WRITE:
        return "write";
    case RUKKANEI_TAG_SEAL:
        return "seal";
    case RUKKANEI_TAG_ADVANCE:
        return "advance";
    case RUKKANEI_TAG_ABANDON:
        return "abandon";
    case RUKKANEI_TAG_STARTING_CELL:
        return "starting cell";
    default:
        return "unknown";
    }
}

static const char *meaning(uint8_t answer) {
    switch (answer) {
    case RUKKANEI_DONE:
        return "done";
    case RUKKANEI_END_OF_FIELDS:
        return "end of fields";
    case RUKKANEI_CUT_SHORT:
        return "cut short";
    case RUKKANEI_UNKNOWN_TAG:
        return "unknown tag";
    case RUKKANEI_WRONG_LENGTH:
        return "length is not the tag's own";
    case RUKKANEI_SHORT_TARGET:
        return "target too short";
    default:
        return "?";
    }
}

/* Appends one call to a buffer of which *used bytes are taken. A refusal leaves the buffer and *used as they were. */
static uint8_t append(uint8_t *buffer, size_t size, size_t *used, const struct call *c) {
    size_t length;
    uint8_t answer =
        rukkanei_field_write(buffer + *used, size - *used, c->tag, c->session, c->cell_class, c->cell, c->value, &length);
    *used += length;
    if (answer != RUKKANEI_DONE)
        printf("write refused: %s, answer %u (%s)\n", kind(c->tag), answer, meaning(answer));
    return answer;
}

static void print_call(const struct call *c) {
    printf("%s", kind(c->tag));
    if (c->tag == RUKKANEI_TAG_STARTING_CELL)
        printf(" class %u value %" PRIu32, c->cell_class, c->value);
    else
        printf(" session %u", c->session);
    if (c->tag == RUKKANEI_TAG_READ || c->tag == RUKKANEI_TAG_HOLD || c->tag == RUKKANEI_TAG_WRITE)
        printf(" cell %u", c->cell);
    if (c->tag == RUKKANEI_TAG_WRITE)
        printf(" value %" PRIu32, c->value);
    printf("\n");
}

/* Reads field after field up to the end, or up to the first that is refused, and prints each. Gives the last answer. */
static uint8_t print_fields(const uint8_t *bytes, size_t size) {
    size_t place = 0;
    for (;;) {
        struct call c;
        size_t length;
        uint8_t answer = rukkanei_field_read(bytes, size, place, &c.tag, &c.session, &c.cell_class, &c.cell, &c.value, &length);
        if (answer == RUKKANEI_END_OF_FIELDS)
            return answer;
        if (answer != RUKKANEI_DONE) {
            printf("read refused: place %zu, answer %u (%s)\n", place, answer, meaning(answer));
            return answer;
        }
        printf("place %zu: ", place);
        print_call(&c);
        place += length;
    }
}

/* Something below answers otherwise than it should: say so. */
static int expect(uint32_t answer, uint32_t wanted) {
    if (answer == wanted)
        return 0;
    printf("answer %" PRIu32 " where %" PRIu32 " was expected\n", answer, wanted);
    return 1;
}

/* The store: four cells of class 2, whose cap is 8. All of it is the firmware's own memory. */
#define CELLS 4
static uint32_t values[CELLS] = {3, 5, 0, 8};
static const uint8_t classes[CELLS] = {2, 2, 2, 2};
static uint16_t readers[CELLS];
static uint8_t claimants[CELLS];
static uint8_t exclusives[CELLS];
static uint32_t logs[RUKKANEI_LOG_WORDS];
static rukkanei_sessions sessions;
#define LENT values, CELLS, classes, CELLS, readers, CELLS, claimants, CELLS, exclusives, CELLS, logs, RUKKANEI_LOG_WORDS

/* Carries out one call and keeps the record that it hands back. A session above 15 has no record: any is passed, and none is kept. */
static rukkanei_reply carry_out(const struct call *c) {
    rukkanei_session idle = {0, 0, 0};
    rukkanei_session *own = c->session < RUKKANEI_SESSIONS ? &sessions.records[c->session] : &idle;
    rukkanei_reply reply = {RUKKANEI_UNKNOWN_TAG, 0, *own};
    switch (c->tag) {
    case RUKKANEI_TAG_BEGIN:
        reply = rukkanei_begin(*own, LENT, c->session);
        break;
    case RUKKANEI_TAG_READ:
        reply = rukkanei_read(*own, LENT, c->session, c->cell);
        break;
    case RUKKANEI_TAG_HOLD:
        reply = rukkanei_hold(*own, LENT, c->session, c->cell);
        break;
    case RUKKANEI_TAG_WRITE:
        reply = rukkanei_write(*own, LENT, c->session, c->cell, c->value);
        break;
    case RUKKANEI_TAG_SEAL:
        reply = rukkanei_seal(*own, LENT, c->session);
        break;
    case RUKKANEI_TAG_ADVANCE:
        reply = rukkanei_advance(*own, LENT, c->session);
        break;
    case RUKKANEI_TAG_ABANDON:
        reply = rukkanei_abandon(*own, LENT, c->session);
        break;
    }
    *own = reply.session;
    return reply;
}

/* Prints a call with its answer: with 101 the value, with 104 the number of others in the way. */
static void print_answer(const struct call *c, const rukkanei_reply *reply) {
    printf("answer %" PRIu32, reply->number);
    if (reply->number == RUKKANEI_VALUE)
        printf(" value %" PRIu32, reply->value);
    if (reply->number == RUKKANEI_WAITING)
        printf(" others %" PRIu32, reply->value);
    printf(": ");
    print_call(c);
}

/* Carries out a call, prints it with its answer, and says if that is not the wanted one. */
static int carried(struct call c, uint32_t wanted) {
    rukkanei_reply reply = carry_out(&c);
    print_answer(&c, &reply);
    return expect(reply.number, wanted);
}

/* One transaction of session 2: it reads cells 0 and 1, writes one more to cell 1, seals, and advances until the cell is promoted, published
 * and released. Beside it, what a call that does not fit is answered. */
static int transact(void) {
    rukkanei_set_up_reply up = rukkanei_set_up(sessions, LENT);
    size_t index;
    int wrong = expect(up.number, RUKKANEI_DONE);
    sessions = up.sessions;

    wrong += carried((struct call){RUKKANEI_TAG_READ, 2, 0, 0, 0}, RUKKANEI_WRONG_PHASE);
    wrong += carried((struct call){RUKKANEI_TAG_BEGIN, 16, 0, 0, 0}, RUKKANEI_NO_SUCH_SESSION);
    wrong += carried((struct call){RUKKANEI_TAG_BEGIN, 2, 0, 0, 0}, RUKKANEI_DONE);
    wrong += carried((struct call){RUKKANEI_TAG_READ, 2, 0, 0, 0}, RUKKANEI_VALUE);
    wrong += carried((struct call){RUKKANEI_TAG_READ, 2, 0, 1, 0}, RUKKANEI_VALUE);
    wrong += carried((struct call){RUKKANEI_TAG_READ, 2, 0, 300, 0}, RUKKANEI_NO_SUCH_CELL);
    wrong += carried((struct call){RUKKANEI_TAG_WRITE, 2, 0, 1, 9}, RUKKANEI_ABOVE_CAP);
    wrong += carried((struct call){RUKKANEI_TAG_WRITE, 2, 0, 1, 6}, RUKKANEI_DONE);

    /* What the session would read, in place: its own word of the log where it has written, the store's where it has not. */
    if (rukkanei_peek_place(sessions.records[2], LENT, 2, 1, &index) == RUKKANEI_IN_LOGS)
        printf("peek cell 1: %" PRIu32 " in the log, %" PRIu32 " in the store\n", logs[index], values[1]);

    wrong += carried((struct call){RUKKANEI_TAG_SEAL, 2, 0, 0, 0}, RUKKANEI_SEALED);
    wrong += carried((struct call){RUKKANEI_TAG_ADVANCE, 2, 0, 0, 0}, RUKKANEI_MOVED);
    wrong += carried((struct call){RUKKANEI_TAG_ADVANCE, 2, 0, 0, 0}, RUKKANEI_MOVED);
    wrong += carried((struct call){RUKKANEI_TAG_ADVANCE, 2, 0, 0, 0}, RUKKANEI_COMMITTED);
    for (size_t i = 0; i < CELLS; i++)
        printf("cell %zu: %" PRIu32 "\n", i, values[i]);
    return wrong;
}

/* Reads a list of cells in one call, keeps the record, and prints the answer with the values that were got. */
static int read_round(uint8_t session, const uint32_t *cells, size_t len, uint32_t wanted) {
    uint32_t target[RUKKANEI_READ_MANY_MAX];
    rukkanei_read_many_reply reply =
        rukkanei_read_many(sessions.records[session], LENT, session, cells, len, target, RUKKANEI_READ_MANY_MAX);
    sessions.records[session] = reply.session;
    printf("answer %" PRIu32 " count %" PRIu32 ":", reply.number, reply.count);
    for (uint32_t i = 0; i < reply.count; i++)
        printf(" cell %" PRIu32 " value %" PRIu32, cells[i], target[i]);
    printf("\n");
    return expect(reply.number, wanted);
}

/* A tablet draws its round with session 3. The round passes cell 1 twice. A list with a cell that the store does not have stops there, with what was
 * read before it; an empty one is refused. The session has written nothing, so its seal commits: all values are of one snapshot. */
static int draw_round(void) {
    static const uint32_t cells[] = {2, 1, 3, 1};
    static const uint32_t astray[] = {0, 300, 3};
    int wrong = carried((struct call){RUKKANEI_TAG_BEGIN, 3, 0, 0, 0}, RUKKANEI_DONE);

    wrong += read_round(3, cells, 4, RUKKANEI_VALUE);
    wrong += read_round(3, astray, 3, RUKKANEI_NO_SUCH_CELL);
    wrong += read_round(3, cells, 0, RUKKANEI_WRONG_LIST);
    wrong += carried((struct call){RUKKANEI_TAG_SEAL, 3, 0, 0, 0}, RUKKANEI_COMMITTED);
    return wrong;
}

/* A desk begins, holds the share of one cell and changes that of another. */
static int move_share(uint8_t session, uint16_t held, uint16_t cell, uint32_t value) {
    int wrong = carried((struct call){RUKKANEI_TAG_BEGIN, session, 0, 0, 0}, RUKKANEI_DONE);
    wrong += carried((struct call){RUKKANEI_TAG_HOLD, session, 0, held, 0}, RUKKANEI_VALUE);
    wrong += carried((struct call){RUKKANEI_TAG_WRITE, session, 0, cell, value}, RUKKANEI_DONE);
    return wrong;
}

/* Two desks, sessions 4 and 5: each reads the share that the other changes. With holds in place of reads the second that advances is rolled back, and
 * would begin again; the first has two cells to publish, the held one with the value that it found. */
static int move_shares(void) {
    int wrong = move_share(4, 0, 1, 7) + move_share(5, 1, 0, 2);

    wrong += carried((struct call){RUKKANEI_TAG_SEAL, 4, 0, 0, 0}, RUKKANEI_SEALED);
    wrong += carried((struct call){RUKKANEI_TAG_SEAL, 5, 0, 0, 0}, RUKKANEI_SEALED);
    wrong += carried((struct call){RUKKANEI_TAG_ADVANCE, 4, 0, 0, 0}, RUKKANEI_WAITING);
    wrong += carried((struct call){RUKKANEI_TAG_ADVANCE, 5, 0, 0, 0}, RUKKANEI_CONFLICT);
    for (int i = 0; i < 5; i++)
        wrong += carried((struct call){RUKKANEI_TAG_ADVANCE, 4, 0, 0, 0}, RUKKANEI_MOVED);
    wrong += carried((struct call){RUKKANEI_TAG_ADVANCE, 4, 0, 0, 0}, RUKKANEI_COMMITTED);
    for (size_t i = 0; i < 2; i++)
        printf("cell %zu: %" PRIu32 "\n", i, values[i]);
    return wrong;
}

/* A kiosk advances. While it is told to wait, its screen shows how many are in the way. */
static int kiosk_advances(uint8_t session, uint32_t wanted) {
    struct call c = {RUKKANEI_TAG_ADVANCE, session, 0, 0, 0};
    rukkanei_reply reply = carry_out(&c);
    print_answer(&c, &reply);
    if (reply.number == RUKKANEI_WAITING)
        printf("screen: please wait, %" PRIu32 " in the way\n", reply.value);
    return expect(reply.number, wanted);
}

/* Session 7, a kiosk, lends a bike of cell 3 while two tablets, sessions 8 and 9, have the cell on their rounds. It asks again until they are gone: one
 * seals, the other gives up. */
static int lend_bike(void) {
    int wrong = 0;
    for (uint8_t tablet = 8; tablet <= 9; tablet++) {
        wrong += carried((struct call){RUKKANEI_TAG_BEGIN, tablet, 0, 0, 0}, RUKKANEI_DONE);
        wrong += carried((struct call){RUKKANEI_TAG_READ, tablet, 0, 3, 0}, RUKKANEI_VALUE);
    }
    wrong += carried((struct call){RUKKANEI_TAG_BEGIN, 7, 0, 0, 0}, RUKKANEI_DONE);
    wrong += carried((struct call){RUKKANEI_TAG_WRITE, 7, 0, 3, 7}, RUKKANEI_DONE);
    wrong += carried((struct call){RUKKANEI_TAG_SEAL, 7, 0, 0, 0}, RUKKANEI_SEALED);
    wrong += kiosk_advances(7, RUKKANEI_WAITING);
    wrong += carried((struct call){RUKKANEI_TAG_SEAL, 8, 0, 0, 0}, RUKKANEI_COMMITTED);
    wrong += kiosk_advances(7, RUKKANEI_WAITING);
    wrong += carried((struct call){RUKKANEI_TAG_ABANDON, 9, 0, 0, 0}, RUKKANEI_DONE);
    wrong += kiosk_advances(7, RUKKANEI_MOVED);
    wrong += kiosk_advances(7, RUKKANEI_MOVED);
    wrong += kiosk_advances(7, RUKKANEI_COMMITTED);
    printf("cell 3: %" PRIu32 "\n", values[3]);
    return wrong;
}

/* Other docks, other caps: the maker's own table, one cap to a class. Class 2 has 12. */
static uint32_t caps[RUKKANEI_CAPS] = {4, 8, 12, 16, 20, 24, 28, 32, 36, 40, 44, 48, 52, 56, 60, 64};

/* Writes a cell by the maker's own table, keeps the record, and prints the answer. */
static int write_by_table(uint8_t session, uint32_t cell, uint32_t value, uint32_t wanted) {
    rukkanei_reply reply = rukkanei_write_with_caps(sessions.records[session], LENT, caps, RUKKANEI_CAPS, session, cell, value);
    sessions.records[session] = reply.session;
    printf("answer %" PRIu32 ": write session %u cell %" PRIu32 " value %" PRIu32 " by the own table\n", reply.number, session, cell, value);
    return expect(reply.number, wanted);
}

/* Loads another table and prints the answer with the cap of class 2 that is then in force. */
static int load(const uint32_t *new_caps, uint32_t wanted) {
    rukkanei_set_up_reply reply = rukkanei_load_caps(sessions, LENT, caps, RUKKANEI_CAPS, new_caps, RUKKANEI_CAPS);
    sessions = reply.sessions;
    printf("answer %" PRIu32 ": load; class 2 has %" PRIu32 "\n", reply.number, caps[2]);
    return expect(reply.number, wanted);
}

/* The store is set up by the own table, and session 6 writes by it. At night, with every session idle, another table is loaded: one that leaves a value
 * above its new cap is refused, and the old one stays. */
static int own_caps(void) {
    static const uint32_t narrow[RUKKANEI_CAPS] = {1, 2, 11, 16, 20, 24, 28, 32, 36, 40, 44, 48, 52, 56, 60, 64};
    static const uint32_t wide[RUKKANEI_CAPS] = {4, 8, 15, 16, 20, 24, 28, 32, 36, 40, 44, 48, 52, 56, 60, 64};
    rukkanei_set_up_reply up = rukkanei_set_up_with_caps(sessions, LENT, caps, RUKKANEI_CAPS);
    int wrong = expect(up.number, RUKKANEI_DONE);
    sessions = up.sessions;

    wrong += carried((struct call){RUKKANEI_TAG_BEGIN, 6, 0, 0, 0}, RUKKANEI_DONE);
    wrong += write_by_table(6, 0, 13, RUKKANEI_ABOVE_CAP);
    wrong += write_by_table(6, 0, 12, RUKKANEI_DONE);
    wrong += load(wide, RUKKANEI_WRONG_PHASE);
    wrong += carried((struct call){RUKKANEI_TAG_SEAL, 6, 0, 0, 0}, RUKKANEI_SEALED);
    wrong += carried((struct call){RUKKANEI_TAG_ADVANCE, 6, 0, 0, 0}, RUKKANEI_MOVED);
    wrong += carried((struct call){RUKKANEI_TAG_ADVANCE, 6, 0, 0, 0}, RUKKANEI_MOVED);
    wrong += carried((struct call){RUKKANEI_TAG_ADVANCE, 6, 0, 0, 0}, RUKKANEI_COMMITTED);
    printf("cell 0: %" PRIu32 "\n", values[0]);

    wrong += load(narrow, RUKKANEI_ABOVE_NEW_CAP);
    wrong += load(wide, RUKKANEI_DONE);
    wrong += carried((struct call){RUKKANEI_TAG_BEGIN, 6, 0, 0, 0}, RUKKANEI_DONE);
    wrong += write_by_table(6, 0, 15, RUKKANEI_DONE);
    wrong += carried((struct call){RUKKANEI_TAG_ABANDON, 6, 0, 0, 0}, RUKKANEI_DONE);
    return wrong;
}

int main(void) {
    static const struct call calls[] = {
        {RUKKANEI_TAG_BEGIN, 2, 0, 0, 0}, {RUKKANEI_TAG_READ, 2, 0, 5, 0},  {RUKKANEI_TAG_READ, 2, 0, 300, 0},
        {RUKKANEI_TAG_WRITE, 2, 0, 5, 42}, {RUKKANEI_TAG_SEAL, 2, 0, 0, 0},
    };
    uint8_t buffer[64];
    size_t used = 0;
    int wrong = 0;

    for (size_t i = 0; i < sizeof calls / sizeof calls[0]; i++)
        wrong += expect(append(buffer, sizeof buffer, &used, &calls[i]), RUKKANEI_DONE);
    printf("%zu bytes:", used);
    for (size_t i = 0; i < used; i++)
        printf(" %02x", buffer[i]);
    printf("\n");
    wrong += expect(print_fields(buffer, used), RUKKANEI_END_OF_FIELDS);

    /* The writer's refusals: a tag that no field has, and a target with one byte too few. */
    {
        struct call no_call = {0x07, 2, 0, 0, 0};
        size_t before = used;
        size_t tight = 0;
        wrong += expect(append(buffer, sizeof buffer, &used, &no_call), RUKKANEI_UNKNOWN_TAG);
        wrong += used != before;
        wrong += expect(append(buffer, 9, &tight, &calls[3]), RUKKANEI_SHORT_TARGET);
        wrong += tight != 0;
    }

    /* The reader's refusals: a last field cut short in its body and before it, a tag that no field has, and a length not the tag's own. */
    {
        static const uint8_t unknown[] = {0x01, 0x01, 0x00, 0x02, 0x07, 0x00, 0x00};
        static const uint8_t length[] = {0x04, 0x02, 0x00, 0x02, 0x00};
        wrong += expect(print_fields(buffer, used - 1), RUKKANEI_CUT_SHORT);
        wrong += expect(print_fields(buffer, used - 2), RUKKANEI_CUT_SHORT);
        wrong += expect(print_fields(unknown, sizeof unknown), RUKKANEI_UNKNOWN_TAG);
        wrong += expect(print_fields(length, sizeof length), RUKKANEI_WRONG_LENGTH);
    }

    wrong += transact();
    wrong += draw_round();
    wrong += move_shares();
    wrong += lend_bike();
    wrong += own_caps();
    return wrong != 0;
}
