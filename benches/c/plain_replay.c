/* The replay of document 01 and Papers 4 and 6 of document 02 in plain C over plain_store: the baseline of the proved replay's speed.
   With --batch it takes one framed input after the other (four little-endian bytes of length, then the bytes), and frames its outputs. */
#include "plain_store.h"

#include <stdio.h>
#include <string.h>

enum {
    MAX_INPUT = 65536,
    MAX_STARTING_CELLS = MAX_INPUT / 8 + 1,
    /* Each call takes four bytes of input or more and one line of at most 22 bytes; a cell's line has at most 18. */
    MAX_OUTPUT = MAX_INPUT / 4 * 22 + PLAIN_MAX_CELLS * 18 + 64
};

enum { HEAD = 3, BEGIN = 1, READ = 2, WRITE = 3, SEAL = 4, ADVANCE = 5, ABANDON = 6, STARTING_CELL = 8, HOLD = 9 };

static const uint8_t body_length[10] = {[BEGIN] = 1,   [READ] = 3,    [WRITE] = 7,         [SEAL] = 1,
                                        [ADVANCE] = 1, [ABANDON] = 1, [STARTING_CELL] = 5, [HOLD] = 3};

static uint8_t input[MAX_INPUT + 1];
static char output[MAX_OUTPUT];
static size_t output_len;

static uint32_t values[MAX_STARTING_CELLS];
static uint8_t classes[MAX_STARTING_CELLS];
static uint16_t readers[MAX_STARTING_CELLS];
static uint8_t claimants[MAX_STARTING_CELLS];
static uint8_t exclusives[MAX_STARTING_CELLS];
static uint32_t logs[PLAIN_LOG_WORDS];
static plain_session sessions[PLAIN_SESSIONS];

static void put_char(char c)
{
    output[output_len++] = c;
}

static void put_text(const char *text)
{
    size_t len = strlen(text);
    memcpy(output + output_len, text, len);
    output_len += len;
}

static void put_number(uint32_t number)
{
    char digits[10];
    int len = 0;
    do {
        digits[len++] = (char)('0' + number % 10);
        number /= 10;
    } while (number);
    while (len) {
        put_char(digits[--len]);
    }
}

static uint32_t load16(const uint8_t *bytes)
{
    return bytes[0] | (uint32_t)bytes[1] << 8;
}

static uint32_t load32(const uint8_t *bytes)
{
    return load16(bytes) | load16(bytes + 2) << 16;
}

/* Judges the field of a rest that is not empty: 100, 10, 11 or 12. */
static uint32_t judge_field(const uint8_t *rest, size_t len)
{
    if (len < HEAD) {
        return 10;
    }
    uint8_t tag = rest[0];
    if (tag >= sizeof body_length || body_length[tag] == 0) {
        return 11;
    }
    if (load16(rest + 1) != body_length[tag]) {
        return 12;
    }
    return len < (size_t)HEAD + body_length[tag] ? 10 : 100;
}

static plain_answer call(const plain_lent *lent, uint8_t tag, const uint8_t *body)
{
    uint8_t session = body[0];
    switch (tag) {
    case BEGIN:
        return plain_begin(lent, sessions, session);
    case READ:
        return plain_read(lent, sessions, session, load16(body + 1));
    case HOLD:
        return plain_hold(lent, sessions, session, load16(body + 1));
    case WRITE:
        return plain_write(lent, sessions, session, load16(body + 1), load32(body + 3));
    case SEAL:
        return plain_seal(lent, sessions, session);
    case ADVANCE:
        return plain_advance(lent, sessions, session);
    default:
        return plain_abandon(lent, sessions, session);
    }
}

static void put_answer(uint32_t ordinal, plain_answer answer)
{
    put_number(ordinal);
    put_char(' ');
    put_number(answer.number);
    if (answer.number == 101 || answer.number == 104) {
        put_char(' ');
        put_number(answer.value);
    }
    put_char('\n');
}

/* Runs the calls from `place` on, up to the end or a field that is no call. */
static void run_calls(const plain_lent *lent, size_t place, size_t len)
{
    uint32_t ordinal = 0;
    while (place < len) {
        uint32_t number = judge_field(input + place, len - place);
        uint8_t tag = input[place];
        if (number == 100 && tag == STARTING_CELL) {
            number = 11;
        }
        if (number != 100) {
            put_text("field ");
            put_number((uint32_t)place);
            put_char(' ');
            put_number(number);
            put_char('\n');
            return;
        }
        put_answer(++ordinal, call(lent, tag, input + place + HEAD));
        place += (size_t)HEAD + body_length[tag];
    }
}

/* Makes the output for the first `len` bytes of the input. */
static void replay(size_t len)
{
    output_len = 0;
    if (len > MAX_INPUT) {
        put_text("size\n");
        return;
    }
    size_t n = 0;
    size_t place = 0;
    while (place < len && judge_field(input + place, len - place) == 100 && input[place] == STARTING_CELL) {
        classes[n] = input[place + 3];
        values[n] = load32(input + place + 4);
        n++;
        place += 8;
    }
    plain_lent lent = {values, n, classes, n, readers, n, claimants, n, exclusives, n, logs, PLAIN_LOG_WORDS};
    plain_answer set_up = plain_set_up(&lent, sessions);
    if (set_up.number != 100) {
        put_text("setup ");
        put_number(set_up.number);
        put_char('\n');
        return;
    }
    run_calls(&lent, place, len);
    for (size_t cell = 0; cell < n; cell++) {
        put_text("c ");
        put_number((uint32_t)cell);
        put_char(' ');
        put_number(values[cell]);
        put_char('\n');
    }
}

static int run_batch(void)
{
    uint8_t head[4];
    while (fread(head, 1, sizeof head, stdin) == sizeof head) {
        size_t len = load32(head);
        size_t kept = len < sizeof input ? len : sizeof input;
        if (fread(input, 1, kept, stdin) != kept) {
            return 1;
        }
        for (size_t i = kept; i < len; i++) {
            getchar();
        }
        replay(kept);
        for (int i = 0; i < 4; i++) {
            head[i] = (uint8_t)(output_len >> (8 * i));
        }
        fwrite(head, 1, sizeof head, stdout);
        fwrite(output, 1, output_len, stdout);
        fflush(stdout);
    }
    return 0;
}

int main(int argc, char **argv)
{
    if (argc == 2 && strcmp(argv[1], "--batch") == 0) {
        return run_batch();
    }
    replay(fread(input, 1, sizeof input, stdin));
    return fwrite(output, 1, output_len, stdout) == output_len ? 0 : 1;
}
