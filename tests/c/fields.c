/* Compares the exported reader and writer with those of expected_fields.h: all tags, lengths and truncations, then random buffers.
 *
 *   fields SEED ROUNDS
 *
 * Prints a line for each group, 'ok' or 'FAIL', its name and its number of comparisons; ends with status 0 if none failed. Every buffer is
 * allocated at its exact size, so that a memory checker sees an access outside it. */
#include <stdio.h>
#include <stdlib.h>

#include "expected_fields.h"
#include "rukkanei.h"

static uint64_t state;

/* splitmix64 */
static uint64_t next(void) {
    uint64_t z = state += UINT64_C(0x9e3779b97f4a7c15);
    z = (z ^ z >> 30) * UINT64_C(0xbf58476d1ce4e5b9);
    z = (z ^ z >> 27) * UINT64_C(0x94d049bb133111eb);
    return z ^ z >> 31;
}

static unsigned below(unsigned n) {
    return (unsigned)(next() % n);
}

static struct numbers any_numbers(void) {
    struct numbers n;
    n.tag = (uint8_t)next();
    n.session = (uint8_t)next();
    n.class_byte = (uint8_t)next();
    n.cell = (uint16_t)next();
    n.value = (uint32_t)next();
    return n;
}

static int same_numbers(struct numbers a, struct numbers b) {
    return a.tag == b.tag && a.session == b.session && a.class_byte == b.class_byte && a.cell == b.cell && a.value == b.value;
}

static unsigned long compared, differing;

static void check(int ok, const char *what, const uint8_t *bytes, size_t size, size_t place) {
    compared++;
    if (ok)
        return;
    if (differing++ < 5) {
        printf("  differs: %s, place %zu, %zu bytes:", what, place, size);
        for (size_t i = 0; i < size; i++)
            printf(" %02x", bytes[i]);
        printf("\n");
    }
}

/* Reads with both, from lent numbers that hold something already. A refusal must leave them as they were. Gives the answer and the length. */
static unsigned compare_read(const uint8_t *bytes, size_t size, size_t place, size_t *length) {
    const struct numbers before = any_numbers();
    const size_t length_before = (size_t)next();
    struct numbers mine = before, theirs = before;
    size_t my_length = length_before, their_length = length_before;
    uint8_t *copy = malloc(size + 1);
    unsigned wanted = expected_read(bytes, size, place, &mine, &my_length);
    unsigned answer;
    memcpy(copy, bytes, size);
    answer = rukkanei_field_read(bytes, size, place, &theirs.tag, &theirs.session, &theirs.class_byte, &theirs.cell, &theirs.value,
                                 &their_length);
    check(answer == wanted, "reader's answer", bytes, size, place);
    check(same_numbers(mine, theirs) && my_length == their_length, "reader's numbers", bytes, size, place);
    if (answer != 100)
        check(same_numbers(theirs, before) && their_length == length_before, "a refusal's lent numbers", bytes, size, place);
    check(memcmp(copy, bytes, size) == 0, "bytes that were read", bytes, size, place);
    free(copy);
    *length = their_length;
    return answer;
}

/* Writes with both into targets that hold the same bytes already. A refusal must leave them, and hand over the length 0. */
static void compare_write(const uint8_t *filled, size_t size, struct numbers n) {
    uint8_t *mine = malloc(size == 0 ? 1 : size);
    uint8_t *theirs = malloc(size == 0 ? 1 : size);
    size_t my_length = (size_t)next(), their_length = (size_t)next();
    unsigned wanted, answer;
    memcpy(mine, filled, size);
    memcpy(theirs, filled, size);
    wanted = expected_write(mine, size, n, &my_length);
    answer = rukkanei_field_write(theirs, size, n.tag, n.session, n.class_byte, n.cell, n.value, &their_length);
    check(answer == wanted, "writer's answer", filled, size, n.tag);
    check(my_length == their_length, "writer's length", filled, size, n.tag);
    check(memcmp(mine, theirs, size) == 0, "target", theirs, size, n.tag);
    if (answer != 100)
        check(their_length == 0 && memcmp(theirs, filled, size) == 0, "a refusal's target", theirs, size, n.tag);
    if (answer == 100 && wanted == 100) {
        struct numbers back = any_numbers();
        size_t length = 0;
        unsigned got = rukkanei_field_read(theirs, size, 0, &back.tag, &back.session, &back.class_byte, &back.cell, &back.value, &length);
        const char *body = body_of(n.tag);
        if (strchr(body, 's') == NULL)
            n.session = 0;
        if (strchr(body, 'k') == NULL)
            n.class_byte = 0;
        if (strchr(body, 'c') == NULL)
            n.cell = 0;
        if (strchr(body, 'v') == NULL)
            n.value = 0;
        check(got == 100 && length == their_length && same_numbers(back, n), "what was written, read back", theirs, size, n.tag);
    }
    free(mine);
    free(theirs);
}

/* Reads a buffer field by field and writes what was read again: the bytes up to the last field read must come out. */
static void read_file(const uint8_t *bytes, size_t size) {
    uint8_t *again = malloc(size == 0 ? 1 : size);
    size_t place = 0, length = 0;
    while (compare_read(bytes, size, place, &length) == 100) {
        struct numbers n = {0, 0, 0, 0, 0};
        size_t written = 0;
        rukkanei_field_read(bytes, size, place, &n.tag, &n.session, &n.class_byte, &n.cell, &n.value, &length);
        rukkanei_field_write(again + place, size - place, n.tag, n.session, n.class_byte, n.cell, n.value, &written);
        check(written == length, "length written again", bytes, size, place);
        place += length;
    }
    check(memcmp(again, bytes, place) == 0, "fields written again", bytes, size, place);
    free(again);
}

static int group(const char *name) {
    int bad = differing != 0;
    printf("%s %s: %lu comparisons", bad ? "FAIL" : "ok", name, compared);
    if (bad)
        printf(", %lu differ", differing);
    printf("\n");
    compared = differing = 0;
    return bad;
}

static void constants(void) {
    check(RUKKANEI_TAG_BEGIN == 1 && RUKKANEI_TAG_READ == 2 && RUKKANEI_TAG_WRITE == 3 && RUKKANEI_TAG_SEAL == 4, "tags", NULL, 0, 0);
    check(RUKKANEI_TAG_ADVANCE == 5 && RUKKANEI_TAG_ABANDON == 6 && RUKKANEI_TAG_STARTING_CELL == 8 && RUKKANEI_TAG_HOLD == 9, "tags", NULL, 0, 0);
    check(RUKKANEI_DONE == 100 && RUKKANEI_END_OF_FIELDS == 106 && RUKKANEI_CUT_SHORT == 10, "answers", NULL, 0, 0);
    check(RUKKANEI_UNKNOWN_TAG == 11 && RUKKANEI_WRONG_LENGTH == 12 && RUKKANEI_SHORT_TARGET == 13, "answers", NULL, 0, 0);
    check(RUKKANEI_VALUE == 101 && RUKKANEI_SEALED == 102 && RUKKANEI_MOVED == 103 && RUKKANEI_WAITING == 104 && RUKKANEI_COMMITTED == 105,
          "answers of the calls", NULL, 0, 0);
    check(RUKKANEI_NO_SUCH_SESSION == 1 && RUKKANEI_WRONG_PHASE == 2 && RUKKANEI_NO_SUCH_CELL == 3 && RUKKANEI_ABOVE_CAP == 4 &&
              RUKKANEI_LOG_FULL == 5 && RUKKANEI_CONFLICT == 6 && RUKKANEI_WRONG_LENGTHS == 7 && RUKKANEI_NO_SUCH_CLASS == 8 &&
              RUKKANEI_DAMAGED_RECORD == 9 && RUKKANEI_NOT_IN_LOG == 14,
          "refusals of the calls", NULL, 0, 0);
    check(RUKKANEI_SESSIONS == 16 && RUKKANEI_CELLS_MAX == 1024 && RUKKANEI_LOG_WORDS == 2048, "sizes", NULL, 0, 0);
    check(sizeof(rukkanei_session) == 4 && sizeof(rukkanei_sessions) == 64 && sizeof(rukkanei_reply) == 12 && sizeof(rukkanei_set_up_reply) == 72,
          "sizes of the structs", NULL, 0, 0);
    for (unsigned tag = 0; tag < 256; tag++)
        check(body_of(tag) == NULL || 3 + strlen(body_of(tag)) <= RUKKANEI_FIELD_MAX, "longest field", NULL, 0, tag);
}

/* Every tag with each length from 0 to 16, and some with a high byte, cut after every byte, at the front and behind two bytes. */
static void all_reads(void) {
    static const unsigned high[] = {0, 1, 7, 255};
    for (unsigned tag = 0; tag < 256; tag++)
        for (unsigned low = 0; low <= 16; low++)
            for (size_t h = 0; h < sizeof high / sizeof high[0]; h++)
                for (size_t kept = 0; kept <= 20; kept++)
                    for (size_t place = 0; place <= 2; place += 2) {
                        uint8_t *bytes = malloc(place + kept == 0 ? 1 : place + kept);
                        uint8_t head[3] = {(uint8_t)tag, (uint8_t)low, (uint8_t)high[h]};
                        size_t length;
                        for (size_t i = 0; i < place + kept; i++)
                            bytes[i] = (uint8_t)next();
                        for (size_t i = 0; i < 3 && i < kept; i++)
                            bytes[place + i] = head[i];
                        compare_read(bytes, place + kept, place, &length);
                        free(bytes);
                    }
}

/* Every place around and far past the end. */
static void all_places(void) {
    static const size_t far[] = {64, 65536, (size_t)1 << 31, (size_t)1 << 32, ((size_t)1 << 63) - 1, (size_t)1 << 63, SIZE_MAX - 3, SIZE_MAX};
    for (size_t size = 0; size <= 12; size++) {
        uint8_t *bytes = malloc(size == 0 ? 1 : size);
        size_t length;
        for (size_t i = 0; i < size; i++)
            bytes[i] = i % 4 == 0 ? 1 : i % 4 == 1 ? 1 : 0;
        for (size_t place = 0; place <= size + 4; place++)
            compare_read(bytes, size, place, &length);
        for (size_t i = 0; i < sizeof far / sizeof far[0]; i++)
            compare_read(bytes, size, far[i], &length);
        free(bytes);
    }
}

/* Every tag into targets of 0 to 16 bytes, with the least, the greatest and random numbers. */
static void all_writes(void) {
    for (unsigned tag = 0; tag < 256; tag++)
        for (size_t size = 0; size <= 16; size++)
            for (unsigned k = 0; k < 6; k++) {
                static const struct numbers least = {0, 0, 0, 0, 0}, greatest = {0, 255, 255, 65535, 4294967295u};
                struct numbers n = k == 0 ? least : k == 1 ? greatest : any_numbers();
                uint8_t filled[16];
                for (size_t i = 0; i < 16; i++)
                    filled[i] = (uint8_t)next();
                n.tag = (uint8_t)tag;
                compare_write(filled, size, n);
            }
}

/* A buffer of up to 64 bytes: bytes at random, or fields one after the other of which one byte may be changed and the last cut off. */
static void random_buffers(unsigned long rounds) {
    for (unsigned long r = 0; r < rounds; r++) {
        uint8_t made[96];
        size_t size = 0, length;
        uint8_t *bytes;
        if (below(3) == 0) {
            size = below(65);
            for (size_t i = 0; i < size; i++)
                made[i] = below(2) ? (uint8_t)next() : (uint8_t)below(10);
        } else {
            for (unsigned k = below(8); k > 0; k--) {
                struct numbers n = any_numbers();
                if (below(8) != 0)
                    n.tag = (uint8_t)below(10);
                expected_write(made + size, 64 - size, n, &length);
                size += length;
            }
            if (size > 0 && below(2) == 0)
                made[below((unsigned)size)] = (uint8_t)next();
            if (size > 0 && below(3) == 0)
                size -= 1 + below(size < 10 ? (unsigned)size : 10);
        }
        bytes = malloc(size == 0 ? 1 : size);
        memcpy(bytes, made, size);
        read_file(bytes, size);
        compare_read(bytes, size, below((unsigned)size + 3), &length);
        compare_read(bytes, size, (size_t)next(), &length);
        {
            struct numbers n = any_numbers();
            if (below(2) == 0)
                n.tag = (uint8_t)below(10);
            compare_write(bytes, size, n);
        }
        free(bytes);
    }
}

int main(int argc, char **argv) {
    int bad = 0;
    unsigned long rounds;
    if (argc != 3) {
        fprintf(stderr, "usage: %s SEED ROUNDS\n", argv[0]);
        return 2;
    }
    state = strtoull(argv[1], NULL, 10);
    rounds = strtoul(argv[2], NULL, 10);
    printf("seed %s, %lu random buffers\n", argv[1], rounds);
    constants();
    bad += group("constants of the header");
    all_reads();
    bad += group("reading: all tags, lengths and truncations");
    all_places();
    bad += group("reading: places at and past the end");
    all_writes();
    bad += group("writing: all tags, targets of 0 to 16 bytes");
    random_buffers(rounds);
    bad += group("random buffers");
    return bad != 0;
}
