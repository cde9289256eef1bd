/* Calls on buffers that no run leaves, through the calls for C: numbers 9 and 14, duplicate entries, any fourth word, any claimant byte, any record,
   values written back, holds, waits; many reads, numbers 15 and 13 among them; and tables of caps, numbers 16 and 17 among them. Two cells of class 2,
   values 3 and 5, where a row has none of its own; the session is passed the record; session 0's log begins with the words. Prints a line for each row,
   with the record that came back. */
#include "rukkanei.h"

#include <stdio.h>
#include <string.h>

typedef struct {
    const char *name;
    uint8_t phase, count;
    uint16_t next;
    uint32_t words[8];
    uint16_t readers[2];
    uint8_t claimants[2];
    char call;
    uint8_t session;
    uint32_t cell, written;
} row;

static const row rows[] = {
    {"the first entry counts", 1, 2, 0, {0, 3, 4, 4, 0, 3, 5, 5}, {1, 0}, {16, 16}, 'r', 0, 0, 0},
    {"4 in its fourth word is not written", 1, 2, 0, {0, 3, 4, 4, 0, 3, 5, 5}, {1, 0}, {16, 16}, 's', 0, 0, 0},
    {"5 is written", 1, 2, 0, {0, 3, 4, 5, 0, 3, 5, 4}, {1, 0}, {16, 16}, 's', 0, 0, 0},
    {"claimant 200 is somebody", 1, 0, 0, {0}, {0, 0}, {16, 200}, 'r', 0, 1, 0},
    {"another session alone in the set", 2, 1, 0, {0, 3, 4, 1}, {2, 0}, {16, 16}, 'a', 0, 0, 0},
    {"an own claim is no obstacle", 2, 1, 0, {0, 3, 4, 1}, {0, 0}, {0, 16}, 'a', 0, 0, 0},
    {"phase 5", 5, 0, 0, {0}, {0, 0}, {16, 16}, 'r', 0, 0, 0},
    {"33 entries in phase 1", 1, 33, 0, {0}, {0, 0}, {16, 16}, 'r', 0, 0, 0},
    {"33 entries in phase 0", 0, 33, 0, {0}, {0, 0}, {16, 16}, 'b', 0, 0, 0},
    {"no written cell at or above next", 2, 1, 1, {0, 3, 4, 1}, {1, 0}, {16, 16}, 'n', 0, 0, 0},
    {"an entered cell not below n", 1, 1, 0, {2, 3, 4, 1}, {1, 0}, {16, 16}, 'r', 0, 0, 0},
    {"a full log and a claimed cell", 1, 32, 0, {0}, {1, 0}, {16, 3}, 'r', 0, 1, 0},
    {"a peeked cell not in the log", 1, 1, 0, {0, 3, 4, 6}, {1, 0}, {16, 16}, 'p', 0, 1, 0},
    {"a peeked cell in the log", 1, 1, 0, {0, 3, 4, 6}, {1, 0}, {16, 16}, 'p', 0, 0, 0},
    {"session 16", 1, 0, 0, {0}, {0, 0}, {16, 16}, 'r', 16, 0, 0},
    {"session 16 with an odd record", 7, 255, 65535, {0, 3, 4, 1}, {0, 0}, {16, 16}, 'r', 16, 0, 0},
    {"session 255 with an idle record", 0, 33, 9, {0}, {0, 0}, {16, 16}, 'b', 255, 0, 0},
    {"session 16 writes", 1, 1, 3, {0, 3, 4, 1}, {1, 0}, {16, 16}, 'w', 16, 0, 6},
    {"session 32 seals", 1, 1, 3, {0, 3, 4, 1}, {1, 0}, {16, 16}, 's', 32, 0, 0},
    {"session 16 advances", 2, 1, 0, {0, 3, 4, 1}, {1, 0}, {16, 16}, 'a', 16, 0, 0},
    {"session 16 abandons", 2, 1, 0, {0, 3, 4, 1}, {1, 0}, {16, 16}, 'n', 16, 0, 0},
    {"session 16 peeks", 1, 1, 0, {0, 3, 4, 1}, {1, 0}, {16, 16}, 'p', 16, 0, 0},
    {"phase 9 reads", 9, 1, 2, {0, 3, 4, 1}, {1, 0}, {16, 16}, 'r', 0, 0, 0},
    {"phase 9 begins", 9, 200, 65535, {0}, {0, 0}, {16, 16}, 'b', 0, 0, 0},
    {"phase 9 writes", 9, 1, 2, {0, 3, 4, 1}, {1, 0}, {16, 16}, 'w', 0, 0, 6},
    {"phase 9 seals", 9, 1, 2, {0, 3, 4, 1}, {1, 0}, {16, 16}, 's', 0, 0, 0},
    {"phase 9 advances", 9, 1, 0, {0, 3, 4, 1}, {1, 0}, {0, 16}, 'a', 0, 0, 0},
    {"phase 9 abandons", 9, 1, 0, {0, 3, 4, 1}, {1, 0}, {0, 16}, 'n', 0, 0, 0},
    {"phase 9 peeks", 9, 1, 0, {0, 3, 4, 1}, {1, 0}, {16, 16}, 'p', 0, 0, 0},
    {"a record of another session's number", 2, 1, 0, {0, 3, 4, 1}, {3, 0}, {16, 16}, 'a', 1, 0, 0},
    {"a value written back", 1, 1, 0, {0, 4, 4, 1}, {3, 0}, {16, 16}, 's', 0, 0, 0},
    {"the store's value, and not the one found", 1, 1, 0, {0, 4, 3, 1}, {3, 0}, {16, 16}, 's', 0, 0, 0},
    {"one of two written back", 1, 2, 0, {0, 4, 4, 5, 1, 4, 6, 5}, {1, 1}, {16, 16}, 's', 0, 0, 0},
    {"the first entry written back, the second not", 1, 2, 0, {0, 4, 4, 1, 0, 4, 6, 1}, {1, 0}, {16, 16}, 's', 0, 0, 0},
    {"the second entry written back, the first not", 1, 2, 0, {0, 4, 6, 1, 0, 4, 4, 1}, {1, 0}, {16, 16}, 's', 0, 0, 0},
    {"another value without the written bit", 1, 1, 0, {0, 4, 6, 4}, {1, 0}, {16, 16}, 's', 0, 0, 0},
    {"a written-back cell peeked", 1, 1, 0, {0, 4, 4, 1}, {1, 0}, {16, 16}, 'p', 0, 0, 0},
    {"the value found written to a new cell", 1, 0, 0, {0}, {0, 0}, {16, 16}, 'w', 0, 0, 3},
    {"nothing but a written-back cell to promote", 2, 1, 0, {0, 4, 4, 1}, {1, 0}, {16, 16}, 'a', 0, 0, 0},
    {"nothing but a written-back cell to abandon", 2, 1, 0, {0, 4, 4, 1}, {1, 0}, {16, 16}, 'n', 0, 0, 0},
    {"a written-back cell not promoted", 2, 2, 0, {0, 4, 4, 1, 1, 4, 6, 1}, {1, 1}, {3, 16}, 'a', 0, 0, 0},
    {"a written-back cell not published", 3, 2, 0, {0, 4, 4, 1, 1, 4, 6, 1}, {0, 1}, {16, 0}, 'a', 0, 0, 0},
    {"a written-back cell not released", 4, 2, 0, {0, 4, 4, 1, 1, 4, 6, 1}, {1, 1}, {0, 0}, 'a', 0, 0, 0},
    {"a written-back cell above the last to release", 4, 2, 0, {1, 4, 4, 1, 0, 4, 6, 1}, {1, 1}, {0, 0}, 'a', 0, 0, 0},
    {"a new cell held", 1, 0, 0, {9, 9, 9, 9}, {2, 0}, {16, 16}, 'h', 0, 0, 0},
    {"a read cell held", 1, 1, 0, {0, 4, 6, 0}, {1, 0}, {3, 16}, 'h', 0, 0, 0},
    {"a written cell held", 1, 1, 0, {0, 4, 6, 1}, {1, 0}, {16, 16}, 'h', 0, 0, 0},
    {"a held cell held", 1, 1, 0, {0, 4, 6, 2}, {1, 0}, {16, 16}, 'h', 0, 0, 0},
    {"4294967292 held", 1, 1, 0, {0, 4, 6, 4294967292u}, {1, 0}, {16, 16}, 'h', 0, 0, 0},
    {"4294967295 held", 1, 1, 0, {0, 4, 6, 4294967295u}, {1, 0}, {16, 16}, 'h', 0, 0, 0},
    {"4294967294 written", 1, 1, 0, {0, 4, 6, 4294967294u}, {1, 0}, {16, 16}, 'w', 0, 0, 7},
    {"4294967293 written", 1, 1, 0, {0, 4, 6, 4294967293u}, {1, 0}, {16, 16}, 'w', 0, 0, 7},
    {"the first of two entries held", 1, 2, 0, {0, 4, 6, 1, 0, 4, 7, 0}, {1, 0}, {16, 16}, 'h', 0, 0, 0},
    {"a held cell read", 1, 1, 0, {0, 4, 6, 2}, {1, 0}, {16, 16}, 'r', 0, 0, 0},
    {"a held cell peeked", 1, 1, 0, {0, 4, 6, 2}, {1, 0}, {16, 16}, 'p', 0, 0, 0},
    {"a held and written cell peeked", 1, 1, 0, {0, 4, 6, 3}, {1, 0}, {16, 16}, 'p', 0, 0, 0},
    {"a claimed cell held", 1, 1, 0, {0, 4, 6, 2}, {1, 0}, {0, 200}, 'h', 0, 1, 0},
    {"a cell not below n held", 1, 1, 0, {0, 4, 6, 2}, {1, 0}, {16, 16}, 'h', 0, 2, 0},
    {"a full log and a claimed cell held", 1, 32, 0, {0}, {1, 0}, {16, 3}, 'h', 0, 1, 0},
    {"a full log and a known cell held", 1, 32, 0, {0}, {1, 0}, {3, 3}, 'h', 0, 0, 0},
    {"an entered cell not below n, and a hold", 1, 1, 0, {2, 3, 4, 1}, {1, 0}, {16, 16}, 'h', 0, 0, 0},
    {"a sealed session holds", 2, 1, 0, {0, 4, 4, 2}, {1, 0}, {16, 16}, 'h', 0, 0, 0},
    {"session 16 holds", 1, 1, 3, {0, 3, 4, 1}, {1, 0}, {16, 16}, 'h', 16, 0, 0},
    {"phase 9 holds", 9, 1, 2, {0, 3, 4, 1}, {1, 0}, {16, 16}, 'h', 0, 0, 0},
    {"a held cell sealed", 1, 1, 0, {0, 4, 4, 2}, {3, 0}, {16, 16}, 's', 0, 0, 0},
    {"a held cell written back", 1, 1, 0, {0, 4, 4, 7}, {3, 0}, {16, 16}, 's', 0, 0, 0},
    {"a held cell and a written-back one", 1, 2, 0, {0, 4, 4, 1, 1, 4, 4, 6}, {1, 1}, {16, 16}, 's', 0, 0, 0},
    {"the first entry held, the second not", 1, 2, 0, {0, 4, 4, 2, 0, 4, 4, 0}, {1, 0}, {16, 16}, 's', 0, 0, 0},
    {"the second entry held, the first not", 1, 2, 0, {0, 4, 4, 0, 0, 4, 4, 2}, {1, 0}, {16, 16}, 's', 0, 0, 0},
    {"a held cell promoted", 2, 1, 0, {0, 4, 4, 2}, {1, 0}, {16, 16}, 'a', 0, 0, 0},
    {"a held cell with another reader", 2, 1, 0, {0, 4, 4, 2}, {3, 0}, {16, 16}, 'a', 0, 0, 0},
    {"a held cell claimed by another", 2, 1, 0, {0, 4, 4, 2}, {1, 0}, {3, 16}, 'a', 0, 0, 0},
    {"a held cell published", 3, 1, 0, {0, 4, 4, 2}, {1, 0}, {0, 16}, 'a', 0, 0, 0},
    {"a held cell with a value neither found nor written", 3, 1, 0, {0, 4, 6, 2}, {1, 0}, {0, 16}, 'a', 0, 0, 0},
    {"a held cell released", 4, 1, 0, {0, 4, 4, 2}, {1, 0}, {0, 16}, 'a', 0, 0, 0},
    {"nothing but a held cell to promote", 2, 1, 0, {1, 4, 4, 2}, {0, 1}, {16, 16}, 'b', 0, 0, 0},
    {"nothing but a held cell below next", 2, 1, 1, {0, 4, 4, 2}, {1, 0}, {16, 16}, 'b', 0, 0, 0},
    {"nothing but a held second entry", 4, 2, 0, {0, 4, 4, 0, 0, 4, 4, 2}, {1, 0}, {0, 16}, 'a', 0, 0, 0},
    {"nothing but a bit above the marks", 3, 1, 0, {0, 4, 6, 4}, {1, 0}, {0, 16}, 'a', 0, 0, 0},
    {"a held cell abandoned", 2, 1, 0, {0, 4, 4, 2}, {3, 0}, {0, 16}, 'n', 0, 0, 0},
    {"two others", 2, 1, 0, {0, 3, 4, 1}, {7, 0}, {16, 16}, 'a', 0, 0, 0},
    {"two others, the own bit missing", 2, 1, 0, {0, 3, 4, 1}, {6, 0}, {16, 16}, 'a', 0, 0, 0},
    {"fifteen others", 2, 1, 0, {0, 3, 4, 1}, {65535, 0}, {16, 16}, 'a', 0, 0, 0},
    {"fifteen others, the own bit missing", 2, 1, 0, {0, 3, 4, 1}, {65534, 0}, {16, 16}, 'a', 0, 0, 0},
    {"session 15 alone, the own bit missing", 2, 1, 0, {0, 3, 4, 1}, {32768, 0}, {16, 16}, 'a', 0, 0, 0},
    {"eight others above session 7", 2, 1, 0, {0, 3, 4, 1}, {65281, 0}, {16, 16}, 'a', 0, 0, 0},
    {"four others of a held cell", 2, 1, 0, {0, 4, 4, 2}, {31, 0}, {16, 16}, 'a', 0, 0, 0},
    {"three others and an own claim", 2, 1, 0, {0, 3, 4, 1}, {15, 0}, {0, 16}, 'a', 0, 0, 0},
    {"three others and another's claim", 2, 1, 0, {0, 3, 4, 1}, {15, 0}, {3, 16}, 'a', 0, 0, 0},
    {"others of the second cell", 2, 2, 1, {0, 3, 4, 1, 1, 5, 6, 1}, {65535, 13}, {0, 16}, 'a', 0, 0, 0},
    {"others of the first cell alone", 2, 2, 1, {0, 3, 4, 1, 1, 5, 6, 1}, {65535, 1}, {0, 16}, 'a', 0, 0, 0},
    {"fifteen others while it publishes", 3, 1, 0, {0, 3, 4, 1}, {65535, 0}, {0, 16}, 'a', 0, 0, 0},
    {"fifteen others while it releases", 4, 1, 0, {0, 3, 4, 1}, {65535, 0}, {0, 16}, 'a', 0, 0, 0},
};

/* Many reads: the list, and how long the target is. */
typedef struct {
    row lent;
    size_t cells_len;
    uint32_t cells[RUKKANEI_READ_MANY_MAX + 1];
    size_t target_len;
} many_row;

static const many_row many_rows[] = {
    {{"a held cell and a new one", 1, 1, 0, {0, 4, 6, 2}, {1, 0}, {3, 16}, 'm', 0, 0, 0}, 3, {0, 1, 0}, 3},
    {{"new cells", 1, 0, 0, {0}, {2, 0}, {16, 16}, 'm', 0, 0, 0}, 2, {1, 0}, 2},
    {{"a cell again", 1, 0, 0, {0}, {0, 0}, {16, 16}, 'm', 0, 0, 0}, 4, {1, 1, 0, 1}, 6},
    {{"32 cells", 1, 0, 9, {0}, {0, 0}, {16, 16}, 'm', 15, 0, 0}, 32, {1}, 32},
    {{"the first entry counts each time", 1, 2, 0, {0, 3, 4, 6, 0, 3, 5, 7}, {1, 0}, {3, 16}, 'm', 0, 0, 0}, 3, {0, 1, 0}, 3},
    {{"a claim after one value", 1, 1, 0, {0, 3, 4, 1}, {3, 0}, {0, 200}, 'm', 0, 0, 0}, 3, {0, 1, 0}, 3},
    {{"a claim at once", 1, 1, 0, {0, 3, 4, 1}, {1, 0}, {16, 0}, 'm', 0, 0, 0}, 2, {1, 0}, 2},
    {{"a full log and a claimed cell after two values", 1, 32, 0, {0, 3, 4, 1}, {1, 0}, {16, 3}, 'm', 0, 0, 0}, 4, {0, 0, 1, 0}, 4},
    {{"a cell not below n after one value", 1, 0, 0, {0}, {0, 0}, {16, 16}, 'm', 0, 0, 0}, 3, {1, 65536, 0}, 3},
    {{"a cell not below n at once", 1, 0, 0, {0}, {0, 0}, {16, 16}, 'm', 0, 0, 0}, 2, {2, 0}, 2},
    {{"a sealed session", 2, 1, 0, {0, 3, 4, 1}, {1, 0}, {16, 16}, 'm', 0, 0, 0}, 2, {0, 2}, 2},
    {{"an entered cell not below n, then others", 1, 2, 0, {0, 3, 4, 1, 2, 3, 4, 1}, {1, 0}, {16, 16}, 'm', 0, 0, 0}, 2, {0, 2}, 2},
    {{"phase 9 and many reads", 9, 1, 2, {0, 3, 4, 1}, {1, 0}, {16, 16}, 'm', 0, 0, 0}, 1, {0}, 1},
    {{"session 16 and many reads", 9, 1, 2, {0, 3, 4, 1}, {1, 0}, {16, 16}, 'm', 16, 0, 0}, 1, {0}, 1},
    {{"a target one word short", 1, 0, 0, {0}, {0, 0}, {16, 16}, 'm', 0, 0, 0}, 3, {0, 1, 0}, 2},
    {{"an empty target for session 16", 9, 1, 2, {0, 3, 4, 1}, {1, 0}, {16, 16}, 'm', 16, 0, 0}, 1, {0}, 0},
    {{"an empty list", 1, 0, 0, {0}, {0, 0}, {16, 16}, 'm', 0, 0, 0}, 0, {0}, 3},
    {{"33 cells", 1, 0, 0, {0}, {0, 0}, {16, 16}, 'm', 0, 0, 0}, 33, {0}, 33},
    {{"33 cells and a short target for phase 9", 9, 255, 65535, {0}, {0, 0}, {16, 16}, 'm', 0, 0, 0}, 33, {0}, 1},
};

/* Tables of caps: four that pass, and those that do not, each for one reason. The last has 17 caps; of each other the first 15 may be passed too. */
#define TABLE_WORDS 17
static const uint32_t tens[TABLE_WORDS] = {10, 20, 30, 40, 50, 60, 70, 80, 90, 100, 110, 120, 130, 140, 150, 160};
static const uint32_t ours[TABLE_WORDS] = {1, 6, 8, 10, 12, 15, 18, 21, 24, 27, 30, 36, 42, 48, 60, 4294967295u};
static const uint32_t least[TABLE_WORDS] = {1, 2, 3, 4, 5, 6, 7, 8, 9, 10, 11, 12, 13, 14, 15, 16};
static const uint32_t most[TABLE_WORDS] = {4294967280u, 4294967281u, 4294967282u, 4294967283u, 4294967284u, 4294967285u, 4294967286u, 4294967287u,
                                           4294967288u, 4294967289u, 4294967290u, 4294967291u, 4294967292u, 4294967293u, 4294967294u, 4294967295u};
static const uint32_t first_0[TABLE_WORDS] = {0, 20, 30, 40, 50, 60, 70, 80, 90, 100, 110, 120, 130, 140, 150, 160};
static const uint32_t equal[TABLE_WORDS] = {10, 20, 30, 40, 50, 60, 70, 80, 80, 100, 110, 120, 130, 140, 150, 160};
static const uint32_t first_equal[TABLE_WORDS] = {10, 10, 30, 40, 50, 60, 70, 80, 90, 100, 110, 120, 130, 140, 150, 160};
static const uint32_t last_equal[TABLE_WORDS] = {10, 20, 30, 40, 50, 60, 70, 80, 90, 100, 110, 120, 130, 140, 150, 150};
static const uint32_t last_falls[TABLE_WORDS] = {10, 20, 30, 40, 50, 60, 70, 80, 90, 100, 110, 120, 130, 140, 150, 149};
static const uint32_t falling[TABLE_WORDS] = {160, 150, 140, 130, 120, 110, 100, 90, 80, 70, 60, 50, 40, 30, 20, 10};
static const uint32_t seventeen[TABLE_WORDS] = {10, 20, 30, 40, 50, 60, 70, 80, 90, 100, 110, 120, 130, 140, 150, 160, 170};

/* A call with tables: 'u' is set-up, 'w' a write and 'l' a load. The record is of this session, and the others are idle. */
typedef struct {
    row lent;
    uint8_t classes[2];
    uint32_t values[2];
    const uint32_t *caps;
    size_t caps_len;
    const uint32_t *new_caps;
    size_t new_caps_len;
} caps_row;

static const caps_row caps_rows[] = {
    {{"set up by a table", 9, 200, 7, {7, 7, 7, 7}, {3, 3}, {1, 2}, 'u', 4, 0, 0}, {0, 15}, {10, 160}, tens, 16, tens, 16},
    {{"set up by the lowest table", 0, 0, 0, {0}, {0, 0}, {16, 16}, 'u', 0, 0, 0}, {0, 15}, {1, 16}, least, 16, tens, 16},
    {{"set up by the highest table", 0, 0, 0, {0}, {0, 0}, {16, 16}, 'u', 0, 0, 0}, {0, 15}, {4294967280u, 4294967295u}, most, 16, tens, 16},
    {{"a value above its cap in the table", 9, 200, 7, {7, 7, 7, 7}, {3, 3}, {1, 2}, 'u', 4, 0, 0}, {0, 15}, {11, 160}, tens, 16, tens, 16},
    {{"a last value above its cap in the table", 9, 200, 7, {7, 7, 7, 7}, {3, 3}, {1, 2}, 'u', 4, 0, 0}, {0, 15}, {10, 161}, tens, 16, tens, 16},
    {{"a value within our cap and above the table's", 0, 0, 0, {0}, {0, 0}, {16, 16}, 'u', 0, 0, 0}, {2, 2}, {3, 5}, least, 16, tens, 16},
    {{"set up with a class of 16", 0, 0, 0, {0}, {0, 0}, {16, 16}, 'u', 0, 0, 0}, {2, 16}, {3, 5}, tens, 16, tens, 16},
    {{"set up with a first cap of 0", 0, 0, 0, {0}, {0, 0}, {16, 16}, 'u', 0, 0, 0}, {2, 2}, {3, 5}, first_0, 16, tens, 16},
    {{"set up with two equal caps", 9, 200, 7, {7, 7, 7, 7}, {3, 3}, {1, 2}, 'u', 4, 0, 0}, {2, 2}, {3, 5}, equal, 16, tens, 16},
    {{"set up with an equal last cap", 0, 0, 0, {0}, {0, 0}, {16, 16}, 'u', 0, 0, 0}, {2, 2}, {3, 5}, last_equal, 16, tens, 16},
    {{"set up with a lower last cap", 0, 0, 0, {0}, {0, 0}, {16, 16}, 'u', 0, 0, 0}, {2, 2}, {3, 5}, last_falls, 16, tens, 16},
    {{"set up with an unfit table and a class of 16", 0, 0, 0, {0}, {0, 0}, {16, 16}, 'u', 0, 0, 0}, {16, 2}, {99, 5}, first_equal, 16, tens, 16},
    {{"set up with 15 caps", 0, 0, 0, {0}, {0, 0}, {16, 16}, 'u', 0, 0, 0}, {2, 2}, {3, 5}, tens, 15, tens, 16},
    {{"set up with 17 caps", 0, 0, 0, {0}, {0, 0}, {16, 16}, 'u', 0, 0, 0}, {2, 2}, {3, 5}, seventeen, 17, tens, 16},
    {{"set up with 15 unfit caps and a class of 16", 9, 200, 7, {7, 7, 7, 7}, {3, 3}, {1, 2}, 'u', 4, 0, 0}, {16, 2}, {3, 5}, first_0, 15, tens, 16},
    {{"a write at its cap", 1, 0, 0, {0}, {0, 0}, {16, 16}, 'w', 0, 1, 30}, {2, 2}, {3, 5}, tens, 16, tens, 16},
    {{"a write above its cap", 1, 0, 0, {0}, {0, 0}, {16, 16}, 'w', 0, 1, 31}, {2, 2}, {3, 5}, tens, 16, tens, 16},
    {{"a write within our cap and above the table's", 1, 0, 0, {0}, {0, 0}, {16, 16}, 'w', 0, 1, 4}, {2, 2}, {3, 5}, least, 16, tens, 16},
    {{"a write to a held cell by a table", 1, 1, 0, {0, 4, 6, 4294967294u}, {1, 0}, {3, 16}, 'w', 0, 0, 30}, {2, 2}, {3, 5}, tens, 16, tens, 16},
    {{"a write of the highest value", 1, 0, 0, {0}, {0, 0}, {16, 16}, 'w', 15, 0, 4294967295u}, {15, 2}, {3, 5}, most, 16, tens, 16},
    {{"a write by a falling table", 1, 0, 0, {0}, {0, 0}, {16, 16}, 'w', 0, 0, 160}, {0, 15}, {3, 5}, falling, 16, tens, 16},
    {{"a write above its cap in a falling table", 1, 0, 0, {0}, {0, 0}, {16, 16}, 'w', 0, 1, 11}, {0, 15}, {3, 5}, falling, 16, tens, 16},
    {{"a write of 0 by a first cap of 0", 1, 0, 0, {0}, {0, 0}, {16, 16}, 'w', 0, 0, 0}, {0, 15}, {3, 5}, first_0, 16, tens, 16},
    {{"a write of 1 by a first cap of 0", 1, 0, 0, {0}, {0, 0}, {16, 16}, 'w', 0, 0, 1}, {0, 15}, {3, 5}, first_0, 16, tens, 16},
    {{"a write to a cell of class 16 by a table", 1, 0, 0, {0}, {0, 0}, {16, 16}, 'w', 0, 1, 1}, {2, 16}, {3, 5}, tens, 16, tens, 16},
    {{"a write to a cell of class 255 by an unfit table", 1, 0, 0, {0}, {0, 0}, {16, 200}, 'w', 0, 1, 1}, {2, 255}, {3, 5}, equal, 16, tens, 16},
    {{"a write by 15 caps", 1, 0, 0, {0}, {0, 0}, {16, 16}, 'w', 0, 1, 30}, {2, 2}, {3, 5}, tens, 15, tens, 16},
    {{"a write by 17 caps", 1, 0, 0, {0}, {0, 0}, {16, 16}, 'w', 0, 1, 30}, {2, 2}, {3, 5}, seventeen, 17, tens, 16},
    {{"a write of session 16 by 15 caps", 9, 1, 2, {0, 3, 4, 1}, {1, 0}, {16, 16}, 'w', 16, 9, 99}, {2, 2}, {3, 5}, tens, 15, tens, 16},
    {{"a write of session 16 by a table", 9, 1, 2, {0, 3, 4, 1}, {1, 0}, {16, 16}, 'w', 16, 9, 99}, {2, 2}, {3, 5}, tens, 16, tens, 16},
    {{"a write of phase 9 by a table", 9, 1, 2, {0, 3, 4, 1}, {1, 0}, {16, 16}, 'w', 0, 9, 99}, {2, 2}, {3, 5}, tens, 16, tens, 16},
    {{"a write of an idle session by a table", 0, 1, 2, {0, 3, 4, 1}, {1, 0}, {16, 16}, 'w', 0, 9, 99}, {2, 2}, {3, 5}, tens, 16, tens, 16},
    {{"a write to a cell not below n by a table", 1, 0, 0, {0}, {0, 0}, {16, 16}, 'w', 0, 2, 99}, {2, 2}, {3, 5}, tens, 16, tens, 16},
    {{"a write above its cap to a claimed cell", 1, 0, 0, {0}, {0, 0}, {16, 200}, 'w', 0, 1, 31}, {2, 2}, {3, 5}, tens, 16, tens, 16},
    {{"a write by a table to a claimed cell", 1, 1, 0, {0, 3, 4, 1}, {1, 0}, {0, 200}, 'w', 0, 1, 30}, {2, 2}, {3, 5}, tens, 16, tens, 16},
    {{"a full log and a claimed cell written by a table", 1, 32, 0, {0}, {1, 0}, {16, 3}, 'w', 0, 1, 30}, {2, 2}, {3, 5}, tens, 16, tens, 16},
    {{"a load", 0, 200, 9, {7, 7, 7, 7}, {3, 3}, {1, 2}, 'l', 4, 0, 0}, {2, 2}, {3, 5}, ours, 16, tens, 16},
    {{"a load of the table in force", 0, 0, 0, {0}, {0, 0}, {16, 16}, 'l', 0, 0, 0}, {2, 2}, {3, 5}, tens, 16, tens, 16},
    {{"a load over an unfit table", 0, 0, 0, {0}, {0, 0}, {16, 16}, 'l', 0, 0, 0}, {2, 2}, {3, 5}, falling, 16, most, 16},
    {{"a load of values at their caps", 0, 0, 0, {0}, {0, 0}, {16, 16}, 'l', 0, 0, 0}, {2, 15}, {3, 16}, tens, 16, least, 16},
    {{"a load of values above their old caps", 0, 0, 0, {0}, {0, 0}, {16, 16}, 'l', 0, 0, 0}, {0, 1}, {10, 20}, least, 16, tens, 16},
    {{"a load while session 0 runs", 1, 0, 0, {0}, {0, 0}, {16, 16}, 'l', 0, 0, 0}, {2, 2}, {3, 5}, ours, 16, tens, 16},
    {{"a load while session 15 releases", 4, 1, 0, {0}, {0, 0}, {16, 16}, 'l', 15, 0, 0}, {2, 2}, {3, 5}, ours, 16, tens, 16},
    {{"a load while session 7 promotes", 2, 1, 0, {0}, {0, 0}, {16, 16}, 'l', 7, 0, 0}, {2, 2}, {3, 5}, ours, 16, tens, 16},
    {{"a load with phase 7", 7, 0, 0, {0}, {0, 0}, {16, 16}, 'l', 3, 0, 0}, {2, 2}, {3, 5}, ours, 16, tens, 16},
    {{"a load with phase 255", 255, 0, 0, {0}, {0, 0}, {16, 16}, 'l', 3, 0, 0}, {2, 2}, {3, 5}, ours, 16, tens, 16},
    {{"a load of an unfit table with phase 16", 16, 0, 0, {0}, {0, 0}, {16, 16}, 'l', 3, 0, 0}, {2, 16}, {3, 5}, ours, 16, equal, 16},
    {{"a load with a first cap of 0", 0, 0, 0, {0}, {0, 0}, {16, 16}, 'l', 0, 0, 0}, {2, 2}, {3, 5}, ours, 16, first_0, 16},
    {{"a load with two equal caps", 0, 0, 0, {0}, {0, 0}, {16, 16}, 'l', 0, 0, 0}, {2, 2}, {3, 5}, ours, 16, equal, 16},
    {{"a load with an equal second cap", 0, 0, 0, {0}, {0, 0}, {16, 16}, 'l', 0, 0, 0}, {2, 2}, {3, 5}, ours, 16, first_equal, 16},
    {{"a load with an equal last cap", 0, 0, 0, {0}, {0, 0}, {16, 16}, 'l', 0, 0, 0}, {2, 2}, {3, 5}, ours, 16, last_equal, 16},
    {{"a load with a lower last cap", 0, 0, 0, {0}, {0, 0}, {16, 16}, 'l', 0, 0, 0}, {2, 2}, {3, 5}, ours, 16, last_falls, 16},
    {{"a load of an unfit table and a class of 16", 0, 0, 0, {0}, {0, 0}, {16, 16}, 'l', 0, 0, 0}, {16, 2}, {3, 5}, ours, 16, falling, 16},
    {{"a load with a class of 16", 0, 0, 0, {0}, {0, 0}, {16, 16}, 'l', 0, 0, 0}, {2, 16}, {3, 5}, ours, 16, tens, 16},
    {{"a load with a first value for 17 and a class of 255", 0, 0, 0, {0}, {0, 0}, {16, 16}, 'l', 0, 0, 0}, {2, 255}, {31, 5}, ours, 16, tens, 16},
    {{"a load with a first class of 16 and a value for 17", 0, 0, 0, {0}, {0, 0}, {16, 16}, 'l', 0, 0, 0}, {16, 2}, {3, 31}, ours, 16, tens, 16},
    {{"a load with a first value above its new cap", 0, 200, 9, {7, 7, 7, 7}, {3, 3}, {1, 2}, 'l', 4, 0, 0}, {2, 2}, {31, 5}, most, 16, tens, 16},
    {{"a load with a last value above its new cap", 0, 200, 9, {7, 7, 7, 7}, {3, 3}, {1, 2}, 'l', 4, 0, 0}, {2, 15}, {3, 161}, ours, 16, tens, 16},
    {{"a load over 15 caps", 0, 0, 0, {0}, {0, 0}, {16, 16}, 'l', 0, 0, 0}, {2, 2}, {3, 5}, ours, 15, tens, 16},
    {{"a load over 17 caps", 0, 0, 0, {0}, {0, 0}, {16, 16}, 'l', 0, 0, 0}, {2, 2}, {3, 5}, seventeen, 17, tens, 16},
    {{"a load of 15 caps", 0, 0, 0, {0}, {0, 0}, {16, 16}, 'l', 0, 0, 0}, {2, 2}, {3, 5}, ours, 16, tens, 15},
    {{"a load of 17 caps", 0, 0, 0, {0}, {0, 0}, {16, 16}, 'l', 0, 0, 0}, {2, 2}, {3, 5}, ours, 16, seventeen, 17},
    {{"a load of 15 unfit caps with phase 1", 1, 0, 0, {0}, {0, 0}, {16, 16}, 'l', 0, 0, 0}, {16, 2}, {3, 5}, ours, 16, first_0, 15},
    {{"a load of 0 caps over 0", 9, 0, 0, {0}, {0, 0}, {16, 16}, 'l', 0, 0, 0}, {2, 2}, {3, 5}, ours, 0, tens, 0},
};

/* What a row lends. */
static uint32_t values[2], logs[2048];
static uint8_t classes[2];
static uint16_t readers[2];
static uint8_t claimants[2], exclusives[2];
#define LENT values, 2, classes, 2, readers, 2, claimants, 2, exclusives, 2, logs, 2048

static rukkanei_session lend(const row *r)
{
    values[0] = 3;
    values[1] = 5;
    classes[0] = classes[1] = 2;
    memset(logs, 0, sizeof logs);
    memcpy(logs, r->words, sizeof r->words);
    memcpy(readers, r->readers, sizeof readers);
    memcpy(claimants, r->claimants, sizeof claimants);
    memset(exclusives, 0, sizeof exclusives);
    return (rukkanei_session){r->phase, r->count, r->next};
}

/* One number for all of these words. */
static uint32_t sum_of(const uint32_t *words, size_t len)
{
    uint32_t sum = 0;
    for (size_t k = 0; k < len; k++) {
        sum = sum * 31 + words[k];
    }
    return sum;
}

static void print_after(rukkanei_session record)
{
    printf(", record %u %u %u, readers %u %u, claimants %u %u, marks %u %u, values %u %u, logs %u\n", record.phase, record.count, record.next, readers[0],
           readers[1], claimants[0], claimants[1], exclusives[0], exclusives[1], values[0], values[1], sum_of(logs, 2048));
}

static void try(const row *r)
{
    rukkanei_session record = lend(r);
    rukkanei_reply reply;
    size_t index = 99;
    switch (r->call) {
    case 'b': reply = rukkanei_begin(record, LENT, r->session); break;
    case 'r': reply = rukkanei_read(record, LENT, r->session, r->cell); break;
    case 'h': reply = rukkanei_hold(record, LENT, r->session, r->cell); break;
    case 'w': reply = rukkanei_write(record, LENT, r->session, r->cell, r->written); break;
    case 's': reply = rukkanei_seal(record, LENT, r->session); break;
    case 'a': reply = rukkanei_advance(record, LENT, r->session); break;
    case 'n': reply = rukkanei_abandon(record, LENT, r->session); break;
    default:
        reply = rukkanei_peek_number(record, LENT, r->session, r->cell);
        reply.value = rukkanei_peek_place(record, LENT, r->session, r->cell, &index) * 100 + (uint32_t)index;
    }
    printf("%s: %u %u", r->name, reply.number, reply.value);
    print_after(reply.session);
}

/* The target is at the front of 34 words, each 77: prints the first four of them, and the sum of all. */
static void try_many(const many_row *m)
{
    rukkanei_session record = lend(&m->lent);
    uint32_t target[34];
    for (size_t k = 0; k < 34; k++) {
        target[k] = 77;
    }
    rukkanei_read_many_reply reply = rukkanei_read_many(record, LENT, m->lent.session, m->cells, m->cells_len, target, m->target_len);
    printf("%s: %u %u, target %u %u %u %u, all %u", m->lent.name, reply.number, reply.count, target[0], target[1], target[2], target[3],
           sum_of(target, 34));
    print_after(reply.session);
}

/* One number for all records. */
static uint32_t sum_of_records(const rukkanei_sessions *sessions)
{
    uint32_t sum = 0;
    for (size_t s = 0; s < RUKKANEI_SESSIONS; s++) {
        rukkanei_session record = sessions->records[s];
        sum = ((sum * 31 + record.phase) * 31 + record.count) * 31 + record.next;
    }
    return sum;
}

/* The tables are lent as copies, each at the front of 17 words: prints both sums of all words, and that of all records where the call takes them. */
static void try_caps(const caps_row *c)
{
    rukkanei_session record = lend(&c->lent);
    uint32_t caps[TABLE_WORDS], new_caps[TABLE_WORDS];
    memcpy(values, c->values, sizeof values);
    memcpy(classes, c->classes, sizeof classes);
    memcpy(caps, c->caps, sizeof caps);
    memcpy(new_caps, c->new_caps, sizeof new_caps);
    rukkanei_reply reply;
    uint32_t records = 0;
    if (c->lent.call == 'w') {
        reply = rukkanei_write_with_caps(record, LENT, caps, c->caps_len, c->lent.session, c->lent.cell, c->lent.written);
    } else {
        rukkanei_sessions sessions;
        memset(&sessions, 0, sizeof sessions);
        sessions.records[c->lent.session] = record;
        rukkanei_set_up_reply all = c->lent.call == 'u' ? rukkanei_set_up_with_caps(sessions, LENT, caps, c->caps_len)
                                                        : rukkanei_load_caps(sessions, LENT, caps, c->caps_len, new_caps, c->new_caps_len);
        reply = (rukkanei_reply){all.number, all.value, all.sessions.records[c->lent.session]};
        records = sum_of_records(&all.sessions);
    }
    printf("%s: %u %u, caps %u, new caps %u, classes %u %u, records %u", c->lent.name, reply.number, reply.value, sum_of(caps, TABLE_WORDS),
           sum_of(new_caps, TABLE_WORDS), classes[0], classes[1], records);
    print_after(reply.session);
}

int main(void)
{
    for (size_t i = 0; i < sizeof rows / sizeof rows[0]; i++) {
        try(&rows[i]);
    }
    for (size_t i = 0; i < sizeof many_rows / sizeof many_rows[0]; i++) {
        try_many(&many_rows[i]);
    }
    for (size_t i = 0; i < sizeof caps_rows / sizeof caps_rows[0]; i++) {
        try_caps(&caps_rows[i]);
    }
    return 0;
}
