/* The boundary between the tools and whoever reads and writes call fields: two functions, each on one field. */
#ifndef FIELD_IO_H
#define FIELD_IO_H

#include <stddef.h>
#include <stdint.h>

enum { TAG_BEGIN = 1, TAG_READ = 2, TAG_WRITE = 3, TAG_SEAL = 4, TAG_ADVANCE = 5, TAG_ABANDON = 6, TAG_CELL = 8, TAG_HOLD = 9 };

/* The longest field. */
enum { MAX_FIELD = 10 };

/* A field's numbers; those its tag does not carry are ignored when written and 0 when read. `value` is document 01's figure. */
typedef struct {
    uint8_t tag;
    uint8_t session;
    uint16_t cell;
    uint8_t class;
    uint32_t value;
} call_field;

/* The number 100, 10, 11, 12 or 106 (no bytes left); with 100 the field and its length in bytes, else zeros. */
typedef struct {
    uint32_t number;
    size_t length;
    call_field field;
} field_reading;

/* The number 100, 11 or 13, and the field's length or 0. */
typedef struct {
    uint32_t number;
    size_t length;
} field_writing;

/* Who reads and writes: the proved functions, or the plain ones of the tests. */
const char *fields_name(void);

/* Reads the field whose first byte is at `place`. */
field_reading read_field(const uint8_t *bytes, size_t len, size_t place);

/* Writes a field at the start of the target, and changes no other byte. */
field_writing write_field(uint8_t *target, size_t len, call_field field);

#endif
