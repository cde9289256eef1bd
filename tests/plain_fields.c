/* A small reader and writer of call fields behind the tools' boundary, for trying the tools without the proved functions. */
#include "field_io.h"

#include <string.h>

const char *fields_name(void)
{
    return "plain C fields";
}

/* The length of a tag's body; 0 for an unknown tag. */
static size_t body_of(uint8_t tag)
{
    switch (tag) {
    case TAG_BEGIN:
    case TAG_SEAL:
    case TAG_ADVANCE:
    case TAG_ABANDON:
        return 1;
    case TAG_READ:
    case TAG_HOLD:
        return 3;
    case TAG_CELL:
        return 5;
    case TAG_WRITE:
        return 7;
    default:
        return 0;
    }
}

static field_reading refused(uint32_t number)
{
    field_reading reading;
    memset(&reading, 0, sizeof reading);
    reading.number = number;
    return reading;
}

static uint32_t little_endian(const uint8_t *bytes, int count)
{
    uint32_t number = 0;
    for (int i = count - 1; i >= 0; i--) {
        number = number * 256 + bytes[i];
    }
    return number;
}

static void put_little_endian(uint8_t *bytes, int count, uint32_t number)
{
    for (int i = 0; i < count; i++) {
        bytes[i] = (uint8_t)(number >> 8 * i);
    }
}

field_reading read_field(const uint8_t *bytes, size_t len, size_t place)
{
    if (place >= len) {
        return refused(106);
    }
    size_t left = len - place;
    if (left < 3) {
        return refused(10);
    }
    const uint8_t *head = bytes + place;
    size_t body = body_of(head[0]);
    if (body == 0) {
        return refused(11);
    }
    if (little_endian(head + 1, 2) != body) {
        return refused(12);
    }
    if (left - 3 < body) {
        return refused(10);
    }
    field_reading reading = refused(100);
    reading.length = 3 + body;
    reading.field.tag = head[0];
    const uint8_t *at = head + 3;
    switch (head[0]) {
    case TAG_CELL:
        reading.field.class = at[0];
        reading.field.value = little_endian(at + 1, 4);
        break;
    case TAG_WRITE:
        reading.field.value = little_endian(at + 3, 4);
        /* fall through */
    case TAG_READ:
    case TAG_HOLD:
        reading.field.cell = (uint16_t)little_endian(at + 1, 2);
        /* fall through */
    default:
        reading.field.session = at[0];
    }
    return reading;
}

field_writing write_field(uint8_t *target, size_t len, call_field field)
{
    field_writing writing = {11, 0};
    size_t body = body_of(field.tag);
    if (body == 0) {
        return writing;
    }
    if (len < 3 + body) {
        writing.number = 13;
        return writing;
    }
    target[0] = field.tag;
    put_little_endian(target + 1, 2, (uint32_t)body);
    if (field.tag == TAG_CELL) {
        target[3] = field.class;
        put_little_endian(target + 4, 4, field.value);
    } else {
        target[3] = field.session;
    }
    if (field.tag == TAG_READ || field.tag == TAG_HOLD || field.tag == TAG_WRITE) {
        put_little_endian(target + 4, 2, field.cell);
    }
    if (field.tag == TAG_WRITE) {
        put_little_endian(target + 6, 4, field.value);
    }
    writing.number = 100;
    writing.length = 3 + body;
    return writing;
}
