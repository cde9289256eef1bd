/* field_io.h over the proved functions of include/rukkanei.h. Links with the archive for C (scripts/archive). */
#include "field_io.h"
#include "rukkanei.h"

const char *fields_name(void)
{
    return "proved fields";
}

field_reading read_field(const uint8_t *bytes, size_t len, size_t place)
{
    field_reading r = {0, 0, {0, 0, 0, 0, 0}};
    r.number = rukkanei_field_read(bytes, len, place, &r.field.tag, &r.field.session, &r.field.class, &r.field.cell, &r.field.value, &r.length);
    return r;
}

field_writing write_field(uint8_t *target, size_t len, call_field field)
{
    field_writing w = {0, 0};
    w.number = rukkanei_field_write(target, len, field.tag, field.session, field.class, field.cell, field.value, &w.length);
    return w;
}
