/* Five calls of the library whose hall.h stands beside it, over the tables that it takes of those lent and answered with the refusal
 * alone, so that libraries with other tables or answers can be timed in one process; and its scale. */
#include "calls.h"
#include "hall.h"

uint64_t call_scale(void) { return HALL_SCALE; }

uint32_t call_work_out(lent_tables t) { return hall_work_out(t.n, HALL_TABLES(t)); }

uint32_t call_audit(lent_tables t) { return hall_audit(t.n, HALL_TABLES(t)); }

uint32_t call_image_read(lent_tables t, const uint8_t *image, size_t length)
{
    return hall_image_read(t.n, image, length, HALL_TABLES(t));
}

uint32_t call_insert(lent_tables t, uint64_t from, uint64_t to, uint64_t c)
{
    return hall_insert(t.n, from, to, c, HALL_TABLES(t)).refusal;
}

uint32_t call_delete(lent_tables t, uint64_t from, uint64_t to) { return hall_delete(t.n, from, to, HALL_TABLES(t)).refusal; }
