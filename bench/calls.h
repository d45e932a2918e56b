/* Tables as a library of any release may ask for them; an older one takes those that it knows. Its hall_tables may have other fields, so
 * this type stands for it in HALL_TABLES. */
#ifndef FEZORNAU_CALLS_H
#define FEZORNAU_CALLS_H

#include <stdint.h>

typedef struct {
    uint64_t n;
    uint32_t *cost;
    uint32_t *passing;
    uint32_t *time;
    uint32_t *ways;
    uint64_t *share;
    uint64_t *score;
} lent_tables;

#endif
