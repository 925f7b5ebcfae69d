// units.h: the C declarations of the ten functions, for the library and for what it is timed against.
#ifndef UNITS_H
#define UNITS_H

#include <stdbool.h>
#include <stdint.h>

// Declares the ten functions whose names begin with the given prefix. A number is passed as its word.
#define DECLARE_TEN(prefix)                              \
    uint32_t prefix##_number(int32_t v);                 \
    uint32_t prefix##_add(uint32_t a, uint32_t b);       \
    uint32_t prefix##_sub(uint32_t a, uint32_t b);       \
    uint32_t prefix##_mul(uint32_t a, uint32_t b);       \
    uint32_t prefix##_div(uint32_t a, uint32_t b);       \
    uint32_t prefix##_floor(uint32_t a);                 \
    uint32_t prefix##_abs(uint32_t a);                   \
    uint32_t prefix##_sqrt(uint32_t a);                  \
    bool prefix##_negative(uint32_t a);                  \
    int8_t prefix##_level(uint32_t a);

DECLARE_TEN(half)   // the library, IEEE binary16 in the low 16 bits of a word
DECLARE_TEN(single) // the library, IEEE binary32

#endif
