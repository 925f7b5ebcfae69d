// reference.c: the ten half functions in plain C on gcc's _Float16, to time the library against.
//
// Compiled twice, with the same text: with -DPREFIX=soft, where gcc's software converts between half and
// float, and with -DPREFIX=hard -mf16c -mavx, where the processor does. As fast as plain C is: a result that is
// not a number is left as it comes, while the library gives it one fixed word.

#include "units.h"

#include <math.h>
#include <string.h>

#define JOINED(prefix, name) prefix##_##name
#define EXPANDED(prefix, name) JOINED(prefix, name)
#define NAME(name) EXPANDED(PREFIX, name) // soft_add, or hard_add

static inline _Float16 value(uint32_t word)
{
    uint16_t low = (uint16_t)word;
    _Float16 x;
    memcpy(&x, &low, sizeof x);
    return x;
}

static inline uint32_t word(_Float16 x)
{
    uint16_t low;
    memcpy(&low, &x, sizeof low);
    return low;
}

uint32_t NAME(number)(int32_t v) { return word((_Float16)((float)v / 65536.0f)); }
uint32_t NAME(add)(uint32_t a, uint32_t b) { return word(value(a) + value(b)); }
uint32_t NAME(sub)(uint32_t a, uint32_t b) { return word(value(a) - value(b)); }
uint32_t NAME(mul)(uint32_t a, uint32_t b) { return word(value(a) * value(b)); }
uint32_t NAME(div)(uint32_t a, uint32_t b) { return word(value(a) / value(b)); }
uint32_t NAME(floor)(uint32_t a) { return word((_Float16)floorf((float)value(a))); }
uint32_t NAME(abs)(uint32_t a) { return a & 0x7FFF; }
uint32_t NAME(sqrt)(uint32_t a) { return word((_Float16)sqrtf((float)value(a))); }
bool NAME(negative)(uint32_t a) { return (a & 0x8000) != 0; }

// The test for NaN is on whole, a float: on the half itself gcc 12 calls its software comparison, in hard too.
int8_t NAME(level)(uint32_t a)
{
    float whole = nearbyintf((float)value(a));
    if (whole != whole)
        return 0;
    return (int8_t)(whole > 127 ? 127 : whole < -128 ? -128 : (int)whole);
}
