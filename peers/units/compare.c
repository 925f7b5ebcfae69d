// compare.c: compares the library's half_ and single_ functions with gcc's _Float16 and the processor's float.
//
//   compare [N [SEED]]     N: random pairs for the four binary half functions together
//                          (default 20000000); every other function that cannot be tried on
//                          all its arguments gets N/4 random cases too. SEED: any whole number.
//
// Exit status: 0 nothing differs, 1 something differs, 2 bad usage or a broken reference.
//
// Compile without -mf16c, so that gcc's own software converts between half and float.
// A half operation is done in float and rounded to half. That is one rounding in effect: 24 digits
// are enough for the sum, product, quotient or root of numbers of 11 digits (2 * 11 + 2 <= 24).

#include "units.h"

#include <math.h>
#include <stdio.h>
#include <stdlib.h>
#include <string.h>

#ifdef __F16C__
#error "compile compare.c without -mf16c: the reference is gcc's software conversion"
#endif
#ifdef __FAST_MATH__
#error "compile compare.c without -ffast-math: the reference has to round as IEEE says"
#endif

// ---- The reference: words to values and back. A result that is not a number has one fixed word.

static _Float16 half_value(uint32_t word)
{
    uint16_t low = (uint16_t)word;
    _Float16 x;
    memcpy(&x, &low, sizeof x);
    return x;
}

static uint32_t half_word(_Float16 x)
{
    uint16_t low;
    if (x != x)
        return 0x7E00;
    memcpy(&low, &x, sizeof low);
    return low;
}

static float single_value(uint32_t word)
{
    float x;
    memcpy(&x, &word, sizeof x);
    return x;
}

static uint32_t single_word(float x)
{
    uint32_t word;
    if (x != x)
        return 0x7FC00000;
    memcpy(&word, &x, sizeof word);
    return word;
}

// The nearest whole number, held to -128..127. nearbyintf takes ties to even.
static uint32_t level_of(float x)
{
    if (x != x)
        return 0;
    float whole = nearbyintf(x);
    int level = whole > 127 ? 127 : whole < -128 ? -128 : (int)whole;
    return (uint32_t)level;
}

// v/65536 in float. The conversion rounds; the division by a power of two is exact.
static float number_of(uint32_t v)
{
    return (float)(int32_t)v / 65536.0f;
}

// The ten functions in half, one operation each.
static uint32_t c_half_number(uint32_t v) { return half_word((_Float16)number_of(v)); }
static uint32_t c_half_add(uint32_t a, uint32_t b) { return half_word(half_value(a) + half_value(b)); }
static uint32_t c_half_sub(uint32_t a, uint32_t b) { return half_word(half_value(a) - half_value(b)); }
static uint32_t c_half_mul(uint32_t a, uint32_t b) { return half_word(half_value(a) * half_value(b)); }
static uint32_t c_half_div(uint32_t a, uint32_t b) { return half_word(half_value(a) / half_value(b)); }
static uint32_t c_half_floor(uint32_t a) { return half_word((_Float16)floorf((float)half_value(a))); }
static uint32_t c_half_sqrt(uint32_t a) { return half_word((_Float16)sqrtf((float)half_value(a))); }
static uint32_t c_half_negative(uint32_t a) { return signbit((float)half_value(a)) != 0; }
static uint32_t c_half_level(uint32_t a) { return level_of((float)half_value(a)); }

static uint32_t c_half_abs(uint32_t a)
{
    _Float16 x = half_value(a);
    if (x != x)
        return a & 0x7FFF; // keeps its payload
    if (x == 0)
        return 0;
    return half_word(x < 0 ? -x : x);
}

// The ten functions in single.
static uint32_t c_single_number(uint32_t v) { return single_word(number_of(v)); }
static uint32_t c_single_add(uint32_t a, uint32_t b) { return single_word(single_value(a) + single_value(b)); }
static uint32_t c_single_sub(uint32_t a, uint32_t b) { return single_word(single_value(a) - single_value(b)); }
static uint32_t c_single_mul(uint32_t a, uint32_t b) { return single_word(single_value(a) * single_value(b)); }
static uint32_t c_single_div(uint32_t a, uint32_t b) { return single_word(single_value(a) / single_value(b)); }
static uint32_t c_single_floor(uint32_t a) { return single_word(floorf(single_value(a))); }
static uint32_t c_single_sqrt(uint32_t a) { return single_word(sqrtf(single_value(a))); }
static uint32_t c_single_negative(uint32_t a) { return signbit(single_value(a)) != 0; }
static uint32_t c_single_level(uint32_t a) { return level_of(single_value(a)); }

static uint32_t c_single_abs(uint32_t a)
{
    float x = single_value(a);
    if (x != x)
        return a & 0x7FFFFFFF; // keeps its payload
    if (x == 0)
        return 0;
    return single_word(x < 0 ? -x : x);
}

// ---- The tests: each function of the library beside its reference.

// Every function is called as one of two words that gives a word; one of one word ignores the second.
// A level is widened with its sign, a bool is 0 or 1.
typedef uint32_t function(uint32_t a, uint32_t b);

#define AS_TWO(f) static uint32_t two_##f(uint32_t a, uint32_t b) { (void)b; return (uint32_t)f(a); }
#define AS_TWO_BOTH(f) AS_TWO(f) AS_TWO(c_##f)
#define AS_TWO_ALL(prefix)                                                                \
    AS_TWO_BOTH(prefix##_number) AS_TWO_BOTH(prefix##_floor) AS_TWO_BOTH(prefix##_abs)    \
    AS_TWO_BOTH(prefix##_sqrt) AS_TWO_BOTH(prefix##_negative) AS_TWO_BOTH(prefix##_level)

AS_TWO_ALL(half)
AS_TWO_ALL(single)

struct test {
    const char *name;
    int arguments;
    function *ours, *theirs;
    uint64_t cases, differ;
};

enum { NUMBER, ADD, SUB, MUL, DIV, FLOOR, ABS, SQRT, NEGATIVE, LEVEL, FUNCTIONS };

#define ONE(prefix, f) { #prefix " " #f, 1, two_##prefix##_##f, two_c_##prefix##_##f, 0, 0 }
#define TWO(prefix, f) { #prefix " " #f, 2, prefix##_##f, c_##prefix##_##f, 0, 0 }
#define TEN(prefix) {                                                                     \
    ONE(prefix, number), TWO(prefix, add), TWO(prefix, sub), TWO(prefix, mul),            \
    TWO(prefix, div), ONE(prefix, floor), ONE(prefix, abs), ONE(prefix, sqrt),            \
    ONE(prefix, negative), ONE(prefix, level) }

static struct test half_tests[FUNCTIONS] = TEN(half);
static struct test single_tests[FUNCTIONS] = TEN(single);

enum { MISMATCHES_SHOWN = 5 };

static void show_mismatch(const struct test *t, uint32_t a, uint32_t b, uint32_t ours, uint32_t theirs)
{
    printf("%s(%08X", t->name, (unsigned)a);
    if (t->arguments == 2)
        printf(", %08X", (unsigned)b);
    printf("): ours %08X, theirs %08X\n", (unsigned)ours, (unsigned)theirs);
}

static void try_case(struct test *t, uint32_t a, uint32_t b)
{
    uint32_t ours = t->ours(a, b), theirs = t->theirs(a, b);
    t->cases++;
    if (ours == theirs)
        return;
    if (t->differ++ < MISMATCHES_SHOWN)
        show_mismatch(t, a, b, ours, theirs);
}

// ---- Random whole numbers (the generator "splitmix64").

static uint64_t random_state = 1;

static uint32_t random_word(void)
{
    uint64_t z = random_state += 0x9E3779B97F4A7C15u;
    z = (z ^ (z >> 30)) * 0xBF58476D1CE4E5B9u;
    z = (z ^ (z >> 27)) * 0x94D049BB133111EBu;
    return (uint32_t)(z >> 32);
}

// A random whole number of low..high, both included.
static int between(int low, int high)
{
    uint64_t width = (uint64_t)(high - low) + 1;
    return low + (int)(random_word() * width >> 32);
}

// ---- Words by their parts: sign, exponent field, significand field.

struct format {
    int digits; // binary digits of the significand field
    int top;    // the largest exponent field, which infinities and NaNs have
    int bias;   // the exponent field of 1
    struct test *tests;
};

static const struct format half_format = { 10, 31, 15, half_tests };
static const struct format single_format = { 23, 255, 127, single_tests };

static int hold(int x, int low, int high)
{
    return x < low ? low : x > high ? high : x;
}

// The exponent is held to the fields that there are; surplus digits of the others are cut off.
static uint32_t join(const struct format *f, uint32_t sign, int exponent, uint32_t significand)
{
    uint32_t field = (uint32_t)hold(exponent, 0, f->top);
    uint32_t magnitude = field << f->digits | (significand & ((1u << f->digits) - 1));
    return (sign & 1) * ((uint32_t)(f->top + 1) << f->digits) | magnitude;
}

// One significand in four has only a few leading digits, so that exact results and ties come up.
static uint32_t random_significand(const struct format *f)
{
    uint32_t all = random_word();
    if (between(0, 3) != 0)
        return all;
    return all & ~0u << between(f->digits / 2 - 2, f->digits);
}

static uint32_t random_with_exponent(const struct format *f, int exponent)
{
    return join(f, random_word(), exponent, random_significand(f));
}

// The upper 16 bits of a half's word must not matter: every other word has random ones.
static uint32_t dress(const struct format *f, uint32_t word)
{
    if (f != &half_format)
        return word;
    return (word & 0xFFFF) | (random_word() & 1 ? random_word() << 16 : 0);
}

// ---- Random pairs of several kinds.

struct pair { uint32_t a, b; };

static struct pair uniform_pair(void)
{
    struct pair p = { random_word(), random_word() };
    return p;
}

// Exponents so near that both numbers have a part in the sum, or just not.
static struct pair nearby_pair(const struct format *f)
{
    int exponent = between(0, f->top), apart = between(-f->digits - 3, f->digits + 3);
    struct pair p = { random_with_exponent(f, exponent), random_with_exponent(f, exponent + apart) };
    return p;
}

// Words that differ by a few units, in sign too or not: sums cancel, quotients are near 1.
static struct pair close_pair(const struct format *f)
{
    uint32_t a = random_with_exponent(f, between(0, f->top));
    uint32_t flip = join(f, random_word(), 0, 0);
    struct pair p = { a, (a + (uint32_t)between(-3, 3)) ^ flip };
    return p;
}

// A pair whose result has about the exponent field aim, which may be below 0 (a subnormal result).
static struct pair aimed_pair(const struct format *f, int operation, int aim)
{
    int last = f->top - 1, first, second;
    if (operation == MUL) {
        int sum = aim + f->bias;
        first = between(hold(sum - last, 0, last), hold(sum, 0, last));
        second = sum - first;
    } else if (operation == DIV) {
        int difference = aim - f->bias;
        first = between(hold(difference, 0, last), hold(last + difference, 0, last));
        second = first - difference;
    } else {
        first = hold(aim + between(-1, 2), 0, last);
        second = hold(aim - between(-2, f->digits + 3), 0, last);
    }
    struct pair p = { random_with_exponent(f, first), random_with_exponent(f, second) };
    return p;
}

static struct pair random_pair(const struct format *f, int operation)
{
    switch (between(0, 4)) {
    case 0: return uniform_pair();
    case 1: return nearby_pair(f);
    case 2: return close_pair(f);
    case 3: return aimed_pair(f, operation, between(-f->digits - 2, 1)); // subnormal
    default: return aimed_pair(f, operation, between(f->top - 2, f->top)); // at overflow
    }
}

static void try_random_pairs(const struct format *f, uint64_t count)
{
    for (int operation = ADD; operation <= DIV; operation++)
        for (uint64_t i = 0; i < count; i++) {
            struct pair p = random_pair(f, operation);
            try_case(&f->tests[operation], dress(f, p.a), dress(f, p.b));
        }
}

// ---- Lists of edge words.

enum { EDGES_MAX = 8000 };
static uint32_t edges[EDGES_MAX];
static int edge_count;

static void add_edge(uint32_t word)
{
    if (edge_count == EDGES_MAX) {
        fprintf(stderr, "compare: EDGES_MAX is too small\n");
        exit(2);
    }
    edges[edge_count++] = word;
}

// For one exponent field: the ends and the middle of the significands with their neighbours, and 0101..01,
// with both signs. So: zeros, subnormals, powers of two, the largest number, infinities, NaNs.
static void add_edges_of_exponent(const struct format *f, int exponent)
{
    uint32_t middle = 1u << (f->digits - 1), last = 2 * middle - 1;
    uint32_t list[] = { 0, 1, 2, middle - 1, middle, middle + 1, last - 1, last, 0x55555555 };
    for (size_t i = 0; i < sizeof list / sizeof *list; i++) {
        add_edge(join(f, 0, exponent, list[i]));
        add_edge(join(f, 1, exponent, list[i]));
    }
}

static void add_edge_value(const struct format *f, float x)
{
    add_edge(f == &half_format ? half_word((_Float16)x) : single_word(x));
    add_edge(f == &half_format ? half_word((_Float16)-x) : single_word(-x));
}

// Some small numbers, and numbers whose products are exactly the tie between the largest number and
// infinity: 65520 = 1365 * 48 = 819 * 80 and so on in half, (2^25 - 1) * 2^103 in single.
static void add_edge_values(const struct format *f)
{
    static const float list[] = {
        3, 5, 6, 7, 9, 10, 11, 13, 100, 1000, 0.1f, 0.7f, 3.14159265f,
        1365, 48, 819, 80, 585, 112, 455, 144, 315, 208, 273, 240,
        31, 0x1Fp60f, 1082401, 1082401 * 0x1p43f };
    for (size_t i = 0; i < sizeof list / sizeof *list; i++)
        add_edge_value(f, list[i]);
}

static void try_edge_pairs(const struct format *f)
{
    for (int operation = ADD; operation <= DIV; operation++)
        for (int i = 0; i < edge_count; i++)
            for (int j = 0; j < edge_count; j++) {
                try_case(&f->tests[operation], edges[i], edges[j]);
                if (f == &half_format)
                    try_case(&f->tests[operation], dress(f, edges[i]), dress(f, edges[j]));
            }
}

static void try_half_edge_pairs(void)
{
    edge_count = 0;
    for (int exponent = 0; exponent <= half_format.top; exponent++)
        add_edges_of_exponent(&half_format, exponent);
    add_edge_values(&half_format);
    try_edge_pairs(&half_format);
}

static void try_single_edge_pairs(void)
{
    static const int exponents[] = {
        0, 1, 2, 3, 22, 23, 24, 25, 63, 64, 65, 102, 103, 104, 115, 125, 126, 127, 128, 129,
        138, 149, 150, 151, 152, 189, 190, 191, 229, 230, 231, 252, 253, 254, 255 };
    edge_count = 0;
    for (size_t i = 0; i < sizeof exponents / sizeof *exponents; i++)
        add_edges_of_exponent(&single_format, exponents[i]);
    add_edge_values(&single_format);
    try_edge_pairs(&single_format);
}

// ---- The functions of one number: floor, abs, sqrt, negative, level.

static void try_word(const struct format *f, uint32_t word)
{
    for (int i = FLOOR; i <= LEVEL; i++)
        try_case(&f->tests[i], word, 0);
}

// All half words: with no upper bits, with all of them, and with two random choices of them.
static void try_all_half_words(void)
{
    for (uint32_t low = 0; low < 65536; low++) {
        try_word(&half_format, low);
        try_word(&half_format, low | 0xFFFF0000);
        try_word(&half_format, low | random_word() << 16);
        try_word(&half_format, low | random_word() << 16);
    }
}

// Every exponent, and the whole numbers and halves of -200..200 with their neighbours.
static void try_single_edge_words(void)
{
    edge_count = 0;
    for (int exponent = 0; exponent <= single_format.top; exponent++)
        add_edges_of_exponent(&single_format, exponent);
    add_edge_values(&single_format);
    for (int twice = -400; twice <= 400; twice++)
        for (int apart = -1; apart <= 1; apart++)
            add_edge(single_word((float)twice / 2) + (uint32_t)apart);
    for (int i = 0; i < edge_count; i++)
        try_word(&single_format, edges[i]);
}

// Uniform words; numbers that have a fraction or just not; numbers up to a little above 128.
static uint32_t random_single(void)
{
    const struct format *f = &single_format;
    switch (between(0, 2)) {
    case 0: return random_word();
    case 1: return random_with_exponent(f, f->bias + between(-2, f->digits + 2));
    default: return random_with_exponent(f, f->bias + between(-2, 8));
    }
}

static void try_random_single_words(uint64_t count)
{
    for (uint64_t i = 0; i < count; i++)
        try_word(&single_format, random_single());
}

// ---- number, in both formats.

static void try_number(uint32_t v)
{
    try_case(&half_tests[NUMBER], v, 0);
    try_case(&single_tests[NUMBER], v, 0);
}

// 0, +-1, +-2^k, +-2^k +-1 (with the least and the greatest of all), and one that half rounds twice.
static void try_number_edges(void)
{
    try_number(0);
    for (int k = 0; k < 32; k++)
        for (int apart = -1; apart <= 1; apart++) {
            uint32_t v = (1u << k) + (uint32_t)apart;
            try_number(v);
            try_number(-v);
        }
    try_number(1074266113);
}

// Numbers within 3 of a tie of half (11 digits) or single (24 digits), of either sign.
static uint32_t random_near_tie(void)
{
    int digits = random_word() & 1 ? 11 : 24;
    int below = between(1, 31 - digits); // digits that rounding takes away
    uint32_t kept = (1u << (digits - 1)) | random_word() >> (33 - digits);
    uint32_t v = (kept << below) + (1u << (below - 1)) + (uint32_t)between(-3, 3);
    return random_word() & 1 ? v : -v;
}

static uint32_t random_number(void)
{
    switch (between(0, 2)) {
    case 0: return random_word();
    case 1: return (uint32_t)((int32_t)random_word() >> between(0, 31)); // of every size
    default: return random_near_tie();
    }
}

static void try_random_numbers(uint64_t count)
{
    for (uint64_t i = 0; i < count; i++)
        try_number(random_number());
}

// ---- Answers worked out by hand: they show that the reference itself was compiled as meant.

struct known { struct test *test; uint32_t a, b, answer; };

static const struct known known_answers[] = {
    { &half_tests[NUMBER], 1074266113, 0, 0x7400 },            // 16392.00002: first 16392, then a tie
    { &half_tests[NUMBER], 65536, 0, 0x3C00 },                 // 1
    { &half_tests[ADD], 0x7BFF, 0x4C00, 0x7C00 },              // 65504 + 16 = 65520, to infinity
    { &half_tests[ADD], 0x7BFF, 0x4BFF, 0x7BFF },              // just below 65520
    { &half_tests[SUB], 0x3C00, 0x3C00, 0x0000 },              // 1 - 1 = +0
    { &half_tests[SUB], 0x7C00, 0x7C00, 0x7E00 },              // infinity - infinity
    { &half_tests[MUL], 0x0001, 0x3800, 0x0000 },              // half the least number: tie, to 0
    { &half_tests[MUL], 0x0003, 0x3800, 0x0002 },              // 1.5 times the least: tie, to 2
    { &half_tests[DIV], 0x3C00, 0x4200, 0x3555 },              // 1/3
    { &half_tests[DIV], 0x0000, 0x8000, 0x7E00 },              // 0 / -0
    { &half_tests[FLOOR], 0xB800, 0, 0xBC00 },                 // -0.5 to -1
    { &half_tests[FLOOR], 0x8000, 0, 0x8000 },                 // -0
    { &half_tests[ABS], 0xFC01, 0, 0x7C01 },                   // a NaN's payload stays
    { &half_tests[SQRT], 0x4000, 0, 0x3DA8 },                  // the root of 2
    { &half_tests[SQRT], 0xBC00, 0, 0x7E00 },                  // the root of -1
    { &half_tests[NEGATIVE], 0xFE00, 0, 1 },                   // a NaN with its sign bit set
    { &half_tests[LEVEL], 0x3800, 0, 0 },                      // 0.5 to 0
    { &half_tests[LEVEL], 0x3E00, 0, 2 },                      // 1.5 to 2
    { &half_tests[LEVEL], 0xFC00, 0, (uint32_t)-128 },         // -infinity
    { &single_tests[NUMBER], 1, 0, 0x37800000 },               // 2^-16
    { &single_tests[NUMBER], INT32_MAX, 0, 0x47000000 },       // up to 32768
    { &single_tests[ADD], 0x3F800000, 0x33800000, 0x3F800000 }, // 1 + 2^-24: tie, to 1
    { &single_tests[SUB], 0x7F800000, 0x7F800000, 0x7FC00000 }, // infinity - infinity
    { &single_tests[MUL], 0x00000001, 0x3F000000, 0x00000000 }, // half the least number: tie, to 0
    { &single_tests[DIV], 0x3F800000, 0x40400000, 0x3EAAAAAB }, // 1/3
    { &single_tests[FLOOR], 0xBF000000, 0, 0xBF800000 },       // -0.5 to -1
    { &single_tests[ABS], 0xFF800001, 0, 0x7F800001 },         // a NaN's payload stays
    { &single_tests[SQRT], 0x40000000, 0, 0x3FB504F3 },        // the root of 2
    { &single_tests[NEGATIVE], 0x80000000, 0, 1 },             // -0
    { &single_tests[LEVEL], 0x42FF0000, 0, 127 },              // 127.5, to 128, held to 127
};

// Tries each known answer, and ends the program if the reference itself does not give it.
static void try_known_answers(void)
{
    for (size_t i = 0; i < sizeof known_answers / sizeof *known_answers; i++) {
        const struct known *k = &known_answers[i];
        if (k->test->theirs(k->a, k->b) != k->answer) {
            fprintf(stderr, "compare: the reference for %s is wrong (known answer %d)\n", k->test->name, (int)i);
            exit(2);
        }
        try_case(k->test, k->a, k->b);
    }
}

// ---- The report.

static uint64_t report(const struct test *tests)
{
    uint64_t differ = 0;
    for (int i = 0; i < FUNCTIONS; i++) {
        printf("%s: %llu cases, %llu differ\n", tests[i].name,
               (unsigned long long)tests[i].cases, (unsigned long long)tests[i].differ);
        differ += tests[i].differ;
    }
    return differ;
}

static uint64_t whole_argument(const char *text)
{
    char *end;
    uint64_t n = strtoull(text, &end, 10);
    if (end == text || *end != 0) {
        fprintf(stderr, "usage: compare [N [SEED]], two whole numbers\n");
        exit(2);
    }
    return n;
}

int main(int count, char **arguments)
{
    uint64_t random_cases = count > 1 ? whole_argument(arguments[1]) : 20000000;
    if (count > 2)
        random_state = whole_argument(arguments[2]);

    try_known_answers();
    try_all_half_words();
    try_half_edge_pairs();
    try_random_pairs(&half_format, random_cases / 4);
    try_single_edge_words();
    try_random_single_words(random_cases / 4);
    try_single_edge_pairs();
    try_random_pairs(&single_format, random_cases / 4);
    try_number_edges();
    try_random_numbers(random_cases / 4);

    uint64_t differ = report(half_tests);
    differ += report(single_tests);
    return differ != 0;
}
