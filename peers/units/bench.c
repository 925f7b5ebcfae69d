// bench.c: times the library's ten half functions beside gcc's software half and the processor's half.
//
//   bench [COUNT]     COUNT: how many different arguments, 1 to 65536 (default 65536)
//
// Each call goes through a pointer to a function of another file, in the same loop for all three, over the same
// random arguments. A time is the best of many repetitions, in ns a call, with the loop and the call in it.
// - The calls of a loop do not wait for each other's results, so the processor may overlap them.
// - With few arguments (4096, say) the processor learns by heart which way the branches go on each of them:
//   functions with branches were seen to be up to a quarter faster than with 65536.
// - Where the linker happens to place a function matters. The loop and the call alone take 1.4 to 2.5 ns by that,
//   so smaller differences say nothing; and one library was seen to take 2.2 times as long after a move of its code
//   by 16 bytes. Before a ratio is believed, link with some bytes put before the library and see if it stays.

#include "units.h"

#include <stdio.h>
#include <stdlib.h>
#include <time.h>

DECLARE_TEN(soft) // reference.c with gcc's software conversions
DECLARE_TEN(hard) // reference.c with the processor's

enum { MOST = 65536, CALLS = 65536, REPETITIONS = 25 }; // most arguments; least calls in a repetition

// ---- The arguments.

static int arguments = MOST;             // how many there are
static uint32_t left[MOST], right[MOST]; // halves of both signs
static uint32_t roots[MOST];             // halves, mostly positive
static int32_t numbers[MOST];            // whole numbers of every size

static uint64_t random_state = 1;

static uint32_t random_word(void)
{
    uint64_t z = random_state += 0x9E3779B97F4A7C15u;
    z = (z ^ (z >> 30)) * 0xBF58476D1CE4E5B9u;
    z = (z ^ (z >> 27)) * 0x94D049BB133111EBu;
    return (uint32_t)(z >> 32);
}

// A half of size 2^-7 to 2^8 with a random sign; one in 64 is a zero, a subnormal, an infinity or a NaN.
static uint32_t random_half(void)
{
    static const uint32_t special[8] = { 0, 0x8000, 1, 0x8123, 0x03FF, 0x7C00, 0xFC00, 0x7E00 };
    uint32_t w = random_word();
    if (w >> 26 == 0)
        return special[w & 7];
    uint32_t exponent = 8 + random_word() % 15;
    return (w & 0x83FF) | exponent << 10;
}

static void fill_arguments(void)
{
    for (int i = 0; i < arguments; i++) {
        left[i] = random_half();
        right[i] = random_half();
        roots[i] = random_half();
        if (random_word() % 64 != 0)
            roots[i] &= 0x7FFF;
        numbers[i] = (int32_t)random_word() >> random_word() % 24;
    }
}

// ---- One loop for each shape of function. They are not inlined, so the three contestants share them.

typedef uint32_t number_function(int32_t);
typedef uint32_t pair_function(uint32_t, uint32_t);
typedef uint32_t word_function(uint32_t);
typedef bool bool_function(uint32_t);
typedef int8_t level_function(uint32_t);
typedef void (*any_function)(void); // one of these, see struct row

#define SHARED __attribute__((noinline, noclone)) static

SHARED void call_number(number_function *f, uint32_t *out)
{
    for (int i = 0, n = arguments; i < n; i++)
        out[i] = f(numbers[i]);
}

SHARED void call_pair(pair_function *f, uint32_t *out)
{
    for (int i = 0, n = arguments; i < n; i++)
        out[i] = f(left[i], right[i]);
}

SHARED void call_word(word_function *f, const uint32_t *in, uint32_t *out)
{
    for (int i = 0, n = arguments; i < n; i++)
        out[i] = f(in[i]);
}

SHARED void call_bool(bool_function *f, uint32_t *out)
{
    for (int i = 0, n = arguments; i < n; i++)
        out[i] = f(left[i]);
}

SHARED void call_level(level_function *f, uint32_t *out)
{
    for (int i = 0, n = arguments; i < n; i++)
        out[i] = (uint32_t)f(left[i]);
}

enum shape { OF_NUMBER, OF_PAIR, OF_WORD, OF_ROOT, TO_BOOL, TO_LEVEL };

// Calls f once on each argument and keeps the results.
static void call_all(enum shape shape, any_function f, uint32_t *out)
{
    switch (shape) {
    case OF_NUMBER: call_number((number_function *)f, out); break;
    case OF_PAIR: call_pair((pair_function *)f, out); break;
    case OF_WORD: call_word((word_function *)f, left, out); break;
    case OF_ROOT: call_word((word_function *)f, roots, out); break;
    case TO_BOOL: call_bool((bool_function *)f, out); break;
    case TO_LEVEL: call_level((level_function *)f, out); break;
    }
}

// ---- The table.

enum { OURS, SOFTWARE, HARDWARE, CONTESTANTS };

struct row {
    const char *name;
    enum shape shape;
    any_function functions[CONTESTANTS];
};

#define ROW(f, shape) \
    { #f, shape, { (any_function)half_##f, (any_function)soft_##f, (any_function)hard_##f } }

static const struct row rows[] = {
    ROW(number, OF_NUMBER), ROW(add, OF_PAIR), ROW(sub, OF_PAIR), ROW(mul, OF_PAIR), ROW(div, OF_PAIR),
    ROW(floor, OF_WORD), ROW(abs, OF_WORD), ROW(sqrt, OF_ROOT), ROW(negative, TO_BOOL), ROW(level, TO_LEVEL),
};

static uint32_t results[CONTESTANTS][MOST];

static double now_ns(void)
{
    struct timespec t;
    clock_gettime(CLOCK_MONOTONIC, &t);
    return (double)t.tv_sec * 1e9 + (double)t.tv_nsec;
}

// The time of a call, in ns, over one repetition.
static double time_once(const struct row *row, int who)
{
    int calls = 0;
    double start = now_ns();
    for (; calls < CALLS; calls += arguments)
        call_all(row->shape, row->functions[who], results[who]);
    return (now_ns() - start) / calls;
}

// The best times of the first few contestants. They take turns, so that a busy machine slows all alike.
static void time_row(const struct row *row, int contestants, double *best)
{
    for (int who = 0; who < contestants; who++)
        best[who] = 1e30;
    for (int i = 0; i < REPETITIONS; i++)
        for (int who = 0; who < contestants; who++) {
            double t = time_once(row, who);
            if (t < best[who])
                best[who] = t;
        }
}

static bool is_nan(uint32_t w)
{
    return (w & 0x7FFF) > 0x7C00 && w < 0x10000;
}

// How many results of a contestant are not ours, where any NaN is as good as another.
static int count_different(int who)
{
    int different = 0;
    for (int i = 0; i < arguments; i++) {
        uint32_t a = results[OURS][i], b = results[who][i];
        different += a != b && !(is_nan(a) && is_nan(b));
    }
    return different;
}

static void print_row(const char *name, const double *best, bool hardware)
{
    printf("%-10s %8.2f %10.2f", name, best[OURS], best[SOFTWARE]);
    if (hardware)
        printf(" %10.2f", best[HARDWARE]);
    else
        printf(" %10s", "-");
    printf(" %15.2f", best[OURS] / best[SOFTWARE]);
    if (hardware)
        printf(" %15.2f\n", best[OURS] / best[HARDWARE]);
    else
        printf(" %15s\n", "-");
}

static int count_argument(const char *text)
{
    int n = atoi(text);
    if (n < 1 || n > MOST) {
        fprintf(stderr, "usage: bench [COUNT], a whole number of 1 to %d\n", MOST);
        exit(2);
    }
    return n;
}

static void print_heading(void)
{
    printf("half, ns a call: best of %d repetitions, %d arguments\n", REPETITIONS, arguments);
    printf("%-10s %8s %10s %10s %15s %15s\n",
           "function", "ours", "software", "hardware", "ours/software", "ours/hardware");
}

// Exit status: 0, or 1 if the contestants do not give the same results.
int main(int argc, char **argv)
{
    bool hardware = __builtin_cpu_supports("f16c") && __builtin_cpu_supports("avx");
    int contestants = hardware ? 3 : 2, different = 0;
    double best[CONTESTANTS];
    if (argc > 1)
        arguments = count_argument(argv[1]);
    fill_arguments();
    print_heading();
    for (size_t i = 0; i < sizeof rows / sizeof *rows; i++) {
        time_row(&rows[i], contestants, best);
        print_row(rows[i].name, best, hardware);
        for (int who = SOFTWARE; who < contestants; who++)
            different += count_different(who);
    }
    if (different != 0)
        printf("%d results are not the same as ours\n", different);
    return different != 0;
}
