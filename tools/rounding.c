/* Rounds floats of every exponent and both signs with the C call, and holds each answer to two others: to the fraction
   taken off one bit at a time, and to the fraction that a subtraction leaves. The argument is the seed of the random ones. */

#include <inttypes.h>
#include <stdint.h>
#include <stdio.h>
#include <stdlib.h>
#include <string.h>

#include "../include/hejmirov.h"

enum { EXPONENTS = 2048, DIGITS = 52, LOWEST = 1022, HIGHEST = 1039, TOO_MANY = 65537 };
enum { AT_LIMITS = 1024, AT_BITS = 16, AT_HALVES = 8, AT_RANDOM = 2000, SHOWN = 10 };

static const uint64_t LEAD = UINT64_C(1) << DIGITS;

static uint64_t tried, differing;

static double float_of(uint64_t bits) {
    double x;
    memcpy(&x, &bits, sizeof x);
    return x;
}

/* At speed 1 a state of mean x, variance 0 and shortest 1 lasts the frames that x stands for; more than 65,536 are refused. */
static uint32_t by_call(double x) {
    const double none = 0.0;
    const uint32_t shortest = 1;
    uint32_t frames = 0, work = 0, changes = 0;
    uint32_t refused =
        hejmirov_speed(&x, 1, &none, 1, &shortest, 1, 1.0, &frames, 1, &work, 1, &changes);
    return refused ? (refused == 8 ? TOO_MANY : 0) : frames;
}

static uint32_t bit_by_bit(uint64_t bits) {
    uint64_t exponent = bits >> DIGITS;
    if (exponent < LOWEST || exponent >= EXPONENTS) return 1;
    if (exponent > HIGHEST) return exponent == EXPONENTS - 1 && bits % LEAD ? 1 : TOO_MANY;
    uint64_t whole = bits % LEAD + LEAD, last = 0;
    for (uint64_t left = LOWEST + DIGITS + 1 - exponent; left > 0; left--) {
        last = whole % 2;
        whole /= 2;
    }
    return whole + last > TOO_MANY ? TOO_MANY : (uint32_t)(whole + last);
}

/* Cutting to a whole number and taking that off are exact. */
static uint32_t by_subtraction(double x) {
    if (!(x >= 0.5)) return 1;
    if (x >= 65536.5) return TOO_MANY;
    uint32_t whole = (uint32_t)x;
    return whole + (x - whole >= 0.5);
}

static void try_pattern(uint64_t bits) {
    double x = float_of(bits);
    uint32_t call = by_call(x), bitwise = bit_by_bit(bits), subtracted = by_subtraction(x);
    tried++;
    if (call == bitwise && call == subtracted) return;
    if (differing++ < SHOWN) {
        printf("0x%016" PRIX64 " (%a): the call %" PRIu32 ", bit by bit %" PRIu32 ", by subtraction %" PRIu32 "\n",
               bits, x, call, bitwise, subtracted);
    }
}

/* The significands from `reach` below to `reach` above one; past either end they go on at the other. */
static void try_around(uint64_t field, uint64_t significand, uint64_t reach) {
    for (uint64_t i = 0; i <= 2 * reach; i++) try_pattern(field + (significand + i - reach) % LEAD);
}

/* Every number of halves that has this exponent. */
static void try_halves(uint64_t field, uint64_t exponent) {
    uint64_t half = LEAD >> (exponent - LOWEST);
    for (uint64_t significand = 0; significand < LEAD; significand += half) try_around(field, significand, AT_HALVES);
}

static uint64_t random_of(uint64_t *state) {
    *state ^= *state << 13;
    *state ^= *state >> 7;
    *state ^= *state << 17;
    return *state;
}

int main(int count, char **words) {
    uint64_t seed = count > 1 ? strtoull(words[1], NULL, 10) : 1;
    uint64_t state = seed * UINT64_C(0x9e3779b97f4a7c15) | 1;
    for (uint64_t top = 0; top < 2 * EXPONENTS; top++) {
        uint64_t field = top << DIGITS, exponent = top % EXPONENTS;
        try_around(field, 0, AT_LIMITS);
        for (int bit = 10; bit < DIGITS; bit++) try_around(field, UINT64_C(1) << bit, AT_BITS);
        if (exponent >= LOWEST && exponent <= HIGHEST) try_halves(field, exponent);
        for (int i = 0; i < AT_RANDOM; i++) try_pattern(field + random_of(&state) % LEAD);
    }
    printf("rounding: %" PRIu64 " patterns of seed %" PRIu64 ", %" PRIu64 " differ\n", tried, seed, differing);
    return differing > 0;
}
