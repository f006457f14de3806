// Vectors for the crate `floats`, with answers by MPFR. Use: tools/vectors/make builds this and runs it; by hand,
//     cc -std=c11 make.c -lmpfr -lgmp && ./a.out >FILE        (the counts by kind go to standard error)
//
// A vector is 25 bytes: its kind, the operands a and b, and the answer, each of these eight bytes, the least first. A float stands as
// its bits (IEEE 754 binary64), and every NaN among the answers as 0x7ff8000000000000. The kinds:
//     1  frames of a: the nearest integer, halves away from zero; at least 1, for a NaN too; 65,537 for all above 65,536
//     2  |a|
//     3  1 where the cost a comes strictly before the cost b, else 0; NaNs come last and are equal
//     4  the square root of a
//     5  a read from its bits and turned back
//     6  a - b; that of two infinities is a NaN with the machine's own bits, whatever these are
//     7  a read from its eight bytes, starting at byte b; bytes past the end count as 0
//     8  a written over eight bytes 0x5a, starting at byte b, as far as there is room
// The random operands come from a fixed seed, so that the file is the same each time. The last vector, and it alone, has a wrong answer.
#include <mpfr.h>
#include <stdint.h>
#include <stdio.h>
#include <stdlib.h>
#include <string.h>

enum kind { FRAMES = 1, MAGNITUDE, BELOW, ROOT, BITS, DIFFERENCE, BYTES_IN, BYTES_OUT, KINDS };

static const char *const kind_names[KINDS] = {
    [FRAMES] = "frames", [MAGNITUDE] = "magnitude", [BELOW] = "order", [ROOT] = "root",
    [BITS] = "bits", [DIFFERENCE] = "difference", [BYTES_IN] = "bytes in", [BYTES_OUT] = "bytes out",
};

static const uint64_t SIGN = UINT64_C(1) << 63;
static const uint64_t UNIT = UINT64_C(1) << 52; // the least bit of the exponent's field
static const uint64_t INFINITE = UINT64_C(0x7ff) << 52;
static const uint64_t THE_NAN = UINT64_C(0xfff) << 51;

static double of_bits(uint64_t bits) {
    double x;
    memcpy(&x, &bits, sizeof x);
    return x;
}

static uint64_t bits_of(double x) {
    uint64_t bits;
    memcpy(&bits, &x, sizeof bits);
    return bits;
}

static mpfr_t x, y, z; // of 53 bits, in the range of binary64

static void start_mpfr(void) {
    mpfr_set_default_prec(53);
    mpfr_set_emin(-1073);
    mpfr_set_emax(1024);
    mpfr_inits(x, y, z, (mpfr_ptr)0);
}

static void set(mpfr_t to, uint64_t bits) { mpfr_set_d(to, of_bits(bits), MPFR_RNDN); }

// The bits of a result, given how it was rounded so far.
static uint64_t rounded_bits(mpfr_t result, int inexact) {
    mpfr_subnormalize(result, inexact, MPFR_RNDN);
    return mpfr_nan_p(result) ? THE_NAN : bits_of(mpfr_get_d(result, MPFR_RNDN));
}

static uint64_t frames(uint64_t a) {
    set(x, a);
    if (mpfr_nan_p(x)) return 1;
    mpfr_round(z, x);
    if (mpfr_cmp_ui(z, 1) < 0) return 1;
    return mpfr_cmp_ui(z, 65536) > 0 ? 65537 : mpfr_get_ui(z, MPFR_RNDN);
}

static uint64_t magnitude(uint64_t a) {
    set(x, a);
    return rounded_bits(z, mpfr_abs(z, x, MPFR_RNDN));
}

static uint64_t below(uint64_t a, uint64_t b) {
    set(x, a);
    set(y, b);
    if (mpfr_nan_p(x)) return 0;
    return mpfr_nan_p(y) || mpfr_cmp(x, y) < 0;
}

static uint64_t root(uint64_t a) {
    set(x, a);
    return rounded_bits(z, mpfr_sqrt(z, x, MPFR_RNDN));
}

static uint64_t same(uint64_t a) {
    set(x, a);
    return rounded_bits(x, 0);
}

static uint64_t difference(uint64_t a, uint64_t b) {
    set(x, a);
    set(y, b);
    return rounded_bits(z, mpfr_sub(z, x, y, MPFR_RNDN));
}

static void spell(uint64_t number, uint8_t bytes[8]) {
    for (int i = 0; i < 8; i++) bytes[i] = number >> 8 * i & 0xff;
}

static uint64_t spelled(const uint8_t bytes[8]) {
    uint64_t number = 0;
    for (int i = 0; i < 8; i++) number |= (uint64_t)bytes[i] << 8 * i;
    return number;
}

static uint64_t bytes_in(uint64_t a, uint64_t place) {
    uint8_t from[8], part[8] = {0};
    spell(a, from);
    if (place < 8) memcpy(part, from + place, 8 - place);
    return same(spelled(part));
}

static uint64_t bytes_out(uint64_t a, uint64_t place) {
    uint8_t whole[8], over[8];
    memset(over, 0x5a, sizeof over);
    spell(same(a), whole);
    if (place < 8) memcpy(over + place, whole, 8 - place);
    return spelled(over);
}

static uint64_t answer(enum kind kind, uint64_t a, uint64_t b) {
    switch (kind) {
    case FRAMES: return frames(a);
    case MAGNITUDE: return magnitude(a);
    case BELOW: return below(a, b);
    case ROOT: return root(a);
    case BITS: return same(a);
    case DIFFERENCE: return difference(a, b);
    case BYTES_IN: return bytes_in(a, b);
    case BYTES_OUT: return bytes_out(a, b);
    default: abort();
    }
}

static unsigned counts[KINDS];

static void put3(enum kind kind, uint64_t a, uint64_t b, uint64_t right) {
    uint8_t vector[25] = {(uint8_t)kind};
    spell(a, vector + 1);
    spell(b, vector + 9);
    spell(right, vector + 17);
    if (fwrite(vector, sizeof vector, 1, stdout) != 1) {
        perror("make");
        exit(1);
    }
    counts[kind]++;
}

static void put2(enum kind kind, uint64_t a, uint64_t b) { put3(kind, a, b, answer(kind, a, b)); }

static void put(enum kind kind, uint64_t a) { put2(kind, a, 0); }

static void put_signs(enum kind kind, uint64_t a) {
    put(kind, a);
    put(kind, a ^ SIGN);
}

// A pattern and its two neighbours, of either sign; a float's neighbours are its bits less and more 1.
static void put_around(enum kind kind, uint64_t a) {
    for (int step = -1; step <= 1; step++) put_signs(kind, a + step);
}

// Every kind that takes one operand.
static void put_all(uint64_t a) {
    put_signs(FRAMES, a);
    put_signs(MAGNITUDE, a);
    put_signs(ROOT, a);
    put_signs(BITS, a);
    put_signs(BYTES_IN, a);
    put_signs(BYTES_OUT, a);
}

// Both ways round.
static void put_order(uint64_t a, uint64_t b) {
    put2(BELOW, a, b);
    put2(BELOW, b, a);
}

// splitmix64
static uint64_t state = 754;

static uint64_t draw(void) {
    uint64_t n = state += UINT64_C(0x9e3779b97f4a7c15);
    n = (n ^ n >> 30) * UINT64_C(0xbf58476d1ce4e5b9);
    n = (n ^ n >> 27) * UINT64_C(0x94d049bb133111eb);
    return n ^ n >> 31;
}

static uint64_t draw_fraction(void) { return draw() >> 12; }

// A float whose exponent's field is first or one of the count - 1 after it.
static uint64_t draw_float(uint64_t first, uint64_t count) {
    const uint64_t field = first + draw() % count;
    return field * UNIT | draw_fraction();
}

// What the rules name, and what they compute with.
static void named(void) {
    const double values[] = {0.49999999999999994, 2.5, 2.4, 0.5, 1.5, 1, 1e19, 1e-19, 1e38, 65535.5, 65536, 65536.5, 65537,
                             8, 7, 6, 3.4, 0.1, 1.2, 0.25, 4, 5, 13421772, 13421773, 4294967296.0, 4294967360.0, 1e15, 1e300};
    for (size_t i = 0; i < sizeof values / sizeof values[0]; i++) put_all(bits_of(values[i]));
}

// Zero, the least and largest numbers, infinity, and NaNs: quiet, signalling, with payloads, of either sign.
static const uint64_t edges[] = {
    0x0000000000000000, 0x0000000000000001, 0x000fffffffffffff, 0x0010000000000000, 0x3fefffffffffffff, 0x3ff0000000000000,
    0x7fefffffffffffff, 0x7ff0000000000000, 0x7ff0000000000001, 0x7ff4000000000000, 0x7ff7ffffffffffff, 0x7ff8000000000000,
    0x7ff8000000000001, 0x7ffc0ffee0ddf00d, 0x7fffffffffffffff,
};

enum { EDGES = sizeof edges / sizeof edges[0] };

static void at_edges(void) {
    for (int i = 0; i < EDGES; i++) put_all(edges[i]);
    for (int k = 0; k < 52; k++) put_signs(BITS, INFINITE | UINT64_C(1) << k);
    for (int i = 0; i < 16; i++) put_signs(BITS, INFINITE | draw_fraction() | 1);
    for (int i = 0; i < EDGES; i++) {
        for (int j = 0; j < EDGES; j++) {
            put2(BELOW, edges[i], edges[j]);
            put2(DIFFERENCE, edges[i], edges[j]);
        }
        put2(BELOW, edges[i] ^ SIGN, edges[i]);
        put2(BELOW, edges[i], edges[i] ^ SIGN);
        put2(DIFFERENCE, edges[i] ^ SIGN, edges[i]);
        put2(DIFFERENCE, edges[i], edges[i] ^ SIGN);
    }
}

// Every exponent's field, with fractions of zeros, of a lone last one, of ones, and a random one.
static void every_exponent(void) {
    for (uint64_t field = 0; field < 2047; field++) {
        const uint64_t base = field * UNIT;
        const uint64_t fractions[] = {0, 1, UNIT - 1, draw_fraction()};
        for (int i = 0; i < 4; i++) put(ROOT, base | fractions[i]);
        const uint64_t turned = base | fractions[field % 4];
        put(FRAMES, turned | (field % 3 ? 0 : SIGN));
        const uint64_t any = base | fractions[3];
        switch (field % 8) {
        case 0: put(MAGNITUDE, any | SIGN); break;
        case 1: put(BITS, any); break;
        case 2: put_order(any, any + 1); break;
        case 3: put2(BELOW, any, draw() & ~SIGN); break;
        case 4: put2(BYTES_IN, any, field / 8 % 9); break;
        case 5: put(BITS, any | SIGN); break;
        case 6: put2(BYTES_OUT, any, field / 8 % 9); break;
        default: put2(DIFFERENCE, any, turned); break;
        }
    }
}

// Each power of two among the subnormals, and its neighbours.
static void subnormals(void) {
    for (int k = 0; k < 52; k++) {
        const uint64_t power = UINT64_C(1) << k;
        for (int step = -1; step <= 1; step++) {
            put(ROOT, power + step);
            put(FRAMES, power + step);
            put(BITS, power + step + SIGN);
        }
        put_order(power - 1, power);
    }
}

// k, and k + 1/2, with their neighbours, of either sign.
static void halves_at(double k) {
    put_around(FRAMES, bits_of(k + 0.5));
    if (k > 0) put_around(FRAMES, bits_of(k));
}

static void halves(void) {
    for (int k = 0; k <= 20; k++) halves_at(k);
    for (int e = 5; e <= 51; e++) {
        const double power = (double)(UINT64_C(1) << e);
        halves_at(power);
        if (e > 18) continue;
        halves_at(power - 1);
        halves_at(power + 1);
    }
    for (double limit = 65533; limit <= 65539; limit++) halves_at(limit);
    for (int i = 0; i < 200; i++) put(FRAMES, bits_of((double)(draw() % (65537 * 4)) / 4));
    for (int i = 0; i < 200; i++) put(FRAMES, draw_float(1021, 20));
}

// Squares of whole numbers and of random floats of 26 digits, each with its neighbours.
static void squares(void) {
    for (uint64_t n = 1; n <= 64; n++)
        for (int step = -1; step <= 1; step++) put(ROOT, bits_of((double)(n * n)) + step);
    for (int i = 0; i < 128; i++) {
        const double side = of_bits(draw_float(600, 800) >> 27 << 27);
        for (int step = -1; step <= 1; step++) put(ROOT, bits_of(side * side) + step);
    }
}

// Roots next to the middle of two floats. A float is d * 4 ^ k / 2 ^ 52 with a d of 53 digits, or of 54 and even; its root is that of
// n = d * 2 ^ 52, times a power of two. That lies a hair off q + 1/2 where n is q * q + q + c with a small c. So look for a q of 53
// digits, digit by digit from the last, with q * q + q + c divisible by 2 ^ 52.
static void hard_roots(void) {
    for (int c = -128; c <= 128; c += 2) {
        for (uint64_t last = 0; last < 2; last++) {
            uint64_t q = last;
            for (int k = 1; k < 52; k++) q |= ((q * q + q + c) >> k & 1) << k;
            q |= UNIT;
            const uint64_t d = (uint64_t)(((__uint128_t)q * q + q + c) >> 52);
            const uint64_t odd = d >= 2 * UNIT;
            if (odd && d % 2 == 1) continue;
            const uint64_t field = 1023 + odd + draw() % 500 * 2;
            put(ROOT, field * UNIT + (d >> odd) - UNIT);
        }
    }
}

// Equal costs, costs a unit apart, and pairs drawn at random.
static void order(void) {
    for (int i = 0; i < 50; i++) {
        const uint64_t a = draw() % INFINITE;
        put2(BELOW, a, a);
        put_order(a, a + 1);
        put_order(a, draw() % INFINITE);
        put_order(a, THE_NAN | draw() >> 13);
        put_order(a | SIGN, draw() % INFINITE);
    }
}

// Differences and sums of floats near each other.
static void differences(void) {
    for (int i = 0; i < 100; i++) {
        const uint64_t a = draw() % INFINITE;
        put2(DIFFERENCE, a, a + draw() % 1000);
        put2(DIFFERENCE, a, a ^ (draw() & (SIGN | (4 * UNIT - 1))));
    }
}

// Every place of a list of eight bytes, and places past its end.
static void places(void) {
    const uint64_t far[] = {9, 255, 256, UINT64_C(1) << 32, UINT64_MAX - 7, UINT64_MAX};
    for (int i = 0; i < 8; i++) {
        const uint64_t a = i < 2 ? SIGN * i | INFINITE | (draw_fraction() | 1) : draw();
        for (uint64_t place = 0; place <= 8; place++) {
            put2(BYTES_IN, a, place);
            put2(BYTES_OUT, a, place);
        }
        for (size_t j = 0; j < sizeof far / sizeof far[0]; j++) {
            put2(BYTES_IN, a, far[j]);
            put2(BYTES_OUT, a, far[j]);
        }
    }
}

// A vector whose answer is wrong in its lowest bit: a replay that compares nothing would not count it.
static void wrong(void) {
    const uint64_t two = bits_of(2);
    put3(ROOT, two, 0, root(two) ^ 1);
}

int main(void) {
    start_mpfr();
    named();
    at_edges();
    every_exponent();
    subnormals();
    halves();
    squares();
    hard_roots();
    order();
    differences();
    places();
    wrong();
    mpfr_clears(x, y, z, (mpfr_ptr)0);
    for (int kind = FRAMES; kind < KINDS; kind++) fprintf(stderr, "%6u %s\n", counts[kind], kind_names[kind]);
    if (fflush(stdout) != 0) {
        perror("make");
        return 1;
    }
    return 0;
}
