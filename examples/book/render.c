/* Renders one utterance of a book to a file of little-endian doubles, frame after frame.

   usage: render NUMBER FILE

   Prints how many frames it has, and FILE: the line that `join` reads. The book is made up: an
   utterance's states come from its number alone. */

#include <inttypes.h>
#include <stdio.h>
#include <stdlib.h>
#include <string.h>

#include "book.h"
#include "hejmirov.h"

enum { WINDOWS = 3, STATES_A_LABEL = 5, FEWEST_LABELS = 6, MOST_LABELS = 24 };
enum { MOST_STATES = MOST_LABELS * STATES_A_LABEL, PAIRS = WINDOWS * V, RECORD = 2 * PAIRS };

static const uint32_t widths[WINDOWS] = {1, 3, 3};
static const double coefficients[] = {1, -0.5, 0, 0.5, 1, -2, 1};

typedef struct {
    uint32_t states;
    double means[MOST_STATES], varis[MOST_STATES]; /* of the states' durations */
    double records[MOST_STATES * RECORD];
    uint8_t switches[MOST_STATES];
    double gv[2 * V];
} Utterance;

/* A number from 0 to 1: splitmix64. */
static double chance(uint64_t *seed) {
    uint64_t z = *seed += 0x9e3779b97f4a7c15u;
    z = (z ^ z >> 30) * 0xbf58476d1ce4e5b9u;
    z = (z ^ z >> 27) * 0x94d049bb133111ebu;
    return (double)((z ^ z >> 31) >> 11) * 0x1p-53;
}

static double between(uint64_t *seed, double least, double most) {
    return least + (most - least) * chance(seed);
}

static void make_record(uint64_t *seed, double *record) {
    static const double mean_reach[WINDOWS] = {1.0, 0.05, 0.02},
                        vari_reach[WINDOWS] = {0.2, 0.01, 0.02};
    for (int pair = 0; pair < PAIRS; pair++) {
        record[pair] = between(seed, -mean_reach[pair / V], mean_reach[pair / V]);
        record[PAIRS + pair] = vari_reach[pair / V] * between(seed, 0.25, 1);
    }
}

static void make_utterance(uint64_t number, Utterance *u) {
    uint64_t seed = number;
    u->states = STATES_A_LABEL * (uint32_t)between(&seed, FEWEST_LABELS, MOST_LABELS + 1);
    for (uint32_t state = 0; state < u->states; state++) {
        u->means[state] = between(&seed, 2, 9);
        u->varis[state] = between(&seed, 0.5, 6);
        make_record(&seed, u->records + (size_t)state * RECORD);
        u->switches[state] = chance(&seed) < 0.9;
    }
    for (int component = 0; component < V; component++) {
        u->gv[component] = between(&seed, 0.1, 0.3);
        u->gv[V + component] = between(&seed, 1, 10);
    }
}

static void *room_for(size_t count, size_t size) {
    void *room = calloc(count, size);
    if (!room) fail("memory", "there isn't enough");
    return room;
}

/* frames x V numbers, to be freed. */
static double *render(const Utterance *u, uint32_t *frames) {
    static uint32_t durations[MOST_STATES], work[MOST_STATES], shortest[MOST_STATES];
    uint32_t changes;
    for (uint32_t state = 0; state < u->states; state++) shortest[state] = 1; /* frame, of each */
    check("speed", hejmirov_speed(u->means, u->states, u->varis, u->states, shortest, u->states,
                                  0.9, durations, u->states, work, u->states, &changes));
    *frames = 0;
    for (uint32_t state = 0; state < u->states; state++) *frames += durations[state];

    size_t n_out = (size_t)*frames * V;
    size_t n_floats = (size_t)*frames * HEJMIROV_WORK_FLOATS_A_FRAME;
    size_t n_marks = (size_t)*frames * HEJMIROV_WORK_MARKS_A_FRAME;
    double *out = room_for(n_out, sizeof *out), *floats = room_for(n_floats, sizeof *floats);
    uint32_t *marks = room_for(n_marks, sizeof *marks);
    uint32_t high, low; /* clamped pairs: no variance of the book is so large or so small */
    check("trajectory", hejmirov_trajectory(V, 0, 0.0, 0.0, 1, 1.0, widths, WINDOWS, coefficients,
                                            sizeof coefficients / sizeof *coefficients, u->records,
                                            (size_t)u->states * RECORD, durations, u->states, u->gv,
                                            2 * V, u->switches, u->states, out, n_out, floats,
                                            n_floats, marks, n_marks, &high, &low));
    free(floats);
    free(marks);
    return out;
}

static void write_numbers(const char *name, const double *numbers, size_t count) {
    FILE *file = fopen(name, "wb");
    if (!file) fail(name, "can't be opened");
    for (size_t i = 0; i < count; i++) {
        uint64_t bits;
        memcpy(&bits, &numbers[i], sizeof bits);
        for (int byte = 0; byte < HEJMIROV_BYTES_A_NUMBER; byte++)
            putc((int)(bits >> 8 * byte & 0xff), file);
    }
    int failed = ferror(file);
    if (fclose(file) || failed) fail(name, "can't be written");
}

int main(int argc, char **argv) {
    if (argc != 3) {
        fputs("usage: render NUMBER FILE\n", stderr);
        return 2;
    }
    static Utterance utterance;
    uint32_t frames;
    make_utterance(strtoull(argv[1], NULL, 10), &utterance);
    double *numbers = render(&utterance, &frames);
    write_numbers(argv[2], numbers, (size_t)frames * V);
    printf("%" PRIu32 " %s\n", frames, argv[2]);
    free(numbers);
    return 0;
}
