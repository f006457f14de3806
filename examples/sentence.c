/* Fits a sentence to a length or to an editor's ends, renders its trajectory, and takes one state's
   part of it.

   usage: sentence FILE [--ends ENDS] [--frames]

   It says what was done; with --frames it prints a line a frame: what tools/picture draws. FILE is
   sentence.txt and ENDS ends.txt; README.md says what stands in them. sentence.rs does the same and
   prints the same text. */

#include <inttypes.h>
#include <stdbool.h>
#include <stdio.h>
#include <stdlib.h>
#include <string.h>

#include "hejmirov.h"

/* The state whose part is taken: the middle of the longest vowel. */
enum { CHOSEN_STATE = 43 };

enum { STATES_A_LABEL = 3 };

enum { WORD_ROOM = 32 };

typedef struct {
    uint32_t states, v, windows;
    double length, threshold, fill, gv_weight;
    double gv[2 * HEJMIROV_MAX_V];
    uint32_t widths[HEJMIROV_MAX_WINDOWS];
    double coefficients[HEJMIROV_MAX_WINDOWS * HEJMIROV_MAX_WIDTH];
    size_t n_coefficients;
    char (*labels)[WORD_ROOM]; /* of the states: a phone, a dot and the state's number */
    double *means, *varis; /* of the states' durations */
    uint8_t *switches;
    double *records;
    size_t n_records;
} Sentence;

static _Noreturn void fail(const char *what, const char *why) {
    fprintf(stderr, "sentence: %s: %s\n", what, why);
    exit(1);
}

/* Ends the program where a call refused. */
static void check(const char *call, uint32_t refusal) {
    if (refusal != HEJMIROV_ACCEPTED) fail(call, hejmirov_refusal_text(refusal));
}

static void *room_for(size_t count, size_t size) {
    void *room = calloc(count ? count : 1, size);
    if (!room) fail("memory", "there isn't enough");
    return room;
}

static void read_numbers(FILE *file, double *numbers, size_t count) {
    for (size_t i = 0; i < count; i++)
        if (fscanf(file, "%lf", &numbers[i]) != 1) fail("the sentence", "a number is missing");
}

static void read_head(FILE *file, Sentence *s) {
    if (fscanf(file, "states %" SCNu32 " v %" SCNu32 " length %lf", &s->states, &s->v,
               &s->length) != 3 ||
        fscanf(file, " threshold %lf fill %lf", &s->threshold, &s->fill) != 2 ||
        s->states > HEJMIROV_MAX_STATES || s->v > HEJMIROV_MAX_V)
        fail("the sentence", "its first lines are not as they should be");
    if (fscanf(file, " gv_weight %lf gv", &s->gv_weight) != 1) fail("the sentence", "no gv_weight");
    read_numbers(file, s->gv, 2 * (size_t)s->v);
}

static void read_windows(FILE *file, Sentence *s) {
    if (fscanf(file, " windows %" SCNu32, &s->windows) != 1 || s->windows > HEJMIROV_MAX_WINDOWS)
        fail("the sentence", "no windows, or too many");
    for (uint32_t i = 0; i < s->windows; i++) {
        if (fscanf(file, "%" SCNu32, &s->widths[i]) != 1 || s->widths[i] > HEJMIROV_MAX_WIDTH)
            fail("the sentence", "a window is missing or too long");
        read_numbers(file, s->coefficients + s->n_coefficients, s->widths[i]);
        s->n_coefficients += s->widths[i];
    }
}

static void read_states(FILE *file, Sentence *s) {
    size_t record = 2 * (size_t)s->windows * s->v + 1;
    s->labels = room_for(s->states, sizeof *s->labels);
    s->means = room_for(s->states, sizeof *s->means);
    s->varis = room_for(s->states, sizeof *s->varis);
    s->switches = room_for(s->states, sizeof *s->switches);
    s->n_records = s->states * record;
    s->records = room_for(s->n_records, sizeof *s->records);
    for (uint32_t i = 0; i < s->states; i++) {
        if (fscanf(file, "%31s %lf %lf %" SCNu8, s->labels[i], &s->means[i], &s->varis[i],
                   &s->switches[i]) != 4)
            fail("the sentence", "a state is missing");
        read_numbers(file, s->records + i * record, record);
    }
}

static Sentence read_sentence(const char *name) {
    Sentence s = {0};
    FILE *file = fopen(name, "r");
    if (!file) fail(name, "can't be opened");
    read_head(file, &s);
    read_windows(file, &s);
    read_states(file, &s);
    fclose(file);
    return s;
}

static void free_sentence(Sentence *s) {
    free(s->labels);
    free(s->means);
    free(s->varis);
    free(s->switches);
    free(s->records);
}

/* An editor's ends. */
typedef struct {
    double *times; /* one a label; null where no ends are asked for */
    uint32_t labels, given;
    uint32_t natural; /* states after the last given end */
} Ends;

static _Noreturn void fail_at(uint32_t label, const char *word, const char *wanted) {
    fprintf(stderr, "sentence: the ends: label %" PRIu32 ": %s instead of %s\n", label, word,
            wanted);
    exit(1);
}

/* The end of a label, whose first state in the sentence is named. */
static double read_end(FILE *file, uint32_t label, const char *state) {
    char name[WORD_ROOM], first[WORD_ROOM + 2], word[WORD_ROOM], *rest;
    if (fscanf(file, "%31s %31s", name, word) != 2)
        fail("the ends", "fewer than the sentence's labels");
    snprintf(first, sizeof first, "%s.1", name);
    if (strcmp(first, state) != 0) fail_at(label, first, state);
    if (strcmp(word, "open") == 0) return HEJMIROV_OPEN_END;
    double time = strtod(word, &rest);
    if (*rest != 0 || !(time >= 0)) fail_at(label, word, "a time or open");
    return time;
}

static Ends read_ends(const char *name, const Sentence *s) {
    Ends e = {.labels = s->states / STATES_A_LABEL, .natural = s->states};
    FILE *file = fopen(name, "r");
    if (!file) fail(name, "can't be opened");
    e.times = room_for(e.labels, sizeof *e.times);
    for (uint32_t label = 0; label < e.labels; label++) {
        e.times[label] = read_end(file, label, s->labels[label * STATES_A_LABEL]);
        if (e.times[label] < 0) continue;
        e.given++;
        e.natural = s->states - (label + 1) * STATES_A_LABEL;
    }
    char more[2];
    if (fscanf(file, "%1s", more) == 1) fail("the ends", "more than the sentence's labels");
    fclose(file);
    return e;
}

/* The shortest durations of so many states, to be freed: one frame each, as no state needs more. */
static uint32_t *ones(size_t states) {
    uint32_t *shortest = room_for(states, sizeof *shortest);
    for (size_t i = 0; i < states; i++) shortest[i] = 1;
    return shortest;
}

/* One duration a state, to be freed. */
static uint32_t *durations_of(const Sentence *s, const Ends *e, uint32_t *changes) {
    uint32_t *durations = room_for(s->states, sizeof *durations);
    uint32_t *work = room_for(s->states, sizeof *work);
    uint32_t *shortest = ones(s->states);
    uint32_t written; /* as many as states */
    if (e->times)
        check("align", hejmirov_align(s->means, s->states, s->varis, s->states, shortest, s->states,
                                      STATES_A_LABEL, e->times, e->labels, durations, s->states,
                                      work, s->states, &written, changes));
    else
        check("fit", hejmirov_fit(s->means, s->states, s->varis, s->states, shortest, s->states,
                                  s->length, durations, s->states, work, s->states, changes));
    free(work);
    free(shortest);
    return durations;
}

typedef struct {
    uint32_t *voiced, *left, *right, frames;
} Mask;

static Mask mask(const Sentence *s, const uint32_t *durations, uint32_t frames) {
    size_t size = sizeof(uint32_t);
    Mask m = {room_for(frames, size), room_for(frames, size), room_for(frames, size), 0};
    size_t record = s->n_records / (s->states ? s->states : 1);
    double *weights = room_for(s->states, sizeof *weights);
    for (uint32_t i = 0; i < s->states; i++) weights[i] = s->records[i * record + record - 1];
    check("mask", hejmirov_mask(weights, s->states, s->threshold, durations, s->states, m.voiced,
                                frames, m.left, frames, m.right, frames, &m.frames));
    free(weights);
    return m;
}

/* frames x v numbers, to be freed. */
static double *render(const Sentence *s, const uint32_t *durations, uint32_t frames, bool gv_on) {
    size_t n_out = (size_t)frames * s->v;
    size_t n_work = (size_t)frames * HEJMIROV_WORK_FLOATS_A_FRAME;
    size_t n_marks = (size_t)frames * HEJMIROV_WORK_MARKS_A_FRAME;
    double *out = room_for(n_out, sizeof *out);
    double *work = room_for(n_work, sizeof *work);
    uint32_t *marks = room_for(n_marks, sizeof *marks);
    uint32_t high, low; /* clamped pairs, which clamps.c is about */
    check("trajectory",
          hejmirov_trajectory(s->v, 1, s->threshold, s->fill, gv_on, s->gv_weight, s->widths,
                              s->windows, s->coefficients, s->n_coefficients, s->records,
                              s->n_records, durations, s->states, s->gv, 2 * (size_t)s->v,
                              s->switches, s->states, out, n_out, work, n_work, marks, n_marks,
                              &high, &low));
    free(work);
    free(marks);
    return out;
}

static uint64_t bits_of(double number) {
    uint64_t bits;
    memcpy(&bits, &number, sizeof bits);
    return bits;
}

/* The FNV-1a sum of the numbers' bytes, as they stand in the spool: every bit counts. */
static uint64_t sum_of(const double *numbers, size_t count) {
    uint64_t sum = 0xcbf29ce484222325u;
    for (size_t i = 0; i < count; i++)
        for (int byte = 0; byte < 8; byte++)
            sum = (sum ^ (bits_of(numbers[i]) >> 8 * byte & 0xff)) * 0x100000001b3u;
    return sum;
}

/* From which to which number a stream's first component goes in voiced frames. */
static void print_range(const char *name, const Mask *m, const double *trajectory, uint32_t v) {
    double least = 0, most = 0;
    bool any = false;
    for (uint32_t t = 0; t < m->frames; t++) {
        double number = trajectory[(size_t)t * v];
        if (!m->voiced[t]) continue;
        if (!any || number < least) least = number;
        if (!any || number > most) most = number;
        any = true;
    }
    printf("%s: component 0 from %.6f to %.6f\n", name, least, most);
}

/* One state's part of the trajectory, and where its first frame stands in the spool. */
static void print_excerpt(const Sentence *s, const uint32_t *durations, const double *rendered,
                          size_t n_rendered) {
    uint64_t first, count, place;
    check("excerpt", hejmirov_excerpt(rendered, n_rendered, durations, s->states, s->v,
                                      CHOSEN_STATE, &first, &count));
    uint32_t frame = (uint32_t)(first / s->v);
    check("place", hejmirov_place(frame, 0, s->v, &place));
    printf("state %d, %s: %" PRIu64 " numbers from %" PRIu64 " on\n", CHOSEN_STATE,
           s->labels[CHOSEN_STATE], count, first);
    printf("its first frame: %" PRIu32 ", at byte %" PRIu64 " of the spool\n", frame, place);
    for (uint64_t i = first; i < first + count && i < first + s->v; i++)
        printf("component %" PRIu64 ": %.6f, bits %016" PRIx64 "\n", i - first, rendered[i],
               bits_of(rendered[i]));
}

static void print_durations(const Sentence *s, const Ends *e, const uint32_t *durations,
                            uint32_t frames, uint32_t changes) {
    printf("sentence: %" PRIu32 " states, %" PRIu32 " numbers a frame, %" PRIu32 " windows\n",
           s->states, s->v, s->windows);
    if (e->times)
        printf("aligned to %" PRIu32 " ends: %" PRIu32 " frames, %" PRIu32
               " changes, the last %" PRIu32 " states natural\n",
               e->given, frames, changes, e->natural);
    else
        printf("fit to %.1f: %" PRIu32 " frames, %" PRIu32 " changes\n", s->length, frames,
               changes);
    printf("durations:");
    for (uint32_t i = 0; i < s->states; i++) printf(" %" PRIu32, durations[i]);
    printf("\n");
}

static void print_report(const Sentence *s, const uint32_t *durations, const Mask *m,
                         const double *plain, const double *rendered) {
    size_t n_rendered = (size_t)m->frames * s->v;
    uint32_t voiced = 0, runs = 0;
    for (uint32_t t = 0; t < m->frames; t++) {
        voiced += m->voiced[t];
        runs += m->voiced[t] && m->left[t] == 0;
    }
    printf("mask: %" PRIu32 " voiced frames in %" PRIu32 " runs\n", voiced, runs);
    printf("trajectory: %zu numbers, sum %016" PRIx64 "\n", n_rendered,
           sum_of(rendered, n_rendered));
    print_range("without global variance", m, plain, s->v);
    print_range("with global variance", m, rendered, s->v);
    print_excerpt(s, durations, rendered, n_rendered);
}

static void print_frames(const Sentence *s, const uint32_t *durations, const Mask *m,
                         const double *plain, const double *rendered) {
    printf("frame\tstate\tlabel\tvoiced\tplain\trendered\n");
    uint32_t t = 0;
    for (uint32_t i = 0; i < s->states; i++)
        for (uint32_t k = 0; k < durations[i]; k++, t++)
            printf("%" PRIu32 "\t%" PRIu32 "\t%s\t%" PRIu32 "\t%.9f\t%.9f\n", t, i, s->labels[i],
                   m->voiced[t], plain[(size_t)t * s->v], rendered[(size_t)t * s->v]);
}

int main(int argc, char **argv) {
    int words = 2; /* the program's name and FILE */
    const char *ends_name = NULL;
    if (words + 1 < argc && strcmp(argv[words], "--ends") == 0) {
        ends_name = argv[words + 1];
        words += 2;
    }
    bool frames_asked = words < argc && strcmp(argv[words], "--frames") == 0;
    if (argc != words + frames_asked) {
        fputs("usage: sentence FILE [--ends ENDS] [--frames]\n", stderr);
        return 2;
    }
    Sentence s = read_sentence(argv[1]);
    Ends e = {0};
    if (ends_name) e = read_ends(ends_name, &s);
    uint32_t changes, frames = 0;
    uint32_t *durations = durations_of(&s, &e, &changes);
    for (uint32_t i = 0; i < s.states; i++) frames += durations[i];
    Mask m = mask(&s, durations, frames);
    double *plain = render(&s, durations, frames, false);
    double *rendered = render(&s, durations, frames, true);
    if (frames_asked) {
        print_frames(&s, durations, &m, plain, rendered);
    } else {
        print_durations(&s, &e, durations, frames, changes);
        print_report(&s, durations, &m, plain, rendered);
    }
    free(plain);
    free(rendered);
    free(m.voiced);
    free(m.left);
    free(m.right);
    free(durations);
    free(e.times);
    free_sentence(&s);
    return 0;
}
