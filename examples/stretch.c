/* Renders one stretch of a sentence anew, and not the whole sentence, where a listener has flagged
   a frame of it.

   usage: stretch [FRAME]

   A sentence is made up and rendered. FRAME, 222 where it is not given, is the frame that was
   flagged: the voiced run that it lies in is found, rendered alone, and held to the sentence's
   numbers. Then the state that sounds there gets another mean, as one that was recorded anew; the
   run is rendered alone again and put in its place, and all numbers are held to those of the whole
   sentence, rendered anew. A table of the runs is printed, and what each rendering took. stretch.rs
   does the same and prints the same text.

   Zeros of either sign are the same here: that is what is promised, where the numbers are finite
   and no run ends in a zero; hejmirov_run has it to the letter. */

#include <inttypes.h>
#include <stdbool.h>
#include <stdio.h>
#include <stdlib.h>
#include <string.h>

#include "hejmirov.h"

/* "Keep the text as it stands". */
static const struct {
    const char *name;
    bool is_voiced;
} PHONES[] = {
    {"pau", false}, {"k", false}, {"iy", true}, {"p", false}, {"dh", true}, {"ax", true},
    {"t", false},   {"eh", true}, {"k", false}, {"s", false}, {"t", false}, {"ae", true},
    {"z", true},    {"ih", true}, {"t", false}, {"s", false}, {"t", false}, {"ae", true},
    {"n", true},    {"d", true},  {"z", true},  {"pau", false},
};

enum { PHONE_COUNT = sizeof PHONES / sizeof *PHONES, STATES_A_PHONE = 3 };
enum { STATES = PHONE_COUNT * STATES_A_PHONE, V = 4, WINDOWS = 3 };
enum { PAIRS = WINDOWS * V, RECORD = 2 * PAIRS + 1 };

/* Static, velocity and acceleration. */
static const uint32_t WIDTHS[WINDOWS] = {1, 3, 3};
static const double COEFFICIENTS[] = {1.0, -0.5, 0.0, 0.5, 1.0, -2.0, 1.0};
enum { N_COEFFICIENTS = sizeof COEFFICIENTS / sizeof *COEFFICIENTS };

static const double THRESHOLD = 0.5, FILL = -1e10, RECORDED_ANEW = 0.25;

enum { FLAGGED = 222 };

typedef struct {
    uint32_t durations[STATES];
    double records[STATES * RECORD];
    uint32_t frames;
} Sentence;

typedef struct {
    uint32_t first, frames;
} Run;

/* The numbers of some frames, and the room that the call was lent for them. */
typedef struct {
    double *numbers;
    size_t frames, work, marks;
} Rendered;

/* What there is to say, once all numbers are as they should be. */
typedef struct {
    uint32_t flagged, count, number; /* the frame, how many runs there are, and the frame's */
    Run runs[STATES];
    size_t work[2], marks[2]; /* lent for the run, and for the sentence */
    uint32_t state, first;    /* the state at the frame, and its first one */
    double mean[2];           /* its first mean, before and afterwards */
    double heard[2];          /* the frame's first number, before and afterwards */
} Report;

static _Noreturn void fail(const char *what, const char *why) {
    fprintf(stderr, "stretch: %s: %s\n", what, why);
    exit(1);
}

static _Noreturn void fail_instead(const char *word, const char *wanted) {
    fprintf(stderr, "stretch: %s instead of %s\n", word, wanted);
    exit(1);
}

/* Ends the program where a call refused. */
static void check(uint32_t refusal) {
    if (refusal == HEJMIROV_ACCEPTED) return;
    fprintf(stderr, "stretch: refused %" PRIu32 ": %s\n", refusal, hejmirov_refusal_text(refusal));
    exit(1);
}

static void *room_for(size_t count, size_t size) {
    void *room = malloc((count ? count : 1) * size);
    if (!room) fail("memory", "there isn't enough");
    return room;
}

/* A number from 0 on, below the count: Knuth's linear congruential generator, its upper bits. */
static uint32_t draw(uint64_t *seed, uint32_t count) {
    *seed = *seed * 6364136223846793005u + 1442695040888963407u;
    return (uint32_t)(*seed >> 33) % count;
}

/* A state has 2 to 10 frames, means from 4 to 6 and, of the changes, about 0. */
static void make_up(Sentence *s) {
    uint64_t seed = 1;
    s->frames = 0;
    for (uint32_t i = 0; i < STATES; i++) {
        double *record = s->records + i * RECORD;
        s->durations[i] = 2 + draw(&seed, 9);
        s->frames += s->durations[i];
        for (int c = 0; c < V; c++) record[c] = (400 + draw(&seed, 201)) / 100.0;
        for (int k = V; k < PAIRS; k++) record[k] = ((int)draw(&seed, 101) - 50) / 1000.0;
        for (int k = PAIRS; k < 2 * PAIRS; k++) record[k] = (1 + draw(&seed, 100)) / 1000.0;
        record[2 * PAIRS] = PHONES[i / STATES_A_PHONE].is_voiced ? 0.9 : 0.1;
    }
}

static Rendered room_of(size_t frames) {
    Rendered r = {.frames = frames,
                  .work = frames * HEJMIROV_WORK_FLOATS_A_FRAME,
                  .marks = frames * HEJMIROV_WORK_MARKS_A_FRAME};
    r.numbers = room_for(frames * V, sizeof *r.numbers);
    return r;
}

/* The whole sentence; its numbers are to be freed. */
static Rendered render(const Sentence *s) {
    Rendered r = room_of(s->frames);
    double *work = room_for(r.work, sizeof *work);
    uint32_t *marks = room_for(r.marks, sizeof *marks);
    uint32_t high, low; /* clamped pairs, which clamps.c is about */
    check(hejmirov_trajectory(V, 1, THRESHOLD, FILL, 0, 0.0, WIDTHS, WINDOWS, COEFFICIENTS,
                              N_COEFFICIENTS, s->records, STATES * RECORD, s->durations, STATES,
                              NULL, 0, NULL, 0, r.numbers, r.frames * V, work, r.work, marks,
                              r.marks, &high, &low));
    free(work);
    free(marks);
    return r;
}

/* One run alone, in room for its own frames; its numbers are to be freed. */
static Rendered render_run(const Sentence *s, Run run, uint32_t number) {
    Rendered r = room_of(run.frames);
    double *work = room_for(r.work, sizeof *work);
    uint32_t *marks = room_for(r.marks, sizeof *marks);
    uint32_t frames; /* as many as the run has */
    check(hejmirov_run(V, 1, THRESHOLD, FILL, 0, 0.0, WIDTHS, WINDOWS, COEFFICIENTS, N_COEFFICIENTS,
                       s->records, STATES * RECORD, s->durations, STATES, NULL, 0, NULL, 0, number,
                       r.numbers, r.frames * V, work, r.work, marks, r.marks, &frames));
    free(work);
    free(marks);
    return r;
}

/* The voiced runs, of which there are no more than states; it answers how many there are. */
static uint32_t find_runs(const Sentence *s, Run runs[STATES]) {
    uint32_t numbers[2 * STATES], count;
    check(hejmirov_runs(V, 1, THRESHOLD, WINDOWS, s->records, STATES * RECORD, s->durations, STATES,
                        numbers, 2 * STATES, &count));
    for (uint32_t k = 0; k < count; k++) runs[k] = (Run){numbers[2 * k], numbers[2 * k + 1]};
    return count;
}

static bool has(Run run, uint32_t frame) {
    return run.first <= frame && frame - run.first < run.frames;
}

/* The run that a frame is in; without one the program ends. */
static uint32_t run_of(const Run *runs, uint32_t count, uint32_t frame) {
    for (uint32_t k = 0; k < count; k++)
        if (has(runs[k], frame)) return k;
    fprintf(stderr, "stretch: frame %" PRIu32 " is in no run: it is unvoiced\n", frame);
    exit(1);
}

/* Ends the program at the first number that is another; the frames are counted from `first`. */
static void hold(const char *what, const double *numbers, const double *wanted, size_t frames,
                 uint32_t first) {
    for (size_t i = 0; i < frames * V; i++) {
        if (numbers[i] == wanted[i]) continue; /* so are zeros of either sign */
        fprintf(stderr, "stretch: %s: another number at frame %zu, component %zu\n", what,
                first + i / V, i % V);
        exit(1);
    }
}

/* The run is rendered alone and held to its part of the sentence. */
static void hold_alone(const Sentence *s, Report *r, const Rendered *sentence) {
    Run run = r->runs[r->number];
    Rendered alone = render_run(s, run, r->number);
    const double *part = sentence->numbers + (size_t)run.first * V;
    hold("the run alone", alone.numbers, part, alone.frames, run.first);
    r->work[0] = alone.work;
    r->work[1] = sentence->work;
    r->marks[0] = alone.marks;
    r->marks[1] = sentence->marks;
    free(alone.numbers);
}

/* The state that sounds at the flagged frame gets another mean. */
static void record_anew(Sentence *s, Report *r) {
    r->state = r->first = 0;
    while (r->flagged - r->first >= s->durations[r->state]) r->first += s->durations[r->state++];
    double *mean = s->records + r->state * RECORD;
    r->mean[0] = *mean;
    *mean += RECORDED_ANEW;
    r->mean[1] = *mean;
}

/* The run is rendered alone and put in its place, and all is held to the sentence rendered anew. */
static void hold_put(const Sentence *s, Report *r, double *sentence) {
    Run run = r->runs[r->number];
    Rendered alone = render_run(s, run, r->number), anew = render(s);
    const double *heard = sentence + (size_t)r->flagged * V;
    r->heard[0] = *heard;
    memcpy(sentence + (size_t)run.first * V, alone.numbers,
           alone.frames * V * sizeof *alone.numbers);
    r->heard[1] = *heard;
    hold("the run in its place", sentence, anew.numbers, anew.frames, 0);
    free(alone.numbers);
    free(anew.numbers);
}

/* When a frame begins, and what follows. */
static void print_seconds(uint32_t frame, const char *rest) {
    uint32_t ms = frame * HEJMIROV_MILLISECONDS_A_FRAME;
    printf("%" PRIu32 ".%03" PRIu32 "%s", ms / 1000, ms % 1000, rest);
}

/* The phones of a run, with spaces between them. */
static void print_phones(const Sentence *s, Run run) {
    const char *space = "";
    for (uint32_t i = 0, frame = 0; i < STATES; frame += s->durations[i++]) {
        if (i % STATES_A_PHONE != 0 || !has(run, frame)) continue;
        printf("%s%s", space, PHONES[i / STATES_A_PHONE].name);
        space = " ";
    }
    printf("\n");
}

static void print_runs(const Sentence *s, const Report *r) {
    printf("sentence: %d states, %" PRIu32 " frames, ", (int)STATES, s->frames);
    print_seconds(s->frames, " s");
    printf(", %d numbers a frame, %" PRIu32 " voiced runs\n", (int)V, r->count);
    printf("run\tfirst_frame\tframes\tfrom_s\tto_s\tflagged\tphones\n");
    for (uint32_t k = 0; k < r->count; k++) {
        Run run = r->runs[k];
        printf("%" PRIu32 "\t%" PRIu32 "\t%" PRIu32 "\t", k, run.first, run.frames);
        print_seconds(run.first, "\t");
        print_seconds(run.first + run.frames, "\t");
        printf("%s\t", k == r->number ? "yes" : "no");
        print_phones(s, run);
    }
    printf("flagged: frame %" PRIu32 ", at ", r->flagged);
    print_seconds(r->flagged, " s");
    printf(", in run %" PRIu32 "\n", r->number);
}

static void print_report(const Sentence *s, const Report *r) {
    print_runs(s, r);
    printf("run %" PRIu32 " alone: %zu numbers compared with the sentence's, all equal\n",
           r->number, (size_t)r->runs[r->number].frames * V);
    printf("work space: %zu floats and %zu marks for the run, %zu and %zu for the sentence\n",
           r->work[0], r->marks[0], r->work[1], r->marks[1]);
    printf("recorded anew: %s.%" PRIu32 ", frames %" PRIu32 " to %" PRIu32
           ", with the first mean %.2f instead of %.2f\n",
           PHONES[r->state / STATES_A_PHONE].name, r->state % STATES_A_PHONE + 1, r->first,
           r->first + s->durations[r->state] - 1, r->mean[1], r->mean[0]);
    printf("frame %" PRIu32 ", component 0: %.6f instead of %.6f\n", r->flagged, r->heard[1],
           r->heard[0]);
    printf("run %" PRIu32 " in its place: %zu numbers compared with the whole sentence's, rendered "
           "anew, all equal\n",
           r->number, (size_t)s->frames * V);
}

/* A word of digits alone. */
static bool is_whole(const char *word, uint32_t *number) {
    unsigned long long whole = strtoull(word, NULL, 10);
    *number = (uint32_t)whole;
    return *word != 0 && word[strspn(word, "0123456789")] == 0 && whole <= UINT32_MAX;
}

int main(int argc, char **argv) {
    static Sentence s;
    Report r = {.flagged = FLAGGED};
    if (argc > 2 || (argc == 2 && argv[1][0] == '-')) {
        fputs("usage: stretch [FRAME]\n", stderr);
        return 2;
    }
    make_up(&s);
    if (argc == 2 && !is_whole(argv[1], &r.flagged)) fail_instead(argv[1], "a frame");
    if (r.flagged >= s.frames) fail_instead(argv[1], "a frame of the sentence");
    Rendered sentence = render(&s);
    r.count = find_runs(&s, r.runs);
    r.number = run_of(r.runs, r.count, r.flagged);
    hold_alone(&s, &r, &sentence);
    record_anew(&s, &r);
    hold_put(&s, &r, sentence.numbers);
    print_report(&s, &r);
    if (fflush(stdout) != 0) fail("standard output", "can't be written");
    free(sentence.numbers);
    return 0;
}
