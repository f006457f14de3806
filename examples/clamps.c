/* Counts the pairs of a stream that are clamped, for a builder of voices.

   usage: clamps FILE

   It says how many frames are voiced, how many pairs of a mean and a variance these have, and how
   many of them were clamped high and low, with their share of all pairs; then it prints a table of
   the states that have such pairs. FILE is variances.txt; README.md says what stands in it.
   clamps.rs does the same and prints the same text. */

#include <inttypes.h>
#include <stdbool.h>
#include <stdio.h>
#include <stdlib.h>
#include <string.h>

#include "hejmirov.h"

static const char SPACES[] = " \t\r\f";

/* What is left of a file, and the words of the line that was taken last. */
typedef struct {
    char *text; /* null behind the last line */
    size_t line, count;
    char **words;
} Lines;

typedef struct {
    uint32_t v, windows;
    double threshold;
    uint32_t widths[HEJMIROV_MAX_WINDOWS];
    double *coefficients;
    size_t n_coefficients;
    size_t states;
    char **labels;
    uint32_t *durations;
    double *weights, *records;
} Stream;

typedef struct {
    uint32_t high, low;
} Clamped;

static _Noreturn void fail(const char *what, const char *why) {
    fprintf(stderr, "clamps: %s: %s\n", what, why);
    exit(1);
}

static _Noreturn void fail_at(size_t line, const char *why) {
    fprintf(stderr, "clamps: line %zu: %s\n", line, why);
    exit(1);
}

static _Noreturn void fail_instead(size_t line, const char *word, const char *wanted) {
    fprintf(stderr, "clamps: line %zu: %s instead of %s\n", line, word, wanted);
    exit(1);
}

/* Ends the program where a call refused. */
static void check(uint32_t refusal) {
    if (refusal == HEJMIROV_ACCEPTED) return;
    fprintf(stderr, "clamps: refused %" PRIu32 ": %s\n", refusal, hejmirov_refusal_text(refusal));
    exit(1);
}

/* The room that there was, or none, made to hold so many. */
static void *more_room(void *room, size_t count, size_t size) {
    room = realloc(room, (count ? count : 1) * size);
    if (!room) fail("memory", "there isn't enough");
    return room;
}

/* A whole file, to be freed, with a zero behind it. */
static char *text_of(const char *name) {
    char *bytes = NULL;
    size_t count = 0, room = 0;
    FILE *file = fopen(name, "rb");
    if (!file) fail(name, "can't be read");
    do {
        room = 2 * room + 4096;
        bytes = more_room(bytes, room + 1, 1);
        count += fread(bytes + count, 1, room - count, file);
    } while (count == room);
    if (ferror(file)) fail(name, "can't be read");
    fclose(file);
    bytes[count] = 0;
    if (strlen(bytes) != count) fail(name, "a zero byte stands there");
    return bytes;
}

/* Takes the next line that has words, a comment left out; false where there is none. */
static bool next_line(Lines *l) {
    for (l->count = 0; l->text && l->count == 0; l->line++) {
        char *text = l->text;
        l->text = strchr(text, '\n');
        if (l->text) *l->text++ = 0;
        for (char *word = strtok(text, SPACES); word && *word != '#'; word = strtok(NULL, SPACES)) {
            l->words = more_room(l->words, l->count + 1, sizeof *l->words);
            l->words[l->count++] = word;
        }
    }
    return l->count > 0;
}

/* A word of digits alone. */
static bool is_whole(const char *word, uint32_t *number) {
    unsigned long long whole = strtoull(word, NULL, 10);
    *number = (uint32_t)whole;
    return word[strspn(word, "0123456789")] == 0 && whole <= UINT32_MAX;
}

/* Word number `at` as any double, in decimal; infinities and NaN too. */
static double number_at(const Lines *l, size_t at, const char *wanted) {
    char *rest, *word = l->words[at];
    double number = strtod(word, &rest);
    if (*rest != 0 || word[strspn(word, "+-.0123456789aefintyAEFINTY")] != 0)
        fail_instead(l->line, word, wanted);
    return number;
}

static void read_head(Lines *l, Stream *s) {
    if (!next_line(l)) fail("the file", "it ends before v, threshold and windows");
    char **words = l->words;
    if (l->count != 6 || strcmp(words[0], "v") != 0 || strcmp(words[2], "threshold") != 0 ||
        strcmp(words[4], "windows") != 0)
        fail_at(l->line, "v, threshold and windows should stand there, each with its number");
    if (!is_whole(words[1], &s->v) || s->v < 1 || s->v > HEJMIROV_MAX_V)
        fail_instead(l->line, words[1], "v, 1 to 64");
    s->threshold = number_at(l, 3, "a threshold");
    if (!is_whole(words[5], &s->windows) || s->windows < 1 || s->windows > HEJMIROV_MAX_WINDOWS)
        fail_instead(l->line, words[5], "a number of windows, 1 to 4");
}

static void read_windows(Lines *l, Stream *s) {
    for (uint32_t i = 0; i < s->windows; i++) {
        if (!next_line(l)) fail("the file", "it ends before its last window");
        if (!is_whole(l->words[0], &s->widths[i]) || l->count - 1 != s->widths[i])
            fail_at(l->line, "a number of coefficients, and so many of them, should stand there");
        s->coefficients = more_room(s->coefficients, s->n_coefficients + s->widths[i],
                                    sizeof *s->coefficients);
        for (size_t at = 1; at < l->count; at++)
            s->coefficients[s->n_coefficients++] = number_at(l, at, "a coefficient");
    }
}

/* Pairs of a voiced frame. */
static size_t pairs_of(const Stream *s) {
    return (size_t)s->windows * s->v;
}

/* Numbers of a state's record: means, variances, the voicing weight. */
static size_t record_of(const Stream *s) {
    return 2 * pairs_of(s) + 1;
}

/* The means are all 0, as the counts don't depend on them. */
static void read_state(const Lines *l, Stream *s) {
    size_t pairs = pairs_of(s), state = s->states;
    if (l->count != 3 + pairs) {
        fprintf(stderr,
                "clamps: line %zu: a label, frames, a weight and %zu variances should stand "
                "there\n",
                l->line, pairs);
        exit(1);
    }
    s->labels = more_room(s->labels, state + 1, sizeof *s->labels);
    s->durations = more_room(s->durations, state + 1, sizeof *s->durations);
    s->weights = more_room(s->weights, state + 1, sizeof *s->weights);
    s->records = more_room(s->records, (state + 1) * record_of(s), sizeof *s->records);
    s->labels[state] = l->words[0];
    if (!is_whole(l->words[1], &s->durations[state]))
        fail_instead(l->line, l->words[1], "a number of frames");
    s->weights[state] = number_at(l, 2, "a weight");
    double *record = s->records + state * record_of(s);
    for (size_t pair = 0; pair < pairs; pair++) {
        record[pair] = 0;
        record[pairs + pair] = number_at(l, 3 + pair, "a variance");
    }
    record[2 * pairs] = s->weights[state];
    s->states++;
}

/* The labels stay in the text. */
static Stream read_stream(char *text) {
    Stream s = {0};
    Lines l = {.text = text};
    read_head(&l, &s);
    read_windows(&l, &s);
    /* Of no states, too: to a null pointer nothing may be added. */
    s.durations = more_room(NULL, 0, sizeof *s.durations);
    s.records = more_room(NULL, 0, sizeof *s.records);
    while (next_line(&l)) read_state(&l, &s);
    free(l.words);
    return s;
}

/* The durations' total; more than a call takes is refused before room is looked at. */
static size_t frames_of(const uint32_t *durations, size_t states) {
    uint64_t frames = 0;
    for (size_t i = 0; i < states; i++) frames += durations[i];
    return frames > HEJMIROV_MAX_FRAMES ? 0 : (size_t)frames;
}

/* The counts of so many states from the first on. */
static Clamped clamped_of(const Stream *s, size_t first, size_t states) {
    const uint32_t *durations = s->durations + first;
    size_t frames = frames_of(durations, states), record = record_of(s), n_out = frames * s->v;
    size_t n_work = frames * HEJMIROV_WORK_FLOATS_A_FRAME;
    size_t n_marks = frames * HEJMIROV_WORK_MARKS_A_FRAME;
    double *out = more_room(NULL, n_out, sizeof *out);
    double *work = more_room(NULL, n_work, sizeof *work);
    uint32_t *marks = more_room(NULL, n_marks, sizeof *marks);
    Clamped c;
    check(hejmirov_trajectory(s->v, 1, s->threshold, 0.0, 0, 0.0, s->widths, s->windows,
                              s->coefficients, s->n_coefficients, s->records + first * record,
                              states * record, durations, states, NULL, 0, NULL, 0, out, n_out,
                              work, n_work, marks, n_marks, &c.high, &c.low));
    free(out);
    free(work);
    free(marks);
    return c;
}

static uint32_t voiced_of(const Stream *s) {
    size_t room = frames_of(s->durations, s->states);
    uint32_t *voiced = more_room(NULL, room, sizeof *voiced);
    uint32_t *left = more_room(NULL, room, sizeof *left);
    uint32_t *right = more_room(NULL, room, sizeof *right);
    uint32_t frames, count = 0;
    check(hejmirov_mask(s->weights, s->states, s->threshold, s->durations, s->states, voiced, room,
                        left, room, right, room, &frames));
    for (uint32_t t = 0; t < frames; t++) count += voiced[t];
    free(voiced);
    free(left);
    free(right);
    return count;
}

/* The share is in percent, to the nearest hundredth, halves up; of no pairs there is none. */
static void print_count(const char *name, uint32_t count, uint64_t pairs) {
    printf("clamped %s: %" PRIu32 " of %" PRIu64 " pairs, ", name, count, pairs);
    if (pairs == 0) {
        printf("no share\n");
        return;
    }
    uint64_t hundredths = (20000 * (uint64_t)count + pairs) / (2 * pairs);
    printf("%" PRIu64 ".%02" PRIu64 "%%\n", hundredths / 100, hundredths % 100);
}

static void print_stream(const Stream *s, Clamped all) {
    uint32_t voiced = voiced_of(s);
    uint64_t pairs = (uint64_t)voiced * pairs_of(s);
    printf("stream: %zu states, %zu frames, %" PRIu32 " numbers a frame, %" PRIu32 " windows\n",
           s->states, frames_of(s->durations, s->states), s->v, s->windows);
    printf("voiced: %" PRIu32 " frames, %" PRIu64 " pairs\n", voiced, pairs);
    print_count("high", all.high, pairs);
    print_count("low", all.low, pairs);
}

/* Counts are sums over the states, so that a state's own are those of the state alone. */
static void print_states(const Stream *s) {
    printf("state\tlabel\tframes\thigh\tlow\n");
    for (size_t i = 0; i < s->states; i++) {
        Clamped own = clamped_of(s, i, 1);
        if (own.high == 0 && own.low == 0) continue;
        printf("%zu\t%s\t%" PRIu32 "\t%" PRIu32 "\t%" PRIu32 "\n", i, s->labels[i],
               s->durations[i], own.high, own.low);
    }
}

int main(int argc, char **argv) {
    if (argc != 2) {
        fputs("usage: clamps FILE\n", stderr);
        return 2;
    }
    char *text = text_of(argv[1]);
    Stream s = read_stream(text);
    print_stream(&s, clamped_of(&s, 0, s.states));
    print_states(&s);
    if (fflush(stdout) != 0) fail("standard output", "can't be written");
    free(s.coefficients);
    free(s.labels);
    free(s.durations);
    free(s.weights);
    free(s.records);
    free(text);
    return 0;
}
