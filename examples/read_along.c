/* Times the words of a sentence, for a text that is read along.

   usage: read_along SENTENCE WORDS [--ral FILE] [--vtt]

   It fits the sentence to its length and prints a table: each word, the millisecond from which it
   sounds, and the one to which. With --vtt it prints a WebVTT file, which a browser plays beside
   the sound. With --ral it writes the timing file FILE first, reads it back, and takes the times
   from there. SENTENCE is sentence.txt and WORDS words.txt; README.md says what stands in them.
   read_along.rs does the same and prints the same text. */

#include <inttypes.h>
#include <stdbool.h>
#include <stdio.h>
#include <stdlib.h>
#include <string.h>

#include "hejmirov.h"

enum { STATES_A_LABEL = 3 };

/* A word of this text is a silence. */
static const char SILENCE[] = "-";

static const char SPACES[] = " \t\r\f";

typedef struct {
    uint32_t states;
    double length, *means, *varis;
} Sentence;

typedef struct {
    char *bytes; /* the file, in which the texts stand */
    size_t count;
    char **texts;
    uint32_t *labels; /* how many each word has */
} Words;

static _Noreturn void fail(const char *what, const char *why) {
    fprintf(stderr, "read_along: %s: %s\n", what, why);
    exit(1);
}

/* Ends the program where a call refused. */
static void check(uint32_t refusal) {
    if (refusal == HEJMIROV_ACCEPTED) return;
    fprintf(stderr, "read_along: refused %" PRIu32 ": %s\n", refusal,
            hejmirov_refusal_text(refusal));
    exit(1);
}

/* The same of a call of words, which has numbers and texts of its own. */
static void check_words(uint32_t refusal) {
    if (refusal == HEJMIROV_ACCEPTED) return;
    fprintf(stderr, "read_along: words: refused %" PRIu32 ": %s\n", refusal,
            hejmirov_words_refusal_text(refusal));
    exit(1);
}

/* The room that there was, or none, made to hold so many. */
static void *more_room(void *room, size_t count, size_t size) {
    room = realloc(room, (count ? count : 1) * size);
    if (!room) fail("memory", "there isn't enough");
    return room;
}

/* A whole file, to be freed, with a zero behind it. */
static char *bytes_of(const char *name, size_t *count) {
    char *bytes = NULL;
    size_t room = 0;
    FILE *file = fopen(name, "rb");
    if (!file) fail(name, "can't be read");
    *count = 0;
    do {
        room = 2 * room + 4096;
        bytes = more_room(bytes, room + 1, 1);
        *count += fread(bytes + *count, 1, room - *count, file);
    } while (*count == room);
    if (ferror(file)) fail(name, "can't be read");
    fclose(file);
    bytes[*count] = 0;
    return bytes;
}

static double read_number(FILE *file) {
    double number;
    if (fscanf(file, "%lf", &number) != 1) fail("the sentence", "a number is missing");
    return number;
}

static void skip_numbers(FILE *file, size_t count) {
    while (count-- > 0) read_number(file);
}

/* Reads what stands before the states; answers how many numbers a record has. */
static size_t read_head(FILE *file, Sentence *s) {
    uint32_t v, windows, width;
    double other;
    if (fscanf(file, "states %" SCNu32 " v %" SCNu32 " length %lf", &s->states, &v,
               &s->length) != 3 ||
        fscanf(file, " threshold %lf fill %lf gv_weight %lf gv", &other, &other, &other) != 3 ||
        s->states > HEJMIROV_MAX_STATES || v > HEJMIROV_MAX_V)
        fail("the sentence", "its first lines are not as they should be");
    skip_numbers(file, 2 * (size_t)v);
    if (fscanf(file, " windows %" SCNu32, &windows) != 1 || windows > HEJMIROV_MAX_WINDOWS)
        fail("the sentence", "no windows, or too many");
    for (uint32_t i = 0; i < windows; i++) {
        if (fscanf(file, "%" SCNu32, &width) != 1 || width > HEJMIROV_MAX_WIDTH)
            fail("the sentence", "a window is missing or too long");
        skip_numbers(file, width);
    }
    return 2 * (size_t)windows * v + 1;
}

/* The durations' means and variances alone: nothing is rendered. */
static Sentence read_sentence(const char *name) {
    Sentence s = {0};
    FILE *file = fopen(name, "r");
    if (!file) fail(name, "can't be read");
    size_t record = read_head(file, &s);
    s.means = more_room(NULL, s.states, sizeof *s.means);
    s.varis = more_room(NULL, s.states, sizeof *s.varis);
    for (uint32_t i = 0; i < s.states; i++) {
        if (fscanf(file, "%*s %lf %lf", &s.means[i], &s.varis[i]) != 2)
            fail("the sentence", "a state is missing");
        skip_numbers(file, 1 + record); /* the switch of global variance, and the record */
    }
    fclose(file);
    return s;
}

static _Noreturn void fail_at(size_t line, const char *word, const char *why) {
    fprintf(stderr, "read_along: the words: line %zu: %s%s\n", line, word, why);
    exit(1);
}

static uint32_t read_labels(const char *word, size_t line) {
    unsigned long long labels = strtoull(word, NULL, 10);
    if (word[strspn(word, "0123456789")] != 0 || labels > UINT32_MAX)
        fail_at(line, word, " instead of a number of labels");
    return (uint32_t)labels;
}

/* A line has a word and its number of labels, or nothing. */
static void read_line(Words *w, char *text, size_t line) {
    char *word = strtok(text, SPACES);
    if (!word) return;
    char *labels = strtok(NULL, SPACES);
    if (!labels || strtok(NULL, SPACES))
        fail_at(line, "", "a word and its number of labels should stand there");
    w->texts = more_room(w->texts, w->count + 1, sizeof *w->texts);
    w->labels = more_room(w->labels, w->count + 1, sizeof *w->labels);
    w->texts[w->count] = word;
    w->labels[w->count] = read_labels(labels, line);
    w->count++;
}

static Words read_words(const char *name) {
    Words w = {0};
    size_t n_bytes, line = 1;
    w.bytes = bytes_of(name, &n_bytes);
    if (strlen(w.bytes) != n_bytes) fail("the words", "a zero byte stands there");
    for (char *text = w.bytes, *next; text; text = next, line++) {
        next = strchr(text, '\n');
        if (next) *next++ = 0;
        read_line(&w, text, line);
    }
    return w;
}

/* The shortest durations of so many states, to be freed: one frame each, as no state needs more. */
static uint32_t *ones(size_t states) {
    uint32_t *shortest = more_room(NULL, states, sizeof *shortest);
    for (size_t i = 0; i < states; i++) shortest[i] = 1;
    return shortest;
}

/* One duration a state, to be freed. */
static uint32_t *durations_of(const Sentence *s) {
    uint32_t *durations = more_room(NULL, s->states, sizeof *durations);
    uint32_t *work = more_room(NULL, s->states, sizeof *work);
    uint32_t *shortest = ones(s->states);
    uint32_t changes;
    check(hejmirov_fit(s->means, s->states, s->varis, s->states, shortest, s->states, s->length,
                       durations, s->states, work, s->states, &changes));
    free(work);
    free(shortest);
    return durations;
}

/* Two numbers a word, to be freed: from which millisecond it sounds, and to which. */
static uint32_t *times_of(const Words *w, const Sentence *s, const uint32_t *durations) {
    uint32_t *times = more_room(NULL, 2 * w->count, sizeof *times);
    uint32_t refusal = hejmirov_words_milliseconds(w->labels, w->count, STATES_A_LABEL, durations,
                                                   s->states, times, 2 * w->count);
    if (refusal == HEJMIROV_WORDS_LABELS_DISAGREE) {
        uint64_t labels = 0;
        for (size_t i = 0; i < w->count; i++) labels += w->labels[i];
        fprintf(stderr,
                "read_along: the words have %" PRIu64 " labels of %d states, and the sentence has "
                "%" PRIu32 " states\n",
                labels, STATES_A_LABEL, s->states);
        exit(1);
    }
    check_words(refusal);
    return times;
}

static void write_timing(const Words *w, const Sentence *s, const uint32_t *durations,
                         const char *name) {
    size_t n_bytes = HEJMIROV_TIMING_HEAD_BYTES + HEJMIROV_TIMING_WORD_BYTES * w->count;
    uint8_t *bytes = more_room(NULL, n_bytes, 1);
    uint64_t written;
    check_words(hejmirov_words_write(w->labels, w->count, STATES_A_LABEL, durations, s->states,
                                     bytes, n_bytes, &written));
    FILE *file = fopen(name, "wb");
    if (!file) fail(name, "can't be written");
    size_t done = fwrite(bytes, 1, (size_t)written, file);
    if (fclose(file) != 0 || done != written) fail(name, "can't be written");
    free(bytes);
}

/* The times that a timing file says, to be freed; they must be those that were worked out. */
static uint32_t *read_timing(const char *name, const uint32_t *times, size_t count) {
    size_t n_bytes;
    uint32_t words, *spans = more_room(NULL, 2 * count, sizeof *spans);
    char *bytes = bytes_of(name, &n_bytes);
    check_words(hejmirov_words_read((const uint8_t *)bytes, n_bytes, spans, 2 * count, &words));
    for (size_t i = 0; i < 2 * (size_t)words; i++) spans[i] *= HEJMIROV_MILLISECONDS_A_FRAME;
    if (words != count || memcmp(spans, times, 2 * count * sizeof *spans) != 0)
        fail(name, "says other times than were written");
    free(bytes);
    return spans;
}

static void print_table(const Words *w, const uint32_t *times) {
    printf("word\tfrom_ms\tto_ms\n");
    for (size_t i = 0; i < w->count; i++)
        printf("%s\t%" PRIu32 "\t%" PRIu32 "\n", w->texts[i], times[2 * i], times[2 * i + 1]);
}

/* Hours, minutes, seconds and milliseconds. */
static void print_time(uint32_t ms) {
    printf("%02" PRIu32 ":%02" PRIu32 ":%02" PRIu32 ".%03" PRIu32, ms / 3600000, ms / 60000 % 60,
           ms / 1000 % 60, ms % 1000);
}

/* The three characters that WebVTT would take for its own. */
static void print_escaped(const char *text) {
    for (; *text; text++) {
        if (*text == '&') fputs("&amp;", stdout);
        else if (*text == '<') fputs("&lt;", stdout);
        else if (*text == '>') fputs("&gt;", stdout);
        else putchar(*text);
    }
}

/* A cue for each word that sounds and is no silence. */
static void print_vtt(const Words *w, const uint32_t *times) {
    printf("WEBVTT\n");
    for (size_t i = 0; i < w->count; i++) {
        if (times[2 * i] == times[2 * i + 1] || strcmp(w->texts[i], SILENCE) == 0) continue;
        printf("\n");
        print_time(times[2 * i]);
        printf(" --> ");
        print_time(times[2 * i + 1]);
        printf("\n");
        print_escaped(w->texts[i]);
        printf("\n");
    }
}

int main(int argc, char **argv) {
    int words = 3; /* the program's name, SENTENCE and WORDS */
    const char *ral_name = NULL;
    if (words + 1 < argc && strcmp(argv[words], "--ral") == 0) {
        ral_name = argv[words + 1];
        words += 2;
    }
    bool vtt_asked = words < argc && strcmp(argv[words], "--vtt") == 0;
    if (argc != words + vtt_asked) {
        fputs("usage: read_along SENTENCE WORDS [--ral FILE] [--vtt]\n", stderr);
        return 2;
    }
    Sentence s = read_sentence(argv[1]);
    Words w = read_words(argv[2]);
    uint32_t *durations = durations_of(&s);
    uint32_t *times = times_of(&w, &s, durations);
    if (ral_name) {
        write_timing(&w, &s, durations, ral_name);
        uint32_t *read = read_timing(ral_name, times, w.count);
        free(times);
        times = read;
    }
    (vtt_asked ? print_vtt : print_table)(&w, times);
    if (fflush(stdout) != 0) fail("standard output", "can't be written");
    free(times);
    free(durations);
    free(w.bytes);
    free(w.texts);
    free(w.labels);
    free(s.means);
    free(s.varis);
    return 0;
}
