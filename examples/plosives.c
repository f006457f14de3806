/* Keeps the states of plosives long enough at a higher speed, where they would click.

   usage: plosives FILE [--speed SPEED]

   It prints a table of states: their durations at speed 1, at SPEED, and at SPEED with each state
   kept at its shortest, with the totals of each; and says how many states would be shorter than
   their shortest, and whether the total is the same. SPEED is 2 where it is not given. FILE is
   plosives.txt; README.md says what stands in it. plosives.rs does the same and prints the same
   text. */

#include <inttypes.h>
#include <stdbool.h>
#include <stdio.h>
#include <stdlib.h>
#include <string.h>

#include "hejmirov.h"

static const char SPACES[] = " \t\r\f";

/* Words of a line: phone, state, mean, variance, shortest. */
enum { WORDS = 5 };

typedef struct {
    size_t count;
    char **phones, **names; /* in the text */
    double *means, *varis;  /* of the states' durations */
    uint32_t *shortest, *ones;
} States;

static _Noreturn void fail(const char *what, const char *why) {
    fprintf(stderr, "plosives: %s: %s\n", what, why);
    exit(1);
}

static _Noreturn void fail_instead(size_t line, const char *word, const char *wanted) {
    fprintf(stderr, "plosives: line %zu: %s instead of %s\n", line, word, wanted);
    exit(1);
}

/* Ends the program where a call refused. */
static void check(uint32_t refusal) {
    if (refusal == HEJMIROV_ACCEPTED) return;
    fprintf(stderr, "plosives: refused %" PRIu32 ": %s\n", refusal, hejmirov_refusal_text(refusal));
    exit(1);
}

/* The room that there was, or none, made to hold so many. */
static void *more_room(void *room, size_t count, size_t size) {
    room = realloc(room, (count ? count : 1) * size);
    if (!room) fail("memory", "there isn't enough");
    return room;
}

/* A whole file, to be freed, with a zero behind it. */
static char *text_of(const char *name) {
    char *bytes = NULL;
    size_t count = 0, room = 0;
    FILE *file = fopen(name, "rb");
    if (!file) fail(name, "can't be read");
    do {
        room = 2 * room + 4096;
        bytes = more_room(bytes, room + 1, 1);
        count += fread(bytes + count, 1, room - count, file);
    } while (count == room);
    if (ferror(file)) fail(name, "can't be read");
    fclose(file);
    bytes[count] = 0;
    if (strlen(bytes) != count) fail(name, "a zero byte stands there");
    return bytes;
}

/* A word of digits alone. */
static bool is_whole(const char *word, uint32_t *number) {
    unsigned long long whole = strtoull(word, NULL, 10);
    *number = (uint32_t)whole;
    return word[strspn(word, "0123456789")] == 0 && whole <= UINT32_MAX;
}

/* Any double, in decimal; infinities and NaN too. */
static bool is_number(const char *word, double *number) {
    char *rest;
    *number = strtod(word, &rest);
    return rest != word && *rest == 0 && word[strspn(word, "+-.0123456789aefintyAEFINTY")] == 0;
}

static void read_state(States *s, size_t line, char *const *words) {
    size_t i = s->count++;
    s->phones = more_room(s->phones, s->count, sizeof *s->phones);
    s->names = more_room(s->names, s->count, sizeof *s->names);
    s->means = more_room(s->means, s->count, sizeof *s->means);
    s->varis = more_room(s->varis, s->count, sizeof *s->varis);
    s->shortest = more_room(s->shortest, s->count, sizeof *s->shortest);
    s->ones = more_room(s->ones, s->count, sizeof *s->ones);
    s->phones[i] = words[0];
    s->names[i] = words[1];
    s->ones[i] = 1;
    if (!is_number(words[2], &s->means[i])) fail_instead(line, words[2], "a mean");
    if (!is_number(words[3], &s->varis[i])) fail_instead(line, words[3], "a variance");
    if (!is_whole(words[4], &s->shortest[i]))
        fail_instead(line, words[4], "a shortest duration in frames");
}

/* A state a line, a comment left out. */
static States read_states(char *text) {
    States s = {0};
    for (size_t line = 1; text; line++) {
        char *words[WORDS], *next = strchr(text, '\n');
        size_t count = 0;
        if (next) *next++ = 0;
        char *word = strtok(text, SPACES);
        for (; word && *word != '#'; word = strtok(NULL, SPACES), count++)
            if (count < WORDS) words[count] = word;
        text = next;
        if (count == 0) continue;
        if (count != WORDS) {
            fprintf(stderr, "plosives: line %zu: a phone, a state, a mean, a variance and ", line);
            fprintf(stderr, "a shortest duration should stand there\n");
            exit(1);
        }
        read_state(&s, line, words);
    }
    return s;
}

static void free_states(States *s) {
    free(s->phones);
    free(s->names);
    free(s->means);
    free(s->varis);
    free(s->shortest);
    free(s->ones);
}

/* One duration a state, to be freed. */
static uint32_t *durations_at(const States *s, const uint32_t *shortest, double speed) {
    uint32_t *durations = more_room(NULL, s->count, sizeof *durations);
    uint32_t *work = more_room(NULL, s->count, sizeof *work);
    uint32_t changes;
    check(hejmirov_speed(s->means, s->count, s->varis, s->count, shortest, s->count, speed,
                         durations, s->count, work, s->count, &changes));
    free(work);
    return durations;
}

/* Ends the program where a state has fewer frames than its shortest. */
static void hold(const States *s, const uint32_t *durations) {
    for (size_t i = 0; i < s->count; i++) {
        if (durations[i] >= s->shortest[i]) continue;
        fprintf(stderr, "plosives: %s %s: %" PRIu32 " frames, and its shortest is %" PRIu32 "\n",
                s->phones[i], s->names[i], durations[i], s->shortest[i]);
        exit(1);
    }
}

static uint64_t sum(const uint32_t *numbers, size_t count) {
    uint64_t total = 0;
    for (size_t i = 0; i < count; i++) total += numbers[i];
    return total;
}

static void print_table(const States *s, const uint32_t *natural, const uint32_t *without,
                        const uint32_t *with, const char *speed) {
    printf("phone\tstate\tshortest\tspeed_1\tspeed_%s\tspeed_%s_kept\n", speed, speed);
    for (size_t i = 0; i < s->count; i++)
        printf("%s\t%s\t%" PRIu32 "\t%" PRIu32 "\t%" PRIu32 "\t%" PRIu32 "\n", s->phones[i],
               s->names[i], s->shortest[i], natural[i], without[i], with[i]);
    printf("total\t\t%" PRIu64 "\t%" PRIu64 "\t%" PRIu64 "\t%" PRIu64 "\n",
           sum(s->shortest, s->count), sum(natural, s->count), sum(without, s->count),
           sum(with, s->count));
}

static void print_end(const States *s, const uint32_t *without, const uint32_t *with,
                      const char *speed) {
    size_t too_short = 0;
    for (size_t i = 0; i < s->count; i++) too_short += without[i] < s->shortest[i];
    uint64_t before = sum(without, s->count), after = sum(with, s->count);
    printf("at speed %s, %zu of %zu states would be shorter than their shortest; ", speed,
           too_short, s->count);
    printf("kept at it, none is, and the total is ");
    if (before == after)
        printf("the same, %" PRIu64 " frames\n", after);
    else
        printf("%" PRIu64 " frames instead of %" PRIu64 "\n", after, before);
}

int main(int argc, char **argv) {
    const char *word = "2";
    double speed;
    if (argc == 4 && strcmp(argv[2], "--speed") == 0)
        word = argv[3];
    else if (argc != 2 || argv[1][0] == '-') {
        fputs("usage: plosives FILE [--speed SPEED]\n", stderr);
        return 2;
    }
    if (!is_number(word, &speed)) {
        fprintf(stderr, "plosives: %s instead of a speed\n", word);
        return 1;
    }
    char *text = text_of(argv[1]);
    States s = read_states(text);
    uint32_t *natural = durations_at(&s, s.ones, 1.0);
    uint32_t *without = durations_at(&s, s.ones, speed);
    uint32_t *with = durations_at(&s, s.shortest, speed);
    hold(&s, with);
    print_table(&s, natural, without, with, word);
    print_end(&s, without, with, word);
    if (fflush(stdout) != 0) fail("standard output", "can't be written");
    free(natural);
    free(without);
    free(with);
    free_states(&s);
    free(text);
    return 0;
}
