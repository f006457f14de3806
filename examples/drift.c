/* Shows that rounding doesn't add up over a chapter, for a timing desk.

   usage: drift [--seed SEED]
          drift ENDS [--states STATES]

   It aligns a chapter to the ends of its labels, and holds the running total at every given end to
   what is promised: with room, the end rounded, halves up; without, one frame a state more than
   before. It says how far the totals are from the ends, and how far they would be if the lengths
   were rounded one by one, and prints a table of ten ends. The chapter is made up from SEED, or has
   the ends that stand in ENDS; README.md says how. drift.rs does the same and prints the same
   text. */

#include <inttypes.h>
#include <stdbool.h>
#include <stdio.h>
#include <stdlib.h>
#include <string.h>

#include "hejmirov.h"

static const char SPACES[] = " \t\r\f", DIGITS[] = "0123456789";

/* Ends and distances are whole numbers: thousandths of a frame, of which a millisecond has 200. */
enum { FRAME = 1000, MILLISECOND = FRAME / HEJMIROV_MILLISECONDS_A_FRAME, OPEN = -1 };

enum { DECIMALS = 3, WHOLE_DIGITS = 6, ROWS = 10 };

/* The chapter that is made up. */
enum { LABELS = 4000, OPEN_AT_THE_END = 3 };

typedef struct {
    uint32_t states_a_label;
    size_t labels, states;
    int64_t *ends;         /* one a label, or OPEN */
    double *means, *varis; /* of the states' durations */
    bool is_made_up;
    uint32_t seed;
} Chapter;

/* A given end. */
typedef struct {
    size_t label; /* from 1 on */
    int64_t end;
    int64_t states;      /* since the given end before */
    int64_t before;      /* frames up to that one */
    int64_t total;       /* frames up to this one */
    int64_t one_by_one;  /* what that would be with each length rounded by itself */
    int64_t by_rounding; /* how far that is off for its roundings alone */
} Mark;

/* Where no end is given. */
static const Mark START = {0};

static _Noreturn void fail(const char *what, const char *why) {
    fprintf(stderr, "drift: %s: %s\n", what, why);
    exit(1);
}

static _Noreturn void fail_instead(const char *word, const char *wanted) {
    fprintf(stderr, "drift: %s instead of %s\n", word, wanted);
    exit(1);
}

/* Ends the program where a call refused. */
static void check(uint32_t refusal) {
    if (refusal == HEJMIROV_ACCEPTED) return;
    fprintf(stderr, "drift: refused %" PRIu32 ": %s\n", refusal, hejmirov_refusal_text(refusal));
    exit(1);
}

/* The room that there was, or none, made to hold so many. */
static void *more_room(void *room, size_t count, size_t size) {
    room = realloc(room, (count ? count : 1) * size);
    if (!room) fail("memory", "there isn't enough");
    return room;
}

/* Room for so many labels, and their states. */
static Chapter chapter_of(size_t labels, uint32_t states_a_label) {
    Chapter c = {.states_a_label = states_a_label, .labels = labels};
    c.states = labels * states_a_label;
    c.ends = more_room(NULL, c.labels, sizeof *c.ends);
    c.means = more_room(NULL, c.states, sizeof *c.means);
    c.varis = more_room(NULL, c.states, sizeof *c.varis);
    return c;
}

/* A number from 0 on, below the count: Knuth's linear congruential generator, its upper bits. */
static uint32_t draw(uint64_t *seed, uint32_t count) {
    *seed = *seed * 6364136223846793005u + 1442695040888963407u;
    return (uint32_t)(*seed >> 33) % count;
}

/* Labels of one state, 20 to 120 ms long; now and then one to four of 1 to 3 ms. A third is open,
   and so are the last. The ends are the lengths' running sums. */
static Chapter made_up(uint32_t from) {
    Chapter c = chapter_of(LABELS, 1);
    c.is_made_up = true;
    c.seed = from;
    uint64_t seed = from;
    int64_t now = 0;
    uint32_t short_ones = 0;
    for (size_t i = 0; i < LABELS; i++) {
        if (short_ones == 0 && draw(&seed, 100) == 0) short_ones = 1 + draw(&seed, 4);
        uint32_t length = short_ones > 0 ? 1 + draw(&seed, 3) : 20 + draw(&seed, 101);
        if (short_ones > 0) short_ones--;
        bool is_open = draw(&seed, 3) == 0 || i >= LABELS - OPEN_AT_THE_END;
        now += (int64_t)length * MILLISECOND;
        c.ends[i] = is_open ? OPEN : now;
        c.means[i] = (20 + draw(&seed, 241)) / 10.0;
        c.varis[i] = (1 + draw(&seed, 100)) / 4.0;
    }
    return c;
}

/* A whole file, to be freed, with a zero behind it. */
static char *text_of(const char *name) {
    char *bytes = NULL;
    size_t count = 0, room = 0;
    FILE *file = fopen(name, "rb");
    if (!file) fail(name, "can't be read");
    do {
        room = 2 * room + 4096;
        bytes = more_room(bytes, room + 1, 1);
        count += fread(bytes + count, 1, room - count, file);
    } while (count == room);
    if (ferror(file)) fail(name, "can't be read");
    fclose(file);
    bytes[count] = 0;
    if (strlen(bytes) != count) fail(name, "a zero byte stands there");
    return bytes;
}

/* A time in frames, or open. */
static bool is_end(const char *word, int64_t *end) {
    *end = OPEN;
    if (strcmp(word, "open") == 0) return true;
    size_t whole = strspn(word, DIGITS), decimals = 0;
    if (whole < 1 || whole > WHOLE_DIGITS) return false;
    const char *rest = word + whole;
    if (*rest == '.') {
        decimals = strspn(++rest, DIGITS);
        if (decimals < 1 || decimals > DECIMALS) return false;
    }
    if (rest[decimals] != 0) return false;
    *end = strtoll(word, NULL, 10);
    for (size_t i = 0; i < DECIMALS; i++) *end = 10 * *end + (i < decimals ? rest[i] - '0' : 0);
    return true;
}

/* The end of a label: the last word of its line, before which the label's name may stand. */
static int64_t read_end(size_t line, char *const *words, size_t count) {
    int64_t end;
    if (count > 2) {
        fprintf(stderr, "drift: line %zu: a label and its end should stand there\n", line);
        exit(1);
    }
    if (!is_end(words[count - 1], &end)) {
        fprintf(stderr, "drift: line %zu: %s instead of ", line, words[count - 1]);
        fprintf(stderr, "an end in frames, with at most %d decimals, or open\n", DECIMALS);
        exit(1);
    }
    return end;
}

/* The ends of a file, a label a line, to be freed, and their number. */
static int64_t *read_ends(char *text, size_t *labels) {
    int64_t *ends = NULL;
    *labels = 0;
    for (size_t line = 1; text; line++) {
        char *words[3], *next = strchr(text, '\n');
        size_t count = 0;
        if (next) *next++ = 0;
        for (char *word = strtok(text, SPACES); word && count < 3; word = strtok(NULL, SPACES))
            words[count++] = word;
        text = next;
        if (count == 0) continue;
        ends = more_room(ends, *labels + 1, sizeof *ends);
        ends[(*labels)++] = read_end(line, words, count);
    }
    return ends;
}

/* Every state has the mean 6 and the variance 4: the totals don't depend on them, but in the
   tail. */
static Chapter read_chapter(const char *name, uint32_t states_a_label) {
    char *text = text_of(name);
    size_t labels;
    int64_t *ends = read_ends(text, &labels);
    Chapter c = chapter_of(labels, states_a_label);
    for (size_t i = 0; i < labels; i++) c.ends[i] = ends[i];
    for (size_t i = 0; i < c.states; i++) {
        c.means[i] = 6;
        c.varis[i] = 4;
    }
    free(ends);
    free(text);
    return c;
}

static void free_chapter(Chapter *c) {
    free(c->ends);
    free(c->means);
    free(c->varis);
}

/* The shortest durations of so many states, to be freed: one frame each, as no state needs more. */
static uint32_t *ones(size_t states) {
    uint32_t *shortest = more_room(NULL, states, sizeof *shortest);
    for (size_t i = 0; i < states; i++) shortest[i] = 1;
    return shortest;
}

/* One duration a state, to be freed. */
static uint32_t *aligned(const Chapter *c) {
    uint32_t *durations = more_room(NULL, c->states, sizeof *durations);
    uint32_t *work = more_room(NULL, c->states, sizeof *work);
    uint32_t *shortest = ones(c->states);
    double *ends = more_room(NULL, c->labels, sizeof *ends);
    uint32_t written, changes; /* as many as states; and how the frames were given out */
    for (size_t i = 0; i < c->labels; i++)
        ends[i] = c->ends[i] == OPEN ? HEJMIROV_OPEN_END : (double)c->ends[i] / FRAME;
    check(hejmirov_align(c->means, c->states, c->varis, c->states, shortest, c->states,
                         c->states_a_label, ends, c->labels, durations, c->states, work, c->states,
                         &written, &changes));
    free(work);
    free(shortest);
    free(ends);
    return durations;
}

/* Of a time in thousandths, halves up. */
static int64_t rounded(int64_t time) {
    return (time + FRAME / 2) / FRAME;
}

/* What is left up to the end, in frames, and at least one. */
static int64_t target_of(const Mark *m) {
    int64_t left = rounded(m->end) - m->before;
    return left < 1 ? 1 : left;
}

static bool has_room(const Mark *m) {
    return target_of(m) > m->states;
}

/* From the total to the end, in thousandths: above 0 where the total is late. */
static int64_t off(const Mark *m) {
    return m->total * FRAME - m->end;
}

static int64_t one_by_one_off(const Mark *m) {
    return m->one_by_one * FRAME - m->end;
}

/* The given ends in order, to be freed. */
static Mark *marks_of(const Chapter *c, const uint32_t *durations, size_t *count) {
    Mark *marks = more_room(NULL, c->labels, sizeof *marks), last = START;
    int64_t total = 0;
    *count = 0;
    for (size_t i = 0; i < c->labels; i++) {
        for (uint32_t k = 0; k < c->states_a_label; k++)
            total += durations[i * c->states_a_label + k];
        if (c->ends[i] == OPEN) continue;
        Mark m = {.label = i + 1, .end = c->ends[i], .before = last.total, .total = total};
        m.states = (int64_t)(m.label - last.label) * c->states_a_label;
        int64_t length = m.end - last.end, alone = rounded(length);
        bool is_long = alone >= m.states;
        m.one_by_one = last.one_by_one + (is_long ? alone : m.states);
        m.by_rounding = last.by_rounding + (is_long ? alone * FRAME - length : 0);
        marks[(*count)++] = last = m;
    }
    return marks;
}

/* Ends the program where a total is not what is promised. */
static void hold(const Mark *m) {
    int64_t promised = has_room(m) ? rounded(m->end) : m->before + m->states;
    bool is_near = 2 * llabs(off(m)) <= FRAME;
    if (m->total == promised && (is_near || !has_room(m))) return;
    fprintf(stderr, "drift: label %zu: %" PRId64 " frames instead of %" PRId64 "\n", m->label,
            m->total, promised);
    exit(1);
}

/* An exact decimal of so many thousandths. */
static void print_decimal(int64_t thousandths) {
    int64_t size = llabs(thousandths), rest = size % 1000;
    int digits = 3;
    for (; digits > 0 && rest % 10 == 0; digits--) rest /= 10;
    printf("%s%" PRId64, thousandths < 0 ? "-" : "", size / 1000);
    if (digits > 0) printf(".%0*" PRId64, digits, rest);
}

/* A time in thousandths of a frame. */
static void print_milliseconds(int64_t time) {
    print_decimal(time * HEJMIROV_MILLISECONDS_A_FRAME);
}

static void print_distance(int64_t distance) {
    print_decimal(llabs(distance));
    printf(llabs(distance) == FRAME ? " frame or " : " frames or ");
    print_milliseconds(llabs(distance));
    printf(" ms");
}

static void print_side(int64_t distance) {
    print_distance(distance);
    printf(distance > 0 ? " late" : distance < 0 ? " early" : " off");
}

/* The distance that is farthest from 0. */
static int64_t farther(int64_t a, int64_t b) {
    return llabs(b) > llabs(a) ? b : a;
}

static void print_chapter(const Chapter *c, const uint32_t *durations, const Mark *last,
                          size_t given) {
    int64_t frames = 0;
    for (size_t i = 0; i < c->states; i++) frames += durations[i];
    printf("labels: %zu with %" PRIu32 " %s each", c->labels, c->states_a_label,
           c->states_a_label == 1 ? "state" : "states");
    if (c->is_made_up) printf(", made up from seed %" PRIu32, c->seed);
    printf("\nends: %zu given, %zu open\n", given, c->labels - given);
    printf("frames: %" PRId64 ", ", frames);
    print_milliseconds(frames * FRAME);
    printf(" ms, of them %" PRId64 " after the last given end\n", frames - last->total);
}

/* Every mark has been held to its promise before. */
static void print_marks(const Mark *marks, size_t given) {
    size_t room = 0, again = 0;
    int64_t with = 0, without = 0, one_by_one = 0;
    for (size_t i = 0; i < given; i++) {
        one_by_one = farther(one_by_one, one_by_one_off(&marks[i]));
        if (!has_room(&marks[i])) {
            without = farther(without, off(&marks[i]));
            continue;
        }
        with = farther(with, off(&marks[i]));
        room++;
        again += i > 0 && !has_room(&marks[i - 1]);
    }
    printf("on time at all %zu ends with room, at most ", room);
    print_distance(with);
    printf(" off\none frame a state at all %zu ends without room, at most ", given - room);
    print_distance(without);
    printf(" off\nright again at all %zu ends with room after one without\n", again);
    const Mark *last = given > 0 ? &marks[given - 1] : &START;
    printf("rounded one by one: at most ");
    print_distance(one_by_one);
    printf(" off, at the last given end ");
    print_side(one_by_one_off(last));
    printf("\nof that by rounding ");
    print_side(last->by_rounding);
    printf(", by lengths below one frame a state ");
    print_side(one_by_one_off(last) - last->by_rounding);
    printf("\n");
}

/* Ten ends at most, as many from one to the next, and the last. */
static void print_table(const Mark *marks, size_t given) {
    size_t step = (given + ROWS - 1) / ROWS;
    printf("label\troom\tend_ms\ttotal_ms\toff_ms\tone_by_one_ms\toff_ms\n");
    for (size_t number = 1; number <= given; number++) {
        const Mark *m = &marks[number - 1];
        if (number % step != 0 && number != given) continue;
        const int64_t times[] = {m->end, m->total * FRAME, off(m), m->one_by_one * FRAME,
                                 one_by_one_off(m)};
        printf("%zu\t%s", m->label, has_room(m) ? "yes" : "no");
        for (size_t i = 0; i < sizeof times / sizeof *times; i++) {
            putchar('\t');
            print_milliseconds(times[i]);
        }
        putchar('\n');
    }
}

/* A word of digits alone, from the least to the most. */
static uint32_t whole(const char *word, uint32_t least, uint32_t most, const char *wanted) {
    unsigned long long number = strtoull(word, NULL, 10);
    if (*word == 0 || word[strspn(word, DIGITS)] != 0 || number < least || number > most)
        fail_instead(word, wanted);
    return (uint32_t)number;
}

int main(int argc, char **argv) {
    Chapter c;
    bool is_seed = argc > 1 && strcmp(argv[1], "--seed") == 0;
    if (argc == 1)
        c = made_up(1);
    else if (argc == 3 && is_seed)
        c = made_up(whole(argv[2], 0, UINT32_MAX, "a seed, 0 to 4294967295"));
    else if (argc == 2 && argv[1][0] != '-')
        c = read_chapter(argv[1], 1);
    else if (argc == 4 && argv[1][0] != '-' && strcmp(argv[2], "--states") == 0)
        c = read_chapter(argv[1],
                         whole(argv[3], 1, HEJMIROV_MAX_NSTATE, "states a label, 1 to 16"));
    else {
        fputs("usage: drift [--seed SEED] | drift ENDS [--states STATES]\n", stderr);
        return 2;
    }
    uint32_t *durations = aligned(&c);
    size_t given;
    Mark *marks = marks_of(&c, durations, &given);
    for (size_t i = 0; i < given; i++) hold(&marks[i]);
    print_chapter(&c, durations, given > 0 ? &marks[given - 1] : &START, given);
    print_marks(marks, given);
    print_table(marks, given);
    if (fflush(stdout) != 0) fail("standard output", "can't be written");
    free(marks);
    free(durations);
    free_chapter(&c);
    return 0;
}
