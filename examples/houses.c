/* Two houses on one table of window sets. One of them makes every call that it shouldn't, and the
   other sees nothing of it.

   usage: houses

   The owner starts a table with two common sets. House 0 does its work on it: it sets slots of its
   own, uses them and renders with them. Between its calls house 1 makes its own, most of which are
   refused. Every call is a line with its answer. Then house 0 does the same on a table where it is
   alone: its lines, its slots and the common ones are held to those from before, and the program
   says that they are the same. houses.rs does the same and prints the same text. */

#include <inttypes.h>
#include <math.h>
#include <stdarg.h>
#include <stdbool.h>
#include <stdio.h>
#include <stdlib.h>
#include <string.h>

#include "hejmirov.h"

typedef struct {
    uint32_t widths[HEJMIROV_TABLE_WIDTHS];
    double coefficients[HEJMIROV_TABLE_COEFFICIENTS];
} Table;

/* A table as two lists. */
#define LISTS(table) \
    (table)->widths, HEJMIROV_TABLE_WIDTHS, (table)->coefficients, HEJMIROV_TABLE_COEFFICIENTS

typedef struct {
    const char *name;
    size_t n_widths, n_coefficients;
    uint32_t widths[5];
    double coefficients[16];
} Set;

/* Static, with velocity, with acceleration. */
static const Set ONE = {"one window", 1, 1, {1}, {1}};
static const Set TWO = {"two windows", 2, 4, {1, 3}, {1, -0.5, 0, 0.5}};
static const Set THREE = {"three windows", 3, 7, {1, 3, 3}, {1, -0.5, 0, 0.5, 1, -2, 1}};

/* None of these is a window set. */
static const Set NONE = {"no window", 0, 0, {0}, {0}};
static const Set FIVE = {"five windows", 5, 5, {1, 1, 1, 1, 1}, {1, 1, 1, 1, 1}};
static const Set LONG = {"a window of 16", 1, 16, {16}, {1}};
static const Set INFINITE = {"an infinite coefficient", 1, 1, {1}, {INFINITY}};
static const Set FEW = {"a coefficient too few", 2, 3, {1, 3}, {1, -0.5, 0}};

typedef enum { SET, CLEAR, USE, RENDER, FREE } Call;

typedef struct {
    uint32_t house;
    Call call;
    uint32_t slot;
    const Set *set;
} Step;

enum { CAREFUL = 0 }; /* the house that is held to itself alone */

/* In the order of the calls. Slots 0 and 1 are common and set, 2 and 3 common and empty. */
static const Step STEPS[] = {
    {0, FREE, 0, NULL},
    {1, SET, 4, &ONE},
    {0, USE, 4, NULL},
    {0, SET, 4, &THREE},
    {1, SET, 4, &ONE},
    {1, CLEAR, 4, NULL},
    {1, USE, 4, NULL},
    {0, USE, 4, NULL},
    {0, RENDER, 4, NULL},
    {1, CLEAR, 0, NULL},
    {1, SET, 0, &TWO},
    {1, SET, 2, &ONE},
    {0, USE, 0, NULL},
    {0, RENDER, 0, NULL},
    {0, USE, 2, NULL},
    {1, SET, 12, &ONE},
    {1, USE, 12, NULL},
    {2, FREE, 0, NULL},
    {2, SET, 8, &ONE},
    {2, USE, 0, NULL},
    {0, FREE, 0, NULL},
    {1, SET, 8, &NONE},
    {1, SET, 8, &FIVE},
    {1, SET, 8, &LONG},
    {1, SET, 8, &INFINITE},
    {1, SET, 8, &FEW},
    {0, SET, 4, &TWO},
    {1, SET, 8, &ONE},
    {1, SET, 8, &TWO},
    {1, CLEAR, 8, NULL},
    {1, CLEAR, 8, NULL},
    {0, CLEAR, 4, NULL},
    {1, SET, 8, &THREE},
    {1, SET, 9, &THREE},
    {1, SET, 10, &THREE},
    {1, SET, 11, &THREE},
    {1, FREE, 0, NULL},
    {0, FREE, 0, NULL},
    {0, SET, 4, &TWO},
    {0, RENDER, 4, NULL},
    {0, SET, 5, &ONE},
    {1, CLEAR, 5, NULL},
    {0, USE, 5, NULL},
    {0, USE, 8, NULL},
    {0, CLEAR, 8, NULL},
    {0, FREE, 0, NULL},
};

enum { STEP_COUNT = sizeof STEPS / sizeof *STEPS, LINE = 160 };

typedef struct {
    char text[LINE];
} Line;

/* What a render works on: a stream of one number a frame, which rises from 4 to 5. */
enum { STATES = 2, FRAMES_A_STATE = 3, FRAMES = STATES * FRAMES_A_STATE };
static const uint32_t DURATIONS[STATES] = {FRAMES_A_STATE, FRAMES_A_STATE};
static const double MEANS[STATES] = {4, 5};

static _Noreturn void fail(const char *what, const char *why) {
    fprintf(stderr, "houses: %s: %s\n", what, why);
    exit(1);
}

/* Writes behind what the line has. */
static void add(Line *line, const char *form, ...) {
    size_t length = strlen(line->text);
    va_list values;
    va_start(values, form);
    vsnprintf(line->text + length, LINE - length, form, values);
    va_end(values);
}

static void add_refusal(Line *line, uint32_t refusal) {
    add(line, "refused %" PRIu32 ": %s", refusal, hejmirov_refusal_text(refusal));
}

static void add_answer(Line *line, uint32_t refusal) {
    if (refusal == HEJMIROV_ACCEPTED)
        add(line, "accepted");
    else
        add_refusal(line, refusal);
}

/* A set that a house may use: its coefficients stand in the table itself. */
typedef struct {
    uint32_t widths[HEJMIROV_MAX_WINDOWS];
    size_t n_widths;
    const double *coefficients;
    size_t n_coefficients;
} Used;

static uint32_t use(const Table *table, const Step *step, Used *used) {
    uint64_t first, count;
    uint32_t refusal = hejmirov_table_use(LISTS(table), step->house, step->slot, &first,
                                          used->widths, HEJMIROV_MAX_WINDOWS, &count);
    if (refusal != HEJMIROV_ACCEPTED) return refusal;
    used->coefficients = table->coefficients + first;
    used->n_coefficients = (size_t)count;
    used->n_widths = 0;
    while (used->n_widths < HEJMIROV_MAX_WINDOWS && used->widths[used->n_widths] != 0)
        used->n_widths++;
    return refusal;
}

static void add_set(Line *line, const Used *used) {
    add(line, "widths");
    for (size_t i = 0; i < used->n_widths; i++) add(line, " %" PRIu32, used->widths[i]);
    add(line, ", coefficients");
    for (size_t i = 0; i < used->n_coefficients; i++) add(line, " %g", used->coefficients[i]);
}

/* The stream's numbers, with the windows of the slot: every change has the mean 0. */
static void add_trajectory(Line *line, const Used *used) {
    double records[STATES * 2 * HEJMIROV_MAX_WINDOWS] = {0}, out[FRAMES];
    double work[FRAMES * HEJMIROV_WORK_FLOATS_A_FRAME];
    uint32_t marks[FRAMES * HEJMIROV_WORK_MARKS_A_FRAME], high, low;
    size_t windows = used->n_widths;
    for (size_t i = 0; i < STATES; i++) {
        double *record = records + i * 2 * windows;
        record[0] = MEANS[i];
        for (size_t k = 0; k < windows; k++) record[windows + k] = 1;
    }
    uint32_t refusal = hejmirov_trajectory(
        1, 0, 0.0, 0.0, 0, 0.0, used->widths, windows, used->coefficients, used->n_coefficients,
        records, STATES * 2 * windows, DURATIONS, STATES, NULL, 0, NULL, 0, out, FRAMES, work,
        sizeof work / sizeof *work, marks, sizeof marks / sizeof *marks, &high, &low);
    if (refusal != HEJMIROV_ACCEPTED) {
        add_refusal(line, refusal);
        return;
    }
    for (size_t t = 0; t < FRAMES; t++) add(line, t == 0 ? "%.3f" : " %.3f", out[t]);
}

static void add_use(Line *line, const Table *table, const Step *step) {
    Used used;
    uint32_t refusal = use(table, step, &used);
    if (refusal != HEJMIROV_ACCEPTED)
        add_refusal(line, refusal);
    else if (step->call == USE)
        add_set(line, &used);
    else
        add_trajectory(line, &used);
}

static void add_free(Line *line, const Table *table, const Step *step) {
    uint32_t count;
    uint32_t refusal = hejmirov_table_free(LISTS(table), step->house, &count);
    if (refusal == HEJMIROV_ACCEPTED)
        add(line, "%" PRIu32, count);
    else
        add_refusal(line, refusal);
}

/* Makes a house's call: its line. */
static void make(Table *table, const Step *step, Line *line) {
    const Set *set = step->set;
    line->text[0] = 0;
    add(line, "house %" PRIu32 ": ", step->house);
    switch (step->call) {
    case SET:
        add(line, "set slot %" PRIu32 " to %s: ", step->slot, set->name);
        add_answer(line, hejmirov_table_set(LISTS(table), step->house, step->slot, set->widths,
                                            set->n_widths, set->coefficients,
                                            set->n_coefficients));
        break;
    case CLEAR:
        add(line, "clear slot %" PRIu32 ": ", step->slot);
        add_answer(line, hejmirov_table_clear(LISTS(table), step->house, step->slot));
        break;
    case USE:
        add(line, "use slot %" PRIu32 ": ", step->slot);
        add_use(line, table, step);
        break;
    case RENDER:
        add(line, "render with slot %" PRIu32 ": ", step->slot);
        add_use(line, table, step);
        break;
    case FREE:
        add(line, "free slots: ");
        add_free(line, table, step);
        break;
    }
}

/* The owner's call. */
static void start(Table *table) {
    static const uint32_t widths[] = {1, 0, 1, 3};
    static const double coefficients[] = {1, 1, -0.5, 0, 0.5};
    uint32_t refusal = hejmirov_table_start(LISTS(table), widths, 4, coefficients, 5, 2);
    if (refusal != HEJMIROV_ACCEPTED) fail("start", hejmirov_refusal_text(refusal));
}

/* Makes the calls, or those of one house alone; a line for each. */
static void play(Table *table, bool is_alone, Line lines[STEP_COUNT]) {
    start(table);
    for (int i = 0; i < STEP_COUNT; i++)
        if (!is_alone || STEPS[i].house == CAREFUL) make(table, STEPS + i, lines + i);
}

/* Ends the program at the first of the house's lines that is another; it answers how many it has. */
static int hold_lines(const Line *beside, const Line *alone) {
    int count = 0;
    for (int i = 0; i < STEP_COUNT; i++) {
        if (STEPS[i].house != CAREFUL) continue;
        if (strcmp(beside[i].text, alone[i].text) != 0) {
            fprintf(stderr, "houses: %s\nhouses: alone it is %s\n", beside[i].text, alone[i].text);
            exit(1);
        }
        count++;
    }
    return count;
}

/* The common slots and the house's own, which are the first eight. */
enum { SEEN = 8, WIDTHS = SEEN * 4, COEFFICIENTS = SEEN * 60 };

/* Ends the program where they have any other bit. */
static void hold_slots(const Table *beside, const Table *alone) {
    if (memcmp(beside->widths, alone->widths, WIDTHS * sizeof *alone->widths) != 0 ||
        memcmp(beside->coefficients, alone->coefficients,
               COEFFICIENTS * sizeof *alone->coefficients) != 0)
        fail("slots 0 to 7", "alone they are others");
}

static void print_lines(const Line *lines, bool is_alone) {
    for (int i = 0; i < STEP_COUNT; i++)
        if (!is_alone || STEPS[i].house == CAREFUL) printf("  %s\n", lines[i].text);
}

int main(int argc, char **argv) {
    static Table shared, own;
    static Line beside[STEP_COUNT], alone[STEP_COUNT];
    (void)argv;
    if (argc != 1) {
        fputs("usage: houses\n", stderr);
        return 2;
    }
    play(&shared, false, beside);
    play(&own, true, alone);
    int count = hold_lines(beside, alone);
    hold_slots(&shared, &own);
    printf("a table is started with %s in slot 0 and %s in slot 1, and two houses share it:\n",
           ONE.name, TWO.name);
    print_lines(beside, false);
    printf("another is started so, and house 0 is alone on it:\n");
    print_lines(alone, true);
    printf("house 0: %d lines compared with those beside house 1, all equal\n", count);
    printf("slots 0 to 7: %d widths and %d coefficients compared, all equal\n", (int)WIDTHS,
           (int)COEFFICIENTS);
    if (fflush(stdout) != 0) fail("standard output", "can't be written");
    return 0;
}
