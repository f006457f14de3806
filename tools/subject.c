/* Answers cases with the C calls of hejmirov: everything that a call leaves, lent lists whole.
   The formats of standard input and output are in tools/README.md.
   A call that the archive doesn't have yet is told as such, so the symbols are weak.
   With the argument `kinds` the driver prints the kinds that are there, and ends; with `long_words` it prints
   which calls on more words than a case can have aren't answered as the rules say. */

#define _DEFAULT_SOURCE /* for mappings */

#include <stdbool.h>
#include <stdint.h>
#include <stdio.h>
#include <stdlib.h>
#include <string.h>
#include <sys/mman.h>
#include <unistd.h>

#define DOUBLES(name) const double *name, size_t n_##name
#define WHOLES(name) const uint32_t *name, size_t n_##name
#define BYTES(name) const uint8_t *name, size_t n_##name
#define LONGS(name) const uint64_t *name, size_t n_##name
#define OUT_DOUBLES(name) double *name, size_t n_##name
#define OUT_WHOLES(name) uint32_t *name, size_t n_##name
#define OUT_BYTES(name) uint8_t *name, size_t n_##name
#define OUT_LONGS(name) uint64_t *name, size_t n_##name

#pragma weak hejmirov_fit
uint32_t hejmirov_fit(DOUBLES(means), DOUBLES(varis), WHOLES(shortest), double frame_length,
                      OUT_WHOLES(out), OUT_WHOLES(work), uint32_t *changes);
#pragma weak hejmirov_speed
uint32_t hejmirov_speed(DOUBLES(means), DOUBLES(varis), WHOLES(shortest), double speed,
                        OUT_WHOLES(out), OUT_WHOLES(work), uint32_t *changes);
#pragma weak hejmirov_align
uint32_t hejmirov_align(DOUBLES(means), DOUBLES(varis), WHOLES(shortest), uint32_t nstate,
                        DOUBLES(ends), OUT_WHOLES(out), OUT_WHOLES(work), uint32_t *written,
                        uint32_t *changes);
#pragma weak hejmirov_mask
uint32_t hejmirov_mask(DOUBLES(weights), double threshold, WHOLES(durations), OUT_WHOLES(voiced),
                       OUT_WHOLES(left), OUT_WHOLES(right), uint32_t *frames);
#pragma weak hejmirov_band_rows
uint32_t hejmirov_band_rows(WHOLES(widths), DOUBLES(coefficients), DOUBLES(means), DOUBLES(ivars),
                            OUT_DOUBLES(rows), OUT_DOUBLES(right));
#pragma weak hejmirov_trajectory
uint32_t hejmirov_trajectory(uint32_t v, uint32_t masked, double threshold, double fill,
                             uint32_t gv_on, double gv_weight, WHOLES(widths),
                             DOUBLES(coefficients), DOUBLES(records), WHOLES(durations),
                             DOUBLES(gv), BYTES(switches), OUT_DOUBLES(out), OUT_DOUBLES(work),
                             OUT_WHOLES(marks), uint32_t *clamped_high, uint32_t *clamped_low);
#pragma weak hejmirov_runs
uint32_t hejmirov_runs(uint32_t v, uint32_t masked, double threshold, size_t windows,
                       DOUBLES(records), WHOLES(durations), OUT_WHOLES(runs), uint32_t *count);
#pragma weak hejmirov_run
uint32_t hejmirov_run(uint32_t v, uint32_t masked, double threshold, double fill, uint32_t gv_on,
                      double gv_weight, WHOLES(widths), DOUBLES(coefficients), DOUBLES(records),
                      WHOLES(durations), DOUBLES(gv), BYTES(switches), uint32_t run,
                      OUT_DOUBLES(out), OUT_DOUBLES(work), OUT_WHOLES(marks), uint32_t *frames);
#pragma weak hejmirov_place
uint32_t hejmirov_place(uint32_t frame, uint32_t component, uint32_t v, uint64_t *place);
#pragma weak hejmirov_excerpt
uint32_t hejmirov_excerpt(DOUBLES(trajectory), WHOLES(durations), uint32_t v, uint32_t state,
                          uint64_t *first, uint64_t *count);
#pragma weak hejmirov_job
uint32_t hejmirov_job(BYTES(bytes), OUT_WHOLES(out), OUT_WHOLES(work), uint32_t *states,
                      uint32_t *frames, uint32_t *changes, uint64_t *place);
#pragma weak hejmirov_job_old_number
uint32_t hejmirov_job_old_number(uint32_t number);

#pragma weak hejmirov_link_begin
uint32_t hejmirov_link_begin(OUT_BYTES(link));
#pragma weak hejmirov_link_part
uint32_t hejmirov_link_part(OUT_BYTES(link), BYTES(part));
#pragma weak hejmirov_link_end
uint32_t hejmirov_link_end(OUT_BYTES(link), OUT_WHOLES(out), OUT_WHOLES(work), uint32_t *states,
                           uint32_t *frames, uint32_t *changes, uint64_t *place);

#pragma weak hejmirov_settings_clear
uint32_t hejmirov_settings_clear(OUT_WHOLES(voices), OUT_LONGS(settings));
#pragma weak hejmirov_settings_set
uint32_t hejmirov_settings_set(OUT_WHOLES(voices), OUT_LONGS(settings), uint32_t voice,
                               double speed, double gv_weight, double threshold);
#pragma weak hejmirov_settings_get
uint32_t hejmirov_settings_get(WHOLES(voices), LONGS(settings), uint32_t voice, double *speed,
                               double *gv_weight, double *threshold);
#pragma weak hejmirov_settings_remove
uint32_t hejmirov_settings_remove(OUT_WHOLES(voices), OUT_LONGS(settings), uint32_t voice);
#pragma weak hejmirov_settings_count
uint32_t hejmirov_settings_count(WHOLES(voices), uint32_t *held);
#pragma weak hejmirov_settings_read
uint32_t hejmirov_settings_read(OUT_WHOLES(voices), OUT_LONGS(settings), BYTES(bytes));
#pragma weak hejmirov_settings_write
uint32_t hejmirov_settings_write(WHOLES(voices), LONGS(settings), OUT_BYTES(out),
                                 uint64_t *written);

/* A table, as the calls that may change it take it, and as those that look at it do. */
#define OUT_TABLE OUT_WHOLES(widths_table), OUT_DOUBLES(coefficients_table)
#define TABLE WHOLES(widths_table), DOUBLES(coefficients_table)

#pragma weak hejmirov_table_start
uint32_t hejmirov_table_start(OUT_TABLE, WHOLES(common_widths), DOUBLES(common_coefficients),
                              uint32_t common);
#pragma weak hejmirov_table_set
uint32_t hejmirov_table_set(OUT_TABLE, uint32_t house, uint32_t slot, WHOLES(widths),
                            DOUBLES(coefficients));
#pragma weak hejmirov_table_clear
uint32_t hejmirov_table_clear(OUT_TABLE, uint32_t house, uint32_t slot);
#pragma weak hejmirov_table_use
uint32_t hejmirov_table_use(TABLE, uint32_t house, uint32_t slot, uint64_t *first,
                            OUT_WHOLES(widths), uint64_t *count);
#pragma weak hejmirov_table_free
uint32_t hejmirov_table_free(TABLE, uint32_t house, uint32_t *free);

/* What every call on words is given first. */
#define WORDS WHOLES(words), uint32_t nstate, WHOLES(durations)

#pragma weak hejmirov_words_spans
uint32_t hejmirov_words_spans(WORDS, OUT_WHOLES(spans));
#pragma weak hejmirov_words_milliseconds
uint32_t hejmirov_words_milliseconds(WORDS, OUT_WHOLES(spans));
#pragma weak hejmirov_words_at
uint32_t hejmirov_words_at(WORDS, uint32_t frame, uint32_t *word);
#pragma weak hejmirov_words_excerpt
uint32_t hejmirov_words_excerpt(WORDS, DOUBLES(trajectory), uint32_t v, uint32_t word,
                                uint64_t *first, uint64_t *count);
#pragma weak hejmirov_words_write
uint32_t hejmirov_words_write(WORDS, OUT_BYTES(out), uint64_t *written);
#pragma weak hejmirov_words_read
uint32_t hejmirov_words_read(BYTES(bytes), OUT_WHOLES(spans), uint32_t *words);

enum {
    FIT = 3,
    SPEED,
    ALIGN,
    MASK,
    BAND,
    TRAJECTORY,
    PLACE,
    EXCERPT,
    JOB,
    LINK,
    OLD_NUMBER,
    STORE,
    SETTINGS_FILE,
    SPOKEN_WORDS,
    TIMING_FILE,
    CHAPTER,
    RUNS,
    RUN,
    HOUSES
};
enum { ANSWERED = 0, NO_SUCH_CALL = 3, STRAYED = 4, PARTED = 5, LOST = 6, MISTIMED = 7 };

/* The calls on a link's memory, as a case names them. */
enum { LINK_BEGIN, LINK_PART, LINK_END };

/* The calls on a store. */
enum {
    SETTINGS_CLEAR,
    SETTINGS_SET,
    SETTINGS_GET,
    SETTINGS_REMOVE,
    SETTINGS_COUNT,
    SETTINGS_READ,
    SETTINGS_WRITE
};

/* The calls on a table. */
enum { TABLE_START, TABLE_SET, TABLE_CLEAR, TABLE_USE, TABLE_FREE };

/* What a store has: places, with three settings each. */
enum { PLACES = 256, EACH = 3, LARGEST_VOICE = 65535 };

/* Numbers on both sides of each lent list that must stay as they are. */
enum { GUARD = 8 };

/* At most this many lists of one case. */
enum { MAX_LISTS = 16 };

static const uint8_t *cursor;
static uint32_t case_number;

typedef struct {
    uint8_t *room; /* memory of its own */
    uint8_t *numbers; /* what the call is given of it */
    const uint8_t *before; /* an input's numbers at entry; null for a marked list */
    size_t first_marked; /* from here on the marks must stay, and before the numbers */
    size_t count, size, element;
} List;

static List lists[MAX_LISTS];
static size_t n_lists;

typedef struct {
    uint8_t *bytes;
    size_t size, room;
} Buffer;

static uint8_t status;
static Buffer answer;

static void *room_for(size_t bytes) {
    void *memory = malloc(bytes ? bytes : 1);
    if (!memory) {
        fputs("subject: out of memory\n", stderr);
        exit(2);
    }
    return memory;
}

static void take(void *number, size_t size) {
    memcpy(number, cursor, size);
    cursor += size;
}

static uint64_t take_u64(void) {
    uint64_t number;
    take(&number, sizeof number);
    return number;
}

static uint32_t take_u32(void) {
    uint32_t number;
    take(&number, sizeof number);
    return number;
}

static double take_f64(void) {
    double number;
    take(&number, sizeof number);
    return number;
}

static void append(Buffer *buffer, const void *bytes, size_t size) {
    if (buffer->size + size > buffer->room) {
        buffer->room = 2 * (buffer->size + size);
        buffer->bytes = realloc(buffer->bytes, buffer->room);
        if (!buffer->bytes) exit(2);
    }
    if (size) memcpy(buffer->bytes + buffer->size, bytes, size);
    buffer->size += size;
}

static void put(const void *bytes, size_t size) { append(&answer, bytes, size); }
static void put_u32(uint32_t number) { put(&number, sizeof number); }
static void put_u64(uint64_t number) { put(&number, sizeof number); }

/* An input list: its numbers are copied, so that they are aligned and can be compared at exit. */
static List *input_of(size_t element, size_t count) {
    List *list = &lists[n_lists++];
    list->element = element;
    list->count = count;
    list->size = count * element;
    list->before = cursor;
    list->room = list->numbers = room_for(list->size);
    memcpy(list->numbers, cursor, list->size);
    cursor += list->size;
    return list;
}

static List *input(size_t element) { return input_of(element, take_u32()); }

static void mark(uint8_t *number, size_t element, size_t place) {
    double marked = -1e6 - (double)place;
    uint32_t marked_whole = 0xA5000000u + (uint32_t)place;
    memcpy(number, element == sizeof marked ? (void *)&marked : (void *)&marked_whole, element);
}

/* A list of marked numbers with a guard on both sides; the marks of the front one come last. */
static List *marked_of(size_t element, size_t count) {
    List *list = &lists[n_lists++];
    list->element = element;
    list->count = count;
    list->size = count * element;
    list->before = NULL;
    list->first_marked = 0;
    list->room = room_for(list->size + 2 * GUARD * element);
    list->numbers = list->room + GUARD * element;
    for (size_t place = 0; place < count + GUARD; place++)
        mark(list->numbers + place * element, element, place);
    for (size_t place = 0; place < GUARD; place++)
        mark(list->room + place * element, element, count + GUARD + place);
    return list;
}

static List *marked(size_t element) { return marked_of(element, take_u32()); }

/* A lent list: its own numbers may change, and are told whole. */
static List *lent_of(size_t element, size_t count) {
    List *list = marked_of(element, count);
    list->first_marked = count;
    return list;
}

static List *lent(size_t element) { return lent_of(element, take_u32()); }

/* A list of length 0 may come with a null pointer: every other case does. */
static void *pointer(const List *list) {
    return list->count == 0 && case_number % 2 == 1 ? NULL : list->numbers;
}

static bool is_marked(const List *list, const uint8_t *number, size_t place) {
    uint8_t expected[sizeof(double)];
    mark(expected, list->element, place);
    return memcmp(expected, number, list->element) == 0;
}

static bool stayed(const List *list) {
    if (list->before) return memcmp(list->numbers, list->before, list->size) == 0;
    for (size_t place = list->first_marked; place < list->count + GUARD; place++)
        if (!is_marked(list, list->numbers + place * list->element, place)) return false;
    for (size_t place = 0; place < GUARD; place++)
        if (!is_marked(list, list->room + place * list->element, list->count + GUARD + place))
            return false;
    return true;
}

/* Looks at the lists from the given one on, and gives them back. */
static void close_lists(size_t first) {
    for (; n_lists > first; n_lists--) {
        if (!stayed(&lists[n_lists - 1])) status = STRAYED;
        free(lists[n_lists - 1].room);
    }
}

static void put_list(const List *list) {
    put_u32((uint32_t)list->count);
    put(list->numbers, list->size);
}

#define IN_D(list) (const double *)pointer(list), list->count
#define IN_W(list) (const uint32_t *)pointer(list), list->count
#define IN_B(list) (const uint8_t *)pointer(list), list->count
#define OUT_D(list) (double *)pointer(list), list->count
#define OUT_W(list) (uint32_t *)pointer(list), list->count
#define OUT_B(list) (uint8_t *)pointer(list), list->count
#define IN_L(list) (const uint64_t *)pointer(list), list->count
#define OUT_L(list) (uint64_t *)pointer(list), list->count

static const uint32_t untouched = 0xA5A5A5A5u;
static const uint64_t untouched_long = 0xA5A5A5A5A5A5A5A5u;

static void run_fit(uint8_t kind) {
    List *means = input(8), *varis = input(8), *shortest = input(4);
    double number = take_f64();
    List *out = lent(4), *work = lent(4);
    uint32_t changes = untouched;
    put_u32((kind == FIT ? hejmirov_fit : hejmirov_speed)(IN_D(means), IN_D(varis), IN_W(shortest),
                                                          number, OUT_W(out), OUT_W(work),
                                                          &changes));
    put_u32(changes);
    put_list(out);
    put_list(work);
}

static void run_align(void) {
    List *means = input(8), *varis = input(8), *shortest = input(4);
    uint32_t nstate = take_u32();
    List *ends = input(8), *out = lent(4), *work = lent(4);
    uint32_t written = untouched, changes = untouched;
    put_u32(hejmirov_align(IN_D(means), IN_D(varis), IN_W(shortest), nstate, IN_D(ends), OUT_W(out),
                           OUT_W(work), &written, &changes));
    put_u32(written);
    put_u32(changes);
    put_list(out);
    put_list(work);
}

static void run_mask(void) {
    List *weights = input(8);
    double threshold = take_f64();
    List *durations = input(4), *voiced = lent(4), *left = lent(4), *right = lent(4);
    uint32_t frames = untouched;
    put_u32(hejmirov_mask(IN_D(weights), threshold, IN_W(durations), OUT_W(voiced), OUT_W(left),
                          OUT_W(right), &frames));
    put_u32(frames);
    put_list(voiced);
    put_list(left);
    put_list(right);
}

static void run_band(void) {
    List *widths = input(4), *coefficients = input(8), *means = input(8), *ivars = input(8);
    List *rows = lent(8), *right = lent(8);
    put_u32(hejmirov_band_rows(IN_W(widths), IN_D(coefficients), IN_D(means), IN_D(ivars),
                               OUT_D(rows), OUT_D(right)));
    put_list(rows);
    put_list(right);
}

/* What a trajectory is worked out from, and one of its runs too. */
typedef struct {
    uint32_t v, masked, gv_on;
    double threshold, fill, gv_weight;
    List *widths, *coefficients, *records, *durations, *gv, *switches;
} Stream;

static Stream take_stream(void) {
    Stream stream = {.v = take_u32()};
    stream.masked = take_u32();
    stream.threshold = take_f64();
    stream.fill = take_f64();
    stream.gv_on = take_u32();
    stream.gv_weight = take_f64();
    stream.widths = input(4);
    stream.coefficients = input(8);
    stream.records = input(8);
    stream.durations = input(4);
    stream.gv = input(8);
    stream.switches = input(1);
    return stream;
}

#define IN_STREAM(stream)                                                                      \
    stream.v, stream.masked, stream.threshold, stream.fill, stream.gv_on, stream.gv_weight,     \
        IN_W(stream.widths), IN_D(stream.coefficients), IN_D(stream.records),                  \
        IN_W(stream.durations), IN_D(stream.gv), IN_B(stream.switches)

static void run_trajectory(void) {
    Stream stream = take_stream();
    List *out = lent(8), *work = lent(8), *marks = lent(4);
    uint32_t high = untouched, low = untouched;
    put_u32(hejmirov_trajectory(IN_STREAM(stream), OUT_D(out), OUT_D(work), OUT_W(marks), &high,
                                &low));
    put_list(out);
    put_list(work);
    put_list(marks);
    put_u32(high);
    put_u32(low);
}

static void run_runs(void) {
    uint32_t v = take_u32(), masked = take_u32();
    double threshold = take_f64();
    size_t windows = take_u64();
    List *records = input(8), *durations = input(4), *runs = lent(4);
    uint32_t count = untouched;
    put_u32(hejmirov_runs(v, masked, threshold, windows, IN_D(records), IN_W(durations),
                          OUT_W(runs), &count));
    put_list(runs);
    put_u32(count);
}

static void run_run(void) {
    Stream stream = take_stream();
    uint32_t run = take_u32(), frames = untouched;
    List *out = lent(8), *work = lent(8), *marks = lent(4);
    put_u32(hejmirov_run(IN_STREAM(stream), run, OUT_D(out), OUT_D(work), OUT_W(marks), &frames));
    put_list(out);
    put_list(work);
    put_list(marks);
    put_u32(frames);
}

static void run_place(void) {
    uint32_t frame = take_u32(), component = take_u32(), v = take_u32();
    uint64_t place = untouched_long;
    put_u32(hejmirov_place(frame, component, v, &place));
    put_u64(place);
}

static void run_excerpt(void) {
    List *trajectory = marked(8), *durations = input(4);
    uint32_t v = take_u32(), state = take_u32();
    uint64_t first = untouched_long, count = untouched_long;
    put_u32(hejmirov_excerpt(IN_D(trajectory), IN_W(durations), v, state, &first, &count));
    put_u64(first);
    put_u64(count);
}

static void run_job(void) {
    List *bytes = input(1), *out = lent(4), *work = lent(4);
    uint32_t states = untouched, frames = untouched, changes = untouched;
    uint64_t place = untouched_long;
    put_u32(hejmirov_job(IN_B(bytes), OUT_W(out), OUT_W(work), &states, &frames, &changes, &place));
    put_u32(states);
    put_u32(frames);
    put_u32(changes);
    put_u64(place);
    put_list(out);
    put_list(work);
}

static void run_old_number(void) { put_u32(hejmirov_job_old_number(take_u32())); }

/* What the ends of a case left: the values through pointers, and the lists joined. */
typedef struct {
    Buffer refusals, states, frames, changes, places, out, work;
} Left;

/* What a link was given since a begin that was taken. */
typedef struct {
    bool under_way;
    Buffer joined;
} Given;

/* Whether hejmirov_job on the joined bytes answers as an end did, and leaves the same. */
static bool same_as_job(const Given *given, uint32_t refusal, const uint32_t values[3],
                        uint64_t place, const List *out, const List *work) {
    List *own_out = lent_of(4, out->count), *own_work = lent_of(4, work->count);
    uint32_t own[3] = {untouched, untouched, untouched};
    uint64_t own_place = untouched_long;
    uint32_t answered = hejmirov_job(given->joined.bytes, given->joined.size, OUT_W(own_out),
                                     OUT_W(own_work), &own[0], &own[1], &own[2], &own_place);
    return answered == refusal && memcmp(own, values, sizeof own) == 0 && own_place == place &&
           memcmp(own_out->numbers, out->numbers, out->size) == 0 &&
           memcmp(own_work->numbers, work->numbers, work->size) == 0;
}

static uint32_t end_link(const List *link, Given *given, size_t n_out, size_t n_work, Left *left) {
    List *out = lent_of(4, n_out), *work = lent_of(4, n_work);
    uint32_t values[3] = {untouched, untouched, untouched};
    uint64_t place = untouched_long;
    uint32_t refusal = hejmirov_link_end(OUT_B(link), OUT_W(out), OUT_W(work), &values[0],
                                         &values[1], &values[2], &place);
    if (given->under_way && !same_as_job(given, refusal, values, place, out, work)) status = PARTED;
    given->under_way = false;
    append(&left->states, &values[0], sizeof values[0]);
    append(&left->frames, &values[1], sizeof values[1]);
    append(&left->changes, &values[2], sizeof values[2]);
    append(&left->places, &place, sizeof place);
    append(&left->out, out->numbers, out->size);
    append(&left->work, work->numbers, work->size);
    return refusal;
}

static uint32_t part_of_link(const List *link, Given *given, size_t length) {
    List *part = input_of(1, length);
    uint32_t refusal = hejmirov_link_part(OUT_B(link), IN_B(part));
    append(&given->joined, part->numbers, part->size);
    return refusal;
}

static uint32_t begin_link(const List *link, Given *given) {
    uint32_t refusal = hejmirov_link_begin(OUT_B(link));
    given->under_way = refusal == 0;
    given->joined.size = 0;
    return refusal;
}

static void put_items(const Buffer *buffer, size_t element) {
    put_u32((uint32_t)(buffer->size / element));
    put(buffer->bytes, buffer->size);
}

/* A list of the case that no call is given as it is. */
typedef struct {
    const uint8_t *items;
    uint32_t count;
} View;

static View view(size_t element) {
    uint32_t count = take_u32();
    View list = {cursor, count};
    cursor += count * element;
    return list;
}

static uint32_t next_u32(View *list) {
    uint32_t number;
    memcpy(&number, list->items, sizeof number);
    list->items += sizeof number;
    return number;
}

static void run_link(void) {
    View memory = view(1), calls = view(1), lengths = view(4), bytes = view(1), outs = view(4),
         works = view(4);
    List *link = lent_of(1, memory.count);
    memcpy(link->numbers, memory.items, memory.count);
    cursor = bytes.items; /* the parts are taken from here */
    Given given = {0};
    Left left = {0};
    for (uint32_t i = 0; i < calls.count; i++) {
        size_t own = n_lists;
        uint32_t refusal = 0;
        switch (calls.items[i]) {
        case LINK_BEGIN: refusal = begin_link(link, &given); break;
        case LINK_PART: refusal = part_of_link(link, &given, next_u32(&lengths)); break;
        case LINK_END:
            refusal = end_link(link, &given, next_u32(&outs), next_u32(&works), &left);
            break;
        }
        append(&left.refusals, &refusal, sizeof refusal);
        close_lists(own);
    }
    Buffer *told[] = {&left.refusals, &left.states, &left.frames, &left.changes,
                      &left.places,   &left.out,    &left.work};
    for (size_t i = 0; i < sizeof told / sizeof *told; i++) {
        put_items(told[i], told[i] == &left.places ? sizeof(uint64_t) : sizeof(uint32_t));
        free(told[i]->bytes);
    }
    put_list(link);
    free(given.joined.bytes);
}

/* A store's two lists, and what stood there before a call. */
typedef struct {
    List *voices, *settings;
    Buffer before;
} Store;

/* What a store's calls handed out: the values through pointers, and the written lists joined. */
typedef struct {
    Buffer refusals, got, held, written, out;
} HandedOut;

static List *lent_with(size_t element, View numbers) {
    List *list = lent_of(element, numbers.count);
    memcpy(list->numbers, numbers.items, list->size);
    return list;
}

static bool holds_voice(const uint32_t *voices, size_t place) {
    for (size_t earlier = 0; earlier < place; earlier++)
        if (voices[earlier] == voices[place]) return false;
    return voices[place] <= LARGEST_VOICE;
}

/* The first place from the given one on that holds a voice, or PLACES. */
static size_t next_held(const uint32_t *voices, size_t place) {
    while (place < PLACES && !holds_voice(voices, place)) place++;
    return place;
}

/* Whether two stores hold the same voices in the same order, with the same settings. */
static bool same_voices(const Store *one, const Store *other) {
    const uint32_t *voices = (uint32_t *)one->voices->numbers;
    const uint32_t *others = (uint32_t *)other->voices->numbers;
    const uint64_t *settings = (uint64_t *)one->settings->numbers;
    const uint64_t *their = (uint64_t *)other->settings->numbers;
    size_t a = next_held(voices, 0), b = next_held(others, 0);
    while (a < PLACES && b < PLACES) {
        if (voices[a] != others[b]) return false;
        if (memcmp(settings + EACH * a, their + EACH * b, EACH * sizeof *settings)) return false;
        a = next_held(voices, a + 1);
        b = next_held(others, b + 1);
    }
    return a == b;
}

/* Whether written bytes, read into a store with other voices, give the store that was written. */
static bool reads_back(const Store *store, const List *out, uint64_t written) {
    Store other = {lent_of(4, PLACES), lent_of(8, EACH * PLACES), {0}};
    for (uint32_t place = 0; place < PLACES; place += 2)
        memcpy(other.voices->numbers + place * sizeof place, &place, sizeof place);
    return store->voices->count >= PLACES && store->settings->count >= EACH * PLACES &&
           written <= out->count &&
           hejmirov_settings_read(OUT_W(other.voices), OUT_L(other.settings), out->numbers,
                                  written) == 0 &&
           same_voices(store, &other);
}

/* Keeps what two lists hold before a call. */
static void remember(Buffer *before, const List *one, const List *other) {
    before->size = 0;
    append(before, one->numbers, one->size);
    append(before, other->numbers, other->size);
}

static bool as_before(const Store *store) {
    const uint8_t *before = store->before.bytes;
    size_t size = store->voices->size;
    if (store->before.size == 0) return true;
    return memcmp(before, store->voices->numbers, size) == 0 &&
           memcmp(before + size, store->settings->numbers, store->settings->size) == 0;
}

static uint32_t get_settings(const Store *store, uint32_t voice, HandedOut *left) {
    double got[EACH];
    for (size_t i = 0; i < EACH; i++) memcpy(&got[i], &untouched_long, sizeof got[i]);
    uint32_t refusal = hejmirov_settings_get(IN_W(store->voices), IN_L(store->settings), voice,
                                             &got[0], &got[1], &got[2]);
    append(&left->got, got, sizeof got);
    return refusal;
}

static uint32_t count_settings(const Store *store, HandedOut *left) {
    uint32_t held = untouched;
    uint32_t refusal = hejmirov_settings_count(IN_W(store->voices), &held);
    append(&left->held, &held, sizeof held);
    return refusal;
}

static uint32_t read_settings(const Store *store, size_t length) {
    List *bytes = input_of(1, length);
    return hejmirov_settings_read(OUT_W(store->voices), OUT_L(store->settings), IN_B(bytes));
}

static uint32_t write_settings(const Store *store, size_t room, HandedOut *left) {
    List *out = lent_of(1, room);
    uint64_t written = untouched_long;
    uint32_t refusal = hejmirov_settings_write(IN_W(store->voices), IN_L(store->settings),
                                               OUT_B(out), &written);
    append(&left->written, &written, sizeof written);
    append(&left->out, out->numbers, out->size);
    if (refusal == 0 && !reads_back(store, out, written)) status = LOST;
    return refusal;
}

/* Looks at what a call left, and gives its own lists back. */
static void after_call(Store *store, size_t own, uint32_t refusal, bool may_change,
                       HandedOut *left) {
    append(&left->refusals, &refusal, sizeof refusal);
    if ((refusal || !may_change) && !as_before(store)) status = STRAYED;
    close_lists(own);
}

static void put_handed_out(const Store *store, HandedOut *left) {
    put_items(&left->refusals, sizeof(uint32_t));
    put_items(&left->got, sizeof(uint64_t));
    put_items(&left->held, sizeof(uint32_t));
    put_items(&left->written, sizeof(uint64_t));
    put_items(&left->out, 1);
    put_list(store->voices);
    put_list(store->settings);
    Buffer *own[] = {&left->refusals, &left->got, &left->held, &left->written, &left->out};
    for (size_t i = 0; i < sizeof own / sizeof *own; i++) free(own[i]->bytes);
    free(store->before.bytes);
}

static double next_f64(View *list) {
    double number;
    memcpy(&number, list->items, sizeof number);
    list->items += sizeof number;
    return number;
}

static uint32_t set_settings(const Store *store, uint32_t voice, View *given) {
    double speed = next_f64(given), gv_weight = next_f64(given), threshold = next_f64(given);
    return hejmirov_settings_set(OUT_W(store->voices), OUT_L(store->settings), voice, speed,
                                 gv_weight, threshold);
}

static void run_store(void) {
    View voices = view(4), settings = view(8), calls = view(1), numbers = view(4), given = view(8),
         lengths = view(4), bytes = view(1), outs = view(4);
    Store store = {lent_with(4, voices), lent_with(8, settings), {0}};
    cursor = bytes.items; /* the files are taken from here */
    HandedOut left = {0};
    for (uint32_t i = 0; i < calls.count; i++) {
        size_t own = n_lists;
        uint32_t refusal = 0;
        bool may_change = true;
        remember(&store.before, store.voices, store.settings);
        switch (calls.items[i]) {
        case SETTINGS_CLEAR:
            refusal = hejmirov_settings_clear(OUT_W(store.voices), OUT_L(store.settings));
            break;
        case SETTINGS_SET: refusal = set_settings(&store, next_u32(&numbers), &given); break;
        case SETTINGS_GET:
            refusal = get_settings(&store, next_u32(&numbers), &left);
            may_change = false;
            break;
        case SETTINGS_REMOVE:
            refusal = hejmirov_settings_remove(OUT_W(store.voices), OUT_L(store.settings),
                                               next_u32(&numbers));
            break;
        case SETTINGS_COUNT:
            refusal = count_settings(&store, &left);
            may_change = false;
            break;
        case SETTINGS_READ: refusal = read_settings(&store, next_u32(&lengths)); break;
        case SETTINGS_WRITE:
            refusal = write_settings(&store, next_u32(&outs), &left);
            may_change = false;
            break;
        }
        after_call(&store, own, refusal, may_change, &left);
    }
    put_handed_out(&store, &left);
}

/* A file is read into a marked store, the voices are counted, and the store is written. */
static void run_settings_file(void) {
    View bytes = view(1);
    Store store = {lent(4), lent(8), {0}};
    uint32_t room = take_u32();
    HandedOut left = {0};
    size_t own = n_lists;
    cursor = bytes.items;
    remember(&store.before, store.voices, store.settings);
    after_call(&store, own, read_settings(&store, bytes.count), true, &left);
    remember(&store.before, store.voices, store.settings);
    after_call(&store, own, count_settings(&store, &left), false, &left);
    after_call(&store, own, write_settings(&store, room, &left), false, &left);
    put_handed_out(&store, &left);
}

/* A table's two lists, and what stood there before a call. */
typedef struct {
    List *widths, *coefficients;
    Buffer before;
} Table;

#define OUT_T(table) OUT_W((table)->widths), OUT_D((table)->coefficients)
#define IN_T(table) IN_W((table)->widths), IN_D((table)->coefficients)

/* What a table's calls handed out, both houses' free counts, and what each call changed. */
typedef struct {
    Buffer refusals, firsts, used, counts, free, free_counts, changed, places, numbers;
} Shared;

/* The next so many numbers of a list of the case, as an input of one call. */
static List *next_input(View *list, size_t element, size_t count) {
    cursor = list->items;
    List *own = input_of(element, count);
    list->items = cursor;
    return own;
}

static uint32_t use_slot(const Table *table, uint32_t house, uint32_t slot, size_t room,
                         Shared *left) {
    List *widths = lent_of(4, room);
    uint64_t first = untouched_long, count = untouched_long;
    uint32_t refusal = hejmirov_table_use(IN_T(table), house, slot, &first, OUT_W(widths), &count);
    append(&left->firsts, &first, sizeof first);
    append(&left->used, widths->numbers, widths->size);
    append(&left->counts, &count, sizeof count);
    return refusal;
}

static uint32_t count_free(const Table *table, uint32_t house, Buffer *told) {
    uint32_t count = untouched;
    uint32_t refusal = hejmirov_table_free(IN_T(table), house, &count);
    append(told, &count, sizeof count);
    return refusal;
}

static void count_both_free(const Table *table, Shared *left) {
    for (uint32_t house = 0; house < 2; house++) count_free(table, house, &left->free_counts);
}

/* Tells the numbers of a list that changed, by their places from the given one on, and how many. */
static uint32_t tell_changes(const List *list, const uint8_t *before, size_t first, Shared *left) {
    uint32_t changed = 0;
    for (size_t i = 0; i < list->count; i++) {
        const uint8_t *number = list->numbers + i * list->element;
        if (memcmp(before + i * list->element, number, list->element) == 0) continue;
        uint32_t place = (uint32_t)(first + i);
        uint64_t whole = 0;
        memcpy(&whole, number, list->element);
        append(&left->places, &place, sizeof place);
        append(&left->numbers, &whole, sizeof whole);
        changed++;
    }
    return changed;
}

/* Looks at what a call left, and gives its own lists back. Asking for the free counts must change
   nothing either. */
static void after_table_call(Table *table, size_t own, uint32_t refusal, Shared *left) {
    const List *widths = table->widths, *coefficients = table->coefficients;
    const uint8_t *before = table->before.bytes;
    append(&left->refusals, &refusal, sizeof refusal);
    count_both_free(table, left);
    uint32_t changed = tell_changes(widths, before, 0, left) +
                       tell_changes(coefficients, before + widths->size, widths->count, left);
    append(&left->changed, &changed, sizeof changed);
    if (!stayed(widths) || !stayed(coefficients)) status = STRAYED;
    close_lists(own);
}

static void put_shared(const Table *table, Shared *left) {
    Buffer *longs[] = {&left->firsts, &left->counts, &left->numbers};
    Buffer *all[] = {&left->refusals,    &left->firsts,  &left->used,   &left->counts, &left->free,
                     &left->free_counts, &left->changed, &left->places, &left->numbers};
    for (size_t i = 0; i < sizeof all / sizeof *all; i++) {
        bool is_long = all[i] == longs[0] || all[i] == longs[1] || all[i] == longs[2];
        put_items(all[i], is_long ? sizeof(uint64_t) : sizeof(uint32_t));
        free(all[i]->bytes);
    }
    put_list(table->widths);
    put_list(table->coefficients);
    free(table->before.bytes);
}

/* What the calls of a case are given, each list taken from the front. */
typedef struct {
    View houses, slots, common, n_widths, widths, n_coefficients, coefficients, rooms;
} GivenToTable;

static GivenToTable take_given(void) {
    GivenToTable given = {.houses = view(4)};
    given.slots = view(4);
    given.common = view(4);
    given.n_widths = view(4);
    given.widths = view(4);
    given.n_coefficients = view(4);
    given.coefficients = view(8);
    given.rooms = view(4);
    return given;
}

static uint32_t start_table(const Table *table, GivenToTable *given) {
    List *widths = next_input(&given->widths, 4, next_u32(&given->n_widths));
    List *coefficients = next_input(&given->coefficients, 8, next_u32(&given->n_coefficients));
    return hejmirov_table_start(OUT_T(table), IN_W(widths), IN_D(coefficients),
                                next_u32(&given->common));
}

static uint32_t set_slot(const Table *table, uint32_t house, uint32_t slot, GivenToTable *given) {
    List *widths = next_input(&given->widths, 4, next_u32(&given->n_widths));
    List *coefficients = next_input(&given->coefficients, 8, next_u32(&given->n_coefficients));
    return hejmirov_table_set(OUT_T(table), house, slot, IN_W(widths), IN_D(coefficients));
}

static uint32_t call_on_table(uint8_t call, const Table *table, GivenToTable *given, Shared *left) {
    if (call == TABLE_START) return start_table(table, given);
    uint32_t house = next_u32(&given->houses);
    if (call == TABLE_FREE) return count_free(table, house, &left->free);
    uint32_t slot = next_u32(&given->slots);
    if (call == TABLE_SET) return set_slot(table, house, slot, given);
    if (call == TABLE_CLEAR) return hejmirov_table_clear(OUT_T(table), house, slot);
    return use_slot(table, house, slot, next_u32(&given->rooms), left);
}

static void run_houses(void) {
    View widths = view(4), coefficients = view(8), calls = view(1);
    GivenToTable given = take_given();
    Table table = {lent_with(4, widths), lent_with(8, coefficients), {0}};
    Shared left = {0};
    count_both_free(&table, &left);
    for (uint32_t i = 0; i < calls.count; i++) {
        size_t own = n_lists;
        remember(&table.before, table.widths, table.coefficients);
        after_table_call(&table, own, call_on_table(calls.items[i], &table, &given, &left), &left);
    }
    put_shared(&table, &left);
}

/* The inputs of every call on words. */
typedef struct {
    List *words, *durations;
    uint32_t nstate;
} Spoken;

#define IN_WORDS(spoken) IN_W((spoken)->words), (spoken)->nstate, IN_W((spoken)->durations)

/* What the calls on words handed out: a refusal each, and the values through pointers. */
typedef struct {
    Buffer refusals, sounding, firsts, counts;
} Timed;

/* Whether written bytes are read back as the words' spans, into lists that are just so long. */
static bool reads_back_as_spans(const Spoken *spoken, const List *out, uint64_t written) {
    if (written > out->count) return false;
    size_t count = spoken->words->count;
    List *spans = lent_of(4, 2 * count), *read = lent_of(4, 2 * count), *bytes = lent_of(1, written);
    memcpy(bytes->numbers, out->numbers, written);
    uint32_t words = untouched;
    return hejmirov_words_spans(IN_WORDS(spoken), OUT_W(spans)) == 0 &&
           hejmirov_words_read(IN_B(bytes), OUT_W(read), &words) == 0 && words == count &&
           memcmp(bytes->numbers, out->numbers, written) == 0 &&
           memcmp(spans->numbers, read->numbers, spans->size) == 0;
}

static void keep_refusal(Timed *left, uint32_t refusal) {
    append(&left->refusals, &refusal, sizeof refusal);
}

static void ask_frame(const Spoken *spoken, uint32_t frame, Timed *left) {
    uint32_t word = untouched;
    keep_refusal(left, hejmirov_words_at(IN_WORDS(spoken), frame, &word));
    append(&left->sounding, &word, sizeof word);
}

static void ask_excerpt(const Spoken *spoken, const List *trajectory, uint32_t v, uint32_t word,
                        Timed *left) {
    uint64_t first = untouched_long, count = untouched_long;
    keep_refusal(left, hejmirov_words_excerpt(IN_WORDS(spoken), IN_D(trajectory), v, word, &first,
                                              &count));
    append(&left->firsts, &first, sizeof first);
    append(&left->counts, &count, sizeof count);
}

static uint64_t write_words(const Spoken *spoken, const List *out, Timed *left) {
    uint64_t written = untouched_long;
    uint32_t refusal = hejmirov_words_write(IN_WORDS(spoken), OUT_B(out), &written);
    keep_refusal(left, refusal);
    if (refusal == 0 && !reads_back_as_spans(spoken, out, written)) status = MISTIMED;
    return written;
}

static void run_words(void) {
    Spoken spoken = {.words = input(4)};
    spoken.nstate = take_u32();
    spoken.durations = input(4);
    View frames = view(4);
    List *trajectory = marked(8);
    uint32_t v = take_u32();
    View asked = view(4);
    List *spans = lent(4), *milliseconds = lent(4), *out = lent(1);
    Timed left = {0};
    keep_refusal(&left, hejmirov_words_spans(IN_WORDS(&spoken), OUT_W(spans)));
    keep_refusal(&left, hejmirov_words_milliseconds(IN_WORDS(&spoken), OUT_W(milliseconds)));
    for (uint32_t i = 0; i < frames.count; i++) ask_frame(&spoken, next_u32(&frames), &left);
    for (uint32_t i = 0; i < asked.count; i++)
        ask_excerpt(&spoken, trajectory, v, next_u32(&asked), &left);
    uint64_t written = write_words(&spoken, out, &left);
    put_items(&left.refusals, sizeof(uint32_t));
    put_list(spans);
    put_list(milliseconds);
    put_items(&left.sounding, sizeof(uint32_t));
    put_items(&left.firsts, sizeof(uint64_t));
    put_items(&left.counts, sizeof(uint64_t));
    put_u64(written);
    put_list(out);
    Buffer *own[] = {&left.refusals, &left.sounding, &left.firsts, &left.counts};
    for (size_t i = 0; i < sizeof own / sizeof *own; i++) free(own[i]->bytes);
}

static void run_timing_file(void) {
    List *bytes = input(1), *spans = lent(4);
    uint32_t words = untouched;
    put_u32(hejmirov_words_read(IN_B(bytes), OUT_W(spans), &words));
    put_list(spans);
    put_u32(words);
}

static bool there(uint8_t kind) {
    switch (kind) {
    case FIT: return hejmirov_fit;
    case SPEED: return hejmirov_speed;
    case ALIGN:
    case CHAPTER: return hejmirov_align;
    case MASK: return hejmirov_mask;
    case BAND: return hejmirov_band_rows;
    case TRAJECTORY: return hejmirov_trajectory;
    case RUNS: return hejmirov_runs;
    case RUN: return hejmirov_run;
    case PLACE: return hejmirov_place;
    case EXCERPT: return hejmirov_excerpt;
    case OLD_NUMBER: return hejmirov_job_old_number;
    /* An archive without that one has an older hejmirov_job, which tells no place. */
    case JOB: return hejmirov_job && there(OLD_NUMBER);
    case LINK: return hejmirov_link_begin && hejmirov_link_part && hejmirov_link_end && there(JOB);
    case STORE:
    case SETTINGS_FILE:
        return hejmirov_settings_clear && hejmirov_settings_set && hejmirov_settings_get &&
               hejmirov_settings_remove && hejmirov_settings_count && hejmirov_settings_read &&
               hejmirov_settings_write;
    case HOUSES:
        return hejmirov_table_start && hejmirov_table_set && hejmirov_table_clear &&
               hejmirov_table_use && hejmirov_table_free;
    case SPOKEN_WORDS:
    case TIMING_FILE:
        return hejmirov_words_spans && hejmirov_words_milliseconds && hejmirov_words_at &&
               hejmirov_words_excerpt && hejmirov_words_write && hejmirov_words_read;
    default: return false;
    }
}

static void run(uint8_t kind) {
    switch (kind) {
    case FIT:
    case SPEED: run_fit(kind); break;
    case ALIGN:
    case CHAPTER: run_align(); break;
    case MASK: run_mask(); break;
    case BAND: run_band(); break;
    case TRAJECTORY: run_trajectory(); break;
    case PLACE: run_place(); break;
    case EXCERPT: run_excerpt(); break;
    case JOB: run_job(); break;
    case LINK: run_link(); break;
    case OLD_NUMBER: run_old_number(); break;
    case STORE: run_store(); break;
    case SETTINGS_FILE: run_settings_file(); break;
    case SPOKEN_WORDS: run_words(); break;
    case TIMING_FILE: run_timing_file(); break;
    case RUNS: run_runs(); break;
    case RUN: run_run(); break;
    case HOUSES: run_houses(); break;
    }
}

static void answer_case(const uint8_t *bytes) {
    uint8_t kind = bytes[0];
    cursor = bytes + 2; /* the flags are the oracle's */
    n_lists = 0;
    answer.size = 0;
    status = there(kind) ? ANSWERED : NO_SUCH_CALL;
    put(&status, 1);
    if (status == ANSWERED) run(kind);
    close_lists(0);
    answer.bytes[0] = status;
    uint32_t size = (uint32_t)answer.size;
    fwrite(&size, sizeof size, 1, stdout);
    fwrite(answer.bytes, 1, answer.size, stdout);
    fflush(stdout); /* a later case may end the process */
}

/* So many words lie in memory once, and stand in a long list over and over. */
enum { BLOCK = 1 << 22 };

/* A block of words with the same number of labels, as a file that can be mapped again and again. */
static int block_of(uint32_t labels) {
    FILE *file = tmpfile();
    for (size_t i = 0; file && i < BLOCK; i++) fwrite(&labels, sizeof labels, 1, file);
    return file && fflush(file) == 0 ? fileno(file) : -1;
}

/* Words with the same number of labels, as many as 2^32 of them, and one more word; null without the memory. */
static const uint32_t *long_list(uint32_t labels, size_t count, uint32_t last) {
    size_t size = BLOCK * sizeof labels, blocks = (count + BLOCK) / BLOCK;
    int block = block_of(labels), flags = MAP_PRIVATE | MAP_NORESERVE;
    uint8_t *list = mmap(NULL, blocks * size, PROT_NONE, flags | MAP_ANONYMOUS, -1, 0);
    if (block < 0 || list == MAP_FAILED) return NULL;
    for (size_t i = 0; i < blocks; i++)
        if (mmap(list + i * size, size, PROT_READ | PROT_WRITE, flags | MAP_FIXED, block, 0) ==
            MAP_FAILED)
            return NULL;
    ((uint32_t *)list)[count] = last; /* in a page of its own from here on */
    return (uint32_t *)list;
}

/* What is asked of a long list without outputs, and the numbers that must come. */
typedef struct {
    const char *name;
    uint32_t labels;
    uint64_t same; /* so many words with these labels */
    uint32_t last; /* and these of one more word, where it counts */
    uint64_t count;
    uint32_t nstate;
    size_t n_durations;
    uint32_t spans, at, last_excerpt, next_excerpt;
} LongWords;

static const LongWords long_words[] = {
    {"2^32 words of no labels", 0, 1ull << 32, 0, 1ull << 32, 1, 0, 1, 1, 1, 1},
    {"2^32 words, no states a label", 0, 1ull << 32, 0, 1ull << 32, 0, 0, 5, 5, 5, 5},
    {"2^32 - 1 words of no labels", 0, 1ull << 32, 0, (1ull << 32) - 1, 1, 0, 4, 2, 0, 2},
    {"2^60 labels of 16 states", UINT32_MAX, 1u << 28, 1u << 28, (1u << 28) + 1, 16, 0, 1, 1, 1, 1},
    {"2^60 labels and 1", UINT32_MAX, 1u << 28, (1u << 28) + 1, (1u << 28) + 1, 16, 16, 1, 1, 1, 1},
};

static void told(const char *name, const char *call, uint32_t got, uint32_t expected) {
    if (got != expected) printf("%s: %s gives %u, not %u\n", name, call, got, expected);
}

static void try_long_words(const LongWords *one) {
    static const uint32_t ones[16] = {1, 1, 1, 1, 1, 1, 1, 1, 1, 1, 1, 1, 1, 1, 1, 1};
    static const double trajectory[16];
    const uint32_t *words = long_list(one->labels, one->same, one->last);
    if (!words) {
        printf("%s: there is no memory for so many\n", one->name);
        return;
    }
    uint32_t word = untouched, after = (uint32_t)(one->count - 1);
    uint64_t first = untouched_long, count = untouched_long, written = untouched_long;
#define LONG_WORDS words, one->count, one->nstate, ones, one->n_durations
#define EXCERPT_OF(asked) \
    hejmirov_words_excerpt(LONG_WORDS, trajectory, one->n_durations, 1, asked, &first, &count)
    told(one->name, "spans", hejmirov_words_spans(LONG_WORDS, NULL, 0), one->spans);
    told(one->name, "milliseconds", hejmirov_words_milliseconds(LONG_WORDS, NULL, 0), one->spans);
    told(one->name, "at", hejmirov_words_at(LONG_WORDS, UINT32_MAX, &word), one->at);
    told(one->name, "write", hejmirov_words_write(LONG_WORDS, NULL, 0, &written), one->spans);
    told(one->name, "the next word", EXCERPT_OF(after + 1), one->next_excerpt);
    if (word != untouched || first != untouched_long || written != untouched_long)
        printf("%s: a refused call leaves a value\n", one->name);
    told(one->name, "the last word", EXCERPT_OF(after), one->last_excerpt);
    if (one->last_excerpt == 0 && (first != 0 || count != 0))
        printf("%s: the last word is not empty\n", one->name);
    munmap((void *)words, (one->same + BLOCK) / BLOCK * BLOCK * sizeof *words);
}

static void print_long_words(void) {
    for (size_t i = 0; i < sizeof long_words / sizeof *long_words; i++) try_long_words(&long_words[i]);
}

static void print_kinds(void) {
    static const char *names[] = {[FIT] = "fit",     [SPEED] = "speed",
                                  [ALIGN] = "align", [MASK] = "mask",
                                  [BAND] = "band",   [TRAJECTORY] = "trajectory",
                                  [PLACE] = "place", [EXCERPT] = "excerpt",
                                  [JOB] = "job",     [LINK] = "link",
                                  [OLD_NUMBER] = "old_number",
                                  [STORE] = "store", [SETTINGS_FILE] = "settings_file",
                                  [SPOKEN_WORDS] = "words", [TIMING_FILE] = "timing_file",
                                  [CHAPTER] = "chapter",
                                  [RUNS] = "runs",   [RUN] = "run",
                                  [HOUSES] = "houses"};
    for (uint8_t kind = FIT; kind <= HOUSES; kind++)
        if (there(kind)) puts(names[kind]);
}

int main(int argc, char **argv) {
    if (argc == 2 && strcmp(argv[1], "kinds") == 0) {
        print_kinds();
        return 0;
    }
    if (argc == 2 && strcmp(argv[1], "long_words") == 0) {
        print_long_words();
        return 0;
    }
    uint32_t size;
    for (; fread(&size, sizeof size, 1, stdin) == 1; case_number++) {
        uint8_t *bytes = room_for(size);
        if (fread(bytes, 1, size, stdin) != size) return 2;
        answer_case(bytes);
        free(bytes);
    }
    return 0;
}
