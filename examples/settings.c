/* Keeps voices' settings in a file.

   usage: settings FILE

   It sets some voices in a store, removes one, writes FILE, reads FILE into another store and prints
   what that holds. FILE is then the worked settings file, voices.vst. Nothing is allocated: a store
   has 7 KiB, and the largest file that is written a little less. */

#include <inttypes.h>
#include <stdio.h>
#include <stdlib.h>

#include "hejmirov.h"

typedef struct {
    uint32_t voices[HEJMIROV_MAX_VOICES];
    uint64_t settings[HEJMIROV_STORE_SETTINGS];
} Store;

/* A store as two lists. */
#define LISTS(store) \
    (store)->voices, HEJMIROV_MAX_VOICES, (store)->settings, HEJMIROV_STORE_SETTINGS

static Store first, second;
static uint8_t bytes[HEJMIROV_SETTINGS_WRITTEN_BYTES + 1]; /* the last shows a longer file */

static _Noreturn void fail(const char *what, const char *why) {
    fprintf(stderr, "settings: %s: %s\n", what, why);
    exit(1);
}

/* Ends the program where a call refused. */
static void check(const char *call, uint32_t refusal) {
    if (refusal != HEJMIROV_ACCEPTED) fail(call, hejmirov_refusal_text(refusal));
}

static void fill(Store *store) {
    check("clear", hejmirov_settings_clear(LISTS(store)));
    check("set", hejmirov_settings_set(LISTS(store), 7, 1.0, 1.0, 0.5));
    check("set", hejmirov_settings_set(LISTS(store), 12, 1.5, 1.0, 0.5));
    check("set", hejmirov_settings_set(LISTS(store), 300, 0.8, 0.7, 0.45));
    check("set", hejmirov_settings_set(LISTS(store), 7, 1.25, 1.0, 0.5)); /* in its place */
    check("remove", hejmirov_settings_remove(LISTS(store), 12));
}

static void write_file(const Store *store, const char *name) {
    uint64_t written;
    check("write", hejmirov_settings_write(LISTS(store), bytes, sizeof bytes, &written));
    FILE *file = fopen(name, "wb");
    if (!file) fail(name, "can't be opened");
    size_t done = fwrite(bytes, 1, (size_t)written, file);
    if (fclose(file) != 0 || done != written) fail(name, "can't be written");
}

/* A file from elsewhere may be longer, as it may have several records of a voice. */
static void read_file(Store *store, const char *name) {
    FILE *file = fopen(name, "rb");
    if (!file) fail(name, "can't be opened");
    size_t n_bytes = fread(bytes, 1, sizeof bytes, file);
    if (ferror(file)) fail(name, "can't be read");
    fclose(file);
    if (n_bytes == sizeof bytes) fail(name, "is longer than any that is written");
    check("read", hejmirov_settings_read(LISTS(store), bytes, n_bytes));
}

static void print(const Store *store) {
    uint32_t held;
    check("count", hejmirov_settings_count(store->voices, HEJMIROV_MAX_VOICES, &held));
    printf("%" PRIu32 " voices\n", held);
    for (size_t place = 0; place < HEJMIROV_MAX_VOICES; place++) {
        uint32_t voice = store->voices[place];
        double speed, gv_weight, threshold;
        if (voice > HEJMIROV_MAX_VOICE) continue; /* a free place */
        check("get", hejmirov_settings_get(LISTS(store), voice, &speed, &gv_weight, &threshold));
        printf("%" PRIu32 ": speed %g, GV weight %g, threshold %g\n", voice, speed, gv_weight,
               threshold);
    }
}

int main(int argc, char **argv) {
    if (argc != 2) {
        fputs("usage: settings FILE\n", stderr);
        return 2;
    }
    fill(&first);
    write_file(&first, argv[1]);
    read_file(&second, argv[1]);
    print(&second);
    return 0;
}
