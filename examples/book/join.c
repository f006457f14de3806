/* Joins rendered utterances to one spool, each at the byte place of its first frame.

   usage: join SPOOL < LIST

   A line of LIST is an utterance's number of frames and its file, as `render` prints it; the lines
   stand in the book's order. A file of another size than its frames ask for is an error. */

#define _POSIX_C_SOURCE 200809L

#include <inttypes.h>
#include <stdio.h>
#include <sys/types.h>

#include "book.h"
#include "hejmirov.h"

/* A file's name on a line of LIST. */
enum { NAME_ROOM = 4096 };

static uint64_t place_of(uint32_t frame) {
    uint64_t place;
    check("place", hejmirov_place(frame, 0, V, &place));
    return place;
}

/* Copies a part to bytes from..to of the spool. */
static void copy_part(const char *name, FILE *spool, uint64_t from, uint64_t to) {
    static char bytes[1 << 16];
    FILE *part = fopen(name, "rb");
    if (!part) fail(name, "can't be opened");
    if (fseeko(spool, (off_t)from, SEEK_SET)) fail("the spool", "can't be written");
    uint64_t size = 0;
    for (size_t got; (got = fread(bytes, 1, sizeof bytes, part)) > 0; size += got)
        if (fwrite(bytes, 1, got, spool) != got) fail("the spool", "can't be written");
    fclose(part);
    if (size != to - from) fail(name, "has another size than its frames ask for");
}

int main(int argc, char **argv) {
    if (argc != 2) {
        fputs("usage: join SPOOL < LIST\n", stderr);
        return 2;
    }
    FILE *spool = fopen(argv[1], "wb");
    if (!spool) fail(argv[1], "can't be opened");
    static char name[NAME_ROOM];
    uint32_t frame = 0, frames, utterances = 0;
    int read;
    while ((read = scanf("%" SCNu32 " %4095s", &frames, name)) == 2) {
        if (frames > UINT32_MAX - frame) fail(name, "its frames don't fit in 32 bits");
        copy_part(name, spool, place_of(frame), place_of(frame + frames));
        frame += frames;
        utterances++;
    }
    if (read != EOF) fail("the list", "a line isn't frames and a file");
    if (fclose(spool)) fail(argv[1], "can't be written");
    printf("%" PRIu32 " utterances, %" PRIu32 " frames, %" PRIu64 " bytes\n", utterances, frame,
           place_of(frame));
    return 0;
}
