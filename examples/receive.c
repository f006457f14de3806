/* Answers a job that comes over standard input, a few bytes at a time.

   usage: receive < JOB

   Whatever a read gives is a part, and where the input ends the job does. It prints what spj prints
   of a job file, and behind a refusal what that means, on the same line. Nothing is allocated: 20 KiB
   hold what has come, 8 KiB the answer. */

#define _POSIX_C_SOURCE 200809L

#include <inttypes.h>
#include <stdio.h>
#include <stdlib.h>
#include <unistd.h>

#include "hejmirov.h"

/* The most bytes of a part: a serial line has few. */
enum { MOST = 5 };

static uint8_t memory[HEJMIROV_LINK_BYTES];
static uint32_t out[HEJMIROV_MAX_JOB_STATES], work[HEJMIROV_MAX_JOB_STATES];

/* The byte at which a damaged job is wrong, counted from the job's first. */
static uint64_t place;

/* Ends the program where a call refused. */
static void check(uint32_t refusal) {
    if (refusal == HEJMIROV_ACCEPTED) return;
    printf("refused %" PRIu32, refusal);
    if (hejmirov_job_old_number(refusal) == HEJMIROV_JOB_DAMAGED) printf(" at byte %" PRIu64, place);
    printf(": %s\n", hejmirov_refusal_text(refusal));
    exit(1);
}

int main(void) {
    uint8_t part[MOST];
    ssize_t bytes;
    check(hejmirov_link_begin(memory, sizeof memory));
    while ((bytes = read(STDIN_FILENO, part, sizeof part)) > 0)
        check(hejmirov_link_part(memory, sizeof memory, part, (size_t)bytes));
    if (bytes < 0) {
        perror("receive: standard input");
        return 1;
    }
    uint32_t states, frames, changes;
    check(hejmirov_link_end(memory, sizeof memory, out, HEJMIROV_MAX_JOB_STATES, work,
                            HEJMIROV_MAX_JOB_STATES, &states, &frames, &changes, &place));
    printf("states %" PRIu32 "\nframes %" PRIu32 "\nchanges %" PRIu32 "\n", states, frames, changes);
    for (uint32_t state = 0; state < states; state++) printf("%" PRIu32 "\n", out[state]);
    return 0;
}
