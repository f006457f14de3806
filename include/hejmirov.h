/* hejmirov.h: the calls of libhejmirov.a, the numeric core of a talking-book renderer.
 *
 * Every call answers 0, or the number of the first refusal that applies (enum hejmirov_refusal);
 * hejmirov_job_old_number alone refuses nothing and turns one such number into another. The calls
 * whose names begin with hejmirov_words_ have refusal numbers of their own, from 1 on once more
 * (enum hejmirov_words_refusal). A call ends on any numbers and any lengths, allocates nothing,
 * keeps nothing between calls but in memory that it is lent, and may run in any number of threads
 * at once.
 *
 * Lists. A list is a pointer and, right after it, how many items it has. A list of 0 items may come
 * with a null pointer. A list that is only read is `const`. A list that is written must not overlap
 * any other list or value of the same call.
 *
 * Values. A pointer without a length is to one number; it must not be null.
 *
 * Afterwards. An accepted call writes the items that its comment names, and nothing beyond them. A
 * refused call writes no output and no value, but for a damaged job's place. Work space holds
 * anything before a call; an accepted call leaves zeros in the part it is entitled to, so do the
 * refusals 7 and 8, and every other refusal leaves it as it was.
 *
 * Numbers. Any double is taken: infinities, NaN, either zero. A NaN that is handed out has the bits
 * 0x7FF8000000000000. States, frames, components and items are counted from 0.
 *
 * Environment. The answers are exact, to the bit, in the floating-point environment that a C
 * program starts with: rounding to nearest, subnormal numbers kept, no traps. A program that is
 * linked with -ffast-math, or that flushes subnormal numbers to zero, may get others.
 *
 * "Refused with" lists the numbers in the order in which they are looked for, but for two groups:
 * between 7 and 8 the work's order decides, and of 9, 12, 13 and 14 the first by place is given. A
 * settings file's 18 stands there twice: it is looked for before 16, and again behind it.
 */
#ifndef HEJMIROV_H
#define HEJMIROV_H

#include <stddef.h>
#include <stdint.h>

#ifdef __cplusplus
extern "C" {
#endif

#define HEJMIROV_VERSION "0.5.0"

/* Limits: more is refused. All but the frames of a place, and those of a timing file that is read,
 * which are any 32-bit number. */
#define HEJMIROV_MAX_WINDOWS 4         /* windows in a set, at least 1 */
#define HEJMIROV_MAX_WIDTH 15          /* coefficients in a window, at least 1 */
#define HEJMIROV_MAX_V 64              /* numbers in a frame of a stream, at least 1 */
#define HEJMIROV_MAX_STATES 4096       /* states in an utterance */
#define HEJMIROV_MAX_NSTATE 16         /* states in a label, at least 1 */
#define HEJMIROV_MAX_FRAMES 65536      /* frames in an utterance */
#define HEJMIROV_MAX_JOB_STATES 1024   /* states in a job file */
#define HEJMIROV_MAX_VOICES 256        /* voices in a store, which has so many places */
#define HEJMIROV_MAX_VOICE 65535       /* the number of a voice */
#define HEJMIROV_MAX_WORDS 4294967295u /* words in an utterance, those of no labels too */

/* Sizes. */
#define HEJMIROV_WORK_FLOATS_A_FRAME 48      /* doubles of a trajectory's work space for each frame */
#define HEJMIROV_WORK_MARKS_A_FRAME 4        /* whole numbers of its marks for each frame */
#define HEJMIROV_BYTES_A_NUMBER 8            /* bytes of one number in the spool */
#define HEJMIROV_JOB_HEAD_BYTES 15           /* bytes of a job file before its first state */
#define HEJMIROV_JOB_STATE_BYTES 16          /* bytes of each of its states, in version 1 */
#define HEJMIROV_JOB2_STATE_BYTES 20         /* the same in version 2, with a shortest duration */
#define HEJMIROV_LINK_BYTES 20504            /* bytes of a link's memory: a job that comes in parts */
#define HEJMIROV_STORE_SETTINGS 768          /* settings in a store, three for each place */
#define HEJMIROV_SETTINGS_HEAD_BYTES 7       /* bytes of a settings file before its first record */
#define HEJMIROV_SETTINGS_RECORD_BYTES 26    /* bytes of each of its records, in version 2 */
#define HEJMIROV_SETTINGS_WRITTEN_BYTES 6663 /* bytes of the longest that is written */
#define HEJMIROV_SETTINGS_MOST_BYTES 1703917 /* bytes of the longest that is read */
#define HEJMIROV_SLOTS 12                    /* slots of a table of window sets */
#define HEJMIROV_TABLE_WIDTHS 48             /* widths in a table, four for each slot */
#define HEJMIROV_TABLE_COEFFICIENTS 720      /* coefficients in a table, sixty for each slot */
#define HEJMIROV_TIMING_HEAD_BYTES 9         /* bytes of a timing file before its first word */
#define HEJMIROV_TIMING_WORD_BYTES 8         /* bytes of each of its words */
#define HEJMIROV_MILLISECONDS_A_FRAME 5      /* milliseconds that a frame lasts */

/* An end that is open, for hejmirov_align: any number below 0, and NaN, says the same. */
#define HEJMIROV_OPEN_END (-1.0)

/* The number of a place of a store that is free: any number above 65,535 says the same. */
#define HEJMIROV_FREE_PLACE 4294967295u

/* Why a call refused, but for the calls of words, whose numbers stand below. A program should take
 * a number that it doesn't know as a refusal, too. */
enum hejmirov_refusal {
    HEJMIROV_ACCEPTED = 0,
    HEJMIROV_BAD_WINDOWS = 1,         /* window count or a window's length out of range */
    HEJMIROV_BAD_COEFFICIENT = 2,     /* a coefficient is infinite or NaN */
    HEJMIROV_BAD_SIZE = 3,            /* states, states a label, v or a voice out of range */
    HEJMIROV_LISTS_DISAGREE = 4,      /* list lengths disagree */
    HEJMIROV_TOO_MANY_FRAMES = 5,     /* given durations total above 65,536 */
    HEJMIROV_TOO_LITTLE_ROOM = 6,     /* output, work space, link's memory or store too short */
    HEJMIROV_TARGET_TOO_LONG = 7,     /* a rounded target length above 65,536 */
    HEJMIROV_ESTIMATE_TOO_LONG = 8,   /* an estimate's or an alignment's total above 65,536 */
    HEJMIROV_JOB_LENGTH = 9,          /* job file too short or too long */
    HEJMIROV_NO_SUCH_PLACE = 10,      /* no such frame, component or state */
    HEJMIROV_JOB_ENDED = 11,          /* a part or an end of a job that has ended */
    HEJMIROV_JOB_MARK = 12,           /* job file's mark is wrong */
    HEJMIROV_JOB_VERSION = 13,        /* job file's version is wrong */
    HEJMIROV_JOB_COUNT = 14,          /* job file says too many states */
    HEJMIROV_BAD_SHORTEST = 15,       /* a shortest duration of 0, or their sum above 65,536 */
    HEJMIROV_SETTINGS_VERSION = 16,   /* settings file's version is neither 1 nor 2 */
    HEJMIROV_STORE_FULL = 17,         /* a store with no place for one more voice */
    HEJMIROV_SETTINGS_MALFORMED = 18, /* settings file's mark or length is wrong */
    HEJMIROV_VOICE_NOT_HELD = 19,     /* a voice that the store doesn't hold */
    HEJMIROV_RUN_WITH_GV = 20,        /* one run alone, with global variance on */
    HEJMIROV_NO_SUCH_RUN = 21,        /* no run of that number */
    HEJMIROV_RUN_FIRST_WINDOW = 22,   /* one run alone, with a first window longer than one */
    HEJMIROV_NOT_YOUR_SLOT = 23,      /* not a slot of the house's, or no such slot or house */
    HEJMIROV_SLOT_EMPTY = 24,         /* a slot of a table that is empty */
    HEJMIROV_SLOT_SET = 25,           /* a slot of a table that is set already */

    /* The old number of 9, 12, 13 and 14: see hejmirov_job_old_number. */
    HEJMIROV_JOB_DAMAGED = 9
};

/* One line for a log. It is not for the calls of words: see hejmirov_words_refusal_text. */
static inline const char *hejmirov_refusal_text(uint32_t refusal) {
    switch (refusal) {
    case HEJMIROV_ACCEPTED: return "accepted";
    case HEJMIROV_BAD_WINDOWS: return "window count or a window's length out of range";
    case HEJMIROV_BAD_COEFFICIENT: return "a coefficient is infinite or NaN";
    case HEJMIROV_BAD_SIZE: return "states, states a label, v or a voice out of range";
    case HEJMIROV_LISTS_DISAGREE: return "list lengths disagree";
    case HEJMIROV_TOO_MANY_FRAMES: return "given durations total above 65,536";
    case HEJMIROV_TOO_LITTLE_ROOM: return "output, work space, link's memory or store too short";
    case HEJMIROV_TARGET_TOO_LONG: return "a rounded target length above 65,536";
    case HEJMIROV_ESTIMATE_TOO_LONG: return "an estimate's or an alignment's total above 65,536";
    case HEJMIROV_JOB_LENGTH: return "job file too short or too long";
    case HEJMIROV_NO_SUCH_PLACE: return "no such frame, component or state";
    case HEJMIROV_JOB_ENDED: return "a part or an end of a job that has ended";
    case HEJMIROV_JOB_MARK: return "job file's mark is wrong";
    case HEJMIROV_JOB_VERSION: return "job file's version is wrong";
    case HEJMIROV_JOB_COUNT: return "job file says too many states";
    case HEJMIROV_BAD_SHORTEST: return "a shortest duration of 0, or their sum above 65,536";
    case HEJMIROV_SETTINGS_VERSION: return "settings file's version is neither 1 nor 2";
    case HEJMIROV_STORE_FULL: return "a store with no place for one more voice";
    case HEJMIROV_SETTINGS_MALFORMED: return "settings file's mark or length is wrong";
    case HEJMIROV_VOICE_NOT_HELD: return "a voice that the store doesn't hold";
    case HEJMIROV_RUN_WITH_GV: return "one run alone, with global variance on";
    case HEJMIROV_NO_SUCH_RUN: return "no run of that number";
    case HEJMIROV_RUN_FIRST_WINDOW: return "one run alone, with a first window longer than one";
    case HEJMIROV_NOT_YOUR_SLOT: return "not a slot of the house's, or no such slot or house";
    case HEJMIROV_SLOT_EMPTY: return "a slot of a table that is empty";
    case HEJMIROV_SLOT_SET: return "a slot of a table that is set already";
    default: return "a refusal that this header doesn't know";
    }
}

/* Why a call of words refused, one whose name begins with hejmirov_words_. The numbers are these
 * calls' own: 1 to 5 say other things here than above, and neither the names nor the texts above
 * are for them. They are looked for in the order 5, 1, 2, 3, 4. An accepted call answers 0,
 * HEJMIROV_ACCEPTED, as all calls do; a number that a program doesn't know is a refusal, too. */
enum hejmirov_words_refusal {
    HEJMIROV_WORDS_LABELS_DISAGREE = 1, /* labels and durations disagree, or too many words */
    HEJMIROV_WORDS_NO_SUCH_PLACE = 2,   /* no such frame or word */
    HEJMIROV_WORDS_MALFORMED = 3,       /* timing file's mark, version, length or words are wrong */
    HEJMIROV_WORDS_TOO_LITTLE_ROOM = 4, /* output shorter than the answer */
    HEJMIROV_WORDS_BAD_UTTERANCE = 5    /* durations, nstate, v or a trajectory out of range */
};

/* One line for a log, of a number that a call of words has answered; hejmirov_refusal_text has
 * another text for it. */
static inline const char *hejmirov_words_refusal_text(uint32_t refusal) {
    switch (refusal) {
    case HEJMIROV_ACCEPTED: return "accepted";
    case HEJMIROV_WORDS_LABELS_DISAGREE: return "labels and durations disagree, or too many words";
    case HEJMIROV_WORDS_NO_SUCH_PLACE: return "no such frame or word";
    case HEJMIROV_WORDS_MALFORMED: return "timing file's mark, version, length or words are wrong";
    case HEJMIROV_WORDS_TOO_LITTLE_ROOM: return "output shorter than the answer";
    case HEJMIROV_WORDS_BAD_UTTERANCE: return "durations, nstate, v or a trajectory out of range";
    default: return "a refusal that this header doesn't know";
    }
}

/* The durations of n states in frames, fitted to a length in frames.
 *
 *   means, varis   n means and n variances of the states' durations
 *   shortest       n whole numbers: the shortest duration of each state, at least 1; n ones where
 *                  no state needs more than a frame
 *   frame_length   the length; it is rounded, halves away from zero; NaN and what is then below 1
 *                  count as 1
 *   out            afterwards the n durations, each at least its state's shortest
 *   work           n numbers; afterwards n zeros
 *   changes        afterwards how many frames were added or taken away, one at a time
 *
 * The durations' total is the rounded length where that is above the sum of the shortest; else
 * every state gets its shortest, and changes are 0. Frames are taken only from states that have
 * more than their shortest. With n = 0 the call is accepted, whatever the length, and changes are
 * 0.
 *
 * The means 2 and 3 with variances of 1, fitted to 8 frames, get 3 and 5 where both shortest are 1;
 * with the shortest 4 and 1 they get 4 and 4, and with 6 and 2, whose sum is 8, just these.
 *
 * Refused with 3: n above 4,096. 4: n_varis or n_shortest is not n. 6: n_out or n_work below n. 15:
 * a shortest is 0, or the sum of the shortest is above 65,536. 7: the rounded length is above
 * 65,536 and n is not 0. 8: the rounded length is above the sum of the shortest, and the estimates
 * that the fit starts from total above 65,536.
 */
uint32_t hejmirov_fit(const double *means, size_t n_means,
                      const double *varis, size_t n_varis,
                      const uint32_t *shortest, size_t n_shortest,
                      double frame_length,
                      uint32_t *out, size_t n_out,
                      uint32_t *work, size_t n_work,
                      uint32_t *changes);

/* The durations of n states in frames, at a speed.
 *
 *   means, varis   n means and n variances of the states' durations
 *   shortest       n whole numbers: the shortest duration of each state, at least 1
 *   speed          1.0 gives each state's estimate: its mean, rounded as above and at least its
 *                  shortest (its shortest where the variance is infinite or NaN); any other speed
 *                  the fit to the estimates' total / speed
 *   out            afterwards the n durations, each at least its state's shortest
 *   work           n numbers; afterwards n zeros
 *   changes        afterwards the fit's changes, 0 at speed 1.0
 *
 * At NaN, at the infinities, at -0.0 and below 0 every state gets its shortest.
 *
 * Refused with 3, 4, 6, 15: as hejmirov_fit. 8: the estimates total above 65,536. Then, at another
 * speed than 1.0, 7 and 8 as hejmirov_fit; so speed 0.0 is 7 where n is not 0.
 */
uint32_t hejmirov_speed(const double *means, size_t n_means,
                        const double *varis, size_t n_varis,
                        const uint32_t *shortest, size_t n_shortest,
                        double speed,
                        uint32_t *out, size_t n_out,
                        uint32_t *work, size_t n_work,
                        uint32_t *changes);

/* The durations of n states in frames, with labels closed at given ends.
 *
 *   means, varis   n means and n variances of the states' durations
 *   shortest       n whole numbers: the shortest duration of each state, at least 1
 *   nstate         states a label, 1 to 16
 *   ends           one end a label: a time in frames from the utterance's start, or
 *                  HEJMIROV_OPEN_END; -0.0 is a time
 *   out            afterwards the n durations, each at least its state's shortest
 *   work           n numbers; afterwards n zeros
 *   written        afterwards n, the number of durations
 *   changes        afterwards the fits' changes, summed
 *
 * A label with an end closes a group of all states since the last given end; the group is fitted to
 * its end less the frames so far. The states after the last given end, all of them where none is
 * given, get their estimates, as hejmirov_speed gives them at speed 1.0, and add no changes. With
 * no labels written and changes are 0.
 *
 * Rounding does not add up over labels. At a given end the durations up to it total the end, rounded
 * with halves up, or the total before its group and the sum of the group's shortest, whichever is
 * more.
 *
 * Refused with 3: n above 4,096, or nstate out of range. 4: n is not n_ends x nstate, or n_varis or
 * n_shortest is not n. 6: n_out or n_work below n. 15: as hejmirov_fit, the sum being that of all n
 * states. 7, 8: as hejmirov_fit, group after group; 8 also where the frames so far and the group's
 * own are above 65,536. Then 8: the frames so far and the estimates after the last given end are
 * above 65,536.
 */
uint32_t hejmirov_align(const double *means, size_t n_means,
                        const double *varis, size_t n_varis,
                        const uint32_t *shortest, size_t n_shortest,
                        uint32_t nstate,
                        const double *ends, size_t n_ends,
                        uint32_t *out, size_t n_out,
                        uint32_t *work, size_t n_work,
                        uint32_t *written,
                        uint32_t *changes);

/* Which frames are voiced, and how far each is from the ends of its run of voiced frames.
 *
 *   weights        one voicing weight a state
 *   threshold      a state is voiced where its weight is greater; never where one of them is NaN
 *   durations      one number of frames a state, 0 too; F is their total
 *   voiced         afterwards F numbers: 1 for a voiced frame, 0 for another
 *   left, right    afterwards F numbers each: how many voiced frames stand directly before and
 *                  directly after a voiced frame; 0 for another
 *   frames         afterwards F
 *
 * Refused with 3: n_durations above 4,096. 4: n_weights is not n_durations. 5: F above 65,536.
 * 6: n_voiced, n_left or n_right below F.
 */
uint32_t hejmirov_mask(const double *weights, size_t n_weights,
                       double threshold,
                       const uint32_t *durations, size_t n_durations,
                       uint32_t *voiced, size_t n_voiced,
                       uint32_t *left, size_t n_left,
                       uint32_t *right, size_t n_right,
                       uint32_t *frames);

/* The rows of one component's band matrix and its right side, before they are solved.
 *
 *   widths         each window's number of coefficients
 *   coefficients   the windows' coefficients, window after window
 *   means, ivars   means and inverse variances, window after window, one number a frame each;
 *                  the number of frames F is n_means / n_widths
 *   rows           afterwards F x width numbers, entry j of row t at t x width + j, where width is
 *                  2 x (longest window / 2, rounded down) + 1
 *   right          afterwards F numbers
 *
 * Refused with 1: n_widths is not 1 to 4, or a width not 1 to 15. 2: a coefficient is infinite or
 * NaN. 4: the widths' sum is not n_coefficients, n_widths doesn't divide n_means, or n_ivars is not
 * n_means. 5: F above 65,536. 6: n_rows below F x width, or n_right below F.
 */
uint32_t hejmirov_band_rows(const uint32_t *widths, size_t n_widths,
                            const double *coefficients, size_t n_coefficients,
                            const double *means, size_t n_means,
                            const double *ivars, size_t n_ivars,
                            double *rows, size_t n_rows,
                            double *right, size_t n_right);

/* A stream's trajectory: v numbers a frame; and how many of its pairs were clamped.
 *
 *   v              numbers a frame, 1 to 64
 *   masked         not 0: each record ends with a voicing weight; 0: it has none, and every frame
 *                  is voiced but where the threshold is NaN or at least the largest finite double
 *   threshold      a state is voiced where its weight is greater
 *   fill           stands for every number of an unvoiced frame
 *   gv_on          not 0: global variance; 0: gv_weight, gv and switches are not looked at
 *   gv_weight      the GV means are multiplied by it; 1 takes them as they are
 *   widths         each window's number of coefficients
 *   coefficients   the windows' coefficients, window after window
 *   records        one record a state: windows x v means, as many variances and, where masked, the
 *                  weight; component c of window w is number v x w + c
 *   durations      one number of frames a state, 0 too; F is their total
 *   gv             v GV means, then v GV variances: a component's numbers have a variance over an
 *                  utterance, and these are its mean and its variance, as a voice gives them
 *   switches       one byte a state: whether its frames count for global variance, 0 for no; of the
 *                  voiced ones, since others have no number to count
 *   out            afterwards F x v numbers, component c of frame t at t x v + c
 *   work           F x 48 numbers; afterwards F x 48 zeros
 *   marks          F x 4 numbers; afterwards F x 4 zeros
 *   clamped_high   afterwards how many pairs of the voiced frames were clamped high
 *   clamped_low    afterwards how many of them were clamped low
 *
 * Clamped pairs. A voiced frame has n_widths x v pairs: the means of its state's record, each with
 * its variance. Every variance is inverted: where its size is above 1e19 to 0, and the pair is
 * clamped high; where its size is below 1e-19 to 1e38, and the pair is clamped low; else, at both
 * bounds too, to 1 / variance. So -1e20 and the infinities are high, 0.0 and -0.0 low, and NaN is
 * neither. A pair is counted once a voiced frame, before the inverse variances near the ends of a
 * run of voiced frames are set to 0: those of every window but the first, at frames from which it
 * would reach past the run. Other frames add nothing, nor do GV variances, which are not
 * inverted. The pairs of a stream are its voiced frames x n_widths x v, at most 16,777,216, and the
 * two counts are shares of these: a voiced state of 3 frames, with the variances 1e20, 0, 0 and 1
 * in two windows of v = 2, has 12 pairs, of which 3 are clamped high and 6 low. hejmirov_mask says
 * which frames are voiced.
 *
 * Global variance. The numbers of the frames that count are scaled about their mean, so that their
 * variance is the target, GV mean x gv_weight; five steps of every voiced frame follow. In these
 * the GV variance multiplies the pull to the target. It is used as given, not inverted, so a larger
 * one holds the variance nearer to the target: two states of means 1 and 3 and variance 1, two
 * frames each, have a variance of 1; with a GV mean of 2 it becomes 2.249 for a GV variance of
 * 1e-6, 2.090 for 1, and 2.000 for 1e6. A voice's are small: in cmu_us_slt_arctic_hts a GV mean
 * and variance of log F0 are 0.0080 and 6.2e-6, those of the 45 mel-cepstral numbers 1.37 to 0.005
 * and 0.23 to 5e-7. They pull hardly at all: the scaling decides. Where no frame counts, the
 * numbers are those without global variance.
 *
 * Refused with 1: n_widths is not 1 to 4, or a width not 1 to 15. 2: a coefficient is infinite or
 * NaN. 3: n_durations above 4,096, or v out of range. 4: the widths' sum is not n_coefficients,
 * n_records is not n_durations x (2 x n_widths x v, and 1 more where masked), or, with gv_on, n_gv
 * is not 2 x v or n_switches is not n_durations. 5: F above 65,536. 6: n_out below F x v, n_work
 * below F x 48, or n_marks below F x 4.
 */
uint32_t hejmirov_trajectory(uint32_t v,
                             uint32_t masked,
                             double threshold,
                             double fill,
                             uint32_t gv_on,
                             double gv_weight,
                             const uint32_t *widths, size_t n_widths,
                             const double *coefficients, size_t n_coefficients,
                             const double *records, size_t n_records,
                             const uint32_t *durations, size_t n_durations,
                             const double *gv, size_t n_gv,
                             const uint8_t *switches, size_t n_switches,
                             double *out, size_t n_out,
                             double *work, size_t n_work,
                             uint32_t *marks, size_t n_marks,
                             uint32_t *clamped_high,
                             uint32_t *clamped_low);

/* The voiced runs of a stream: how many there are, and where each lies, so that a frame that a
 * listener names finds its run. A run is a stretch of voiced frames without a gap, as long as can
 * be; the runs are numbered from 0 in the order of their frames. A state of 0 frames has none, and
 * separates nothing.
 *
 *   v, masked, threshold, records, durations   as for hejmirov_trajectory
 *   windows        how many windows the records are for: n_widths there
 *   runs           afterwards two numbers a run, its first frame and its number of frames, run k's
 *                  at 2 x k; no stream has more runs than states, so 2 x n_durations are enough
 *   count          afterwards how many runs there are
 *
 * Of a record only the weight is read. Frame f is run k's where runs[2k] <= f and f is below
 * runs[2k] + runs[2k + 1]; a frame that is in no run is unvoiced.
 *
 * Refused with 1: windows is not 1 to 4. 3: n_durations above 4,096, or v out of range. 4:
 * n_records is not n_durations x (2 x windows x v, and 1 more where masked). 5: the durations total
 * above 65,536. 6: n_runs below 2 x the number of runs.
 */
uint32_t hejmirov_runs(uint32_t v,
                       uint32_t masked,
                       double threshold,
                       size_t windows,
                       const double *records, size_t n_records,
                       const uint32_t *durations, size_t n_durations,
                       uint32_t *runs, size_t n_runs,
                       uint32_t *count);

/* One voiced run of a stream alone: its part of the trajectory, from its own states' records. The
 * other runs' records are not read but for their weights, so its time grows with the run and with
 * the number of states, and not with the frames of the utterance.
 *
 *   v .. switches  as for hejmirov_trajectory; fill is not used, all frames of a run being voiced
 *   run            the number of the run, as hejmirov_runs counts them
 *   out            afterwards n x v numbers, where n is the run's number of frames: component c of
 *                  its frame t at t x v + c
 *   work           n x 48 numbers; afterwards n x 48 zeros
 *   marks          n x 4 numbers; afterwards n x 4 zeros
 *   frames         afterwards n
 *
 * They are the numbers that hejmirov_trajectory gives for these frames, +0 and -0 being the same,
 * where all of this holds, of every run and not of this one alone: the means of the voiced states
 * are finite; the numbers of each run, by this call, are finite, and none at its last frame is a
 * zero; where every window has one coefficient, none at any frame. Elsewhere, where a divisor is
 * zero or infinite or a number is not finite, they are what solving the run by itself gives, and
 * nothing is said of the full trajectory's: there a run's infinity or NaN can reach the runs beside
 * it.
 *
 * Refused with 1 to 5: as hejmirov_trajectory. 6: n_out below n x v, n_work below n x 48, or
 * n_marks below n x 4, where n is 0 for a run that is not there. 20: gv_on, since global variance
 * joins all runs. 21: there is no run of that number. 22: the first window has more than one
 * coefficient, and so reaches over the ends of runs.
 */
uint32_t hejmirov_run(uint32_t v,
                      uint32_t masked,
                      double threshold,
                      double fill,
                      uint32_t gv_on,
                      double gv_weight,
                      const uint32_t *widths, size_t n_widths,
                      const double *coefficients, size_t n_coefficients,
                      const double *records, size_t n_records,
                      const uint32_t *durations, size_t n_durations,
                      const double *gv, size_t n_gv,
                      const uint8_t *switches, size_t n_switches,
                      uint32_t run,
                      double *out, size_t n_out,
                      double *work, size_t n_work,
                      uint32_t *marks, size_t n_marks,
                      uint32_t *frames);

/* The byte place of one number in the spool, a file of frames of v doubles each.
 *
 *   frame          any 32-bit number, counted from the spool's start
 *   component      below v
 *   v              numbers a frame, 1 to 64
 *   place          afterwards (frame x v + component) x 8
 *
 * Refused with 3: v out of range. 10: component not below v.
 */
uint32_t hejmirov_place(uint32_t frame,
                        uint32_t component,
                        uint32_t v,
                        uint64_t *place);

/* Where one state's numbers stand in a trajectory. The trajectory's numbers are not read.
 *
 *   trajectory     total of the durations x v numbers
 *   durations      one number of frames a state, 0 too
 *   v              numbers a frame, 1 to 64
 *   state          below n_durations
 *   first          afterwards the state's first number: the excerpt starts at trajectory + first
 *   count          afterwards how many numbers it has, its frames x v; 0 for a state of no frames
 *
 * Refused with 3: n_durations above 4,096, or v out of range. 4: n_trajectory is not the total x v.
 * 5: the total is above 65,536. 10: no such state.
 */
uint32_t hejmirov_excerpt(const double *trajectory, size_t n_trajectory,
                          const uint32_t *durations, size_t n_durations,
                          uint32_t v,
                          uint32_t state,
                          uint64_t *first,
                          uint64_t *count);

/* The durations of a job file's states, at the job's speed.
 *
 *   bytes          the whole file, little-endian: the three bytes SPJ, version 1 or 2 (16 bits),
 *                  the number of states n (16 bits, at most 1,024), the speed (a double's bits),
 *                  then the states: a mean, a variance (doubles' bits) and, in version 2, the
 *                  state's shortest duration (32 bits); 15 + 16 x n bytes in version 1, 15 + 20 x n
 *                  in version 2
 *   out            afterwards the n durations, each at least its state's shortest
 *   work           n numbers; afterwards n zeros
 *   states         afterwards n
 *   frames         afterwards the durations' total
 *   changes        afterwards the changes of hejmirov_speed
 *   place          afterwards, of a damaged file alone, the place of a byte, the file's first byte
 *                  having the place 0; whatever else is answered, it is as it was
 *
 * In version 1 every shortest is 1. It needs about 20 KiB of stack.
 *
 * A file is damaged where its bytes depart from the format. Its number says how, and place where:
 *
 *   12             a byte of the mark is wrong: place is that of the first, 0, 1 or 2
 *   13             the version is neither 1 nor 2: place is 3
 *   14             there are more than 1,024 states: place is 5
 *   9              the file ends short: place is n_bytes, where it ends; or it goes on behind its
 *                  last state: place is 15 + 16 x n, in version 2 15 + 20 x n, the first byte too
 *                  many
 *
 * The order is by place: each byte of the mark, the version, the number of states, and last the
 * length. A file that ends before a field's last byte is 9 at its end, whatever it has of that
 * field. So S is 9 at 1, and SX is 12 at 1; SPJ and one byte is 9 at 4, whatever that byte is; and
 * SPJ and the version 3 is 13 at 3, though the file ends there.
 *
 * Refused with 9, 12, 13 or 14, before all others: the file is damaged. 6: n_out or n_work below n.
 * 15, 7, 8: as hejmirov_speed; 15 in version 2 alone, and as no damage: it has no place.
 */
uint32_t hejmirov_job(const uint8_t *bytes, size_t n_bytes,
                      uint32_t *out, size_t n_out,
                      uint32_t *work, size_t n_work,
                      uint32_t *states,
                      uint32_t *frames,
                      uint32_t *changes,
                      uint64_t *place);

/* The old number of a refusal: HEJMIROV_JOB_DAMAGED, which is 9, for 9, 12, 13 and 14, and every
 * other number as it is.
 *
 *   number         any 32-bit number
 *
 * It is for programs that know 9 alone, which was the number of every damage. It also tells of a
 * job's refusal whether it has a place: where its old number is HEJMIROV_JOB_DAMAGED. Ask
 * hejmirov_refusal_text for the number as it came: for the old one it has the text of 9, the length.
 */
uint32_t hejmirov_job_old_number(uint32_t number);

/* Serial link: a job that comes a few bytes at a time. Begin, its parts in order, end; however it
 * is cut, the end answers what hejmirov_job answers on the joined bytes.
 *
 * What has come stands in the link's memory: HEJMIROV_LINK_BYTES bytes, lent to each call and in
 * between left as they are. They may be kept anywhere, copied and moved, have no alignment, and
 * need no giving back. Calls on one memory follow each other; calls on others may run at once.
 *
 * Every content of that memory has a meaning. Its first eight bytes are a number, the least byte
 * first. From 1 to 20,497 it says that a job is under way: one byte less has come, and these bytes
 * stand behind the number. Any other number, 0 too, says that no job is under way: the last one has
 * ended. So memory in which nothing was begun, all zeros for instance, has ended.
 */

/* Begins a job. One that is under way is forgotten.
 *
 *   link           a link's memory, of any content; afterwards a job is under way of which nothing
 *                  has come; all but its first eight bytes are as they were
 *
 * Refused with 6: n_link below HEJMIROV_LINK_BYTES. The memory is then as it was.
 */
uint32_t hejmirov_link_begin(uint8_t *link, size_t n_link);

/* Takes the next part of the job that is under way.
 *
 *   link           a link's memory; afterwards the part's bytes stand behind those that have come
 *   part           any number of bytes, 0 too, cut anywhere
 *
 * Of a job that is longer than the longest that there is, 20,495 bytes, one byte more is kept and
 * counted and no others, so that any number may come: its end is refused as the whole file is, with
 * 9 at the first byte too many where its head is good, else with 12, 13 or 14.
 *
 * Refused with 11, before all others: no job is under way. 6: n_link below HEJMIROV_LINK_BYTES. The
 * memory is then as it was.
 */
uint32_t hejmirov_link_part(uint8_t *link, size_t n_link,
                            const uint8_t *part, size_t n_part);

/* Ends the job that is under way, and answers it: the durations of its states, at its speed.
 *
 *   link           a link's memory; afterwards no job is under way, also where the job is refused
 *                  with 9, 12, 13, 14, 6, 15, 7 or 8; all but the first eight bytes are as they
 *                  were
 *   out            afterwards the n durations, each at least its state's shortest; n is the job's
 *                  number of states, at most HEJMIROV_MAX_JOB_STATES
 *   work           n numbers; afterwards n zeros
 *   states         afterwards n
 *   frames         afterwards the durations' total
 *   changes        afterwards the changes of hejmirov_speed
 *   place          afterwards, of a damaged job alone, the place of a byte, as of hejmirov_job; it
 *                  counts from the job's first byte, over all parts; whatever else is answered, it
 *                  is as it was
 *
 * It needs about 20 KiB of stack.
 *
 * Refused with 11, before all others: no job is under way. 6: n_link below HEJMIROV_LINK_BYTES. The
 * memory is then as it was. Then as hejmirov_job: 9, 12, 13 or 14; 6, 15, 7, 8; the job has then
 * ended.
 */
uint32_t hejmirov_link_end(uint8_t *link, size_t n_link,
                           uint32_t *out, size_t n_out,
                           uint32_t *work, size_t n_work,
                           uint32_t *states,
                           uint32_t *frames,
                           uint32_t *changes,
                           uint64_t *place);

/* Settings: a store of voices' settings, and its file. A voice is a number, 0 to 65,535, and has
 * three settings: the speed, the GV weight and the voicing threshold.
 *
 * A store is two lists, lent to each call and in between left as they are. They may be kept
 * anywhere, copied and moved, and need no giving back. Calls that write one store follow each
 * other; calls that only read it, and calls on others, may run at once.
 *
 *   voices         HEJMIROV_MAX_VOICES numbers, one for each place
 *   settings       HEJMIROV_STORE_SETTINGS settings as doubles' bits; place p has numbers 3 x p,
 *                  3 x p + 1 and 3 x p + 2: speed, GV weight, threshold
 *
 * Longer lists may be lent: what lies behind these is not looked at and not touched.
 *
 * A place is free where its number is above 65,535, and where an earlier place has the same number;
 * any other place holds the voice of its number. So every content of the lists has a meaning, and
 * no voice is held twice. A store that was never cleared holds what its lists say: of all zeros,
 * for instance, the voice 0.
 *
 * To go through a store that was cleared or read, take each place whose number is at most
 * HEJMIROV_MAX_VOICE, and hejmirov_settings_get for it: the calls themselves repeat no number.
 *
 * A refused call leaves both lists as they were.
 */

/* Clears a store: afterwards every place is free.
 *
 *   voices         any numbers; afterwards HEJMIROV_FREE_PLACE in each place
 *   settings       any settings; afterwards zeros
 *
 * Refused with 6: n_voices below HEJMIROV_MAX_VOICES, or n_settings below HEJMIROV_STORE_SETTINGS.
 */
uint32_t hejmirov_settings_clear(uint32_t *voices, size_t n_voices,
                                 uint64_t *settings, size_t n_settings);

/* Sets a voice's settings. A voice that is held keeps its place; any other takes the first that is
 * free, which may be one that a removed voice has left.
 *
 *   voices         a store's numbers; afterwards the voice's stands in its place
 *   settings       a store's settings; afterwards the three stand in that place
 *   voice          the number of the voice
 *   speed, gv_weight, threshold
 *                  any doubles, kept bit for bit; every NaN is kept as 0x7FF8000000000000
 *
 * Refused with 3: voice above 65,535. 6: as hejmirov_settings_clear. 17: no place is free, as 256
 * other voices are held.
 */
uint32_t hejmirov_settings_set(uint32_t *voices, size_t n_voices,
                               uint64_t *settings, size_t n_settings,
                               uint32_t voice,
                               double speed,
                               double gv_weight,
                               double threshold);

/* A voice's settings.
 *
 *   voices, settings
 *                  a store
 *   voice          the number of the voice
 *   speed, gv_weight, threshold
 *                  afterwards the voice's; a NaN's payload stays in the store and is not handed out
 *
 * Refused with 3: voice above 65,535. 6: as hejmirov_settings_clear. 19: the voice is not held.
 */
uint32_t hejmirov_settings_get(const uint32_t *voices, size_t n_voices,
                               const uint64_t *settings, size_t n_settings,
                               uint32_t voice,
                               double *speed,
                               double *gv_weight,
                               double *threshold);

/* Removes a voice: its place is free then, and all others stay where they are.
 *
 *   voices         a store's numbers; afterwards HEJMIROV_FREE_PLACE in the voice's place, and in
 *                  every later place with its number, where it would else be held
 *   settings       a store's settings; afterwards zeros for the three of the voice's place
 *   voice          the number of the voice
 *
 * Refused with 3: voice above 65,535. 6: as hejmirov_settings_clear. 19: the voice is not held.
 */
uint32_t hejmirov_settings_remove(uint32_t *voices, size_t n_voices,
                                  uint64_t *settings, size_t n_settings,
                                  uint32_t voice);

/* How many voices a store holds.
 *
 *   voices         the store's numbers
 *   held           afterwards how many places hold a voice, 0 to 256
 *
 * Refused with 6: n_voices below HEJMIROV_MAX_VOICES.
 */
uint32_t hejmirov_settings_count(const uint32_t *voices, size_t n_voices,
                                 uint32_t *held);

/* Reads a settings file into a store. What the store held is gone.
 *
 *   voices         any numbers; afterwards the file's voices in the first places, and
 *                  HEJMIROV_FREE_PLACE in all others
 *   settings       any settings; afterwards the file's, bit for bit, a NaN's too, and zeros in the
 *                  free places
 *   bytes          the whole file, little-endian: the three bytes VST, version 1 or 2 (16 bits),
 *                  the number of records n (16 bits), then the records: a voice's number (16
 *                  bits), its speed, its GV weight and, in version 2, its threshold (doubles'
 *                  bits); 7 + 18 x n bytes in version 1, 7 + 26 x n in version 2
 *
 * In version 1 every threshold is 0.5. The later record of a voice replaces the earlier in its
 * place, so that a file may have more records than a store has places.
 *
 * Refused with 6: as hejmirov_settings_clear. 18: the file doesn't begin with VST, or ends before
 * the version's last byte. 16: the version is neither 1 nor 2. 18: the file has another length. 17:
 * there are more than 256 different voices. So VST and the version 3 is 16, though the file ends
 * there, and VST and one byte is 18, whatever that byte is.
 *
 * It needs about 7 KiB of stack.
 */
uint32_t hejmirov_settings_read(uint32_t *voices, size_t n_voices,
                                uint64_t *settings, size_t n_settings,
                                const uint8_t *bytes, size_t n_bytes);

/* Writes a store's settings file, version 2: a record for each place that holds a voice, in the
 * order of the places. Reading it gives the same voices in the same order, with the same settings
 * bit for bit; the free places between them are not in the file.
 *
 *   voices, settings
 *                  a store
 *   out            afterwards the file's bytes, 7 + 26 x n, where n is how many voices are held;
 *                  HEJMIROV_SETTINGS_WRITTEN_BYTES are enough for any store
 *   written        afterwards how many bytes these are
 *
 * Refused with 6: as hejmirov_settings_clear, or n_out below 7 + 26 x n.
 */
uint32_t hejmirov_settings_write(const uint32_t *voices, size_t n_voices,
                                 const uint64_t *settings, size_t n_settings,
                                 uint8_t *out, size_t n_out,
                                 uint64_t *written);

/* Houses: a table of window sets that two houses share, 0 and 1. It has HEJMIROV_SLOTS slots. Slots
 * 0 to 3 are common: both houses may use them, and they are set when the table is started and never
 * again. Slots 4 to 7 are house 0's own and 8 to 11 house 1's: only that house may set, clear or
 * use them.
 *
 * A table is two lists, lent to each call and in between left as they are. They may be kept
 * anywhere, copied and moved, and need no giving back. Calls that write one table follow each
 * other; calls that only read it, and calls on others, may run at once.
 *
 *   widths_table   HEJMIROV_TABLE_WIDTHS widths; slot s has the four from 4 x s on
 *   coefficients_table
 *                  HEJMIROV_TABLE_COEFFICIENTS coefficients; slot s has the sixty from 60 x s on
 *
 * Longer lists may be lent: what lies behind these is not looked at and not touched.
 *
 * The widths of a slot are its four numbers without the zeros at their end, and its coefficients as
 * many of its sixty as these widths sum to. A slot holds this window set, or is empty where a
 * trajectory would refuse it. So every content of the lists has a meaning, and a table may be looked
 * at that was never started: of all zeros, for instance, every slot is empty. Of a slot that a list
 * ends before, or in, what is there counts; where nothing else is refused, such a table is, with 6.
 * Coefficients are kept bit for bit.
 *
 * Whatever calls one house makes, and however they lie between the other's, what the other is
 * answered and refused, its free count, its own slots and the common ones are the same as if it had
 * been alone. hejmirov_table_start alone is not covered by this: only the owner of the unit makes
 * that call.
 *
 * A refused call leaves both lists as they were. A slot or house that doesn't exist is refused as
 * another house's slot is.
 */

/* Starts a table, whatever its lists hold: the owner's call. Afterwards the common sets are in the
 * first slots, and every other slot is empty, those of both houses too.
 *
 *   widths_table, coefficients_table
 *                  any numbers; afterwards the table: set i in slot i, with zeros behind its widths
 *                  and behind its coefficients, and zeros in every other slot
 *   common_widths  the widths of the sets, in rows of one length, a row for each set:
 *                  n_common_widths / common numbers a row, rounded down. Zeros stand behind the
 *                  last width of a set that has fewer
 *   common_coefficients
 *                  window after window, set after set, all finite
 *   common         how many sets these are, 0 to 4
 *
 * Sets of the windows (1) and (1), (-0.5, 0, 0.5) have the widths 1, 0, 1, 3 and the coefficients 1,
 * 1, -0.5, 0, 0.5.
 *
 * Refused with 23: common above 4. 1: a row has more than four numbers, or without the zeros at its
 * end no number, or one that is not 1 to 15. 2: a coefficient is infinite or NaN. 4:
 * n_common_widths is not a multiple of common, or n_common_coefficients not the sum of all widths;
 * without a set both lists are empty. 6: n_widths_table below HEJMIROV_TABLE_WIDTHS, or
 * n_coefficients_table below HEJMIROV_TABLE_COEFFICIENTS.
 */
uint32_t hejmirov_table_start(uint32_t *widths_table, size_t n_widths_table,
                              double *coefficients_table, size_t n_coefficients_table,
                              const uint32_t *common_widths, size_t n_common_widths,
                              const double *common_coefficients, size_t n_common_coefficients,
                              uint32_t common);

/* Sets a slot of a house's own that is empty.
 *
 *   widths_table, coefficients_table
 *                  a table; afterwards the slot has this set, with zeros behind its widths and
 *                  behind its coefficients
 *   house          0 or 1, the house that makes the call
 *   slot           4 to 7 for house 0, 8 to 11 for house 1
 *   widths         1 to 4 numbers, each 1 to 15
 *   coefficients   window after window, all finite
 *
 * Refused with 23: the slot is not the house's own. 25: it is set already. 1: n_widths is not 1 to
 * 4, or a width not 1 to 15. 2: a coefficient is infinite or NaN. 4: n_coefficients is not the sum
 * of the widths. 6: as hejmirov_table_start.
 */
uint32_t hejmirov_table_set(uint32_t *widths_table, size_t n_widths_table,
                            double *coefficients_table, size_t n_coefficients_table,
                            uint32_t house,
                            uint32_t slot,
                            const uint32_t *widths, size_t n_widths,
                            const double *coefficients, size_t n_coefficients);

/* Clears a slot of a house's own. It can be set again.
 *
 *   widths_table, coefficients_table
 *                  a table; afterwards the slot has zeros
 *   house          0 or 1, the house that makes the call
 *   slot           4 to 7 for house 0, 8 to 11 for house 1
 *
 * Refused with 23: the slot is not the house's own. 24: it is empty. 6: as hejmirov_table_start.
 */
uint32_t hejmirov_table_clear(uint32_t *widths_table, size_t n_widths_table,
                              double *coefficients_table, size_t n_coefficients_table,
                              uint32_t house,
                              uint32_t slot);

/* The window set of a slot, as the calls of trajectories take it: these coefficients, and the widths
 * up to the first zero.
 *
 *   widths_table, coefficients_table
 *                  a table
 *   house          0 or 1, the house that makes the call
 *   slot           0 to 3, or 4 to 7 for house 0, 8 to 11 for house 1
 *   first          afterwards the place of the set's first coefficient: they start at
 *                  coefficients_table + first
 *   widths         afterwards the set's widths, with zeros behind the last: four numbers
 *   count          afterwards how many coefficients the set has, the sum of its widths
 *
 * Refused with 23: the slot is neither common nor the house's own. 24: it is empty. 6: as
 * hejmirov_table_start, or n_widths below HEJMIROV_MAX_WINDOWS.
 */
uint32_t hejmirov_table_use(const uint32_t *widths_table, size_t n_widths_table,
                            const double *coefficients_table, size_t n_coefficients_table,
                            uint32_t house,
                            uint32_t slot,
                            uint64_t *first,
                            uint32_t *widths, size_t n_widths,
                            uint64_t *count);

/* How many of a house's own four slots are empty.
 *
 *   widths_table, coefficients_table
 *                  a table
 *   house          0 or 1, the house that makes the call
 *   free           afterwards how many, 0 to 4
 *
 * Refused with 23: there is no such house. 6: as hejmirov_table_start.
 */
uint32_t hejmirov_table_free(const uint32_t *widths_table, size_t n_widths_table,
                             const double *coefficients_table, size_t n_coefficients_table,
                             uint32_t house,
                             uint32_t *free);

/* Words: when each word of an utterance sounds, for a text that is read along. A word is a number
 * of consecutive labels, 0 too; a pause is a word like any other. All calls but hejmirov_words_read
 * are lent
 *
 *   words          each word's number of labels, in order; words are counted from 0
 *   nstate         states a label, 1 to 16
 *   durations      one number of frames a state, 0 too, in order, as hejmirov_fit and others give
 *                  them; there are the words' total x nstate of them
 *
 * A word's span is two numbers: its first frame, which is how many frames the words before it have,
 * and the frame after its last, which is that and its own frames. So words touch: the first begins
 * at frame 0, each begins where the one before it ends, and the last ends at the durations' total;
 * every frame lies in exactly one word; and a word of no frames, one of no labels too, has equal
 * ends.
 *
 * Words of 1, 0 and 2 labels with nstate 2 and durations 2, 3, 4, 0, 1 and 5 have the spans 0 and
 * 5, 5 and 5, 5 and 15; in milliseconds 0 and 25, 25 and 25, 25 and 75; at frame 5 the third
 * sounds.
 *
 * The numbers with which these calls refuse are those of enum hejmirov_words_refusal, and their
 * lines for a log those of hejmirov_words_refusal_text.
 */

/* Each word's first frame and the frame after its last.
 *
 *   words, nstate, durations
 *                  as above
 *   spans          afterwards 2 x n_words numbers, the span of word w at 2 x w and 2 x w + 1
 *
 * Refused with 5: nstate out of range, n_durations above 4,096, or the durations' total above
 * 65,536. 1: n_durations is not the words' total x nstate, or n_words above 4,294,967,295. 4:
 * n_spans below 2 x n_words.
 */
uint32_t hejmirov_words_spans(const uint32_t *words, size_t n_words,
                              uint32_t nstate,
                              const uint32_t *durations, size_t n_durations,
                              uint32_t *spans, size_t n_spans);

/* The same in whole milliseconds, of which a frame has 5.
 *
 *   words, nstate, durations
 *                  as above
 *   spans          afterwards 2 x n_words numbers, each 5 times that of hejmirov_words_spans
 *
 * Refused as hejmirov_words_spans.
 */
uint32_t hejmirov_words_milliseconds(const uint32_t *words, size_t n_words,
                                     uint32_t nstate,
                                     const uint32_t *durations, size_t n_durations,
                                     uint32_t *spans, size_t n_spans);

/* The word that sounds at a frame: the one whose first frame the frame has reached and whose frame
 * after its last it has not. A word of no frames never sounds.
 *
 *   words, nstate, durations
 *                  as above
 *   frame          counted from the utterance's start
 *   word           afterwards the word's number, below n_words
 *
 * Refused with 5, 1: as hejmirov_words_spans. 2: frame is not below the durations' total.
 */
uint32_t hejmirov_words_at(const uint32_t *words, size_t n_words,
                           uint32_t nstate,
                           const uint32_t *durations, size_t n_durations,
                           uint32_t frame,
                           uint32_t *word);

/* Where one word's numbers stand in a trajectory. The trajectory's numbers are not read. The parts
 * of all words, in order, are the whole trajectory.
 *
 *   words, nstate, durations
 *                  as above
 *   trajectory     total of the durations x v numbers
 *   v              numbers a frame, 1 to 64
 *   word           below n_words
 *   first          afterwards the word's first number: its part starts at trajectory + first
 *   count          afterwards how many numbers it has, its frames x v; 0 for a word of no frames
 *
 * Refused with 5: as hejmirov_words_spans, and where v is out of range or n_trajectory is not the
 * durations' total x v. 1: as hejmirov_words_spans. 2: no such word.
 */
uint32_t hejmirov_words_excerpt(const uint32_t *words, size_t n_words,
                                uint32_t nstate,
                                const uint32_t *durations, size_t n_durations,
                                const double *trajectory, size_t n_trajectory,
                                uint32_t v,
                                uint32_t word,
                                uint64_t *first,
                                uint64_t *count);

/* Writes the timing file of words. Reading it gives the spans of hejmirov_words_spans.
 *
 *   words, nstate, durations
 *                  as above
 *   out            afterwards the file's bytes, little-endian: the three bytes RAL, version 1 (16
 *                  bits), the number of words (32 bits), then each word's first frame and the frame
 *                  after its last (32 bits each); 9 + 8 x n_words bytes
 *   written        afterwards how many bytes these are
 *
 * Refused with 5, 1: as hejmirov_words_spans. 4: n_out below 9 + 8 x n_words.
 */
uint32_t hejmirov_words_write(const uint32_t *words, size_t n_words,
                              uint32_t nstate,
                              const uint32_t *durations, size_t n_durations,
                              uint8_t *out, size_t n_out,
                              uint64_t *written);

/* Reads a timing file: the spans of its words. Frames are any 32-bit numbers, and there may be
 * words of no frames.
 *
 *   bytes          the whole file, as hejmirov_words_write gives it; n is its number of words, of
 *                  a file that is not malformed (n_bytes - 9) / 8
 *   spans          afterwards 2 x n numbers, the span of word w at 2 x w and 2 x w + 1
 *   words          afterwards n
 *
 * Refused with 3: the file is malformed. It doesn't begin with RAL, its version is not 1, its
 * length is not 9 + 8 x n, the first word doesn't begin at 0, a word doesn't begin where the one
 * before it ends, or a word ends before it begins. 4: n_spans below 2 x n.
 */
uint32_t hejmirov_words_read(const uint8_t *bytes, size_t n_bytes,
                             uint32_t *spans, size_t n_spans,
                             uint32_t *words);

#ifdef __cplusplus
}
#endif

#endif
