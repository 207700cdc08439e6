/*
 * qiluvrait: quiet points and word times for recorded speech.
 *
 * The functions of the static library libc_api.a (`rt lib` in crates/c_api makes it; `tools/build-library`
 * makes libqiluvrait.a and libqiluvrait.so of it), for C99 and C++ on x86-64 Linux. Each takes every value
 * of its arguments, keeps no state, reads and writes no memory but what it is lent, and may be called from
 * several threads at once. Where NaN is returned or written, its sign and payload are free.
 *
 * What is lent: a list is a pointer followed by the number of its elements. The caller sees to it that
 * - the pointer isn't NULL, and is aligned for its type, also where the number is 0: a list without
 *   elements is any such pointer, which is neither read nor written through;
 * - all its elements are there; places that are only written may hold any bytes;
 * - no two lists of one call overlap, and until the call returns nothing else writes to them, or reads
 *   those that the call writes.
 *
 * A call that can refuse answers a refusal: 0 where it accepts, else document 01's number, and then
 * lent memory keeps its bits. Where several apply, the first of 3, 4, 1, 2, 7, 6.
 *
 * Times are in seconds. A frame is 160 samples at 16,000 samples a second: 10 ms.
 */
#ifndef QILUVRAIT_H
#define QILUVRAIT_H

#include <stdbool.h>
#include <stddef.h>
#include <stdint.h>

#ifdef __cplusplus
extern "C" {
#endif

/* The numbers of a refusal, as document 01 has them. 5 is the program fitlist's alone, and no call answers 8. */
enum qiluvrait_refusal {
    QILUVRAIT_ACCEPTED = 0,
    QILUVRAIT_REFUSED_TIME = 1,    /* a time outside its range */
    QILUVRAIT_REFUSED_LETTERS = 2, /* letters or units outside their range */
    QILUVRAIT_REFUSED_LENGTHS = 3, /* lists that belong together differ in length: words, with their phrase
                                      numbers where those are taken, or spans */
    QILUVRAIT_REFUSED_COUNTS = 4,  /* too many samples, words or spans, or too large a span count */
    QILUVRAIT_REFUSED_LAYOUT = 5,  /* the job file breaks its layout */
    QILUVRAIT_REFUSED_PLACES = 6,  /* too few places for the result or work space */
    QILUVRAIT_REFUSED_LEVELS = 7,  /* the number of levels isn't samples / 160, rounded down */
    QILUVRAIT_REFUSED_CUT = 8      /* in the pieces, a cut not beyond its piece's start */
};

/* ECMAScript's Math.min: NaN if either is NaN; else the lower one, -0 being below +0. */
double qiluvrait_js_min(double a, double b);

/* ECMAScript's Math.max: NaN if either is NaN; else the higher one, +0 being above -0. */
double qiluvrait_js_max(double a, double b);

/*
 * ECMAScript's Number.prototype.toFixed with three decimals, read back as a number: the thousandth
 * nearest the exact value of x, of two the one farther from zero, as the double nearest to it.
 * -0 gives +0, a negative x that rounds to nothing gives -0, and NaN and the infinities give x.
 */
double qiluvrait_js_to_fixed(double x);

/* IEEE 754's squareRoot, correctly rounded: -0 gives -0, and a number below zero gives NaN. */
double qiluvrait_sqrt(double x);

/*
 * The frame of t: t * 16000 and then / 160, each rounded to double, then the floor, and the nearest
 * end of int64_t where that is outside it. NaN gives 0. The roundings can move the start of a frame:
 * qiluvrait_frame_at(2.01) is 200, and frame 201 starts at 2.01.
 */
int64_t qiluvrait_frame_at(double t);

/*
 * qiluvrait_frame_at with the ceiling for the floor. qiluvrait_frame_ceil(4.03) is 404, and frame 403
 * starts at 4.03.
 */
int64_t qiluvrait_frame_ceil(double t);

/* qiluvrait_frame_at, or 0 where that is negative. */
int64_t qiluvrait_frame_from_zero(double t);

/* The time at which frame k starts: k * 160, exact and rounded to double, then / 16000. */
double qiluvrait_frame_seconds(int64_t k);

/* What qiluvrait_envelope answers: the floor under the levels; 0 where it refuses. */
struct qiluvrait_heard {
    uint32_t refusal;
    double floor;
};

/*
 * The level of each frame of 160 samples, in the first samples / 160 places of levels; further places
 * stay. The floor is a hundredth of the loudest level, and of 1e-9 where that is louder. Refusals: 4
 * above 57,600,000 samples, 6 for fewer places than frames.
 */
struct qiluvrait_heard qiluvrait_envelope(const float *samples, size_t samples_len, double *levels,
                                          size_t levels_len);

/* Whether a floor is the one that these levels give, bit for bit (any NaN like any other). */
bool qiluvrait_own_floor(const double *levels, size_t levels_len, double floor);

/*
 * An envelope: the levels of a recording, the floor under them and its sample count. They belong together,
 * and each call that needs sound takes all three, `levels`, `floor` and `count`, of one recording;
 * qiluvrait_own_floor tells whether floor and levels do belong together. (In Rattle `struct Envelope` holds
 * the three, and each of these calls has a form over it, with the same promise.)
 */

/* What qiluvrait_pieces answers: the number of pieces; 0 where it refuses. */
struct qiluvrait_cut {
    uint32_t refusal;
    size_t pieces;
};

/*
 * The pieces of a recording of count samples, from its levels and their floor: the first sample and
 * the end of each, in the first places of starts and ends; further places stay. Needs
 * (frames - 1) / 1203 + 1 places in each, and none for no frame. Refusals: 4, 7, 6.
 */
struct qiluvrait_cut qiluvrait_pieces(const double *levels, size_t levels_len, double floor, size_t count,
                                      size_t *starts, size_t starts_len, size_t *ends, size_t ends_len);

/* What qiluvrait_peak answers: the largest magnitude; 0 where it refuses. */
struct qiluvrait_level {
    uint32_t refusal;
    double level;
};

/*
 * The largest magnitude of the samples that a word spans, from floor(start * 16000) to before
 * ceil(end * 16000) and the last sample. NaN where that begins before sample 0 and isn't empty, or a
 * sample in it is NaN. Refusals: 4, and 1 for a time that isn't finite and from -7,200 to 7,200.
 */
struct qiluvrait_level qiluvrait_peak(const float *samples, size_t samples_len, double start, double end);

/*
 * Words: five lists, in which place i has word i's start and end, its letters (1 to 1,000), its units
 * (1 to 10,000) and its key. At most 4,096 words. Times are from -7,200 to 7,200, and an end may
 * precede its start. A call can leave times a little beyond that, below 8,192 in size: a later call
 * refuses them with 1.
 */

/* What qiluvrait_collapse_loops answers: the number of words left, and 1 where it is smaller than
 * before, else 0; both 0 where it refuses. */
struct qiluvrait_left {
    uint32_t refusal;
    uint32_t found;
    size_t count;
};

/*
 * Loops of a recognizer: for n = 1 to 4, three or more equal neighbouring runs of n keys become one,
 * the first of them with its times and numbers. The words left come first in all five lists, and the
 * places past them become zero. Refusals: 3, 4, 1, 2.
 */
struct qiluvrait_left qiluvrait_collapse_loops(double *starts, size_t starts_len, double *ends,
                                               size_t ends_len, uint32_t *letters, size_t letters_len,
                                               uint32_t *units, size_t units_len, uint32_t *keys,
                                               size_t keys_len);

/*
 * The three stages on sound take the levels and the floor of a recording, and its number of samples in
 * count. They answer 0 where they accept, whether a time moved or not, else the refusal: 3, 4, 1, 2 or
 * 7. A frame is loud where its level is above the floor.
 */

/*
 * Tails. A word is moved that starts less than 0.05 s after the word before it ends, in a loud frame
 * after a loud frame, where that sound stops within less than 0.05 s for each of the word's letters,
 * 8 quiet frames or more follow, and then, before the word's end, 3 loud ones. It then starts at the
 * first of these, and the word before ends no sooner than the first sound stops. Writes starts and
 * ends.
 */
uint32_t qiluvrait_hand_back_tails(double *starts, size_t starts_len, double *ends, size_t ends_len,
                                   const uint32_t *letters, size_t letters_len, const uint32_t *units,
                                   size_t units_len, const uint32_t *keys, size_t keys_len,
                                   const double *levels, size_t levels_len, double floor, size_t count);

/*
 * Onsets. The first word, and a word that starts 0.15 s or more after the word before it ends, look
 * back from the frame of their start for the earliest loud frame that is reached without 8 quiet ones
 * in a row, at most 60 frames, and not before the word before ends (the first: not before 0). The word
 * starts there, if that is sooner; with no loud frame in reach it starts where its own frame does, if
 * that is sooner. Writes starts.
 */
uint32_t qiluvrait_snap_onsets(double *starts, size_t starts_len, const double *ends, size_t ends_len,
                               const uint32_t *letters, size_t letters_len, const uint32_t *units,
                               size_t units_len, const uint32_t *keys, size_t keys_len,
                               const double *levels, size_t levels_len, double floor, size_t count);

/*
 * Ends. A word shorter than 0.06 s shares an edge with the next one, if that starts less than 0.06 s
 * after it, or before it: the word starts at the first loud frame up to the next one's end, if that is
 * later, and the edge, the word's end and the next one's start, divides what the two have, at least
 * 0.12 s, by their units, to three decimals. Any other word's sound is looked for from its start to the
 * next one's (after the last word: to the duration, in seconds) and ends before 8 quiet frames. Where
 * the word ends more than 0.05 s after its sound, or is shorter than 0.06 s, its end moves to the
 * sound's end, or to the next word's start or the duration, if that is sooner, but stays 0.06 s after
 * its start or later. A word without sound keeps its end. Writes starts and ends. The duration is
 * among the times for refusal 1.
 */
uint32_t qiluvrait_snap_ends(double *starts, size_t starts_len, double *ends, size_t ends_len,
                             const uint32_t *letters, size_t letters_len, const uint32_t *units,
                             size_t units_len, const uint32_t *keys, size_t keys_len,
                             const double *levels, size_t levels_len, double floor, size_t count,
                             double duration);

/*
 * Spans: three lists, in which place p has the start and the end of phrase p, from -7,200 to 7,200, and
 * how many words it has, at most 4,096. At most 4,096 spans. They may be empty, reversed or overlap.
 */

/* What qiluvrait_align_phrases answers: how many words are kept; 0 where it refuses. */
struct qiluvrait_placed {
    uint32_t refusal;
    size_t count;
};

/*
 * Phrases. Each span takes its count of words, in order, until words run out, and its words get its
 * number, from 0, in phrases. A word is inside its span where it starts 0.02 s before it or later, ends
 * 0.02 s after it or sooner, and lasts 0.04 s or longer: it keeps its times. Where a span has no such
 * word, its words share the span by letters. Else the words before the first inside one share the time
 * from the span's start to that word's start, and the words after the last inside one the time from
 * that word's end to the span's end. In all three a time below zero counts as none. Any other word
 * starts where the word before it ends, and ends where the next one started before it was moved, or
 * where it starts itself, if that is later. Words past all counts are dropped: their places become zero
 * in all five lists and in phrases. Needs a phrase place for every word; further ones stay. Without
 * spans every word is dropped. Refusals: 3, 4, 1, 2, 6.
 */
struct qiluvrait_placed qiluvrait_align_phrases(double *starts, size_t starts_len, double *ends,
                                                size_t ends_len, uint32_t *letters, size_t letters_len,
                                                uint32_t *units, size_t units_len, uint32_t *keys,
                                                size_t keys_len, const double *span_starts,
                                                size_t span_starts_len, const double *span_ends,
                                                size_t span_ends_len, const uint32_t *counts,
                                                size_t counts_len, uint32_t *phrases, size_t phrases_len);

/*
 * Evening. A word shorter than 0.08 s is crushed. Crushed words in a row are a run, and the word before
 * them belongs to it that lasts longer than 0.25 s plus 0.12 s for each of its letters. Runs are taken
 * from left to right, and a later one may take words that an earlier one moved. While the next word's
 * start leaves less than 0.05 s for each letter of the run, and the run's last word stands fewer than 6
 * places behind its first, the run takes that word along. Then it has a ceiling: the next word's start,
 * or behind the last word the sooner of the limit and 0.12 s for each of that word's letters after its
 * end. While the ceiling leaves less than 0.05 s for each letter, and the last word stands fewer than 6
 * places behind the first, the run takes the word before it along. It ends at the ceiling, or 0.12 s for
 * each letter and 0.1 s for each word after its start, if that is sooner, but not before its last word
 * ended; and its words share that time by letters. Where that end is before the run's start, they run
 * backwards. The limit, in seconds, is among the times for refusal 1 and may be +infinity. Answers 0
 * where it accepts, whether a time moved or not, else the refusal: 3, 4, 1 or 2. Writes starts and ends.
 */
uint32_t qiluvrait_even_out(double *starts, size_t starts_len, double *ends, size_t ends_len,
                            const uint32_t *letters, size_t letters_len, const uint32_t *units,
                            size_t units_len, const uint32_t *keys, size_t keys_len, double limit);

/*
 * What qiluvrait_last_run answers: found is 1 where there is sound, and start and end are its times; 0 and
 * zeros where there is none, or where it refuses.
 */
struct qiluvrait_run {
    uint32_t refusal;
    uint32_t found;
    double start;
    double end;
};

/*
 * The last run of sound between two times: the frames from that of `from` to before that of `to`, both from
 * zero. It ends with the last loud frame, and goes back over pauses of up to 15 quiet frames; 16 stop it. No
 * sound is found exactly where no loud frame is there, or the last frame of the run lies fewer than 3 frames
 * behind its first. Refusals: 4, 1, 7; both times are among the times for 1.
 */
struct qiluvrait_run qiluvrait_last_run(const double *levels, size_t levels_len, double floor, size_t count,
                                        double from, double to);

/*
 * Fits words to their sound. Starts are put in order, 0.02 s apart at the least, and ends between the start
 * and the duration. A word that starts in silence starts where three frames in a row are loud, searched up to
 * 1.5 s ahead and to 0.05 s before the next word, and keeps at most 0.5 s of its length. No word runs into the
 * next one. Crushed words are evened (qiluvrait_even_out) without a limit. Then each word's sound is searched
 * from its start to the next word's start, or to the duration: it ends before 15 quiet frames. A word in which
 * no frame is loud stays as it is in this step. An end that lies more than 0.05 s past it is cut back, where
 * that leaves the word 0.05 s for each letter, or 0.3 s. A word lasts until the next one where no 15 quiet
 * frames lie between, and the last one until its sound's end. Crushed words are evened again, with the
 * duration as limit. The duration, in seconds, is among the times for refusal 1. Answers 0 where it accepts,
 * else the refusal: 3, 4, 1, 2 or 7. Writes starts and ends.
 */
uint32_t qiluvrait_fit_to_sound(double *starts, size_t starts_len, double *ends, size_t ends_len,
                                const uint32_t *letters, size_t letters_len, const uint32_t *units,
                                size_t units_len, const uint32_t *keys, size_t keys_len,
                                const double *levels, size_t levels_len, double floor, size_t count,
                                double duration);

/*
 * Fits words to their sound, phrase by phrase. Word i is one of phrase phrases[i], whose span stands at that
 * place of the spans; a word whose number has no span stays as it is. The words of a phrase are fitted
 * (qiluvrait_fit_to_sound) with the sooner of count / 16000 and the span's end as duration, and kept inside
 * the span, 0.04 s long at the least. A last run of sound that starts more than 0.15 s after the last word,
 * before the span's end, becomes the last word's, and the word before ends at its start at the latest. Then
 * the phrase's words are evened, with the span's end as limit. A span under 0.04 s puts starts at its end
 * minus 0.04, before its own start. Nothing of a phrase depends on another phrase's words or span. Needs three
 * lists of work space, each as long as the words; what they hold afterwards is free, and after a refusal they
 * are as they were. A phrase list of another length than the words is refusal 3. Answers 0 where it accepts,
 * else the refusal: 3, 4, 1, 2, 7 or 6. Writes starts and ends, and the work space.
 */
uint32_t qiluvrait_fit_file(double *starts, size_t starts_len, double *ends, size_t ends_len,
                            const uint32_t *letters, size_t letters_len, const uint32_t *units,
                            size_t units_len, const uint32_t *keys, size_t keys_len,
                            const uint32_t *phrases, size_t phrases_len, const double *span_starts,
                            size_t span_starts_len, const double *span_ends, size_t span_ends_len,
                            const uint32_t *counts, size_t counts_len, const double *levels,
                            size_t levels_len, double floor, size_t count, double *work_starts,
                            size_t work_starts_len, double *work_ends, size_t work_ends_len,
                            uint32_t *work_letters, size_t work_letters_len);

/*
 * The tally of each span: the sum, over the words with its number, of the loud frames from that of the start
 * to before that of the end, both from zero. A frame under two of a span's words counts twice; a word whose
 * number has no span counts nowhere, and one that ends in the frame in which it starts, or before it, counts 0.
 * Span p's tally stands at place p; needs one place per span, and further places stay. A phrase list of another
 * length than the words is refusal 3. Answers 0 where it accepts, else the refusal: 3, 4, 1, 2, 7 or 6. Writes
 * places.
 */
uint32_t qiluvrait_tally(const double *starts, size_t starts_len, const double *ends, size_t ends_len,
                         const uint32_t *letters, size_t letters_len, const uint32_t *units,
                         size_t units_len, const uint32_t *keys, size_t keys_len, const uint32_t *phrases,
                         size_t phrases_len, const double *span_starts, size_t span_starts_len,
                         const double *span_ends, size_t span_ends_len, const uint32_t *counts,
                         size_t counts_len, const double *levels, size_t levels_len, double floor,
                         size_t count, size_t *places, size_t places_len);

/*
 * What qiluvrait_full_run answers: whether a loop was found, 1 or 0, the number of pieces, the final number of
 * words, and the floor under the levels; all 0 where it refuses.
 */
struct qiluvrait_report {
    uint32_t refusal;
    uint32_t found;
    size_t pieces;
    size_t words;
    double floor;
};

/*
 * The full run over a recording: its levels and their floor (qiluvrait_envelope), its pieces (qiluvrait_pieces),
 * and the words through loops, tails, onsets and ends, with samples / 16000 as duration, placing
 * (qiluvrait_align_phrases) and the fit by phrase (qiluvrait_fit_file). Without spans nothing is placed, and the
 * words are fitted over the whole recording (qiluvrait_fit_to_sound), with the same duration.
 *
 * Needs samples / 160 places in levels; (frames - 1) / 1203 + 1 in piece_starts and in piece_ends, and none for
 * no frame; a phrase place for every word; and three lists of work space, each as long as the words. Further
 * places of levels, and places past the pieces, stay. The final words come first in all five lists, and the
 * places past them become zero. Placing starts from the count that loops left: phrase places up to it hold the
 * words' phrase numbers, then zeros for the words that were dropped; the places past it stay, and without spans
 * all do. What the work space holds afterwards is free.
 *
 * Refusals: 3, 4, 1, 2, 6. 7 can't arise, for the levels are made here. After a refusal all lent memory is as it
 * was, the work space too. Writes all lists but the samples and the spans.
 */
struct qiluvrait_report qiluvrait_full_run(const float *samples, size_t samples_len, double *starts,
                                           size_t starts_len, double *ends, size_t ends_len,
                                           uint32_t *letters, size_t letters_len, uint32_t *units,
                                           size_t units_len, uint32_t *keys, size_t keys_len,
                                           const double *span_starts, size_t span_starts_len,
                                           const double *span_ends, size_t span_ends_len,
                                           const uint32_t *counts, size_t counts_len, uint32_t *phrases,
                                           size_t phrases_len, double *levels, size_t levels_len,
                                           size_t *piece_starts, size_t piece_starts_len,
                                           size_t *piece_ends, size_t piece_ends_len, double *work_starts,
                                           size_t work_starts_len, double *work_ends, size_t work_ends_len,
                                           uint32_t *work_letters, size_t work_letters_len);

#ifdef __cplusplus
}
#endif

#endif
