/*
 * A full run over one second of sound, and a refusal. tools/build-library --examples builds and runs it; by hand:
 *   cc -Itarget/library examples/c/full_run.c target/library/libqiluvrait.a -o full_run && ./full_run
 */
#include <math.h>
#include <stdio.h>

#include "qiluvrait.h"

#define SAMPLES 16000
#define FRAMES (SAMPLES / 160)
#define PIECES ((FRAMES - 1) / 1203 + 1)
#define WORDS 4
#define SPANS 2

/* One second: sound from 0.2 to 0.5 s, and from 0.7 s on. */
static void make_sound(float *samples) {
    for (int i = 0; i < SAMPLES; i++) {
        int sound = (i >= 3200 && i < 8000) || i >= 11200;
        samples[i] = sound ? 0.5f : 0.0f;
    }
}

/* The full run with a first word that starts at `first`; prints what it answers. */
static void run(const float *samples, double first) {
    double starts[WORDS] = {first, 0.32, 0.34, 0.4}, ends[WORDS] = {0.32, 0.34, 0.36, 0.9};
    uint32_t letters[WORDS] = {4, 4, 4, 5}, units[WORDS] = {4, 4, 4, 5}, keys[WORDS] = {1, 1, 1, 2};
    double span_starts[SPANS] = {0.0, 0.6}, span_ends[SPANS] = {0.6, 1.0};
    uint32_t counts[SPANS] = {1, 1};
    uint32_t phrases[WORDS], work_letters[WORDS];
    double levels[FRAMES], work_starts[WORDS], work_ends[WORDS];
    size_t piece_starts[PIECES], piece_ends[PIECES];

    struct qiluvrait_report report = qiluvrait_full_run(
        samples, SAMPLES, starts, WORDS, ends, WORDS, letters, WORDS, units, WORDS, keys, WORDS,
        span_starts, SPANS, span_ends, SPANS, counts, SPANS, phrases, WORDS, levels, FRAMES,
        piece_starts, PIECES, piece_ends, PIECES, work_starts, WORDS, work_ends, WORDS, work_letters, WORDS);

    if (report.refusal != QILUVRAIT_ACCEPTED) {
        printf("refused %u%s\n", (unsigned)report.refusal,
               report.refusal == QILUVRAIT_REFUSED_TIME ? ": a time outside its range" : "");
        return;
    }
    printf("loop found %u, pieces %zu, words %zu, floor %g\n", (unsigned)report.found, report.pieces, report.words, report.floor);
    for (size_t i = 0; i < report.pieces; i++)
        printf("piece %zu %zu\n", piece_starts[i], piece_ends[i]);
    for (size_t i = 0; i < report.words; i++)
        printf("word %g %g, phrase %u\n", starts[i], ends[i], (unsigned)phrases[i]);
}

int main(void) {
    static float samples[SAMPLES];
    make_sound(samples);
    run(samples, 0.3);
    run(samples, NAN);
    return 0;
}
