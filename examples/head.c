/* A head's frame loop, as firmware would have it: a lens table grows between frames; then points are looked up in it
 * and a list of observations is undistorted; the same table is built in sixteen-bit numbers, for a part without floats,
 * compared with the first, and read in whole numbers; last a lens whose border doesn't settle everywhere.
 * examples/run-head builds and runs it; --measure times units instead. */
#include "lens.h"

#include <inttypes.h>
#include <stdio.h>
#include <string.h>
#include <time.h>

#define WIDTH 640
#define HEIGHT 480
#define FLOATS LENS_TABLE_FLOATS(WIDTH, HEIGHT)
#define NUMBERS LENS_TABLE_NUMBERS(WIDTH, HEIGHT)

/* All the memory there is; nothing is allocated. The second and third table are only there to compare the first with:
 * a head has one of floats or one of sixteen-bit numbers. */
static float table[FLOATS], at_once[FLOATS];
static int16_t sixteen[NUMBERS];
static uint8_t job[LENS_JOB_BYTES], saved[LENS_JOB_BYTES];

/* The camera of the Rust's own test. */
static const double kb[LENS_KB_COUNT] = {1000, 1000, 320, 280, 0.1, 0.01, 0.001, 0.0001};

/* Of this lens some samples take all the updates that there can be, and some haven't settled by then. */
static const double stretched[LENS_KB_COUNT] = {500, 500, 320, 240, -1.6, 0, 0, 0.2};

/* What a turn says: zeros, if it was refused before any unit. */
struct turned {
    uint64_t status, done, units, updates, unsettled, first;
};

static uint64_t word_at(const uint8_t *bytes, size_t place) {
    uint64_t word;
    memcpy(&word, bytes + place, sizeof word);
    return word;
}

static void read_answer(const uint8_t *answer, struct turned *says) {
    says->status = word_at(answer, LENS_TURN_STATUS);
    says->done = word_at(answer, LENS_TURN_DONE);
    says->units = word_at(answer, LENS_TURN_UNITS);
    says->updates = word_at(answer, LENS_TURN_UPDATES);
    says->unsettled = word_at(answer, LENS_TURN_UNSETTLED);
    says->first = word_at(answer, LENS_TURN_FIRST);
}

static uint8_t turn(uint8_t *of, float *cells, uint64_t allowance, struct turned *says) {
    uint8_t answer[LENS_TURN_BYTES] = {0};
    uint8_t no = lens_turn(of, LENS_JOB_BYTES, cells, FLOATS, allowance, answer, sizeof answer);
    read_answer(answer, says);
    return no;
}

static uint8_t turn16(uint8_t *of, int16_t *cells, uint64_t allowance, struct turned *says) {
    uint8_t answer[LENS_TURN_BYTES] = {0};
    uint8_t no = lens_turn16(of, LENS_JOB_BYTES, cells, NUMBERS, allowance, answer, sizeof answer);
    read_answer(answer, says);
    return no;
}

/* A fresh job of a kb lens. */
static uint8_t begin(const double lens[LENS_KB_COUNT], uint8_t strict, uint8_t *of) {
    size_t length = LENS_KB_COUNT * sizeof(double);
    return lens_job_new(LENS_KB, lens_bytes_of(lens), length, WIDTH, HEIGHT, strict, of, LENS_JOB_BYTES);
}

/* ---- the table */

/* How many units this frame has time for. A head works this out once (docs/HEAD.md); here some frames are busy. */
static uint64_t allowance(unsigned frame) {
    return frame % 7 == 6 ? 0 : 1500 + 97 * (frame % 5);
}

/* Between two frames the head is switched off: the job goes to flash and comes back. (So do the cells done.) */
static void switch_off_and_on(void) {
    memcpy(saved, job, sizeof job);
    memset(job, 0xff, sizeof job);
    memcpy(job, saved, sizeof job);
}

/* Frame by frame until the table is finished, or a turn is refused: that number. */
static uint8_t in_frames(const double lens[LENS_KB_COUNT], uint8_t strict, struct turned *says) {
    memset(says, 0, sizeof *says);
    uint8_t no = begin(lens, strict, job);
    for (unsigned frame = 0; no == LENS_OK && says->status != LENS_STATUS_FINISHED; frame++) {
        no = turn(job, table, allowance(frame), says);
        if (no == LENS_OK && (frame % 50 == 0 || says->status == LENS_STATUS_FINISHED))
            printf("frame %3u: %6" PRIu64 " of %" PRIu64 " units, %" PRIu64 " updates%s\n", frame, says->done,
                   says->units, says->updates, says->status == LENS_STATUS_FINISHED ? ", finished" : "");
        if (frame == 120)
            switch_off_and_on();
    }
    return no;
}

/* Strict at first: a lens that settles everywhere on the border needs no second thought. One that doesn't is told of,
 * here with the first such sample; then this head takes the table all the same, and keeps by it how many there are.
 * Another head may stop here: see docs/HEAD.md. */
static int build(const double lens[LENS_KB_COUNT]) {
    struct turned says;
    uint8_t no = in_frames(lens, 1, &says);
    if (no == LENS_REFUSED_SAMPLE_UNSETTLED) {
        printf("sample %" PRIu64 " has not settled: refused %u; begun again, not strict\n", says.done + 1, no);
        no = in_frames(lens, 0, &says);
    }
    if (no != LENS_OK) {
        printf("no table: refused %u after %" PRIu64 " units\n", no, says.done);
        return 1;
    }
    if (says.unsettled != 0)
        printf("a doubtful table: %" PRIu64 " of %" PRIu64 " samples have not settled, the first is %" PRIu64 "\n",
               says.unsettled, LENS_SAMPLES(WIDTH, HEIGHT), says.first);
    return 0;
}

/* The same table in a single turn: it must be the same in every cell, and so must the job. */
static int compare(void) {
    struct turned says;
    if (begin(kb, 1, saved) != LENS_OK || turn(saved, at_once, UINT64_MAX, &says) != LENS_OK ||
        says.status != LENS_STATUS_FINISHED)
        return 1;
    int same = memcmp(table, at_once, sizeof table) == 0 && memcmp(job, saved, sizeof job) == 0;
    printf("in one turn: %s\n", same ? "every cell and the job are the same" : "NOT THE SAME");
    return same ? 0 : 1;
}

/* A saved job with one bit lost is refused, and nothing is written: begin again. */
static int damage(void) {
    struct turned says;
    memcpy(saved, job, sizeof job);
    saved[LENS_JOB_EDGES] ^= 1;
    uint8_t no = turn(saved, at_once, 1000, &says);
    printf("one bit of the job is lost: refused %u\n", no);
    if (no != LENS_REFUSED_IMPOSSIBLE_JOB || begin(kb, 1, saved) != LENS_OK ||
        turn(saved, at_once, 1000, &says) != LENS_OK)
        return 1;
    printf("begun again: %" PRIu64 " of %" PRIu64 " units\n", says.done, says.units);
    return 0;
}

/* ---- the part without floats */

static double size(double x) {
    return x < 0 ? -x : x;
}

/* From a float to the next one away from zero. */
static double step(float x) {
    uint32_t bits;
    float next;
    memcpy(&bits, &x, sizeof bits);
    bits++;
    memcpy(&next, &bits, sizeof next);
    return size((double)next - (double)x);
}

/* Whether a float and a number of thirty-seconds are as near as they have to be, both being of one pixel: 1/64 apart at
 * most, and half the float's step more, which is what the float itself may be off. */
static int near(float one, int16_t other, double *most) {
    double off = size((double)one - (double)other / LENS_PER_PIXEL);
    *most = off > *most ? off : *most;
    return off <= 1.0 / 64 + step(one) / 2;
}

/* The table of the same camera in thirty-seconds of a pixel, by the same turns; and each number beside the float. The
 * jobs are the same, as none says which kind of table it is for. */
static int build16(void) {
    struct turned says;
    memset(&says, 0, sizeof says);
    uint8_t no = begin(kb, 1, saved);
    for (unsigned frame = 0; no == LENS_OK && says.status != LENS_STATUS_FINISHED; frame++)
        no = turn16(saved, sixteen, allowance(frame), &says);
    if (no != LENS_OK || memcmp(job, saved, sizeof job) != 0) {
        printf("no table of sixteen bits: refused %u\n", no);
        return 1;
    }
    double most = 0;
    size_t wrong = 0;
    for (size_t i = 0; i < FLOATS; i++)
        wrong += !near(table[i], sixteen[i], &most);
    printf("in sixteen bits: %zu bytes for %zu, at most %.6f of a pixel apart, %zu of %zu numbers too far apart\n",
           sizeof sixteen, sizeof table, most, wrong, (size_t)FLOATS);
    return wrong == 0 ? 0 : 1;
}

/* What such a part computes, in whole numbers alone: a number of the pixel between four cells, in 2^-21 of a pixel, with
 * nothing rounded. Column and row come in 256ths of a cell, below 256 * (WIDTH - 1) and 256 * (HEIGHT - 1). 32 bits are
 * enough: the four weights are 65,536 together, and a cell has sixteen bits. */
static int32_t between(uint32_t column, uint32_t row, unsigned which) {
    const int16_t *at = sixteen + LENS_TABLE_CELL(WIDTH, column / 256, row / 256) + which;
    const int16_t *below = at + 2 * WIDTH;
    int32_t right = (int32_t)(column % 256), down = (int32_t)(row % 256);
    int32_t upper = at[0] * (256 - right) + at[2] * right;
    int32_t lower = below[0] * (256 - right) + below[2] * right;
    return upper * (256 - down) + lower * down;
}

/* Only printing makes doubles of them. */
static void look_up16(uint32_t column, uint32_t row) {
    int32_t u = between(column, row, 0), v = between(column, row, 1);
    printf("column %.2f, row %.2f: pixel %.3f %.3f\n", column / 256.0, row / 256.0, u / 2097152.0, v / 2097152.0);
}

/* ---- points and pixels */

static void look_up(double x, double y) {
    double pixel[LENS_PIXEL_BYTES / sizeof(double)];
    uint8_t no = lens_lookup(table, FLOATS, job + LENS_JOB_REGION, LENS_REGION_BYTES, WIDTH, HEIGHT, x, y,
                             (uint8_t *)pixel, sizeof pixel);
    if (no == LENS_OK)
        printf("point %g %g: pixel %.3f %.3f\n", x, y, pixel[0], pixel[1]);
    else
        printf("point %g %g: refused %u\n", x, y, no);
}

static int observe(void) {
    static const double pixels[3][2] = {{320, 280}, {12.5, 470}, {1e9, 0}};
    lens_observation list[3];
    for (size_t i = 0; i < 3; i++) {
        list[i].pixel_u = pixels[i][0];
        list[i].pixel_v = pixels[i][1];
    }
    uint8_t no = lens_observe_list(LENS_KB, LENS_PARAMS(kb), list, 3);
    if (no != LENS_OK) {
        printf("no list: refused %u\n", no);
        return 1;
    }
    for (size_t i = 0; i < 3; i++)
        if (list[i].number == LENS_OK)
            printf("pixel %g %g: point %.9f %.9f%s\n", list[i].pixel_u, list[i].pixel_v, list[i].point_x,
                   list[i].point_y, list[i].settled ? "" : ", not settled");
        else
            printf("pixel %g %g: refused %u\n", list[i].pixel_u, list[i].pixel_v, list[i].number);
    return 0;
}

/* ---- time, for --measure: samples and cells apart (docs/HEAD.md, "How to measure") */

/* A head reads its own timer here. */
static double nanoseconds_since(clock_t start) {
    return (double)(clock() - start) * (1e9 / CLOCKS_PER_SEC);
}

/* One turn of a job, done many times from the same saved bytes. */
static double of_a_turn(const uint8_t *from, uint64_t units) {
    const int times = 50000;
    struct turned says;
    clock_t start = clock();
    for (int i = 0; i < times; i++) {
        memcpy(job, from, sizeof job);
        turn(job, table, units, &says);
    }
    return nanoseconds_since(start) / times;
}

static int measure(const char *name, const double lens[LENS_KB_COUNT]) {
    static uint8_t before[LENS_JOB_BYTES];
    struct turned says;
    uint64_t updates = 0, most = 0;
    uint8_t no = begin(lens, 0, job);
    /* The border, sample by sample: the job is saved as it was before the sample with the most updates. */
    for (uint64_t i = 0; no == LENS_OK && i < LENS_SAMPLES(WIDTH, HEIGHT); i++) {
        memcpy(before, job, sizeof job);
        no = turn(job, table, 1, &says);
        if (says.updates - updates >= most) {
            most = says.updates - updates;
            memcpy(saved, before, sizeof saved);
        }
        updates = says.updates;
    }
    if (no != LENS_OK)
        return 1;
    /* Then all cells, in one turn. */
    clock_t start = clock();
    no = turn(job, table, UINT64_MAX, &says);
    double cell = nanoseconds_since(start) / (double)LENS_CELLS(WIDTH, HEIGHT);
    double none = of_a_turn(saved, 0), one = of_a_turn(saved, 1);
    printf("%s: a turn's own %.0f ns, a sample of %" PRIu64 " updates %.0f ns, a cell %.0f ns\n", name, none, most,
           one - none, cell);
    return no == LENS_OK ? 0 : 1;
}

int main(int count, char **words) {
    if (count == 2 && strcmp(words[1], "--measure") == 0)
        return measure("this lens", kb) != 0 || measure("a stretched lens", stretched) != 0;
    if (count != 1) {
        fprintf(stderr, "usage: %s [--measure]\n", words[0]);
        return 2;
    }
    if (build(kb) != 0 || compare() != 0 || damage() != 0)
        return 1;
    look_up(0, 0);
    look_up(0.1, -0.05);
    look_up(-0.25, 0.15);
    look_up(9, 0);
    if (build16() != 0)
        return 1;
    look_up16(256 * 319 + 128, 256 * 239 + 128);
    look_up16(256 * 100 + 64, 256 * 400);
    return observe() != 0 || build(stretched) != 0;
}
