/* How much stack each function took, in bytes, for bench/run: it runs on a stack of its own that is painted before, and what is no
 * longer painted was used. A call of nothing in its place is taken off, but for its return address. Each model has one camera and a
 * table of 8 by 8 cells, built in one turn. A turn is done once before, as it calls memcpy: a program's first call of that looks for it,
 * which takes 3,000 bytes more. */
#define _GNU_SOURCE
#include "lens.h"

#include <stdio.h>
#include <string.h>
#include <ucontext.h>

#define STACK 65536
#define SIDE 8
#define FLOATS (2 * SIDE * SIDE)

static uint8_t stack[STACK] __attribute__((aligned(64)));
static ucontext_t home, away;

static const double params[][LENS_COUNT_MOST] = {
    {40, 41, 4, 3},
    {40, 41, 4, 3, 0.6, 1.1},
    {40, 41, 4, 3, 0.1, 0.01, 0.001, 0.0001},
    {40, 41, 4, 3, 0.1, 0.01, 0.001, 0.0005, 0.001, 0.02, 0.01, 0.001},
    {40, 41, 4, 3, 0.1, 0.01, 0.001, 0.0005, 0.001, 0.02, 0.01, 0.001, 0.001, 0.0002, -0.002, 0.0005},
};
static const size_t counts[] = {LENS_AFFINE_COUNT, LENS_EUCM_COUNT, LENS_KB_COUNT, LENS_BC_COUNT, LENS_BC12_COUNT};
#define MODELS (sizeof counts / sizeof *counts)

static float table[FLOATS];
static int16_t sixteen[FLOATS];
static uint8_t job[LENS_JOB_BYTES], job16[LENS_JOB_BYTES], answer[LENS_JACOBIAN_BYTES];
static lens_observation list[2] = {{.pixel_u = 1}, {.pixel_u = 2}};
static uint8_t model, no;

static const uint8_t *bytes(void) { return (const uint8_t *)params[model]; }
static size_t length(void) { return 8 * counts[model]; }

static double result;

/* What the calls below go to: the function itself, or nothing. */
static void *volatile to;
static uint8_t nothing(void) { return 0; }
#define CALL(name) ((__typeof__(&name))to)

static void distort(void) { no = CALL(lens_distort)(model, bytes(), length(), 0.1, 0.2, answer, 16); }
static void undistort(void) { no = CALL(lens_undistort)(model, bytes(), length(), 1, 2, answer, 24); }
static void by_point(void) { no = CALL(lens_dx_distort_x)(model, bytes(), length(), 0.1, 0.2, answer, LENS_JACOBIAN_BYTES); }
static void by_params(void) { no = CALL(lens_dx_distort_params)(model, bytes(), length(), 0.1, 0.2, answer, LENS_JACOBIAN_BYTES); }
static void job_new(void) { no = CALL(lens_job_new)(model, bytes(), length(), SIDE, SIDE, 0, job, sizeof job); }
static void turn(void) { no = CALL(lens_turn)(job, sizeof job, table, FLOATS, UINT64_MAX, answer, LENS_TURN_BYTES); }
static void turn16(void) { no = CALL(lens_turn16)(job16, sizeof job16, sixteen, FLOATS, UINT64_MAX, answer, LENS_TURN_BYTES); }
static void look_up(void) { no = CALL(lens_lookup)(table, FLOATS, job + LENS_JOB_REGION, 32, SIDE, SIDE, 0, 0, answer, 16); }
static void observe(void) { no = CALL(lens_observe)(model, bytes(), length(), (uint8_t *)list, sizeof list); }
static void root(void) { result = CALL(lens_root)(2); }
static void arctangent(void) { result = CALL(lens_arctangent)(2); }
static void tangent(void) { no = CALL(lens_tangent)(1, answer, 8); }

static const struct {
    const char *name;
    void (*call)(void);
    void *function;
} calls[] = {
    {"lens_distort", distort, lens_distort},
    {"lens_undistort", undistort, lens_undistort},
    {"lens_dx_distort_x", by_point, lens_dx_distort_x},
    {"lens_dx_distort_params", by_params, lens_dx_distort_params},
    {"lens_job_new", job_new, lens_job_new},
    {"lens_turn", turn, lens_turn},
    {"lens_turn16", turn16, lens_turn16},
    {"lens_lookup", look_up, lens_lookup},
    {"lens_observe", observe, lens_observe},
    {"lens_root", root, lens_root},
    {"lens_arctangent", arctangent, lens_arctangent},
    {"lens_tangent", tangent, lens_tangent},
};

static size_t used_of(void (*call)(void), void *function, uint8_t paint) {
    to = function;
    memset(stack, paint, sizeof stack);
    getcontext(&away);
    away.uc_stack.ss_sp = stack;
    away.uc_stack.ss_size = sizeof stack;
    away.uc_link = &home;
    makecontext(&away, call, 0);
    swapcontext(&home, &away);
    size_t left = 0;
    while (left < sizeof stack && stack[left] == paint)
        left++;
    return sizeof stack - left;
}

/* With two paints: the deepest byte that is written may be the one that is painted, as a return address has any byte. */
static size_t used(void (*call)(void), void *function) {
    size_t one = used_of(call, function, 0xa5), other = used_of(call, function, 0x5a);
    return one > other ? one : other;
}

#define CALLS (sizeof calls / sizeof *calls)

int main(void) {
    size_t most[CALLS] = {0};
    used(job_new, lens_job_new);
    used(turn, lens_turn);
    for (model = 0; model < MODELS; model++)
        for (size_t i = 0; i < CALLS; i++) {
            size_t around = used(calls[i].call, nothing);
            no = 0;
            size_t bytes = used(calls[i].call, calls[i].function) - around + sizeof(void *);
            if (calls[i].call == job_new)
                memcpy(job16, job, sizeof job);
            if (no != 0) {
                fprintf(stderr, "%s, model %u: refused %u\n", calls[i].name, model, no);
                return 1;
            }
            if (bytes > most[i])
                most[i] = bytes;
        }
    for (size_t i = 0; i < CALLS; i++)
        printf("%s %zu\n", calls[i].name, most[i]);
    return 0;
}
