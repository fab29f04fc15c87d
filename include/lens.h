/* Five lens models, the table of a lens built between frames, lookup in it, lists of observations; root, arctangent and
 * tangent. Link target/staticlib/liblens_c.a, made by `tools/make-archive`: archives are made for x86-64 Linux only.
 * docs/HEAD.md says how a head budgets its time and memory, docs/C.md how to build and what is proved.
 * This header is where refusals and layouts are told in full.
 *
 * Every function takes every value and returns. None keeps anything of a call or allocates: all that lasts is in
 * buffers of the caller's, so calls of several threads at once are fine as long as none is lent a buffer that another
 * one writes.
 *
 * What the caller owes. No function can check any of this; if it isn't kept, nothing is promised:
 *   - A buffer crosses as a pointer and its length, two arguments in a row; the length counts bytes for a uint8_t *,
 *     floats for a float *, numbers for an int16_t *. The pointer is not null, even with length 0, and so much memory
 *     is there.
 *   - A buffer that the function may write (those without const) overlaps no other buffer of the same call. So the
 *     parameters inside a job can't begin that same job anew: copy them out first. Two that are only read may overlap.
 *   - A float * is aligned as a float is (4 bytes), an int16_t * as that is (2), a lens_observation * as that struct is
 *     (8). A uint8_t * may have any address.
 *   - While the call runs, nobody else (a thread, an interrupt, a device) writes to any of its buffers, nor reads those
 *     that the function may write.
 *   - Arithmetic is as a program finds it when it starts: doubles are rounded to nearest, subnormal numbers are
 *     neither flushed to zero nor taken as zero, no exception traps (the control bits of MXCSR are 0x1f80).
 *     -ffast-math switches that off for a whole program when gcc links with it. A call may raise the exception flags.
 *
 * Numbers in buffers stand with the least byte first, a double as IEEE 754 has it in 8 bytes. On x86-64 that is how
 * they lie in memory: arrays may be cast to bytes, and answers copied out with memcpy. "At" a place is so many bytes
 * from the start.
 *
 * That each function answers and refuses as said here is proved of its Rattle source. This header with its two inline
 * functions isn't proved, nor is the compiler.
 */
#ifndef LENS_H
#define LENS_H

#include <stddef.h>
#include <stdint.h>

#ifdef __cplusplus
extern "C" {
#endif

/* ---- the number returned
 *
 * A function that returns a uint8_t returns LENS_OK, and has written all of its answer; or it returns a refusal's
 * number, and has written nothing. The one exception are lens_turn and lens_turn16, which say where.
 *
 * Where several apply, the lowest number is returned, but for these:
 *   - lens_lookup judges the region's increments, 8 and then 11, before 9. So 11 may be told of a point that is also
 *     outside; of a pixel that isn't finite 11 is told only after 9.
 *   - 16 is tried before 11, of the same pixel.
 *   - lens_turn and lens_turn16 judge the call before any unit: 13 comes before the 8, 10, 11, 12, 16, 18 or 19 of a
 *     unit. Of a job that is not LENS_JOB_BYTES long nothing is read: 7, before all others.
 *   - The last sample's 18 comes before the 8 or 11 of the region, which is worked out behind it. */
#define LENS_OK 0

#define LENS_REFUSED_UNKNOWN_MODEL 1          /* the model is none of 0 to 4 */
#define LENS_REFUSED_NO_PARAMETER_JACOBIAN 2  /* reserved: no function returns it any more */
#define LENS_REFUSED_WRONG_COUNT 3            /* params_length is not 8 times the model's count of parameters */
#define LENS_REFUSED_NOT_FINITE 4             /* a parameter, a coordinate or an edge of a region is NaN or infinite */
#define LENS_REFUSED_ZERO_FOCAL_LENGTH 5      /* fx or fy is zero, of either sign */
#define LENS_REFUSED_WRONG_SIZE 6             /* width or height is below LENS_SIZE_LEAST or above LENS_SIZE_MOST */
#define LENS_REFUSED_WRONG_LENGTH 7           /* a length, not that of params, is not the one the function asks for */
#define LENS_REFUSED_INCREMENT_NOT_POSITIVE 8 /* from cell to cell the region goes on by 0 or less: an upper edge is the
                                                 lower one, or below it, or above it by so little that it is lost */
#define LENS_REFUSED_OUTSIDE_TABLE 9          /* the point lies outside the table */
#define LENS_REFUSED_ANGLE_TOO_LARGE 10       /* an angle past LENS_ANGLE_LIMIT, of either sign: lens_tangent's, or one
                                                 that is met where LENS_KB undistorts a pixel */
#define LENS_REFUSED_ANSWER_NOT_FINITE 11     /* NaN or an infinity would have to be answered, or built on: the point
                                                 of a sample or a cell, its pixel, an increment */
#define LENS_REFUSED_CELL_INFINITE 12         /* a cell's pixel is finite, but too large for a float (lens_turn) */
#define LENS_REFUSED_IMPOSSIBLE_JOB 13        /* the job's check word is wrong, no build can have come to this job, or a
                                                 strict mark is neither 0 nor 1 */
#define LENS_REFUSED_RAY_NOT_FORWARD 16       /* LENS_EUCM undistorts a pixel whose ray has a z of 0 or below: the point
                                                 would be mirrored, or nowhere */
#define LENS_REFUSED_SAMPLE_UNSETTLED 18      /* a strict job met a border sample whose search didn't settle */
#define LENS_REFUSED_CELL_TOO_FAR 19          /* a cell's pixel is finite, but not in the 16 bits of lens_turn16: below
                                                 -1024.015625, or at 1023.984375 or above */

#define LENS_ANGLE_LIMIT 1.546875 /* 99/64, which is 88.6 degrees */

/* ---- models and parameters
 *
 * params is the model's parameters, 8 bytes each, one after the other in this order:
 *
 *    LENS_AFFINE  fx fy cx cy
 *    LENS_EUCM    fx fy cx cy alpha beta
 *    LENS_KB      fx fy cx cy k0 k1 k2 k3
 *    LENS_BC      fx fy cx cy k1 k2 p1 p2 k3 k4 k5 k6
 *    LENS_BC12    fx fy cx cy k1 k2 p1 p2 k3 k4 k5 k6 s1 s2 s3 s4
 *
 * LENS_BC12 is LENS_BC with OpenCV's thin prism. With zeros for s1 to s4 lens_distort, lens_undistort and
 * lens_dx_distort_x give what they give of LENS_BC, wherever that answers, but for the sign of a zero. */
#define LENS_AFFINE 0
#define LENS_EUCM 1
#define LENS_KB 2
#define LENS_BC 3
#define LENS_BC12 4

#define LENS_AFFINE_COUNT 4
#define LENS_EUCM_COUNT 6
#define LENS_KB_COUNT 8
#define LENS_BC_COUNT 12
#define LENS_BC12_COUNT 16

/* The most that a model has. */
#define LENS_COUNT_MOST 16

/* The most Newton updates of one lens_undistort, or of one border sample; the other two models have none. */
#define LENS_KB_UPDATES_MOST 20
#define LENS_BC_UPDATES_MOST 50
#define LENS_BC12_UPDATES_MOST 50

/* Parameters out of an array of doubles, as the two arguments params and params_length:
 *
 *    static const double lens[LENS_KB_COUNT] = {...};
 *    number = lens_distort(LENS_KB, LENS_PARAMS(lens), x, y, answer, sizeof answer);
 *
 * Of an array, not of a pointer to one: that has a size of its own, which is no model's, and 3 is returned. */
#define LENS_PARAMS(array) lens_bytes_of(array), sizeof(array)

static inline const uint8_t *lens_bytes_of(const double *doubles) {
    return (const uint8_t *)doubles;
}

/* ---- one point or pixel */

/* A pixel, the answer of lens_distort and lens_lookup: two doubles. */
#define LENS_PIXEL_U 0
#define LENS_PIXEL_V 8
#define LENS_PIXEL_BYTES 16

/* A point, the answer of lens_undistort: two doubles; how many Newton updates it took, a uint32_t; one byte, 1 if the
 * search settled and 0 if not; three zero bytes. Of LENS_KB it has not settled at an angle of 0 or below, whatever its
 * last step was: distorting such a point doesn't come back to the pixel. Of LENS_BC and LENS_BC12 it has settled if the
 * point's pixel lies within 1e-6 focal lengths of this one, however many updates it took. */
#define LENS_POINT_X 0
#define LENS_POINT_Y 8
#define LENS_POINT_UPDATES 16
#define LENS_POINT_SETTLED 20
#define LENS_POINT_BYTES 24

/* A Jacobian: 32 doubles, of which row u is the first n and row v the next n, and the rest zeros; then n, the count of
 * columns, a uint64_t. */
#define LENS_JACOBIAN_ROW_U 0
#define LENS_JACOBIAN_ROW_V(n) (8 * (n))
#define LENS_JACOBIAN_COLUMNS 256
#define LENS_JACOBIAN_BYTES 264

/* The pixel of the point (x, y) on the plane z = 1. answer_length: LENS_PIXEL_BYTES.
 * Returns 0, 1, 3, 4, 5, 7 or 11. */
uint8_t lens_distort(uint8_t model, const uint8_t *params, size_t params_length, double x, double y,
                     uint8_t *answer, size_t answer_length);

/* The point of the pixel (u, v). answer_length: LENS_POINT_BYTES.
 * Returns 0, 1, 3, 4, 5, 7, 10 (LENS_KB alone), 16 (LENS_EUCM alone) or 11. A search that didn't settle is answered all
 * the same. */
uint8_t lens_undistort(uint8_t model, const uint8_t *params, size_t params_length, double u, double v,
                       uint8_t *answer, size_t answer_length);

/* The derivative of the pixel by the point; n is 2. answer_length: LENS_JACOBIAN_BYTES.
 * Returns 0, 1, 3, 4, 5, 7 or 11. */
uint8_t lens_dx_distort_x(uint8_t model, const uint8_t *params, size_t params_length, double x, double y,
                          uint8_t *answer, size_t answer_length);

/* The derivative of the pixel by the parameters; n is the model's count of them, and the columns stand in their order.
 * answer_length: LENS_JACOBIAN_BYTES. Returns 0, 1, 3, 4, 5, 7 or 11. */
uint8_t lens_dx_distort_params(uint8_t model, const uint8_t *params, size_t params_length, double x, double y,
                               uint8_t *answer, size_t answer_length);

/* ---- a table, built between frames
 *
 * lens_job_new writes a fresh job into bytes that the caller keeps; each lens_turn reads the job, does units of work
 * and writes it back. Hand the same job and the same table to the next turn, unaltered; both may be moved meanwhile.
 * A unit is a border sample or a cell: all samples come first, each corner once, then the cells, row by row. However
 * the units are split over turns, cells and job come out the same.
 *
 * A sample has not settled where lens_undistort of its pixel would say so (LENS_POINT_SETTLED is 0). A job counts these
 * samples, and says which was the first. A strict job refuses at the first one, and so counts none. */
#define LENS_SIZE_LEAST 2
#define LENS_SIZE_MOST 4096

#define LENS_SAMPLES(width, height) (2 * ((uint64_t)(width) + (uint64_t)(height)))
#define LENS_CELLS(width, height) ((uint64_t)(width) * (uint64_t)(height))
#define LENS_UNITS(width, height) (LENS_SAMPLES(width, height) + LENS_CELLS(width, height))

/* A table's length in floats, and where in it the pixel of cell (u, v) stands: two floats from there on. A table of
 * int16_t has as many numbers, and the cells stand at the same places. */
#define LENS_TABLE_FLOATS(width, height) (2 * (size_t)(width) * (size_t)(height))
#define LENS_TABLE_NUMBERS(width, height) LENS_TABLE_FLOATS(width, height)
#define LENS_TABLE_CELL(width, u, v) (2 * ((size_t)(v) * (size_t)(width) + (size_t)(u)))

/* A table of int16_t counts in thirty-seconds of a pixel: a number n in it stands for the pixel's number n / 32. */
#define LENS_PER_PIXEL 32

/* A region, the box of points that a table covers: four doubles. Left and right are its lower and upper x, top and
 * bottom its lower and upper y. */
#define LENS_REGION_LEFT 0
#define LENS_REGION_TOP 8
#define LENS_REGION_RIGHT 16
#define LENS_REGION_BOTTOM 24
#define LENS_REGION_BYTES 32

/* A job. */
#define LENS_JOB_MODEL 0       /* uint32_t */
#define LENS_JOB_UPDATES 4     /* uint32_t: the Newton updates of all samples done */
#define LENS_JOB_PARAMS 8      /* LENS_COUNT_MOST doubles: the parameters, then zeros, which are not read but summed */
#define LENS_JOB_WIDTH 136     /* uint32_t */
#define LENS_JOB_HEIGHT 140    /* uint32_t */
#define LENS_JOB_DONE 144      /* uint64_t: units done */
#define LENS_JOB_EDGES 152     /* the box of the points so far, in a region's form; zeros until the first sample. A zero
                                  among them may have the other sign than lens_undistort gives */
#define LENS_JOB_REGION 184    /* the table's region; zeros until the border is done */
#define LENS_JOB_UNSETTLED 216 /* uint32_t: how many of the samples done have not settled */
#define LENS_JOB_FIRST 220     /* uint32_t: the position of the first of these, counted from 1; 0 for none */
#define LENS_JOB_STRICT 224    /* uint64_t: 1 for a strict job, else 0: as lens_job_new was told, for good */
#define LENS_JOB_CHECK 232     /* uint64_t: LENS_JOB_CHECK_START + the 29 words of 8 bytes before it, modulo 2^64 */
#define LENS_JOB_BYTES 240     /* 208 before LENS_BC12 (request P5): a job of then is refused with 7 */
#define LENS_JOB_CHECK_START UINT64_C(0x32424f4a534e454c)

/* Which jobs are refused. 1, 4, 5 and 6 are for a job's model, parameters, region (whatever is done) and size. 13 is
 * returned if none of these nor 7 is, and one of the following holds:
 *   - the check word is wrong;
 *   - more units are done than there are;
 *   - there are more updates than the samples done can have (none, none, 20, 50 or 50 each, by the model);
 *   - one of the four edges so far is NaN or infinite;
 *   - the border is done, and an increment of the region is NaN, infinite or not above 0;
 *   - the count of unsettled samples or the position of the first is above the samples done, or one of the two is 0 and
 *     the other is not;
 *   - the strict mark is neither 0 nor 1, or it is 1 and the count is not 0.
 *
 * Caught for certain: of a job as it was written here, some or all of the 8 bytes of one word (at 0 to 7, 8 to 15,
 * and so on, the check word among them) became others. So in particular any change within one byte. A turn then
 * returns 1, 4, 5, 6, 7 or 13, never another number, and writes nothing.
 * Not caught for certain: changes in two words or more, which may cancel out in the sum, as two exchanged words of the
 * 29 do, or two doubles that both change their sign; bytes whose check word was worked out anew; a sound job of another
 * build or of an earlier turn.
 * Not checked at all: the table's numbers, which no turn reads; the region handed to lens_lookup; observations. */

/* What a turn answers: six uint64_t. */
#define LENS_TURN_STATUS 0
#define LENS_TURN_DONE 8       /* units done, of all turns */
#define LENS_TURN_UNITS 16     /* units in all: LENS_UNITS */
#define LENS_TURN_UPDATES 24   /* updates, of all samples done */
#define LENS_TURN_UNSETTLED 32 /* how many of all samples done have not settled */
#define LENS_TURN_FIRST 40     /* the position of the first of these, counted from 1; 0 for none */
#define LENS_TURN_BYTES 48

#define LENS_STATUS_RUNNING 0
#define LENS_STATUS_FINISHED 1
#define LENS_STATUS_REFUSED 2 /* at a unit */

/* A fresh job for a table of width by height cells, strict with 1 and not with 0: another mark is refused with 13.
 * job_length: LENS_JOB_BYTES.
 * Returns 0, 1, 3, 4, 5, 6, 7 or 13. */
uint8_t lens_job_new(uint8_t model, const uint8_t *params, size_t params_length, uint32_t width, uint32_t height,
                     uint8_t strict, uint8_t *job, size_t job_length);

/* Does `allowance` units of the job, or fewer if no more are left or one is refused; 0 is fine, and does none.
 * job_length: LENS_JOB_BYTES. table_length: LENS_TABLE_FLOATS of the job's size. answer_length: LENS_TURN_BYTES.
 * Returns 0: running or finished. Job and answer are written, and of the table the cells done in this turn.
 * Returns 1, 4, 5, 6, 7 or 13: the call is refused, and nothing was written. 1, 4, 5 and 6 are the job's.
 * Returns 8, 10, 11, 12, 16 or (a strict job alone) 18: the unit after those done cannot be done, ever. Job, table and
 * answer are written, with all units before it and status LENS_STATUS_REFUSED; each further turn of this job with an
 * allowance above 0 returns the same number and does no unit. With allowance 0 no unit is tried: that turn returns 0,
 * its status running. */
uint8_t lens_turn(uint8_t *job, size_t job_length, float *table, size_t table_length, uint64_t allowance,
                  uint8_t *answer, size_t answer_length);

/* The same turns into a table of sixteen-bit numbers, for a part that reads no floats. Each of a cell's two numbers is
 * that of the multiple of 1/32 that is nearest to the pixel's double, of two as near the even one. So it is off by at
 * most 1/64 of a pixel, and by no more than that and the float's own rounding from the cell that lens_turn gives.
 * Lengths, job, answer and what is returned are as for lens_turn, table_length being LENS_TABLE_NUMBERS, but for one
 * number: a unit is refused with 19 in place of 12, LENS_REFUSED_CELL_TOO_FAR.
 * A job doesn't say which kind of table it is built into: begun with one call it goes on with the other, and then each
 * table has some of the cells. Keep to one. lens_lookup takes floats alone. */
uint8_t lens_turn16(uint8_t *job, size_t job_length, int16_t *table, size_t table_length, uint64_t allowance,
                    uint8_t *answer, size_t answer_length);

/* The pixel at the point (x, y), between the four cells around it. region: the LENS_REGION_BYTES bytes at
 * LENS_JOB_REGION of the finished job; width and height are that job's; table_length: LENS_TABLE_FLOATS of them.
 * answer_length: LENS_PIXEL_BYTES. That the table is finished, and table and region of one job, isn't seen here.
 * Each number of a pixel that is answered lies from the least to the greatest of that number in four cells, both among
 * them: (u, v), (u1, v), (u, v1) and (u1, v1), where in doubles, in this order, i = (x - left) / ((right - left) /
 * (width - 1)), u is i without its fraction, u1 the lesser of u + 1 and width - 1; v and v1 so by y, top, bottom and
 * height. Four equal numbers come back as they are, but for the sign of a zero.
 * Returns 0, 4, 6, 7, 8, 9 or 11; the order is 4, 6, 7; 8 and 11 of the increments; 9; 11 of the pixel. */
uint8_t lens_lookup(const float *table, size_t table_length, const uint8_t *region, size_t region_length,
                    uint32_t width, uint32_t height, double x, double y, uint8_t *answer, size_t answer_length);

/* ---- a list of observations */

/* LENS_OBSERVATION_BYTES bytes. Only the pixel is read. */
typedef struct {
    double pixel_u, pixel_v; /* read, and left as they are */
    double point_x, point_y; /* written: the point, or zeros */
    uint8_t settled;         /* written: as LENS_POINT_SETTLED; 0 if there is no point */
    uint8_t number;          /* written: 0, or why this pixel has no point: 4, 10 (LENS_KB), 16 (LENS_EUCM) or 11 */
    uint8_t unused[6];       /* left as they are */
} lens_observation;

#define LENS_OBSERVATION_PIXEL_U 0
#define LENS_OBSERVATION_PIXEL_V 8
#define LENS_OBSERVATION_POINT_X 16
#define LENS_OBSERVATION_POINT_Y 24
#define LENS_OBSERVATION_SETTLED 32
#define LENS_OBSERVATION_NUMBER 33
#define LENS_OBSERVATION_UNUSED 34
#define LENS_OBSERVATION_BYTES 40

/* The point of every pixel of a list, each record by itself: one that is refused does not stop the next. list_length:
 * LENS_OBSERVATION_BYTES times how many records there are, none being fine.
 * Returns 0: every record is written, as the struct says. Returns 1, 3, 4, 5 (of the camera) or 7: none is. */
uint8_t lens_observe(uint8_t model, const uint8_t *params, size_t params_length, uint8_t *list, size_t list_length);

/* The same of an array of `count` records. A count whose bytes size_t can't tell, for which there can't be memory, is
 * never multiplied out: 7 is returned, or a lower number, and nothing is written. */
static inline uint8_t lens_observe_list(uint8_t model, const uint8_t *params, size_t params_length,
                                        lens_observation *list, size_t count) {
    /* 1 byte is no whole record, which is 7 */
    size_t list_length = count <= SIZE_MAX / LENS_OBSERVATION_BYTES ? count * LENS_OBSERVATION_BYTES : 1;
    return lens_observe(model, params, params_length, (uint8_t *)list, list_length);
}

/* ---- functions of one number */

/* The double nearest to the square root of x. A zero and +infinity give themselves, a number below 0 or NaN gives
 * NaN; which NaN isn't said. */
double lens_root(double x);

/* The arctangent of x, within 2^-46 of the published series (docs/RULES.md, 6). A zero gives itself, NaN gives NaN;
 * which NaN isn't said. */
double lens_arctangent(double x);

/* The tangent of theta, for a theta of size LENS_ANGLE_LIMIT or less: a double, whose arctangent by the same series is
 * within 2^-44 of theta. answer_length: LENS_TANGENT_BYTES.
 * A theta that is NaN or infinite is answered with NaN, written as 7ff8000000000000.
 * Returns 0, 7 or 10. */
#define LENS_TANGENT_BYTES 8
uint8_t lens_tangent(double theta, uint8_t *answer, size_t answer_length);

/* ---- what a compiler has to agree with: where it doesn't, an array here has a size below 0, which is an error */

#if defined(__BYTE_ORDER__) && defined(__ORDER_LITTLE_ENDIAN__) && __BYTE_ORDER__ != __ORDER_LITTLE_ENDIAN__
#error "lens.h: the library's numbers have the least byte first"
#endif

typedef char lens_needs_bytes_of_8_bits[(unsigned char)-1 == 255 ? 1 : -1];
typedef char lens_needs_floats_of_4_bytes[sizeof(float) == 4 ? 1 : -1];
typedef char lens_needs_shorts_of_2_bytes[sizeof(int16_t) == 2 ? 1 : -1];
typedef char lens_needs_doubles_of_8_bytes[sizeof(double) == 8 ? 1 : -1];
typedef char lens_needs_observations_of_40_bytes[sizeof(lens_observation) == LENS_OBSERVATION_BYTES ? 1 : -1];
typedef char lens_needs_pixel_u_at_0[offsetof(lens_observation, pixel_u) == LENS_OBSERVATION_PIXEL_U ? 1 : -1];
typedef char lens_needs_pixel_v_at_8[offsetof(lens_observation, pixel_v) == LENS_OBSERVATION_PIXEL_V ? 1 : -1];
typedef char lens_needs_point_x_at_16[offsetof(lens_observation, point_x) == LENS_OBSERVATION_POINT_X ? 1 : -1];
typedef char lens_needs_point_y_at_24[offsetof(lens_observation, point_y) == LENS_OBSERVATION_POINT_Y ? 1 : -1];
typedef char lens_needs_settled_at_32[offsetof(lens_observation, settled) == LENS_OBSERVATION_SETTLED ? 1 : -1];
typedef char lens_needs_number_at_33[offsetof(lens_observation, number) == LENS_OBSERVATION_NUMBER ? 1 : -1];
typedef char lens_needs_unused_at_34[offsetof(lens_observation, unused) == LENS_OBSERVATION_UNUSED ? 1 : -1];

#ifdef __cplusplus
}
#endif

#endif
