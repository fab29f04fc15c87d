"""The lens table and its turns, in another language than ours: what the table vectors are made with.

From the Rust's distortion_table.rs where it has a text, and from docs/RULES.md (12 and 13, the refusals
of 5) where it has none: BoxRegion, units, turns, strict jobs, the job record. No code of the crates takes
part. The models come from tools/lens_models.py, which was made from the Rust in the same way.

A camera is a pair (model's number, parameters). A table is a list of 2 * width * height whole numbers;
the pixel of cell (u, v) takes two places from 2 * (v * width + u) on. There are two kinds: of F32 each
number is the bit pattern of an f32, of I16 it is a count of thirty-seconds of a pixel. A record doesn't
say of which kind its table is. Four numbers of a box stand as lower x, lower y, upper x, upper y.

`distort_table` is the Rust's function once more, in one go, without units and with each corner twice. The
turns don't use it; the self-test of make_table_vectors.py holds the two against each other. It has every
sample by the model itself, where the turns take bc's short engine for some cameras.
"""
import functools
import math
import struct
from dataclasses import dataclass, replace
from fractions import Fraction

from lens_models import COUNTS, DISTORT, LIMITS, UNDISTORT, answer, div, no_quotient, short_undistort

LEAST, MOST = 2, 4096  # of width and of height
ZEROS = (0.0, 0.0, 0.0, 0.0)
FINISHED, RUNNING, REFUSED = "finished", "running", "refused"


# ---- the border (RULES 12.1, 12.2)


@functools.cache
def samples(w, h):
    """The border's pixels in the order of the Rust's two loops, of which the second leaves out its first and last pass: the
    corners, which the first has met. Nothing else here or in the scripts that make vectors says which they are or how
    many."""
    v_top = -0.5
    v_bottom = float(h) - 0.5
    u_left = -0.5
    u_right = float(w) - 0.5
    found = []
    for i in range(w + 1):
        u = float(i) - 0.5
        found.append((u, v_top))
        found.append((u, v_bottom))
    for i in range(1, h):
        v = float(i) - 0.5
        found.append((u_left, v))
        found.append((u_right, v))
    return found


def border(w, h):
    """How many border samples there are: B."""
    return len(samples(w, h))


def total(w, h):
    """How many units there are: T."""
    return border(w, h) + w * h


def extended(edges, x, y):
    """The edges with one more point in them. A comparison with an equal number changes nothing, so of two zeros
    the first met stays."""
    left, top, right, bottom = edges
    return (
        x if x < left else left,
        y if y < top else top,
        x if x > right else right,
        y if y > bottom else bottom,
    )


# ---- the region and the cells (RULES 12.3 to 12.6)


def spread(low, high):
    """Lower and upper of the region in one coordinate."""
    mid = (low + high) / 2.0
    length = high - low
    return mid - length, mid + length


def region_of(edges):
    left, top, right, bottom = edges
    lower_x, upper_x = spread(left, right)
    lower_y, upper_y = spread(top, bottom)
    return lower_x, lower_y, upper_x, upper_y


def increments(region, w, h):
    lower_x, lower_y, upper_x, upper_y = region
    return div(upper_x - lower_x, float(w - 1)), div(upper_y - lower_y, float(h - 1))


def increments_refused(pair):
    """8 or 11 for the two increments, 0 for neither. The smaller number comes first, whichever coordinate it is of."""
    if any(math.isfinite(z) and z <= 0 for z in pair):
        return 8
    if not all(math.isfinite(z) for z in pair):
        return 11
    return 0


def cell_point(region, w, h, u, v):
    across, down = increments(region, w, h)
    return region[0] + float(u) * across, region[1] + float(v) * down


def narrow(x):
    """The pattern of the f32 nearest to a finite x, ties to even, or None if that f32 is infinite."""
    try:
        return struct.unpack("<I", struct.pack("<f", x))[0]
    except OverflowError:
        return None


def thirty_seconds(x):
    """The number of the multiple of 1/32 nearest to a finite x, ties to even, or None if sixteen bits don't hold it."""
    number = round(32 * Fraction(x))
    return number if -32768 <= number <= 32767 else None


# A kind of cell: what one number of a pixel becomes, and the refusal where that is None.
F32 = narrow, 12
I16 = thirty_seconds, 19


def cell(camera, region, w, h, u, v, kind=F32):
    """A refusal's number, 0 for none, and the two numbers of cell (u, v)."""
    x, y = cell_point(region, w, h, u, v)
    # a point that isn't finite is nobody's argument here, so it is 11 and not 4
    if not (math.isfinite(x) and math.isfinite(y)):
        return 11, None
    number, pixel = answer(camera[0], DISTORT, camera[1], x, y)
    if number:
        return number, None
    rounded, too_large = kind
    pair = rounded(pixel[0]), rounded(pixel[1])
    return (too_large, None) if None in pair else (0, pair)


# ---- the job record and its units (RULES 12.7, 12.8, 13.1, 13.2)


@dataclass(frozen=True)
class Job:
    camera: tuple
    width: int
    height: int
    done: int = 0
    edges: tuple = ZEROS
    region: tuple = ZEROS
    updates: int = 0
    unsettled: int = 0  # samples done whose flag says no
    first: int = 0  # the position of the first of them, counted from 1; 0 for none
    strict: bool = False


def camera_refused(camera):
    model, params = camera
    assert len(params) == COUNTS[model]
    if not all(math.isfinite(z) for z in params):
        return 4
    return 5 if params[0] == 0 or params[1] == 0 else 0


def size_refused(w, h):
    return 0 if LEAST <= w <= MOST and LEAST <= h <= MOST else 6


def fresh(camera, w, h, strict=False):
    """A refusal's number, 0 for none, and the record of a job of which nothing is done."""
    number = camera_refused(camera) or size_refused(w, h)
    return (number, None) if number else (0, Job(camera, w, h, strict=strict))


def found(camera, pixel):
    """What a sample finds at its pixel: the model's answer, and for a bc camera whose k4, k5 and k6 are zeros that of the
    short engine, which differs in signs of zeros alone (RULES 12.10)."""
    model, params = camera
    if not no_quotient(model, params):
        return answer(model, UNDISTORT, params, *pixel)
    given = short_undistort(params, *pixel)
    return (0, given) if math.isfinite(given[0]) and math.isfinite(given[1]) else (11, None)


def sample_unit(job):
    """Border sample done + 1. A strict job stops at one whose flag says no, once it has a point. The last sample also
    works out the region, and judges it."""
    w, h, n = job.width, job.height, job.done + 1
    number, given = found(job.camera, samples(w, h)[n - 1])
    if number:
        return number, None
    x, y, updates, flag = given
    if job.strict and not flag:
        return 18, None
    unsettled, first = job.unsettled, job.first
    if not flag:
        unsettled, first = unsettled + 1, first or n
    edges = (x, y, x, y) if n == 1 else extended(job.edges, x, y)
    region = job.region
    if n == border(w, h):
        region = region_of(edges)
        number = increments_refused(increments(region, w, h))
        if number:
            return number, None
    updates += job.updates
    return 0, replace(job, done=n, edges=edges, region=region, updates=updates, unsettled=unsettled, first=first)


# The same of a border as a whole: what the definition says of its samples, told apart from the units.


def flags(camera, w, h):
    """The flag of each border sample, up to the first that has no point."""
    found = []
    for pixel in samples(w, h):
        number, given = answer(camera[0], UNDISTORT, camera[1], *pixel)
        if number:
            break
        found.append(given[3])
    return found


def tallies(flags_done):
    """How many of these say no, and the position of the first, counted from 1, or 0."""
    return flags_done.count(False), flags_done.index(False) + 1 if False in flags_done else 0


def cell_unit(job, kind):
    """The next cell: a refusal's number, the record after it, and its two numbers."""
    v, u = divmod(job.done - border(job.width, job.height), job.width)
    number, pair = cell(job.camera, job.region, job.width, job.height, u, v, kind)
    return (number, None, None) if number else (0, replace(job, done=job.done + 1), pair)


def unit(job, kind=F32):
    """Unit done + 1 of a job that has one left: a refusal's number, 0 for none; the record after it; and a cell's two
    numbers, None for a sample. A refused unit gives its number alone."""
    if job.done < border(job.width, job.height):
        return (*sample_unit(job), None)
    return cell_unit(job, kind)


# ---- turns (RULES 13.3 to 13.6)


def impossible(job):
    """Whether no build can have made this record: refusal 13."""
    w, h = job.width, job.height
    if job.done > total(w, h):
        return True
    if job.updates > LIMITS[job.camera[0]] * min(job.done, border(w, h)):
        return True
    if not all(math.isfinite(z) for z in job.edges):
        return True
    if job.done >= border(w, h) and increments_refused(increments(job.region, w, h)) != 0:
        return True
    return tallies_impossible(job)


def tallies_impossible(job):
    """Whether count and first are those of no build with so many samples done."""
    done = min(job.done, border(job.width, job.height))
    if job.unsettled > done or job.first > done:
        return True
    if (job.unsettled == 0) != (job.first == 0):
        return True
    return job.strict and job.unsettled != 0


def call_refused(job, table):
    """The number by which a turn is refused before any unit, 0 for none."""
    if not all(math.isfinite(z) for z in (*job.camera[1], *job.region)):
        return 4
    number = camera_refused(job.camera) or size_refused(job.width, job.height)
    if number:
        return number
    if len(table) != 2 * job.width * job.height:
        return 7
    return 13 if impossible(job) else 0


def turn(job, table, allowance, kind=F32):
    """At most so many units of a job. The status, a refusal's number (0 for none), and the record; cells are written
    into the table. A call refused before any unit gives its own record back."""
    number = call_refused(job, table)
    if number:
        return REFUSED, number, job
    first, last = border(job.width, job.height), total(job.width, job.height)
    left = allowance
    while left > 0 and job.done < last:
        number, after, pair = unit(job, kind)
        if number:
            return REFUSED, number, job
        if pair:
            place = 2 * (job.done - first)
            table[place : place + 2] = pair
        job = after
        left -= 1
    return (FINISHED if job.done == last else RUNNING), 0, job


# ---- the Rust's function in one go


def rust_samples(w, h):
    """Its border, which has each corner twice."""
    found = []
    for i in range(0, w + 1):
        found += [(i - 0.5, -0.5), (i - 0.5, h - 0.5)]
    for i in range(0, h + 1):
        found += [(-0.5, i - 0.5), (w - 0.5, i - 0.5)]
    return found


def narrowed(z):
    return struct.unpack("<I", struct.pack("<f", z))[0]


def in_sixteen_bits(z):
    """By the platform: 32 times an f64 is exact or infinite, and round has ties to even."""
    return struct.unpack("<h", struct.pack("<h", round(32 * z)))[0]


def distort_table(camera, w, h, kind=F32):
    """region and table as distortion_table.rs has them, top to bottom, or the number of whatever comes first that is
    refused. Written apart from the units above. For sixteen bits it is the same with another rounding of each pixel."""
    model, params = camera
    region = None
    for u, v in rust_samples(w, h):
        number, given = answer(model, UNDISTORT, params, u, v)
        if number:
            return number, None, None
        if region is None:
            region = [list(given[:2]), list(given[:2])]
        for k in (0, 1):
            if given[k] < region[0][k]:
                region[0][k] = given[k]
            if given[k] > region[1][k]:
                region[1][k] = given[k]
    lower, upper = region
    mid = [(lower[k] + upper[k]) / 2 for k in (0, 1)]
    size = [upper[k] - lower[k] for k in (0, 1)]
    offset = [mid[k] - size[k] for k in (0, 1)]
    end = [mid[k] + size[k] for k in (0, 1)]
    incr = [(end[0] - offset[0]) / (w - 1), (end[1] - offset[1]) / (h - 1)]
    for number, wrong in ((8, lambda z: math.isfinite(z) and not z > 0), (11, lambda z: not math.isfinite(z))):
        if wrong(incr[0]) or wrong(incr[1]):
            return number, None, None
    table = []
    for v in range(h):
        for u in range(w):
            point = offset[0] + u * incr[0], offset[1] + v * incr[1]
            if not all(map(math.isfinite, point)):
                return 11, None, None
            number, pixel = answer(model, DISTORT, params, *point)
            if number:
                return number, None, None
            for z in pixel:
                try:
                    table.append(narrowed(z) if kind is F32 else in_sixteen_bits(z))
                except (OverflowError, struct.error):
                    return kind[1], None, None
    return 0, (*offset, *end), table
