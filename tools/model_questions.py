"""The models' part of test_camera_calls: questions to the four operations of each lens model, and the answers.

    python3 tools/model_questions.py   tests this script

How the answers are made. By tools/lens_models.py, from the text of the Rust.

How the questions are made. By hand where a rule has an edge, and by tools/refusal_edges.py for every
refusal, with the last input that is answered and the first that isn't; by splitmix64 from fixed seeds
for lenses as cameras have them and for wild ones; and by a search for questions that end in a given
way, such as after so many updates. So every run writes the same bytes. A question that two kinds have
is asked once, and counted for the first.
"""
import math
import pathlib
import sys
from collections import Counter

from lens_models import (
    AFFINE,
    BC,
    BC12,
    BY_PARAMS,
    BY_POINT,
    COUNTS,
    DISTORT,
    EPS,
    EUCM,
    FUNCTIONS,
    KB,
    LIMIT,
    LIMITS,
    MILD,
    MODELS,
    MOST_PARAMS,
    NO_MODEL,
    OPERATIONS,
    SMALL,
    UNDISTORT,
    answer,
    arctangent,
    bc_distortion_impl,
    bc12_newton_jacobian,
    bc_newton_jacobian,
    bits,
    kb_newton,
    norm,
    root,
    solved,
    tangent,
)
from make_leaf_vectors import INF, LARGEST, NANS, NORMAL, SIGN, Splitmix, value
from camera_lines import answer_bytes, operation_question, reply
import difference_quotients
import refusal_edges

CRATES = pathlib.Path(__file__).resolve().parent.parent / "crates"


def spelled(x):
    return f"{bits(x):016x}"


# ---- the questions
#
# A question is (model, operation, parameters, x, y), its numbers floats, or bit patterns as ints.


def uniform(rng, low, high):
    return low + (high - low) * (rng.bits(53) / 2**53)


def sized(rng, span):
    """A number of random sign and digits, whose exponent is from -span to span."""
    return math.copysign(math.ldexp(1 + rng.bits(52) / 2**52, rng.below(2 * span + 1) - span), 0.5 - rng.bits(1))


# the coefficients of the Rust's own example
BC_EXAMPLE = [0.726405, -0.0148413, 1.38447e-05, 0.000419742, -0.00514224, 1.06774, 0.128429, -0.019901]

# s1 to s4 of a lens whose last glass is tilted a little
PRISM = [0.0012, -0.00035, -0.0021, 0.0006]


def camera(rng):
    """fx, fy, cx, cy of an ordinary camera."""
    f = uniform(rng, 250, 1400)
    return [f, f * uniform(rng, 0.98, 1.02), uniform(rng, 300, 1000), uniform(rng, 200, 600)]


def lens(rng, model):
    """The parameters of an ordinary lens. Half of bc's are like the Rust's example, half without a denominator; bc12's
    are such a one with a prism."""
    first = camera(rng)
    if model == AFFINE:
        return first
    if model == EUCM:
        return first + [uniform(rng, 0.3, 0.8), uniform(rng, 0.6, 1.6)]
    if model == KB:
        return first + [uniform(rng, -s, s) for s in (0.1, 0.05, 0.02, 0.005)]
    if rng.bits(1):
        first += [c * uniform(rng, 0.8, 1.2) for c in BC_EXAMPLE]
    else:
        first += [uniform(rng, -s, s) for s in (0.3, 0.1, 0.003, 0.003, 0.03)] + [0.0, 0.0, 0.0]
    return first if model == BC else first + [uniform(rng, -s, s) for s in (0.01, 0.003, 0.01, 0.003)]


def regular(rng, model, operation):
    """An ordinary lens at an ordinary place. A pixel is one that the lens has: some point's."""
    while True:
        params = lens(rng, model)
        x, y = uniform(rng, -1.5, 1.5), uniform(rng, -1.5, 1.5)
        if operation == UNDISTORT:
            number, pixel = answer(model, DISTORT, params, x, y)
            if number:
                continue
            x, y = pixel
        return model, operation, params, x, y


def uneven(rng, model, operation):
    """Terms of unlike size at an ordinary place, and a centre of 0 that hides no digit: where a sum passes a
    power of two its order shows, and in ordinary lenses it seldom does."""
    params = camera(rng)[:2] + [0.0, -0.0] + [sized(rng, 3) for _ in range(COUNTS[model] - 4)]
    x, y = uniform(rng, -1.5, 1.5), uniform(rng, -1.5, 1.5)
    if operation == UNDISTORT:
        x, y = x * params[0], y * params[1]
    return model, operation, params, x, y


def wild(rng, model, operation):
    """Anything finite but a zero focal length. Most such lenses overflow, so the spans differ in size."""
    spans = (2, 6, 20, 60, 160, 340, 1023)
    s, t = spans[rng.below(7)], spans[rng.below(7)]
    params = [sized(rng, t) for _ in range(4)] + [sized(rng, s) for _ in range(COUNTS[model] - 4)]
    x, y = sized(rng, s), sized(rng, s)
    for i in range(2, len(params)):
        chance = rng.below(12)
        if chance < 3:
            params[i] = 0.0 if chance < 2 else -0.0
        elif chance == 3:
            params[i] = value(rng.bits(1) * SIGN + rng.below(NORMAL))
    chance = rng.below(10)
    if chance == 0:
        x = value(rng.bits(1) * SIGN + rng.below(NORMAL))
    elif chance == 1:
        y = -0.0
    return model, operation, params, x, y


def searched(rng, make, wanted):
    """Questions by make, as many of each refusal's number as wanted says. The search has an end, so that a
    number that can't come up stops the script."""
    left = dict(wanted)
    for _ in range(200000):
        if not any(left.values()):
            break
        q = make(rng)
        number, _ = answer(*q)
        if left.get(number, 0) > 0:
            left[number] -= 1
            yield q
    assert not any(left.values()), left


def by_ending(rng, make, most, tries):
    """At most so many questions of each ending (number, updates, flag) that so many tries of make come to."""
    have = Counter()
    for _ in range(tries):
        q = make(rng)
        number, given = answer(*q)
        ending = (number,) + (given[2:] if number == 0 else ())
        if have[ending] < most:
            have[ending] += 1
            yield q


def strong_kb(rng):
    """kb lenses whose curve bends back, so that Newton jumps about."""
    k = [uniform(rng, -1.2, 1.2) * 4.0 ** -(i * rng.bits(1)) for i in range(4)]
    return KB, UNDISTORT, [1.0, 1.0, 0.0, 0.0] + k, uniform(rng, 0.0, 1.6), uniform(rng, -0.4, 0.4)


def mirrored_kb(rng):
    """k0 = -1: a pixel too far out for the near branch, where a theta below 0 still fits."""
    f = uniform(rng, 200, 900)
    return KB, UNDISTORT, [f, f, 320.0, 240.0, -1.0, 0.0, 0.0, 0.0], 320 + f * uniform(rng, 0.3, 1.8), 240.0


def strong_bc(rng):
    """bc lenses whose curve bends back. Each coefficient of the denominator is there once in three."""
    k = [uniform(rng, -1.5, 1.5) for _ in range(2)] + [uniform(rng, -0.2, 0.2) for _ in range(2)]
    k += [uniform(rng, -0.5, 0.5)] + [uniform(rng, -1, 1) if rng.below(3) == 0 else 0.0 for _ in range(3)]
    return BC, UNDISTORT, [1.0, 1.0, 0.0, 0.0] + k, uniform(rng, -1.5, 1.5), uniform(rng, -1.5, 1.5)


def mild_bc(rng):
    """Weak coefficients and a small field: few updates, and none at all where the step is small at once."""
    k = [uniform(rng, -1, 1) * 10.0 ** -(1 + rng.below(7)) for _ in range(8)]
    return BC, UNDISTORT, [500.0, 500.0, 320.0, 240.0] + k, uniform(rng, 0, 640), uniform(rng, 0, 480)


def stiff_bc(rng):
    """Large coefficients: the step gets small while the residual stays above EPS, so the flag says no early."""
    k = [uniform(rng, 0.5, 1) * 10.0 ** (6 + rng.below(9)), 0.0, 0.0, 0.0, 0.0, 0.0, 0.0, 0.0]
    s = 10.0 ** rng.below(4)
    return BC, UNDISTORT, [1.0, 1.0, 0.0, 0.0] + k, uniform(rng, -s, s), uniform(rng, -s, s)


def touching_bc(rng):
    """x - x^3/3 only just misses the pixel at its turning point: no step gets small, the residual does. So
    the flag says yes after all 50 updates."""
    params = [1.0, 1.0, 0.0, 0.0, -1 / 3] + [0.0] * 7
    return BC, UNDISTORT, params, 2 / 3 + uniform(rng, 1e-8, 9e-7), 0.0


def with_prism(make, draw):
    """The question of a bc lens, asked of bc12 with a prism that draw gives."""

    def made(rng):
        _, operation, params, x, y = make(rng)
        return BC12, operation, params + draw(rng), x, y

    return made


def strong_prism(rng):
    return [uniform(rng, -0.4, 0.4) for _ in range(4)]


def mild_prism(rng):
    return [uniform(rng, -1, 1) * 10.0 ** -(1 + rng.below(7)) for _ in range(4)]


def no_prism(rng):
    """Zeros of either sign: bc12 is bc then, the sign of a zero aside."""
    return [(0.0, -0.0)[rng.bits(1)] for _ in range(4)]


def stiff_prism(rng):
    """As stiff_bc, by the prism alone: u or v grows so fast with r2 or r4 that a small step leaves a residual above
    EPS. On the other side there is no point, and the search goes on to its end."""
    strong = uniform(rng, 0.5, 1) * 10.0 ** (6 + rng.below(9))
    place, far = rng.below(4), uniform(rng, -1, 9) * 10.0 ** rng.below(4)
    s = [strong if i == place else 0.0 for i in range(4)]
    return BC12, UNDISTORT, prism(*s), *((far, 0.0) if place < 2 else (0.0, far))


def without_a_prism(rng):
    """Each operation of ordinary lenses, of uneven ones and of wild ones, with a prism of zeros."""
    for make in (regular, uneven, wild):
        for operation in range(4):
            for _ in range(8):
                yield with_prism(lambda r: make(r, BC, operation), no_prism)(rng)


def unit(model, *rest):
    """Focal lengths 1, the centre 0, and the first of the other parameters; those after them are 0."""
    params = [1.0, 1.0, 0.0, 0.0, *rest]
    return params + [0.0] * (COUNTS[model] - len(params))


def prism(*rest):
    """bc12 that bends by its prism alone: s1 to s4, as many as are given."""
    return unit(BC12, *[0.0] * 8, *rest)


def everywhere(model, params, places, operations=range(4)):
    return [(model, o, params, x, y) for x, y in places for o in operations]


def by_hand():
    """Document 01's numbers to check by hand; and a pixel that Newton takes to kb's mirrored branch, with the point's own
    pixel, which lies on the other side of the centre."""
    kb = [1000.0, 1000.0, 320.0, 280.0, 0.0, 0.0, 0.0, 0.0]
    return [
        (AFFINE, DISTORT, [600.0, 600.0, 1.0, 0.5], 0.5, -0.25),
        (AFFINE, UNDISTORT, [600.0, 600.0, 1.0, 0.5], 301.0, -149.5),
        (EUCM, DISTORT, unit(EUCM, 0.5, 1.0), 2.0, 2.0),
        (EUCM, UNDISTORT, unit(EUCM, 0.5, 1.0), 1.0, 1.0),
        (EUCM, UNDISTORT, unit(EUCM, 0.5, 1.0), 2.0, 0.0),
        (EUCM, UNDISTORT, unit(EUCM, 0.5, 1.0), 2.0, 2.0),
        (KB, DISTORT, kb, 0.0, 0.0),
        (KB, UNDISTORT, kb, 320.0, 280.0),
        (KB, UNDISTORT, unit(KB, -1.0), 0.5, 0.0),
        (KB, DISTORT, unit(KB, -1.0), 2.5087111159896955, 0.0),
        (BC, DISTORT, unit(BC, 0.0, 0.0, 1.0), 1.0, 1.0),
        (BC, DISTORT, unit(BC, 0.0, 0.0, 0.0, 1.0), 1.0, 1.0),
        (BC, UNDISTORT, unit(BC), 3.0, 4.0),
        (BC, BY_PARAMS, unit(BC), 1.0, 2.0),
        (BC12, DISTORT, prism(1.0, 2.0, 3.0, 4.0), 1.0, 1.0),
        (BC12, BY_POINT, prism(1.0, 2.0, 3.0, 4.0), 1.0, 1.0),
        (BC12, UNDISTORT, prism(), 3.0, 4.0),
        (BC12, BY_PARAMS, prism(), 1.0, 2.0),
        (AFFINE, UNDISTORT, [-0.0, 1.0, 0.0, 0.0], 1.0, 1.0),
    ]


def zeros(rng):
    """Zeros of both signs, as coordinates and as parameters: which zero is answered depends on them."""
    places = [(a, b) for a in (0.0, -0.0) for b in (0.0, -0.0)]
    found = []
    for model in range(NO_MODEL):
        plain, turned = unit(model), [-1.0, -1.0] + [-0.0] * (COUNTS[model] - 2)
        found += everywhere(model, plain, places[:3]) + everywhere(model, turned, places[1:3])
        # the principal point's pixel, and a point on each axis
        params = lens(rng, model)
        found.append((model, UNDISTORT, params, params[2], params[3]))
        found += everywhere(model, params, [(0.25, -0.0), (0.0, -0.75)], (DISTORT, BY_POINT, BY_PARAMS))
    return found


def eps_edge():
    """kb at a squared radius just below, at and just above EPS. The k are so strong that the two sides differ."""
    params = [500.0, 400.0, 0.0, 0.0, 1e5, -1e5, 1e5, 1e5]
    near = [0.001]
    for _ in range(3):
        near = [math.nextafter(near[0], 0)] + near + [math.nextafter(near[-1], 1)]
    places = [(x, 0.0) for x in near] + [(0.0, -x) for x in near[2:5]] + [(0.0006, 0.0008), (0.0006, -0.00081)]
    found = everywhere(KB, params, places, (DISTORT, BY_POINT, BY_PARAMS))
    found += [(KB, UNDISTORT, unit(KB, -0.3, 0.2), x, y) for x, y in places]
    found += [(KB, UNDISTORT, [2.0, 2.0, 1.0, 1.0, 0.1, 0.0, 0.0, 0.0], 1 + 2 * x, 1 + 2 * y) for x, y in places]
    return found


def limit_edge():
    """kb without k has theta = radius: 99/64 is the last that is answered, as 3/2 was before request P7. And larger
    radii, which are not."""
    radii = [math.nextafter(1.5, 0), 1.5, math.nextafter(1.5, 2), 1.50001, 1.518, 1.53, 1.546]
    radii += [math.nextafter(LIMIT, 0), LIMIT, math.nextafter(LIMIT, 2), 1.54688, 1.57, 3.0, 1e10, 1e150]
    found = [(KB, UNDISTORT, unit(KB), s * r, 0.0) for r in radii for s in (1, -1)]
    # theta starts at its end, so the first step is small
    return found + [(KB, UNDISTORT, unit(KB), 1.0, 0.0), (KB, UNDISTORT, unit(KB), 0.0, -1.0000001)]


# Degrees off the axis: past the old limit, 85.94, up to the new one, 88.63
WIDE = (86.0, 86.5, 87.0, 87.25, 87.5, 88.0, 88.5, 88.6)


def wide_kb(rng):
    """A wheel's teeth at 87 degrees and around it: a point there by three operations, and the pixel it is seen at."""
    for degrees in WIDE:
        for params in (unit(KB), lens(rng, KB)[:4] + [uniform(rng, -s, s) for s in (0.02, 0.005, 0.002, 0.0005)]):
            turned = uniform(rng, 0.0, 2 * math.pi)
            x, y = (math.tan(math.radians(degrees)) * f(turned) for f in (math.cos, math.sin))
            pixel = answer(KB, DISTORT, params, x, y)[1]
            assert answer(KB, UNDISTORT, params, *pixel)[0] == 0
            yield KB, UNDISTORT, params, *pixel
            yield from ((KB, o, params, x, y) for o in (DISTORT, BY_POINT, BY_PARAMS))


# With these two as the coefficients of the second and the fourth power, kb's first step and bc's at radius 1
# is exactly EPS. And a pixel with bc's k1, whose residual there is exactly EPS. All were found by a search.
STEP_IS_EPS = [-0.24999625010483295, 0.24999775010483316]
RESIDUAL_IS_EPS = (1.3920947414637112e-06, -370675277302.27356)

# kb's coefficients for which Newton goes from 1/2 to 1/4 and then to and fro between 0 and 1/4, all exact, where
# the pixel's radius is 1/4. After 20 updates it stands at 0.
ENDS_AT_ZERO = [-22.0, 136.0, -256.0]


def equality_edge():
    """Where a test of an undistort holds by equality: a step, a residual, a tangent of 0."""
    found = [(model, UNDISTORT, unit(model, *STEP_IS_EPS), s, 0.0) for model in (KB, BC, BC12) for s in (1.0, -1.0)]
    u, k1 = RESIDUAL_IS_EPS
    for model in (BC, BC12):
        found += [(model, UNDISTORT, unit(model, k1), u, 0.0), (model, UNDISTORT, unit(model, k1), 0.0, -u)]
    places = [(0.25, 0.0), (-0.25, 0.0), (0.0, 0.25), (-0.0, -0.25)]
    return found + everywhere(KB, unit(KB, *ENDS_AT_ZERO), places, [UNDISTORT])


def eucm_edge():
    """alpha 0 and 1 and beyond, beta 0 and below, a k of zero and below, the root of a negative."""
    places = [(2.0, 2.0), (2.0, 0.0), (-2.0, 0.0), (1.0, 1.0), (0.001, 0.0), (1e-9, -1e-9), (30.0, -40.0)]
    found = []
    for alpha in (0.0, -0.0, 0.5, 1.0, 1.5, -0.5):
        for beta in (1.0, 0.0, -0.2, 4.0):
            i = len(found)
            found += [(EUCM, o, unit(EUCM, alpha, beta), *places[(i + o) % 7]) for o in range(4)]
    return found + everywhere(EUCM, unit(EUCM, 0.5, 1.0), places[:5])


def passing_overflow():
    """Something on the way is infinite or NaN, and the answer is finite all the same."""
    kb = [3.0, -2.0, 7.0, 8.0, 0.1, 0.0, 0.0, 0.0]
    far = [(1e200, 0.0), (-1e200, 1e160), (0.0, 1e308)]
    forth = (DISTORT, BY_POINT, BY_PARAMS)
    found = everywhere(KB, kb, far, (DISTORT, BY_PARAMS)) + everywhere(KB, kb, [(0.0, 0.0), (1e-200, 0.0)], forth)
    found += everywhere(EUCM, [3.0, -2.0, 7.0, 8.0, 0.5, 1.0], far, [DISTORT])
    found += everywhere(EUCM, unit(EUCM, 1e5, 1.0), [(1e150, 0.0), (-1e149, 1e150)], forth)
    # the denominator is infinite, so only the tangential part is left
    bc = unit(BC, 0.5, 0.0, 0.25, 0.125, 0.0, 1e300)
    found += everywhere(BC, bc, [(1e5, 2.0), (-3e7, 1e6)], (DISTORT, BY_PARAMS))
    found += everywhere(BC12, bc + [0.0625, -0.5, 3.0, 0.03125], [(1e5, 2.0), (-3e7, 1e6)], (DISTORT, BY_PARAMS))
    return found


def divided_by_zero():
    """Denominators that are exactly zero: bc's own and its determinant, bc12's too, eucm's norm and its rho, kb's slope.
    All give 11."""
    pole = unit(BC, 0.0, 0.0, 0.0, 0.0, 0.0, -1.0)
    found = everywhere(BC, pole, [(1.0, 0.0), (0.0, -1.0), (0.6, 0.8)])
    found += everywhere(BC12, pole + PRISM, [(1.0, 0.0), (0.0, -1.0), (0.6, 0.8)])
    # 1 + 2 s1 x is 0 at x = 1, as is 1 + 4 s2 x^3
    found += [(BC12, UNDISTORT, prism(-0.5), 1.0, 0.0), (BC12, UNDISTORT, prism(0.0, -0.25), 1.0, 0.0)]
    found += [(BC, UNDISTORT, unit(BC, -7.0, 4.0), 1.0, 0.0), (BC, UNDISTORT, unit(BC, 0.0, 0.0, 0.5), 0.0, -1 / 3)]
    found += everywhere(EUCM, unit(EUCM, 2.0, -3.0), [(0.5, 0.0), (0.0, -0.5)], (DISTORT, BY_POINT, BY_PARAMS))
    found += everywhere(EUCM, unit(EUCM, 2.0, -1.0), [(1.0, 0.0), (0.0, -1.0)], (BY_POINT, BY_PARAMS))
    # the step is infinite, so theta is, and then NaN: 11 and not 10
    return found + [(KB, UNDISTORT, unit(KB, -1 / 3), 1.0, 0.0), (KB, UNDISTORT, unit(KB, -1 / 3), 0.0, -1.0)]


def extremes():
    """The largest, the smallest and the subnormal numbers, as focal lengths and as coordinates."""
    top, least, tiny = value(LARGEST), value(NORMAL), value(1)
    found = []
    for model, rest in enumerate(map(list, MILD)):
        for fx, fy in ((top, -top), (least, -tiny), (-600.0, 500.0)):
            found += everywhere(model, [fx, fy, tiny, -least] + rest, [(0.25, -0.5), (tiny, -tiny), (1000.0, 3.0)])
        found += everywhere(model, [2.0, -2.0, 1.0, 1.0] + rest, [(top, tiny), (1e154, -1e154)])
    # a subnormal product: here doubling before it and after it differ
    beta, far = value(11), 2.0**500
    found += everywhere(EUCM, unit(EUCM, 0.5, beta), [(far, 1.3273), (1.3273, -far)], [BY_POINT])
    found += everywhere(BC, unit(BC, 0.0, 0.0, 1e300, -3e300), [(1.1e-161, 1.3e-161), (-1.7e-161, 1e-161)], [DISTORT])
    found += everywhere(BC, unit(BC, 0.0, 0.0, 1.3e-161, 1e-162), [(1.7e-161, 1.9e-161), (3e-162, 1e-161)], [BY_POINT])
    return found


def not_finite(rng):
    """A NaN or an infinity at each place of each call, the patterns in turn. Some have a zero focal length too:
    4 comes before 5."""
    patterns = NANS + [INF, SIGN + INF]
    found = []
    for model in range(NO_MODEL):
        for operation in range(4):
            for place in range(COUNTS[model] + 2):
                numbers = [bits(z) for z in (*lens(rng, model), 0.5, -0.25)]
                if rng.below(6) == 0:
                    numbers[rng.bits(1)] = rng.bits(1) * SIGN
                numbers[place] = patterns[len(found) % len(patterns)]
                found.append((model, operation, numbers[:-2], *numbers[-2:]))
    return found


def zero_focal(rng):
    """fx or fy or both zero, of either sign."""
    found = []
    for model in range(NO_MODEL):
        for operation in range(4):
            for fx, fy in ((0.0, 1.0), (1.0, 0.0), (-0.0, 600.0), (-600.0, -0.0), (0.0, -0.0)):
                params = lens(rng, model)
                found.append((model, operation, [fx, fy] + params[2:], 0.5, -0.25))
    return found


def kinds():
    """Each kind's name and its questions. The seeds differ, so that a change in one kind leaves the others."""
    yield "by hand", by_hand()
    yield "zeros", zeros(Splitmix(10))
    yield "kb at EPS", eps_edge()
    yield "kb at 99/64", limit_edge()
    yield "kb at 86 to 88.6 degrees", wide_kb(Splitmix(14))
    yield "equal to EPS, or 0", equality_edge()
    yield "eucm's edges", eucm_edge()
    yield "infinite on the way", passing_overflow()
    yield "divided by zero", divided_by_zero()
    yield "extreme", extremes()
    yield "refused 4", not_finite(Splitmix(12))
    yield "refused 5", zero_focal(Splitmix(13))
    yield "refusals at their edges", refusal_edges.questions()
    for model, name in enumerate(MODELS):
        rng = Splitmix(20 + model)
        operations = range(4)
        count = 12 if model == AFFINE else 20
        yield f"{name}, regular", [regular(rng, model, o) for o in operations for _ in range(count)]
        if model != AFFINE:
            rng = Splitmix(60 + model)
            yield f"{name}, uneven", [uneven(rng, model, o) for o in operations for _ in range(20)]
        rng = Splitmix(30 + model)
        wanted = {0: 16, 11: 4} if model != AFFINE else {0: 8, 11: 3}
        for o in operations:
            # affine's Jacobians copy what they are given, which is finite
            some = {0: 8} if model == AFFINE and o >= BY_POINT else wanted
            if (model, o) == (EUCM, UNDISTORT):
                some = wanted | {16: 8}
            yield f"{name}, wild {OPERATIONS[o]}", searched(rng, lambda r: wild(r, model, o), some)
    yield "kb, strong", by_ending(Splitmix(40), strong_kb, 2, 8000)
    yield "kb, mirrored", by_ending(Splitmix(41), mirrored_kb, 3, 300)
    yield "bc, strong", by_ending(Splitmix(42), strong_bc, 1, 4000)
    yield "bc, mild", by_ending(Splitmix(43), mild_bc, 4, 1000)
    yield "bc, stiff", by_ending(Splitmix(44), stiff_bc, 1, 1000)
    yield "bc, touching", by_ending(Splitmix(45), touching_bc, 3, 60)
    yield "bc12, strong", by_ending(Splitmix(46), with_prism(strong_bc, strong_prism), 1, 4000)
    yield "bc12, mild", by_ending(Splitmix(47), with_prism(mild_bc, mild_prism), 4, 1000)
    yield "bc12, stiff", by_ending(Splitmix(48), stiff_prism, 1, 1000)
    yield "bc12, touching", by_ending(Splitmix(49), with_prism(touching_bc, no_prism), 3, 60)
    yield "bc12, no prism", without_a_prism(Splitmix(52))
    yield "bc12, strong, no prism", by_ending(Splitmix(53), with_prism(strong_bc, no_prism), 1, 1000)
    yield "held to difference quotients", difference_quotients.questions()


def misspelled(fields, one):
    """The line of these fields, each field by itself with a digit of `one` spelled wrong, as the neighbours of the
    digits' ranges and as a capital; then each tab as a space."""
    for place in range(len(fields)):
        wrong = ("/" + one[1:], one[:-1] + ":", "`" + one[1:], one[:-1] + "g", one[:-1] + "A")[place % 5]
        yield "\t".join(fields[:place] + [wrong] + fields[place + 1 :])
    for place in range(1, len(fields)):
        yield "\t".join(fields[:place]) + " " + "\t".join(fields[place:])


# ---- the lines


def pattern(z):
    return z if isinstance(z, int) else bits(z)


def number_of(z):
    return value(z) if isinstance(z, int) else z


def made():
    """The lines, each question once, what is owed on them, and what is to be said about them."""
    asked, owed, said = {}, [], Counter()
    for kind, questions in kinds():
        before = len(asked)
        for model, operation, params, x, y in questions:
            unused = [0] * (MOST_PARAMS - len(params))
            line = operation_question(model, operation, [pattern(z) for z in params] + unused, pattern(x), pattern(y))
            if line in asked:
                continue
            asked[line] = kind
            number, given = answer(model, operation, [number_of(z) for z in params], number_of(x), number_of(y))
            owed.append(reply(number, b"" if number else answer_bytes(operation, given)))
            said[MODELS[model], OPERATIONS[operation], number] += 1
            if operation == UNDISTORT and LIMITS[model] and number == 0:
                said[MODELS[model], "updates", given[2], "yes" if given[3] else "no"] += 1
        said["kind", kind] = len(asked) - before
    summary(said, len(asked))
    return list(asked), owed, said


def summary(said, count):
    """What the questions cover, on stderr. It asserts what may not be missing."""

    def say(*words):
        print(*words, file=sys.stderr)

    for key, n in said.items():
        if key[0] == "kind":
            say(f"{n:5} {key[1]}")
    numbers = (0, 4, 5, 10, 16, 11)
    say(f"\n{'refusal':24}" + "".join(f"{n:6}" for n in numbers))
    for name in MODELS:
        for operation in OPERATIONS:
            say(f"{name:7}{operation:17}" + "".join(f"{said[name, operation, n]:6}" for n in numbers))
    for name, most in zip(MODELS, LIMITS):
        if most == 0:
            continue
        for flag in ("yes", "no"):
            some = {k[2]: n for k, n in said.items() if k[:2] == (name, "updates") and k[3] == flag}
            # every count of updates up to 20 and the last one, and a flag of no at the last one
            assert most in some and (flag == "no" or all(u in some for u in range(21)))
            say(f"\n{name}, flag {flag}, updates: questions")
            say("  ", "  ".join(f"{u}: {some[u]}" for u in sorted(some)))
    say(f"\n{count} questions")
    # every number that a call can give is given
    for model, name in enumerate(MODELS):
        for o, operation in enumerate(OPERATIONS):
            assert said[name, operation, 0] and said[name, operation, 4] and said[name, operation, 5]
            assert said[name, operation, 11] or model == AFFINE and o >= BY_POINT
            assert all(n in numbers for *call, n in said if call == [name, operation])
    assert said["kb", "undistort", 10] and said["eucm", "undistort", 16] and count >= 1000


# ---- the self-test


def test_angles():
    """The copied arctangent and tangent against the stored ends of test_angle_vectors, whose makers know no f64."""
    folder = CRATES / "test_angle_vectors"
    asked = (folder / "stdin").read_text().split("\n")
    owed = (folder / "stdout").read_text().split("\n")
    tried = Counter()
    for question, line in zip(asked, owed):
        if not line.startswith(("arctangent", "tangent")):
            continue
        word, x, low, high = question.split("\t")
        given = (arctangent if word == "arctangent" else tangent)(value(int(x, 16)))
        low, high = value(int(low, 16)), value(int(high, 16))
        if given is None:
            verdict = "refused"
        elif math.isnan(given):
            verdict = "nan"
        elif bits(low) == bits(high):
            verdict = "within" if bits(given) == bits(low) else "outside"
        else:
            verdict = "within" if low <= given <= high else "outside"
        assert line.split("\t")[2] == verdict, (question, given)
        if word == "tangent" and verdict == "within" and abs(value(int(x, 16))) >= SMALL:
            # what stands behind the guess, which no angle here asks for
            x = value(int(x, 16))
            assert low <= math.copysign(solved(abs(x)), x) <= high, question
        tried[word, verdict] += 1
    assert tried["arctangent", "within"] > 300 and tried["tangent", "within"] > 200
    print("angles:", dict(tried))


def test_by_hand():
    expected = [
        (0, (301.0, -149.5)),
        (0, (0.5, -0.25, 0, True)),
        (0, (1.0, 1.0)),
        (0, (2.0, 2.0, 0, True)),
        (16, None),
        (16, None),
        (0, (320.0, 280.0)),
        (0, (0.0, 0.0, 0, True)),
        (0, (2.5087111159896955, 0.0, 11, False)),
        (0, (-0.5000000000000178, 0.0)),
        (0, (3.0, 5.0)),
        (0, (5.0, 3.0)),
        (0, (3.0, 4.0, 0, True)),
        (0, ([1, 0, 1, 0, 5, 25, 4, 7, 125, -5, -25, -125], [0, 2, 0, 1, 10, 50, 13, 4, 250, -10, -50, -250])),
        (0, (11.0, 23.0)),
        (0, ([19.0, 18.0], [38.0, 39.0])),
        (0, (3.0, 4.0, 0, True)),
        (0, ([1, 0, 1, 0, 5, 25, 4, 7, 125, -5, -25, -125, 5, 25, 0, 0],
             [0, 2, 0, 1, 10, 50, 13, 4, 250, -10, -50, -250, 0, 0, 5, 25])),
        (5, None),
    ]
    for q, owed in zip(by_hand(), expected, strict=True):
        assert answer(*q) == owed, q
    assert root(2.25) == 1.5 and reply(0, answer_bytes(DISTORT, expected[0][1])) == "0\t4072d00000000000\tc062b00000000000"
    print("by hand:", len(expected))


def test_edges():
    """That the searched numbers are where they are said to be."""
    k0, k1 = STEP_IS_EPS
    assert ((1.0 + k0 + k1) - 1.0) / (1.0 + 3.0 * k0 + 5.0 * k1) == EPS
    assert kb_newton(1.0, k0, k1, 0.0, 0.0) == (1.0 - EPS, 1, True)
    coefficients = [k0, k1] + [0.0] * 6
    a, b, c, d = bc_newton_jacobian(coefficients, 1.0, 0.0)
    assert b == c == 0 and d * (1.0 / (a * d)) * (bc_distortion_impl(coefficients, 1.0, 0.0)[0] - 1.0) == EPS
    u, k1 = RESIDUAL_IS_EPS
    assert norm(bc_distortion_impl([k1] + [0.0] * 7, u, 0.0)[0] - u, 0.0) == EPS
    assert kb_newton(0.25, *ENDS_AT_ZERO, 0.0) == (0.0, 20, False)
    last, past = (answer(KB, UNDISTORT, unit(KB), r, 0.0)[0] for r in (LIMIT, math.nextafter(LIMIT, 2)))
    assert (last, past) == (0, 10)
    small, large = (answer(KB, UNDISTORT, unit(KB, 0.1), r, 0.0)[1][2] for r in (0.001, math.nextafter(0.001, 1)))
    assert small == 0 < large
    assert all(answer(*q)[0] == 0 for q in passing_overflow())
    assert all(answer(*q)[0] == 11 for q in divided_by_zero())
    print("edges: as said")


def quotients(f, at):
    """The two rows of difference quotients of f, which takes a list and gives a pair."""
    columns = []
    for i, z in enumerate(at):
        h = 1e-6 * max(1.0, abs(z))
        up, down = (f(at[:i] + [z + d] + at[i + 1 :]) for d in (h, -h))
        columns.append([(a - b) / (2 * h) for a, b in zip(up, down)])
    return zip(*columns)


def assert_near(rows, others, places, what):
    for row, other in zip(rows, others, strict=True):
        scale = max(1.0, *map(abs, row))
        assert all(abs(a - b) <= places * scale for a, b in zip(row, other, strict=True)), (what, row, other)


def test_derivatives():
    """Each Jacobian against difference quotients, and the two blocks of bc and of bc12 against each other."""
    rng, tried = Splitmix(50), 0
    blocks = {BC: bc_newton_jacobian, BC12: bc12_newton_jacobian}
    for model in range(NO_MODEL):
        distort, _, by_point, by_params = FUNCTIONS[model]
        for _ in range(200):
            params, x, y = lens(rng, model), uniform(rng, -0.9, 0.9), uniform(rng, -0.9, 0.9)
            assert_near(by_point(params, x, y), quotients(lambda at: distort(params, *at), [x, y]), 1e-5, model)
            assert_near(by_params(params, x, y), quotients(lambda at: distort(at, x, y), params), 1e-5, model)
            if model in blocks:
                a, b, c, d = blocks[model](params[4:], x, y)
                fx, fy = params[:2]
                assert_near(by_point(params, x, y), ([fx * a, fx * b], [fy * c, fy * d]), 1e-12, model)
            tried += 1
    print("derivatives:", tried)


def test_round_trips():
    """Undistort after distort comes back. The flag of bc and bc12 isn't held to yes: the last step isn't taken, so the
    residual may stay a little above EPS on a good lens."""
    rng, tried = Splitmix(51), Counter()
    for model in range(NO_MODEL):
        for _ in range(300):
            params, x, y = lens(rng, model), uniform(rng, -0.7, 0.7), uniform(rng, -0.7, 0.7)
            u, v = FUNCTIONS[model][DISTORT](params, x, y)
            back_x, back_y, _, flag = FUNCTIONS[model][UNDISTORT](params, u, v)
            assert math.hypot(back_x - x, back_y - y) < 1e-5, (model, params, x, y)
            assert flag or model >= BC
            tried[MODELS[model], "yes" if flag else "no"] += 1
    print("round trips, by flag:", dict(tried))


def self_test():
    test_angles()
    test_by_hand()
    test_edges()
    test_derivatives()
    test_round_trips()


if __name__ == "__main__":
    self_test()
