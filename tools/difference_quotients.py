"""bc's derivative by its twelve parameters, at 500 random points and parameters, and bc12's by its sixteen and by the
point, at 200, held to difference quotients.

    python3 tools/difference_quotients.py   holds them, tests this script with wrong derivatives, and says what it found

The f64 entries are those of tools/lens_models.py. All of them stand in test_camera_calls too, where our code owes the
same bits; so what is held here is what our code gives.

The quotients. The pixel is worked out by the formula in exact fractions, with a parameter or a coordinate moved by H to
either side, and its difference is divided by 2 H. No derivative takes part in that.

The bound, by the parameters. Every parameter but k4, k5 and k6 is a factor of a product or is added, so that the quotient
is the derivative itself. Those three multiply r2, r4 and r6 in the denominator D. With r for such a power the quotient is
the derivative times D^2 / (D^2 - (H r)^2), so the two are apart by the quotient times (H r / D)^2.

The bound, by the point. What the quotient is off falls to a quarter when H is halved, but for what H^4 brings. So it is
off by less than twice the difference of the two quotients.

To this come the roundings of f64. Fewer than 64 lie on the way to an entry by a parameter, fewer than 128 on the way to
one by the point, and each moves it by at most 2^-53 of its size, which is the entry with every sum taken of absolute
values, one division by D bringing in how much larger that sum is than D itself.
"""
import sys
from fractions import Fraction

from lens_models import BC, BC12, BY_PARAMS, BY_POINT, COUNTS, MODELS, OPERATIONS, answer
from make_leaf_vectors import Splitmix

H = Fraction(1, 2**40)
ROUNDINGS = {BY_PARAMS: Fraction(64, 2**53), BY_POINT: Fraction(128, 2**53)}
HELD = ((BC, BY_PARAMS), (BC12, BY_PARAMS), (BC12, BY_POINT))
COUNTED = {BC: 500, BC12: 200}  # points and parameters
LEAST = Fraction(1, 8)  # of the denominator: a lens is not used next to its pole


# ---- the points and parameters


def uniform(rng, low, high):
    return low + (high - low) * (rng.bits(53) / 2**53)


def drawn(rng, model):
    """Focal lengths of an ordinary camera, of either sign; the coefficients of either sign, as strong as 1 or weaker
    by up to 2^-9; and a point in and around the image."""
    focal = [uniform(rng, 250, 1400) * (1 - 2 * rng.bits(1)) for _ in range(2)]
    centre = [uniform(rng, 200, 1000) for _ in range(2)]
    coefficients = [uniform(rng, -1, 1) / 2.0 ** rng.below(10) for _ in range(COUNTS[model] - 4)]
    return focal + centre + coefficients, uniform(rng, -1.5, 1.5), uniform(rng, -1.5, 1.5)


def cases(model):
    rng, found = Splitmix({BC: 70, BC12: 71}[model]), []
    while len(found) < COUNTED[model]:
        params, x, y = drawn(rng, model)
        if abs(parts(exact(params), Fraction(x), Fraction(y))[2]) >= LEAST:
            found.append((params, x, y))
    return found


def questions():
    return [(model, operation, params, x, y) for model, operation in HELD for params, x, y in cases(model)]


# ---- the formula, in fractions


def exact(params):
    return [Fraction(z) for z in params]


def parts(params, x, y):
    """r2, r4 and r6; numerator and denominator."""
    _, _, _, _, k1, k2, _, _, k3, k4, k5, k6 = params[:12]
    r2 = x * x + y * y
    powers = r2, r2**2, r2**3
    above, below = (1 + sum(k * r for k, r in zip(some, powers)) for some in ((k1, k2, k3), (k4, k5, k6)))
    return powers, above, below


def prism(params):
    """s1 to s4: bc has none."""
    return params[12:] or [0] * 4


def pixel(params, x, y):
    fx, fy, cx, cy, _, _, p1, p2 = params[:8]
    s1, s2, s3, s4 = prism(params)
    (r2, r4, _), above, below = parts(params, x, y)
    u = x * above / below + p1 * 2 * x * y + p2 * (r2 + 2 * x * x) + s1 * r2 + s2 * r4
    v = y * above / below + p1 * (r2 + 2 * y * y) + p2 * 2 * x * y + s3 * r2 + s4 * r4
    return u * fx + cx, v * fy + cy


def quotient(f, at, place, h=H):
    """Of u and v by the number at a place."""
    up, down = (f(at[:place] + [at[place] + d] + at[place + 1 :]) for d in (h, -h))
    return [(a - b) / (2 * h) for a, b in zip(up, down)]


def sizes_by_params(params, x, y):
    """The entries of both rows with every sum taken of absolute values, as the bound wants them."""
    p1, p2 = map(abs, params[6:8])
    s1, s2, s3, s4 = map(abs, prism(params))
    powers, _, below = parts(params, x, y)
    _, above_size, below_size = parts([abs(z) for z in params], x, y)
    worse = below_size / abs(below)
    (r2, r4, _), a1 = powers, abs(2 * x * y)
    for at, f, row, (t1, t2) in ((x, params[0], 0, (a1, r2 + 2 * x * x)), (y, params[1], 1, (r2 + 2 * y * y, a1))):
        up = abs(at * f / below) * worse
        down = up * above_size / abs(below)
        focal = [0, 0]
        focal[row] = abs(at / below) * above_size * worse + p1 * t1 + p2 * t2
        focal[row] += (s1 * r2 + s2 * r4, s3 * r2 + s4 * r4)[row]
        k1, k2, k3 = (up * r for r in powers)
        own = [r2 * abs(f), r4 * abs(f)]
        behind = [own + [0, 0], [0, 0] + own][row] if params[12:] else []
        yield [*focal, 0, 0, k1, k2, t1 * abs(f), t2 * abs(f), k3, *(down * r for r in powers), *behind]


def sizes_by_point(params, x, y):
    """The same of the entries by x and y."""
    fx, fy, _, _, k1, k2, p1, p2, k3, k4, k5, k6 = map(abs, params[:12])
    s1, s2, s3, s4 = map(abs, prism(params))
    _, _, below = parts(params, x, y)
    (q, q2, _), above, below_size = parts([abs(z) for z in params], x, y)
    x, y = abs(x), abs(y)
    d = 2 * (2 * q * k5 + 3 * q2 * k6 + k4) * above
    e = 4 * q * k2 + 6 * q2 * k3 + 2 * k1
    m = (d + e * below_size) * x * y
    across = 2 * p1 * x + 2 * p2 * y
    radial = [x * x * d + below_size * (x * x * e + above), m, m, y * y * d + below_size * (y * y * e + above)]
    tangential = [2 * p1 * y + 6 * p2 * x, across, across, 6 * p1 * y + 2 * p2 * x]
    su, sv = 2 * (s1 + 2 * s2 * q), 2 * (s3 + 2 * s4 * q)
    square, worse = below**2, below_size / abs(below)
    ux, uy, vx, vy = ((r + below_size**2 * t) / square * worse for r, t in zip(radial, tangential))
    yield [(ux + su * x) * fx, (uy + su * y) * fx]
    yield [(vx + sv * x) * fy, (vy + sv * y) * fy]


# ---- the test


def bounds(operation, params, x, y):
    """Each entry's quotient and the bound, row by row."""
    params, x, y = exact(params), Fraction(x), Fraction(y)
    if operation == BY_PARAMS:
        powers, _, below = parts(params, x, y)
        moved = [0] * 9 + [(H * r / below) ** 2 for r in powers] + [0] * 4
        columns = [quotient(lambda at: pixel(at, x, y), params, place) for place in range(len(params))]
        off = [[abs(q) * m for q in column] for column, m in zip(columns, moved)]
        size = sizes_by_params(params, x, y)
    else:
        columns, halved = (
            [quotient(lambda at: pixel(params, *at), [x, y], place, h) for place in (0, 1)] for h in (H, H / 2)
        )
        off = [[2 * abs(a - b) for a, b in zip(*pair)] for pair in zip(columns, halved)]
        size = sizes_by_point(params, x, y)
    for row, apart, entries in zip(zip(*columns), zip(*off), size, strict=True):
        yield [(q, o + ROUNDINGS[operation] * z) for q, o, z in zip(row, apart, entries, strict=True)]


def farthest(rows, limits):
    """How far an entry is from its quotient at most, as a part of the bound: 1 is on it. An entry that the bound leaves
    no room, such as a 0 or a 1, has to be its quotient."""
    worst = Fraction(0)
    for entries, row in zip(rows, limits, strict=True):
        for entry, (q, bound) in zip(entries, row, strict=True):
            apart = abs(Fraction(entry) - q)
            if apart:
                worst = max(worst, apart / bound if bound else Fraction(2))
    return worst


def swapped(rows, a, b):
    return [[row[{a: b, b: a}.get(i, i)] for i in range(len(row))] for row in rows]


def changed(rows, place, factor):
    return [[z * factor if i == place else z for i, z in enumerate(row)] for row in rows]


def wrong_by_params(rows, params, x, y):
    """Derivatives with one thing wrong, by name."""
    r2 = x * x + y * y
    below = 1.0 + params[9] * r2 + params[10] * r2**2 + params[11] * r2**3
    yield "k4's column with the sign of k1's", changed(rows, 9, -1.0)
    yield "r4 for r6 in k3's", [[*row[:8], row[5], *row[9:]] for row in rows]
    yield "p1 and p2 swapped", swapped(rows, 6, 7)
    yield "k5's not over the square", changed(rows, 10, below)
    yield "k6's off by 2^-40", changed(rows, 11, 1.0 + 2.0**-40)
    yield "fx for fy", [rows[0], changed(rows, 4, params[0] / params[1])[1]]
    if params[12:]:
        yield "s2 and s3 swapped", swapped(rows, 13, 14)
        yield "r2 for r4 in s2's", [[*row[:13], row[12], *row[14:]] for row in rows]
        yield "s4's off by 2^-40", changed(rows, 15, 1.0 + 2.0**-40)
        yield "fx's without the prism", [changed(rows, 0, 1.0 - (params[12] * r2 + params[13] * r2**2) / rows[0][0])[0], rows[1]]


def wrong_by_point(rows, params, x, y):
    """The same by the point: the derivatives of other lenses."""
    s1, s2, s3, s4 = params[12:]
    for name, other in (
        ("without the prism", [0.0] * 4),
        ("s2 and s3 swapped", [s1, s3, s2, s4]),
        ("s4's slope not twice", [s1, s2, s3, s4 / 2]),
        ("s1 off by 2^-30", [s1 * (1.0 + 2.0**-30), s2, s3, s4]),
    ):
        yield name, answer(BC12, BY_POINT, params[:12] + other, x, y)[1]


WRONG = {BY_PARAMS: wrong_by_params, BY_POINT: wrong_by_point}


def held(model, operation):
    """Each case within the bound; and how many times each wrong derivative is not."""
    worst, seen = Fraction(0), {}
    for params, x, y in cases(model):
        number, rows = answer(model, operation, params, x, y)
        assert number == 0
        limits = list(bounds(operation, params, x, y))
        part = farthest(rows, limits)
        assert part <= 1, (params, x, y, float(part))
        worst = max(worst, part)
        for name, other in WRONG[operation](rows, params, x, y):
            seen[name] = seen.get(name, 0) + (farthest(other, limits) > 1)
    return worst, seen


def self_test():
    for model, operation in HELD:
        worst, seen = held(model, operation)
        words, many = f"{MODELS[model]}, {OPERATIONS[operation]}", COUNTED[model]
        print(f"difference quotients of {words}: {many} points and parameters, at most {float(worst):.3f} of the bound")
        for name, count in seen.items():
            print(f"  {name}: past the bound {count} times of {many}")
            assert count > many * 9 // 10, name


if __name__ == "__main__":
    sys.exit(self_test())
