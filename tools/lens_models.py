"""The lens models, in another language than ours: what the vectors are made with.

    python3 tools/lens_models.py --self-test   holds bc12 to bc and to difference quotients, and says what it found

From the text of the Rust, each operation by itself and under its names, so that the two can be read
side by side: nothing is shared that the Rust doesn't share. What it leaves open (refusals, updates,
flag, EPS, how a norm is formed, bc's derivative by its parameters, all of bc12) is as docs/RULES.md has
it. No code of the crates takes part, with one exception that has its own section: arctangent and tangent
are ours by agreement, so their whole-number text is copied here. A Python float is an f64, and + - * round
once and never stop; `div` and `root` say what / and sqrt are where Python would stop instead.

TABLE has what the scripts know of a model. Another one is its functions here and a line there, and lenses of its
own kind where a script says what they are: `lens` of model_questions, TAKEN of list_calls, ORDINARY of
make_table_vectors, EXAMPLES of make_printer_inputs. All else goes by TABLE.
"""
import math
import random
import struct
import sys
from typing import NamedTuple

EPS = 1e-6
OPERATIONS = ("distort", "undistort", "dx_distort_x", "dx_distort_params")
AFFINE, EUCM, KB, BC, BC12 = range(5)
DISTORT, UNDISTORT, BY_POINT, BY_PARAMS = range(4)


def bits(x):
    return struct.unpack("<Q", struct.pack("<d", x))[0]


# ---- division and root, for every f64


def div(a, b):
    if b == 0:
        if a == 0 or math.isnan(a):
            return math.nan
        return math.copysign(math.inf, math.copysign(1, a) * math.copysign(1, b))
    return a / b


def root(x):
    return math.nan if x < 0 else math.sqrt(x)


# ---- arctangent and tangent
#
# The only part that is taken from our crates: crates/arctan/src/lib.rt, step by step, because these two
# functions have bounds and not one right answer. Whole numbers count 2^-60; none here passes 2^64.

QUARTER, HALF = 905502432259640355, 1811004864519280710
RECIPROCALS = [2**60 // (2 * k + 1) for k in range(24)]
SMALL, NEAR, LIMIT = 2.0**-20, 2.0**-46, 99 / 64
SEAM, QUARTER_END, HALF_END = 0.3805063771123649, 0.7853981633974483, 1.5707963267948966


def product(a, b):
    a1, a0 = divmod(a, 2**30)
    b1, b0 = divmod(b, 2**30)
    return a1 * b1 + (a1 * b0 + a0 * b1 >> 30)


def series(s):
    y = product(s, s)
    h = 0
    for c in reversed(RECIPROCALS):
        h = c - product(y, h)
        assert h >= 0
    return product(s, h)


def angle(z):
    return series(int(z * 2.0**60))


def back(n):
    assert 0 <= n < 2**64
    return float(n) * 2.0**-60


def forward(x):
    if x < SMALL:
        return x
    if x < 0.4:
        return back(angle(x))
    if x <= 1.0:
        return back(QUARTER - angle((1.0 - x) / (1.0 + x)))
    if x < 2.5:
        return back(QUARTER + angle((x - 1.0) / (x + 1.0)))
    return back(HALF - angle(1.0 / x))


def arctangent(x):
    if x < 0:
        return -forward(-x)
    return x if math.isnan(x) else forward(x)


def close(t, theta):
    return math.isfinite(t) and 0 <= t and theta - NEAR < arctangent(t) < theta + NEAR


def sine(theta):
    y = theta * theta
    a = ((1.9572941063391263e-20 * y - 8.22063524662433e-18) * y + 2.8114572543455206e-15) * y
    b = ((a - 7.647163731819816e-13) * y + 1.6059043836821613e-10) * y - 2.505210838544172e-8
    c = ((b * y + 2.7557319223985893e-6) * y - 0.0001984126984126984) * y
    return (((c + 0.008333333333333333) * y - 0.16666666666666666) * y + 1.0) * theta


def cosine(theta):
    y = theta * theta
    a = ((4.110317623312165e-19 - 8.896791392450574e-22 * y) * y - 1.5619206968586225e-16) * y
    b = ((a + 4.779477332387385e-14) * y - 1.1470745597729725e-11) * y + 2.08767569878681e-9
    c = ((b * y - 2.755731922398589e-7) * y + 0.0000248015873015873) * y
    return (((c - 0.001388888888888889) * y + 0.041666666666666664) * y - 0.5) * y + 1.0


def solution(top, n):
    w = n
    for _ in range(4):
        e = max(n - series(w), 0)
        w += e + product(product(w, w), e)
    return min(w, top)


def lower(x):
    one = 2**60
    if x < SEAM:
        return float(solution(2 * one // 5, int(x * 2.0**60))) / float(one)
    w = solution(3 * one // 7, int((QUARTER_END - x) * 2.0**60))
    return float(one - w) / float(one + w)


def solved(theta):
    """What the tangent is where the guess fails its test. No angle is known of which it does."""
    return lower(theta) if theta <= QUARTER_END else 1.0 / lower(HALF_END - theta)


def steep(theta):
    t = div(sine(theta), cosine(theta))
    return t if close(t, theta) else solved(theta)


def tangent(theta):
    """The tangent, or None past the limit."""
    size = abs(theta)
    if size < SMALL:
        return theta
    if size <= LIMIT:
        return -steep(size) if theta < 0 else steep(size)
    return None if math.isfinite(theta) else math.nan


# ---- the models, by the Rust's names

TOO_STEEP = "too steep"  # what kb's undistort gives instead of an answer: refusal 10
MIRRORED = "mirrored"  # the same of eucm's: refusal 16


def affine_distort(params, x, y):
    return x * params[0] + params[2], y * params[1] + params[3]


def affine_undistort(params, u, v):
    return div(u - params[2], params[0]), div(v - params[3], params[1])


def affine_dx_distort_x(params, x, y):
    return [params[0], 0.0], [0.0, params[1]]


def affine_dx_distort_params(params, x, y):
    return [x, 0.0, 1.0, 0.0], [0.0, y, 0.0, 1.0]


def eucm_distort(params, x, y):
    fx, fy, cx, cy, alpha, beta = params
    r2 = x * x + y * y
    rho2 = beta * r2 + 1.0
    rho = root(rho2)
    norm = alpha * rho + (1.0 - alpha)
    mx = div(x, norm)
    my = div(y, norm)
    return fx * mx + cx, fy * my + cy


def eucm_undistort(params, u, v):
    fx, fy, cx, cy, alpha, beta = params
    mx = div(u - cx, fx)
    my = div(v - cy, fy)
    r2 = mx * mx + my * my
    gamma = 1.0 - alpha
    nominator = 1.0 - alpha * alpha * beta * r2
    denominator = alpha * root(1.0 - (alpha - gamma) * beta * r2) + gamma
    k = div(nominator, denominator)
    # the Rust goes on: docs/RULES.md, 8.3. A NaN k is no refusal of this kind
    if k <= 0:
        return MIRRORED
    return div(mx, k), div(my, k), 0, True


def eucm_dx_distort_x(params, x, y):
    fx, fy, _, _, alpha, beta = params
    r2 = x * x + y * y
    rho2 = beta * r2 + 1.0
    rho = root(rho2)
    norm = alpha * rho + (1.0 - alpha)
    drho2_dx = 2.0 * beta * x
    drho2_dy = 2.0 * beta * y
    drho_dx = div(drho2_dx, 2.0 * rho)
    drho_dy = div(drho2_dy, 2.0 * rho)
    dnorm_dx = alpha * drho_dx
    dnorm_dy = alpha * drho_dy
    dmx_dx = div(norm - x * dnorm_dx, norm * norm)
    dmx_dy = div(-x * dnorm_dy, norm * norm)
    dmy_dx = div(-y * dnorm_dx, norm * norm)
    dmy_dy = div(norm - y * dnorm_dy, norm * norm)
    return [fx * dmx_dx, fx * dmx_dy], [fy * dmy_dx, fy * dmy_dy]


def eucm_dx_distort_params(params, x, y):
    fx, fy, _, _, alpha, beta = params
    r2 = x * x + y * y
    rho2 = beta * r2 + 1.0
    rho = root(rho2)
    norm = alpha * rho + (1.0 - alpha)
    drho2_dbeta = r2
    drho_dbeta = div(drho2_dbeta, 2.0 * rho)
    dnorm_dalpha = rho - 1.0
    dnorm_dbeta = alpha * drho_dbeta
    mx = div(x, norm)
    my = div(y, norm)
    dmx_dalpha = div(-x * dnorm_dalpha, norm * norm)
    dmy_dalpha = div(-y * dnorm_dalpha, norm * norm)
    dmx_dbeta = div(-x * dnorm_dbeta, norm * norm)
    dmy_dbeta = div(-y * dnorm_dbeta, norm * norm)
    return (
        [mx, 0.0, 1.0, 0.0, fx * dmx_dalpha, fx * dmx_dbeta],
        [0.0, my, 0.0, 1.0, fy * dmy_dalpha, fy * dmy_dbeta],
    )


def kb_distort(params, x, y):
    k0, k1, k2, k3 = params[4:]
    radius_sq = x * x + y * y
    radius = root(radius_sq)
    radius_inverse = div(1.0, radius)
    theta = arctangent(radius)
    theta2 = theta * theta
    theta4 = theta2 * theta2
    theta6 = theta2 * theta4
    theta8 = theta4 * theta4
    r_distorted = theta * (1.0 + k0 * theta2 + k1 * theta4 + k2 * theta6 + k3 * theta8)
    scaling = r_distorted * radius_inverse
    scaling = 1.0 if radius_sq <= EPS else scaling
    return scaling * x * params[0] + params[2], scaling * y * params[1] + params[3]


def kb_newton(rth, k0, k1, k2, k3):
    """The last theta, the updates made, and whether the last step was small."""
    th = root(rth)
    iters = 0
    while True:
        th2 = th * th
        th4 = th2 * th2
        th6 = th2 * th4
        th8 = th4 * th4
        thd = th * (1.0 + k0 * th2 + k1 * th4 + k2 * th6 + k3 * th8)
        d_thd_wtr_th = 1.0 + 3.0 * k0 * th2 + 5.0 * k1 * th4 + 7.0 * k2 * th6 + 9.0 * k3 * th8
        step = div(thd - rth, d_thd_wtr_th)
        th -= step
        # The Rust leaves without counting the update it has just made.
        if abs(step) <= EPS:
            return th, iters + 1, True
        iters += 1
        if iters >= 20:
            return th, iters, False


def kb_undistort(params, u, v):
    fu, fv, u0, v0, k0, k1, k2, k3 = params
    un = div(u - u0, fu)
    vn = div(v - v0, fv)
    rth2 = un * un + vn * vn
    if rth2 <= EPS:
        return un, vn, 0, True
    rth = root(rth2)
    th, updates, flag = kb_newton(rth, k0, k1, k2, k3)
    radius_undistorted = tangent(th)
    if radius_undistorted is None:
        return TOO_STEEP
    sign = -1.0 if radius_undistorted <= 0 else 1.0
    # below 0 lies the mirrored branch, from which distort doesn't come back
    x, y = (div(sign * radius_undistorted * n, rth) for n in (un, vn))
    return x, y, updates, flag and th > 0


def kb_dx_distort_x(params, a, b):
    fx, fy = params[:2]
    k = params[4:]
    radius_sq = a * a + b * b
    near_zero = radius_sq <= EPS
    dx0 = [fx, 0.0], [0.0, fy]
    c0 = a * a
    c1 = b * b
    c2 = c0 + c1
    c2_sqrt = root(c2)
    c3 = c2_sqrt * c2_sqrt * c2_sqrt * c2_sqrt * c2_sqrt
    c4 = c2 + 1.0
    c5 = arctangent(c2_sqrt)
    c6 = c5 * c5
    c7 = c6 * k[0]
    c8 = c6 * c6
    c9 = c8 * k[1]
    c10 = c8 * c6
    c11 = c10 * k[2]
    c12 = c8 * c8 * k[3]
    c13 = 1.0 * c4 * c5 * (c11 + c12 + c7 + c9 + 1.0)
    c14 = c13 * c3
    c15 = c2_sqrt * c2_sqrt * c2_sqrt
    c16 = c13 * c15
    c17 = (
        1.0 * c11
        + 1.0 * c12
        + 2.0 * c6 * (4.0 * c10 * k[3] + 2.0 * c6 * k[1] + 3.0 * c8 * k[2] + k[0])
        + 1.0 * c7
        + 1.0 * c9
        + 1.0
    )
    c18 = c17 * c2 * c2
    c19 = div(1.0, c4)
    c20 = div(c19, c2 * c2 * c2)
    c21 = div(a * b * c19 * (-c13 * c2 + c15 * c17), c3)
    dx = (
        [c20 * fx * (-c0 * c16 + c0 * c18 + c14), c21 * fx],
        [c21 * fy, c20 * fy * (-c1 * c16 + c1 * c18 + c14)],
    )
    return dx0 if near_zero else dx


def kb_dx_distort_params(params, x, y):
    fx, fy, _, _, k0, k1, k2, k3 = params
    xx = x * x
    yy = y * y
    radius_sq = xx + yy
    radius = root(radius_sq)
    theta = arctangent(radius)
    theta2 = theta * theta
    theta4 = theta2 * theta2
    theta6 = theta2 * theta4
    theta8 = theta4 * theta4
    alpha = div(theta, radius)
    alpha = 1.0 if abs(radius_sq) <= EPS else alpha
    alpha_x = x * alpha
    alpha_y = y * alpha
    scaling_by_theta = 1.0 + k0 * theta2 + k1 * theta4 + k2 * theta6 + k3 * theta8
    powers = (theta2, theta4, theta6, theta8)
    return (
        [alpha_x * scaling_by_theta, 0.0, 1.0, 0.0] + [fx * alpha_x * power for power in powers],
        [0.0, alpha_y * scaling_by_theta, 0.0, 1.0] + [fy * alpha_y * power for power in powers],
    )


def bc_distortion_impl(coefficients, x, y):
    d0, d1, d2, k3, d4, d5, d6, d7 = coefficients
    r2 = x * x + y * y
    r4 = r2 * r2
    r6 = r4 * r2
    a1 = 2.0 * x * y
    a2 = r2 + 2.0 * x * x
    a3 = r2 + 2.0 * y * y
    cdist = 1.0 + d0 * r2 + d1 * r4 + d4 * r6
    icdist2 = div(1.0, 1.0 + d5 * r2 + d6 * r4 + d7 * r6)
    xd0 = x * cdist * icdist2 + d2 * a1 + k3 * a2
    yd0 = y * cdist * icdist2 + d2 * a3 + k3 * a1
    return xd0, yd0


def bc_newton_jacobian(coefficients, x, y):
    """The block inside the Rust's undistort_impl: du_dx, du_dy, dv_dx, dv_dy."""
    d0, d1, d2, k3, d4, d5, d6, d7 = coefficients
    a = x
    b = y
    c0 = a * a
    c1 = b * b
    c2 = c0 + c1
    c3 = c2 * c2
    c4 = c3 * c2
    c5 = c2 * d5 + c3 * d6 + c4 * d7 + 1.0
    c6 = c5 * c5
    c7 = div(1.0, c6)
    c8 = a * k3
    c9 = 2.0 * d2
    c10 = 2.0 * c2
    c11 = 3.0 * c3
    c12 = c2 * d0
    c13 = c3 * d1
    c14 = c4 * d4
    c15 = 2.0 * (c10 * d6 + c11 * d7 + d5) * (c12 + c13 + c14 + 1.0)
    c16 = 2.0 * c10 * d1 + 2.0 * c11 * d4 + 2.0 * d0
    c17 = c12 + c13 + c14 + 1.0
    c18 = b * k3
    c19 = a * b
    c20 = -c15 * c19 + c16 * c19 * c5
    du_dx = c7 * (-c0 * c15 + c5 * (c0 * c16 + c17) + c6 * (b * c9 + 6.0 * c8))
    du_dy = c7 * (c20 + c6 * (a * c9 + 2.0 * c18))
    dv_dx = c7 * (c20 + c6 * (2.0 * a * d2 + 2.0 * c18))
    dv_dy = c7 * (-c1 * c15 + c5 * (c1 * c16 + c17) + c6 * (6.0 * b * d2 + 2.0 * c8))
    return du_dx, du_dy, dv_dx, dv_dy


def norm(x, y):
    return root(x * x + y * y)


def bc_undistort_impl(coefficients, u, v, distortion=bc_distortion_impl, jacobian=bc_newton_jacobian):
    x, y = u, v
    updates = 0
    for _ in range(50):
        fu, fv = distortion(coefficients, x, y)
        fu, fv = fu - u, fv - v
        a, b, c, d = jacobian(coefficients, x, y)
        s = div(1.0, a * d - b * c)
        step_x = d * s * fu + -b * s * fv
        step_y = -c * s * fu + a * s * fv
        if norm(step_x, step_y) <= EPS:
            break
        x = x - step_x
        y = y - step_y
        updates += 1
    fu, fv = distortion(coefficients, x, y)
    return x, y, updates, norm(fu - u, fv - v) <= EPS


def bc_distort(params, x, y):
    return affine_distort(params[:4], *bc_distortion_impl(params[4:], x, y))


def bc_undistort(params, u, v):
    return bc_undistort_impl(params[4:], *affine_undistort(params[:4], u, v))


# Request P14: bc without its quotient, for tables of cameras whose k4, k5 and k6 are zeros. What the quotient multiplies and
# adds is left out of the lines above, and a number that isn't finite sends the pixel to them.


def no_quotient(model, params):
    return model == BC and params[9] == params[10] == params[11] == 0


def short_distortion(coefficients, x, y):
    d0, d1, d2, k3, d4 = coefficients
    r2 = x * x + y * y
    r4 = r2 * r2
    r6 = r4 * r2
    a1 = 2.0 * x * y
    a2 = r2 + 2.0 * x * x
    a3 = r2 + 2.0 * y * y
    cdist = 1.0 + d0 * r2 + d1 * r4 + d4 * r6
    return x * cdist + d2 * a1 + k3 * a2, y * cdist + d2 * a3 + k3 * a1


def short_jacobian(coefficients, a, b):
    d0, d1, d2, k3, d4 = coefficients
    c0 = a * a
    c1 = b * b
    c2 = c0 + c1
    c3 = c2 * c2
    c4 = c3 * c2
    c16 = 2.0 * (2.0 * c2) * d1 + 2.0 * (3.0 * c3) * d4 + 2.0 * d0
    c17 = c2 * d0 + c3 * d1 + c4 * d4 + 1.0
    c20 = c16 * (a * b)
    du_dx = c0 * c16 + c17 + (b * (2.0 * d2) + 6.0 * (a * k3))
    du_dy = c20 + (a * (2.0 * d2) + 2.0 * (b * k3))
    dv_dx = c20 + (2.0 * a * d2 + 2.0 * (b * k3))
    dv_dy = c1 * c16 + c17 + (6.0 * b * d2 + 2.0 * (a * k3))
    return du_dx, du_dy, dv_dx, dv_dy


def short_search(params, u, v):
    """Where Newton ends, the updates, what the lens misses by there, and of the last pass the determinant and the square of its
    step's norm, added. A step that is NaN ends it too."""
    coefficients = params[4:9]
    u, v = affine_undistort(params[:4], u, v)
    x, y, updates, last = u, v, 0, 1.0
    while updates < 50:
        fu, fv = short_distortion(coefficients, x, y)
        fu, fv = fu - u, fv - v
        a, b, c, d = short_jacobian(coefficients, x, y)
        determinant = a * d - b * c
        s = div(1.0, determinant)
        step_x = d * s * fu + -b * s * fv
        step_y = -c * s * fu + a * s * fv
        square = step_x * step_x + step_y * step_y
        last = determinant + square
        if norm(step_x, step_y) <= EPS or math.isnan(square):
            break
        x, y, updates = x - step_x, y - step_y, updates + 1
    fu, fv = short_distortion(coefficients, x, y)
    return x, y, updates, fu - u, fv - v, last


def short_undistort(params, u, v):
    x, y, updates, fu, fv, last = short_search(params, u, v)
    if not math.isfinite(fu + fv + last):
        return bc_undistort(params, u, v)
    return x, y, updates, norm(fu, fv) <= EPS


def bc_dx_distort_x(params, a, b):
    fx, fy = params[:2]
    d0, d1, d2, d3, d4, d5, d6, d7 = params[4:]
    c0 = a * d3
    c1 = 2.0 * d2
    c2 = a * a
    c3 = b * b
    c4 = c2 + c3
    c5 = c4 * c4
    c6 = c5 * c4
    c7 = c4 * d5 + c5 * d6 + c6 * d7 + 1.0
    c8 = c7 * c7
    c9 = 2.0 * c4
    c10 = 3.0 * c5
    c11 = c4 * d0
    c12 = c5 * d1
    c13 = c6 * d4
    c14 = 2.0 * (c10 * d7 + c9 * d6 + d5) * (c11 + c12 + c13 + 1.0)
    c15 = 2.0 * c10 * d4 + 2.0 * c9 * d1 + 2.0 * d0
    c16 = 1.0 * c11 + c12 + c13 + 1.0
    c17 = div(1.0, c8)
    c18 = c17 * fx
    c19 = b * d3
    c20 = a * b
    c21 = -c14 * c20 + c15 * c20 * c7
    c22 = c17 * fy
    dfx_dfx = c18 * (-c14 * c2 + c7 * (c15 * c2 + c16) + c8 * (b * c1 + 6.0 * c0))
    dfy_dfx = c22 * (c21 + c8 * (2.0 * a * d2 + 2.0 * c19))
    dfx_dfy = c18 * (c21 + c8 * (a * c1 + 2.0 * c19))
    dfy_dfy = c22 * (-c14 * c3 + c7 * (c15 * c3 + c16) + c8 * (6.0 * b * d2 + 2.0 * c0))
    return [dfx_dfx, dfx_dfy], [dfy_dfx, dfy_dfy]


def bc_dx_distort_params(params, x, y):
    """The Rust has none: docs/RULES.md, 10.6."""
    fx, fy = params[:2]
    k1, k2, _, _, k3, k4, k5, k6 = params[4:]
    r2 = x * x + y * y
    r4 = r2 * r2
    r6 = r4 * r2
    a1 = 2.0 * x * y
    cdist = 1.0 + k1 * r2 + k2 * r4 + k3 * r6
    icdist2 = div(1.0, 1.0 + k4 * r2 + k5 * r4 + k6 * r6)
    distorted = bc_distortion_impl(params[4:], x, y)
    rows = []
    for at, f, own, (p1, p2) in ((x, fx, 0, (a1, r2 + 2.0 * x * x)), (y, fy, 1, (r2 + 2.0 * y * y, a1))):
        by_cdist = at * (icdist2 * f)
        by_cdist2 = -(at * cdist * icdist2 * (icdist2 * f))
        row = [0.0, 0.0, 0.0, 0.0, by_cdist * r2, by_cdist * r4, p1 * f, p2 * f, by_cdist * r6]
        row[own], row[2 + own] = distorted[own], 1.0
        rows.append(row + [by_cdist2 * r2, by_cdist2 * r4, by_cdist2 * r6])
    return tuple(rows)


# ---- bc12: OpenCV's text has the prism's terms behind bc's, left to right. No Rust has it


def bc12_distortion(coefficients, x, y):
    s1, s2, s3, s4 = coefficients[8:]
    xd0, yd0 = bc_distortion_impl(coefficients[:8], x, y)
    r2 = x * x + y * y
    return xd0 + s1 * r2 + s2 * (r2 * r2), yd0 + s3 * r2 + s4 * (r2 * r2)


def bc12_prism_slopes(coefficients, x, y):
    """Of what the prism adds: u by x and y, v by x and y."""
    s1, s2, s3, s4 = coefficients[8:]
    r2 = x * x + y * y
    u = 2.0 * (s1 + 2.0 * s2 * r2)
    v = 2.0 * (s3 + 2.0 * s4 * r2)
    return u * x, u * y, v * x, v * y


def bc12_newton_jacobian(coefficients, x, y):
    ours = bc_newton_jacobian(coefficients[:8], x, y)
    return tuple(a + t for a, t in zip(ours, bc12_prism_slopes(coefficients, x, y)))


def bc12_distort(params, x, y):
    return affine_distort(params[:4], *bc12_distortion(params[4:], x, y))


def bc12_undistort(params, u, v):
    distorted = affine_undistort(params[:4], u, v)
    return bc_undistort_impl(params[4:], *distorted, bc12_distortion, bc12_newton_jacobian)


def bc12_dx_distort_x(params, x, y):
    ux, uy, vx, vy = bc12_prism_slopes(params[4:], x, y)
    (a, b), (c, d) = bc_dx_distort_x(params[:12], x, y)
    return [a + ux * params[0], b + uy * params[0]], [c + vx * params[1], d + vy * params[1]]


def bc12_dx_distort_params(params, x, y):
    u, v = bc_dx_distort_params(params[:12], x, y)
    u[0], v[1] = bc12_distortion(params[4:], x, y)
    r2 = x * x + y * y
    r4 = r2 * r2
    return u + [r2 * params[0], r4 * params[0], 0.0, 0.0], v + [0.0, 0.0, r2 * params[1], r4 * params[1]]


# ---- all of them, by number


def direct(undistort):
    """A model that finds the point without a search: 0 updates, and the flag says yes."""
    return lambda params, u, v: undistort(params, u, v) + (0, True)


class Model(NamedTuple):
    name: str
    params: str
    limit: int  # of the updates that a search makes: 0 if there is none
    functions: tuple
    mild: tuple  # what stands behind the centre of a lens that bends a little


BC_MILD = (0.125, -0.0625, 0.001, -0.002, 0.0, 0.01, 0.0, 0.0)
TABLE = (
    Model("affine", "fx fy cx cy", 0,
          (affine_distort, direct(affine_undistort), affine_dx_distort_x, affine_dx_distort_params), ()),
    Model("eucm", "fx fy cx cy alpha beta", 0,
          (eucm_distort, eucm_undistort, eucm_dx_distort_x, eucm_dx_distort_params), (0.5, 1.0)),
    Model("kb", "fx fy cx cy k0 k1 k2 k3", 20,
          (kb_distort, kb_undistort, kb_dx_distort_x, kb_dx_distort_params), (0.125, -0.0625, 0.03125, 0.0)),
    Model("bc", "fx fy cx cy k1 k2 p1 p2 k3 k4 k5 k6", 50,
          (bc_distort, bc_undistort, bc_dx_distort_x, bc_dx_distort_params), BC_MILD),
    Model("bc12", "fx fy cx cy k1 k2 p1 p2 k3 k4 k5 k6 s1 s2 s3 s4", 50,
          (bc12_distort, bc12_undistort, bc12_dx_distort_x, bc12_dx_distort_params),
          (*BC_MILD, 0.001, -0.0005, 0.002, 0.00025)),
)  # fmt: skip
MODELS = tuple(model.name for model in TABLE)
COUNTS = tuple(len(model.params.split()) for model in TABLE)
LIMITS = tuple(model.limit for model in TABLE)
FUNCTIONS = tuple(model.functions for model in TABLE)
MILD = tuple(model.mild for model in TABLE)
NO_MODEL = len(TABLE)  # the least number that is none
MOST_PARAMS = max(COUNTS)
ENTRIES = 2 * MOST_PARAMS  # of a Jacobian, whatever its columns


# ---- the answer to a question


def answer(model, operation, params, x, y):
    """The refusal's number, 0 for none, and what is answered: a tuple, for a Jacobian its two rows."""
    assert len(params) == COUNTS[model]
    if not all(math.isfinite(z) for z in (*params, x, y)):
        return 4, None
    if params[0] == 0 or params[1] == 0:
        return 5, None
    given = FUNCTIONS[model][operation](params, x, y)
    if given is TOO_STEEP:
        return 10, None
    if given is MIRRORED:
        return 16, None
    numbers = given[0] + given[1] if operation >= BY_POINT else given[:2]
    if not all(math.isfinite(z) for z in numbers):
        return 11, None
    return 0, given


# ---- bc12 held to bc and to difference quotients. The other models are tested by the scripts that ask them


def same_numbers(xs, ys):
    """Number by number, NaN to NaN, the sign of a zero aside."""
    return len(xs) == len(ys) and all(x == y or (x != x and y != y) for x, y in zip(xs, ys))


def flat(operation, given):
    return tuple(given[0] + given[1]) if operation >= BY_POINT else tuple(given)


def held_to_bc(functions, rng, count):
    """How many answers of each operation were bc's with the prism at zero, updates and flag too; None if one wasn't
    where bc answers."""
    told = [0, 0, 0]
    for n in range(count):
        far = 10.0 ** rng.choice([0, 0, 0, 1, 3, 80, 160]) if n % 2 else 1.0
        params = [rng.uniform(200, 900), -rng.uniform(200, 900), rng.uniform(-9, 9), 0.0]
        params += [rng.choice([0.0, -0.0, rng.uniform(-1, 1), rng.uniform(-1e-3, 1e-3)]) for _ in range(8)]
        params += [rng.choice([0.0, -0.0]) for _ in range(4)]
        at = [rng.choice([0.0, -0.0, rng.uniform(-1, 1) * far]) for _ in range(2)]
        for operation in (DISTORT, UNDISTORT, BY_POINT):
            asked = at if operation != UNDISTORT else [500 * z for z in at]
            number, given = answer(BC, operation, params[:12], *asked)
            if number == 0:
                if not same_numbers(flat(operation, given), flat(operation, functions[operation](params, *asked))):
                    return None
                told[operation] += 1
    return told


def farthest_from_quotients(functions, rng, count):
    """How far an entry of either Jacobian is from its difference quotient at most, in parts of the row's largest."""
    worst = 0.0
    for _ in range(count):
        params = [rng.uniform(200, 900), -rng.uniform(200, 900), rng.uniform(-9, 9), rng.uniform(-9, 9)]
        params += [rng.uniform(-0.1, 0.1) for _ in range(12)]
        at = [rng.uniform(-1, 1), rng.uniform(-1, 1)]
        for operation, moved in ((BY_PARAMS, params), (BY_POINT, at)):
            rows = functions[operation](params, *at)
            for place in range(len(moved)):
                kept, h = moved[place], 2.0**-20
                moved[place] = kept + h
                above = functions[DISTORT](params, *at)
                moved[place] = kept - h
                below = functions[DISTORT](params, *at)
                moved[place] = kept
                for row, a, b in zip(rows, above, below):
                    worst = max(worst, abs(row[place] - (a - b) / (2 * h)) / max(map(abs, row)))
    return worst


def there_and_back(functions, rng, count):
    """How many points undistort finds again, of those whose pixel an ordinary prism gives, and by how many updates in
    all. The flag may say no: the last step isn't taken, so that what is left may be a little above EPS."""
    found = total = 0
    for _ in range(count):
        params = [600.0, 600.0, 320.0, 240.0] + [rng.uniform(-0.05, 0.05) for _ in range(8)]
        params += [rng.uniform(-0.02, 0.02) for _ in range(4)]
        x, y = rng.uniform(-0.5, 0.5), rng.uniform(-0.5, 0.5)
        a, b, updates, _ = functions[UNDISTORT](params, *functions[DISTORT](params, x, y))
        found += abs(a - x) < 1e-5 and abs(b - y) < 1e-5
        total += updates
    return found, total


def self_test():
    def tried(functions):
        rng = random.Random(12)
        told = held_to_bc(functions, rng, 20_000)
        return told, farthest_from_quotients(functions, rng, 300), there_and_back(functions, rng, 1_000)

    told, worst, (found, total) = tried(FUNCTIONS[BC12])
    assert told and min(told) > 5_000 and worst < 1e-8 and found == 1_000, (told, worst, found)
    # and each wrong model is told from it
    distort, undistort, by_point, by_params = FUNCTIONS[BC12]

    def swapped(params):
        return [*params[:13], params[14], params[13], params[15]]

    def bare(params, u, v):
        slopes = lambda coefficients, x, y: bc_newton_jacobian(coefficients[:8], x, y)
        return bc_undistort_impl(params[4:], *affine_undistort(params[:4], u, v), bc12_distortion, slopes)

    def shifted(params, x, y):
        return distort([*params[:12], *(s + 1e-3 for s in params[12:])], x, y)

    assert tried((shifted, undistort, by_point, by_params))[0] is None
    assert tried((lambda p, x, y: distort(swapped(p), x, y), undistort, by_point, by_params))[1] > 1e-4
    assert tried((distort, bare, by_point, by_params))[2][1] > total + 100
    print(f"bc12 with a prism of zeros: bc's answers {told[0]}, {told[1]}, {told[2]} times, by operation")
    print(f"bc12's Jacobians: at most {worst:.1e} of a row from their difference quotients")
    print(f"bc12 there and back: {found} of 1000 points, by {total} updates")


if __name__ == "__main__":
    if sys.argv[1:] != ["--self-test"]:
        sys.exit(__doc__)
    self_test()
