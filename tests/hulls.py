"""Envelope peaks and the rate beyond the records a second time, for the tests: [11]'s peaks of timed samples from its
text, and [14]'s figures, whose table of e ^ (2 ^ i / 2 ^ 20) is made here."""
import functools
import math

CAP = 100_000_000_000
EXPONENT, ONE, MILLION = 2**20, 2**31, 10**6


# ---- [11]
def runs(timed):
    """The runs of one sign, each a list of (magnitude, place); a zero belongs to the run before it, or to none at the
    start."""
    found, sign = [], 0
    for place, x in enumerate(timed):
        if x == 0:
            if found:
                found[-1].append((0, place))
        elif (x > 0) - (x < 0) == sign:
            found[-1].append((abs(x), place))
        else:
            sign = (x > 0) - (x < 0)
            found.append([(abs(x), place)])
    return found


def first_largest(peaks):
    """The largest, the first on a tie."""
    most = max(peak[0] for peak in peaks)
    return next(peak for peak in peaks if peak[0] == most)


def handed_out(step, tau, timed):
    """(magnitude, time) of each peak that is handed out."""
    peaks = [first_largest(run) for run in runs(timed)[1:-1]]
    total = sum(peak[0] for peak in peaks)
    high = [peak[0] * len(peaks) > total for peak in peaks]
    kept, at = [], 0
    while at < len(peaks):
        end = at
        while end < len(peaks) and high[end]:
            end += 1
        if end > at and at > 0 and end < len(peaks):  # the peaks beside the stretch are not high
            kept.append(first_largest(peaks[at:end]))
        at = end + 1
    chains = []
    for size, place in kept:
        peak = (size, place * step)
        if chains and peak[1] - chains[-1][-1][1] <= tau:
            chains[-1].append(peak)
        else:
            chains.append([peak])
    return [first_largest(chain) for chain in chains]


# ---- [14]
@functools.cache
def table():
    """For i from 0 to 25 the greatest m and a shift s with m 2 ^ s / 2 ^ 31 at most e ^ (2 ^ i / 2 ^ 20), m of 32
    bits."""
    import mpmath

    rows = []
    with mpmath.workdps(60):
        for i in range(26):
            value = mpmath.exp(mpmath.mpf(2**i) / EXPONENT)
            shift = 0
            while value >= 2 ** (shift + 1):
                shift += 1
            rows.append((int(mpmath.floor(value * ONE / 2**shift)), shift))
    return rows


logarithms = {}


def logarithm(a, b):
    """[12]'s figure of a/b: the power of two within it, then a bit for each of 16 squarings cut to 31 bits."""
    if a <= b:
        return 0
    if (a, b) not in logarithms:
        whole = a.bit_length() - b.bit_length()
        whole -= b << whole > a
        m, x = whole, a * ONE // (b << whole)
        for _ in range(16):
            square = x * x
            bit = square >> 63
            m, x = 2 * m + bit, square >> 31 + bit
        logarithms[a, b] = m
    return logarithms[a, b]


def power(x, upwards):
    """Our e ^ (x / 2 ^ 20) in units of 2 ^ -31, from below or from above."""
    m, s = ONE, 0
    for i, (mantissa, shift) in enumerate(table()):
        if x >> i & 1:
            product = m * (mantissa + upwards)
            bit = product >> 63
            m = -(-product >> 31 + bit) if upwards else product >> 31 + bit
            s += shift + bit
    return m << s


def least(a, p):
    """The least whole number whose square times p is at least a."""
    m = math.isqrt(a // p)
    while m * m * p < a:
        m += 1
    return m


def widths(k, samples):
    return least(2_236**2 * k * (samples - k), samples), least(2_236_000**2, k)


def figures(u, k, total, level, step, samples):
    h, w = widths(k, samples)
    g, full, r = logarithm(level, u), total + 2 * (k - 1), 1_000 * samples * step

    def down(width):
        return r * power(EXPONENT * MILLION * k * g // (full * (MILLION + width)), False)

    estimate = min(CAP, down(0) // (1_000 * k * ONE))
    accepted = min(CAP, (down(w) - 1) // ((1_000 * k + h) * ONE))
    rejected = 0
    if w < MILLION and h < 1_000 * k:
        x = -(-EXPONENT * MILLION * k * (0 if level == u else g + 2) // (total * (MILLION - w)))
        if x < 64 * EXPONENT:
            rejected = r * power(x, True) // ((1_000 * k - h) * ONE) + 1
    return estimate, accepted, rejected if rejected <= CAP else 0
