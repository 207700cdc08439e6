"""Writes the rows of square roots, frames and cuts, worked out in whole numbers (compare/README.md).

Each answer is also held to what the machine's doubles give: math.sqrt, and *, / and floor.
"""

import math
import random
import struct
from fractions import Fraction

SEED = 0x5EED
NAN = 0x7FF8000000000000
INFINITY = 0x7FF0000000000000
SIGN = 1 << 63
MIN64, MAX64 = -(1 << 63), (1 << 63) - 1


def float_of(bits):
    return struct.unpack("<d", struct.pack("<Q", bits))[0]


def bits_of(x):
    return NAN if x != x else struct.unpack("<Q", struct.pack("<d", x))[0]


def row(kind, a, r, b=0):
    print(f"{kind} {a:016X} {b:016X} {r % (1 << 64):016X}")


def nearest(value):
    """The bits of the double nearest a fraction of zero or more, a tie to the even one."""
    if value == 0:
        return 0
    # the exponent of the last place: 53 digits, or the least place of all
    e = value.numerator.bit_length() - value.denominator.bit_length() - 53
    while value < Fraction(1 << 52) * Fraction(2) ** e:
        e -= 1
    while value >= Fraction(1 << 53) * Fraction(2) ** e:
        e += 1
    e = max(e, -1074)
    # round() of a fraction takes a tie to the even whole number
    m = round(value / Fraction(2) ** e)
    if m == 1 << 53:
        m, e = m >> 1, e + 1
    if e > 971:
        return INFINITY
    return m if m < 1 << 52 else ((e + 1075) << 52) + m - (1 << 52)


def value_of(bits):
    """A finite double without its sign, as a fraction."""
    return Fraction(float_of(bits % SIGN))


# ---- square root (IEEE 754, squareRoot)


def sqrt(bits):
    if bits % SIGN > INFINITY or SIGN < bits:
        return NAN
    if bits in (0, SIGN, INFINITY):
        return bits
    m, e = bits & ((1 << 52) - 1), bits >> 52
    m, e = (m + (1 << 52), e - 1075) if e else (m, -1074)
    # m * 2^e = n * 4^(shift) with n of 108 digits or more, so that its whole root has 54 or more
    shift = (e - (120 - m.bit_length())) // 2
    n = m << (e - 2 * shift)
    root = math.isqrt(n)
    # a last digit of 1 stands for what the whole root leaves
    sticky = 2 * root + (root * root != n)
    return nearest(sticky * Fraction(2) ** (shift - 1))


def roots(rng):
    yield from (0, 1, 2, 3, 4, 0xFFFFFFFFFFFFF, 0x10000000000000, 0x10000000000001)
    yield from (INFINITY, INFINITY - 1, INFINITY + 1, NAN, NAN + SIGN, MAX64, 2 * SIGN - 1)
    yield from (SIGN, SIGN + 1, SIGN + INFINITY, SIGN + INFINITY - 1, bits_of(-1.0), bits_of(-4.0))
    for x in (1.0, 2.0, 3.0, 4.0, 0.25, 0.5, 0.1, 0.01, 1e-9, 2254.2585):
        yield from (bits_of(x) + k for k in range(-2, 3))
    for _ in range(30):
        yield rng.getrandbits(rng.randint(1, 52))
    for e in range(0, 2047, 89):
        yield e << 52
        yield (e << 52) + (1 << 52) - 1
    # squares of numbers of 26 digits, and the doubles beside them
    for _ in range(70):
        n = bits_of(float(rng.getrandbits(26) ** 2) * 4.0 ** rng.randint(-400, 400))
        yield from (max(n - 1, 0), n, n + 1)
    # roots nearly half way between two doubles
    for _ in range(80):
        n = rng.getrandbits(52) + (1 << 52)
        yield bits_of(float(n * (n + 1)) * 4.0 ** rng.randint(-400, 400))
    # levels as they occur: a sum of 160 squares over 160
    for _ in range(60):
        yield bits_of(rng.random() ** 2 / 160)
    for _ in range(80):
        yield rng.getrandbits(63)


# ---- frames (document 01, Numbers)


def times_then_over(bits, factor, divisor):
    """t * factor, rounded once, divided by divisor, rounded once: sign and bits."""
    if bits % SIGN >= INFINITY:
        return bits
    sign = bits & SIGN
    product = nearest(value_of(bits) * factor)
    if product == INFINITY:
        return sign | INFINITY
    return sign | nearest(value_of(product) / divisor)


def to_i64(bits, rounding):
    """Rounded to a whole number, as an i64: the nearest end outside the range, and NaN gives 0."""
    if bits % SIGN > INFINITY:
        return 0
    if bits % SIGN == INFINITY:
        return MIN64 if bits & SIGN else MAX64
    value = value_of(bits)
    return max(MIN64, min(rounding(-value if bits & SIGN else value), MAX64))


def frame_at(bits):
    return to_i64(times_then_over(bits, 16000, 160), math.floor)


def frame_ceil(bits):
    return to_i64(times_then_over(bits, 16000, 160), math.ceil)


def frame_seconds(k):
    product = nearest(Fraction(abs(k * 160)))
    return (SIGN if k < 0 else 0) | nearest(value_of(product) / 16000)


def times(rng):
    yield from (0, SIGN, 1, SIGN + 1, 0x10000000000000, INFINITY, SIGN + INFINITY, NAN)
    yield from (INFINITY - 1, SIGN + INFINITY - 1)
    edges = [0.29, 0.57, 0.58, 1.13, 1.14, 1.15, 1.16, 0.01, 0.07, 0.1, 1.0, 4.35, 7200.0, 8192.0]
    # the roundings move the start of a frame here
    edges += [2.01, 4.03]
    edges += [rng.randint(0, 720000) / 100 for _ in range(12)]
    # where whole frames pass 2^53, where i64 ends, and where t * 16000 does
    edges += [2.0**53 / 100, 2.0**63 / 100, 2.0**63, 1.7976931348623157e308 / 16000, 1e300]
    for x in edges:
        for k in range(-1, 2):
            yield bits_of(x) + k
            yield bits_of(-x) + k
    for _ in range(40):
        yield bits_of(rng.uniform(-10, 7200))
    for _ in range(20):
        yield rng.getrandbits(64) & ~(1 << 62)


def frames(rng):
    yield from (0, MIN64, MAX64)
    # as they occur, where k * 160 passes 2^53, 2^54 and the end of i64, and where k ends
    for k in (1, 2, 3, 7, 29, 57, 100, 720000, 2**53 // 160, 2**54 // 160, MAX64 // 160, MAX64 - 1):
        yield from (k, -k, k - 1, 1 - k, k + 1, -k - 1)
    for _ in range(40):
        k = rng.randint(0, 720000)
        yield from (k, -k)
    for _ in range(30):
        k = rng.getrandbits(rng.randint(1, 63))
        yield from (k, -k)


# ---- pieces (document 01, Pieces)

# The document's cases: the frames, the first quiet one, the number of quiet ones, and the frame in
# which the first piece ends.
CUTS = [
    (2000, 0, 0, 2000),
    (2001, 0, 2001, 1599),
    (2001, 0, 0, 2000),
    (2001, 1200, 8, 1203),
    (2001, 1992, 8, 1995),
    (2001, 1993, 7, 2000),
]


# ---- the same by the machine's doubles


def check_frame(bits, rounding, answer):
    t = float_of(bits)
    x = t * 16000.0 / 160.0
    if x != x:
        expected = 0
    elif math.isinf(x):
        expected = MAX64 if x > 0 else MIN64
    else:
        expected = max(MIN64, min(rounding(x), MAX64))
    assert expected == answer, (hex(bits), expected, answer)


def main():
    rng = random.Random(SEED)
    for bits in roots(rng):
        r = sqrt(bits)
        x = float_of(bits)
        assert r == (NAN if x < 0 else bits_of(math.sqrt(x))), hex(bits)
        row("S", bits, r)
    for bits in times(rng):
        at, ceil = frame_at(bits), frame_ceil(bits)
        check_frame(bits, math.floor, at)
        check_frame(bits, math.ceil, ceil)
        row("A", bits, at)
        row("C", bits, ceil)
        row("Z", bits, max(at, 0))
    for k in frames(rng):
        seconds = frame_seconds(k)
        assert seconds == bits_of(float(k * 160) / 16000.0) | (SIGN if k < 0 else 0), k
        row("T", k % (1 << 64), seconds)
    for n, first, quiet, end in CUTS:
        row("P", n << 32 | first, end * 160, quiet)
    # The planted row: 0.29 falls in frame 29, and this says 28.
    row("Y", bits_of(0.29), 28)


main()
