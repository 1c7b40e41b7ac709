#!/usr/bin/env python3
"""Writes the table of back-casts, back_casts.txt: a second reading of request (ii), by one who had the
request and its open points and nothing of this repository.

A line has the bits of base, slope, turning temperature and temperature, then number and units, then words. All of it is
worked out with fractions and integers, and no float is used anywhere. A value is a Fraction, "+inf", "-inf" or "nan". The
sign of a zero is kept in the bits only: no result depends on it.
"""

from fractions import Fraction

LOW, HIGH = -1074, 971  # a finite double is n * 2^e, n < 2^53, LOW <= e <= HIGH


def two(power):
    return Fraction(2) ** power


def value(bits):
    sign = -1 if bits >> 63 else 1
    field, fraction = bits >> 52 & 0x7FF, bits & (1 << 52) - 1
    if field == 0x7FF:
        return "nan" if fraction else "+inf" if sign > 0 else "-inf"
    if field == 0:
        return sign * fraction * two(LOW)
    return sign * ((1 << 52) + fraction) * two(LOW + field - 1)


def parts(size):
    """n and e of a positive size rounded to nearest, ties to even."""
    e = LOW
    while size >= two(e + 53):
        e += 1
    n, rest = divmod(size, two(e))
    if rest * 2 > two(e) or rest * 2 == two(e) and n % 2 == 1:
        n += 1
    return (n // 2, e + 1) if n == 1 << 53 else (n, e)


def rounded(x):
    """The double nearest to a Fraction, as a value."""
    if x == 0:
        return Fraction(0)
    n, e = parts(abs(x))
    if e > HIGH:
        return "+inf" if x > 0 else "-inf"
    return n * two(e) if x > 0 else -n * two(e)


def bits(x):
    """The bits of the double nearest to a number (or its decimal digits)."""
    x = Fraction(x)
    sign = 1 << 63 if x < 0 else 0
    if x == 0:
        return 0
    n, e = parts(abs(x))
    assert e <= HIGH
    # The leading one of a normal n adds 1 to the field.
    return sign + (e - LOW << 52) + n


def exact(x):
    """As bits, of a number that is a double."""
    assert value(bits(x)) == x
    return bits(x)


def finite(x):
    return isinstance(x, Fraction)


def flip(x):
    return {"+inf": "-inf", "-inf": "+inf"}[x]


def times(a, b):  # b is finite
    if finite(a):
        return rounded(a * b)
    if a == "nan" or b == 0:
        return "nan"
    return a if b > 0 else flip(a)


def plus(a, b):  # b is finite
    return rounded(a + b) if finite(a) else a


def back_cast(four):
    base, slope, turning, f = map(value, four)
    if not all(map(finite, (base, slope, turning, f))):
        return 31, 0
    load = base
    if f < turning:
        load = plus(times(rounded(turning - f), slope), base)
    if not finite(load) or load < 0 or load > 10**9:
        return 32, 0
    return 0, load.numerator // load.denominator


def up(b):
    """The next double above a positive one, or below a negative one."""
    return b + 1


def down(b):
    return b - 1


TINY, MINUS_ZERO, MAX = 1, 1 << 63, 0x7FEFFFFFFFFFFFFF
MINUS = 1 << 63  # added to bits: the opposite number
INF, NAN = 0x7FF0000000000000, 0x7FF8000000000000
G = 10**9

rows = []


def case(base, slope, turning, f, number, units, words):
    """Numbers are ints (exact doubles), digits (nearest) or ("bits", b)."""
    four = []
    for x in (base, slope, turning, f):
        if isinstance(x, tuple):
            four.append(x[1])
        elif isinstance(x, str):
            four.append(bits(x))
        else:
            four.append(exact(x))
    assert back_cast(four) == (number, units), (words, back_cast(four))
    rows.append((four, number, units, words))


def b(x):
    return "bits", x


# Plausible use. The expected numbers are worked here, each from the formula.
def real(f, words):
    four = [bits(x) for x in ("52000.5", "6175.25", "65", f)]
    number, units = back_cast(four)
    rows.append((four, number, units, words))


for f in ("-10", "0", "10", "31.7", "32.5", "-3.3", "45.25", "64.9", "64.99", "65"):
    real(f, f"curve 52000.5 6175.25 65 at {f}")
for f in ("65.1", "72", "95"):
    real(f, f"the same curve at {f}, above the turning temperature")
assert [r[2] for r in rows[:3]] == [515144, 453391, 391639]  # by hand

# Decimal digits that miss a whole number, and a turning temperature below 0.
case(0, "0.29", 100, 0, 0, 28, "0.29 x 100 is short of 29 as doubles")
case(0, "0.1", 30, 0, 0, 3, "0.1 x 30 rounds to 3 exactly")
case(0, 1000, "22.4", "22.2", 0, 199, "22.4 - 22.2 is short of 0.2 as doubles")
case("0.5", "2.25", -5, -7, 0, 5, "turning temperature below 0")

# The turning temperature. A slope of 2^46 makes one unit of the step at 65.
S46 = 2**46
case(100, S46, 65, 65, 0, 100, "at the turning temperature")
case(100, S46, 65, b(down(bits(65))), 0, 101, "next double below it")
case(100, S46, 65, b(up(bits(65))), 0, 100, "next double above it")
case(100, b(MAX), 65, 65, 0, 100, "at it a huge slope is idle")
case(100, b(MAX), 65, 0, 32, 0, "below it the huge slope overflows")
case(0, -1, 0, b(MINUS_ZERO), 0, 0, "-0 is not below 0")
case(0, -1, b(MINUS_ZERO), 0, 0, 0, "0 is not below -0")
case(0, -1, 0, b(MINUS + TINY), 32, 0, "minus the smallest subnormal is below 0")
case(100, 1, 65, b(MINUS_ZERO), 0, 165, "-0 is below 65")
case(100, b(MAX), 65, 66, 0, 100, "above it a huge slope is idle")

# Loads at their bounds, as the base itself.
at = (0, 65, 70)
case(Fraction(-1, 2), *at, 32, 0, "load -0.5 is not 0")
case(b(MINUS_ZERO), *at, 0, 0, "load -0.0")
case(0, *at, 0, 0, "load 0.0")
case(b(TINY), *at, 0, 0, "load smallest subnormal")
case(b(MINUS + TINY), *at, 32, 0, "load minus the smallest subnormal")
case(b(down(bits(1))), *at, 0, 0, "load just below 1")
case(1, *at, 0, 1, "load 1")
case(Fraction(7, 4), *at, 0, 1, "load 1.75: down, not to nearest")
case(b(down(bits(G))), *at, 0, G - 1, "load just below 10^9")
case(G, *at, 0, G, "load 10^9")
case(b(up(bits(G))), *at, 32, 0, "load just above 10^9")
case(b(MAX), *at, 32, 0, "load the largest double")
case(b(MINUS + MAX), *at, 32, 0, "load minus the largest double")

# The same by the three operations.
case(-1, Fraction(1, 2), 65, 64, 32, 0, "-1 + 0.5: load -0.5")
case(b(MINUS_ZERO), b(MINUS_ZERO), 65, 64, 0, 0, "-0 + -0: load -0.0")
case(5, -5, 65, 64, 0, 0, "5 - 5: load 0.0")
case(0, b(TINY), 65, 64, 0, 0, "0 + tiny: load smallest subnormal")
case(1, -two(-53), 65, 64, 0, 0, "1 - 2^-53: load just below 1")
case(G, -two(-23), 65, 64, 0, G - 1, "10^9 - 2^-23: load just below 10^9")
case(G - 20, 10, 65, 63, 0, G, "load 10^9")
case(G, two(-23), 65, 64, 32, 0, "10^9 + 2^-23: load just above 10^9")
case(G, two(-24), 65, 64, 0, G, "10^9 + 2^-24: a tie, the load is 10^9")
case(G, -two(-25), 65, 64, 0, G, "10^9 - 2^-25 rounds to 10^9")
case(3, -two(-60), 65, 64, 0, 3, "3 - 2^-60 rounds to 3")
case(0, b(MINUS + TINY), 1, Fraction(1, 2), 0, 0, "product -2^-1075, a tie, is -0")
case(0, b(MINUS + TINY), 1, Fraction(1, 4), 32, 0, "product -0.75 x 2^-1074 is -2^-1074")
case(0, two(1023), 3 * two(-1023), two(-1022), 0, 1, "subnormal difference kept")
case(0, two(-100), two(100), b(TINY), 0, 1, "2^100 less the smallest subnormal is 2^100")
case(1000, -3, 65, 55, 0, 970, "negative slope")
case(-1000, 300, 65, 55, 0, 2000, "negative base, load not")

# Infinity and NaN on the way.
case(7, 1, b(MAX), b(MINUS + MAX), 32, 0, "difference overflows")
case(7, 0, b(MAX), b(MINUS + MAX), 32, 0, "infinite difference times 0 is NaN")
case(7, b(MINUS_ZERO), b(MAX), b(MINUS + MAX), 32, 0, "infinite difference times -0")
case(7, -1, b(MAX), b(MINUS + MAX), 32, 0, "infinite difference times -1")
case(7, 0, b(MAX), -two(970), 32, 0, "difference just overflows, a tie: NaN")
case(7, 0, b(MAX), b(down(bits(-two(970)))), 0, 7, "difference just does not overflow")
case(b(MINUS + MAX), two(1000), two(100), 0, 32, 0, "product overflows, -MAX does not help")
case(b(MAX), b(MAX), 65, 64, 32, 0, "sum overflows")
case(b(MINUS + MAX), b(MAX), 65, 64, 0, 0, "MAX - MAX is 0")

# Not finite: 31, also where 32 applies or the input is not used.
one = (1, 1, 65, 70)
kinds = [
    (NAN, "quiet NaN"),
    (INF + 1, "signalling NaN"),
    (MINUS + NAN + 12345, "negative NaN with payload"),
    (INF, "+inf"),
    (MINUS + INF, "-inf"),
]
places = ["base", "slope", "turning", "temperature"]
for i, place in enumerate(places):
    for pattern, words in kinds:
        four = list(one)
        four[i] = b(pattern)
        case(*four, 31, 0, f"{place} {words}")
case(-1, 1, 65, b(INF), 31, 0, "31 before 32: base -1, temperature +inf")
case(b(MAX), b(MAX), b(MAX), b(MINUS + INF), 31, 0, "31 before 32: all huge")
case(1, 1, b(INF), b(INF), 31, 0, "two infinities")

# The exact case.
M = 10**8
T = 10**4


def whole(base, slope, turning, f, words):
    load = base + slope * (turning - f) if f < turning else base
    number, units = (0, load) if load >= 0 else (32, 0)
    case(base, slope, turning, f, number, units, words)


whole(M, T, T, -T, "exact, the largest: 3 x 10^8")
whole(-M, T, T, -T, "exact, lowest base and largest product")
whole(M, -T, T, -T, "exact, -10^8")
whole(-M, -T, T, -T, "exact, -3 x 10^8")
whole(-M, 5000, T, -T, "exact, 0")
whole(1 - M, 5000, T, -T, "exact, 1")
whole(-M, 4999, T, -T, "exact, -20,000")
whole(M, 5, -T, T, "exact, above the turning temperature")
whole(52000, 6175, 65, 31, "exact, plausible")

# Where another way of working gives another answer.
case(-two(54), 2**27 + 1, 2**27 + 1, 0, 0, 2**28, "fused: 2^28 + 1")
third = bits(Fraction(1, 3))
case(-1, b(third), 3, 0, 0, 0, "fused: 32, as a third is short of 1/3")
case(7 - 3 * 2**51, 3 * 2**51, 1, -two(-53), 0, 7, "difference unrounded: 8; ties away: 9")
case(
    *(5 - 2**52, 2**52, 1, -two(-53) - two(-70), 0, 6),
    "difference rounded to 64 bits first: 5",
)
case(Fraction(5, 2) - 1, 1, 65, 64, 0, 2, "2.5 down to 2")
case("0.99", 1, 65, 64, 0, 1, "1.99 down to 1, to nearest 2")

# The words of the fused and unrounded cases, checked.
assert rounded(Fraction((2**27 + 1) ** 2) - two(54)) == 2**28 + 1
assert rounded(value(third) * 3 - 1) < 0
assert rounded(rounded(3 * 2**51 * (1 + two(-53))) + 7 - 3 * 2**51) == 8
assert rounded(rounded(3 * 2**51 * (1 + two(-52))) + 7 - 3 * 2**51) == 9

for four, number, units, words in rows:
    print(*(f"{x:016x}" for x in four), number, units, "#", words)
