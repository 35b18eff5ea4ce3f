"""Chance, and numbers worth trying."""

import math
import random

from image import Bits, LONGEST_TIME, DAY, float_of

TINIEST = 5e-324
LEAST_NORMAL = 2.2250738585072014e-308
Q_ZERO = 1e-6
H_TOL = 0.0005
L_TOL = 0.0001
PSI_PER_FOOT = 0.4333


class Chance(random.Random):
    """Random choices in the words of the generator."""

    def one_in(self, count):
        return self.randrange(count) == 0

    def sign(self):
        return self.choice((-1.0, 1.0))

    def among(self, *weighted):
        """One of pairs of a weight and a value; a value that can be called is called."""
        weights = [weight for weight, _ in weighted]
        value = self.choices([value for _, value in weighted], weights)[0]
        return value() if callable(value) else value


def nudged(number, ulps):
    """The float so many places above or below."""
    towards = math.inf if ulps > 0 else -math.inf
    for _ in range(abs(ulps)):
        number = math.nextafter(number, towards)
    return number


def beside(chance, number):
    """The number itself, or one of its nearest neighbours."""
    return nudged(number, chance.choice((0, 0, 0, 1, -1, 2, -2)))


def solved(function, wanted, start):
    """A float near the start at which the function is exactly as wanted, where there is one; else the start."""
    for ulps in (0, 1, -1, 2, -2, 3, -3, 4, -4):
        if function(nudged(start, ulps)) == wanted:
            return nudged(start, ulps)
    return start


def near_zero(chance):
    return chance.choice((0.0, -0.0, TINIEST, -TINIEST, LEAST_NORMAL, nudged(LEAST_NORMAL, -1), -LEAST_NORMAL, 1e-300))


def wide(chance, most):
    """A number within plus and minus the most, all magnitudes, the ends and zero above all."""
    return chance.among(
        (3, lambda: near_zero(chance)),
        (2, lambda: chance.sign() * chance.choice((most, nudged(most, -1)))),
        (3, lambda: float(chance.randint(-10, 10))),
        (3, lambda: chance.uniform(-100.0, 100.0)),
        (2, lambda: chance.uniform(-most, most)),
        (2, lambda: chance.sign() * 10.0 ** chance.uniform(-20.0, math.log10(most))),
        (1, lambda: chance.sign() * 2.0 ** chance.randint(-1074, int(math.log2(most)))),
        (1, lambda: chance.sign() * chance.choice((Q_ZERO, H_TOL, L_TOL, 0.5, 1.0))),
    )


def ordinary(chance, most):
    """Mostly a number that a works might have, now and then any."""
    return chance.among(
        (6, lambda: float(chance.randint(0, 20))),
        (3, lambda: round(chance.uniform(-5.0, 50.0), 2)),
        (2, lambda: chance.uniform(-50.0, 50.0)),
        (1, lambda: wide(chance, most)),
    )


# Out of every range: the greatest float, the infinities, and NaNs quiet and signalling.
BEYOND_ALL = (
    1.7976931348623157e308, -1.7976931348623157e308, math.inf, -math.inf, Bits(0x7FF8000000000000),
    Bits(0xFFF8000000000000), Bits(0x7FF0000000000001), Bits(0xFFFFFFFFFFFFFFFF), Bits(0x7FF00000FFFFFFFF),
)


def beyond(chance, most):
    """A number out of plus and minus the most, or none at all."""
    return chance.choice((nudged(most, 1), -nudged(most, 1), most * 2.0, *BEYOND_ALL))


def timestep(chance):
    return chance.among(
        (1, 1),
        (1, lambda: chance.randint(2, 59)),
        (6, lambda: chance.choice((60, 300, 600, 900, 1800, 3600, 5000, 7200, 10_000, 86_399, 86_400, 86_401))),
        (2, lambda: chance.randint(1, 100_000)),
        (1, lambda: chance.choice((LONGEST_TIME, LONGEST_TIME - 1))),
        (1, lambda: chance.randint(1, LONGEST_TIME)),
    )


def instant(chance):
    """A time from 0 on."""
    return chance.among(
        (2, 0),
        (6, lambda: chance.randint(0, 10) * chance.choice((1, 60, 900, 1800, 3600))),
        (2, lambda: chance.randint(0, 3 * DAY)),
        (1, lambda: chance.choice((DAY - 1, DAY, DAY + 1, LONGEST_TIME))),
        (1, lambda: chance.randint(0, LONGEST_TIME)),
    )


def diameter(chance):
    return chance.among(
        (8, lambda: chance.choice((20.0, 20.0, 10.0, 30.0, 12.0, 50.0, 1.0, 0.5))),
        (3, lambda: chance.uniform(0.1, 60.0)),
        (1, lambda: chance.choice((0.001, nudged(0.001, 1), 1e4, nudged(1e4, -1)))),
        (1, lambda: 10.0 ** chance.uniform(-3.0, 4.0)),
    )


def volume(tank, level):
    """A tank's volume in document 01's order of operations."""
    return 0.0 if level < 0.0 else level * math.pi * tank.diameter * tank.diameter / 4.0


def surface(tank):
    return math.pi * tank.diameter * tank.diameter / 4.0


def quotient_of_almost_half(gap):
    """A flow at which gap / flow is the greatest number under one half, where there is one."""
    almost_half = float_of(0x3FDFFFFFFFFFFFFF)
    return solved(lambda flow: gap / flow, almost_half, gap / almost_half)
