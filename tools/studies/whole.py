"""Whole numbers that a study needs: rounding, and directions in tenths of a degree with sines of nine digits."""
from math import isqrt

MIL, FOOT = 36, 60  # units in 0.001 nautical mile and in a foot; a speed is in units per second
TURN = 3600  # a full turn in tenths of a degree
NINE_DIGITS = 10**9


def rounded(number, size):
    """The quotient, rounded to the nearest, a half upward."""
    return (2 * number + size) // (2 * size)


def root(square):
    """The square root of a whole number, rounded to the nearest."""
    found = isqrt(square)
    return found + (square - found * found > found)


def toward(now, target, most):
    """The number at most so far away from `now` that is nearest to the target."""
    return max(now - most, min(now + most, target))


def turned(now, target, most):
    """A track turned toward a target, in tenths of a degree, the shorter way, and to the right where both are as short."""
    right = (target - now) % TURN
    return (now + min(most, right)) % TURN if right <= TURN // 2 else (now - min(most, TURN - right)) % TURN


def sines_of_tenths():
    """The sines of 0 to 900 tenths of a degree, times 10^9 and rounded: by their series, in whole numbers of 30 digits."""
    one, pi = 10**30, 3141592653589793238462643383280
    found = []
    for tenth in range(TURN // 4 + 1):
        angle = pi * tenth // (TURN // 2)
        term = total = angle
        order = 1
        while abs(term) > 1:
            term = -term * angle // one * angle // one // ((order + 1) * (order + 2))
            total, order = total + term, order + 2
        found.append(rounded(total, one // NINE_DIGITS))
    return found


SINES = sines_of_tenths()


def sine(tenths):
    """The sine of a direction in tenths of a degree, times 10^9."""
    tenths %= TURN
    if tenths > TURN // 2:
        return -sine(tenths - TURN // 2)
    return SINES[tenths] if tenths <= TURN // 4 else SINES[TURN // 2 - tenths]


def direction(east, north):
    """The direction of a vector in tenths of a degree, clockwise from north, to the nearest; 0 of no vector."""
    if not east and not north:
        return 0
    if east < 0:
        return (TURN // 2 + direction(-east, -north)) % TURN
    if north < 0 or (north == 0 and east > 0):
        return (TURN // 4 + direction(-north, east)) % TURN
    low, high = 0, TURN // 4  # the direction is not left of `low`, and left of `high`
    while high - low > 1:
        middle = (low + high) // 2
        low, high = (middle, high) if east * sine(TURN // 4 - middle) >= north * sine(middle) else (low, middle)
    half = sine(low) + sine(high), sine(TURN // 4 - low) + sine(TURN // 4 - high)  # half way between both
    return high % TURN if east * half[1] >= north * half[0] else low
