"""How far places are from each other, roughly: on the globe a degree of latitude is 60 nautical miles, one of longitude 60 times the
cosine of the middle latitude. What is written of a moment is on the ellipsoid (ellipsoid.py)."""
import math


def offset(one, other, on_earth):
    """How far a second place is east and north of a first one, in NM; places are latitude and longitude, or eastward and northward."""
    if not on_earth:
        return other[0] - one[0], other[1] - one[1]
    eastward = (other[1] - one[1] + 180) % 360 - 180
    return eastward * 60 * math.cos(math.radians((one[0] + other[0]) / 2)), (other[0] - one[0]) * 60


def rotated(east, north, angle):
    """Turned to the left by an angle."""
    return east * math.cos(angle) - north * math.sin(angle), east * math.sin(angle) + north * math.cos(angle)


def closest(east, north, v_east, v_north):
    """The distance at the closest approach within an hour, in NM, of a place in NM and a speed in knots."""
    square = v_east * v_east + v_north * v_north
    hours = -(east * v_east + north * v_north) / square if square else 0
    hours = 0 if hours < 0 else 1 if hours > 1 else hours
    return math.hypot(east + hours * v_east, north + hours * v_north)
