"""Makes moments of reports: each report of the ownship is one, at its whole second, with the latest report of every other aircraft until
then. Reports are taken in the order of their times, one by one, so that a recording can be read while it is written."""
import bisect
import math
import operator
import re

from daidalus_files import AGE, ALT, EXACT, FIELDS, GS, MOST_AIRCRAFT, VS, VX, Own, X, fixed, lacks_line, origin_line, whole_traffic
import ellipsoid
from headings import velocity

from .plane import closest, offset, rotated

LAST_SECOND = FIELDS["moment"][0].high
LEAST_PLACE, MOST_PLACE, LEAST_SPEED, MOST_SPEED, LEAST_CLIMB, MOST_CLIMB = X.low, X.high, VX.low, VX.high, VS.low, VS.high
LOWEST, HIGHEST, MOST_AGE = ALT.low, ALT.high, AGE.high
FARTHEST_OWN = 100  # NM: an ownship that is farther from where it began is put at 0 0
ROUNDING = 1e-6  # s: what the rounding of a time's unit may cost
CLOSE = 5  # NM: an aircraft that is nearer counts as if its closest approach were now
NEAR = 40  # NM: an aircraft that is left out and was nearer, flown straight on, is told in its moment
FORGOTTEN = 300  # s: after so long an old report says nothing any more about where an aircraft is
MORE = f"more than {MOST_AIRCRAFT} aircraft"
MOST_LACKS = 20  # aircraft that a moment lacks and that are named one by one
MEASURED = 4  # aircraft of a moment, the nearest ones, of which it is measured what rounding costs


def whole_second(time):
    """The second that a time lies in."""
    return math.floor(time + ROUNDING)


def fits(value, field):
    return field.low <= value <= field.high


def on_globe(row):
    """A report's place and velocity as the plane round an ownship takes them."""
    lat, lon = row.place
    return ellipsoid.Place(round(ellipsoid.ONE * lat), round(ellipsoid.ONE * lon), round(10 * row.east), round(10 * row.north))


class Identifiers(dict):
    """An identifier of at most 8 letters for each name: the name itself, or one that keeps the digits at its end."""

    def __init__(self, names=()):
        super().__init__()
        self.taken, self.spare = set(), 0
        for is_sound in (True, False):  # so that a name that is an identifier stays one
            for name in names:
                if self.is_sound(name) == is_sound:
                    self[name]

    @staticmethod
    def is_sound(name):
        return bool(re.fullmatch("[A-Za-z0-9_-]{1,8}", name))

    def __missing__(self, name):
        clean = re.sub(r"[^A-Za-z0-9_-]", "", name)
        digits = re.search(r"[0-9]{0,7}$", clean).group()
        short = clean if len(clean) <= 8 else clean[:8 - len(digits)] + digits
        while not short or short in self.taken:
            short = f"A{self.spare}"
            self.spare += 1
        self.taken.add(short)
        self[name] = short
        return short


class Losses:
    """The greatest of each thing that rounding costs between the ownship and an aircraft: NM, ft, knots, ft/min, NM."""

    def __init__(self):
        self.place = self.height = self.speed = self.climb = self.closest = 0.0
        self.count, self.is_in_part = 0, False

    def note(self, place, speed, seen_place, seen_speed, height, climb):
        """Notes what the program sees of an aircraft's place and speed, from its ownship, against what was recorded; and by how much height
        and climb are off."""
        self.count += 1
        (east, north), (v_east, v_north), (seen_east, seen_north), (seen_v_east, seen_v_north) = place, speed, seen_place, seen_speed
        off = math.hypot(seen_east - east, seen_north - north)
        if off > self.place:
            self.place = off
        off = math.hypot(seen_v_east - v_east, seen_v_north - v_north)
        if off > self.speed:
            self.speed = off
        off = abs(closest(seen_east, seen_north, seen_v_east, seen_v_north) - closest(east, north, v_east, v_north))
        if off > self.closest:
            self.closest = off
        if height > self.height or -height > self.height:
            self.height = abs(height)
        if climb > self.climb or -climb > self.climb:
            self.climb = abs(climb)

    def told(self):
        if self.count:
            of_whom = f", of the {MEASURED} nearest aircraft of each moment" if self.is_in_part else ""
            yield (f"lost in rounding, at most{of_whom}: place {self.place:.4f} NM, height {self.height:.1f} ft, speed {self.speed:.2f} knots, "
                   f"vertical speed {self.climb:.1f} ft/min, distance at the closest approach {self.closest:.4f} NM")


def by_approach(there, own_row):
    """How much an aircraft matters: the sooner its closest approach the more, and then the nearer. One that is close counts as if that were
    now, and one whose distance grows as if it never came."""
    far, row, way_east, way_north, *_ = there
    hours = (own_row.time - row.time) / 3600
    east, north = row.east - own_row.east, row.north - own_row.north
    closing = -((way_east + row.east * hours) * east + (way_north + row.north * hours) * north)
    approach = 0 if far < CLOSE else closing / (east * east + north * north) if closing > 0 else math.inf
    return approach, far


class OwnFrame:
    """A moment's ownship: its report, its numbers, where it is on the globe (or None), and how the plane is turned round it: an angle, which on
    the globe is a whole number of 0.0001 degree, the turn."""

    def __init__(self, row, own, place, turn, angle):
        self.row, self.own, self.place, self.turn, self.angle = row, own, place, turn, angle
        self.time, self.x, self.y = row.time, own.x, own.y
        self.cos, self.sin = math.cos(angle), math.sin(angle)
        self.speed = self.turned(row.east, row.north)
        self.seen_speed = [part / 10 for part in velocity(own.gs, own.trk)]

    def turned(self, east, north):
        """What rotated gives for the plane's angle."""
        return east * self.cos - north * self.sin, east * self.sin + north * self.cos


class Maker:
    """Makes moments of the reports that it takes. `rank` orders aircraft where there are more than a moment may have: the least stay, or,
    without it, the nearest."""

    def __init__(self, own_name, on_earth, oldest, names=(), rank=None):
        self.own_name, self.on_earth, self.oldest, self.rank = own_name, on_earth, oldest, rank
        self.ids, self.losses, self.left_out = Identifiers(names), Losses(), {}
        self.latest, self.incomplete, self.used, self.unused = {}, {}, set(), {}
        self.pending, self.start, self.last, self.silence = None, None, -1, ""
        self.steps, self.lacking, self.far, self.count, self.most = [], {}, 0, 0, 0
        self.gaps, self.own_gaps = {}, []

    def leave_out(self, what, why, count=1):
        self.left_out[what, why] = self.left_out.get((what, why), 0) + count

    # Reports.

    def take(self, row):
        """Takes a report; the moment that is whole by it, or None. A moment waits for what is reported at the same time."""
        pending = self.pending
        made = self.flush() if pending is not None and row[1] > pending[1] else None
        if row[0] != self.own_name:
            self.take_traffic(row)
        elif self.pending is None:
            self.pending = row
        else:
            self.leave_out("moment", "in a second that has one already, or out of range")
        return made

    def take_traffic(self, row):
        name, time, latest = row[0], row[1], self.latest
        if row.lack:
            self.incomplete[name] = row
            return
        if name in latest:
            gap = time - latest[name][1]
            if gap < 0:
                self.unused[name] = self.unused.get(name, 0) + 1
                return
            if gap > self.gaps.get(name, 0):
                self.gaps[name] = gap
            self.forget(name)
        latest[name] = row
        if self.incomplete:
            self.incomplete.pop(name, None)

    def forget(self, name):
        """The report of an aircraft is not the latest any more: notes whether no moment had it."""
        if name in self.used:
            self.used.remove(name)
        else:
            self.unused[name] = self.unused.get(name, 0) + 1

    def flush(self):
        """The moment of the ownship's last report, or None."""
        row, self.pending = self.pending, None
        return self.moment(row) if row else None

    def moment(self, row):
        """The time, the ownship, the aircraft, the comments, and why there is no moment before it; or None."""
        self.start = self.start or row
        second = whole_second(row.time)
        if not max(self.last + 1, 0) <= second <= LAST_SECOND:
            self.leave_out("moment", "in a second that has one already, or out of range")
            return None
        frame = None if row.lack else self.frame_of(row)
        if frame is None:
            self.leave_out("moment", f"whose ownship has {row.lack}" if row.lack else "whose ownship is out of range")
            self.silence = f"of the ownship {row.lack}" if row.lack else "the ownship is out of range"
            return None
        silence = self.silence or self.silence_between(self.last, second)
        traffic, comments = self.traffic_at(frame, second)
        if self.on_earth:
            comments.append(origin_line(*row.place, math.degrees(frame.angle)))
        self.last, self.silence, self.count, self.most = second, "", self.count + 1, max(self.most, len(traffic))
        return second, frame.own, traffic, comments, silence

    def silence_between(self, last, second):
        """Why there is no moment between two seconds, or nothing: where more than two of the recording's steps lie between them. The
        median of the steps so far is the recording's."""
        if last < 0:
            return ""
        step = second - last
        usual = self.steps[len(self.steps) // 2] if self.steps else step
        bisect.insort(self.steps, step)
        if step <= 2 * usual:
            return ""
        self.own_gaps.append((step, last, second))
        return f"no report of the ownship between {last} and {second} s"

    # Numbers.

    def frame_of(self, row):
        """The ownship's numbers and the plane round it, or None where they are out of range."""
        track = (math.degrees(math.atan2(row.east, row.north)) if row.east or row.north else row.track) % 360
        whole = round(track)
        turn = round(10000 * (track - whole))
        place = on_globe(row)._replace(vx=0, vy=0) if self.on_earth else None
        if place and not ellipsoid.is_place(place):
            return None
        x, y, is_far = self.own_place(row, place)
        own = Own(x, y, round(row.alt), whole % 360, round(10 * math.hypot(row.east, row.north)), round(row.vs))
        if not (fits(own.alt, ALT) and fits(own.gs, GS) and fits(own.vs, VS)):
            return None
        self.far += is_far
        return OwnFrame(row, own, place, turn, math.radians(turn / 10000 if place else track - whole))

    def own_place(self, row, place):
        """Where the ownship is in the plane round where it began, and whether it is too far away for that: then at 0 0."""
        if place:
            seen = ellipsoid.seen_from(on_globe(self.start)._replace(vx=0, vy=0), place, 0)
            return (seen.x, seen.y, False) if seen else (0, 0, True)
        east, north = offset(self.start.place, row.place, False)
        is_far = max(abs(east), abs(north)) > FARTHEST_OWN
        return (0, 0, True) if is_far else (round(1000 * east), round(1000 * north), False)

    def traffic_of(self, there, frame, is_measured):
        """An aircraft's numbers, or None where they are out of range; notes what is lost where that is measured."""
        _, row, _, _, name, late, height, _, _, climb = there
        age = int(late + ROUNDING) if late < MOST_AGE else MOST_AGE
        if late != age:
            height += climb * (late - age) / 60
        found = self.on_ellipsoid(row, frame, late - age) if frame.place else self.in_plane(there, frame, late - age)
        if found is None:
            return None
        x, y, vx, vy, exact = found
        # (by its method a number is rounded in less than half the time that round takes)
        place_x, place_y, alt, vs = frame.x + x, frame.y + y, height.__round__(), climb.__round__()
        if not (LEAST_PLACE <= place_x <= MOST_PLACE and LEAST_PLACE <= place_y <= MOST_PLACE and LOWEST <= alt <= HIGHEST
                and LEAST_SPEED <= vx <= MOST_SPEED and LEAST_SPEED <= vy <= MOST_SPEED and LEAST_CLIMB <= vs <= MOST_CLIMB):
            return None
        if is_measured:
            self.measure(row, frame, exact(), (x, y), (vx, vy), alt - height, vs)
        return whole_traffic((self.ids[name], place_x, place_y, alt, vx, vy, vs, age, EXACT))

    @staticmethod
    def in_plane(there, frame, seconds):
        """Place and velocity, so many seconds after the report, of an aircraft of a recording in a plane: as they are written, and what gives
        them exactly."""
        _, _, east, north, _, _, _, v_east, v_north, _ = there
        place = frame.turned(east + v_east * seconds / 3600, north + v_north * seconds / 3600)
        speed = frame.turned(v_east, v_north)
        return (1000 * place[0]).__round__(), (1000 * place[1]).__round__(), (10 * speed[0]).__round__(), (10 * speed[1]).__round__(), lambda: (place, speed)

    @staticmethod
    def on_ellipsoid(row, frame, seconds):
        """The same of a recording on the globe, by the numbers of daa_plane and daa_fly; or None where it is out of range."""
        aircraft = on_globe(row)
        way = ellipsoid.way_between(frame.place, aircraft)
        seen = way and ellipsoid.seen_along(way, frame.turn, aircraft)
        if not seen:
            return None
        x, y, vx, vy = seen
        if ms := round(1000 * seconds):
            x, y = x + ellipsoid.nearest(vx * ms, 36000), y + ellipsoid.nearest(vy * ms, 36000)

        def exact():
            convergence = math.radians(way[2] / ellipsoid.ONE)
            east, north = rotated(way[0] / 100000, way[1] / 100000, frame.angle + convergence / 2)
            speed = rotated(row.east, row.north, frame.angle + convergence)
            return (east + speed[0] * seconds / 3600, north + speed[1] * seconds / 3600), speed
        return x, y, vx, vy, exact

    def measure(self, row, frame, exact, seen_place, seen_speed, rounded_up, vs):
        """Notes what rounding costs between the ownship and an aircraft."""
        (own_x, own_y), (seen_own_x, seen_own_y), (x, y), (vx, vy) = frame.speed, frame.seen_speed, seen_place, seen_speed
        place, speed = exact
        self.losses.note(place, (speed[0] - own_x, speed[1] - own_y), (x / 1000, y / 1000), (vx / 10 - seen_own_x, vy / 10 - seen_own_y),
                         rounded_up - frame.own.alt + frame.row.alt, vs - frame.own.vs - row.vs + frame.row.vs)

    def traffic_at(self, frame, second):
        """The aircraft, of more than there may be the first ones by the rank, in the order in which the recording first has them; and the
        comments that name those that the moment lacks, the nearest one first."""
        own_row, there, lacking = frame.row, [], []
        now, own_place, on_earth = own_row.time, own_row.place, self.on_earth
        oldest, forgotten, old = self.oldest + ROUNDING, FORGOTTEN + ROUNDING, []
        for row in self.latest.values():
            name, time, place, height, v_east, v_north, climb, _, _ = row
            late = now - time
            if late > forgotten:
                old.append(name)
                continue
            east, north = offset(own_place, place, on_earth)
            hours = late / 3600
            far = math.hypot(east + v_east * hours, north + v_north * hours)
            if late > oldest:
                self.leave_out("aircraft", f"whose report is older than {self.oldest:g} s, in a moment")
                lacking.append((far, name, self.lack_of(row, now)))
                if late > self.gaps.get(name, 0):
                    self.gaps[name] = late
            else:
                there.append((far, row, east, north, name, late, height, v_east, v_north, climb))
        for name in old:
            self.forget(name)
            del self.latest[name]
        if len(there) > MOST_AIRCRAFT:
            there.sort(key=(lambda one: self.rank(one, own_row)) if self.rank else operator.itemgetter(0))
        found = self.found_of(there, frame, lacking)
        lacking += self.incomplete_at(own_row)
        return [found[name] for name in self.latest if name in found] if len(there) > MOST_AIRCRAFT else list(found.values()), self.comments(lacking, second)

    def found_of(self, there, frame, lacking):
        """The aircraft of a moment by their names; adds those that it lacks."""
        found, farthest = {}, math.inf
        if len(there) > MEASURED:
            farthest = sorted(one[0] for one in there)[MEASURED - 1]
            self.losses.is_in_part = True
        for place, one in enumerate(there):
            far, name = one[0], one[4]
            made = self.traffic_of(one, frame, far <= farthest)
            if made is None:
                lacking.append((far, name, "out of range"))
                continue
            found[name] = made
            if len(found) == MOST_AIRCRAFT:
                lacking += [(other[0], other[4], MORE) for other in there[place + 1:]]
                break
        if left_out := len(there) - len(found):
            self.leave_out("aircraft", "out of range, or more than there may be, in a moment", left_out)
        self.used.update(found)
        return found

    def lack_of(self, row, now):
        """Why a moment lacks an aircraft whose last whole report is old."""
        newer = self.incomplete.get(row.name)
        if newer and now - newer.time <= self.oldest + ROUNDING:
            return newer.lack
        return f"no report for {whole_second(now - row.time)} s"

    def incomplete_at(self, own_row):
        """The aircraft of which only reports came that lack something, with their distance and what they lack."""
        for name, row in list(self.incomplete.items()):
            late = own_row.time - row.time
            if late > FORGOTTEN + ROUNDING:
                del self.incomplete[name]
            elif name not in self.latest:
                far = math.hypot(*offset(own_row.place, row.place, self.on_earth))
                yield far, name, row.lack if late <= self.oldest + ROUNDING else f"no report for {whole_second(late)} s"

    def comments(self, lacking, second):
        """The comments on those that a moment lacks and that were near, the nearest one first."""
        near = sorted((one for one in lacking if one[0] <= NEAR), key=lambda one: one[0])
        for _, name, _ in near:
            first, _, count = self.lacking.get(name, (second, second, 0))
            self.lacking[name] = first, second, count + 1
        lines = [lacks_line(self.ids[name], f"{why}, {fixed(far, 1)} NM away") for far, name, why in near[:MOST_LACKS]]
        return lines + [lacks_line("*", f"{len(near) - MOST_LACKS} more")] * (len(near) > MOST_LACKS)

    # What is told.

    def end(self):
        """Notes the reports that no moment had."""
        for name in list(self.latest):
            self.forget(name)
        self.latest = {}

    def told_lacking(self):
        """Where no moment is, whom moments lack, when, and for how long nothing was heard."""
        if self.own_gaps:
            longest, last, second = max(self.own_gaps)
            several = f": the longest of {len(self.own_gaps)} gaps" if len(self.own_gaps) > 1 else ""
            yield f"no moment for {longest} s, from {last} to {second} s{several}, because no report of the ownship came"
        for name, (first, last, count) in self.lacking.items():
            gap = self.gaps.get(name, 0)
            silent = f" (its longest gap between reports is {whole_second(gap)} s)" if gap > self.oldest else ""
            yield (f"{self.ids[name]} is lacking in {count} moment{'s' * (count != 1)}, from {first} to {last} s{silent}: what is not known there is not clear")

    def told(self):
        """What was changed and left out."""
        for (what, why), count in self.left_out.items():
            yield f"left out: {count} {what}{'s' * (count != 1 and what != 'aircraft')} {why}"
        for name, count in self.unused.items():
            yield (f"left out: {count} report{'s' * (count != 1)} of {name} that no moment has: a newer one came first, it was too old or out of range, "
                   "or no moment came after it")
        if self.far:
            yield f"{self.far} moment{'s' * (self.far != 1)} with the ownship at 0 0, more than {FARTHEST_OWN} NM from where it began"
        yield from self.losses.told()
