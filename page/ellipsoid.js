// @ts-check
/* Places and velocities on the ellipsoid WGS 84 in the plane round the ownship, in whole numbers below 2^53: the definition of the crate
 * daa_plane, as tools/ellipsoid.py has it; and the way back. Latitudes and longitudes are in ten-millionths of a degree, velocities in tenths
 * of a knot, the plane in 0.001 NM and its turn in 0.0001 degree. No page is needed. */
"use strict";
/** @type {(root: Root) => void} */
function daaEllipsoid(root) {
  const ONE = 1e7; // sines, radians and degrees are counted in parts of it
  const [MOST_LAT, HALF_TURN, MOST_SPEED] = [80 * ONE, 180 * ONE, 10000];
  const [MOST_LAT_APART, MOST_LON_APART, FARTHEST] = [2 * ONE, 12 * ONE, 100000];
  const SINES = Array.from({ length: 91 }, (_, degree) => Math.round(ONE * Math.sin((degree * Math.PI) / 180)));
  const STEPS = 5; // of the way back: the fourth one finds the place already

  /** The whole number nearest to a / b; of two as near, the greater one.
   *  @type {(a: number, b: number) => number} */
  const nearest = (a, b) => Math.floor((2 * a + b) / (2 * b)) + 0;
  /** @type {(a: number, b: number) => number} */
  const part = (a, b) => nearest(a * b, ONE);

  /** @type {(angle: number) => number} */
  function upperSine(angle) {
    const degree = nearest(angle, ONE);
    const arc = part(angle - ONE * degree, 174533);
    return SINES[degree] + part(SINES[90 - degree], arc) - part(SINES[degree], nearest(part(arc, arc), 2));
  }

  /** @type {(angle: number) => number} */
  const sineOf = (angle) => (angle < 0 ? -upperSine(-angle) : upperSine(angle));
  /** @type {(angle: number) => number} */
  const cosineOf = (angle) => upperSine(90 * ONE - Math.abs(angle));

  /** @type {(angle: number) => number} */
  function halfSquare(angle) {
    const half = part(angle, 87266);
    return part(half, half);
  }

  /** @type {(number: number, by: number) => number} */
  const stretched = (number, by) => number + part(number, by);

  /** The way east and north in 0.00001 NM, and by how much the meridians converge, from the differences of latitude and longitude and the
   *  latitude in the middle.
   *  @type {(lat: number, lon: number, middle: number) => Way} */
  function wayOf(lat, lon, middle) {
    const [sine, cosine] = [sineOf(middle), cosineOf(middle)];
    const [s, p, q] = [part(sine, sine), halfSquare(lon), halfSquare(lat)];
    const both = part(s, p);
    const primeVertical = 6010772 + part(20119 + part(102, s), s);
    const meridian = 5970533 + part(59951 + part(508, s), s);
    return {
      east: stretched(part(part(lon, cosine), primeVertical), nearest(q - both, 6)),
      north: stretched(part(lat, meridian), nearest(-2 * p - both, 6)),
      turn: stretched(part(lon, sine), nearest(3 * q + 2 * (p - both), 6)),
    };
  }

  /** East and north, turned to the left by an angle and divided.
   *  @type {(east: number, north: number, angle: number, by: number) => Pair} */
  function turned(east, north, angle, by) {
    const [sine, cosine] = [sineOf(angle), cosineOf(angle)];
    return [nearest(east * cosine - north * sine, by), nearest(east * sine + north * cosine, by)];
  }

  /** Whether the numbers of a place are in their ranges.
   *  @type {(place: Place) => boolean} */
  const isPlace = ({ lat, lon, vx, vy }) => Math.abs(lat) <= MOST_LAT && Math.abs(lon) <= HALF_TURN
    && Math.abs(vx) <= MOST_SPEED && Math.abs(vy) <= MOST_SPEED;

  /** A longitude, or the difference of two the short way round the globe.
   *  @type {(lon: number) => number} */
  function shortWay(lon) {
    const rest = (lon + HALF_TURN) % (2 * HALF_TURN);
    return (rest < 0 ? rest + 2 * HALF_TURN : rest) - HALF_TURN;
  }

  /** The way from place to place, or null where they are out of range or far.
   *  @type {(own: Place, aircraft: Place) => Way | null} */
  function wayBetween(own, aircraft) {
    if (!isPlace(own) || !isPlace(aircraft)) return null;
    const [lat, lon] = [aircraft.lat - own.lat, shortWay(aircraft.lon - own.lon)];
    if (Math.abs(lat) > MOST_LAT_APART || Math.abs(lon) > MOST_LON_APART) return null;
    return wayOf(lat, lon, Math.floor((own.lat + aircraft.lat) / 2));
  }

  /** @type {(x: number, y: number) => boolean} */
  const isNear = (x, y) => x * x + y * y <= FARTHEST * FARTHEST;

  /** An aircraft in the plane round an ownship that is turned by so much; or null where it is out of range, or more than 100 NM away.
   *  @type {(own: Place, aircraft: Place, turn: number) => Seen | null} */
  function seenFrom(own, aircraft, turn) {
    const way = wayBetween(own, aircraft);
    if (!way) return null;
    const [x, y] = turned(way.east, way.north, nearest(way.turn, 2) + 1000 * turn, 100 * ONE);
    const [vx, vy] = turned(aircraft.vx, aircraft.vy, way.turn + 1000 * turn, ONE);
    const isSlow = Math.abs(vx) <= MOST_SPEED && Math.abs(vy) <= MOST_SPEED;
    return isNear(x, y) && isSlow ? { x, y, vx, vy } : null;
  }

  /** Which aircraft is seen there in the plane round an ownship that is turned by so much, and by how much a plane round that aircraft is turned
   *  whose directions are the same there; or null where it is out of range, or more than 100 NM away.
   *  @type {(own: Place, seen: Seen, turn: number) => { place: Place, turn: number } | null} */
  function placeSeen(own, seen, turn) {
    if (!isNear(seen.x, seen.y)) return null;
    let place = { ...own, vx: 0, vy: 0 };
    for (let step = 0; ; step++) {
      const way = wayBetween(own, place);
      if (!way) return null;
      const angle = way.turn + 1000 * turn;
      if (step === STEPS) {
        const [vx, vy] = turned(seen.vx, seen.vy, -angle, ONE);
        return { place: { ...place, vx, vy }, turn: nearest(angle, 1000) };
      }
      const [x, y] = turned(way.east, way.north, nearest(way.turn, 2) + 1000 * turn, ONE);
      const [east, north] = turned(100 * seen.x - x, 100 * seen.y - y, -angle, ONE);
      place = { ...place, lat: place.lat + nearest(10 * north, 6), lon: shortWay(place.lon + nearest(10 * ONE * east, 6 * cosineOf(place.lat))) };
    }
  }

  Object.assign(root.daa, { ellipsoid: { ONE, nearest, isPlace, seenFrom, placeSeen } });
}
daaEllipsoid(globalThis);
