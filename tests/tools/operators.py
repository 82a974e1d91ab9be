"""Recordings as operators have them: one encounter of a drone with two aircraft, in the forms that ground stations, receivers and trackers
write, and as it looks where something is wrong with it. `FILES` has them by name."""
import datetime
import functools
import json
import math

BEGIN = 1715679082  # 2024-05-14 09:31:22 UTC
SECONDS = 40
SILENT = range(12, 27)  # s: no report of traffic
OWN, HEAD_ON, CROSSING = "UAV01", "HBCXY", "4B1805"
HEX = {OWN: "4B0001", HEAD_ON: "4B1234", CROSSING: "4B1805"}
# name: latitude, longitude, ft, degrees, knots, ft/min, as the encounter begins
START = {OWN: (47.40, 8.60, 3000, 2.4, 80.3, 0), HEAD_ON: (47.52, 8.603, 3200, 181.7, 112.6, -300), CROSSING: (47.44, 8.72, 3100, 268.2, 140.2, 0)}
PLAIN = "time,id,lat,lon,alt,gs,trk,vs"


def flown(name, second):
    """Where an aircraft is at a second."""
    lat, lon, alt, trk, gs, vs = START[name]
    way, angle = gs * second / 3600 / 60, math.radians(trk)
    return {"id": name, "t": second, "lat": lat + way * math.cos(angle), "lon": lon + way * math.sin(angle) / math.cos(math.radians(lat)),
            "alt": alt + vs * second / 60, "trk": trk, "gs": gs, "vs": vs}


REPORTS = [flown(name, second) for second in range(SECONDS) for name in START if name == OWN or second not in SILENT]


def stamp(second, form="%Y-%m-%dT%H:%M:%S.000Z"):
    return datetime.datetime.fromtimestamp(BEGIN + second, datetime.timezone.utc).strftime(form)


def table(head, form, reports=None, **changed):
    """A table of the reports: `form` writes the cells of one, and `changed` has what is otherwise in each."""
    reports = REPORTS if reports is None else reports
    rows = [form.format(**{"epoch": f"{BEGIN + it['t']}", "iso": stamp(it["t"]), **it, **{key: change(it) for key, change in changed.items()}}) for it in reports]
    return head + "\n" + "".join(f"{row}\n" for row in rows)


def plain(**changed):
    return table(PLAIN, "{epoch},{id},{lat:.6f},{lon:.6f},{alt:.1f},{gs:.2f},{trk:.1f},{vs:.2f}", **changed)


def metric(head, time="{iso}"):
    return table(head, time + ",{id},{lat:.6f},{lon:.6f},{alt:.2f},{gs:.3f},{trk:.1f},{vs:.4f}", alt=lambda it: it["alt"] * 0.3048,
                 gs=lambda it: it["gs"] * 1852 / 3600, vs=lambda it: it["vs"] * 0.00508)


OWN_ALONE = [it for it in REPORTS if it["id"] == OWN]


def base_station():
    lines = []
    for it in REPORTS:
        head, when = f"1,1,{HEX[it['id']]},1", stamp(it["t"], "%Y/%m/%d,%H:%M:%S.000")
        lines.append(f"MSG,1,{head},{when},{when},{it['id']:8s},,,,,,,,0,0,0,0")
        lines.append(f"MSG,4,{head},{when},{when},,,{it['gs']:.1f},{it['trk']:.1f},,,{it['vs']:.0f},,0,0,0,0")
        lines.append(f"MSG,3,{head},{when},{when},,{it['alt']:.0f},,,{it['lat']:.6f},{it['lon']:.6f},,,0,0,0,0")
    return "\r\n".join(["STA,,1,1,4B0001,1,,,,", *lines, ""])


def aircraft_json(second, indent=None):
    there = [{"hex": HEX[it["id"]].lower(), "flight": f"{it['id']:8s}", "alt_baro": round(it["alt"]), "alt_geom": round(it["alt"]) + 150, "gs": it["gs"],
              "track": it["trk"], "baro_rate": it["vs"], "lat": round(it["lat"], 6), "lon": round(it["lon"], 6), "seen_pos": 0, "seen": 0.1}
             for it in REPORTS if it["t"] == second]
    more = [{"hex": "4ca9f1", "alt_baro": "ground", "lat": 47.4, "lon": 8.6, "seen": 2.1}, {"hex": "~2f11aa", "seen": 11}]
    return json.dumps({"now": BEGIN + second, "messages": 123456, "aircraft": there + more}, indent=indent)


def by_line(text, change):
    """A table whose rows a call changes: their cells, by their number from 1 on."""
    head, *rows = text.splitlines()
    return "\n".join([head, *(",".join(change(row.split(","), number)) for number, row in enumerate(rows, 1))]) + "\n"


def put(at, value):
    """Puts another cell into each row."""
    return lambda cells, _: [*cells[:at], value(cells) if callable(value) else value, *cells[at + 1:]]


# Forms that are right: each must become the encounter.
RIGHT = {
    "plain.csv": plain(), "crlf.csv": plain().replace("\n", "\r\n"), "bom.csv": "\ufeff" + plain(),
    "iso_and_units_in_names.csv": metric("timestamp,id,latitude,longitude,altitude_m,ground_speed_ms,track_deg,vertical_rate_ms"),
    "iso_and_brackets.csv": metric("time,id,lat,lon,altitude [m],ground speed [m/s],track [deg],vertical rate [m/s]"),
    "units_below.csv": metric(PLAIN + "\n[s],,[deg],[deg],[m],[m/s],[deg],[m/s]", "{epoch}"),
    "blanks_in_names.csv": plain().replace(PLAIN, "time,id,lat,lon,altitude,ground speed,track,vertical rate"),
    "altitude_with_its_level.csv": plain().replace(",alt,", ",altitude [ft MSL],"), "quoted.csv": plain().replace(PLAIN, '"' + PLAIN.replace(",", '","') + '"'),
    "iso_with_zone.csv": by_line(plain(), lambda cells, _: [stamp(int(cells[0]) - BEGIN + 7200, "%Y-%m-%d %H:%M:%S+02:00"), *cells[1:]]),
    "iso_without_zone.csv": by_line(plain(), lambda cells, _: [stamp(int(cells[0]) - BEGIN, "%Y-%m-%d %H:%M:%S"), *cells[1:]]),
    "date_and_time.csv": by_line(plain(), lambda cells, _: [stamp(int(cells[0]) - BEGIN, "%Y/%m/%d,%H:%M:%S"), *cells[1:]]).replace("time,", "date,time,"),
    "milliseconds.csv": by_line(plain(), put(0, lambda cells: cells[0] + "000")), "microseconds.csv": by_line(plain(), put(0, lambda cells: cells[0] + "000000")),
    "semicolons.csv": plain().replace(",", ";"), "tabs.csv": plain().replace(",", "\t"), "negative_tracks.csv": plain(trk=lambda it: it["trk"] - 360 * (it["trk"] > 180)),
    "repeated_header.csv": "\n".join([*plain().splitlines()[:40], PLAIN, *plain().splitlines()[40:]]) + "\n",
    "header_twice.csv": PLAIN + "\n" + plain(), "backwards.csv": "\n".join([PLAIN, *plain().splitlines()[:0:-1]]) + "\n",
    "doubled.csv": "\n".join([PLAIN, *(row for row in plain().splitlines()[1:] for _ in (0, 1))]) + "\n", "comma_at_the_end.csv": by_line(plain(), lambda cells, _: [*cells, ""]),
    "units_in_cells.csv": by_line(plain(), put(4, lambda cells: cells[4] + " ft")),
    "hemispheres.csv": by_line(plain(), lambda cells, _: [*cells[:2], cells[2] + "N", cells[3] + "E", *cells[4:]]),
    "flight_levels.csv": by_line(plain().replace(",alt,", ",alt [FL],"), put(4, lambda cells: f"{float(cells[4]) / 100:.2f}")),
    "opensky.csv": table("time,icao24,lat,lon,velocity,heading,vertrate,callsign,onground,alert,spi,squawk,baroaltitude,geoaltitude,lastposupdate,lastcontact",
                         "{epoch},{id},{lat},{lon},{ms},{trk},{up},{id:8s},False,False,False,7000,{high},{higher},0,0", ms=lambda it: it["gs"] * 1852 / 3600,
                         up=lambda it: it["vs"] * 0.00508, high=lambda it: it["alt"] * 0.3048, higher=lambda it: it["alt"] * 0.3048 + 40),
    "flightradar24.csv": table("Timestamp,UTC,Callsign,Position,Altitude,Speed,Direction", '{epoch},{iso},{id},"{lat:.6f},{lon:.6f}",{alt:.0f},{gs:.1f},{trk:.1f}'),
    "base_station.txt": base_station(), "aircraft_by_line.json": "".join(aircraft_json(second) + "\n" for second in range(SECONDS)),
}
# Forms of one aircraft alone, or of one moment.
ALONE = {
    "qgroundcontrol.csv": table("Timestamp,roll,pitch,heading,groundSpeed,airSpeed,climbRate,altitudeRelative,altitudeAMSL,gps.lat,gps.lon,gps.hdop",
                                "{iso},0.1,2.2,{trk},{ms:.3f},40.1,0,120.1,{high:.2f},{lat:.7f},{lon:.7f},0.8", OWN_ALONE,
                                ms=lambda it: it["gs"] * 1852 / 3600, high=lambda it: it["alt"] * 0.3048),
    "mavlink.csv": table("timestamp,mavtype,time_boot_ms,lat,lon,alt,relative_alt,vx,vy,vz,hdg",
                         "{epoch},GLOBAL_POSITION_INT,1,{e7[0]:.0f},{e7[1]:.0f},{high:.0f},120000,{ne[0]:.0f},{ne[1]:.0f},0,240", OWN_ALONE,
                         e7=lambda it: (it["lat"] * 1e7, it["lon"] * 1e7), high=lambda it: it["alt"] * 304.8,
                         ne=lambda it: [it["gs"] * 185200 / 3600 * part(math.radians(it["trk"])) for part in (math.cos, math.sin)]),
    "aircraft.json": aircraft_json(5, indent=1), "own_alone.csv": table(PLAIN, "{epoch},{id},{lat:.6f},{lon:.6f},{alt:.1f},{gs:.2f},{trk:.1f},{vs:.2f}", OWN_ALONE),
}
FIRST = {name: next(row.split(",") for row in plain().splitlines() if f",{name}," in row) for name in START}
# Recordings that cannot be right, with a part of the sentence that says so.
WRONG = {
    "metres.csv": (metric(PLAIN, "{epoch}"), "UAV01, HBCXY and 4B1805: places move 1.94 times as fast as the speeds say: speeds in m/s, taken as knots?"),
    "kilometres_an_hour.csv": (plain(gs=lambda it: it["gs"] * 1.852), "places move 0.54 times as fast as the speeds say: speeds in km/h, taken as knots?"),
    "heights_in_metres.csv": (plain(alt=lambda it: it["alt"] * 0.3048), "HBCXY: heights change 0.31 times as fast as the vertical speeds say: heights in m, taken as ft?"),
    "climbs_in_metres.csv": (plain(vs=lambda it: it["vs"] * 0.00508), "HBCXY: heights change 197.37 times as fast as the vertical speeds say: vertical speeds in m/s, taken"),
    "downward.csv": (plain(vs=lambda it: -it["vs"]), "HBCXY: heights change -1.00 times as fast as the vertical speeds say: vertical speeds that are positive downward?"),
    "radians.csv": (plain(lat=lambda it: math.radians(it["lat"]), lon=lambda it: math.radians(it["lon"]), trk=lambda it: math.radians(it["trk"])),
                    "places in radians, taken as degrees?"),
    "swapped.csv": (plain().replace("lat,lon", "lon,lat"), "degrees off the tracks: are columns in each other's place?"),
    "levels.csv": (plain(alt=lambda it: it["alt"] / 100), "no height is above 32 ft: heights in flight levels, taken as ft?"),
    "echo.csv": (by_line(plain(), lambda cells, _: cells) + "".join(row.replace(OWN, "4B0001") + "\n" for row in plain().splitlines() if OWN in row),
                 "4B0001: all along where the ownship is: its own transponder? --leave-out takes it out"),
    "capitals.csv": (by_line(plain(), lambda cells, number: put(1, cells[1].lower() if number % 2 else cells[1])(cells, 0)),
                     "names that differ in capitals alone: one aircraft?"),
    "stale.csv": (by_line(plain(), lambda cells, _: cells if cells[1] == OWN else [*cells[:2], *FIRST[cells[1]][2:5], *cells[5:]]),
                  "HBCXY and 4B1805: places stand still, and speeds are 126 knots: are positions stale?"),
    "no_speeds.csv": (by_line(plain(), lambda cells, _: cells if cells[1] == OWN else [*cells[:5], "0", "0", "0"]),
                      "HBCXY and 4B1805: speeds are 0, and places move at 126 knots: is there no velocity?"),
    "west.csv": (by_line(plain(), lambda cells, _: cells if cells[1] == OWN else [*cells[:3], "-" + cells[3], *cells[4:]]),
                 "HBCXY and 4B1805: never nearer than 700 NM to the ownship: is the sign of a latitude or longitude wrong?"),
    "one_clock_off.csv": (by_line(plain(), lambda cells, _: put(0, str(int(cells[0]) - 3600))(cells, 0) if cells[1] == CROSSING else cells),
                          "4B1805: times never meet the ownship's, and begin 1 h earlier: another time zone?"),
}
# Recordings of which some rows can't be read, with what is told of them.
IN_PART = {
    "no_number.csv": (plain().replace("3200.0", "NaN"), "left out: 1 row with no number for alt: line 3: '1715679082,HBCXY,47.520000,8.603000,NaN,112.60,181.7,-300.00'"),
    "empty_climbs.csv": (by_line(plain(), lambda cells, number: put(7, "" if number % 9 == 0 else cells[7])(cells, 0)), "left out: 10 rows with no number for vs: the first is line 10: "),
    "cut.csv": (plain()[:-35], "left out: 1 row with no number for lon: line 91: '1715679121,4B1805,47.439205'"),
    "on_the_ground.csv": (plain().replace("3100.0", "ground"), "left out: 25 reports of aircraft on the ground"),
    "zero_bytes.csv": (plain()[:1500] + "\0" * 300 + plain()[1800:], "left out: 1 row with no number for vs: line 25: "),
    "no_position.csv": (plain().replace("47.400000,8.600000", "0.000000,0.0"), "left out: 1 row with the latitude and longitude 0 0, which a receiver writes that has no position: line 2: "),
}
# What is no recording, with what is told.
REFUSED = {
    "empty.csv": ("", "no header line"), "header_alone.csv": (PLAIN + "\n", "no report of an aircraft"),
    "no_header.csv": (plain().removeprefix(PLAIN + "\n"), "no header line: the first line has numbers and no names of columns; write one above it, such as `time,id,lat,lon,"),
    "degrees_by_ten_million.csv": (plain(lat=lambda it: it["lat"] * 1e7), "line 2: too large a number for lat: are lat and lon in each other's place, or in another unit?: '17"),
    "spreadsheet.csv": (by_line(plain(), put(0, "1.71568E+09")), "line 2: no time: a spreadsheet has taken away its last digits: '1.71568E+09,UAV01"),
    "no_seconds.csv": (by_line(plain(), put(0, "09:31")), "line 2: no time: seconds are missing: '09:31,UAV01"),
    "thousands.csv": (by_line(plain(), put(4, lambda cells: f'"{float(cells[4]):,.0f}"')), "line 2: no number for alt: a decimal comma, or a mark of thousands? Write a point, and no mark: "),
    "decimal_commas.csv": (plain().replace(",", ";").replace(".", ","), "line 2: no number for lat: a decimal comma, or a mark of thousands? Write a point, and no mark: '17"),
    "clock_of_traffic_off.csv": (by_line(plain(), lambda cells, _: cells if cells[1] == OWN else put(0, str(int(cells[0]) - 7200))(cells, 0)),
                                 "no report of another aircraft falls into the ownship's time, 1715679082 to 1715679121 s: theirs are from 1715671882 to "
                                 "1715671921 s, and 7200 s more would bring them there"),
    "height_above_ground.csv": (plain().replace(",alt,", ",relative_alt,"), "the header has no column for alt (an altitude); it has time, id, lat, lon, relative_alt, gs, trk, vs "
                                "(relativealt is above the place of take-off, and altitudes here are above the sea)"),
    "other_names.csv": (plain().replace("time,id", "when,id"), "the header has no column for time (a time); it has when, id, lat, lon, alt, gs, trk, vs; if one of these is it, "
                        "tell tools/from_daa so: --columns time=NAME"),
    "furlongs.csv": (plain().replace(",alt,", ",alt [furlong],"), "furlong is no unit of alt that is known; known are ft, m, km, nmi, fl, cm, mm"),
}


@functools.cache
def files():
    """All of them, in bytes by their names."""
    texts = {**RIGHT, **ALONE, **{name: text for some in (WRONG, IN_PART, REFUSED) for name, (text, _) in some.items()}}
    return {name: text.encode() for name, text in texts.items()} | {"latin_1.csv": plain().replace(HEAD_ON, "H\xd6BCX").encode("latin-1"),
                                                                     "utf_16.csv": plain().encode("utf-16")}
