"""Recordings of aircraft, as ground stations, receivers and trackers write them, made into state lines: what tools/from_daa does.

columns.json has the names of columns and the units, for these modules and for the page. rows reads one report of an aircraft a
row; headers, times and cells read the parts of a table, basestation and aircraft_json the forms of receivers; sources puts
files together (tools/from_sbs takes the lines of a receiver itself); plane has places on the globe; moments makes the moments; plausible names what cannot be right.
"""
