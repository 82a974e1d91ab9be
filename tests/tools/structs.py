"""The structs of daidalus.h for ctypes, by which the tests make the archives' calls: those of the Python module in examples/,
and what a page alone needs. `from` and `upto` are `least` and `most`."""
import ctypes
import os
import sys

sys.path.insert(0, os.path.join(os.path.dirname(os.path.realpath(__file__)), "../../examples/python"))
from daidalus import C, struct  # noqa: E402 (the folder is no package)

Grid, Level, Config, Own, Traffic, Fault = C.Grid, C.Level, C.Config, C.Own, C.Traffic, C.Fault
Alert, Board, Candidate, Band = C.Alert, C.Board, C.Candidate, C.Band
Resolution, Recovery, Last = C.Resolution, C.Recovery, C.Last
Lines = struct(("format ended last opened time owned", ctypes.c_uint32), ("own", Own), ("count", ctypes.c_uint64),
               ("traffic", Traffic * 64))

# Each kind's number, and the names of its lower and its upper side, by its name in a report.
KINDS = {"track": (1, "left", "right"), "gs": (2, "down", "up"), "vs": (3, "down", "up"), "alt": (4, "down", "up")}
