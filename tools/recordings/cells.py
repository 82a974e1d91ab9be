"""The cells of a line: between semicolons where the header has one, else between commas or, without any, between blanks."""
import csv
import re


def marks_of(header):
    """What stands between cells: in all lines a semicolon where the header has one, so that a comma there is one of a number."""
    return ";" if ";" in header else ",;"


def mark_of(line, marks):
    """The mark between the cells of a line, or None where blanks are."""
    return next((mark for mark in marks if mark in line), None)


def cells_of(line, marks):
    """The cells of a line; between blanks a unit in brackets that follows a name stays with it. In quotes a mark is none."""
    mark = mark_of(line, marks)
    if mark is None:
        return [piece.strip(' \t"') for piece in re.split(r"\s+(?![\[(])", line.strip())]
    if '"' in line:
        try:
            return [cell.strip() for cell in next(csv.reader([line], delimiter=mark, skipinitialspace=True), [])]
        except csv.Error:
            return []
    if len(marks) > 1 and mark == "," and ";" in line:
        line = line.replace(";", ",")
    return [cell.strip(" \t") for cell in line.split(mark)]


def unit_cells_of(line, marks):
    """The cells of a line of units."""
    return cells_of(line, marks) if mark_of(line, marks) else line.split()


def split_unit(cell):
    """A header's name and unit."""
    found = re.fullmatch(r"([^\[(]*?)\s*[\[(]([^\])]*)[\])]", cell)
    return (found[1], found[2]) if found else (cell, None)
