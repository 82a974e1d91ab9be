"""Rows of many encounters: by one process, by several, or a shard for a cluster."""
from concurrent.futures import ProcessPoolExecutor
from concurrent.futures.process import BrokenProcessPool

from daidalus_files import Problem

from .rows import HEAD, row_of, text_of
from .study_file import read_study

SHARDS_OF_JOB = 8  # for each process, so that none waits long for the last


def rows_of(words, shard):
    """The text of a shard's rows, a row at a time; the first shard begins with the names of the columns. A function of the study, its
    seed and the encounters' numbers alone."""
    study = read_study(words["study"], words["config"], words["encounters"])
    encounters = study.chosen(words["first"], words["count"], shard)
    if shard[0] == 0:
        yield HEAD
    for encounter in encounters:
        yield text_of(row_of(encounter, study))


def text_of_shard(words, shard):
    return "".join(rows_of(words, shard))


def texts_by(words, shard, jobs):
    """The text of a shard in pieces, by so many processes: shards of the shard, which are shards of the whole too."""
    if jobs == 1:
        yield from rows_of(words, shard)
        return
    (k, n), many = shard, SHARDS_OF_JOB * jobs
    parts = [(k * many + part, n * many) for part in range(many)]
    with ProcessPoolExecutor(jobs) as pool:
        try:
            yield from pool.map(text_of_shard, [words] * many, parts)
        except BrokenProcessPool:
            raise Problem("a process was ended from outside: what was written is a beginning of the rows", 6) from None
