#!/usr/bin/python3
"""Writes the rows of tools/study run, made by the workers of a Dask cluster: the same bytes.

  tools/studies/on_dask.py --scheduler tcp://HOST:8786 --shards 64 examples/study.toml --count 2000 > rows.csv

The words after --shards are those of tools/study run. Each worker finds this repository and the files by their paths, so all
machines need them at the same place. If a worker dies, another one makes its shard. The rows come in the order of the shards.
The tool needs Debian's python3-distributed.

Exit status: 0 success; 1 a shard failed everywhere, or there is no cluster; 2 the command words are not accepted.
"""
import argparse
import os
import sys

TOOLS = os.path.dirname(os.path.dirname(os.path.realpath(__file__)))
TOP = os.path.dirname(TOOLS)


def rows_of_shard(tools, words, shard):
    """Made by a worker: the text of a shard."""
    if tools not in sys.path:
        sys.path.insert(0, tools)
    from studies import running
    return running.text_of_shard(words, shard)


def main():
    parser = argparse.ArgumentParser(description=__doc__, formatter_class=argparse.RawDescriptionHelpFormatter)
    parser.add_argument("--scheduler", required=True, metavar="ADDRESS")
    parser.add_argument("--shards", type=int, required=True, metavar="N")
    parser.add_argument("study", metavar="STUDY")
    parser.add_argument("--config", metavar="FILE")
    parser.add_argument("--encounters", metavar="FILE")
    parser.add_argument("--from", type=int, default=0, metavar="N", dest="first")
    parser.add_argument("--count", type=int, metavar="N")
    given = parser.parse_args()
    if given.shards < 1:
        parser.error("there must be at least one shard")
    from distributed import Client
    there = lambda path: path and os.path.abspath(path)
    words = {"study": there(given.study), "config": there(given.config), "encounters": there(given.encounters), "first": given.first, "count": given.count}
    with Client(given.scheduler) as client:
        shards = [(place, given.shards) for place in range(given.shards)]
        for future in client.map(rows_of_shard, [TOOLS] * given.shards, [words] * given.shards, shards, pure=False):
            sys.stdout.write(future.result())
            sys.stdout.flush()


if __name__ == "__main__":
    main()
