#!/usr/bin/env python3
"""Asks an index file for many points on Dask: partitions of the points are mapped over workers, each of which reads the index file.

    python3 python/examples/points_by_dask.py INDEX POINTS FOLDER [WORKERS]

INDEX is an index file that `locate build` made, under the same name on every machine; POINTS a text of points, two numbers a line; FOLDER
gets a CSV for each partition, in order: place, number, on, covered_by. WORKERS is how many processes of this machine work, 2 where it is left
out; with 0 everything is done in this process. For workers on other machines give `Client` the address of their scheduler.

It needs Debian's packages python3-distributed and python3-pandas.
"""
import sys
from pathlib import Path

sys.dont_write_bytecode = True
sys.path.insert(0, str(Path(__file__).resolve().parents[1]))
import dask
import dask.dataframe
import pandas
from dask.distributed import Client, LocalCluster

from planar_locate import Index

# The bytes of a partition of the points.
PARTITION = 4_000_000


def answered(points: pandas.DataFrame, index: str) -> pandas.DataFrame:
    """The answers of one partition, on the worker where it lies."""
    found = Index.open(index).ask_arrays(points["x"], points["y"])
    return pandas.DataFrame({"place": found.place, "number": found.number, "on": map(" ".join, found.on),
                             "covered_by": map(" ".join, found.covered_by)}, index=points.index)


def ask(index: str, points: str, folder: str) -> None:
    # without `round_trip` long numbers may be read as a float that is not the closest
    table = dask.dataframe.read_csv(points, sep=" ", names=["x", "y"], blocksize=PARTITION, float_precision="round_trip")
    shape = pandas.DataFrame({"place": ["face"], "number": [1], "on": [""], "covered_by": [""]})
    table.map_partitions(answered, index, meta=shape).to_csv(str(Path(folder) / "answers-*.csv"), index=False)


def main() -> None:
    index, points, folder = sys.argv[1:4]
    workers = int(sys.argv[4]) if len(sys.argv) > 4 else 2
    if workers == 0:
        with dask.config.set(scheduler="synchronous"):
            ask(index, points, folder)
        return
    with LocalCluster(n_workers=workers, threads_per_worker=1, dashboard_address=None) as cluster, Client(cluster):
        ask(index, points, folder)


if __name__ == "__main__":
    main()
