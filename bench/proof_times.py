#!/usr/bin/env python3
"""Prints which parts of a check took longest.

    python3 bench/proof_times.py DIRECTORY [COUNT]

DIRECTORY is an incremental directory that one check has filled from nothing (`rattle check --incremental DIRECTORY`).
A check saves each part of a function's proof once it is done, so the time between one file and the one before is what
the part took. `f.Lts` is that the borrows of `f` are right: it grows faster than the number of places and paths of `f`,
so a function that is split in two takes a part of the time.
"""
import os
import sys


def saved(folder):
    """When each file was written, with its name, in order."""
    for at, _, names in os.walk(folder):
        for name in names:
            if name.endswith(".oantt"):
                yield os.stat(os.path.join(at, name)).st_mtime_ns / 1e9, name.removesuffix(".oantt")


def main(folder, count):
    files = sorted(saved(folder))
    steps = sorted(((later[0] - earlier[0], later[1]) for earlier, later in zip(files, files[1:])), reverse=True)
    print(f"{len(files)} parts in {files[-1][0] - files[0][0]:.0f} s" if files else "no part")
    for seconds, name in steps[:count]:
        print(f"{seconds:8.1f}  {name}")


if __name__ == "__main__":
    if len(sys.argv) not in (2, 3):
        sys.exit(__doc__)
    main(sys.argv[1], int(sys.argv[2]) if len(sys.argv) == 3 else 20)
