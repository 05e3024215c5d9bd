"""Prints a table of processor seconds and memory of two programs on the texts of a folder, each the least of some runs.

    python3 bench/times.py mlsub "infer-bench --simplify" FOLDER [RUNS [TEXT ..]]

Both programs are called with `infer TEXT` (the second as `infer-bench infer --simplify TEXT`) in that folder. A row ends
with the word "differs" where they did not write the same.
"""

import os
import pathlib
import resource
import subprocess
import sys

LIMIT = 120


def run(words, folder):
    """Returns the processor seconds, the most memory in MB, and the output of a run, or None where it took too long."""
    with open(os.devnull, "wb") as nothing:
        process = subprocess.Popen(words, cwd=folder, stdout=subprocess.PIPE, stderr=nothing,
                                   preexec_fn=lambda: resource.setrlimit(resource.RLIMIT_CPU, (LIMIT, LIMIT)))
        output = process.stdout.read()
        _, _, used = os.wait4(process.pid, 0)
    return used.ru_utime + used.ru_stime, used.ru_maxrss / 1024, output


def least(words, folder, runs):
    found = [run(words, folder) for _ in range(runs)]
    return min(it[0] for it in found), min(it[1] for it in found), found[0][2]


def main():
    first, second, folder = sys.argv[1], sys.argv[2].split(), sys.argv[3]
    runs = int(sys.argv[4]) if len(sys.argv) > 4 else 3
    texts = sys.argv[5:] or sorted(it.stem for it in pathlib.Path(folder).glob("*.ml"))
    print("| Text | `mlsub`, s | Rust, s | Ratio | MB |")
    print("|---|---|---|---|---|")
    for text in texts:
        one, own, written = least([first, "infer", text], folder, runs)
        two, other, wanted = least([second[0], "infer", *second[1:], text], folder, runs)
        differs = "" if written == wanted else " differs"
        print(f"| `{text}` | {one:.3g} | {two:.3g} | {one / max(two, 0.001):.2g} | {own:.0f} and {other:.0f} |{differs}",
              flush=True)


main()
