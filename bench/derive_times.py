"""Prints a table of processor seconds of `infer`, `derive` and `verify` on modules, and the sizes of their derivations.

    python3 bench/derive_times.py PROGRAM MODULE.ml ..
    python3 bench/derive_times.py write FOLDER

A time is the least of three runs, or of one that took more than ten seconds. A run is ended after ten minutes of a
processor or 8 GB of memory, and the row tells its status. The interfaces that a module imports lie beside it. `write`
makes modules of some kinds, each in four sizes that double; there are more of `infer-bench write`.
"""

import os
import pathlib
import resource
import subprocess
import sys
import tempfile

SECONDS = 600
MEMORY = 8 << 30


def joined(count, line, between=" "):
    return between.join(line(number) for number in range(count))


def nested(count, first, line, last):
    """Lets inside one another."""
    return f"let v = {first}" + joined(count, lambda number: f"let y{number + 1} = {line(number)} in ") + last


KINDS = {
    "sum": (250, lambda size: "let v = fun x -> x" + " + x" * size),
    "arguments": (100, lambda size: "let v = fun f -> f" + " 1" * size),
    "applications": (100, lambda size: "let id = fun x -> x\nlet v = " + "id " * size + "1"),
    "projections": (50, lambda size: "let v = fun x -> x" + ".l" * size),
    "fields": (50, lambda size: "let v = fun r -> " + joined(size, lambda each: f"r.l{each}", " + ")),
    "record": (250, lambda size: "let v = {" + joined(size, lambda each: f"l{each} = {each}", ", ") + "}"),
    "records": (20, lambda size: "let v = fun x -> " + "{l = " * size + "x" + "}" * size),
    "functions": (20, lambda size: "let v = " + joined(size, lambda each: f"fun x{each} -> ") + "x0"),
    "binders": (20, lambda size: "let v = " + joined(size, lambda each: f"fun x{each} -> ")
                + joined(size, lambda each: f"x{each}", " + ")),
    "choices": (20, lambda size: "let v = fun x -> " + "if x then 1 else " * size + "2"),
    "lets": (20, lambda size: nested(size, "let y0 = 1 in ", lambda each: f"y{each} + 1", f"y{size}")),
    "lets_of_binder": (20, lambda size: nested(size, "fun x -> let y0 = x in ", lambda each: f"{{a = y{each}, b = x}}",
                                               f"y{size}")),
    "lets_of_functions": (20, lambda size: nested(size, "let y0 = fun z -> z in ",
                                                  lambda each: f"fun z -> y{each} (y{each} z)", f"y{size}")),
    "bindings": (500, lambda size: "let v0 = fun x -> x\n"
                 + joined(size, lambda each: f"let v{each + 1} = v{each} v{each}", "\n")),
    "church": (50, lambda size: "let n0 = fun f -> fun x -> f x\n"
               + "let add = fun m -> fun n -> fun f -> fun x -> m f (n f x)\n"
               + joined(size, lambda each: f"let n{each + 1} = add n{each} n0", "\n")),
}


def write(folder):
    os.makedirs(folder, exist_ok=True)
    for kind, (size, text_of) in KINDS.items():
        for times in (1, 2, 4, 8):
            with open(os.path.join(folder, f"{kind}{size * times}.ml"), "w") as file:
                file.write(text_of(size * times) + "\n")


def limit():
    resource.setrlimit(resource.RLIMIT_CPU, (SECONDS, SECONDS))
    resource.setrlimit(resource.RLIMIT_AS, (MEMORY, MEMORY))


def run(program, command, name, folder):
    """The processor seconds, the most memory in MB and the status of a run, whose output goes into the file `out`."""
    with open(os.path.join(folder, "out"), "wb") as out:
        process = subprocess.Popen([program, command, name], cwd=folder, stdout=out, preexec_fn=limit)
        _, status, used = os.wait4(process.pid, 0)
    process.returncode = os.waitstatus_to_exitcode(status)
    return used.ru_utime + used.ru_stime, used.ru_maxrss / 1024, process.returncode


def cell(program, command, name, folder, told):
    """A cell with seconds and memory, or the status."""
    found = [run(program, command, name, folder)]
    while len(found) < 3 and found[0][0] <= 10:
        found.append(run(program, command, name, folder))
    if found[0][2] != 0:
        told.append(found[0][2])
        return f"status {found[0][2]}"
    return f"{min(it[0] for it in found):.3g} ({min(it[1] for it in found):.0f})"


def row(program, path):
    told = []
    with tempfile.TemporaryDirectory() as folder:
        for file in [path, *path.parent.glob("*.mli")]:
            os.symlink(file.resolve(), os.path.join(folder, file.name))
        inferred = cell(program, "infer", path.stem, folder, told)
        derived = cell(program, "derive", path.stem, folder, told)
        target = os.path.join(folder, path.stem + ".mld")
        os.rename(os.path.join(folder, "out"), target)
        size = os.path.getsize(target)
        with open(target, "rb") as file:
            lines = sum(1 for _ in file)
        verified = "" if told else cell(program, "verify", path.stem, folder, told)
    print(f"| `{path.stem}` | {path.stat().st_size:,} | {inferred} | {derived} | {verified} | {size:,} | {lines:,} |",
          flush=True)
    return not told


def main():
    if sys.argv[1] == "write":
        return write(sys.argv[2])
    program = os.path.abspath(sys.argv[1])
    print("| Module | Bytes | `infer`, s (MB) | `derive`, s (MB) | `verify`, s (MB) | Bytes derived | Lines |")
    print("|---|---|---|---|---|---|---|")
    done = [row(program, pathlib.Path(path)) for path in sys.argv[2:]]
    return 0 if all(done) else 1


if __name__ == "__main__":
    sys.exit(main())
