"""Runs the commands of docs/GUIDE.md in a copy of examples/, in order, and compares what they print with what the page
shows. It ends with 1 where they differ.

    python3 docs/check_guide.py PROGRAM
"""
import os
import pathlib
import re
import shutil
import subprocess
import sys
import tempfile

TOP = pathlib.Path(__file__).resolve().parent.parent


def commands(page):
    """Each command with the text that stands below it."""
    found = []
    for block in re.findall(r"```console\n(.*?)```", page, re.S):
        for line in block.splitlines():
            if line.startswith("$ "):
                found.append((line[2:], []))
            else:
                found[-1][1].append(line + "\n")
    return [(command, "".join(lines)) for command, lines in found]


def main():
    folder = pathlib.Path(tempfile.mkdtemp())
    shutil.copytree(TOP / "examples", folder / "examples", ignore=shutil.ignore_patterns(".checked"))
    (folder / "bin").mkdir()
    (folder / "bin" / "mlsub").symlink_to(os.path.abspath(sys.argv[1]))
    path = f"{folder / 'bin'}:{os.environ['PATH']}"
    differ = 0
    tried = commands((TOP / "docs" / "GUIDE.md").read_text())
    for command, wanted in tried:
        done = subprocess.run(["bash", "-c", command], cwd=folder / "examples", env={**os.environ, "PATH": path},
                              stdout=subprocess.PIPE, stderr=subprocess.STDOUT, text=True)
        if done.stdout != wanted:
            differ += 1
            print(f"$ {command}\nprints\n{done.stdout}and the page shows\n{wanted}")
    print(f"{len(tried)} commands, {differ} print something else")
    return 1 if differ else 0


sys.exit(main())
