"""Tells which must-fail edits do not stand on their files: each `old:` text has to stand there, once those before it
were replaced.

    python3 bench/edits_stand.py

Ends with 1 where one does not.
"""

import pathlib
import sys

top = pathlib.Path(__file__).resolve().parent.parent
wrong = 0
for edit in sorted(top.glob("crates/*/must-fail/*.edit")):
    lines = edit.read_text().splitlines()
    texts = {}
    for line in lines:
        key, _, rest = line.partition(": ")
        if key == "file":
            file = edit.parent.parent / rest
            text = texts.setdefault(file, file.read_text())
        elif key == "old":
            old = rest.strip()
        elif key == "new":
            if old not in text:
                print(f"{edit.relative_to(top)} does not stand: {old}")
                wrong = 1
            text = texts[file] = text.replace(old, rest.strip(), 1)
sys.exit(wrong)
