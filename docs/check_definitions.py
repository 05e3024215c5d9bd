#!/usr/bin/env python3
"""Compares docs/DEFINITIONS.md and docs/MAP.md with the files.

Call it with no argument at any place: it prints each file of `specs/` that the clauses of `mls_top::run::run` reach and
docs/DEFINITIONS.md does not list, or the other way round, and each law and each file of `proofs/` that docs/MAP.md does
not name, and ends with 1 if there is one. With --all it prints what the clauses reach, file by file. It follows the
imports of each file, name by name, and checks no proof.
"""
import os
import re
import sys
from pathlib import Path

ROOT = Path(os.environ.get("MLSUB_ROOT", Path(__file__).resolve().parent.parent))
IMPORT = re.compile(r"^\s*(?:ghost |pub )?use Rattle\.([\w.]+?)(?:\.\{([^}]*)\}|( as (\w+))?);?\s*$", re.M)
WORD = re.compile(r"[^\s(){}\[\],;«»]+")
HEAD = re.compile(r"^\s*(?:abbrev |unfoldable )?pub (?:data |record )?(?:mutual )?([^\s:({]+)")


def without_comments(text, mark):
    return "\n".join(line for line in text.split("\n") if not line.lstrip().startswith(mark))


class Scope:
    """The imports of a piece of text: names, and names of modules."""

    def __init__(self, text):
        self.names, self.modules = {}, {}
        for path, names, _, alias in IMPORT.findall(text):
            for item in filter(None, (n.strip() for n in names.split(","))):
                name, _, other = item.partition(" as ")
                self.names[(other or name).strip()] = (path, name.strip())
            if alias or not names:
                self.modules[alias or path.split(".")[-1]] = path

    def look_up(self, word):
        """The module and the name of a word, if it is imported."""
        if word in self.names:
            return self.names[word]
        head, dot, rest = word.partition(".")
        if dot and head in self.modules:
            return self.modules[head], rest.split(".")[0]
        if dot and head in self.names:
            return self.names[head]
        return None


class Specs:
    """A file of specs/: its definitions, each with its text."""

    def __init__(self, path):
        text = without_comments(path.read_text(), "--")
        self.scope, self.blocks, self.where = Scope(text), [], {}
        block = []
        for line in text.split("\n") + ["end"]:
            if IMPORT.match(line) or re.match(r"^(pub )?mod ", line):
                continue
            if line and not line[0].isspace() and block and not self.goes_on(block, line):
                self.add(block)
                block = []
            if line.strip():
                block.append(line)

    @staticmethod
    def goes_on(block, line):
        """Whether a line at the margin belongs to the definition before it."""
        head = HEAD.match(block[0])
        return bool(head) and (line.startswith(head.group(1)) or line.startswith("unfolding"))

    def add(self, block):
        number = len(self.blocks)
        self.blocks.append("\n".join(block))
        is_mutual = "mutual" in block[0].split()
        for line in block:
            if head := HEAD.match(line):
                self.where.setdefault(head.group(1), number)
        if not is_mutual and re.search(r"\bdata\b", block[0]) or is_mutual and "data" in self.blocks[-1]:
            for line in block:
                if made := re.match(r"^\s+((?:[^\s:]+ )+): ", line):
                    for name in made.group(1).split():
                        self.where.setdefault(name, number)


def crate_file(path):
    """The file of specs/ or src/ of a module path, if it is of this repository."""
    parts = path.split(".")
    crate = ROOT / "crates" / parts[0]
    if not crate.is_dir() or len(parts) < 2 or parts[1] != "specs":
        return None
    if parts[2:3] == ["declared"]:
        return crate / "src" / f"{parts[3]}.rt"
    return crate / "specs" / ("/".join(parts[2:]) + ".antt")


def resolve(path):
    """The module that a path names, through the `pub use` lines of a crate."""
    parts = path.split(".")
    lib = ROOT / "crates" / parts[0] / "specs" / "Lib.antt"
    if len(parts) > 2 and parts[1] == "specs" and lib.exists():
        for found in re.findall(r"^pub use Rattle\.([\w.]+)", lib.read_text(), re.M):
            if found.split(".")[-1] == parts[2]:
                return ".".join([found] + parts[3:])
    return path


def public_functions(path):
    """The heads of the public functions of a source file, and the ghost members of its models and impls."""
    text = without_comments(path.read_text().split("#[cfg(test)]")[0], "//")
    heads = []
    for found in re.finditer(r"^( *)pub fn (\w+)", text, re.M):
        end = re.search(rf"^{found.group(1)}\{{|;$", text[found.start():], re.M)
        heads.append((found.group(2), text[found.start():found.start() + end.start()]))
    return text, heads


def ghost_members(text, name):
    """The ghost lines of the model of a type."""
    return re.findall(rf"^impl[^\n]*\bModel for {name}(?:<[^\n]*)? \{{\n(.*?)^\}}", text, re.M | re.S)


class Closure:
    def __init__(self):
        self.files, self.reached, self.types = {}, {}, set()

    def specs(self, path):
        if path not in self.files:
            self.files[path] = Specs(path)
        return self.files[path]

    def words(self, text, scope, own=None):
        todo = [(text, scope, own)]
        while todo:
            text, scope, own = todo.pop()
            for word in WORD.findall(text):
                for piece in {word, *re.findall(r"[^\s.]+", word)} if "." in word else {word}:
                    todo += self.word(piece, scope, own)

    def word(self, word, scope, own):
        found = scope.look_up(word)
        if own and not found and word in self.specs(own).where:
            return self.definition(own, word)
        if not found:
            return []
        path, name = resolve(found[0]), found[1]
        file = crate_file(path)
        if file is None:
            return []
        if file.suffix == ".rt":
            return self.declared(file, path.split(".")[4])
        return self.definition(file, name)

    def definition(self, file, name):
        specs = self.specs(file)
        number = specs.where.get(name)
        if number is None and name in specs.scope.names:
            return self.word(name, specs.scope, None)
        if number is None or (file, number) in self.reached:
            return []
        self.reached[file, number] = specs.blocks[number]
        return [(specs.blocks[number], specs.scope, file)]

    def declared(self, file, name):
        if (file, name) in self.types or not file.exists():
            return []
        self.types.add((file, name))
        text, todo = file.read_text(), []
        for body in ghost_members(text, name):
            todo.append((body, Scope(body), None))
        return todo


def reached_from(file, names=None):
    closure = Closure()
    text, heads = public_functions(file)
    for name, head in heads:
        if names is None or name in names:
            closure.words(head, Scope(text))
    return closure


def not_on_the_map():
    """The laws and the files of lemmas that docs/MAP.md does not name in the part of their crate."""
    laws, lemmas = (ROOT / "docs/MAP.md").read_text().split("## The files of lemmas")
    for crate in sorted(path for path in (ROOT / "crates").iterdir() if (path / "src").is_dir()):
        own = re.compile(rf"^### `{crate.name}`\n(.*?)(?=^### |\Z)", re.M | re.S)
        in_laws, in_lemmas = own.findall(laws), own.findall(lemmas)
        for file in sorted((crate / "src").glob("*laws.rt")):
            for name, _ in public_functions(file)[1]:
                if f"`{file.stem}::{name}`" not in "".join(in_laws):
                    yield f"{crate.name}::{file.stem}::{name}"
        for file in sorted((crate / "proofs").glob("*.antt")):
            if file.stem != "Lib" and f"`{file.stem}`" not in "".join(in_lemmas):
                yield f"{crate.name}.proofs.{file.stem}"


def main():
    closure = reached_from(ROOT / "crates/mls_top/src/run.rt", ["run"])
    files = {}
    for (file, number), block in closure.reached.items():
        heads = [n for n, k in closure.files[file].where.items() if k == number]
        files.setdefault(str(file.relative_to(ROOT / "crates"))[:-5].replace("/", "."), []).append(heads[0])
    if "--all" in sys.argv:
        for file in sorted(files):
            print(f"{file}: {', '.join(sorted(files[file]))}")
        return 0
    page = (ROOT / "docs/DEFINITIONS.md").read_text()
    listed = set(re.findall(r"`(mls_\w+\.specs\.[A-Z]\w*(?:\.[A-Z]\w*)*?)(?:\.[\w◌]+)*`", page))
    listed = {name for name in listed if crate_file(name) and crate_file(name).exists()}
    missing, extra = sorted(set(files) - listed), sorted(listed - set(files))
    for file in missing:
        print(f"not listed: {file}: {', '.join(sorted(files[file]))}")
    for file in extra:
        print(f"not reached: {file}")
    unnamed = list(not_on_the_map())
    for name in unnamed:
        print(f"not on the map: {name}")
    print(f"{len(files)} files reached, {len(missing)} not listed, {len(extra)} listed and not reached")
    print(f"{len(unnamed)} not on the map")
    return 1 if missing or extra or unnamed else 0


if __name__ == "__main__":
    sys.exit(main())
