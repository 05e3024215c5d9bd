"""Has a program derive random modules, and has two programs verify what it derives.

    python3 bench/derivations.py PROGRAM PLAIN SEED COUNT [KEPT [LEVEL]]

PROGRAM is asked to `infer` each module and to `derive` it. Both answers have to have the same status, and the same text
where it is a refusal. A derivation has to state the types of the signature, line by line, and PROGRAM and PLAIN have to
say that it is verified. It ends with 1 where one of this is not so, and tells in which folder such modules are. The
derivations that are verified are kept in the new folder KEPT, each with its files, as texts for bench/mutations.py.
LEVEL (by default 0) makes the expressions so much deeper. PLAIN may have words behind it.
"""

import collections
import os
import random
import shlex
import shutil
import subprocess
import sys
import tempfile

sys.path.insert(0, os.path.join(os.path.dirname(os.path.abspath(__file__)), "infer"))
import random_texts  # noqa: E402

NAMES = ["f", "g", "x", "y", "z"]
LABELS = ["a", "b", "c"]
LIMIT = 120


class Lets(random_texts.Forms):
    """Expressions in which most of what is wanted is bound by a let first."""

    def of(self, wanted, scope, depth):
        pick = self.pick
        chance = pick.random()
        if depth > 1 and scope and chance < 0.3:
            used = pick.choice(list(scope))
            name = pick.choice(NAMES)
            first = pick.choice([
                lambda: used,
                lambda: f"fun {pick.choice(NAMES)} -> {used}",
                lambda: f"{{a = {used}, b = {super(Lets, self).of('any', scope, depth - 1)}}}",
                lambda: f"fun {name} -> {used} {name}",
                lambda: super(Lets, self).of("any", scope, depth - 1),
            ])()
            return f"let {name} = {first} in {self.of(wanted, {**scope, name: 'free'}, depth - 1)}"
        return super().of(wanted, scope, depth)


def untyped(pick, scope, depth):
    """An expression whose names all have meanings, with no regard to types."""
    def inner(names=scope, less=1):
        return untyped(pick, names, depth - less)

    def atom():
        text = inner()
        return text if text.isalnum() else f"({text})"

    name = pick.choice(NAMES)
    if depth <= 0 or pick.random() < 0.1:
        return pick.choice(scope if scope and pick.random() < 0.95 else ["1", "true", "{}"])
    within = [*scope, name]
    forms = [
        (8, lambda: f"fun {name} -> {inner(within)}"),
        (6, lambda: f"{pick.choice(scope) if scope else atom()} {atom()}"),
        (2, lambda: f"{atom()} {atom()}"),
        (2, lambda: f"let {name} = {inner()} in {inner(within)}"),
        (1, lambda: f"let rec {name} = {inner(within)} in {inner(within)}"),
        (1, lambda: f"rec {name} -> {inner(within)}"),
        (2, lambda: "{" + ", ".join(f"{label} = {inner()}" for label in pick.sample(LABELS, pick.randrange(4))) + "}"),
        (2, lambda: f"{pick.choice(scope) if scope else atom()}.{pick.choice(LABELS)}"),
        (1, lambda: f"if {pick.choice([*scope, 'true'])} then {inner()} else {inner()}"),
        (0.5, lambda: f"{atom()} {pick.choice('+-*<')} {atom()}"),
    ]
    return pick.choices([form for _, form in forms], [weight for weight, _ in forms])[0]()


def bindings(pick, scope, expression):
    """The text of a module with one to four bindings; `expression` makes one over the names that are known."""
    text = ""
    for number in range(pick.randrange(1, 4)):
        name = f"v{number}"
        is_rec = pick.random() < 0.2
        text += f"let {'rec ' if is_rec else ''}{name} = {expression([*scope, name] if is_rec else scope)}\n"
        scope = [*scope, name]
    return text


def project_of(pick, level):
    """The files of a module with imports, whose interfaces have no fault."""
    types = random_texts.Types(pick, 0)
    files, scope = {}, {}
    for name in pick.sample(["k", "m", "q"], pick.randrange(1, 4)):
        declared = {f"{name}{each}": types.of(True, pick.randrange(4)) for each in range(pick.randrange(1, 4))}
        files[name + ".mli"] = random_texts.text_of_interface(declared)
        scope.update({each: pick.choice(["free", random_texts.shape_of(pick)]) for each in declared})
    text = "".join("import " + file.removesuffix(".mli") + "\n" for file in files)
    if pick.random() < 0.5:
        text += bindings(pick, list(scope), lambda names: untyped(pick, names, pick.randrange(1, 4 + level)))
    else:
        forms = random_texts.Forms(pick, 0)
        for number in range(pick.randrange(1, 4)):
            shape = forms.shape(2)
            text += f"let v{number} = {forms.of(shape, scope, pick.randrange(2, 5 + level))}\n"
            scope[f"v{number}"] = shape
    return {**files, "main.ml": text}


def lets_of(pick, level):
    forms = Lets(pick, 0)
    scope, text = {}, ""
    for number in range(pick.randrange(1, 4)):
        shape = forms.shape(2)
        for _ in range(pick.randrange(4)):
            shape = ("fun", "any", shape)
        text += f"let v{number} = {forms.of(shape, scope, pick.randrange(3, 7 + level))}\n"
        scope[f"v{number}"] = shape
    return {"main.ml": text}


def untyped_of(pick, level):
    return {"main.ml": bindings(pick, [], lambda names: untyped(pick, names, pick.randrange(1, 6 + level)))}


def forms_of(pick, level):
    return {"main.ml": random_texts.module_of_forms(pick)}


def answer(program, command):
    try:
        done = subprocess.run([*program, command, "main"], capture_output=True, timeout=LIMIT)
    except subprocess.TimeoutExpired:
        return b"", "too long"
    return done.stdout, done.returncode


def trial(program, plain):
    """What became of the module in the current folder, its size, and whether all is as it should be."""
    inferred, derived = answer(program, "infer"), answer(program, "derive")
    if inferred[1] != derived[1]:
        return f"infer ends with {inferred[1]}, derive with {derived[1]}", 0, False
    if inferred[1] != 0:
        return f"status {inferred[1]}", 0, inferred[0] == derived[0]
    with open("main.mld", "wb") as file:
        file.write(derived[0])
    stated = [line for line in derived[0].split(b"\n") if line.startswith(b"val ")]
    if stated != inferred[0].split(b"\n")[:-1]:
        return "other types are stated", len(derived[0]), False
    said = [answer(each, "verify") for each in (program, plain)]
    if said != [(b"main is verified\n", 0)] * 2:
        return f"verify: {said}", len(derived[0]), False
    return "verified", len(derived[0]), True


def main():
    programs = []
    for words in sys.argv[1:3]:
        first, *others = shlex.split(words)
        programs.append([os.path.abspath(first), *others])
    pick = random.Random(int(sys.argv[3]))
    kept = os.path.abspath(sys.argv[5]) if len(sys.argv) > 5 else None
    level = int(sys.argv[6]) if len(sys.argv) > 6 else 0
    if kept:
        os.makedirs(kept)
    failures, work = tempfile.mkdtemp(), tempfile.mkdtemp()
    os.chdir(work)
    counts, wrong, largest, total = collections.Counter(), 0, (0, b""), 0
    for number in range(int(sys.argv[4])):
        make = pick.choice([forms_of, forms_of, lets_of, lets_of, untyped_of, untyped_of, project_of])
        files = make(pick, level)
        random_texts.write(files)
        what, size, is_right = trial(*programs)
        counts[f"{make.__name__.removesuffix('_of')}: {what if is_right else 'WRONG'}"] += 1
        total += size
        if size > largest[0]:
            largest = size, files["main.ml"]
        if not is_right:
            wrong += 1
            print(f"wrong: {failures}/{number}: {what}", flush=True)
            shutil.copytree(".", os.path.join(failures, str(number)))
        elif kept and size:
            shutil.copytree(".", os.path.join(kept, str(number)))
    for what, count in sorted(counts.items()):
        print(f"{count:6} {what}")
    print(f"the largest derivation has {largest[0]} bytes, all have {total}; that of {largest[1]!r}")
    return 1 if wrong else 0


if __name__ == "__main__":
    sys.exit(main())
