"""Compares a program that infers signatures with the plain Rust program on random texts of modules. It ends with 1
where they differ.

    python3 bench/infer/random_texts.py PROGRAM PLAIN SEED COUNT [forms | wide | projects | pairs]

Most of the texts have a fault; with the word `forms` none has one, every form stands in them, and some of them have
no signature; with `wide` the only binding has a record of 31 to 64 parts over some parameters; with `projects` a
module has imports, whose interfaces may have faults, and an interface of its own, which it keeps or not, and both
`infer` and `check` are asked; with `pairs` the only binding is what an import declares, so that `check` says of two
types whether the first subsumes the second. Status and output have to be the same, but for this: signatures may be
equivalent line by line, as PLAIN says of them, and for a binding without scheme the kind of the clash, and for one
that is not general enough the path, may be another one, which is counted and shown. Either program may have words
behind it: "infer-bench --simplify".
"""
import collections
import os
import random
import re
import shlex
import subprocess
import sys
import tempfile

NAMES = ["a", "b", "c", "f", "x", "y"]
TOKENS = """let rec fun -> = in if then else ( ) { } , . + - * < == import a b x 1 true : | $ 9223372036854775808
val""".split()
SPECIAL = re.compile(rb"(main: val \w+ is not general enough at) (.*)\n")
REFUSED = re.compile(rb"(main\.ml:\d+:\d+: no scheme for \w+): (.*)\n")


def expression(pick, depth):
    if depth <= 0:
        return pick.choice(NAMES + ["1", "true", "{}", "7"])

    def inner():
        return expression(pick, depth - 1)

    name = pick.choice(NAMES)
    parts = ", ".join(f"{pick.choice(NAMES)} = {inner()}" for _ in range(pick.randrange(4)))
    return pick.choice([
        lambda: f"fun {name} -> {inner()}",
        lambda: f"rec {name} -> {inner()}",
        lambda: f"let {name} = {inner()} in {inner()}",
        lambda: f"let rec {name} = {inner()} in {inner()}",
        lambda: f"if {inner()} then {inner()} else {inner()}",
        lambda: f"({inner()}) {inner()}",
        lambda: f"{name} + {inner()}",
        lambda: f"({inner()}).{name}",
        lambda: "{" + parts + "}",
        lambda: f"({inner()} < {inner()})",
        lambda: f"{name} * {name} - {inner()}",
        lambda: name,
    ])()


def module(pick):
    text = "".join(f"import {pick.choice(NAMES)} " for _ in range(pick.choice([0, 0, 0, 0, 1, 2])))
    for _ in range(pick.randrange(4)):
        text += f"let {pick.choice(['', '', 'rec '])}{pick.choice(NAMES)} = {expression(pick, pick.randrange(5))}\n"
    return text


def changed(pick, text):
    words = text.split()
    for _ in range(pick.randrange(3)):
        words = words or ["a"]
        at = pick.randrange(len(words))
        chance = pick.random()
        if chance < 0.35:
            words[at] = pick.choice(TOKENS)
        elif chance < 0.6:
            del words[at]
        elif chance < 0.85:
            words.insert(at, pick.choice(TOKENS))
        else:
            words = words[:at]
    return " ".join(words)


def text_of(pick):
    if pick.random() < 0.05:
        return "let a = " + "(" * pick.choice([198, 199, 200, 201]) + pick.choice(["1", "", ")", "fun x -> x"])
    text = module(pick)
    return changed(pick, text) if pick.random() < 0.6 else text


class Forms:
    """Expressions of every form without fault. What is wanted is a shape: "int", "bool", "any", ("fun", shape, shape)
    or ("record", {label: shape}). Names are in scope with their shapes; a parameter of shape "free" is used as whatever
    is wanted."""

    def __init__(self, pick, slips):
        self.pick = pick
        self.slips = slips

    def shape(self, depth):
        pick = self.pick
        chance = pick.random()
        if depth <= 0 or chance < 0.45:
            return pick.choice(["int", "bool", "any", "any"])
        if chance < 0.75:
            return ("fun", self.shape(depth - 1), self.shape(depth - 1))
        return ("record", {label: self.shape(depth - 1) for label in pick.sample(NAMES, pick.randrange(4))})

    def fits(self, shape, wanted):
        if wanted == "any" or shape == "free":
            return True
        if isinstance(wanted, str) or isinstance(shape, str) or shape[0] != wanted[0]:
            return shape == wanted
        if wanted[0] == "fun":
            return self.fits(wanted[1], shape[1]) and self.fits(shape[2], wanted[2])
        return all(label in shape[1] and self.fits(shape[1][label], part) for label, part in wanted[1].items())

    def name(self, scope):
        return self.pick.choice(NAMES)

    def atom(self, wanted, scope, depth):
        """An expression as an operand."""
        text = self.of(wanted, scope, depth)
        is_atom = re.fullmatch(r"\w+|\{[^{}]*\}|\w+(\.\w+)+", text) and not text.startswith(("fun ", "if "))
        return text if is_atom and self.pick.random() < 0.9 else f"({text})"

    def of(self, wanted, scope, depth):
        pick = self.pick
        if pick.random() < self.slips:
            wanted = self.shape(1)
        known = [name for name, shape in scope.items() if self.fits(shape, wanted)]
        if known and pick.random() < (0.35 if depth > 0 else 0.85):
            return pick.choice(known)
        if depth <= 0:
            return self.leaf(wanted, scope)
        chance = pick.random()
        if chance < 0.4:
            return self.made(wanted, scope, depth)
        return pick.choice([self.applied, self.applied, self.projected, self.chosen, self.let, self.let, self.rec])(
            wanted, scope, depth - 1)

    def leaf(self, wanted, scope):
        if wanted == "any":
            wanted = self.pick.choice(["int", "bool", ("record", {})])
        if wanted == "int":
            return str(self.pick.randrange(10))
        if wanted == "bool":
            return self.pick.choice(["true", "false"])
        return self.made(wanted, scope, 0)

    def made(self, wanted, scope, depth):
        """The form that makes what is wanted."""
        pick = self.pick
        if wanted == "any":
            wanted = self.shape(2)
        if wanted == "any" or (depth <= 0 and isinstance(wanted, str)):
            return self.leaf(wanted, scope)
        if wanted == "int":
            sign = pick.choice("+-*")
            return f"{self.atom('int', scope, depth - 1)} {sign} {self.atom('int', scope, depth - 1)}"
        if wanted == "bool":
            sign = pick.choice(["<", "=="])
            return f"{self.atom('int', scope, depth - 1)} {sign} {self.atom('int', scope, depth - 1)}"
        if wanted[0] == "fun":
            name = self.name(scope)
            shape = pick.choice(["free", wanted[1]])
            return f"fun {name} -> {self.of(wanted[2], {**scope, name: shape}, depth - 1)}"
        parts = dict(wanted[1])
        if pick.random() < 0.3:
            parts.setdefault(pick.choice(NAMES), "any")
        made = [f"{label} = {self.of(part, scope, depth - 1)}" for label, part in parts.items()]
        return "{" + ", ".join(made) + "}"

    def applied(self, wanted, scope, depth):
        shape = self.shape(1)
        function = self.atom(("fun", shape, wanted), scope, depth)
        return f"{function} {self.atom(shape, scope, depth)}"

    def projected(self, wanted, scope, depth):
        label = self.pick.choice(NAMES)
        return f"{self.atom(('record', {label: wanted}), scope, depth)}.{label}"

    def chosen(self, wanted, scope, depth):
        condition = self.of("bool", scope, depth)
        return f"if {condition} then {self.of(wanted, scope, depth)} else {self.of(wanted, scope, depth)}"

    def let(self, wanted, scope, depth):
        name = self.name(scope)
        shape = self.shape(2)
        if self.pick.random() < 0.25:
            first = self.of(shape, {**scope, name: shape}, depth)
            return f"let rec {name} = {first} in {self.of(wanted, {**scope, name: shape}, depth)}"
        return f"let {name} = {self.of(shape, scope, depth)} in {self.of(wanted, {**scope, name: shape}, depth)}"

    def rec(self, wanted, scope, depth):
        name = self.name(scope)
        return f"rec {name} -> {self.of(wanted, {**scope, name: wanted}, depth)}"


def module_of_forms(pick):
    forms = Forms(pick, pick.choice([0, 0, 0, 0.05]))
    scope = {}
    lines = []
    for number in range(pick.randrange(1, 5)):
        name = f"{pick.choice(NAMES)}{number}"
        shape = forms.shape(2)
        for _ in range(pick.choice([0, 0, 1, 2, 3])):
            shape = ("fun", "any", shape)
        is_rec = pick.random() < 0.25
        inner = {**scope, name: shape} if is_rec else scope
        lines.append(f"let {'rec ' if is_rec else ''}{name} = {forms.of(shape, inner, pick.randrange(2, 6))}\n")
        scope[name] = shape
    return "".join(lines)


def module_of_wide_record(pick):
    forms = Forms(pick, 0)
    names = pick.sample(NAMES, pick.randrange(1, 4))
    scope = {name: "free" for name in names}
    count = pick.choice([31, 32, 33, 64])
    parts = [f"l{number} = {forms.of('any', scope, pick.choice([1, 1, 1, 3]))}" for number in range(count)]
    record = "{" + ", ".join(parts) + "}"
    if pick.random() < 0.3:
        record = f"let r = {record} in {{m = r, n = r.l1}}"
    return "let wide = " + "".join(f"fun {name} -> " for name in names) + record + "\n"


class Types:
    """Types, each polar in its place but for slips."""

    def __init__(self, pick, slips):
        self.pick = pick
        self.slips = slips

    def of(self, positive, depth, recursive=()):
        pick = self.pick
        if pick.random() < self.slips:
            return pick.choice(["bot", "top", "a | int", "a & int", "rec r. r", "{a: int, a: int}", "(", "rec r. r -> r"])
        if depth <= 0:
            guarded = [name for name, sign, is_guarded in recursive if is_guarded and sign == positive]
            return pick.choice(["int", "bool", "{}", "bot" if positive else "top", "a", "a", "b", "c"] + guarded)
        inner = [(name, sign, True) for name, sign, _ in recursive]
        chance = pick.random()
        if chance < 0.4:
            return f"({self.of(not positive, depth - 1, inner)}) -> {self.of(positive, depth - 1, inner)}"
        if chance < 0.7:
            labels = pick.sample(NAMES, pick.randrange(4))
            return "{" + ", ".join(f"{label}: {self.of(positive, depth - 1, inner)}" for label in labels) + "}"
        if chance < 0.85:
            sign = " | " if positive else " & "
            return sign.join(f"({self.of(positive, depth - 1, recursive)})" for _ in range(2))
        if chance < 0.95:
            name = pick.choice(["r", "s"])
            others = [each for each in recursive if each[0] != name]
            return f"rec {name}. {self.of(positive, depth - 1, [*others, (name, positive, False)])}"
        return self.of(positive, 0, recursive)


def shape_of(pick, depth=1):
    return pick.choice(["int", "bool", "any", ("fun", "any", "any"), ("record", {pick.choice(NAMES): "any"})])


def interface(pick, types):
    names = [pick.choice(NAMES) + pick.choice(["", "0", "1", "9"]) for _ in range(pick.randrange(4))]
    if pick.random() < 0.95:
        names = list(dict.fromkeys(names))
    return {name: types.of(True, pick.randrange(4)) for name in names}


def text_of_interface(declared):
    return "".join(f"val {name} : {read}\n" for name, read in declared.items())


def promise(pick, types, signature):
    """An interface for a module with this signature: kept, more special, or of other types."""
    lines = []
    for line in signature.decode().splitlines():
        chance = pick.random()
        head, _, read = line.partition(" : ")
        if chance < 0.15:
            continue
        if chance < 0.55:
            variables = [name for name in re.findall(r"\b[a-z]\b", re.sub(r"\w+:", "", read)) if f"rec {name}." not in read]
            for name in variables:
                if pick.random() < 0.6:
                    chosen = pick.choice(["int", "bool", "{}", "{a: int}", "z", "(z -> z)", "(int -> bool)"])
                    read = re.sub(rf"\b{name}\b(?!:)", chosen, read)
        elif chance < 0.65:
            read = types.of(True, 3)
        elif chance < 0.7:
            head = "val " + pick.choice(NAMES)
        lines.append(f"{head} : {read}\n")
    pick.shuffle(lines)
    return "".join(lines)


def project(pick, infer):
    """The files of a project, by name; `infer` gives the signature of the module over those written so far."""
    types = Types(pick, pick.choice([0, 0, 0, 0, 0.02]))
    forms = Forms(pick, pick.choice([0, 0, 0, 0.05]))
    files, scope, imported = {}, {}, []
    for name in pick.sample(["k", "m", "q", "main"], pick.randrange(3)):
        imported.append(name)
        declared = interface(pick, types)
        if pick.random() < 0.97:
            files[name + ".mli"] = text_of_interface(declared)
        scope.update({each: pick.choice(["free", shape_of(pick)]) for each in declared})
    text = "".join(f"import {name}\n" for name in imported)
    for number in range(pick.randrange(4)):
        name = f"{pick.choice(NAMES)}{number}"
        shape = forms.shape(2)
        text += f"let {name} = {forms.of(shape, scope, pick.randrange(2, 5))}\n"
        scope[name] = shape
    files["main.ml"] = text
    write(files)
    if pick.random() < 0.95 and "main" not in imported:
        files["main.mli"] = promise(pick, types, infer())
    return files


def specialised(pick, types, read):
    """A type that may be more special, or is another one."""
    for name in sorted(set(re.findall(r"\b[abc]\b(?!:)", read))):
        if pick.random() < 0.6:
            chosen = pick.choice(["int", "{}", "{a: int}", "z", "(z -> z)", "(int -> bool)", "rec y. {a: y}", "a", "b"])
            read = re.sub(rf"\b{name}\b(?!:)", f"({chosen})", read)
    if pick.random() < 0.7:
        changes = [("int", "bool"), ("{}", "{b: int}"), ("a: int, ", ""), ("bool", "a"), ("-> int", "-> {}"), ("a", "b")]
        read = read.replace(*pick.choice(changes), 1)
    return read if pick.random() < 0.9 else types.of(True, 3)


def pair(pick):
    """The files of a module whose only binding has the first of two types, and whose interface declares the second."""
    types = Types(pick, 0)
    general = types.of(True, pick.randrange(1, 5))
    special = specialised(pick, types, general)
    return {"main.ml": "import k let f = g", "k.mli": f"val g : {general}", "main.mli": f"val f : {special}"}


def write(files):
    for name in os.listdir("."):
        os.remove(name)
    for name, text in files.items():
        with open(name, "w") as file:
            file.write(text)


def answer(program, command="infer"):
    done = subprocess.run([*program, command, "main"], capture_output=True)
    return done.stdout, done.returncode


def program_of(words):
    first, *others = shlex.split(words)
    return [os.path.abspath(first), *others]


def are_equivalent(plain, said):
    for number, (signature, _) in enumerate(said):
        with open(f"{number}.mli", "wb") as file:
            file.write(signature)
    return subprocess.run([*plain, "compare", "0.mli", "1.mli"], capture_output=True).returncode == 0


def verdict(plain, text, said):
    """What is counted of two answers; nothing where they differ."""
    (first, status), (_, other) = said
    if said[0] == said[1]:
        if status == 3:
            return "fault " + first.split(b": fault ")[1].split(b":")[0].decode()
        return {0: "done, same text", 1: "no scheme, same kind", 2: "mismatch, same line"}.get(status, f"status {status}")
    unlike = [SPECIAL.fullmatch(output) for output, _ in said]
    if (status, other) == (2, 2) and None not in unlike and unlike[0].group(1) == unlike[1].group(1):
        print("paths differ:", repr(text), [match.group(2).decode() for match in unlike])
        return "too special, other path"
    if (status, other) == (0, 0) and are_equivalent(plain, said):
        return "signature, other text"
    refused = [REFUSED.fullmatch(output) for output, _ in said]
    if (status, other) == (1, 1) and None not in refused and refused[0].group(1) == refused[1].group(1):
        print("kinds differ:", repr(text), [match.group(2).decode() for match in refused])
        return "no scheme, other kind"
    return None


def main():
    programs = [program_of(words) for words in sys.argv[1:3]]
    pick = random.Random(int(sys.argv[3]))
    mode = (sys.argv[5:] or ["texts"])[0]
    counts = collections.Counter()
    os.chdir(tempfile.mkdtemp())

    def compare(text, command):
        said = [answer(program, command) for program in programs]
        found = verdict(programs[1], text, said)
        counts[f"{command}: {found}" if found else "differ"] += 1
        if not found:
            print("differ:", repr(text), said)

    for _ in range(int(sys.argv[4])):
        if mode == "projects":
            files = project(pick, lambda: answer(programs[1])[0])
            for command in ["infer", "check"]:
                write(files)
                compare(files, command)
        elif mode == "pairs":
            files = pair(pick)
            write(files)
            compare(files, "check")
        else:
            text = {"forms": module_of_forms, "wide": module_of_wide_record}.get(mode, text_of)(pick)
            write({"main.ml": text})
            compare(text, "infer")
    for found, count in sorted(counts.items()):
        print(f"{count:6} {found}")
    return 1 if counts["differ"] else 0


if __name__ == "__main__":
    sys.exit(main())
