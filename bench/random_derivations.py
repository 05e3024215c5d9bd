"""Writes random modules with derivations into a folder, without any inference.

    python3 bench/random_derivations.py FOLDER SEED COUNT

Each module mI.ml has a derivation mI.mld, and some an import mIk. A term and its steps are built together, from the
type that is wanted: each step is one of the rules, and a subsumption takes its pairs from a structural walk. All forms
of expressions and all rules stand in them. Stated types may be recursive where the term is a name or a bare recursion.
"""

import os
import random
import sys

LABELS = ["a", "b", "c"]
NAMES = ["f", "x", "y"]
INT, BOOL, TOP, BOT = ("int",), ("bool",), ("top",), ("bot",)


def fn(domain, codomain):
    return ("fn", domain, codomain)


def rcd(fields):
    return ("rcd", tuple(sorted(fields.items())))


def type_of(pick, depth, positive, variables, is_polar=True):
    """A type; where it is polar, joins and bot stand in positive places alone, meets and top in negative ones."""
    leaves = [INT, BOOL, *(("var", name) for name in variables)] * 3
    if depth <= 0:
        return pick.choice([*leaves, *([BOT] if positive or not is_polar else []),
                            *([] if positive and is_polar else [TOP])])

    def inner(sign):
        return type_of(pick, depth - 1, sign, variables, is_polar)

    chance = pick.random()
    if chance < 0.3:
        return pick.choice(leaves)
    if chance < 0.6:
        return fn(inner(not positive), inner(positive))
    if chance < 0.85:
        return rcd({label: inner(positive) for label in pick.sample(LABELS, pick.randrange(3))})
    joins = positive if is_polar else pick.random() < 0.5
    return ("join" if joins else "meet", inner(positive), inner(positive))


def recursive_type_of(pick, depth, positive, around=()):
    """A polar type; `around` has the recursive names, their signs and whether they are guarded."""
    if depth <= 0 or pick.random() < 0.1:
        innermost = {name: (sign, is_guarded) for name, sign, is_guarded in around}
        names = [("name", name) for name, what in innermost.items() if what == (positive, True)]
        return pick.choice([INT, BOOL, rcd({}), ("var", "a"), ("var", "b"), BOT if positive else TOP, *names * 4])
    guarded = [(name, sign, True) for name, sign, _ in around]
    chance = pick.random()
    if chance < 0.25:
        return fn(recursive_type_of(pick, depth - 1, not positive, guarded),
                  recursive_type_of(pick, depth - 1, positive, guarded))
    if chance < 0.55:
        labels = pick.sample(LABELS, pick.randrange(4))
        return ("rcd", tuple((label, recursive_type_of(pick, depth - 1, positive, guarded)) for label in labels))
    if chance < 0.75:
        return ("join" if positive else "meet", recursive_type_of(pick, depth - 1, positive, around),
                recursive_type_of(pick, depth - 1, positive, around))
    name = pick.choice("rs")
    return ("rec", name, recursive_type_of(pick, depth - 1, positive, [*around, (name, positive, False)]))


def text_of(read):
    kind = read[0]
    if kind in ("var", "name"):
        return read[1]
    if kind == "rec":
        return f"(rec {read[1]}. {text_of(read[2])})"
    if kind == "fn":
        return f"({text_of(read[1])}) -> {text_of(read[2])}"
    if kind == "rcd":
        return "{" + ", ".join(f"{label}: {text_of(part)}" for label, part in read[1]) + "}"
    if kind in ("join", "meet"):
        return f"({text_of(read[1])}) {'|' if kind == 'join' else '&'} ({text_of(read[2])})"
    return kind


def numbered(read, numbers):
    """The type with a number for each variable, by first appearance in the text."""
    kind = read[0]
    if kind == "var":
        return ("var", numbers.setdefault(read[1], len(numbers)))
    if kind == "rcd":
        return ("rcd", tuple((label, numbered(part, numbers)) for label, part in read[1]))
    if kind in ("name", "rec"):
        return (*read[:2], *(numbered(part, numbers) for part in read[2:]))
    return (kind, *(numbered(part, numbers) for part in read[1:]))


def book_of(read):
    """The nodes of a type by layers, and the root."""
    nodes, bodies = [], []

    def layer(part, scope, waiting):
        if part[0] == "name":
            return bodies[scope[part[1]]]
        if part[0] == "rec":
            bodies.append(None)
            number = len(bodies) - 1
            bodies[number] = layer(part[2], {**scope, part[1]: number}, waiting)
            return bodies[number]
        if part[0] in ("join", "meet"):
            part = (part[0], layer(part[1], scope, waiting), layer(part[2], scope, waiting))
        nodes.append(part)
        if part[0] in ("fn", "rcd"):
            waiting.append((len(nodes) - 1, scope))
        return len(nodes) - 1

    def place(part, scope):
        waiting = []
        root = layer(part, scope, waiting)
        for number, around in waiting:
            tree = nodes[number]
            if tree[0] == "fn":
                nodes[number] = ("fn", place(tree[1], around), place(tree[2], around))
            else:
                nodes[number] = ("rcd", tuple(sorted((label, place(field, around)) for label, field in tree[1])))
        return root

    root = place(read, {})
    return nodes, root


def moved(node, up):
    if node[0] in ("fn", "join", "meet"):
        return (node[0], node[1] + up, node[2] + up)
    if node[0] == "rcd":
        return ("rcd", tuple((label, child + up) for label, child in node[1]))
    return node


def line_of(node):
    if node[0] == "rcd":
        return " ".join(["node rcd", *(f"{label} {child}" for label, child in node[1])])
    return " ".join(["node", *map(str, node)])


def put_in(read, puts):
    """The type with other types for variables."""
    if read[0] == "var":
        return puts.get(read[1], read)
    if read[0] == "rcd":
        return ("rcd", tuple((label, put_in(part, puts)) for label, part in read[1]))
    return (read[0], *(put_in(part, puts) for part in read[1:]))


class Step:
    def __init__(self, number, about, env, root):
        self.number, self.about, self.env, self.root = number, about, env, root


class Section:
    """A binding's term and the lines of its section. A scope gives names what they mean; its binders have types."""

    def __init__(self, pick, stated, variables):
        self.pick = pick
        self.nodes, self.root = book_of(stated)
        self.known = {}
        self.lines = []
        self.steps = self.terms = self.binders = self.lets = 0
        self.variables = variables

    def node(self, read):
        """The node of a type, with one node for each type."""
        if read not in self.known:
            if read[0] in ("fn", "join", "meet"):
                made = (read[0], self.node(read[1]), self.node(read[2]))
            elif read[0] == "rcd":
                made = ("rcd", tuple((label, self.node(part)) for label, part in read[1]))
            else:
                made = read
            self.nodes.append(made)
            self.known[read] = len(self.nodes) - 1
        return self.known[read]

    def term(self):
        self.terms += 1
        return self.terms - 1

    def step(self, about, rule, env, root):
        words = ["step", about, rule, "env", *(word for entry in sorted(env.items()) for word in entry), "type", root]
        self.lines.append(" ".join(map(str, words)))
        self.steps += 1
        return Step(self.steps - 1, about, dict(env), root)

    def below(self, pairs, mode, left, right, puts):
        """Adds the pairs that show a pair, and answers whether they do."""
        if (mode, left, right) in pairs:
            return True
        pairs.add((mode, left, right))

        def all_of(*wanted):
            return all(self.below(pairs, *each, puts) for each in wanted)

        def any_of(*wanted):
            for each in wanted:
                before = set(pairs)
                if self.below(pairs, *each, puts):
                    return True
                pairs.clear()
                pairs.update(before)
            return False

        one, two = self.nodes[left], self.nodes[right]
        if one[0] == "bot" or two[0] == "top":
            return True
        if mode == "lr" and one[0] == "var" and one[1] in puts:
            return all_of(("pp", puts[one[1]], right))
        if mode == "rl" and two[0] == "var" and two[1] in puts:
            return all_of(("pp", left, puts[two[1]]))
        if mode == "pp" and left == right and self.pick.random() < 0.7:
            return True
        if one[0] == "join":
            return all_of((mode, one[1], right), (mode, one[2], right))
        if two[0] == "meet":
            return all_of((mode, left, two[1]), (mode, left, two[2]))
        choices = [(mode, child, right) for child in one[1:] if one[0] == "meet"]
        choices += [(mode, left, child) for child in two[1:] if two[0] == "join"]
        if choices:
            return any_of(*choices)
        if one[0] != two[0]:
            return False
        if one[0] == "fn":
            other = {"lr": "rl", "rl": "lr", "pp": "pp"}[mode]
            return all_of((other, two[1], one[1]), (mode, one[2], two[2]))
        if one[0] == "rcd":
            fields = dict(one[1])
            return all(label in fields and all_of((mode, fields[label], child)) for label, child in two[1])
        return one == two

    def sub(self, step, env, root, puts=()):
        """A step of a subsumption, if there is one."""
        pairs = set()
        puts = dict(puts)
        if not self.below(pairs, "lr", step.root, root, puts):
            return None
        for binder, node in step.env.items():
            if self.nodes[node][0] == "top" and (binder not in env or self.pick.random() < 0.5):
                continue
            if binder not in env or not self.below(pairs, "rl", env[binder], node, puts):
                return None
        made = self.step(step.about, f"sub {step.number}", env, root)
        behind = [f"put {variable} {node}" for variable, node in puts.items()]
        behind += [f"pair {mode} {left} {right}" for mode, left, right in sorted(pairs)]
        self.pick.shuffle(behind)
        self.lines.extend(behind)
        return made

    def env(self, scope):
        return {binder: self.node(read) for binder, read in scope["binders"].items()}

    def widen(self, step, scope, wanted):
        """The step at the wanted type and in the whole environment."""
        env, root = self.env(scope), self.node(wanted)
        if step.env == env and step.root == root:
            return step
        made = self.sub(step, env, root)
        assert made, (self.lines, wanted)
        return made

    def whole(self, wanted, scope, depth):
        text, step = self.build(wanted, scope, depth)
        return text, self.widen(step, scope, wanted)

    def named(self, wanted, scope):
        """A use of a name of that type, if there is one."""
        names = list(scope["names"].items())
        self.pick.shuffle(names)
        for name, (kind, what, read, free) in names:
            puts = {variable: self.instance(scope, wanted) for variable in sorted(free)}
            if not self.is_below(put_in(read, puts), wanted):
                continue
            about = self.term()
            if kind == "binder":
                node = self.node(read)
                step = self.step(about, "var", {what: node}, node)
                if read == wanted:
                    return name, step
            elif kind == "let":
                step = self.step(about, f"use {what.number}", what.env, what.root)
            else:
                step = self.step(about, f"name {len(self.nodes)}", {}, len(self.nodes) + what[1])
                up = len(self.nodes)
                self.nodes.extend(moved(node, up) for node in what[0])
            env = {binder: node for binder, node in self.env(scope).items() if binder in step.env}
            put = {variable: self.node(part) for variable, part in puts.items()}
            made = self.sub(step, env, self.node(wanted), put)
            assert made, (name, read, wanted)
            return name, made
        return None

    def instance(self, scope, wanted):
        choices = [wanted, INT, BOOL, TOP, BOT, *scope["binders"].values()]
        if wanted[0] == "fn":
            choices += wanted[1:]
        if wanted[0] == "rcd":
            choices += [part for _, part in wanted[1]]
        return self.pick.choice(choices)

    def is_below(self, read, wanted):
        return self.below(set(), "pp", self.node(read), self.node(wanted), {})

    def build(self, wanted, scope, depth):
        """The text of an expression and its step, in an environment of some of the binders, at the wanted type."""
        pick = self.pick
        if pick.random() < (0.4 if depth > 0 else 0.8):
            found = self.named(wanted, scope)
            if found:
                return found
        if depth > 0 and pick.random() < 0.6:
            forms = [self.applied, self.projected, self.chosen, self.let, self.let, self.recursion]
            return pick.choice(forms)(wanted, scope, depth - 1)
        return self.made(wanted, scope, depth - 1)

    def made(self, wanted, scope, depth):
        kind = wanted[0]
        if kind in ("int", "bool"):
            return self.literal(wanted, scope, depth)
        if kind == "fn":
            return self.function(wanted, scope, depth)
        if kind == "rcd":
            return self.record(wanted, scope, depth)
        if kind in ("top", "join"):
            part = self.pick.choice(wanted[1:] if kind == "join" else [INT, BOOL, rcd({}), fn(BOT, INT)])
            text, step = self.build(part, scope, depth)
            made = self.sub(step, step.env, self.node(wanted))
            assert made
            return text, made
        return self.recursion(wanted, scope, 0)

    def literal(self, wanted, scope, depth):
        if depth < 0 or self.pick.random() < 0.4:
            text = self.pick.choice("17") if wanted == INT else self.pick.choice(["true", "false"])
            return text, self.step(self.term(), "lit", {}, self.node(wanted))
        sign = self.pick.choice("+-*" if wanted == INT else ["<", "=="])
        nodes, root = book_of(fn(INT, fn(INT, wanted)))
        up = len(self.nodes)
        self.nodes.extend(moved(node, up) for node in nodes)
        operator = self.step(self.term(), f"name {up}", {}, up + root)
        operator = self.widen(operator, scope, fn(INT, fn(INT, wanted)))
        left, one = self.whole(INT, scope, depth)
        env = self.env(scope)
        half = self.step(self.term(), f"app {operator.number} {one.number}", env, self.node(fn(INT, wanted)))
        right, two = self.whole(INT, scope, depth)
        both = self.step(self.term(), f"app {half.number} {two.number}", env, self.node(wanted))
        return f"({left}) {sign} ({right})", both

    def inside(self, scope, name, meaning, binders=()):
        return {"names": {**scope["names"], name: meaning}, "binders": {**scope["binders"], **dict(binders)}}

    def bound(self, step, binder, read):
        """The step where its environment has the binder at this type."""
        env = {**step.env, binder: self.node(read)}
        return step if env == step.env else self.sub(step, env, step.root)

    def function(self, wanted, scope, depth):
        name, binder = self.pick.choice(NAMES), self.binders
        self.binders += 1
        inner = self.inside(scope, name, ("binder", binder, wanted[1], ()), {binder: wanted[1]})
        text, step = self.build(wanted[2], inner, depth)
        domain = wanted[1] if binder in step.env else TOP
        step = self.bound(step, binder, domain) if binder in step.env else step
        env = {each: node for each, node in step.env.items() if each != binder}
        made = self.step(self.term(), f"fun {step.number}", env, self.node(fn(domain, wanted[2])))
        if domain != wanted[1]:
            made = self.sub(made, env, self.node(wanted))
            assert made
        return f"fun {name} -> {text}", made

    def record(self, wanted, scope, depth):
        parts = dict(wanted[1])
        if self.pick.random() < 0.3:
            parts.setdefault(self.pick.choice(LABELS), self.pick.choice([INT, BOOL]))
        order = list(parts)
        self.pick.shuffle(order)
        built = [self.whole(parts[label], scope, depth) for label in order]
        env = self.env(scope) if parts else {}
        rule = " ".join(["make", *(str(step.number) for _, step in built)])
        made = self.step(self.term(), rule, env, self.node(rcd(parts)))
        if rcd(parts) != wanted:
            made = self.sub(made, env, self.node(wanted))
            assert made
        return "{" + ", ".join(f"{label} = {text}" for label, (text, _) in zip(order, built)) + "}", made

    def applied(self, wanted, scope, depth):
        domain = type_of(self.pick, 1, True, (), False)
        function, one = self.whole(fn(domain, wanted), scope, depth)
        argument, two = self.whole(domain, scope, depth)
        step = self.step(self.term(), f"app {one.number} {two.number}", self.env(scope), self.node(wanted))
        return f"({function}) ({argument})", step

    def projected(self, wanted, scope, depth):
        label = self.pick.choice(LABELS)
        text, step = self.build(rcd({label: wanted}), scope, depth)
        return f"({text}).{label}", self.step(self.term(), f"proj {step.number}", step.env, self.node(wanted))

    def chosen(self, wanted, scope, depth):
        parts = [self.whole(read, scope, depth) for read in (BOOL, wanted, wanted)]
        rule = "if " + " ".join(str(step.number) for _, step in parts)
        texts = [text for text, _ in parts]
        return "if {} then {} else {}".format(*texts), self.step(self.term(), rule, self.env(scope), self.node(wanted))

    def recursion(self, wanted, scope, depth):
        name, binder = self.pick.choice(NAMES), self.binders
        self.binders += 1
        inner = self.inside(scope, name, ("binder", binder, wanted, ()), {binder: wanted})
        if depth > 0:
            text, step = self.build(wanted, inner, depth)
        else:
            text, step = name, self.step(self.term(), "var", {binder: self.node(wanted)}, self.node(wanted))
        step = self.bound(step, binder, wanted)
        env = {each: node for each, node in step.env.items() if each != binder}
        return f"rec {name} -> {text}", self.step(self.term(), f"rec {step.number}", env, self.node(wanted))

    def let(self, wanted, scope, depth):
        pick = self.pick
        name, number = pick.choice(NAMES), self.lets
        self.lets += 1
        fresh = [self.variables + each for each in range(pick.randrange(3))]
        self.variables += len(fresh)
        read = type_of(pick, 2, True, fresh, False)
        is_rec = pick.random() < 0.3
        text, first = self.build(read, scope, depth) if not is_rec else self.recursion_of(name, read, scope, depth)
        if pick.random() < 0.5:
            first = self.widen(first, scope, read)
        self.lines.append(f"let {number} {first.number}")
        used = [variable for variable in fresh if f"('var', {variable})" in repr(read)]
        inner = self.inside(scope, name, ("let", first, read, used))
        body, second = self.build(wanted, inner, depth)
        env = dict(first.env)
        for binder, node in second.env.items():
            if binder in env:
                self.nodes.append(("meet", env[binder], node))
                node = len(self.nodes) - 1
            env[binder] = node
        step = self.step(self.term(), f"let {first.number} {second.number}", env, second.root)
        return f"let {'rec ' if is_rec else ''}{name} = {text} in {body}", step

    def recursion_of(self, name, read, scope, depth):
        """The first part of a `let rec`, without the word and the name."""
        binder = self.binders
        self.binders += 1
        inner = self.inside(scope, name, ("binder", binder, read, ()), {binder: read})
        text, step = self.build(read, inner, depth)
        step = self.bound(step, binder, read)
        env = {each: node for each, node in step.env.items() if each != binder}
        return text, self.step(self.term(), f"rec {step.number}", env, self.node(read))

    def ended(self, step):
        """The lines behind the one of the name and type, where the last step is brought to the stated type."""
        made = self.sub(step, {}, self.root)
        assert made
        return [*map(line_of, self.nodes), *self.lines, "end"]


def stated(pick, is_recursive=False):
    """The text of a type, with the type and its variables."""
    depth = pick.randrange(4)
    read = recursive_type_of(pick, depth + 2, True) if is_recursive else type_of(pick, depth, True, ["a", "b"])
    numbers = {}
    read, text = numbered(read, numbers), text_of(read)
    return text, read, sorted(numbers.values())


def recursive_module(pick, name):
    """The files of a module whose types may be recursive."""
    files, lines, text = {}, ["derivation 1"], f"import {name}k\n"
    declared = [stated(pick, True) for _ in range(pick.randrange(1, 4))]
    files[f"{name}k.mli"] = "".join(f"val d{each} : {what[0]}\n" for each, what in enumerate(declared))
    for number in range(pick.randrange(1, 4)):
        if pick.random() < 0.5:
            shown, read, free = stated(pick, True)
            section = Section(pick, read, len(free))
            step = section.step(section.term(), "var", {0: section.root}, section.root)
            step = section.step(section.term(), f"rec {step.number}", {}, section.root)
            text += f"let v{number} = rec x -> x\n"
        else:
            each = pick.randrange(len(declared))
            shown, read, free = declared[each]
            section = Section(pick, read, len(free))
            up = len(section.nodes)
            section.nodes.extend(moved(node, up) for node in section.nodes[:up])
            step = section.step(section.term(), f"name {up}", {}, up + section.root)
            text += f"let v{number} = d{each}\n"
        lines += [f"val v{number} : {shown}", *section.ended(step)]
    return {**files, f"{name}.ml": text, f"{name}.mld": "".join(line + "\n" for line in lines)}


def module(pick, name):
    """The files of a module."""
    if pick.random() < 0.25:
        return recursive_module(pick, name)
    files, names, lines, text = {}, {}, ["derivation 1"], ""
    if pick.random() < 0.5:
        declared = {each: stated(pick) for each in pick.sample(["f", "d", "e"], pick.randrange(1, 4))}
        files[f"{name}k.mli"] = "".join(f"val {each} : {what[0]}\n" for each, what in declared.items())
        text = f"import {name}k\n"
        names = {each: ("name", book_of(read), read, free) for each, (_, read, free) in declared.items()}
    for number in range(pick.randrange(1, 4)):
        own = f"v{number}"
        shown, read, free = stated(pick)
        section = Section(pick, read, len(free))
        scope = {"names": names, "binders": {}}
        depth = pick.randrange(1, 5)
        if pick.random() < 0.25:
            body, step = section.recursion_of(own, read, scope, depth)
            text += f"let rec {own} = {body}\n"
        else:
            body, step = section.build(read, scope, depth)
            text += f"let {own} = {body}\n"
        lines += [f"val {own} : {shown}", *section.ended(step)]
        names = {**names, own: ("name", book_of(read), read, free)}
    files[f"{name}.ml"] = text
    files[f"{name}.mld"] = "".join(line + "\n" for line in lines)
    return files


def main():
    folder, seed, count = sys.argv[1], int(sys.argv[2]), int(sys.argv[3])
    pick = random.Random(seed)
    os.makedirs(folder, exist_ok=True)
    for number in range(count):
        for name, text in module(pick, f"m{number}").items():
            with open(os.path.join(folder, name), "w") as file:
                file.write(text)


if __name__ == "__main__":
    main()
