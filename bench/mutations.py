"""Compares what two programs say of derivations with random changes.

    python3 bench/mutations.py PROGRAM PLAIN FOLDER SEED COUNT [KEPT]

The folder, or its subfolders, have modules NAME.ml with derivations NAME.mld, and the interfaces of their imports.
COUNT times a derivation gets one to three changes, and both programs are asked to `verify` it. It ends with 1 where
status or output differ, and then such modules are kept in the folder KEPT (by default a new one, which is told). It
tells how many texts had a bad line, a step that is not allowed, or were allowed. Either program may have words behind
it.
"""

import collections
import os
import random
import re
import shlex
import shutil
import subprocess
import sys
import tempfile

RULES = {"var": 0, "use": 1, "name": 1, "lit": 0, "fun": 1, "app": 2, "make": None, "proj": 1, "if": 3, "let": 2,
         "rec": 1, "sub": 1}
NODES = ["bot", "top", "var", "bool", "int", "fn", "rcd", "join", "meet"]
KINDS = [list(RULES), NODES, ["lr", "rl", "pp"], ["let", "step", "put", "pair", "node", "end", "val"], ["env", "type"]]
HUGE = ["4294967295", "4294967296", "9223372036854775807", "9223372036854775808", "18446744073709551615",
        "18446744073709551616", "340282366920938463463374607431768211456", "00", "01", "+1", "-1", "1.0", "0x1", ""]
TYPES = ["int", "bool", "a", "a -> a", "{}", "bot", "{a: int}", "rec a. {l: a}", "int | bool", "top", "(", "a # b",
         " a", "a ", "\ta", "a\r", "let", "a -> b -> c", "{a: a, a: b}", "1", "$", ""]


class Changes:
    """Changes of a text, each as a method over its lines; one that finds nothing to change leaves them as they are."""

    def __init__(self, pick, others):
        self.pick = pick
        self.others = others
        self.all = [getattr(self, name) for name in dir(self) if name.startswith("change_")]

    def apply(self, text):
        for _ in range(self.pick.choice([1, 1, 1, 2, 3])):
            lines = text.split("\n")[:-1]
            text = self.pick.choice(self.all)(lines) if lines else text + "\n"
        return text

    def ended(self, lines):
        return "".join(line + "\n" for line in lines)

    def place(self, lines, *begins):
        """The number of a line that begins with one of these words, or None."""
        found = [at for at, line in enumerate(lines) if line.split(" ")[0] in begins]
        return self.pick.choice(found) if found else None

    def words(self, lines, change, *begins):
        """The text where the words of one of these lines were changed."""
        at = self.place(lines, *begins) if begins else self.pick.randrange(len(lines))
        if at is None:
            return self.ended(lines)
        words = lines[at].split(" ")
        words = change(words) or words
        return self.ended([*lines[:at], " ".join(words), *lines[at + 1:]])

    def other_number(self, word):
        chance = self.pick.random()
        if chance < 0.55 and word.isdigit():
            return str(max(0, int(word) + self.pick.choice([-2, -1, -1, 1, 1, 2])))
        if chance < 0.9:
            return str(self.pick.randrange(30))
        return self.pick.choice(HUGE)

    def change_number(self, lines):
        def change(words):
            found = [at for at, word in enumerate(words) if word.isdigit()]
            if found:
                at = self.pick.choice(found)
                words[at] = self.other_number(words[at])

        return self.words(lines, change, "node", "let", "step", "step", "step", "put", "pair")

    def change_number_of_step(self, lines):
        def change(words):
            at = self.pick.choice([at for at, word in enumerate(words) if word.isdigit()] or [0])
            words[at] = self.other_number(words[at])

        return self.words(lines, change, "step")

    def change_exchange(self, lines):
        """Two numbers of a line change places, or the nodes of a meet."""
        def change(words):
            found = [at for at, word in enumerate(words) if word.isdigit()]
            if len(found) > 1:
                at, other = self.pick.sample(found, 2)
                words[at], words[other] = words[other], words[at]

        meets = [at for at, line in enumerate(lines) if line.startswith("node meet ")]
        if meets and self.pick.random() < 0.3:
            at = self.pick.choice(meets)
            words = lines[at].split(" ")
            return self.ended([*lines[:at], " ".join([*words[:2], *reversed(words[2:])]), *lines[at + 1:]])
        return self.words(lines, change, *self.pick.choice([["node"], ["step"], ["pair"], ["let", "put"]]))

    def change_word(self, lines):
        def change(words):
            at = self.pick.randrange(len(words))
            kinds = [kind for kind in KINDS if words[at] in kind]
            words[at] = self.pick.choice(self.pick.choice(kinds or KINDS))

        return self.words(lines, change)

    def change_words(self, lines):
        def change(words):
            at = self.pick.randrange(len(words))
            chance = self.pick.randrange(4)
            if chance == 0:
                del words[at]
            elif chance == 1:
                words.insert(at, words[at])
            elif chance == 2:
                words.insert(at, self.pick.choice(["", "0", "env", "a", "end"]))
            else:
                other = self.pick.randrange(len(words))
                words[at], words[other] = words[other], words[at]

        return self.words(lines, change)

    def change_rule(self, lines):
        def change(words):
            if "env" not in words[2:]:
                return
            rule, old = self.pick.choice(list(RULES.items())), words[3:words.index("env")]
            count = self.pick.randrange(4) if rule[1] is None else rule[1]
            arguments = [*old, *(str(self.pick.randrange(20)) for _ in range(count))][:count]
            words[2:words.index("env")] = [rule[0], *arguments]

        return self.words(lines, change, "step")

    def change_argument(self, lines):
        """Another earlier step about the same node."""
        at = self.place(lines, "step", "let")
        if at is None:
            return self.ended(lines)
        start = max([0, *(number for number in range(at) if lines[number].startswith("val "))])
        steps = [line.split(" ") for line in lines[start:at] if line.startswith("step ")]
        words = lines[at].split(" ")
        stop = words.index("env") if "env" in words else len(words)
        found = [number for number in range(2, stop) if words[number].isdigit() and int(words[number]) < len(steps)]
        if found:
            number = self.pick.choice(found)
            about = steps[int(words[number])][1:2]
            words[number] = str(self.pick.choice([each for each, step in enumerate(steps) if step[1:2] == about]))
        return self.ended([*lines[:at], " ".join(words), *lines[at + 1:]])

    def change_mode(self, lines):
        def change(words):
            words[1:2] = [self.pick.choice(["lr", "rl", "pp"])]

        return self.words(lines, change, "pair")

    def change_env(self, lines):
        def change(words):
            if "env" not in words or "type" not in words:
                return
            first, last = words.index("env") + 1, words.index("type")
            entries = [words[at:at + 2] for at in range(first, last, 2)]
            chance = self.pick.randrange(5)
            if chance == 0 or not entries:
                taken = {entry[0] for entry in entries}
                free = [str(binder) for binder in range(6) if str(binder) not in taken]
                entries.append([self.pick.choice(free or ["0"]), str(self.pick.randrange(12))])
                entries.sort(key=lambda entry: (len(entry[0]), entry[0]))
            elif chance == 1:
                entries.remove(self.pick.choice(entries))
            elif chance == 2:
                self.pick.choice(entries)[0] = str(self.pick.randrange(5))
            elif chance == 3:
                entry = self.pick.choice(entries)
                entry[-1] = self.other_number(entry[-1])
            else:
                self.pick.shuffle(entries)
            words[first:last] = [word for entry in entries for word in entry]

        return self.words(lines, change, "step")

    def change_conclusion(self, lines):
        """The environment, the type or both of another step of the section."""
        at = self.place(lines, "step")
        if at is None:
            return self.ended(lines)
        starts = [number for number, line in enumerate(lines) if line.startswith("val ")]
        start = max([0, *(number for number in starts if number < at)])
        stop = min([len(lines), *(number for number in starts if number > at)])
        other = self.pick.choice([line for line in lines[start:stop] if line.startswith("step ")])
        (rule, env, root), (_, env_of_other, root_of_other) = (
            re.fullmatch(r"(.*?)( env.*?)?( type.*)?", line).groups(default="") for line in (lines[at], other))
        ends = [env_of_other + root, env + root_of_other, env_of_other + root_of_other]
        return self.ended([*lines[:at], rule + self.pick.choice(ends), *lines[at + 1:]])

    def change_by_twin(self, lines):
        """A node is doubled behind the others of its section, and one of its uses goes to the twin."""
        at = self.place(lines, "node")
        if at is None:
            return self.ended(lines)
        first = last = at
        while lines[first - 1].startswith("node "):
            first -= 1
        while last < len(lines) and lines[last].startswith("node "):
            last += 1
        end = lines.index("end", last) if "end" in lines[last:] else len(lines)
        changed = [*lines[:last], lines[at], *lines[last:]]
        users = [number for number in range(last + 1, end) if str(at - first) in changed[number].split(" ")[1:]]
        if users:
            number = self.pick.choice(users)
            words = changed[number].split(" ")
            chosen = self.pick.choice([each for each in range(1, len(words)) if words[each] == str(at - first)])
            words[chosen] = str(last - first)
            changed[number] = " ".join(words)
        return self.ended(changed)

    def change_line(self, lines):
        at, other = self.pick.randrange(len(lines)), self.pick.randrange(len(lines))
        chance = self.pick.randrange(5)
        if chance == 0:
            del lines[at]
        elif chance == 1:
            lines.insert(at, lines[at])
        elif chance == 2:
            lines[at], lines[other] = lines[other], lines[at]
        elif chance == 3:
            lines.insert(other, lines.pop(at))
        else:
            lines.insert(other, lines[at])
        return self.ended(lines)

    def change_order(self, lines):
        """Two lines that stand near each other change places."""
        at = self.pick.randrange(len(lines))
        other = min(len(lines) - 1, at + self.pick.randrange(1, 4))
        lines[at], lines[other] = lines[other], lines[at]
        return self.ended(lines)

    def change_pairs(self, lines):
        at = self.place(lines, "pair", "put")
        if at is None:
            return self.ended(lines)
        if self.pick.random() < 0.6:
            del lines[at]
        else:
            mode, nodes = self.pick.choice(["lr", "rl", "pp"]), [self.pick.randrange(12) for _ in range(2)]
            put = f"put {self.pick.randrange(4)} {nodes[0]}"
            lines.insert(at, self.pick.choice([f"pair {mode} {nodes[0]} {nodes[1]}", put]))
        return self.ended(lines)

    def change_let(self, lines):
        at = self.place(lines, "let")
        other = self.place(lines, "step")
        if at is None or other is None:
            return self.ended(lines)
        lines.insert(other, lines[at] if self.pick.random() < 0.2 else lines.pop(at))
        return self.ended(lines)

    def change_section(self, lines):
        starts = [at for at, line in enumerate(lines) if line.startswith("val ")]
        sections = [lines[at:to] for at, to in zip(starts, [*starts[1:], len(lines)])]
        if not sections:
            return self.ended(lines)
        front = lines[:starts[0]]
        at, other = self.pick.randrange(len(sections)), self.pick.randrange(len(sections))
        chance = self.pick.randrange(4)
        if chance == 0:
            del sections[at]
        elif chance == 1:
            sections.insert(other, sections[at])
        elif chance == 2:
            sections[at], sections[other] = sections[other], sections[at]
        else:
            foreign = self.pick.choice(self.others)
            begins = [number for number, line in enumerate(foreign) if line.startswith("val ")]
            if begins:
                begin = self.pick.choice(begins)
                end = min([number for number in begins if number > begin], default=len(foreign))
                sections[at:at + self.pick.randrange(2)] = [foreign[begin:end]]
        return self.ended([*front, *(line for section in sections for line in section)])

    def change_type(self, lines):
        def change(words):
            chance = self.pick.randrange(3)
            if chance == 0:
                words[3:] = [self.pick.choice(TYPES)]
            elif chance == 1:
                words[3:] = [self.pick.choice(["", "(", "\t"]), *words[3:], self.pick.choice(["", ")", "# c", "\r"])]
            else:
                words[1:2] = [self.pick.choice(["a", "v0", "v1", "v2", "int", "V", "", "a b", "#"])]

        return self.words(lines, change, "val")

    def change_byte(self, lines):
        text = self.ended(lines)
        at = self.pick.randrange(len(text))
        chance = self.pick.randrange(4)
        byte = self.pick.choice(" 0123456789abnpr\n\t\r#:" + chr(self.pick.randrange(256)))
        return text[:at] + {0: "", 1: byte, 2: byte + text[at], 3: text[at] * 2}[chance] + text[at + 1:]

    def change_end(self, lines):
        text = self.ended(lines)
        chance = self.pick.randrange(5)
        if chance == 0:
            return text[:-1]
        if chance == 1:
            return text[:self.pick.randrange(len(text))]
        if chance == 2:
            return self.ended(lines[:self.pick.randrange(len(lines))])
        return text + self.pick.choice(["\n", "end\n", " ", "derivation 1\n", "val a : int\nnode int\n", "let 0 0\n"])

    def change_all(self, lines):
        return self.ended(self.pick.choice(self.others))


def program_of(words):
    first, *others = shlex.split(words)
    return [os.path.abspath(first), *others]


def answer(program, name, folder):
    done = subprocess.run([*program, "verify", name], capture_output=True, cwd=folder, timeout=60)
    return done.stdout, done.returncode


def class_of(said, status):
    if status == 3 and said.endswith(b"fault 19: bad line\n"):
        return "bad line"
    return {0: "allowed", 9: "refused"}.get(status, f"status {status}")


def keep(kept, number, module):
    """Copies a module, its derivation and the interfaces beside it, and answers where to."""
    folder, name = os.path.split(module)
    target = os.path.join(kept, str(number))
    os.makedirs(target)
    for file in os.listdir(folder):
        if file.endswith(".mli") or file in (name + ".ml", name + ".mld"):
            shutil.copy(os.path.join(folder, file), target)
    return target


def modules_of(folder):
    """The modules that have derivations, each with its derivation."""
    texts = {}
    for path, _, files in sorted(os.walk(folder)):
        for file in sorted(files):
            name, ending = os.path.splitext(file)
            if ending == ".mld" and name + ".ml" in files:
                with open(os.path.join(path, file), encoding="latin-1", newline="") as text:
                    texts[os.path.join(path, name)] = text.read()
    return texts


def main():
    programs = [program_of(words) for words in sys.argv[1:3]]
    pick, count = random.Random(int(sys.argv[4])), int(sys.argv[5])
    kept = sys.argv[6] if len(sys.argv) > 6 else None
    folder = os.path.join(tempfile.mkdtemp(), "modules")
    shutil.copytree(sys.argv[3], folder)
    texts = modules_of(folder)
    changes = Changes(pick, [text.split("\n")[:-1] for text in texts.values()])
    modules, counts, differing = list(texts), collections.Counter(), 0
    for number in range(count):
        module = pick.choice(modules)
        with open(module + ".mld", "w", encoding="latin-1", newline="") as file:
            file.write(changes.apply(texts[module]))
        said = [answer(program, *reversed(os.path.split(module))) for program in programs]
        counts[class_of(*said[0])] += 1
        if said[0] != said[1]:
            differing += 1
            kept = kept or tempfile.mkdtemp()
            print("differ:", keep(kept, number, module), said, flush=True)
    print(f"{count} texts: " + ", ".join(f"{many} {what}" for what, many in sorted(counts.items())))
    print(f"{differing} differ")
    shutil.rmtree(os.path.dirname(folder))
    return 1 if differing else 0


if __name__ == "__main__":
    sys.exit(main())
