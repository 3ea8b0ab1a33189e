#!/usr/bin/env python3
"""Lists what stands in the folders of proofs though nothing cites it, and the imports of specs/ and proofs/ that nothing uses.

It begins with what the checker asks for, the answers to goals and the invariants of loops, and with what sources and specs/ name of proofs/,
and follows each name to what that cites. A lemma, or a definition of proofs/, that isn't reached is listed; where others that aren't reached
name it, the first of them stands behind it. An import is used where its name stands elsewhere in the file, an operator's where its parts do.

citations.py           prints both lists, a place and a name a line, and how long they are
citations.py --strict  fails too where a list isn't empty
"""
import glob
import os
import re
import sys

TOP = os.path.dirname(os.path.dirname(os.path.abspath(__file__)))
DEFINITION = re.compile(r"((?:(?:abbrev|unfoldable|opaque|pub|data|record) )*)([^\s(){}:,;.]+)(?= :| \(| \{|$)")
# Files that answer what the checker asks for, and what the types of such answers have.
ASKED = ("/Answers.antt", "/Invariants.antt", "/Proof.antt")
ANSWER = re.compile(r": goal\.|→ statement M$")


def read(path):
    with open(os.path.join(TOP, path), encoding="utf-8") as file:
        return file.read().split("\n")


def found(pattern):
    return sorted(glob.glob(pattern, root_dir=TOP, recursive=True))


def bare(line, mark):
    """A line without what stands in quotes, and without its comment."""
    return re.sub(rf"(^|\s){mark}.*$", "", re.sub(r'"(?:[^"\\]|\\.)*"', '""', line))


def words_of(text):
    """The names that a text cites: of a name with dots its first part, and its first two, as those behind an alias."""
    words = set()
    for whole in re.split(r"[\s(){},;]+", text):
        parts = [part for part in whole.split(".") if part]
        words.update(parts[:1])
        if len(parts) > 1:
            words.add(".".join(parts[:2]))
    return words


def is_used(name, words):
    """Whether an imported name is among the words, as an operator's is too where each of its parts is."""
    return name in words or all(part in words for part in name.split("◌") if part)


def file_of(base):
    """The file at a dotted path of this repository, which may not be there."""
    parts = base.split(".")
    return f"crates/{parts[1]}/{'/'.join(parts[2:])}.antt" if len(parts) > 3 and parts[0] == "Rattle" else ""


class Item:
    """What is defined under a name, the names that stand within it (fields and builders), and the words of its text."""

    def __init__(self, path, line, name, is_asked):
        self.path, self.line, self.name, self.is_asked = path, line, name, is_asked
        self.parts, self.words = set(), set()


class Module:
    """A file of definitions and lemmas: its imports by their names here, its aliases, its items, and the words outside of all."""

    def __init__(self, path):
        self.path, self.imports, self.aliases, self.items, self.rest = path, {}, {}, {}, set()
        # The indents at which definitions stand: those of the file, and of the modules and mutual blocks around the place.
        self.levels, self.owner = [0], None
        for at, line in enumerate(read(path), 1):
            line = bare(line, "--")
            if line.startswith("use "):
                self.read_import(at, line)
            elif line.strip() and not re.match(r"(pub )?mod ", line):
                self.read_line(at, line)
        self.parts = {part: item for item in self.items.values() for part in item.parts}

    def read_import(self, at, line):
        if many := re.match(r"use (\S+?)\.\{(.*)\}", line):
            for one in many[2].split(","):
                given = one.strip().split(" as ")
                self.imports[given[-1]] = (many[1], given[0], at)
        elif alias := re.match(r"use (\S+) as (\S+)", line):
            self.aliases[alias[2]] = (alias[1], at)

    def read_line(self, at, line):
        indent = len(line) - len(line.lstrip())
        while self.levels[-1] > indent:
            self.levels.pop()
        if re.match(r" *(?:(?:abbrev|unfoldable) )?(module|mutual)\b", line):
            self.levels.append(indent + 2)
            self.owner = None
            self.rest |= words_of(line)
            return
        if indent == self.levels[-1]:
            self.begin(at, line.strip())
        elif self.owner and (part := re.match(r" +(?:pub )?([^\s(){}:,;.]+) : ", line)):
            self.owner.parts.add(part[1])
        (self.owner.words if self.owner else self.rest).update(words_of(line))

    def begin(self, at, line):
        """A line at the indent of definitions begins one, or gives an equation of one that was begun."""
        head = DEFINITION.match(line)
        if not head or line.startswith("unfolding "):
            return
        is_head = head[1] or line[head.end() :].startswith(" :")
        if is_head:
            self.items[head[2]] = self.owner = Item(self.path, at, head[2], self.path.endswith(ASKED) and ANSWER.search(line) is not None)
        elif head[2] in self.items:
            self.owner = self.items[head[2]]

    def own(self, name):
        return self.items.get(name) or self.parts.get(name)

    def words(self):
        return self.rest.union(*(item.words for item in self.items.values()))

    def cited(self, words):
        """The items of this repository that these words name, as they stand in this file."""
        for word in words:
            first, _, second = word.partition(".")
            if second and first in self.aliases:
                module = MODULES.get(file_of(self.aliases[first][0]))
                target = module and module.own(second)
            elif second:
                continue
            elif first in self.imports:
                module = MODULES.get(file_of(self.imports[first][0]))
                target = module and module.own(self.imports[first][1])
            else:
                target = self.own(first)
            if target:
                yield target

    def unused(self):
        """The imports and aliases that nothing here uses, each with its line."""
        words = self.words()
        for name, (_, _, at) in self.imports.items():
            if not is_used(name, words):
                yield at, name
        firsts = {word.split(".")[0] for word in words}
        for name, (_, at) in self.aliases.items():
            if name not in firsts:
                yield at, name


MODULES = {}


def named_in_source(path):
    """The items of proofs that a source names: by an import that it uses, or by a path."""
    whole = "\n".join(bare(line, "//") for line in read(path))
    rest = re.sub(r"ghost use [^;]*;", "", whole)
    words = words_of(re.sub(r"[\[\]<>&]|::", " ", rest))
    crate = path.split("/")[1]
    for base, names in re.findall(r"ghost use (Rattle\.[\w.+-]+?\.proofs\.[\w.+-]+?)\.\{([^}]*)\};", whole):
        for one in names.split(","):
            given = one.strip().split(" as ")
            if given[-1] in words:
                yield file_of(base), given[0]
    for owner, inner, name in re.findall(r"(\w+)::proofs::((?:[\w+]+::)*)([^\s(){},;:]+)", whole):
        yield f"crates/{crate if owner == 'crate' else owner}/proofs/{inner.replace('::', '/')[:-1]}.antt", name


def roots():
    for module in MODULES.values():
        yield from module.cited(module.rest)
        for item in module.items.values():
            if item.is_asked or "/specs/" in module.path:
                yield item
    for path in found("crates/*/src/**/*.rt"):
        for file, name in named_in_source(path):
            if file in MODULES and (item := MODULES[file].own(name)):
                yield item


def reached():
    """The places of all items that are reached from the roots."""
    waiting, seen = list(roots()), set()
    while waiting:
        item = waiting.pop()
        if (item.path, item.line) not in seen:
            seen.add((item.path, item.line))
            waiting += MODULES[item.path].cited(item.words)
    return seen


def uncited():
    """Each item of proofs/ that isn't reached, with the first other that names it, if there is one."""
    seen = reached()
    left = [item for module in MODULES.values() for item in module.items.values() if (item.path, item.line) not in seen]
    citing = {}
    for item in left:
        for target in MODULES[item.path].cited(item.words):
            if target is not item:
                citing.setdefault((target.path, target.line), item)
    for item in left:
        yield item, citing.get((item.path, item.line))


def main():
    for path in found("crates/*/specs/**/*.antt") + found("crates/*/proofs/**/*.antt"):
        MODULES[path] = Module(path)
    lemmas = list(uncited())
    imports = [(module.path, at, name) for module in MODULES.values() for at, name in module.unused()]
    for item, other in lemmas:
        print(f"{item.path}:{item.line}: `{item.name}` is cited by " + (f"`{other.name}` alone, which is cited by nothing" if other else "nothing"))
    for path, at, name in imports:
        print(f"{path}:{at}: `{name}` is imported, and nothing uses it")
    print(f"citations.py: {len(lemmas)} lemmas that nothing cites, {len(imports)} imports that nothing uses")
    return 1 if "--strict" in sys.argv and (lemmas or imports) else 0


if __name__ == "__main__":
    sys.exit(main())
