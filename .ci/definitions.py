#!/usr/bin/env python3
"""Writes docs/DEFINITIONS.md: all that has to be believed of the contracts of `run_pool` and of the public laws.

From their clauses it follows each name to its definition, and from there on, until nothing is left: definitions of specs/ (and what of
proofs/ they reach), and types and traits of src/, by what contracts see of them. A lemma is followed by what it states alone. Names of the
standard library and of the kit's crates end the way. A law is a public function that gives nothing and changes nothing.

definitions.py           fails where the page isn't what would be written, and warns of definitions without a comment
definitions.py --write   writes the page
definitions.py --strict  fails too where a definition has no comment, or stands in a folder of proofs
definitions.py --list    prints the definitions without a comment, and those in a folder of proofs, one a line
"""
import glob
import os
import re
import sys

TOP = os.path.dirname(os.path.dirname(os.path.abspath(__file__)))
PAGE = os.path.join(TOP, "docs/DEFINITIONS.md")
# A definition, a type or a law of so many lines is shown whole.
SHORT = 4
NAME = r"[A-Za-z_◌][\w◌'-]*"
TOKEN = re.compile(rf"(?<![\w'.◌-])({NAME}(?:\.{NAME})*)")
HEAD = re.compile(rf"^( *)(?:(?:abbrev|unfoldable|opaque) )?(?:pub )?(?:(data|record) )?({NAME})(?= [:({{]|$)")
RUST_TYPE = re.compile(r"^pub(?:\([a-z]+\))? (struct|enum|trait|type) (\w+)")
RUST_FUNCTION = re.compile(r"^( *)pub fn (\w+)")


def read(path):
    with open(os.path.join(TOP, path), encoding="utf-8") as file:
        return file.read().split("\n")


class Item:
    """A definition, or several that are defined together; a type or a trait; a public function."""

    def __init__(self, path, line, names, comment, text):
        self.path, self.line, self.names, self.comment, self.text = path, line, names, comment, text
        self.builders, self.is_lemma = set(), False

    def key(self):
        return self.path, self.line


# ---- definitions


def comment_above(lines, at, mark):
    """The comment that ends in the line above, as one text."""
    first = at
    while first > 0 and lines[first - 1].lstrip().startswith(mark) and not lines[first - 1].lstrip().startswith(mark + " ----"):
        first -= 1
    return " ".join(line.strip()[len(mark) :].strip() for line in lines[first:at])


class Module:
    """A file of definitions: what it defines, and what its names from elsewhere are."""

    def __init__(self, path):
        self.path, self.items, self.imports, self.aliases = path, [], {}, {}
        self.lines = read(path)
        self.read_imports()
        self.read_items()
        self.names = {name: item for item in self.items for name in item.names}
        self.builders = {name: item for item in self.items for name in item.builders}

    def read_imports(self):
        for line in self.lines:
            if not line.startswith("use "):
                continue
            if many := re.match(r"use ([\w.-]+)\.\{(.*)\}", line):
                for one in many[2].split(","):
                    given = one.strip().split(" as ")
                    self.imports[given[-1].strip()] = (many[1], given[0].strip())
            elif alias := re.match(r"use ([\w.-]+) as (\w+)", line):
                self.aliases[alias[2]] = alias[1]

    def read_items(self):
        at = 0
        while at < len(self.lines):
            line = self.lines[at]
            if re.match(r"(abbrev |unfoldable )?mutual$", line):
                at = self.read_block(at)
            elif line.startswith("module "):
                at += 1
            elif (head := HEAD.match(line)) and not line.startswith(("use ", "--", "mod ", "pub mod ")) and len(head[1]) in (0, 2):
                at = self.read_item(at, head)
            else:
                at += 1

    def read_item(self, at, head):
        """An item goes on in deeper lines, and in those that begin with its name."""
        end, last = at + 1, at
        while end < len(self.lines):
            line = self.lines[end]
            deeper = line.startswith(head[1] + "  ")
            same = re.match(rf"{head[1]}{re.escape(head[3])}(?![\w'-])", line)
            if line and not deeper and not same and not line.startswith("unfolding "):
                break
            last = end if line else last
            end += 1
        text = self.lines[at : last + 1]
        is_lemma = "/proofs/" in self.path and not head[2] and not head[0].lstrip().startswith(("abbrev", "unfoldable"))
        self.add(at, [head[3]], text[:1] if is_lemma else text, head[2])
        self.items[-1].is_lemma = is_lemma
        return end

    def read_block(self, at):
        end, last = at + 1, at
        while end < len(self.lines) and (not self.lines[end] or self.lines[end].startswith("  ")):
            last = end if self.lines[end] else last
            end += 1
        heads = [at + i for i, line in enumerate(self.lines[at : last + 1]) if i and re.match(r"  \S.* :( |$)", line) and HEAD.match(line)]
        apart = [comment_above(self.lines, head, "--") for head in heads]
        if not any(apart):
            text = self.lines[at : last + 1]
            names = [HEAD.match(self.lines[head])[3] for head in heads]
            self.add(at, list(dict.fromkeys(names)), text, "data" if any("data " in line for line in text) else None)
            return end
        for head, after in zip(heads, heads[1:] + [last + 1]):
            text = self.lines[head:after]
            while not text[-1] or text[-1].startswith("  --"):
                text.pop()
            found = HEAD.match(self.lines[head])
            self.add(head, [found[3]], text, found[2])
        return end

    def add(self, at, names, text, kind):
        item = Item(self.path, at + 1, names, comment_above(self.lines, at, "--"), text)
        if kind == "data":
            left = " ".join(line.split(" : ")[0] for line in text[1:] if " : " in line)
            item.builders = set(re.findall(NAME, left)) - set(names) - {"pub", "data"}
        self.items.append(item)


def bound_names(text, is_builder):
    """The names that a piece of a definition binds: patterns, parameters, and what λ and let name."""
    names = set()
    for group in re.findall(r"λ ([^.]*)\.|let ([\w']+) =", text):
        names |= set(re.findall(NAME, " ".join(group)))
    for group in re.findall(rf"[({{]((?:{NAME} )+):", text):
        names |= set(group.split())
    return {name for name in names if not is_builder(name)}


def pieces(item):
    """Each equation of an item with the text of its patterns, and all else with none."""
    names = "|".join(re.escape(name) for name in item.names)
    current, patterns = [], ""
    for line in item.text + ["\0"]:
        equation = re.match(rf" *(?:{names})(?![\w'-])(?! *:)", line) if not HEAD.match(line) or " :" not in line else None
        if equation or line == "\0":
            whole = "\n".join(current)
            if patterns:
                left, _, right = re.sub(r"^ *\S+", "", whole, count=1).partition(" =")
                yield left, right
            else:
                yield "", whole
            current, patterns = [], "x"
        current.append(line)


def cited(item, module):
    """The names that an item cites, in order, without those that it binds itself."""
    is_builder = lambda name: name in module.builders or is_type_part(module.imports.get(name))
    for left, right in pieces(item):
        left, right = (re.sub(r"--.*", "", re.sub(r'"[^"]*"', "", text)) for text in (left, right))
        bound = {name for name in re.findall(NAME, left) if not is_builder(name)} | bound_names(right, is_builder)
        fields = set(re.findall(rf"^ +pub ({NAME}) :", right, re.M)) if not item.builders else set()
        whole = left + "\n" + right
        for found in TOKEN.finditer(whole):
            word = found[1]
            is_field = re.match(r" =(?!=)", whole[found.end() :])
            if word.split(".")[0] not in bound | fields and not is_field:
                yield word


def is_type_part(source):
    """Whether an imported name builds a value of some type: such a name in a pattern binds nothing."""
    if not source:
        return False
    path, name = source
    if ".declared." in path or not path.startswith("Rattle."):
        return True
    module = module_at(path)
    return bool(module and name in module.builders) or path.startswith("Rattle.std")


MODULES = {}


def module_at(path):
    """The file of definitions at a dotted path of this repository."""
    parts = path.split(".")
    if len(parts) < 4 or parts[0] != "Rattle" or parts[2] not in ("specs", "proofs") or parts[3] == "declared":
        return None
    name = f"crates/{parts[1]}/{parts[2]}/{'/'.join(parts[3:])}.antt"
    if name not in MODULES:
        MODULES[name] = Module(name) if os.path.exists(os.path.join(TOP, name)) else None
    return MODULES[name]


# ---- types, traits and functions of the code


class Source:
    """A file of code: its types and traits, its public functions, and what its names from elsewhere are."""

    def __init__(self, path):
        self.path, self.items, self.ghosts, self.ghost_aliases, self.imports = path, {}, {}, {}, {}
        self.lines = read(path)
        self.crate = path.split("/")[1]
        whole = "\n".join(self.lines)
        for base, many, alias in re.findall(r"ghost use ([\w.-]+?)(?:\.\{([^}]*)\}| as (\w+));", whole):
            if alias:
                self.ghost_aliases[alias] = base
            for one in filter(None, (it.strip() for it in many.split(","))):
                given = one.split(" as ")
                self.ghosts[given[-1].strip()] = (base, given[0].strip())
        for base, many, one in re.findall(r"^use ([\w:]+?)(?:::\{([^}]*)\}|::(\w+));", whole, re.M):
            crate = base.split("::")[0]
            for name in re.findall(r"\w+", many or one):
                self.imports[name] = self.crate if crate == "crate" else crate
        for at, line in enumerate(self.lines):
            if found := RUST_TYPE.match(line):
                self.items[found[2]] = self.item(at, found[2])

    def item(self, at, name):
        end = at
        while not self.lines[end].startswith("}") and not (end == at and self.lines[end].endswith(";")):
            end += 1
        above = at
        while above > 0 and self.lines[above - 1].startswith("#["):
            above -= 1
        return Item(self.path, at + 1, [name], comment_above(self.lines, above, "///"), self.lines[at : end + 1])

    def functions(self):
        """Each public function with its owner, its comment, its head and its clauses."""
        owner = ""
        for at, line in enumerate(self.lines):
            if block := re.match(r"impl(?:<.*?>)? (?:.* for )?(\w+)", line):
                owner = block[1]
            if found := RUST_FUNCTION.match(line):
                end = at
                while not re.match(r" *\{\}?$", self.lines[end]) and not (self.lines[end].endswith("{") and "{ " not in self.lines[end]):
                    end += 1
                above = at
                while above > 0 and self.lines[above - 1].lstrip().startswith("#["):
                    above -= 1
                name = f"{owner}::{found[2]}" if found[1] else found[2]
                yield Item(self.path, at + 1, [name], comment_above(self.lines, above, "///"), [it for it in self.lines[at : max(end, at + 1)] if not it.strip().startswith("//")])


SOURCES = {}


def source_at(path):
    if path not in SOURCES:
        SOURCES[path] = Source(path) if os.path.exists(os.path.join(TOP, path)) else None
    return SOURCES[path]


def sources_of(crate):
    paths = sorted(glob.glob(f"crates/{crate}/src/**/*.rt", root_dir=TOP, recursive=True))
    return [source_at(path) for path in paths]


def type_named(crate, name):
    return next((source.items[name] for source in sources_of(crate) if name in source.items), None)


def seen_of_type(item):
    """What contracts see of a type, as text: its public parts, and its view; of a trait all."""
    source = source_at(item.path)
    name = item.names[0]
    if " trait " in item.text[0] or " enum " in item.text[0] or " type " in item.text[0]:
        parts = list(item.text)
    else:
        parts = [item.text[0]] + [line for line in item.text[1:] if line.strip().startswith("pub ")]
    inside = False
    for line in source.lines:
        if re.match(rf"impl.*\bModel for {name}\b", line):
            inside = True
        elif line.startswith("}"):
            inside = False
        elif inside and re.match(r" +ghost (Value|view) =", line):
            parts.append(line)
    return "\n".join(re.sub(r"//.*", "", part) for part in parts)


# ---- what a name is


def resolved(base, name):
    """The item of a name of a dotted path, if it is of this repository."""
    parts = base.split(".")
    if len(parts) < 3 or parts[0] != "Rattle" or not os.path.isdir(os.path.join(TOP, "crates", parts[1])):
        return None
    if len(parts) > 4 and parts[3] == "declared":
        owner = next((part for part in parts[4:] if part[0].isupper()), name)
        return type_named(parts[1], owner)
    module = module_at(base)
    return (module.names.get(name) or module.builders.get(name)) if module else None


def needs(item):
    """The items that an item cites, in order."""
    if item.path.endswith(".antt"):
        module = module_at("Rattle." + item.path[len("crates/") : -len(".antt")].replace("/", "."))
        words = cited(item, module)
        local = lambda name: module.names.get(name) or module.builders.get(name)
        return ordered(item, words, module.imports, module.aliases, local)
    source = source_at(item.path)
    is_type = RUST_TYPE.match(item.text[0])
    text = seen_of_type(item) if is_type else "\n".join(item.text)
    words = [found[1] for found in TOKEN.finditer(re.sub(r'"[^"]*"', "", text))]
    local = lambda name: type_named(source.crate, name) if name in source.items else imported_type(source, name)
    return ordered(item, words, source.ghosts, source.ghost_aliases, local)


def imported_type(source, name):
    crate = source.imports.get(name)
    return type_named(crate, name) if crate and os.path.isdir(os.path.join(TOP, "crates", crate)) else None


def ordered(item, words, imports, aliases, local):
    found = []
    for word in words:
        first, _, rest = word.partition(".")
        if first in aliases:
            target = resolved(aliases[first], rest.split(".")[0])
        elif first in imports:
            target = resolved(*imports[first])
        else:
            target = local(first)
        if target and target is not item and target not in found:
            found.append(target)
    return found


def reached(roots, known):
    """All that the roots need, nearest first, without what is known."""
    waiting, found = list(roots), []
    seen = {it.key() for it in roots} | {it.key() for it in known}
    while waiting:
        for item in needs(waiting.pop(0)):
            if item.key() not in seen:
                seen.add(item.key())
                waiting.append(item)
                found += [] if item.is_lemma else [item]
    return found


# ---- the roots


def crates():
    with open(os.path.join(TOP, "crates.txt"), encoding="utf-8") as file:
        return [line.split(":")[0] for line in file if ":" in line and not line.startswith("#")]


def exported(crate):
    root = source_at(f"crates/{crate}/src/lib.rt")
    text = "\n".join(root.lines) if root else ""
    return set(re.findall(r"\w+", " ".join(re.findall(r"pub use ([^;]*);", text, re.S)))) | set(re.findall(r"^pub fn (\w+)", text, re.M))


def laws():
    """The public functions that give nothing and change nothing, of the highest crates first."""
    for crate in reversed(crates()):
        names = exported(crate)
        for source in sources_of(crate):
            for item in source.functions():
                head, clauses, _ = " ".join(line.strip() for line in item.text).partition(" ensures ")
                if clauses and "->" not in head and "&mut" not in head and " self" not in head.replace("&self", "") and item.names[0].split("::")[0] in names:
                    yield item


def run_pool():
    return next(it for it in source_at("crates/pool_engine/src/run.rt").functions() if it.names == ["run_pool"])


# ---- the page


def names_of(item):
    return ", ".join(f"`{name}`" for name in item.names)


def entry(item):
    text = seen_of_type(item).split("\n") if item.path.endswith(".rt") else item.text
    text = [line.rstrip() for line in text if line.strip()]
    yield f"**{names_of(item)}** (line {item.line}): {item.comment or 'no comment.'}"
    yield ""
    if 1 < len(text) <= SHORT:
        yield from ("    " + line for line in text)
        yield ""


def by_file(items):
    files = {}
    for item in items:
        files.setdefault(item.path, []).append(item)
    for path, found in files.items():
        title = module_title(path)
        yield f"### `{path[len('crates/'):]}`"
        yield ""
        if title:
            yield title
            yield ""
        for item in sorted(found, key=lambda it: it.line):
            yield from entry(item)


def module_title(path):
    """The comment with which a file begins."""
    lines = read(path)
    end = next((i for i, line in enumerate(lines) if not line.startswith(("--", "//"))), 0)
    return " ".join(line.lstrip("-/! ").strip() for line in lines[:end])


def page(headline, needed, law_list, besides):
    count = sum(len(it.names) for it in needed + besides)
    files = len({it.path for it in needed + besides})
    yield "# Definitions"
    yield ""
    yield "This page is written by `.ci/definitions.py --write`, from the sources; the gate fails where it isn't what that would write."
    yield ""
    yield (
        f"It has all that the contract of `run_pool` and the public laws rest on: {count:,} definitions and types in {files} files, "
        "nearest to the headline first. That is what a reader has to believe; everything else is proved from it. Each stands with what it "
        "says, its file and its line, and whole where it is short. What a name means that stands here with none of these is said by the "
        "standard library or the kit's crates. Paths are below `crates/`."
    )
    yield ""
    yield "## The headline"
    yield ""
    yield f"`run_pool` (`{headline.path[len('crates/'):]}`, line {headline.line}). {headline.comment}"
    yield ""
    yield from ("    " + line for line in headline.text if line.strip())
    yield ""
    yield "## What the headline rests on"
    yield ""
    yield from by_file(needed)
    yield "## The public laws"
    yield ""
    for item in law_list:
        yield f"- `{item.names[0]}` (`{item.path[len('crates/'):]}`, line {item.line}): {item.comment or 'no comment.'}"
    yield ""
    yield "## What the laws rest on besides"
    yield ""
    yield from by_file(besides)


def main():
    headline, law_list = run_pool(), list(laws())
    needed = reached([headline], [])
    besides = reached(law_list, needed)
    text = "\n".join(page(headline, needed, law_list, besides)).rstrip() + "\n"
    if "--write" in sys.argv:
        with open(PAGE, "w", encoding="utf-8") as file:
            file.write(text)
    silent = [it for it in needed + besides + law_list if not it.comment]
    in_proofs = [it for it in needed + besides if "/proofs/" in it.path]
    if "--list" in sys.argv:
        for it in silent:
            print(f"{it.path}:{it.line}: {names_of(it)} has no comment")
        for it in in_proofs:
            print(f"{it.path}:{it.line}: {names_of(it)} stands in a folder of proofs")
    elif silent or in_proofs:
        print(f"definitions.py: {len(silent)} definitions have no comment, and {len(in_proofs)} stand in a folder of proofs (--list tells which)")
    wrong = not os.path.exists(PAGE) or open(PAGE, encoding="utf-8").read() != text
    if wrong:
        print("docs/DEFINITIONS.md isn't what .ci/definitions.py --write would write")
    return 1 if wrong or ("--strict" in sys.argv and (silent or in_proofs)) else 0


if __name__ == "__main__":
    sys.exit(main())
