#!/usr/bin/env python3
"""Fails where the manual or the page on the language leaves out what the program has, or shows what it doesn't print.

The manual, with the page on the wire, has to name every command, refusal and status; the page on the language every operator and
function. The lists are read off the sources. An example in a page is a block that begins with `$ ./pool <<'END'`, or with `$ env` where it is
a program that uses the client; its lines up to END are run, and what follows in the block must be what is printed. But for the READMEs of crates each block
without a language is an example. A block of code in a crate's README has to stand to the letter, but for its indent, in a source of another
crate: mostly in a test, else in a crate above that makes the call.

pages.py          all of it; where the program isn't built from these sources, it fails and builds nothing
pages.py --words  all but the examples, which alone need the program
"""
import glob
import os
import re
import subprocess
import sys

TOP = os.path.dirname(os.path.dirname(os.path.abspath(__file__)))
EXAMPLE = re.compile(r"```\n\$ ((?:\./pool|env)[^\n]*) <<'END'\n(.*?)\nEND\n(.*?)```", re.S)
BLOCK = re.compile(r"^```(\w*)\n.*?^```$", re.S | re.M)
PAGES = ["README.md", "docs/MANUAL.md", "docs/WIRE.md", "docs/LANGUAGE.md", "examples/README.md", "clients/python/README.md"]
CODE = re.compile(r"```rust\n(.*?)\n```", re.S)
# How many words a crate's README has.
LEAST, MOST = 200, 900
# How many words README.md and docs/ have together, without the page that a program writes.
ALL = 15_000


def read(path):
    with open(os.path.join(TOP, path), encoding="utf-8") as file:
        return file.read()


def commands():
    return re.findall(r'\(b"([a-z]+)", Keyword::', read("crates/pool_script/src/keyword.rt"))


def refusals():
    """The lines of refusals, without the numbers and names that some of them end with."""
    texts = []
    for path in ("pool_replies/specs/Refusals.antt", "run_rules/specs/WireRules.antt"):
        texts += re.findall(r'codes "(refused \d+ [a-z ]+?)(?: ?\\n| )?"', read("crates/" + path))
    return texts


def events():
    """The first words of a schedule's lines."""
    return re.findall(r'codes "([a-z]+)"', read("crates/claim_wire/specs/Lines.antt"))


def statuses():
    return re.findall(r"=> (\d+),", read("crates/script_run/src/run_end.rt"))


def functions():
    return re.findall(r'\(codes "(\w+)", Function\.', read("crates/builtin_funcs/specs/Functions.antt"))


def operators():
    """The symbols of the language but for those that only group or divide."""
    table = read("crates/ad_lexer/specs/Symbols.antt")
    symbols = [it for it in re.findall(r'codes "([^"]+)"', table) if it not in ("(", ")", ";", ",", "=")]
    return symbols + ["is", "isnt"]


def missing():
    manual = read("docs/MANUAL.md") + read("docs/WIRE.md")
    language = re.sub(r"```.*?```", "", read("docs/LANGUAGE.md"), flags=re.S).replace("\\|", "|")
    spans = " ".join(re.findall(r"`([^`]+)`", language))
    for word in commands():
        if not re.search(rf"`{word}[ `]", manual):
            yield f"docs/MANUAL.md doesn't name the command `{word}`"
    for word in events():
        if not re.search(rf"`[^`]*\b{word}\b[^`]*`", manual):
            yield f"docs/MANUAL.md doesn't name `{word}` of a schedule"
    for text in refusals():
        if f"`{text}" not in manual:
            yield f"docs/MANUAL.md doesn't name the refusal `{text}`"
    for number in statuses():
        if not re.search(rf"^\| {number} \|", manual, re.M):
            yield f"docs/MANUAL.md doesn't name the status {number}"
    for name in functions():
        if f"`{name}(" not in language:
            yield f"docs/LANGUAGE.md doesn't name the function `{name}`"
    for symbol in operators():
        if symbol not in spans:
            yield f"docs/LANGUAGE.md doesn't name the operator `{symbol}`"


def crates():
    """The crates of this repository, in the order of crates.txt."""
    return [line.split(":")[0] for line in read("crates.txt").splitlines() if ":" in line and not line.startswith("#")]


def readmes():
    return [f"crates/{name}/README.md" for name in crates()]


def stands(block, lines):
    """Whether the lines of a block follow one another among these lines, all indented alike."""
    for start, line in enumerate(lines):
        if line.lstrip() != block[0].lstrip():
            continue
        indent = " " * (len(line) - len(block[0]))
        given = lines[start : start + len(block)]
        if given == [indent + it if it else it for it in block]:
            return True
    return False


def codes():
    """What is wrong with the READMEs of crates: one that lacks, is too short or too long, or has code that stands nowhere."""
    sources = {path: read(path).split("\n") for path in glob.glob("crates/*/src/**/*.rt", root_dir=TOP, recursive=True)}
    for name in crates():
        page = f"crates/{name}/README.md"
        if not os.path.exists(os.path.join(TOP, page)):
            yield f"{page} is missing"
            continue
        text = read(page)
        count = len(text.split())
        if not LEAST <= count <= MOST:
            yield f"{page} has {count} words, and not {LEAST} to {MOST}"
        own = () if name.endswith("_tests") else (f"crates/{name}/",)
        others = [lines for path, lines in sources.items() if not path.startswith(own or "-")]
        for block in CODE.findall(text):
            if not any(stands(block.split("\n"), lines) for lines in others):
                yield f"{page}: this code stands in no test and in no other crate:\n{block}"


def order():
    """What is wrong with the list of crates in the page on architecture: they stand as in crates.txt."""
    listed = re.findall(r"\]\(\.\./crates/(\w+)/README\.md\)", read("docs/ARCHITECTURE.md"))
    if listed != crates():
        yield "docs/ARCHITECTURE.md lists other crates than crates.txt, or in another order"


def size():
    pages = ["README.md"] + [f"docs/{name}" for name in os.listdir(os.path.join(TOP, "docs")) if name.endswith(".md") and name != "DEFINITIONS.md"]
    count = sum(len(read(page).split()) for page in pages)
    if count > ALL:
        yield f"README.md and docs/ have {count} words, and not {ALL} at most"


def not_run():
    """The blocks of pages that nothing runs."""
    for page in PAGES:
        for block in BLOCK.finditer(read(page)):
            if not block[1] and not EXAMPLE.fullmatch(block[0]):
                yield f"{page}: this block is no example, so nothing runs it:\n{block[0]}"


def is_built():
    return subprocess.run([os.path.join(TOP, ".ci/is_built")], check=False).returncode == 0


def examples():
    if not is_built():
        yield "the program isn't built from these sources, so no example was run: ./pool builds it"
        return
    for page in PAGES + readmes():
        for words, script, wanted in EXAMPLE.findall(read(page)):
            given = subprocess.run(words.split(), input=script + "\n", stdout=subprocess.PIPE, text=True, cwd=TOP, check=False)
            if given.stdout != wanted:
                yield f"{page}: an example prints something else:\n{script}\n-- it says\n{wanted}-- printed is\n{given.stdout}"


def main():
    wrong = list(missing()) + list(codes()) + list(order()) + list(size()) + list(not_run())
    if "--words" not in sys.argv:
        wrong += examples()
    for line in wrong:
        print(line)
    return 1 if wrong else 0


if __name__ == "__main__":
    sys.exit(main())
