#!/usr/bin/env python3
"""Runs the built program with each of its allocations refused in turn, from the first to the last, on the examples.

Each run has to end with status 6. What it wrote has to be the replies to some first commands of the script, each whole, and each mailbox
has to hold the notices of these commands, or of one command more. What first commands write and tell is read off runs of the first
lines of the script. A run that ends as the one with memory does is counted apart: what was refused was no memory of the run.

It wants a C compiler, with which it builds a library that counts the allocations of a program and refuses one of them; nothing of the
program is changed. At the end it writes a table: for each example how many allocations there are, and how the runs ended.
"""
import argparse
import glob
import os
import subprocess
import sys
import tempfile
from typing import NamedTuple, Optional

from measuring import PROGRAM, TOP

NAMES = sorted(os.path.basename(path)[: -len(".pool")] for path in glob.glob(f"{TOP}/examples/*.pool"))
# All but the large workload.
EXAMPLES = [name for name in NAMES if not name.startswith("workload")]

# Refuses the allocation whose number is in REFUSED, and tells at the end in the file COUNTED how many there were.
SHIM = r"""
#include <errno.h>
#include <stddef.h>
#include <stdio.h>
#include <stdlib.h>

static unsigned long count, refused;
static int begun;

static void begin(void) {
    begun = 1;
    const char *number = getenv("REFUSED");
    refused = number ? strtoul(number, 0, 10) : 0;
}

static int refuses(void) {
    if (!begun) begin();
    return ++count == refused;
}

extern void *__libc_malloc(size_t);
extern void *__libc_calloc(size_t, size_t);
extern void *__libc_realloc(void *, size_t);
extern void *__libc_memalign(size_t, size_t);

void *malloc(size_t n) { return refuses() ? (errno = ENOMEM, (void *)0) : __libc_malloc(n); }
void *calloc(size_t n, size_t size) { return refuses() ? (errno = ENOMEM, (void *)0) : __libc_calloc(n, size); }
void *realloc(void *p, size_t n) { return refuses() ? (errno = ENOMEM, (void *)0) : __libc_realloc(p, n); }
void *memalign(size_t a, size_t n) { return refuses() ? (errno = ENOMEM, (void *)0) : __libc_memalign(a, n); }
void *aligned_alloc(size_t a, size_t n) { return refuses() ? (errno = ENOMEM, (void *)0) : __libc_memalign(a, n); }
int posix_memalign(void **p, size_t a, size_t n) {
    if (refuses()) return ENOMEM;
    void *made = __libc_memalign(a, n);
    if (!made) return ENOMEM;
    *p = made;
    return 0;
}

__attribute__((destructor)) static void tell(void) {
    const char *path = getenv("COUNTED");
    unsigned long all = count;
    FILE *file = path ? fopen(path, "w") : 0;
    if (file) {
        fprintf(file, "%lu", all);
        fclose(file);
    }
}
"""


def read(path: str) -> bytes:
    with open(path, "rb") as file:
        return file.read()


class End(NamedTuple):
    """How a run ended, what it wrote, what each mailbox with a notice holds, and how many allocations there were."""

    status: int
    written: bytes
    boxes: dict[str, bytes]
    allocations: int

    def is_like(self, other: "End") -> bool:
        return self[:3] == other[:3]


class Example:
    """A script with the words beside it; `{mail}` in them is a folder of its own for each run."""

    def __init__(self, name: str, program: str, shim: str, folder: str) -> None:
        self.name = name
        self.program = program
        self.shim = shim
        self.folder = folder
        path = os.path.join(TOP, "examples", name)
        self.words = read(f"{path}.words").decode().split() if os.path.exists(f"{path}.words") else []
        self.script = read(f"{path}.pool")

    def run(self, refused: int, script: bytes) -> End:
        """Runs the program on a script, with the allocation of this number refused, or none where that is 0."""
        with tempfile.TemporaryDirectory(dir=self.folder) as mail:
            counted = os.path.join(self.folder, "counted")
            environment = {**os.environ, "LD_PRELOAD": self.shim, "REFUSED": str(refused), "COUNTED": counted}
            words = [word.replace("{mail}", mail) for word in self.words]
            ran = subprocess.run([self.program, *words], input=script, capture_output=True, env=environment, timeout=120)
            taken = {box: read(os.path.join(mail, box)) for box in sorted(os.listdir(mail))}
            return End(ran.returncode, ran.stdout, {box: notices for box, notices in taken.items() if notices}, int(read(counted)))

    def fronts(self, whole: End) -> list[tuple[bytes, dict[str, bytes]]]:
        """What may be written and told: for each front of the commands their replies, with their notices or those of one more."""
        lines = self.script.splitlines(keepends=True)
        ends = [self.run(0, b"".join(lines[:count])) for count in range(len(lines) + 1)]
        # (a run that is cut within a block writes a refusal that the whole one doesn't)
        fronts = [(end.written, end.boxes) for end in ends if whole.written.startswith(end.written)]
        return fronts + [(written, boxes) for (written, _), (_, boxes) in zip(fronts, fronts[1:])]

    def refuse(self, most: Optional[int]) -> tuple[str, list[str]]:
        """Refuses the allocations in turn: a row of the table, and what went wrong."""
        whole = self.run(0, self.script)
        count = whole.allocations
        fronts = self.fronts(whole)
        every = 1 if most is None else max(1, count // most)
        ends = {number: self.run(number, self.script) for number in range(1, count + 1, every)}
        wanting = {number: end for number, end in ends.items() if not end.is_like(whole)}
        wrong = [f"{self.name}: allocation {number}: status {end.status} in place of 6" for number, end in wanting.items() if end.status != 6]
        wrong += [
            f"{self.name}: allocation {number}: replies and notices aren't those of a front of the commands"
            for number, end in wanting.items()
            if (end.written, end.boxes) not in fronts
        ]
        row = [f"`{self.name}`", f"{count:,}", f"{len(ends):,}", f"{sum(end.status == 6 for end in wanting.values()):,}", f"{len(ends) - len(wanting):,}"]
        return f"| {' | '.join(row)} |", wrong


def main() -> None:
    parser = argparse.ArgumentParser(description=__doc__, formatter_class=argparse.RawDescriptionHelpFormatter)
    parser.add_argument("examples", nargs="*", metavar="EXAMPLE", help="a file in examples/, without its ending; all but the large workload")
    parser.add_argument("--program", default=PROGRAM, help="the program that runs (default: the built one)")
    parser.add_argument("--most", type=int, help="try about so many numbers of each example, spread over all")
    asked = parser.parse_args()
    if not os.path.exists(asked.program):
        sys.exit("build the program first: ./pool </dev/null")
    failed = []
    print("| Example | Allocations | Refused in turn | Ended with status 6 | Did without |\n|---|---|---|---|---|")
    with tempfile.TemporaryDirectory() as folder:
        source, shim = os.path.join(folder, "refuse.c"), os.path.join(folder, "refuse.so")
        with open(source, "w", encoding="ascii") as file:
            file.write(SHIM)
        subprocess.run(["cc", "-O1", "-shared", "-fPIC", "-fno-builtin", "-o", shim, source], check=True)
        for name in asked.examples or EXAMPLES:
            row, wrong = Example(name, asked.program, shim, folder).refuse(asked.most)
            print(row, flush=True)
            failed += wrong
    for line in failed[:50]:
        print(line)
    sys.exit(1 if failed else 0)


if __name__ == "__main__":
    main()
