#!/usr/bin/env python3
"""Proves and builds the program of this checkout, and tells on standard error of each crate as it begins and ends.

Each crate is proved and built into its library by the compiler of the kit, once the libraries that it stands on are built: as many side by
side as processors and memory allow, first those with the longest chain of crates behind them, on as many processors as the others leave. A
library stands in its crate's out/rlib/ with the sum of all that it was made from, so a build that was broken off goes on where it stopped, and
a change builds what stands on it anew. It ends with status 0 where the program stands, and with 70, after one sentence that says what to
do, where it can't be built.
"""

import functools
import hashlib
import os
import re
import shutil
import signal
import subprocess
import sys
import tempfile
import time

TOP = os.path.dirname(os.path.dirname(os.path.realpath(__file__)))
PROGRAM = "classad_pool"
TARGET = "x86_64-unknown-linux-gnu"
# What the largest proof takes of memory, what each more beside it may take, and what a build takes of the disk, in bytes.
MEMORY, BESIDE, DISK = 4_000_000_000, 2_500_000_000, 6_000_000_000
# How many processors a proof can use at most.
JOBS = 4
KEPT = "what is proved so far stays"


class Stopped(Exception):
    """The build can't go on; the text says what to do."""


def say(text):
    print(f"pool: {text}", file=sys.stderr, flush=True)


def read(path):
    with open(path, "rb") as file:
        return file.read()


@functools.lru_cache(maxsize=None)
def kit():
    """The folder of the toolchain, where its first page stands."""
    if not shutil.which("rt"):
        raise Stopped("the command rt of the Rattle kit is not in the path: add the kit's folder bin/ to PATH, and start again")
    page = subprocess.run(["rt", "doc"], stdin=subprocess.DEVNULL, capture_output=True, text=True, check=True).stdout
    return os.path.dirname(page.strip())


@functools.lru_cache(maxsize=None)
def lines():
    """The libraries of each crate, as crates.txt has them."""
    text = re.sub(r"#.*", "", read(f"{TOP}/crates.txt").decode())
    return {name.strip(): below.split() for name, _, below in (it.partition(":") for it in text.split("\n") if ":" in it)}


@functools.lru_cache(maxsize=None)
def below(name):
    """The crates of this repository that a crate stands on, near or far."""
    near = [it for it in lines()[name] if it in lines()]
    return sorted({*near, *[far for it in near for far in below(it)]})


@functools.lru_cache(maxsize=None)
def sum_of(name):
    """A sum of all that a crate's proof reads: the kit, its own files and its line of crates.txt, and the same of those below."""
    found = hashlib.sha256(read(f"{kit()}/KIT-ID") + repr((name, lines()[name])).encode())
    for part in ("src", "specs", "proofs"):
        for at, folders, names in os.walk(f"{TOP}/crates/{name}/{part}"):
            folders.sort()
            for it in sorted(names):
                found.update(f"{at}/{it}".removeprefix(TOP).encode() + read(f"{at}/{it}"))
    for it in below(name):
        found.update(sum_of(it).encode())
    return found.hexdigest()


def out(name):
    return f"{TOP}/crates/{name}/out"


def library(name):
    return f"{out(name)}/rlib/{name}.rlib"


def is_built(name):
    """Whether the crate's library stands there, made from the sources as they are."""
    at = f"{out(name)}/rlib/made_from"
    return os.path.isfile(at) and read(at).decode() == sum_of(name)


def words_of(name, jobs):
    """The words of the compiler that say what a crate is and stands on."""
    words = ["--crate-name", name, "src/main.rt" if name == PROGRAM else "src/lib.rt", "--links", f"{name}=", "--jobs", str(jobs)]
    words += ["--antt-project", f"{kit()}/rattle/logic/antt-project.json", "--logic-built", f"{kit()}/logic_built"]
    of_kit = sorted({"std", *[it for it in lines()[name] if it not in lines()]})
    for it in of_kit:
        words += ["--extern", f"{it}={kit()}/rlibs/{it}.rlib"]
    for it in lines()[name]:
        words += ["--extern", f"{it}={library(it)}"] * (it in lines())
    for at in [f"{kit()}/rlibs", *[os.path.dirname(library(it)) for it in below(name)]]:
        words += ["-L", f"dependency={at}"]
    return words


def commands_of(name, jobs):
    """The commands that prove a crate, and build its library or the program."""
    words, rattle = words_of(name, jobs), f"{kit()}/bin/rattle"
    if name != PROGRAM:
        return [[rattle, "build", *words, "--statements", "-o", library(name)]]
    program, tools = f"{out(name)}/{name}", ["--toolchain", f"{kit()}/toolchain"]
    c_code = [f"{kit()}/c/libos_c.a", f"{kit()}/c/liblibc_c.a"]
    link = [f"{kit()}/bin/rattle-link", "--target", TARGET, *tools, "-o", f"{program}.new", f"{program}.o", *c_code]
    return [[rattle, "build", *words, *tools, "--backend", "llvm", "-o", f"{program}.o"], link]


def seconds_of(names):
    """Seconds of one processor that the proof of each crate takes, by the table of results; 100 where it has none."""
    rows = dict(re.findall(r"^\| `(\w+)` \|(.*)\|$", read(f"{TOP}/bench/RESULTS.md").decode(), re.M))
    column = {name: (row.split("|") + [""] * 5)[4].strip() for name, row in rows.items()}
    return {name: float(column[name]) if column.get(name, "").isdigit() else 100.0 for name in names}


def available():
    return 1024 * int(re.search(rb"MemAvailable:\s+(\d+)", read("/proc/meminfo"))[1])


def check_machine():
    if available() < MEMORY:
        raise Stopped(f"{available() / 1e9:.1f} GB of memory are free, and a proof takes up to {MEMORY / 1e9:.0f}: end other programs, and start again")
    free = shutil.disk_usage(TOP).free
    if free < DISK:
        raise Stopped(f"{free / 1e9:.1f} GB are free on the disk of {TOP}, and a build takes {DISK / 1e9:.0f}: make room, and start again")


class Proof:
    """A crate that is being proved: its commands, one after the other, and what they say."""

    def __init__(self, name, jobs):
        self.name, self.jobs, self.since = name, jobs, time.monotonic()
        shutil.rmtree(f"{out(name)}/rlib", ignore_errors=True)
        os.makedirs(f"{out(name)}/rlib")
        self.left, self.said = commands_of(name, jobs), tempfile.TemporaryFile()
        self.begin()

    def begin(self):
        how = {"cwd": f"{TOP}/crates/{self.name}", "stdin": subprocess.DEVNULL, "stdout": self.said, "stderr": subprocess.STDOUT}
        self.work = subprocess.Popen(self.left.pop(0), start_new_session=True, **how)

    def has_ended(self):
        """Whether all of its commands are through, or one has failed."""
        status = self.work.poll()
        if status == 0 and self.left:
            self.begin()
            return False
        return status is not None

    def stop(self):
        if self.work.poll() is None:
            os.killpg(self.work.pid, signal.SIGKILL)
            self.work.wait()

    def text(self):
        self.said.seek(0)
        return self.said.read().decode(errors="replace")

    def why(self):
        """What stopped it, in one sentence; a refusal of the checker is shown as it stands."""
        said = self.text()
        if "No space left" in said or shutil.disk_usage(TOP).free < 200_000_000:
            return f"the disk is full: make room, and start again; {KEPT}"
        if self.work.returncode < 0:
            return f"a proof was killed, most likely for memory: end other programs, and start again; {KEPT}"
        sys.stderr.write("\n".join(said.split("\n")[-40:]))
        return f"{self.name} is not proved: see above, mend it, and start again"


class Build:
    """All crates of the program: those that are built, those at work, and those that wait."""

    def __init__(self):
        self.crates = [*below(PROGRAM), PROGRAM]
        self.seconds, self.processors = seconds_of(self.crates), len(os.sched_getaffinity(0))
        self.done, self.running, self.took, self.began = set(), {}, {}, time.monotonic()
        self.since = 0

    @functools.lru_cache(maxsize=None)
    def chain(self, name):
        """Seconds of the longest chain of crates from this one up to the program."""
        return self.seconds[name] + max([self.chain(it) for it in self.crates if name in lines()[it]], default=0)

    def ready(self):
        """The crates that can begin, those with the longest chain first."""
        waiting = [it for it in self.crates if it not in self.done and it not in self.running]
        return sorted([it for it in waiting if self.done.issuperset(below(it))], key=self.chain, reverse=True)

    def jobs(self, name, others):
        """How many processors the crate may use, 0 where it has to wait. The one with the longest chain gets what is left and two more, which
        it shares with the others: a proof uses one alone as it begins and ends."""
        room = self.processors + 2 - sum(it.jobs for it in self.running.values())
        if self.running and (room <= 0 or len(self.running) >= self.processors or available() < BESIDE):
            return 0
        if all(self.chain(name) >= self.chain(it) for it in self.running):
            return max(min(JOBS, room), 1)
        return 1 if others + len(self.running) > 1 else 2

    def start_some(self):
        ready = self.ready()
        for number, name in enumerate(ready):
            jobs = self.jobs(name, len(ready) - 1 - number)
            if not jobs:
                return
            self.running[name] = Proof(name, jobs)
            self.since += 1
            say(f"{self.since} of {len(self.crates)}: {name} begins")

    def left(self):
        """Minutes that are left: the longest chain of crates, or all of them on all processors, whichever is longer."""
        rest = [it for it in self.crates if it not in self.done]
        planned = sum(self.seconds[it] for it in self.took)
        pace = min(1, sum(self.took.values()) / planned) if planned else 1
        whole = sum(self.seconds[it] for it in rest) / self.processors
        return max(round(pace * max([whole, *[self.chain(it) for it in rest]]) / 60), 1)

    def end_some(self):
        for name, proof in [*self.running.items()]:
            if proof.has_ended():
                if proof.work.returncode:
                    raise Stopped(proof.why())
                with open(f"{out(name)}/rlib/made_from", "w", encoding="utf-8") as file:
                    file.write(sum_of(name))
                del self.running[name]
                self.done.add(name)
                self.took[name] = time.monotonic() - proof.since
                left = f"; about {self.left()} minutes are left" if len(self.done) < len(self.crates) else ""
                say(f"{len(self.done)} of {len(self.crates)}: {name} is proved, after {self.took[name]:.0f} s{left}")

    def run(self):
        self.done = {it for it in below(PROGRAM) if is_built(it)}
        self.since = len(self.done)
        say(f"{len(self.crates) - self.since} crates are to be proved; a line tells of each as it begins and ends")
        try:
            while len(self.done) < len(self.crates):
                self.start_some()
                time.sleep(0.2)
                self.end_some()
        finally:
            for proof in self.running.values():
                proof.stop()
        os.replace(f"{out(PROGRAM)}/{PROGRAM}.new", f"{out(PROGRAM)}/{PROGRAM}")
        say(f"the program is built, after {(time.monotonic() - self.began) / 60:.1f} minutes")


def leave(number, _):
    sys.exit(128 + number)


def main():
    for it in (signal.SIGINT, signal.SIGTERM, signal.SIGHUP):
        signal.signal(it, leave)
    try:
        kit()
        check_machine()
        Build().run()
    except Stopped as stopped:
        say(str(stopped))
        return 70
    except OSError as error:
        say(f"a folder refuses the build ({error}): see that {TOP} and {tempfile.gettempdir()} have room and can be written, and start again")
        return 70
    return 0


if __name__ == "__main__":
    sys.exit(main())
