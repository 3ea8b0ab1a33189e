#!/usr/bin/env python3
"""Runs a program on scripts that are made to be slow: hostile.py [--list] [--case C,C] [--size N] [--repeat R] [--most S]
[--stack KB] [--program P] [--beside Q] [--print].

Users of a pool write its scripts, and not all mean well. Each case is a script of allowed size, made for a size N and once more
for its double. Printed are the seconds that passed, those of processor time, the megabytes at the peak, each the least of the
repeats; by how much processor time and memory grew from N to its double; and how many replies are refusals. With --beside a
second program runs the same scripts, and it is told whether the replies are the same. --size goes for all cases that are run;
else each has a size of its own. A run is ended after --most seconds, and --stack limits the stack. With --print the script of
one case and size is printed, and nothing is run. Nothing in the gate depends on this.
"""
import argparse
import functools
import itertools
import resource
import sys
import tempfile
from typing import Callable, Iterator, NamedTuple, Optional

from collisions import ATTRIBUTE_NAME, POOL_NAME, colliding, of_one_sum
from measuring import PROGRAM, Run, least
from workloads import with_block

LONG = 1_000_000
PLAIN = "[ Requirements = true ]"

Lines = Iterator[str]


class Case(NamedTuple):
    """A way to a script of a size, the size that it has where none is given and at most, and words for the command line."""

    script: Callable[[int], Lines]
    size: int
    most: int
    words: str

    def about(self) -> str:
        return (self.script.__doc__ or "").strip()


CASES: dict[str, Case] = {}


def case(size: int, most: int = 4_950, words: str = "") -> Callable[[Callable[[int], Lines]], Callable[[int], Lines]]:
    """Takes a function into the list of cases, by its name."""

    def take(script: Callable[[int], Lines]) -> Callable[[int], Lines]:
        CASES[script.__name__.replace("_", "-")] = Case(script, size, most, words)
        return script

    return take


def numbered(letter: str, count: int) -> list[str]:
    """Names of one length, so that they are in order byte for byte too."""
    return [f"{letter}{i:06}" for i in range(count)]


def advertised(names: list[str], ad: str = PLAIN, lifetime: int = LONG) -> Lines:
    for name in names:
        yield with_block(f"advertise {name} {lifetime}", ad)


def submitted(jobs: list[str], user: str = "u", ad: str = PLAIN) -> Lines:
    for job in jobs:
        yield with_block(f"submit {job} {user}", ad)


# ---- gangs


def gang(*requirements: str) -> str:
    ports = ", ".join(f'[ Label = "p{k}"; Requirements = {it} ]' for k, it in enumerate(requirements))
    return with_block("gang", f"[ Ports = {{ {ports} }} ]")


@case(size=8)
def gang_without_last(size: int) -> Lines:
    """A gang of eight ports over N ads, of which the tests of the last port leave none."""
    yield from advertised(numbered("m", size))
    yield gang(*["true"] * 7, 'TARGET.Type == "none"')


@case(size=2_500)
def gang_misspelt(size: int) -> Lines:
    """A gang of three ports over N ads, with a misspelt literal in the third."""
    yield from advertised(numbered("m", size), '[ Type = "cpu"; Requirements = true ]')
    yield gang(*['TARGET.Type == "cpu"'] * 2, 'TARGET.Type == "cpy"')


@case(size=200)
def gang_evaluated(size: int) -> Lines:
    """A gang of three ports over N ads, of which the last finds none once they are evaluated."""
    yield from advertised(numbered("m", size), "[ Memory = 64; Requirements = true ]")
    yield gang("true", "true", "TARGET.Memory + 1 > 100")


@case(size=2, most=6)
def gang_that_wants_one_ad_twice(size: int) -> Lines:
    """A gang of eight ports over N ads more than it wants, of which the first ranks highest the one ad that the last asks for."""
    yield from advertised(["x"], "[ Here = 1; Requirements = true ]")
    yield from advertised(numbered("m", size + 7))
    ports = '[ Label = "first"; Requirements = true; Rank = TARGET.Here ], '
    ports += ", ".join(f'[ Label = "p{k}"; Requirements = true ]' for k in range(6))
    yield with_block("gang", f'[ Ports = {{ {ports}, [ Label = "last"; Requirements = TARGET.Here == 1 ] }} ]')


# ---- values


# A list that weighs 65,066: the text of an ad has room for half of that, so it is put together from shorter ones.
HEAVY = f"L = {{ {', '.join(['0'] * 454)} }}; M = {{ {', '.join(['L'] * 143)} }}"


@case(size=500, most=10_000)
def list_of_references(size: int) -> Lines:
    """A list literal of N references to a list that weighs 65,066."""
    yield from advertised(["m"], f"[ {HEAVY}; Requirements = true ]")
    yield f"evalin m size({{ {','.join(['M'] * size)} }})\n"


@case(size=2_000, most=4_000)
def sum_of_sizes(size: int) -> Lines:
    """A sum of N sizes of a list that weighs 65,066."""
    yield from advertised(["m"], f"[ {HEAVY}; Requirements = true ]")
    yield f"evalin m sum({{ {','.join(['size(M)'] * size)} }})\n"


@case(size=10)
def ads_that_read_a_list(size: int) -> Lines:
    """A query over N ads, each of which reads a list of the query that weighs 65,066 a hundred times."""
    sizes = ", ".join(["size(TARGET.M)"] * 100)
    yield from advertised(numbered("m", size), f"[ Requirements = sum({{ {sizes} }}) > 0 ]")
    yield with_block("query", f"[ {HEAVY}; Requirements = true ]")


@case(size=30, most=30)
def references_through_levels(size: int) -> Lines:
    """An evaluation of 24 references, each through N levels of calls: what it needs is stack (--stack)."""
    level = "ifThenElse(true, {}, 0)"
    chain = "; ".join(f"X{k} = {functools.reduce(lambda e, _: level.format(e), range(size), f'X{k - 1}')}" for k in range(1, 24))
    yield from advertised(["m"], f"[ X0 = 1; {chain}; Requirements = true ]")
    yield "evalin m X23\n"


# ---- negotiation and the queue


def one_offer_a_spin(jobs: list[str]) -> Lines:
    """A user of the best priority whose job matches nothing leaves the other user slices of one resource."""
    yield from advertised(numbered("m", len(jobs)))
    yield "priority first 1\npriority last 1000000\n"
    yield from submitted(["none"], "first", "[ Requirements = false ]")
    yield from submitted(jobs, "last")
    yield "negotiate\n"


@case(size=2_500)
def spins(size: int) -> Lines:
    """A negotiation of N jobs over N ads that makes one offer a spin."""
    yield from one_offer_a_spin(numbered("j", size))


@case(size=1_250)
def spins_of_colliding_jobs(size: int) -> Lines:
    """The same with names of jobs that a table can't tell apart."""
    yield from one_offer_a_spin(colliding(POOL_NAME, size))


@case(size=4_950)
def falling_users(size: int) -> Lines:
    """Ten negotiations with a job of each of N users, submitted in falling order of their names."""
    for user in reversed(numbered("u", size)):
        yield from submitted([f"of-{user}"], user)
    yield "negotiate\n" * 10


@case(size=1_000)
def late_difference(size: int) -> Lines:
    """A negotiation of N jobs that differ in the last of 300 attributes."""
    yield from advertised(numbered("m", 10))
    same = "; ".join(f"A{k} = {k}" for k in range(298))
    for number, job in enumerate(numbered("j", size)):
        yield from submitted([job], ad=f"[ Requirements = true; {same}; Last = {number} ]")
    yield "negotiate\n"


@case(size=250)
def classes_of_late_differences(size: int) -> Lines:
    """The classes of N jobs that differ in the last of 300 attributes, to which an ad refers."""
    same = [f"A{k}" for k in range(298)]
    yield from advertised(["m"], f"[ Requirements = true; Refers = {{ {', '.join(same)}, Last }} ]")
    for number, job in enumerate(numbered("j", size)):
        yield from submitted([job], ad=f"[ Requirements = true; {'; '.join(f'{name} = 1' for name in same)}; Last = {number} ]")
    yield "classes\n"


@case(size=4_950)
def removals_from_the_front(size: int) -> Lines:
    """N jobs that are removed in the order of their submission."""
    jobs = numbered("j", size)
    yield from submitted(jobs)
    yield from (f"remove {job}\n" for job in jobs)


@case(size=4_950)
def removals_of_matched_jobs(size: int) -> Lines:
    """The same where each job has an offer."""
    jobs = numbered("j", size)
    yield from advertised(numbered("m", size))
    yield from submitted(jobs)
    yield "negotiate\n"
    yield from (f"remove {job}\n" for job in jobs)


# ---- ads that come and go


@case(size=4_950)
def idle_clocks(size: int) -> Lines:
    """Ten clocks for each of N ads, none of which expires."""
    yield from advertised(numbered("m", size), lifetime=1_000_000_000)
    yield from (f"clock {moment}\n" for moment in range(10 * size))


@case(size=4_950)
def withdrawals_from_the_front(size: int) -> Lines:
    """N ads that are withdrawn in the order of their coming."""
    names = numbered("m", size)
    yield from advertised(names)
    yield from (f"withdraw {name}\n" for name in names)


@case(size=4_950)
def expiry_behind_live_ads(size: int) -> Lines:
    """N ads, of which the second half expires at once."""
    names = numbered("m", size)
    yield from advertised(names[: size // 2])
    yield from advertised(names[size // 2 :], lifetime=1)
    yield "clock 1\n"


def matched(size: int, lifetime: int = LONG) -> Lines:
    yield from advertised(numbered("m", size), lifetime=lifetime)
    yield from submitted(numbered("j", size))
    yield "negotiate\n"


@case(size=4_950, words="--mail u=/dev/null")
def releases_with_a_mailbox(size: int) -> Lines:
    """N jobs of a user with a mailbox, which are matched and then released."""
    yield from matched(size)
    yield from (f"release {job}\n" for job in numbered("j", size))


@case(size=4_950, words="--mail u=/dev/null")
def expiry_with_a_mailbox(size: int) -> Lines:
    """N jobs of a user with a mailbox, all of whose resources expire at once."""
    yield from matched(size, lifetime=1)
    yield "clock 1\n"


# ---- names


def come_and_go(names: list[str]) -> Lines:
    yield from advertised(names)
    yield from (f"show {name}\n" for name in names)
    yield from (f"withdraw {name}\n" for name in reversed(names))


@case(size=1_250)
def ads_that_collide(size: int) -> Lines:
    """N ads that come, are shown and go, with names that a table can't tell apart."""
    yield from come_and_go(colliding(POOL_NAME, size))


@case(size=1_250)
def ads_apart(size: int) -> Lines:
    """The same with other names."""
    yield from come_and_go(numbered("m", size))


def with_attributes(names: list[str]) -> Lines:
    ad = f"[ Requirements = true; {'; '.join(f'{name} = 1' for name in names)} ]"
    yield from advertised(numbered("m", 20), ad)
    yield "".join(f"evalin m000000 {' + '.join(names[k : k + 50])}\n" for k in range(0, len(names), 50))


@case(size=500, most=511)
def attributes_that_collide(size: int) -> Lines:
    """Twenty ads of N attributes with names that a table can't tell apart under the seed 0; a run draws another."""
    yield from with_attributes(colliding(ATTRIBUTE_NAME, size))


@case(size=500, most=511)
def attributes_apart(size: int) -> Lines:
    """The same with other names."""
    yield from with_attributes(numbered("a", size))


def tested(size: int, names: list[str]) -> Lines:
    """All attributes are 5 but the last, and queries ask for the ads where the last is 5."""
    ad = f"[ Requirements = true; {'; '.join(f'{name} = 5' for name in names[:-1])}; {names[-1]} = 6 ]"
    yield from advertised(numbered("m", size), ad)
    yield with_block("query", f"[ Requirements = TARGET.{names[-1]} == 5 ]") * 100


@case(size=1_000)
def index_that_collides(size: int) -> Lines:
    """A hundred queries over N ads of 16 attributes, whose names the index can't tell apart."""
    yield from tested(size, of_one_sum(16))


@case(size=1_000)
def index_apart(size: int) -> Lines:
    """The same with other names."""
    yield from tested(size, numbered("a", 16))


# ---- the table


class Wanted(argparse.Namespace):
    case: str
    size: Optional[int]
    repeat: int
    most: float
    stack: Optional[int]
    program: str
    beside: Optional[str]
    list: bool
    print: bool


def read_words() -> Wanted:
    parser = argparse.ArgumentParser(description=__doc__, formatter_class=argparse.RawDescriptionHelpFormatter)
    parser.add_argument("--case", default=",".join(CASES))
    parser.add_argument("--size", type=int)
    parser.add_argument("--repeat", type=int, default=1)
    parser.add_argument("--most", type=float, default=60)
    parser.add_argument("--stack", type=int)
    parser.add_argument("--program", default=PROGRAM)
    parser.add_argument("--beside")
    parser.add_argument("--list", action="store_true")
    parser.add_argument("--print", action="store_true")
    wanted = parser.parse_args(namespace=Wanted())
    for name in wanted.case.split(","):
        if name not in CASES:
            parser.error(f"no case {name}: --list has them")
    return wanted


def refusals(replies: bytes) -> int:
    return sum(line.startswith(b"refused ") for line in replies.split(b"\n"))


def columns(run: Run, before: Optional[Run], most: float) -> str:
    """The figures of a run, and how much they grew from the run of half the size."""
    seconds, cpu, kilobytes = run.figures
    line = f"{seconds:9.3f} {cpu:9.3f} {kilobytes / 1024:8.1f}"
    if run.status < 0:
        return f"{line} {f'over {most:g} s' if seconds > most else f'signal {-run.status}':>13}"
    if before is None or before.status < 0:
        return f"{line} {'':13}"
    growth = [mine / max(its, 1e-9) for mine, its in zip(run.figures, before.figures)]
    return f"{line} {growth[1]:6.1f} {growth[2]:6.1f}"


def run_case(name: str, size: int, wanted: Wanted) -> None:
    """Two lines of the table: the case at a size, and at its double."""
    programs = [it for it in (wanted.program, wanted.beside) if it]
    before: list[Optional[Run]] = [None] * len(programs)
    for times in (1, 2):
        with tempfile.NamedTemporaryFile("w", suffix=".pool") as file:
            file.writelines(CASES[name].script(size * times))
            file.flush()
            words = CASES[name].words.split()
            runs = [least(it.split() + words, file.name, wanted.repeat, wanted.most) for it in programs]
        told = [f"{name if times == 1 else '':28} {size * times:7}"]
        told += [columns(run, half, wanted.most) for run, half in zip(runs, before)]
        told.append(f"{refusals(runs[0].replies):7}")
        if len(runs) == 2 and min(it.status for it in runs) >= 0:
            told.append("same" if runs[0].replies == runs[1].replies else "DIFFER")
        print("  ".join(told), flush=True)
        before = list(runs)


def main() -> None:
    wanted = read_words()
    names = wanted.case.split(",")
    if wanted.list:
        for name in names:
            print(f"{name:28} {CASES[name].size:6}  {CASES[name].about()}")
        return
    if wanted.print:
        sys.stdout.writelines(itertools.chain.from_iterable(CASES[it].script(wanted.size or CASES[it].size) for it in names))
        return
    if wanted.stack:
        resource.setrlimit(resource.RLIMIT_STACK, (wanted.stack * 1024, resource.getrlimit(resource.RLIMIT_STACK)[1]))
    figures = "  seconds       CPU       MB  growth: CPU, MB"
    print(f"{'case':28} {'size':>7}  " + figures + (figures.rjust(48) if wanted.beside else "") + "  refused" + ("  replies" if wanted.beside else ""))
    for name in names:
        size = min(wanted.size or CASES[name].size, CASES[name].most)
        run_case(name, size, wanted)


if __name__ == "__main__":
    main()
