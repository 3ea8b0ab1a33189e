#!/usr/bin/env python3
"""A day of a pool: machines come and go, five users' jobs arrive and end, the pool negotiates each five minutes, and a picture tells of it.

    day.py --program ./pool --picture day.svg

Nothing is random but by the seed, so a day is the same each time. It prints a table of the users, and how many jobs were preempted.
"""

from __future__ import annotations

import argparse
import os
import random
import sys
from dataclasses import dataclass, field
from typing import Dict, Iterable, List, Optional, Sequence, Set, Tuple

from classad_pool import Claimed, Negotiation, Pool, Refused

TOP = os.path.dirname(os.path.dirname(os.path.dirname(os.path.abspath(__file__))))
STEP, DAY = 300, 86400
LIFETIME = 2 * STEP
USERS = {"ann": 10, "bob": 10, "carol": 20, "dave": 40, "eve": 80}
COLOURS = {"ann": "#1b9e77", "bob": "#d95f02", "carol": "#7570b3", "dave": "#e7298a", "eve": "#66a61e"}


@dataclass
class Machine:
    name: str
    memory: int
    mips: int
    is_desktop: bool

    def is_there(self, moment: int) -> bool:
        """A desktop is its owner's from eight to six."""
        return not (self.is_desktop and 8 * 3600 <= moment < 18 * 3600)

    def ad(self) -> str:
        rank = "; Rank = TARGET.Group == \"physics\" ? 1 : 0" if self.is_desktop else ""
        return f"[ Memory = {self.memory}; Mips = {self.mips}{rank}; Requirements = true ]"


@dataclass
class Job:
    name: str
    user: str
    arrives: int
    length: int
    memory: int
    since: Optional[int] = None

    def ad(self) -> str:
        group = "physics" if self.user in ("ann", "carol") else "biology"
        return f'[ Group = "{group}"; Requirements = TARGET.Memory >= {self.memory}; Rank = TARGET.Mips ]'


@dataclass
class Sample:
    """What stood at one moment: jobs that wait and run by user, and the jobs that were preempted since the last."""

    moment: int
    machines: int
    waiting: Dict[str, int]
    running: Dict[str, int]
    preempted: int


@dataclass
class Day:
    machines: List[Machine]
    jobs: List[Job]
    samples: List[Sample] = field(default_factory=list)
    done: Dict[str, int] = field(default_factory=lambda: dict.fromkeys(USERS, 0))
    waited: Dict[str, int] = field(default_factory=lambda: dict.fromkeys(USERS, 0))
    preempted: int = 0


def plan(machines: int, jobs: int, seed: int) -> Day:
    dice = random.Random(seed)
    pool = [Machine(f"m{i}", 1024 * dice.choice([2, 4, 8, 16]), dice.randrange(100, 200), i % 3 == 0) for i in range(machines)]
    names = [*USERS]
    arrivals = sorted(int(DAY * min(max(dice.gauss(0.35, 0.2), 0), 0.95)) for _ in range(jobs))
    queue = [
        Job(f"j{i}", dice.choice(names), at, dice.randrange(1800, 6 * 3600), 1024 * dice.choice([1, 2, 4, 8]))
        for i, at in enumerate(arrivals)
    ]
    return Day(pool, queue)


def advertise(pool: Pool, day: Day, moment: int) -> None:
    """Each machine that is there says so again, before its last ad runs out."""
    script = [f"advertise {it.name} {LIFETIME}\n{it.ad()}\n.\n" for it in day.machines if it.is_there(moment)]
    pool.script("".join(script) or "\n")


def submit(pool: Pool, day: Day, moment: int) -> List[Job]:
    arrived = [it for it in day.jobs if moment - STEP < it.arrives <= moment]
    pool.script("".join(f"submit {it.name} {it.user}\n{it.ad()}\n.\n" for it in arrived) or "\n")
    return arrived


def take_away(pool: Pool, day: Day, held: Dict[str, Job], moment: int) -> None:
    """Removes the jobs that have run as long as they are."""
    for job in [it for it in held.values() if it.since is not None and it.since + it.length <= moment]:
        pool.remove(job.name)
        day.done[job.user] += 1
        del held[job.name]


def claim(pool: Pool, held: Dict[str, Job], moment: int) -> int:
    """Negotiates and claims what is offered; gives the number of jobs that lost their machine by it."""
    offers: Negotiation = pool.negotiate()
    jobs = [it.job for it in offers.all_offers()]
    replies = pool.script("".join(f"claim {it}\n" for it in jobs) or "\n")
    lost = 0
    for reply in replies:
        if isinstance(reply, Claimed):
            held[reply.job].since = moment
            lost += len(reply.preempted)
        elif not isinstance(reply, Refused):
            raise ValueError(f"{reply} answers no claim")
    return lost


def settle(pool: Pool, held: Dict[str, Job]) -> None:
    """Jobs that the pool doesn't list as claimed wait again: they were preempted, or their machine left."""
    running: Set[str] = {it.claimed for it in pool.list().ads if it.claimed}
    for job in held.values():
        if job.name not in running:
            job.since = None


def count(jobs: Iterable[Job], runs: bool) -> Dict[str, int]:
    found = dict.fromkeys(USERS, 0)
    for job in jobs:
        found[job.user] += (job.since is not None) == runs
    return found


def live(pool: Pool, day: Day) -> None:
    held: Dict[str, Job] = {}
    for user, number in USERS.items():
        pool.priority(user, number)
    for moment in range(0, DAY, STEP):
        pool.clock(moment)
        advertise(pool, day, moment)
        take_away(pool, day, held, moment)
        held.update((it.name, it) for it in submit(pool, day, moment))
        settle(pool, held)
        lost = claim(pool, held, moment)
        settle(pool, held)
        day.preempted += lost
        waiting, running = count(held.values(), False), count(held.values(), True)
        for user in USERS:
            day.waited[user] += waiting[user] * STEP
        there = sum(it.is_there(moment) for it in day.machines)
        day.samples.append(Sample(moment, there, waiting, running, lost))


# The picture: three panels over one another, with the hours of the day below.

WIDTH, PANEL, LEFT, TOP_EDGE, GAP = 900, 170, 70, 40, 55
# A point for each quarter of an hour keeps the file small.
DRAWN = 900 // STEP


def across(moment: float) -> float:
    return LEFT + (WIDTH - LEFT - 110) * moment / DAY


class Panel:
    def __init__(self, number: int, title: str, most: float) -> None:
        self.top = TOP_EDGE + number * (PANEL + GAP)
        self.most = most or 1
        self.parts = [f'<text x="{LEFT}" y="{self.top - 10}" class="title">{title}</text>']
        for k in range(3):
            value = self.most * k / 2
            self.parts.append(f'<line x1="{LEFT}" x2="{across(DAY)}" y1="{self.up(value)}" y2="{self.up(value)}" class="grid"/>')
            self.parts.append(f'<text x="{LEFT - 8}" y="{self.up(value) + 4}" class="number">{value:.3g}</text>')
        for hour in range(0, 25, 4):
            self.parts.append(f'<text x="{across(hour * 3600)}" y="{self.top + PANEL + 16}" class="hour">{hour}:00</text>')

    def up(self, value: float) -> float:
        return round(self.top + PANEL * (1 - value / self.most), 1)

    def stack(self, samples: Sequence[Sample], rows: Sequence[Dict[str, int]]) -> None:
        """Areas over one another, a colour a user."""
        floor = [0] * len(rows)
        for user in USERS:
            roof = [low + row[user] for low, row in zip(floor, rows)]
            there = [f"{across(it.moment):.1f},{self.up(high)}" for it, high in zip(samples, roof)]
            back = [f"{across(it.moment):.1f},{self.up(low)}" for it, low in zip(samples, floor)]
            self.parts.append(f'<polygon points="{" ".join(there + back[::-1])}" fill="{COLOURS[user]}"/>')
            floor = roof

    def line(self, points: Iterable[Tuple[float, float]], look: str) -> None:
        path = " ".join(f"{across(x):.1f},{self.up(y)}" for x, y in points)
        self.parts.append(f'<polyline points="{path}" fill="none" {look}/>')


def by_priority(sample: Sample, user: str) -> float:
    """The share of what runs that the user has by the priorities, among those who have jobs."""
    weights = {it: 1 / USERS[it] for it in USERS if sample.waiting[it] + sample.running[it]}
    return weights.get(user, 0) / sum(weights.values()) if weights else 0


def picture(day: Day) -> str:
    samples = day.samples[::DRAWN]
    most = max(max(sum(it.waiting.values()) for it in samples), 1)
    running = Panel(0, "Jobs that run, by user; the line: machines that are there", max(it.machines for it in samples))
    running.stack(samples, [it.running for it in samples])
    running.line([(it.moment, it.machines) for it in samples], 'stroke="#333" stroke-width="1.5"')
    waiting = Panel(1, "Jobs that wait, by user", most)
    waiting.stack(samples, [it.waiting for it in samples])
    share = Panel(2, "Share of the jobs that run; dashed: the share by priorities", 1)
    for user in USERS:
        look = f'stroke="{COLOURS[user]}" stroke-width="1.6"'
        share.line([(it.moment, it.running[user] / max(sum(it.running.values()), 1)) for it in samples], look)
        share.line([(it.moment, by_priority(it, user)) for it in samples], look + ' stroke-dasharray="4 4" opacity="0.7"')
    hours = [sum(it.preempted for it in day.samples if it.moment // 3600 == hour) for hour in range(24)]
    lost = Panel(3, f"Jobs that were preempted, by hour ({day.preempted} together)", max(hours))
    for hour, number in enumerate(hours):
        x, y = across(hour * 3600), lost.up(number)
        lost.parts.append(f'<rect x="{x + 3:.1f}" y="{y}" width="{across(3600) - LEFT - 6:.1f}" height="{lost.up(0) - y:.1f}" fill="#888"/>')
    key = [
        f'<rect x="{WIDTH - 95}" y="{TOP_EDGE + 22 * k}" width="14" height="14" fill="{COLOURS[it]}"/>'
        f'<text x="{WIDTH - 75}" y="{TOP_EDGE + 12 + 22 * k}">{it} ({USERS[it]})</text>'
        for k, it in enumerate(USERS)
    ]
    height = TOP_EDGE + 4 * (PANEL + GAP)
    style = "text{font:13px sans-serif;fill:#222}.title{font-weight:bold}.number{text-anchor:end}.hour{text-anchor:middle}.grid{stroke:#ccc}"
    parts = [it for panel in (running, waiting, share, lost) for it in panel.parts]
    return "\n".join(
        [f'<svg xmlns="http://www.w3.org/2000/svg" width="{WIDTH}" height="{height}" viewBox="0 0 {WIDTH} {height}">', f"<style>{style}</style>"]
        + ['<rect width="100%" height="100%" fill="white"/>', *parts, *key, "</svg>", ""]
    )


def table(day: Day) -> str:
    lines = [f"{'user':<8}{'priority':>9}{'jobs':>7}{'ended':>7}{'left':>6}{'hours waited a job':>20}"]
    for user, number in USERS.items():
        jobs = sum(it.user == user for it in day.jobs)
        waited = day.waited[user] / 3600 / max(jobs, 1)
        lines.append(f"{user:<8}{number:>9}{jobs:>7}{day.done[user]:>7}{jobs - day.done[user]:>6}{waited:>20.1f}")
    return "\n".join([*lines, f"preempted {day.preempted}"])


def main(arguments: Optional[List[str]] = None) -> int:
    words = argparse.ArgumentParser(description="A simulated day of a pool.")
    words.add_argument("--program", default=os.path.join(TOP, "pool"))
    words.add_argument("--machines", type=int, default=500)
    words.add_argument("--jobs", type=int, default=2000)
    words.add_argument("--seed", type=int, default=1)
    words.add_argument("--picture", help="the SVG file to write")
    given = words.parse_args(arguments)
    day = plan(given.machines, given.jobs, given.seed)
    with Pool(given.program) as pool:
        live(pool, day)
    print(table(day))
    if given.picture:
        with open(given.picture, "w", encoding="utf-8") as it:
            it.write(picture(day))
    return 0


if __name__ == "__main__":
    sys.exit(main())
