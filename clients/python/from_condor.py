#!/usr/bin/env python3
"""Makes a script for classad_pool of ads in HTCondor's long form, as `condor_status -long` and `condor_q -long` print them.

    condor_status -long | from_condor.py advertise > machines.pool
    condor_q -long | from_condor.py submit > jobs.pool

An ad is a line `Name = value` for each attribute, with blank lines between ads. Each attribute is taken over as it stands where the pool's
parser takes it; numbers with an exponent are written out. What the language doesn't have is left out, and told on standard error by the
line and the attribute. A machine is named by its `Name`, a job by its `GlobalJobId` and put into the queue for its `Owner`.
"""

from __future__ import annotations

import argparse
import os
import re
import sys
from dataclasses import dataclass, field
from decimal import Decimal, InvalidOperation
from typing import Dict, Iterable, Iterator, List, Optional, TextIO

from classad_pool import Pool, Refused

TOP = os.path.dirname(os.path.dirname(os.path.dirname(os.path.abspath(__file__))))
ATTRIBUTE = re.compile(r"\s*([A-Za-z_][A-Za-z0-9_]*)\s*=(?![=?!])\s*(.*?)\s*$")
# A string, a quoted name, or a number with a point or an exponent; the first two are passed over.
PIECE = re.compile(r'"(?:[^"\\]|\\.)*"|\'(?:[^\'\\]|\\.)*\'|(?<![\w.])(\d+\.?\d*(?:[eE][+-]?\d+)?)(?![\w.])')


@dataclass
class Attribute:
    line: int
    name: str
    text: str


@dataclass
class Ad:
    line: int
    attributes: List[Attribute] = field(default_factory=list)

    def text_of(self, name: str) -> Optional[str]:
        """What a string attribute holds, without its quotes; the last definition counts."""
        found = [it.text for it in self.attributes if it.name.lower() == name.lower()]
        return found[-1][1:-1] if found and re.fullmatch(r'"[^"\\]*"', found[-1]) else None


def told(line: int, what: str) -> None:
    print(f"line {line}: {what}", file=sys.stderr)


def read_ads(lines: Iterable[str]) -> Iterator[Ad]:
    """The ads of a text in the long form; a line that defines nothing is told and passed over."""
    ad = Ad(0)
    for number, line in enumerate(lines, 1):
        found = ATTRIBUTE.match(line)
        if found:
            ad.attributes.append(Attribute(number, found[1], written_out(found[2])))
        elif line.strip():
            told(number, "this is no `Name = value`, and is left out")
        elif ad.attributes:
            yield ad
            ad = Ad(0)
        if found and not ad.line:
            ad.line = number
    if ad.attributes:
        yield ad


def plain(number: str) -> str:
    """A number without its exponent: `1.5E+02` as `150.0`, `5.` as `5.0`. A whole number stays as it is, as do octal ones."""
    if re.fullmatch(r"\d+", number):
        return number
    try:
        text = format(Decimal(number), "f")
    except InvalidOperation:
        return number
    return text if "." in text else text + ".0"


def written_out(expression: str) -> str:
    """An expression with each number of it written out; strings and quoted names stay as they are."""
    return PIECE.sub(lambda it: plain(it[1]) if it[1] else it[0], expression)


def pool_name(text: str, taken: Dict[str, int]) -> str:
    """A name as the pool takes them, 1 to 64 letters, digits, `_`, `-`, `.` or `@`, that no other has."""
    name = (re.sub(r"[^A-Za-z0-9_.@-]", "-", text) or "ad")[:64]
    taken[name] = taken.get(name, 0) + 1
    return name if taken[name] == 1 else pool_name(f"{name[:58]}-{taken[name]}", taken)


class Parser:
    """Asks a pool what its parser takes: an expression that is refused with 6 is none of the language."""

    def __init__(self, pool: Pool) -> None:
        self.pool = pool

    def why_not(self, expression: str) -> Optional[str]:
        try:
            self.pool.eval(expression)
        except Refused as refused:
            return refused.text
        return None

    def kept(self, ad: Ad) -> List[Attribute]:
        """The attributes that the parser takes; the others are told."""
        found: List[Attribute] = []
        for it in ad.attributes:
            why = self.why_not(f"[ {it.name} = {it.text} ]") if it.text else "no value"
            if why:
                told(it.line, f"{it.name} is left out ({why}): {it.text[:60]}")
            else:
                found.append(it)
        return found


def block(attributes: List[Attribute]) -> str:
    return "[\n" + "".join(f"    {it.name} = {it.text};\n" for it in attributes) + "]\n.\n"


def write_script(ads: Iterable[Ad], head: str, parser: Parser, words: argparse.Namespace, to: TextIO) -> None:
    taken: Dict[str, int] = {}
    for ad in ads:
        kept = parser.kept(ad)
        why = parser.why_not("[ " + "; ".join(f"{it.name} = {it.text}" for it in kept) + " ]")
        named = ad.text_of("Name" if head == "advertise" else "GlobalJobId")
        if why or named is None:
            told(ad.line, f"the ad is left out ({why or 'nothing names it'})")
            continue
        name = pool_name(named, taken)
        rest = str(words.lifetime) if head == "advertise" else pool_name(ad.text_of("Owner") or words.user, {})
        to.write(f"{head} {name} {rest}\n{block(kept)}")


def main(arguments: Optional[List[str]] = None) -> int:
    words = argparse.ArgumentParser(description="Makes a script for classad_pool of ads in HTCondor's long form.")
    words.add_argument("command", choices=["advertise", "submit"], help="what the script does with each ad")
    words.add_argument("--lifetime", type=int, default=900, help="moments that a machine's ad is kept (900)")
    words.add_argument("--user", default="nobody", help="the user of a job without an Owner (nobody)")
    words.add_argument("--program", default=os.path.join(TOP, "pool"), help="the pool whose parser decides (./pool of this checkout)")
    given = words.parse_args(arguments)
    with Pool(given.program) as pool:
        write_script(read_ads(sys.stdin), given.command, Parser(pool), given, sys.stdout)
    return 0


if __name__ == "__main__":
    sys.exit(main())
