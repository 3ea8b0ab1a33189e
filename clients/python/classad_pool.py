"""A pool of classad_pool, driven from Python: one file, on the standard library alone.

    with Pool("./pool") as pool:
        pool.advertise("m1", 600, '[ Memory = 128; Requirements = true ]')
        pool.submit("j", "ann", '[ Requirements = TARGET.Memory >= 100 ]')
        pool.negotiate()
        print(pool.claim("j").resources)

A method is a command of the pool, and gives its reply as an object; a reply that begins with `refused` is raised as `Refused`. The program
answers what it has read before it waits for more, so the client and the program go in step; `script` hands a whole script on at once.
"""

from __future__ import annotations

import re
import subprocess
import threading
from dataclasses import dataclass
from typing import Callable, Dict, Iterator, List, Mapping, NamedTuple, Optional, Sequence, Tuple, Union

__all__ = [
    "Ad", "Advertised", "Classes", "Clock", "Claimed", "Conjunct", "Done", "Ended", "Explanation", "Gang", "Hit", "Hits", "Job", "Jobs", "Listing", "Negotiation", "Offer",
    "Pool", "Refused", "Reply", "Slice", "Spin", "Status", "User", "Users", "Value", "Verdict",
]


class Refused(Exception):
    """The pool refused the command, and nothing was changed; only a stale claim makes its job idle."""

    def __init__(self, number: int, text: str) -> None:
        super().__init__(f"refused {number} {text}")
        self.number = number
        self.text = text


class Ended(Exception):
    """The program ended, or closed its pipes, before it had answered."""

    def __init__(self, status: Optional[int]) -> None:
        super().__init__("the pool has ended" if status is None else f"the pool has ended with status {status}")
        self.status = status


@dataclass(frozen=True)
class Done:
    """A command that answers with a word and the name it was given, as `withdrawn m1`."""

    word: str
    name: str


@dataclass(frozen=True)
class Advertised:
    name: str
    replaced: bool


@dataclass(frozen=True)
class Clock:
    moment: int
    expired: int


@dataclass(frozen=True)
class Ad:
    """An ad as the pool prints it: one line in brackets."""

    text: str


@dataclass(frozen=True)
class Value:
    """A value as the pool prints it: `true`, `20`, `"text"`, `{ 1, 2 }`, `undefined`, `error`."""

    text: str


@dataclass(frozen=True)
class Status:
    """A resource of the list. `claimed` and `offered` are the jobs that have it and that it is offered to."""

    name: str
    born: int
    lifetime: int
    claimed: Optional[str]
    offered: Optional[str]

    @property
    def is_free(self) -> bool:
        return self.claimed is None and self.offered is None


@dataclass(frozen=True)
class Listing:
    ads: Tuple[Status, ...]


@dataclass(frozen=True)
class Hit:
    """A hit of a query, with its rank as the pool prints it."""

    name: str
    rank: str


@dataclass(frozen=True)
class Hits:
    hits: Tuple[Hit, ...]


@dataclass(frozen=True)
class Gang:
    """The resources in the order of the ports; none where there is no gang."""

    resources: Optional[Tuple[str, ...]]


@dataclass(frozen=True)
class Offer:
    job: str
    user: str
    resources: Tuple[str, ...]


@dataclass(frozen=True)
class Slice:
    user: str
    size: int
    offers: Tuple[Offer, ...]


@dataclass(frozen=True)
class Spin:
    number: int
    free: int
    slices: Tuple[Slice, ...]


@dataclass(frozen=True)
class Negotiation:
    spins: Tuple[Spin, ...]
    offers: int

    def all_offers(self) -> Iterator[Offer]:
        for spin in self.spins:
            for part in spin.slices:
                yield from part.offers


@dataclass(frozen=True)
class Claimed:
    job: str
    resources: Tuple[str, ...]
    preempted: Tuple[str, ...]


@dataclass(frozen=True)
class Conjunct:
    """A conjunct of a job's requirement, and for how many ads it holds."""

    text: str
    holds: int


@dataclass(frozen=True)
class Verdict:
    """An ad: `accepted`, or declined by the `request` or the `resource`, first by this conjunct; 0 stands for no requirement."""

    name: str
    by: str
    conjunct: Optional[int]


@dataclass(frozen=True)
class Explanation:
    """Why a job matches the ads that it matches. `ads` is how many there are."""

    job: str
    ads: int
    conjuncts: Tuple[Conjunct, ...]
    verdicts: Tuple[Verdict, ...]


@dataclass(frozen=True)
class Job:
    """A job of the queue: `idle`, or `matched` or `claimed` with the resources that are offered to it or that it has."""

    name: str
    user: str
    state: str
    resources: Tuple[str, ...]


@dataclass(frozen=True)
class Jobs:
    """The jobs in the order of their submission."""

    jobs: Tuple[Job, ...]


@dataclass(frozen=True)
class User:
    """A user with the priority, and how many jobs are idle, matched and claimed."""

    name: str
    priority: int
    idle: int
    matched: int
    claimed: int


@dataclass(frozen=True)
class Users:
    """The users who have a job or a priority that is set: the better priority first, and at equal ones by name."""

    users: Tuple[User, ...]


@dataclass(frozen=True)
class Classes:
    """The names of all jobs in classes: no ad of the pool tells the jobs of one class apart."""

    classes: Tuple[Tuple[str, ...], ...]


Reply = Union[Done, Advertised, Clock, Ad, Value, Listing, Hits, Gang, Negotiation, Claimed, Jobs, Users, Explanation, Classes]
Line = Callable[[], str]


class Answer(NamedTuple):
    """How the lines of a command's reply are read: from its first line, and from a call that gives the next."""

    read: Callable[[str, Line], Reply]
    takes_block: bool = False


def _words(line: str, first: str, count: int) -> List[str]:
    """The words behind the first of a line that has to have so many, or more where the count is negative."""
    words = line.split(" ")
    if words[0] != first or (len(words) != count if count >= 0 else len(words) < -count):
        raise ValueError(f"the reply {line!r} is none that begins with {first!r}")
    return words[1:]


def _done(word: str) -> Callable[[str, Line], Reply]:
    return lambda line, more: Done(word, _words(line, word, -2)[0])


def _read_advertised(line: str, more: Line) -> Reply:
    replaced = line.startswith("replaced ")
    return Advertised(_words(line, "replaced" if replaced else "advertised", 2)[0], replaced)


def _read_clock(line: str, more: Line) -> Reply:
    moment, _, expired = _words(line, "clock", 4)
    return Clock(int(moment), int(expired))


def _read_status(line: str) -> Status:
    name, born, lifetime, *status = line.split(" ")
    jobs = dict(zip(status[::2], status[1::2]))
    return Status(name, int(born), int(lifetime), jobs.get("claimed"), jobs.get("offered"))


def _read_list(line: str, more: Line) -> Reply:
    return Listing(tuple(_read_status(more()) for _ in range(int(_words(line, "ads", 2)[0]))))


def _read_hit(line: str) -> Hit:
    name, rank = line.split(" ")
    return Hit(name, rank)


def _read_hits(line: str, more: Line) -> Reply:
    return Hits(tuple(_read_hit(more()) for _ in range(int(_words(line, "hits", 2)[0]))))


def _read_gang(line: str, more: Line) -> Reply:
    names = tuple(_words(line, "gang", -2))
    return Gang(None if names == ("none",) else names)


def _read_negotiation(line: str, more: Line) -> Reply:
    spins: List[Tuple[int, int, List[Tuple[str, int, List[Offer]]]]] = []
    while not line.startswith("offers "):
        word, *rest = line.split(" ")
        if word == "spin":
            spins.append((int(rest[0]), int(rest[2]), []))
        elif word == "slice":
            spins[-1][2].append((rest[0], int(rest[1]), []))
        else:
            spins[-1][2][-1][2].append(Offer(rest[0], rest[1], tuple(rest[2:])))
        line = more()
    done = tuple(Spin(number, free, tuple(Slice(user, size, tuple(offers)) for user, size, offers in parts)) for number, free, parts in spins)
    return Negotiation(done, int(_words(line, "offers", 2)[0]))


def _read_claimed(line: str, more: Line) -> Reply:
    job, *names = _words(line, "claimed", -3)
    return Claimed(job, tuple(names), ())


def _read_job(line: str) -> Job:
    name, user, state, *resources = line.split(" ")
    return Job(name, user, state, tuple(resources))


def _read_jobs(line: str, more: Line) -> Reply:
    return Jobs(tuple(_read_job(more()) for _ in range(int(_words(line, "jobs", 2)[0]))))


def _read_user(line: str) -> User:
    name, priority, _, idle, _, matched, _, claimed = line.split(" ")
    return User(name, int(priority), int(idle), int(matched), int(claimed))


def _read_users(line: str, more: Line) -> Reply:
    return Users(tuple(_read_user(more()) for _ in range(int(_words(line, "users", 2)[0]))))


def _read_explanation(line: str, more: Line) -> Reply:
    job, _, ads = _words(line, "why", 4)
    return Explanation(job, int(ads), (), ())


def _read_verdict(line: str) -> Verdict:
    name, by, *conjunct = line.split(" ")
    return Verdict(name, by, int(conjunct[0]) if conjunct else None)


def _read_classes(line: str, more: Line) -> Reply:
    return Classes(tuple(tuple(_words(more(), "class", -3)[1:]) for _ in range(int(_words(line, "classes", 2)[0]))))


ANSWERS: Dict[str, Answer] = {
    "clock": Answer(_read_clock),
    "advertise": Answer(_read_advertised, True),
    "withdraw": Answer(_done("withdrawn")),
    "show": Answer(lambda line, more: Ad(line)),
    "list": Answer(_read_list),
    "eval": Answer(lambda line, more: Value(line)),
    "evalin": Answer(lambda line, more: Value(line)),
    "query": Answer(_read_hits, True),
    "submit": Answer(_done("submitted"), True),
    "remove": Answer(_done("removed")),
    "priority": Answer(_done("priority")),
    "gang": Answer(_read_gang, True),
    "negotiate": Answer(_read_negotiation),
    "claim": Answer(_read_claimed),
    "release": Answer(_done("released")),
    "jobs": Answer(_read_jobs),
    "job": Answer(lambda line, more: Ad(line)),
    "users": Answer(_read_users),
    "why": Answer(_read_explanation),
    "classes": Answer(_read_classes),
    "unlisten": Answer(_done("unlistened")),
}

_REFUSED = re.compile(r"refused (\d+) (.*)")
_CONJUNCT = re.compile(r"conjunct \d+ holds (\d+) (.*)")
# The longest line and block that the pool reads.
_LONGEST = 65536


def _walk(script: bytes) -> Iterator[Tuple[str, bool]]:
    """The first words of the commands of a script, in order, as the pool reads them, each with whether its block is open at the end."""
    lines = iter(script.split(b"\n"))
    for line in lines:
        if len(line) > _LONGEST:
            yield "", False
            continue
        words = (line[:-1] if line.endswith(b"\r") else line).replace(b"\t", b" ").split(b" ")
        word = next((it for it in words if it), b"").decode(errors="replace")
        if not word or word.startswith("#"):
            continue
        takes_block = word in ANSWERS and ANSWERS[word].takes_block
        yield word, takes_block and not any(it in (b".", b".\r") for it in lines)


def commands(script: bytes) -> Iterator[str]:
    """The first words of the commands of a script; a word that is no command is refused in one line."""
    return (word for word, _ in _walk(script))


def _bytes(text: Union[str, bytes]) -> bytes:
    return text.encode(errors="surrogateescape") if isinstance(text, str) else text


def _is_in_block(script: bytes) -> bool:
    """Whether a script ends within a block."""
    return any(is_open for _, is_open in _walk(script))


class Pool:
    """A pool that runs beside this process. `program` is its path, or a list with words in front of it; `mail` tells who listens, and to which file."""

    def __init__(self, program: Union[str, Sequence[str]] = "classad_pool", mail: Optional[Mapping[str, str]] = None) -> None:
        words = [program] if isinstance(program, str) else list(program)
        for name, file in (mail or {}).items():
            words += ["--mail", f"{name}={file}"]
        self._process = subprocess.Popen(words, stdin=subprocess.PIPE, stdout=subprocess.PIPE)
        self._ahead: Optional[str] = None

    def __enter__(self) -> Pool:
        return self

    def __exit__(self, *_: object) -> None:
        self.close()

    def close(self) -> int:
        """Ends the script, and gives the status with which the program ended: 0, or 1 where a command was refused."""
        for pipe in (self._process.stdin, self._process.stdout):
            try:
                if pipe:
                    pipe.close()
            except BrokenPipeError:
                pass
        return self._process.wait()

    # What goes over the pipes.

    def _line(self) -> str:
        ahead, self._ahead = self._ahead, None
        if ahead is not None:
            return ahead
        assert self._process.stdout
        line = self._process.stdout.readline()
        if not line.endswith(b"\n"):
            self._end()
        return line[:-1].decode(errors="surrogateescape")

    def _end(self) -> None:
        try:
            status: Optional[int] = self._process.wait(timeout=5)
        except subprocess.TimeoutExpired:
            status = None
        raise Ended(status)

    def _send(self, data: bytes) -> None:
        assert self._process.stdin
        try:
            self._process.stdin.write(data)
            self._process.stdin.flush()
        except (BrokenPipeError, ValueError):
            self._end()

    def _read(self, word: str) -> Union[Reply, Refused]:
        """Reads the reply of one command as far as its first line tells how many there are."""
        line = self._line()
        refused = _REFUSED.fullmatch(line)
        if refused:
            return Refused(int(refused[1]), refused[2])
        return ANSWERS[word].read(line, self._line)

    def _while(self, form: str) -> List[str]:
        """The lines that come next and have a form; the first other line is kept for the next reply."""
        found: List[str] = []
        while True:
            try:
                line = self._line()
            except Ended:
                return found
            if not re.fullmatch(form, line):
                self._ahead = line
                return found
            found.append(line)

    def _preempted(self) -> Tuple[str, ...]:
        return tuple(it.partition(" ")[2] for it in self._while("preempted .*"))

    def _explained(self, head: Explanation) -> Explanation:
        rows = [_CONJUNCT.fullmatch(it) for it in self._while(_CONJUNCT.pattern)]
        conjuncts = tuple(Conjunct(it[2], int(it[1])) for it in rows if it)
        return Explanation(head.job, head.ads, conjuncts, tuple(_read_verdict(self._line()) for _ in range(head.ads)))

    def _ask(self, line: str, block: Optional[str] = None) -> Reply:
        if "\n" in line:
            raise ValueError("a command is one line")
        text = line + "\n" if block is None else f"{line}\n{block}\n.\n"
        if block is not None and any(it in (".", ".\r") for it in block.split("\n")):
            raise ValueError("a line of one dot ends the block")
        self._send(text.encode(errors="surrogateescape"))
        reply = self._read(line.split(" ")[0])
        if isinstance(reply, Refused):
            raise reply
        return reply

    def _ask_alone(self, line: str) -> Reply:
        """Asks where the reply doesn't tell how many lines it has: one harmless command goes behind."""
        if "\n" in line:
            raise ValueError("a command is one line")
        reply = self.script(line + "\n")[0]
        if isinstance(reply, Refused):
            raise reply
        return reply

    def script(self, text: Union[str, bytes]) -> List[Union[Reply, Refused]]:
        """Hands a whole script on at once, and gives the reply to each of its commands; a refusal is given in its place, and not raised.

        The script has to end with a line feed, and its last block with a line of one dot."""
        data = _bytes(text)
        if not data.endswith(b"\n") or _is_in_block(data):
            raise ValueError("a script ends with a line feed, and its last block with a line of one dot")
        # (a command whose reply is known shows where the reply to a claim ends)
        sender = self._sending(data + b"eval 0\n", ends=False)
        replies = self._replies(data)
        self._read("eval")
        sender.join()
        return replies

    def finish(self, text: Union[str, bytes]) -> List[Union[Reply, Refused]]:
        """As `script`, but the input ends with it, wherever that is: no command can follow."""
        data = _bytes(text)
        sender = self._sending(data, ends=True)
        replies = self._replies(data)
        sender.join()
        return replies

    def _replies(self, data: bytes) -> List[Union[Reply, Refused]]:
        return [self._whole(self._read(it)) for it in commands(data)]

    def _sending(self, data: bytes, ends: bool) -> threading.Thread:
        """Sends beside the reader, since either pipe may be full while the other waits."""

        def send() -> None:
            try:
                self._send(data)
                if ends and self._process.stdin:
                    self._process.stdin.close()
            except (Ended, BrokenPipeError):
                # (the reader meets the end as well, and tells)
                pass

        sender = threading.Thread(target=send, daemon=True)
        sender.start()
        return sender

    def _whole(self, reply: Union[Reply, Refused]) -> Union[Reply, Refused]:
        """A reply with the lines whose number its first line doesn't tell."""
        if isinstance(reply, Claimed):
            return Claimed(reply.job, reply.resources, self._preempted())
        return self._explained(reply) if isinstance(reply, Explanation) else reply

    # The commands.

    def clock(self, moment: int) -> Clock:
        """Sets the moment, and lets the ads leave whose time is over."""
        return self._ask(f"clock {moment}")  # type: ignore[return-value]

    def advertise(self, name: str, lifetime: int, ad: str) -> Advertised:
        """Keeps an ad under a name; one that is held keeps its place and takes the new ad."""
        return self._ask(f"advertise {name} {lifetime}", ad)  # type: ignore[return-value]

    def withdraw(self, name: str) -> Done:
        return self._ask(f"withdraw {name}")  # type: ignore[return-value]

    def show(self, name: str) -> Ad:
        return self._ask(f"show {name}")  # type: ignore[return-value]

    def list(self) -> Listing:
        return self._ask("list")  # type: ignore[return-value]

    def eval(self, expression: str) -> Value:
        """The value of an expression that stands alone."""
        return self._ask(f"eval {expression}")  # type: ignore[return-value]

    def evalin(self, name: str, expression: str) -> Value:
        """The value of an expression beside the ad of that name."""
        return self._ask(f"evalin {name} {expression}")  # type: ignore[return-value]

    def query(self, ad: str) -> Hits:
        return self._ask("query", ad)  # type: ignore[return-value]

    def submit(self, job: str, user: str, ad: str) -> Done:
        return self._ask(f"submit {job} {user}", ad)  # type: ignore[return-value]

    def remove(self, job: str) -> Done:
        return self._ask(f"remove {job}")  # type: ignore[return-value]

    def priority(self, user: str, number: int) -> Done:
        return self._ask(f"priority {user} {number}")  # type: ignore[return-value]

    def gang(self, ad: str) -> Gang:
        """The resources for the ports of the ad. A gang of one resource that is named `none` reads as no gang."""
        return self._ask("gang", ad)  # type: ignore[return-value]

    def negotiate(self) -> Negotiation:
        return self._ask("negotiate")  # type: ignore[return-value]

    def claim(self, job: str) -> Claimed:
        """Claims what is offered to the job."""
        return self._ask_alone(f"claim {job}")  # type: ignore[return-value]

    def release(self, job: str) -> Done:
        return self._ask(f"release {job}")  # type: ignore[return-value]

    def jobs(self) -> Jobs:
        return self._ask("jobs")  # type: ignore[return-value]

    def job(self, name: str) -> Ad:
        """The ad of a job."""
        return self._ask(f"job {name}")  # type: ignore[return-value]

    def users(self) -> Users:
        return self._ask("users")  # type: ignore[return-value]

    def why(self, job: str) -> Explanation:
        """For how many ads each conjunct of the job's requirement holds, and what keeps each ad from matching."""
        return self._ask_alone(f"why {job}")  # type: ignore[return-value]

    def classes(self) -> Classes:
        """The jobs in classes that no ad tells apart; a gang is a class of its own."""
        return self._ask("classes")  # type: ignore[return-value]

    def unlisten(self, name: str) -> Done:
        return self._ask(f"unlisten {name}")  # type: ignore[return-value]
