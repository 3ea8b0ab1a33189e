"""How a program is timed: the seconds that pass, the seconds of processor time, and the peak of memory of a run."""
import contextlib
import fcntl
import os
import shutil
import signal
import struct
import subprocess
import tempfile
import termios
import threading
import time
from typing import IO, NamedTuple

TOP = os.path.dirname(os.path.dirname(os.path.abspath(__file__)))
PROGRAM = os.path.join(TOP, "crates/classad_pool/out/classad_pool")
FOREVER = float("inf")


class Figures(NamedTuple):
    seconds: float
    cpu: float
    kilobytes: int


class Run(NamedTuple):
    """What a run printed, how it ended (its status, below 0 where a signal ended it), and its figures."""

    replies: bytes
    status: int
    figures: Figures


def told(pid: int, about: str) -> str:
    """What the system tells of a process under a heading; nothing where it has ended."""
    with contextlib.suppress(OSError), open(f"/proc/{pid}/status", encoding="ascii") as file:
        for line in file:
            if line.startswith(about + ":"):
                return line.split()[1]
    return ""


def is_waiting(pid: int, entrance: IO[bytes]) -> bool:
    """Whether a process has read all that was written to it, and sleeps until there is more."""
    (unread,) = struct.unpack("i", fcntl.ioctl(entrance, termios.FIONREAD, bytes(4)))
    return unread == 0 and told(pid, "State") == "S"


def feed(entrance: IO[bytes], path: str) -> None:
    with contextlib.suppress(BrokenPipeError), open(path, "rb") as script:
        shutil.copyfileobj(script, entrance, 1 << 16)
        entrance.flush()


def watch(pid: int, entrance: IO[bytes], path: str, most: float) -> int:
    """Feeds a child, and tells the most kilobytes that it had; it is killed where it takes more seconds than it may.

    Its input is held open until it waits for more, and its memory is read then. What `wait4` tells would have the memory of
    the caller in it.
    """
    feeder = threading.Thread(target=feed, args=(entrance, path))
    feeder.start()
    before = time.perf_counter()
    peak = 0
    while feeder.is_alive() or not is_waiting(pid, entrance):
        peak = int(told(pid, "VmHWM") or peak)
        passed = time.perf_counter() - before
        if passed > most:
            os.kill(pid, signal.SIGKILL)
        if told(pid, "State") in ("Z", ""):
            break
        time.sleep(min(0.01, max(0.0002, passed / 100)))
    peak = int(told(pid, "VmHWM") or peak)
    feeder.join()
    with contextlib.suppress(BrokenPipeError):
        entrance.close()
    return peak


def run(program: list[str], path: str, most: float = FOREVER) -> Run:
    """Runs a program on the script at a path."""
    with tempfile.TemporaryFile() as printed:
        before = time.perf_counter()
        child = subprocess.Popen(program, stdin=subprocess.PIPE, stdout=printed, cwd=TOP, pipesize=1 << 20)
        assert child.stdin
        peak = watch(child.pid, child.stdin, path, most)
        _, status, usage = os.wait4(child.pid, 0)
        passed = time.perf_counter() - before
        child.returncode = os.waitstatus_to_exitcode(status)
        printed.seek(0)
        return Run(printed.read(), child.returncode, Figures(passed, usage.ru_utime + usage.ru_stime, peak))


def least(program: list[str], path: str, repeat: int, most: float = FOREVER) -> Run:
    """The first of some runs, with the least of each of their figures."""
    runs = [run(program, path, most) for _ in range(repeat)]
    return runs[0]._replace(figures=Figures(*map(min, zip(*(it.figures for it in runs)))))
