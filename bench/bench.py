#!/usr/bin/env python3
"""Times the built program on scripts of each kind: bench.py [--size N] [--kinds K,K] [--repeat R] [--program P] [--beside Q].

Prints for each kind the size of the script, the seconds that passed, the seconds of processor time and the peak of memory,
each the least of the repeats. With --beside a second program runs the same scripts; then the ratios of the first to the
second are printed too, and whether the replies are the same. Nothing in the gate depends on this.
"""
import argparse
import os
import tempfile

import workloads
from measuring import PROGRAM, least


def main() -> None:
    parser = argparse.ArgumentParser(description=__doc__, formatter_class=argparse.RawDescriptionHelpFormatter)
    parser.add_argument("--size", type=int, default=1000)
    parser.add_argument("--kinds", default=",".join(workloads.KINDS))
    parser.add_argument("--repeat", type=int, default=3)
    parser.add_argument("--program", default=PROGRAM)
    parser.add_argument("--beside")
    wanted = parser.parse_args()
    heading = "kind            bytes    seconds        CPU   peak KB"
    print(heading + ("   ratios: seconds    CPU   peak   replies" if wanted.beside else ""))
    for kind in wanted.kinds.split(","):
        with tempfile.NamedTemporaryFile("w", suffix=".pool") as file:
            file.write(workloads.script(kind, wanted.size))
            file.flush()
            mine = least(wanted.program.split(), file.name, wanted.repeat)
            seconds, cpu, kilobytes = mine.figures
            line = f"{kind:10} {os.path.getsize(file.name):10} {seconds:10.3f} {cpu:10.3f} {kilobytes:9}"
            if wanted.beside:
                other = least(wanted.beside.split(), file.name, wanted.repeat)
                ratios = [own / max(its, 1e-9) for own, its in zip(mine.figures, other.figures)]
                same = "same" if mine.replies == other.replies else "DIFFER"
                line += f"            {ratios[0]:6.1f} {ratios[1]:6.1f} {ratios[2]:6.1f}   {same}"
            print(line, flush=True)


if __name__ == "__main__":
    main()
