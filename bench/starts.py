#!/usr/bin/env python3
"""Measures the whole start beside what a baseline of overlays takes for the same, on the maps that are named.

    bench/starts.py [--repeats N] SETTINGS OPL [OPL ..]

The program is started by `ask` and given one line: told is the processor time of all its threads until it has replied, and
its peak of memory. The baseline (overlays/, or the program that OVERLAYS names) tells itself what reading and building,
weights, partition, frame and customization take, and its peak. Both are run by turns; told are the least of each, their
ratio, and the median of the ratios of turns, since machines change their speed. Under `taskset -c 0` the program starts no
thread, as the baseline has none.
"""
import argparse
import os
import re
import statistics
import tempfile

import common

STAGES = r"^(?:read and built|weights|partition|frame|customization): ([\d.]+) s"


def of_program(program, opl, settings):
    """The processor seconds until its first reply, and the megabytes at its peak."""
    session = common.Session([program, "ask", opl, settings])
    taken = session.seconds()[1], session.megabytes()[1]
    session.end()
    return taken


def of_overlays(overlays, opl, settings):
    """The seconds of all stages of the baseline, and the megabytes at its peak."""
    text = common.run([overlays, opl, settings, "--pair", "--queries", "1", "--budget", "0"], [])[1].decode()
    stages = re.findall(STAGES, text, re.M)
    if len(stages) != 5:
        raise SystemExit(f"bench: the baseline tells {len(stages)} stages of 5")
    return sum(map(float, stages)), float(re.search(r"([\d.]+) MB at its peak", text)[1])


def ratio(own, other):
    """Of a map so small that the baseline tells no milliseconds there is none."""
    return own / other if other else float("nan")


def main():
    parser = argparse.ArgumentParser(usage=__doc__.split("\n\n")[1])
    parser.add_argument("--repeats", type=int, default=7)
    parser.add_argument("settings")
    parser.add_argument("maps", nargs="+")
    given, program = parser.parse_args(), common.program()
    with tempfile.TemporaryDirectory() as folder:
        overlays = common.overlays(folder)
        for opl in given.maps:
            turns = [(of_program(program, opl, given.settings), of_overlays(overlays, opl, given.settings))
                     for _ in range(given.repeats)]
            own, other = (min(turn[which][0] for turn in turns) for which in (0, 1))
            peaks = [min(turn[which][1] for turn in turns) for which in (0, 1)]
            median = statistics.median(ratio(turn[0][0], turn[1][0]) for turn in turns)
            print(f"{os.path.basename(opl)}: {own:.3f} s, {other:.3f} s, ratio {ratio(own, other):.2f}, of turns {median:.2f}; "
                  f"peaks {peaks[0]:.1f} MB, {peaks[1]:.1f} MB", flush=True)


if __name__ == "__main__":
    main()
