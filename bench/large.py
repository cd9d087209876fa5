#!/usr/bin/env python3
"""What large maps take: a map of N segments and one of four times as many, each read and built, and started on.

    bench/large.py [--segments N] [--repeats N] [--folder FOLDER] [--bar] [SETTINGS]

The maps are those of `road_map.py` of about so many segments (1000000); they are made in FOLDER, or taken where they
stand there, or else in a folder that is removed. Over each, `check`, which reads and builds, and `ask` over one route from
corner to corner are run, of the program and of `baseline.rs`, in turn, so often (once), and the least is taken. The start of
the baseline has no cells and customizes nothing. Both have to print the same.

Printed are the seconds by the clock and of all processors and the peak of memory of each run; then how the start on the
larger map compares with four times that on the smaller one (at most 1.5 is wanted), and reading and building with the
baseline's in time and memory (at most 1.3). The status is 1 where outputs differ, with --bar also where a ratio, of processor
seconds or of memory, is above what is wanted. SETTINGS are those of car.toml where none are named. It needs rustc."""
import argparse
import os
import subprocess
import sys
import tempfile
import time

import common
import road_map

LARGER, MOST_START, MOST_BUILD = 4, 1.5, 1.3


def taken(words, line):
    """Seconds by the clock and of all processors, megabytes at the peak, and what a run over this line of input prints."""
    with tempfile.TemporaryFile() as given, tempfile.TemporaryFile() as told:
        given.write(line.encode())
        given.seek(0)
        began = time.monotonic()
        child = subprocess.Popen(words, stdin=given, stdout=told)
        _, status, usage = os.wait4(child.pid, 0)
        clock = time.monotonic() - began
        child.returncode = os.waitstatus_to_exitcode(status)
        told.seek(0)
        output = told.read().decode()
    if child.returncode != 0:
        sys.exit(f"bench: {' '.join(words)} ended with status {child.returncode}: {output[-200:]}")
    return (clock, usage.ru_utime + usage.ru_stime, usage.ru_maxrss / 1024), output


def least(programs, words, line, repeats):
    """The least of each figure of the program and of the baseline; they have to print the same."""
    figures = [[], []]
    for _ in range(repeats):
        outputs = []
        for figure, program in zip(figures, programs):
            of_run, output = taken([program, *words], line)
            figure.append(of_run)
            outputs.append(output)
        if outputs[0] != outputs[1]:
            sys.exit(f"bench: outputs differ: {outputs[0]} and {outputs[1]}")
    return [[min(column) for column in zip(*figure)] for figure in figures], outputs[0]


def map_of(segments, folder):
    """A map of about so many segments, and the two ends of a route over it."""
    path = os.path.join(folder, f"roads-{segments}.opl")
    ends = f"{path}.ends"
    if not os.path.isfile(ends):
        corners = road_map.write(segments, path)
        with open(ends, "w", encoding="ascii") as out:
            out.write(";".join(corners))
    with open(ends, encoding="ascii") as told:
        return path, told.read()


def row(what, both):
    """Prints what a command takes of the program and of the baseline."""
    cells = ["".join(f"{figure:10.2f}" for figure in figures[:2]) + f"{figures[2]:10.0f}" for figures in both]
    ratios = "".join(f"{mine / other:8.2f}" for mine, other in list(zip(*both))[1:])
    print(f"{what:8}", *cells, ratios, flush=True)


def measure(programs, segments, given, folder):
    """What `check` and `ask` take on such a map."""
    path, ends = map_of(segments, folder)
    build, counts = least(programs, ["check", path, given.settings], "", given.repeats)
    print(f"{os.path.getsize(path) / 1e6:.0f} MB,", ", ".join(f"{line.split()[1]} {line.split()[0]}" for line in counts.splitlines()))
    print(f"{'':8}", *(f"{name + ' clock':>10}{'processor':>10}{'MB':>10}" for name in ("ours", "base")), f"{'time':>8}{'memory':>8}")
    row("check", build)
    start, _ = least(programs, ["ask", path, given.settings], f"GET /route/v1/car/{ends}?overview=false\n", given.repeats)
    row("ask", start)
    return build, start


def main():
    parser = argparse.ArgumentParser(usage=__doc__.split("\n\n")[1])
    parser.add_argument("--segments", type=int, default=1_000_000)
    parser.add_argument("--repeats", type=int, default=1)
    parser.add_argument("--folder")
    parser.add_argument("--bar", action="store_true")
    parser.add_argument("settings", nargs="?", default=common.CAR)
    given = parser.parse_args()
    given.settings = os.path.abspath(given.settings)
    wanted = []
    with tempfile.TemporaryDirectory() as scratch:
        programs = [common.program(), common.baseline(scratch)]
        folder = given.folder or scratch
        found = [measure(programs, count * given.segments, given, folder) for count in (1, LARGER)]
    smaller, larger = (start[0] for _, start in found)
    for number, what in enumerate(("clock", "processors", "memory")):
        ratio = larger[number] / (LARGER * smaller[number])
        print(f"start on the larger map beside {LARGER} times that on the smaller, {what}: {ratio:.2f}")
        wanted += [ratio <= MOST_START] if number else []
    for (ours, base), _ in found:
        time_of, memory = ours[1] / base[1], ours[2] / base[2]
        print(f"reading and building beside the baseline: time {time_of:.2f}, memory {memory:.2f}")
        wanted += [time_of <= MOST_BUILD, memory <= MOST_BUILD]
    sys.exit(0 if all(wanted) or not given.bar else 1)


if __name__ == "__main__":
    main()
