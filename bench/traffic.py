#!/usr/bin/env python3
"""Measures what a TRAFFIC line takes, in time and in memory, beside the baseline of this folder, in one run.

    bench/traffic.py [--town N] [--rows N] [--files SPEEDS,TURNS] [--repeats N] [SETTINGS [OPL]]

The program and the baseline, which applies rows in two ways (its own and that of the program, as `mirror`), read the
generated town N (300), or the map that is named, and are then given lines of TRAFFIC one by one: without rows
(`TRAFFIC - -`); with N rows of speeds and N of turns (100,000), drawn, or the files that are named; and with the same
rows and one more, the last of the turns, that is faulty. SETTINGS are those of car.toml where none are named.

The program customizes the cells that hold a change from the metric before, which the baseline has no use for, in
threads, and the thread that reads lines waits for them; so what is told of a line is the processor time of the first
thread alone, as the kernel counts it (/proc, Linux only), and that of all threads. Reading and applying is then what a
line with rows takes of the first thread beyond one without, with what this thread customizes itself, which is most of
it where the map is large. The refused line is read and judged, and nothing else is done: reading alone. Each figure is
the least of the repeats.

For memory the peak is begun anew before each line (/proc/PID/clear_refs). It needs rustc for the baseline.
"""
import argparse
import os
import random
import subprocess
import sys
import tempfile

import common
import traffic_rows


def drawn(opl, count, folder):
    """Files of so many rows each."""
    chance = random.Random(1)
    pairs, around = traffic_rows.meetings(opl)
    names = [os.path.join(folder, "speeds.csv"), os.path.join(folder, "turns.csv")]
    files = traffic_rows.speed_rows(chance, pairs, count), traffic_rows.turn_rows(chance, around, count)
    for name, rows in zip(names, files):
        with open(name, "wb") as out:
            out.write(traffic_rows.plain(rows))
    return names


def measured(command, lines, repeats):
    """Of each kind of line the replies, the least times and the memory of each time."""
    session = common.Session(command)
    start = (session.seconds(), session.megabytes())
    told = {kind: [] for kind in lines}
    for _ in range(repeats):
        for kind, line in lines.items():
            told[kind].append(session.line(line))
    session.end()
    return start, told


def main():
    parser = argparse.ArgumentParser(usage=__doc__.split("\n\n")[1])
    parser.add_argument("--town", type=int, default=300)
    parser.add_argument("--rows", type=int, default=100_000)
    parser.add_argument("--files")
    parser.add_argument("--repeats", type=int, default=5)
    parser.add_argument("settings", nargs="?", default=common.CAR)
    parser.add_argument("map", nargs="?")
    given, program = parser.parse_args(), common.program()
    with tempfile.TemporaryDirectory() as folder:
        baseline, opl = common.baseline(folder), given.map or os.path.join(folder, "town.opl")
        if not given.map:
            with open(opl, "wb") as out:
                subprocess.run([program, "town", str(given.town)], stdout=out, check=True)
        speeds, turns = given.files.split(",") if given.files else drawn(opl, given.rows, folder)
        faulty = os.path.join(folder, "faulty.csv")
        with open(faulty, "wb") as out, open(turns, "rb") as good:
            out.write(good.read() + b"\n1,2,3,x\n")
        lines = {
            "no rows": "TRAFFIC - -",
            "all rows": f"TRAFFIC {speeds} {turns}",
            "refused at the last row": f"TRAFFIC {speeds} {faulty}",
        }
        runs = [(program, "ask"), (baseline, "ask"), (baseline, "mirror")]
        both = [measured([*run, opl, given.settings], lines, given.repeats) for run in runs]
    tell(lines, both)


def tell(lines, both):
    replies = [[reply for kind in lines for reply, _, _ in told[kind]] for _, told in both]
    alike = all(other == replies[0] for other in replies)
    last = "; ".join(both[0][1][kind][-1][0] for kind in lines)
    print("replies:", "alike" if alike else f"DIFFERENT: {replies}", last)
    print(f"{'processor seconds':<42} {'program':>9} {'baseline':>9} {'mirror':>9} {'ratios':>7}")

    def row(name, all_of):
        ratios = [all_of[0] / max(other, 1e-9) for other in all_of[1:]]
        print(f"{name:<42}", *(f"{figure:>9.4f}" for figure in all_of), *(f"{ratio:>7.2f}" for ratio in ratios))

    least = {kind: [min(times[0] for _, times, _ in told[kind]) for _, told in both] for kind in lines}
    row("start, all threads", [start[0][1] for start, _ in both])
    for kind in lines:
        row(f"{kind}, first thread", least[kind])
        row(f"{kind}, all threads", [min(times[1] for _, times, _ in told[kind]) for _, told in both])
    row("reading, judging (refused line)", least["refused at the last row"])
    row("reading and applying (all - no rows)", [a - b for a, b in zip(least["all rows"], least["no rows"])])
    for name, (start, told) in zip(("program", "baseline", "mirror"), both):
        held, peak = start[1]
        print(f"{name}, megabytes: {held:.1f} after the start (peak {peak:.1f}); each line before, at its peak, after:")
        for kind in lines:
            print(f"    {kind}: " + ", ".join(" ".join(f"{size:.1f}" for size in sizes) for _, _, sizes in told[kind]))
    sys.exit(0 if alike else 1)


if __name__ == "__main__":
    main()
