#!/usr/bin/env python3
"""Measures customization whole and of touched cells alone, on one processor and on several, on the maps that are named.

    bench/customization.py [--processors 1,4] [--repeats N] [--rows 10,1000] SETTINGS OPL [OPL ..]

A line of TRAFFIC makes the costs of the settings and its rows, and customizes the cells that hold a change from the
metric before. So a file with a row for each segment of the map, both ways, and then none, customizes every cell each
time, and one whose rows have a rate each does so with costs whose weight is neither their duration nor their length; a
file of a thousand drawn rows and then none only those that the rows touch. Both take the reading of rows and
the making of the costs in. The same file once more changes nothing, so it takes that alone; what it took less is told
too, as the customization by itself. And the same file with a faulty row behind it is read to its end and refused, behind a line
without rows as the file itself is: what the file takes beyond that is told as the publication without its reading.

The program makes a thread for each processor that it may run on, so it is held to as many as are named. The baseline of
overlays (overlays/, or the program that OVERLAYS names: segments, turns, costs of two words, cells, cliques, in Rust without
proofs) is run before each turn, and tells what it takes to customize all cells, in one thread, and beside drawn rows what only
those take that hold a segment of theirs. Told are, for each kind of line, whole and in these parts, the processor seconds of all
threads and the time by the clock, the least of the turns, and the median of the turns' ratios of the clock to the baseline's time
for all cells, and for as many as drawn rows touch, since machines change their speed. Times by the clock mean something only where
as many processors are free.
"""
import argparse
import os
import random
import re
import statistics
import tempfile
import time

import common

PROCESSORS = sorted(os.sched_getaffinity(0))


def of_overlays(overlays, opl, settings, rows=None):
    """The seconds of the baseline's customization, and of that of the cells that these rows touch, if they are named; and the
    megabytes at its peak."""
    words = [overlays, opl, settings, "--pair", "--queries", "1", "--budget", "0", *(["--rows", rows] if rows else [])]
    text = common.run(words, [])[1].decode()
    whole, peak = (float(re.search(what, text, re.M)[1]) for what in (r"^customization: ([\d.]+) s", r"([\d.]+) MB at its peak"))
    touched = re.search(r"^customization of the touched cells: ([\d.]+) s", text, re.M)
    return whole, float(touched[1]) if touched else None, peak


def pairs_of(opl):
    """Each two neighbouring nodes of a way."""
    pairs = []
    with open(opl, encoding="utf-8") as lines:
        for line in lines:
            if line.startswith("w"):
                entries = [it for word in line.split() if word.startswith("N") for it in word[1:].split(",") if it]
                nodes = [it.lstrip("n").split("x")[0] for it in entries]
                pairs += zip(nodes, nodes[1:])
    return pairs


def write_rows(name, pairs, rate=""):
    """Rows of one speed for both directions of these pairs, and of this rate, if it is one."""
    with open(name, "w", encoding="ascii") as file:
        for a, b in pairs:
            file.write(f"{a},{b},13{rate}\n{b},{a},13{rate}\n")
    return name


def refused_of(name):
    """The same rows with a faulty one behind them."""
    with open(name, encoding="ascii") as rows, open(f"{name}.refused", "w", encoding="ascii") as file:
        file.write(rows.read() + "0,0,fast\n")
    return file.name


def taken(session, line):
    """What a line takes, of all processors and by the clock; its reply, and the memory."""
    began = time.monotonic()
    reply, (_, every), memory = session.line(line)
    return (every, time.monotonic() - began), memory, reply


def less(one, other):
    """What the first of two lines takes more."""
    return tuple(a - b for a, b in zip(one[0], other[0]))


def turn(session, line, unread):
    """What a line takes, and what of it is behind its reading, and its customization; the memory, and the reply."""
    session.line("TRAFFIC - -")
    told, again = taken(session, line), taken(session, line)
    session.line("TRAFFIC - -")
    refused = taken(session, unread)
    return (told[0], less(told, refused), less(told, again)), told[1], told[2]


def tell(kind, turns, others):
    """Tells of the turns of a kind of line, beside the baseline's seconds before each of them."""
    print(f"    {kind}: {turns[0][2][-40:]}")
    for which, part in enumerate(["in all", "beyond its reading", "its customization by itself"]):
        times = [it[0][which] for it in turns]
        least = [min(it[clock] for it in times) for clock in (0, 1)]
        ratios = [statistics.median(it[1] / other[cells] for it, other in zip(times, others)) for cells in (0, 1) if others[0][cells]]
        told = f"ratio of turns {ratios[0]:.2f}" + "".join(f", to as many cells {ratio:.2f}" for ratio in ratios[1:])
        print(f"      {part}: {least[0]:.4f} s of processors, {least[1]:.4f} s by the clock, {told}")
    held = ", ".join("%.1f %.1f %.1f" % it[1] for it in turns[:2])
    print(f"      held before, at the peak, after: {held} MB")
    touched = f", as many cells {min(other[1] for other in others):.4f} s" if others[0][1] else ""
    print(f"      overlays: {min(other[0] for other in others):.4f} s{touched}, peak {others[0][2]:.1f} MB", flush=True)


def measure(program, overlays, opl, given, processors, files):
    os.sched_setaffinity(0, PROCESSORS[:processors])
    began = time.monotonic()
    session = common.Session([program, "ask", opl, given.settings])
    by_clock, (start, peak) = time.monotonic() - began, (session.seconds()[1], session.megabytes()[1])
    print(f"  {processors} processors: start {start:.3f} s of processors, {by_clock:.3f} s by the clock, "
          f"peak {peak:.1f} MB")
    for kind, name in [("no change", None), *files]:
        line, unread = (f"TRAFFIC {name} -", f"TRAFFIC {refused_of(name)} -") if name else ("TRAFFIC - -", "TRAFFIC")
        others, turns = [], []
        for _ in range(given.repeats):
            others.append(of_overlays(overlays, opl, given.settings, name if kind.endswith(" rows") else None))
            turns.append(turn(session, line, unread))
        tell(kind, turns, others)
    session.end()


def measure_all(given, program, overlays):
    for opl in given.maps:
        print(f"== {os.path.basename(opl)}")
        pairs = pairs_of(opl)
        with tempfile.TemporaryDirectory() as folder:
            files = [("a row for each segment", write_rows(f"{folder}/all.csv", pairs)),
                     ("the same with a rate in each", write_rows(f"{folder}/rated.csv", pairs, ",7"))]
            for count in map(int, given.rows.split(",")):
                drawn = random.Random(1).sample(pairs, min(count // 2, len(pairs)))
                files.append((f"{count} rows", write_rows(f"{folder}/{count}.csv", drawn)))
            for processors in given.processors.split(","):
                measure(program, overlays, opl, given, int(processors), files)


def main():
    parser = argparse.ArgumentParser(usage=__doc__.split("\n\n")[1])
    parser.add_argument("--processors", default="1,4")
    parser.add_argument("--repeats", type=int, default=3)
    parser.add_argument("--rows", default="10,1000")
    parser.add_argument("settings")
    parser.add_argument("maps", nargs="+")
    given, program = parser.parse_args(), common.program()
    with tempfile.TemporaryDirectory() as folder:
        measure_all(given, program, common.overlays(folder))


if __name__ == "__main__":
    main()
