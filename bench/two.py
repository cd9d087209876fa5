#!/usr/bin/env python3
"""Measures two built programs beside each other: is the newer one any slower?

    bench/two.py [--pairs N] [--repeats N] [--bar RATIO] OLD NEW [SETTINGS [OPL ..]]

OLD and NEW are programs that `ask`, each as its file. On each map they do the same in turn, the old one first, N times
(5) each. They start. Then both stand, and are given one line after the other: routes between N pairs (200) of random
nodes, each moved by up to 200 metres, without a line; the same with a line, annotations and steps; and the table of the
first places of a hundred of them to one another. Then, each from a metric without rows, traffic files with a row for each
segment of the map, both ways, so that every cell is customized, with a rate in each besides, and without a row, which
leaves all as it is. SETTINGS are those of car.toml where none are named, and a town is generated where no map is.

They run on one processor, where they start no threads. Told are, of the older and of the newer, the processor time, for
routes and tables the sum of what each line took at least, else the least of the repeats, the peak of memory of the start
and of traffic files, and the ratio. What ratios are by chance is told by a program beside itself; more repeats help. The
status is 1 where replies tell other costs or places, with --bar also where a ratio is above this one; in lines,
annotations and steps they may differ, and how many do is told.
"""
import argparse
import os
import sys
import tempfile

import common
from customization import PROCESSORS, pairs_of, write_rows
from replies import without_walks


def kinds_of(opl, settings, pairs):
    """What is asked for: of each kind its name, its lines, and by how many its time is divided."""
    targets = common.random_targets(common.locations(opl, settings), pairs, 1)
    plain = [f"GET {target}" for target in targets]
    told = [line.replace("overview=false", "overview=full&annotations=true&steps=true") for line in plain]
    firsts = [target.split("/")[-1].split(";")[0] for target in targets[:100]]
    table = f"GET /table/v1/car/{';'.join(firsts)}?annotations=duration,distance"
    return [
        ("a route", plain, len(plain)),
        ("a route with line, annotations and steps", told, len(told)),
        ("a row of the table of a hundred", [table], len(firsts)),
    ]


def files_of(opl, folder):
    """Kinds of traffic files, and their names."""
    pairs = pairs_of(opl)
    return [
        ("a row for each segment", write_rows(f"{folder}/all.csv", pairs)),
        ("the same with a rate in each", write_rows(f"{folder}/rated.csv", pairs, ",7")),
        ("no row", "-"),
    ]


def started(words):
    """What a start takes, in milliseconds and megabytes."""
    session = common.Session(words)
    taken = session.seconds()[1] * 1000, session.megabytes()[1]
    session.end()
    return taken


def asked(session, line):
    """The milliseconds that a line takes, and its reply."""
    before = session.seconds()[1]
    reply = session.ask(line)
    return (session.seconds()[1] - before) * 1000, reply


def rows_taken(session, file):
    """The milliseconds that a line of TRAFFIC takes from a metric without rows, the peak of memory, and the reply."""
    session.ask("TRAFFIC - -")
    reply, (_, every), (_, peak, _) = session.line(f"TRAFFIC {file} -")
    return every * 1000, peak, reply


def in_turn(repeats, both, what):
    """Of each of both what each of the repeats gives."""
    tries = [[what(one) for one in both] for _ in range(repeats)]
    return list(zip(*tries))


def row(name, unit, old, new):
    """Prints a figure of both programs, and gives the ratio."""
    ratio = new / old if old > 0 else float("nan")
    print(f"  {name:42}{old:10.3f}{new:10.3f}{ratio:8.3f}  {unit}", flush=True)
    return ratio


def compared(replies):
    """Prints how many replies of both are alike; whether all tell the same costs and places."""
    pairs = list(zip(*replies))
    equal = sum(old == new for old, new in pairs)
    # no request is for one walk through all places
    wrong = [(old, new) for old, new in pairs if without_walks("", old) != without_walks("", new)]
    print(f"  {len(pairs)} replies: {equal} equal, {len(pairs) - equal - len(wrong)} of other lines, annotations or steps")
    if wrong:
        print("DIFFERENT:", *(text[:600] for text in wrong[0]), sep="\n")
    return not wrong


def measured(programs, opl, given, folder):
    """Prints the figures of one map; whether replies are alike, and no ratio is above the bar."""
    both = [[program, "ask", opl, given.settings] for program in programs]
    print(f"== {os.path.basename(opl)}, the least of {given.repeats}\n  {'':42}{'old':>10}{'new':>10}{'ratio':>8}")
    starts = in_turn(given.repeats, both, started)
    ratios = [row("start", unit, *(min(run[which] for run in own) for own in starts)) for which, unit in enumerate(("ms", "MB"))]
    sessions, replies = [common.Session(words) for words in both], ([], [])
    for name, lines, count in kinds_of(opl, given.settings, given.pairs):
        runs = in_turn(given.repeats, sessions, lambda session: [asked(session, line) for line in lines])
        least = [sum(min(taken for taken, _ in tries) for tries in zip(*own)) / count for own in runs]
        ratios.append(row(name, "ms", *least))
        for told, own in zip(replies, runs):
            told += [reply for _, reply in own[0]]
    for name, file in files_of(opl, folder):
        runs = in_turn(given.repeats, sessions, lambda session: rows_taken(session, file))
        ratios += [row(name, unit, *(min(run[which] for run in own) for own in runs)) for which, unit in enumerate(("ms", "MB"))]
        for told, own in zip(replies, runs):
            told.append(own[0][2])
    for session in sessions:
        session.end()
    return compared(replies) and not (given.bar and max(ratios) > given.bar)


def main():
    parser = argparse.ArgumentParser(usage=__doc__.split("\n\n")[1])
    parser.add_argument("--pairs", type=int, default=200)
    parser.add_argument("--repeats", type=int, default=5)
    parser.add_argument("--bar", type=float)
    parser.add_argument("old")
    parser.add_argument("new")
    parser.add_argument("settings", nargs="?", default=common.CAR)
    parser.add_argument("maps", nargs="*")
    given = parser.parse_args()
    programs = [common.executable(path, "OLD and NEW are built programs") for path in (given.old, given.new)]
    given.settings = os.path.abspath(given.settings)
    os.sched_setaffinity(0, PROCESSORS[:1])
    with tempfile.TemporaryDirectory() as folder:
        maps = [os.path.abspath(opl) for opl in given.maps] or [os.path.join(folder, "town.opl")]
        if not given.maps:
            with open(maps[0], "w", encoding="ascii") as out:
                common.town(100, out)
        fine = [measured(programs, opl, given, folder) for opl in maps]
    sys.exit(0 if all(fine) else 1)


if __name__ == "__main__":
    main()
