#!/usr/bin/env python3
"""Measures routes and tables between pairs of places that a baseline of overlays draws, beside what it takes for them.

    bench/queries.py [--rated] [--pairs N] [--repeats N] SETTINGS OPL [OPL ..]

The baseline (overlays/, or the program that OVERLAYS names: segments, turns, costs of two words, cells, cliques,
queries, unpacking, rows of a table, in Rust without proofs) draws pairs of segments, answers a query with its walk for
each, and tells where their nodes lie. The program is asked by `ask` for a route between each pair of
nodes, without a line, and for the table of the first places of a hundred pairs to one another, where the baseline's
rows lead to their second places. A node lies on several segments, of which the program takes one; else the two answer
the same questions.

Both are run by turns, the baseline and then the program, which stands from the first turn on and is given one line
after the other. Told is the processor time of a whole reply, with reading, snapping and text, in the mean of the lines,
beside the baseline's for a query with its walk, and for a row of the table: the least turn of each, and the ratio of
each turn with their median, since machines change their speed. Threads of the program are counted, so rows in threads
cost what they cost in all; under `taskset -c 0` they share one processor. With --rated the program has a traffic file
first that gives each way a rate, so that what each weighs is neither its duration nor its length; the baseline has
none, and is asked other questions then.
"""
import argparse
import os
import re
import statistics
import tempfile

import common
from customization import pairs_of, write_rows


def of_overlays(overlays, settings, opl, pairs, folder):
    """Its milliseconds a walk and a row, and the pairs that it drew as two texts each."""
    prefix = os.path.join(folder, "pairs")
    words = [overlays, opl, settings, "--pair", "--queries", str(pairs), "--budget", "60", "--export", prefix]
    text = common.run(words, [])[1].decode()
    walk, row = (float(re.search(rf"^CRP {what}:.* mean ([\d.]+) ms", text, re.M)[1]) for what in ("walk", "row of a table"))
    with open(prefix + ".pairs", encoding="ascii") as lines:
        words = [line.split() for line in lines]
    return (walk, row), [(f"{w[4]},{w[5]}", f"{w[6]},{w[7]}") for w in words]


def table_line(places):
    return f"GET /table/v1/car/{';'.join(places)}"


def kinds_of(pairs):
    """What is asked for: of each kind its name, by how many its time is divided, and its lines."""
    routes = [f"GET /route/v1/car/{one};{other}?overview=false" for one, other in pairs]
    firsts = [one for one, _ in pairs[:100]]
    return [
        ("a route and the baseline's query with its walk", len(pairs), routes),
        ("a row of the table of the first hundred", len(firsts), [table_line(firsts)]),
    ]


def asked(session, lines):
    """The milliseconds that each line takes, and how many replies are Ok."""
    taken, good = [], 0
    for line in lines:
        before = session.seconds()[1]
        reply = session.ask(line)
        taken.append((session.seconds()[1] - before) * 1000)
        good += '"code":"Ok"' in reply
    return taken, good


def told(name, count, turns, baseline):
    """Prints the least of both, and the ratios of the turns with their median."""
    means = [sum(taken) / count for taken, _ in turns]
    ratios = [own / other for own, other in zip(means, baseline)]
    print(f"  {name}: {min(means):.3f} ms, {min(baseline):.3f} ms, ratio {statistics.median(ratios):.2f} "
          f"(by turns {', '.join(f'{ratio:.2f}' for ratio in ratios)}); {turns[0][1]} of {len(turns[0][0])} replies Ok", flush=True)


def measure(given, program, overlays, opl, folder):
    session, taken, baselines = None, [], []
    for _ in range(given.repeats):
        baseline, pairs = of_overlays(overlays, given.settings, opl, given.pairs, folder)
        if session is None:
            session = common.Session([program, "ask", opl, given.settings])
            if given.rated:
                session.ask(f"TRAFFIC {write_rows(f'{folder}/rated.csv', pairs_of(opl), ',7')} -")
        baselines.append(baseline)
        taken.append([asked(session, lines) for _, _, lines in kinds_of(pairs)])
    session.end()
    print(f"== {os.path.basename(opl)}, {len(pairs)} pairs")
    for which, (name, count, _) in enumerate(kinds_of(pairs)):
        told(name, count, [turn[which] for turn in taken], [one[which] for one in baselines])


def main():
    parser = argparse.ArgumentParser(usage=__doc__.split("\n\n")[1])
    parser.add_argument("--rated", action="store_true")
    parser.add_argument("--pairs", type=int, default=1000)
    parser.add_argument("--repeats", type=int, default=3)
    parser.add_argument("settings")
    parser.add_argument("maps", nargs="+")
    given, program = parser.parse_args(), common.program()
    with tempfile.TemporaryDirectory() as folder:
        overlays = common.overlays(folder)
        for opl in given.maps:
            measure(given, program, overlays, opl, folder)


if __name__ == "__main__":
    main()
