#!/usr/bin/env python3
"""Measures what one walk through all places takes beside the same route of each leg by itself.

    bench/through.py [--routes N] [--places 2,5,9,25] [--repeats N] [--bar] SETTINGS OPL [OPL ..]

On each map N (100) routes through each of these counts of random nodes, each moved by up to 200 metres, are asked for
without a line, with `continue_straight=false` and with `continue_straight=true`. Of each leg the former is one query with
its walk; the latter is costs from both directions of its first place to both of its second, and then one walk between two
of these.

Told is the processor time of a whole reply of both, with reading, snapping and text, the start taken away, the least of
the repeats, which alternate between the two, and the ratio (at most 3 is wanted). Threads of the program are counted; under
`taskset -c 0` they share one processor. Routes that one of the two doesn't find are left out. One walk may not
cost less than its legs by themselves, between two places it costs the same, and each of its legs has to begin with the
two nodes with which the one before ends. The status is 1 where that isn't so or no route is found, with --bar also where a
ratio is above what is wanted.
"""
import argparse
import json
import os
import random
import sys

import common

MOST = 3


def drawn(points, count, places, seed):
    """The coordinates of so many routes through so many random places."""
    chance = random.Random(seed)
    return [";".join(common.near(chance, chance.choice(points), 0.002) for _ in range(places)) for _ in range(count)]


def line(route, straight, more=""):
    return f"GET /route/v1/car/{route}?overview=false&continue_straight={straight}{more}"


def found(reply):
    """The route of a reply, None where it is of another kind."""
    value = json.loads(reply)
    return value["routes"][0] if value["code"] == "Ok" else None


def costs(route):
    """The weight, the duration and the length of a route, as whole tenths."""
    return [round(10 * route[part]) for part in ("weight", "duration", "distance")]


def agree(apart, through):
    """Whether one walk is one, and no cheaper than its legs by themselves."""
    nodes = [leg["annotation"]["nodes"] for leg in through["legs"]]
    goes_on = all(one[-2:] == other[:2] for one, other in zip(nodes, nodes[1:]))
    same = len(nodes) > 1 or costs(through) == costs(apart)
    return goes_on and same and costs(through) >= costs(apart)


def spent(words, both, start, repeats):
    """The least milliseconds a reply of each of both lists of lines, in turns."""
    times = [[], []]
    for _ in range(repeats):
        for own, lines in zip(times, both):
            own.append(common.asked(words, lines)[0])
    return [(min(own) - start) / len(lines) * 1000 for own, lines in zip(times, both)]


def measured(words, places, points, start, given):
    """Prints the figures for routes through so many places; whether all agrees, and under a bar no ratio is above it."""
    routes = drawn(points, given.routes, places, places)
    replies = [common.asked(words, [line(route, straight, "&annotations=nodes") for route in routes])[1] for straight in ("false", "true")]
    pairs = [(route, found(apart), found(through), through) for route, apart, through in zip(routes, *replies)]
    pairs = [pair for pair in pairs if pair[1] and pair[2]]
    if not pairs:
        print(f"  {places} places: no route is found")
        return False
    both = [[line(route, straight) for route, *_ in pairs] for straight in ("false", "true")]
    apart, through = spent(words, both, start, given.repeats)
    print(f"  {places} places, {len(pairs)} of {len(routes)} routes: each leg by itself {apart:.3f} ms, "
          f"one walk {through:.3f} ms, ratio {through / apart:.2f}")
    wrong = [reply for _, one, other, reply in pairs if not agree(one, other)]
    if wrong:
        print("NOT ONE LEAST WALK:", wrong[0], sep="\n")
    return not wrong and (not given.bar or through <= MOST * apart)


def main():
    parser = argparse.ArgumentParser(usage=__doc__.split("\n\n")[1])
    parser.add_argument("--routes", type=int, default=100)
    parser.add_argument("--places", default="2,5,9,25")
    parser.add_argument("--repeats", type=int, default=3)
    parser.add_argument("--bar", action="store_true")
    parser.add_argument("settings")
    parser.add_argument("maps", nargs="+")
    given, fine = parser.parse_args(), []
    program, settings = common.program(), os.path.abspath(given.settings)
    for opl in map(os.path.abspath, given.maps):
        print(f"== {os.path.basename(opl)}")
        words, points = [program, "ask", opl, settings], common.locations(opl, settings)
        start = common.start_of(words, given.repeats)
        fine += [measured(words, int(places), points, start, given) for places in given.places.split(",")]
    sys.exit(0 if all(fine) else 1)


if __name__ == "__main__":
    main()
