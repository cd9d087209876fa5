#!/usr/bin/env python3
"""Measures what a trip takes beside the table and the route that it is made of.

    bench/trips.py [--trips N] [--places N] [--repeats N] SETTINGS OPL [OPL ..]

On each map N (100) times nine random nodes, each moved by up to 200 metres, are asked for a round trip without a line,
then for the table of all to one another, then for the route through the stops in the order that the trip tells, back to
the first. A trip is the rows of that table, the best order, and the legs of that route.

Told is the processor time of a whole reply of each, with reading, snapping and text, the start taken away, the least of
the repeats; how the trip's stands to the other two together; and what of it they leave for the order. A trip snaps its
coordinates once and writes no table, so that it may take less than both. The legs of the trip have to be those of the
route, and its costs the table's along them; the status is 1 where they aren't, or where no trip is found at all.
"""
import argparse
import json
import os
import random
import sys

import common


def drawn(points, count, places, seed):
    """So many lists of random places, as coordinates."""
    chance = random.Random(seed)
    return [[common.near(chance, chance.choice(points), 0.002) for _ in range(places)] for _ in range(count)]


def line(service, places):
    query = {"route": "?overview=false", "table": "?annotations=duration,distance", "trip": "?overview=false"}[service]
    return f"GET /{service}/v1/car/{';'.join(places)}{query}"


def stops(reply):
    """The numbers of the coordinates in the order of a trip, the first again at the end; None where there is no trip."""
    value = json.loads(reply)
    if value["code"] != "Ok":
        return None
    order = sorted(range(len(value["waypoints"])), key=lambda number: value["waypoints"][number]["waypoint_index"])
    return order + order[:1]


def agree(trip, table, route, order):
    """Whether a trip has the legs of the route and the costs of the table."""
    trip, route, table = json.loads(trip)["trips"][0], json.loads(route)["routes"][0], json.loads(table)
    legs = [[round(10 * leg[part]) for leg in trip["legs"]] for part in ("duration", "distance")]
    cells = [[round(10 * table[part][a][b]) for a, b in zip(order, order[1:])] for part in ("durations", "distances")]
    return trip == route and legs == cells


def spent(words, lines, start, repeats):
    """The least milliseconds a reply, and the replies."""
    times, replies = zip(*(common.asked(words, lines) for _ in range(repeats)))
    return (min(times) - start) / len(lines) * 1000, replies[0]


def measured(words, settings, opl, given):
    """Prints the figures of one map; whether all that is told agrees."""
    start = common.start_of(words, given.repeats)
    lists = drawn(common.locations(opl, settings), given.trips, given.places, 1)
    orders = [stops(reply) for reply in common.asked(words, [line("trip", places) for places in lists])[1]]
    found = [(places, order) for places, order in zip(lists, orders) if order]
    print(f"== {os.path.basename(opl)}: {len(found)} of {len(lists)} trips through {given.places} places")
    if not found:
        return False
    asked = [
        ("trip", [line("trip", places) for places, _ in found]),
        ("table", [line("table", places) for places, _ in found]),
        ("route", [line("route", [places[number] for number in order]) for places, order in found]),
    ]
    (trip, trips), (table, tables), (route, routes) = (spent(words, lines, start, given.repeats) for _, lines in asked)
    apart = table + route
    print(f"  trip {trip:.3f} ms, table {table:.3f} ms, route {route:.3f} ms; "
          f"trip to both {trip / apart:.2f}, left for the order {trip - apart:.3f} ms")
    wrong = [told for told in zip(trips, tables, routes, (order for _, order in found)) if not agree(*told)]
    if wrong:
        print("DIFFERENT:", *wrong[0][:3], sep="\n")
    return not wrong


def main():
    parser = argparse.ArgumentParser(usage=__doc__.split("\n\n")[1])
    parser.add_argument("--trips", type=int, default=100)
    parser.add_argument("--places", type=int, default=9)
    parser.add_argument("--repeats", type=int, default=3)
    parser.add_argument("settings")
    parser.add_argument("maps", nargs="+")
    given = parser.parse_args()
    program, settings = common.program(), os.path.abspath(given.settings)
    fine = [measured([program, "ask", os.path.abspath(opl), settings], settings, opl, given) for opl in given.maps]
    sys.exit(0 if all(fine) else 1)


if __name__ == "__main__":
    main()
