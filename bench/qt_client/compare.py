#!/usr/bin/env python3
"""Asks a server for routes through QtLocation and directly, and compares what Qt has read with the replies.

    bench/qt_client/compare.py CLIENT URL SETTINGS OPL [COUNT]

CLIENT is main.cpp, built; URL the server, as http://127.0.0.1:5000; SETTINGS and OPL what it serves. So many routes that the
server has (20) are drawn, about each third through a place between. Of each, Qt has to have read one route, with the metres
and whole seconds and as many steps as in the reply of the server to the target that Qt's plugin asks for, and as many points
as the lines of those steps have together. Printed are routes, steps and points in all. The status is 1 where anything
differs."""
import itertools
import json
import os
import random
import re
import subprocess
import sys
import urllib.error
import urllib.request

sys.path.append(os.path.dirname(os.path.dirname(os.path.abspath(__file__))))
import common

ASKED = "overview=full&steps=true&geometries=polyline6&alternatives=true"


def drawn(points):
    """The coordinates of routes without end, each third through a place between."""
    chance = random.Random(20)
    place = lambda: common.near(chance, chance.choice(points), 0.002)
    for number in itertools.count():
        yield ";".join(place() for _ in range(3 if number % 3 == 2 else 2))


def points_of(line):
    """How many points an encoded line has: two numbers each, whose last byte is below 95."""
    return sum(ord(letter) < 95 for letter in line) // 2


def replied(url, coordinates):
    """Metres, whole seconds, steps and points of the reply; None where it has no route."""
    target = f"{url}/route/v1/car/{coordinates}?{ASKED}&bearings={';' * coordinates.count(';')}"
    try:
        with urllib.request.urlopen(target) as reply:
            route = json.load(reply)["routes"][0]
    except urllib.error.HTTPError:
        return None
    steps = [step for leg in route["legs"] for step in leg["steps"]]
    points = sum(points_of(step["geometry"]) for step in steps)
    return route["distance"], int(route["duration"]), len(steps), points


def read_by_qt(client, url, routes):
    """The same as Qt has read it, for each of these routes."""
    words = [client, f"{url}/route/v1/car/", *routes]
    told = subprocess.run(words, stdout=subprocess.PIPE, env={**os.environ, "QT_QPA_PLATFORM": "offscreen"}, check=False).stdout.decode()
    found = {}
    for coordinates in routes:
        form = rf"^{re.escape(coordinates)}: 1 routes \n(\S+) m, (\d+) s, (\d+) steps, (\d+) points$"
        one = re.search(form, told, re.M)
        found[coordinates] = one and (float(one[1]), *map(int, one.groups()[1:]))
    return found


def main():
    client, url, settings, opl, *count = sys.argv[1:]
    count = int(count[0]) if count else 20
    tried = itertools.islice(drawn(common.locations(opl, settings)), 20 * count)
    replies = ((coordinates, replied(url, coordinates)) for coordinates in tried)
    ours = dict(itertools.islice(((coordinates, reply) for coordinates, reply in replies if reply), count))
    theirs = read_by_qt(client, url, list(ours))
    differ = [coordinates for coordinates in ours if ours[coordinates] != theirs[coordinates]]
    for coordinates in differ:
        print(f"{coordinates}: the reply has {ours[coordinates]}, Qt {theirs[coordinates]}")
    steps, points = (sum(reply[part] for reply in ours.values()) for part in (2, 3))
    print(f"{len(ours)} routes of {steps} steps and {points} points, {len(differ)} of them read otherwise")
    sys.exit(1 if differ or len(ours) < count else 0)


if __name__ == "__main__":
    main()
