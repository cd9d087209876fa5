#!/usr/bin/env python3
"""Measures how long a target takes to be read, by its bytes.

    bench/targets.py [--lines N] SETTINGS OPL

Targets of 25 to 400 coordinates, with all options of a route and without any, are asked through `ask`, each N times
(2000); each is refused, last of all that is judged, for a coordinate out of range or for its last option, so that what
is measured is reading alone. Printed are processor microseconds a target (the start-up taken away) and nanoseconds a
byte. One map serves as well as another: take a small one.
"""
import argparse

import common


def coordinates(count, last):
    near = [f"{13 + i % 7 / 1000:.6f},{53 + i % 11 / 1000:.6f}" for i in range(count - 1)]
    return ";".join(near + [last])


def options(count, last_one):
    many = {
        "radiuses": ";".join(["49.5"] * count),
        "bearings": ";".join(["45,10"] * count),
        "approaches": ";".join(["unrestricted"] * count),
        "hints": ";" * (count - 1),
    }
    few = ("generate_hints=false&skip_waypoints=true&snapping=default&since=0&alternatives=2&steps=true"
           "&annotations=nodes,speed&geometries=geojson&overview=false")
    return "&".join([f"{name}={text}" for name, text in many.items()] + [few, last_one])


def main():
    parser = argparse.ArgumentParser(usage=__doc__.split("\n\n")[1])
    parser.add_argument("--lines", type=int, default=2000)
    parser.add_argument("settings")
    parser.add_argument("map")
    given = parser.parse_args()
    words = [common.program(), "ask", given.map, given.settings]
    start = common.start_of(words)
    for count in (25, 50, 100, 200, 400):
        for kind, last, query in (
            ("coordinates alone", "200,0", ""),
            ("all options", "200,0", "?" + options(count, "continue_straight=false")),
            ("its last option refused", "13,53", "?" + options(count, "continue_straight=no")),
        ):
            line = f"GET /route/v1/car/{coordinates(count, last)}{query}"
            spent, replies = min(common.asked(words, [line] * given.lines) for _ in range(3))
            each = (spent - start) / given.lines
            print(f"{count} coordinates, {kind}: {len(line)} bytes, {each * 1e6:.1f} us, "
                  f"{each * 1e9 / len(line):.1f} ns a byte ({replies[0][:60]})")


if __name__ == "__main__":
    main()
