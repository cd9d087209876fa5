#!/usr/bin/env python3
"""Measures and compares replies of all services against the baseline of this folder, in one run.

    bench/replies.py [--traffic SPEEDS,TURNS] [--tangles N] [--roads 1000,..] [--only-compare] [SETTINGS [OPL ..]]

On each map random places are asked for: `nearest` with one and with ten results, tables of 100 by 100, routes without
a line, with a simplified line, with a full one and all annotations, and with steps, routes through five places with
each leg by itself and as one walk (`continue_straight=true`), trips through nine places without a line and with all, and
one route of 500 places that goes to and fro between two far ones, without a line and with a simplified one. Then come
long roads, of so many segments (1000,2000,5000,10000): one way, whose whole line and annotations are asked for, and a
chain of ways of other names, whose steps are asked for. SETTINGS are those of car.toml where none are named. It needs
rustc for the baseline.

Then traffic: on each map, on N small maps made to be hard (20), on as many small towns whose crossings are
roundabouts, and on as many of short ways with many turn restrictions over them, lines of TRAFFIC with drawn files, good
ones in all forms of CSV and faulty ones, and with the files that are named, stand between requests of all services. What
is wrong with a faulty file is known from the drawing, so both have to tell that. Two in eleven requests are for a route
through two to five drawn places, some of them one from before again, half of these as one walk. All this is done twice,
under SETTINGS and under the same as version 2 with `maxspeed`, `weight_name`, surfaces, classes and sets of them that are
drawn for each map. Of the rows of a file one in a hundred, half or all have a rate or a weight. Where settings have such
sets, half of the requests exclude one, its names in any order and some of them doubled, or what is no set, and some do so
twice.

Printed are processor microseconds a request of both (the start-up taken away), the ratio, the bytes of a reply, and
how many replies were equal byte for byte. Two least walks may differ where costs are the same: such replies are
compared without their lines, annotations and steps, and counted apart, but where their steps tell that they are of the
same walks after all; a trip has one best order all the same. Of one walk through all places only what it costs in all is
compared then: another that costs as much may come to a place in a longer leg and go on from it in a shorter one. In every
reply the legs of a route have to cost what it does, and the steps of a leg what that leg does, with the same keys; and
where one walk is asked for and nodes are told, each leg has to begin with the two nodes with which the one before ends.
The status is 1 where any other reply differs. With --only-compare nothing is timed.
"""
import argparse
import json
import math
import os
import random
import re
import subprocess
import sys
import tempfile
import tomllib

import common
from common import asked, start_of
from reading import READ_BY_SECOND, restriction, restriction_over_ways, tangle
import traffic_rows


def routes_of(value):
    """What a reply tells from place to place: its routes, or its trips."""
    return value.get("routes", value.get("trips", []))


def without_walks(line, reply):
    """A reply without what tells of which walk it is; of one walk through all places all that tells of its legs."""
    value = json.loads(reply)
    for route in routes_of(value):
        route.pop("geometry", None)
        for leg in route["legs"]:
            for key in list(leg) if "continue_straight=true" in line else ("annotation", "steps"):
                leg.pop(key, None)
    return value


def step_keys(reply):
    """The keys of the steps of a reply."""
    steps = (step for route in routes_of(json.loads(reply)) for leg in route["legs"] for step in leg["steps"])
    return {tuple(step) for step in steps}


def same_walks(one, other):
    """Whether two replies tell by their steps that they are of the same walks: of each leg the same is met, node by node."""
    met = [[[it for step in leg["steps"] for it in step["intersections"]] for route in routes_of(json.loads(reply)) for leg in route["legs"]]
           for reply in (one, other)]
    return met[0] == met[1] and all(met[0])


def steps_add_up(reply):
    """Whether the steps of each leg cost together what the leg does, and begin where the one before ends."""
    for leg in (leg for route in routes_of(json.loads(reply)) for leg in route["legs"] if leg["steps"]):
        for part in ("distance", "duration", "weight"):
            if round(10 * sum(step[part] for step in leg["steps"])) != round(10 * leg[part]):
                return False
        lines = [step["geometry"] for step in leg["steps"]]
        if isinstance(lines[0], dict) and any(a["coordinates"][-1] != b["coordinates"][0] for a, b in zip(lines, lines[1:])):
            return False
    return True


def legs_add_up(reply):
    """Whether the legs of each route cost together what it does."""
    return all(round(10 * sum(leg[part] for leg in route["legs"])) == round(10 * route[part])
               for route in routes_of(json.loads(reply)) for part in ("distance", "duration", "weight"))


def goes_on(line, reply):
    """Whether each leg of a reply begins with the nodes of the vertex on which the one before ends, where the line asks
    for one walk through all places and for nodes."""
    if "continue_straight=true" in line:
        for route in routes_of(json.loads(reply)):
            nodes = [leg["annotation"]["nodes"] for leg in route["legs"] if "nodes" in leg.get("annotation", {})]
            if any(one[-2:] != other[:2] for one, other in zip(nodes, nodes[1:])):
                return False
    return True


def compare(lines, ours, theirs):
    """How many replies are equal, how many differ in the walk alone, and the first that differs otherwise."""
    equal = ties = 0
    for line, mine, other in zip(lines, ours, theirs):
        if not steps_add_up(mine):
            return equal, ties, (mine, "steps that don't add up")
        if not legs_add_up(mine):
            return equal, ties, (mine, "legs that don't add up")
        if not goes_on(line, mine):
            return equal, ties, (mine, "a leg that turns round at its place")
        if mine == other:
            equal += 1
        elif without_walks(line, mine) == without_walks(line, other) and step_keys(mine) == step_keys(other) and not same_walks(mine, other):
            ties += 1
        else:
            return equal, ties, (mine, other)
    return equal, ties, None


def measure(name, runs, start, lines, repeats=3):
    spent, replies = [], []
    for words, began in zip(runs, start):
        tries = [asked(words, lines) for _ in range(repeats)]
        spent.append((min(least for least, _ in tries) - began) / len(lines))
        replies.append(tries[0][1])
    equal, ties, wrong = compare(lines, *replies)
    size = sum(map(len, replies[0])) / len(lines)
    ratio = spent[0] / spent[1] if spent[1] > 0 else float("nan")
    print(f"{name}: {spent[0] * 1e6:.0f} us, {spent[1] * 1e6:.0f} us, ratio {ratio:.2f}; {size:.0f} bytes; {equal} equal, {ties} of another walk at the same cost")
    if wrong:
        print("DIFFERENT:", wrong[0][:600], wrong[1][:600], sep="\n")
    return wrong is None


def extent(opl):
    """The least and the greatest coordinates of a map, without the outermost hundredth of its nodes."""
    lons, lats = [], []
    with open(opl, encoding="utf-8") as text:
        for line in text:
            if line.startswith("n"):
                fields = line.split()
                lon = [field[1:] for field in fields[1:] if field[0] == "x" and len(field) > 1]
                lat = [field[1:] for field in fields[1:] if field[0] == "y" and len(field) > 1]
                if lon and lat:
                    lons.append(float(lon[0]))
                    lats.append(float(lat[0]))
    cut = lambda all_of: (sorted(all_of)[len(all_of) // 100], sorted(all_of)[-1 - len(all_of) // 100])
    return cut(lons), cut(lats)


def on_map(runs, opl):
    chance = random.Random(17)
    (west, east), (south, north) = extent(opl)
    place = lambda: f"{chance.uniform(west, east):.6f},{chance.uniform(south, north):.6f}"
    start = [start_of(words) for words in runs]
    pairs = [f"{place()};{place()}" for _ in range(200)]
    near = [place() for _ in range(500)]
    tables = [";".join(place() for _ in range(100)) for _ in range(2)]
    nines = [";".join(place() for _ in range(9)) for _ in range(40)]
    fives = [";".join(place() for _ in range(5)) for _ in range(40)]
    kinds = [
        ("nearest, one", [f"GET /nearest/v1/car/{at}" for at in near]),
        ("nearest, ten", [f"GET /nearest/v1/car/{at}?number=10" for at in near]),
        ("table of 100 by 100", [f"GET /table/v1/car/{all_of}?annotations=duration,distance" for all_of in tables]),
        ("route without a line", [f"GET /route/v1/car/{pair}?overview=false" for pair in pairs]),
        ("route with a simplified line", [f"GET /route/v1/car/{pair}" for pair in pairs]),
        ("route with all", [f"GET /route/v1/car/{pair}?overview=full&geometries=geojson&annotations=true" for pair in pairs]),
        ("route with steps", [f"GET /route/v1/car/{pair}?overview=false&steps=true" for pair in pairs]),
        ("the same in polyline6", [f"GET /route/v1/car/{pair}?overview=false&steps=true&geometries=polyline6" for pair in pairs]),
        ("route with all and steps", [f"GET /route/v1/car/{pair}?overview=full&geometries=geojson&annotations=true&steps=true" for pair in pairs]),
        ("route through five places", [f"GET /route/v1/car/{five}?overview=false" for five in fives]),
        ("the same as one walk", [f"GET /route/v1/car/{five}?overview=false&continue_straight=true" for five in fives]),
        ("trip through nine places", [f"GET /trip/v1/car/{nine}?overview=false" for nine in nines]),
        ("trip with all", [f"GET /trip/v1/car/{nine}?overview=full&geometries=geojson&annotations=true&steps=true" for nine in nines]),
    ]
    fine = [measure(name, runs, start, lines) for name, lines in kinds]
    return fine + on_way_back(runs, start, west, east, south, north)


def on_way_back(runs, start, west, east, south, north):
    """A route of 500 places, to and fro between two near opposite corners of a map: its line goes back the way it came.
    They have three digits, so that the target isn't too long."""
    ends = [f"{west:.3f},{south:.3f}", f"{east:.3f},{north:.3f}"]
    target = "GET /route/v1/car/" + ";".join(ends[number % 2] for number in range(500))
    kinds = [("without a line", "?overview=false"), ("with a simplified line", "")]
    return [measure(f"route to and fro {name}", runs, start, [target + query]) for name, query in kinds]


def road(segments, folder):
    """A road that winds northwards, in one way."""
    opl = os.path.join(folder, f"road{segments}.opl")
    chance = random.Random(segments)
    with open(opl, "w", encoding="ascii") as out:
        for number in range(segments + 1):
            out.write(f"n{number + 1} x{13 + chance.uniform(-1, 1) * 0.002:.6f} y{40 + number * 0.001:.6f}\n")
        nodes = ",".join(f"n{number + 1}" for number in range(segments + 1))
        out.write(f"w1 Thighway=residential N{nodes}\n")
    return opl


def chain(segments, folder):
    """A road that winds northwards, each segment a way of its own name, with a lane to the side at every third node."""
    opl = os.path.join(folder, f"chain{segments}.opl")
    chance = random.Random(segments)
    ways = []
    with open(opl, "w", encoding="ascii") as out:
        for number in range(segments + 1):
            lon = 13 + chance.uniform(-1, 1) * 0.002
            out.write(f"n{number + 1} x{lon:.6f} y{40 + number * 0.001:.6f}\n")
            if number % 3 == 1:
                out.write(f"n{number + 1000001} x{lon + 0.0005:.6f} y{40 + number * 0.001:.6f}\n")
                ways.append(f"w{number + 1000001} Thighway=residential,name=Lane%20%{number} Nn{number + 1},n{number + 1000001}\n")
        for number in range(segments):
            out.write(f"w{number + 1} Thighway=residential,name=Street%20%{number} Nn{number + 1},n{number + 2}\n")
        out.write("".join(ways))
    return opl


def on_roads(programs, settings, lengths, folder):
    fine = []
    for segments in lengths:
        for opl, kinds in (
            (road(segments, folder), [("road", "without a line", "overview=false"), ("road", "simplified", ""), ("road", "with all", "overview=full&annotations=true")]),
            (chain(segments, folder), [("chain", "without a line", "overview=false"), ("chain", "with steps", "overview=false&steps=true"), ("chain", "with steps in geojson", "overview=false&steps=true&geometries=geojson")]),
        ):
            runs = [[program, "ask", opl, settings] for program in programs]
            start = [start_of(words) for words in runs]
            ends = f"13,40;13,{40 + segments * 0.001:.3f}"
            for what, name, query in kinds:
                target = f"GET /route/v1/car/{ends}" + ("?" + query if query else "")
                fine.append(measure(f"{what} of {segments} segments, {name}", runs, start, [target] * 20))
    return fine


# ---- settings ----

CLASSES = ["toll", "ferry", "tunnel", "slow", "a", "a_1", "_", "0", "grave", "x9"]


def second_version(chance, settings, path):
    """Writes settings as version 2, where they aren't, with drawn values of the keys that it has more."""
    with open(settings, encoding="utf-8") as text:
        first = re.sub(r"^version *= *1 *\n", "", text.read(), flags=re.M)
    if not re.search(r"^version *=", first, re.M):
        tags = [f"{key}={value}" for key, values in READ_BY_SECOND.items() for value in values if "%" not in value]
        names = chance.sample(CLASSES, chance.randint(1, 8))
        sets = [[chance.choice(names) for _ in range(chance.randint(1, 3))] for _ in range(chance.randint(0, 7))]
        surfaces = {key: chance.choice([1, 20, 500, 999, 1000]) for key in chance.sample(["asphalt", "gravel", "fine_gravel", "ground", "paved", "sand"], 4)}
        tables = ["[surfaces]", *(f"{key} = {factor}" for key, factor in surfaces.items())]
        tables += ["[classes]", *(f"{name} = {json.dumps(chance.sample(tags, chance.randint(0, 4)))}" for name in names)]
        front = ["version = 2", chance.choice(["maxspeed = true", "maxspeed = true", "maxspeed = false", ""])]
        front += [chance.choice(['weight_name = "distance"', 'weight_name = "duration"', ""]), f"excludable = {json.dumps(sets)}"]
        first = "\n".join([*front, first, *tables, ""])
    with open(path, "w", encoding="utf-8") as out:
        out.write(first)
    return path


def sets_in(settings):
    """The sets that settings let a request exclude, and the names of their classes."""
    with open(settings, "rb") as text:
        read = tomllib.load(text)
    return read.get("excludable", []), list(read.get("classes", {}))


def excluding(chance, excludable):
    """Names for `exclude`: mostly those of a set, in any order, some doubled; else some that are no set, or no names."""
    sets, names = excludable
    if sets and chance.random() < 0.75:
        drawn = list(chance.choice(sets))
        drawn += chance.sample(drawn, chance.randint(0, len(drawn)))
    else:
        drawn = chance.choices([*names, "no_class", "TOLL", "t%6fll", ""], k=chance.randint(1, 3))
    chance.shuffle(drawn)
    return chance.choice([",", ",", "%2c"]).join(drawn)


# ---- traffic ----

def trip(chance, place, told):
    """A trip through up to seven random places, one of them maybe twice, under any rule."""
    places = [place() for _ in range(chance.randint(2, 6))]
    places += [chance.choice(places)] if chance.random() < 0.2 else []
    rule = [chance.choice(["", *(f"&{name}={value}" for value in values)]) for name, values in TRIP_OPTIONS]
    return f"/trip/v1/car/{';'.join(places)}?{told}{''.join(rule)}"


TRIP_OPTIONS = (("roundtrip", ("true", "false", "false")), ("source", ("any", "first")), ("destination", ("any", "last")))


def route(chance, place, told):
    """A route through two to five random places, some of them one from before again, under any `continue_straight`."""
    places = [place(), place()]
    for _ in range(chance.choice([0, 0, 1, 2, 3])):
        places.append(chance.choice(places) if chance.random() < 0.3 else place())
    straight = chance.choice(["", "", "&continue_straight=false", "&continue_straight=default", *4 * ["&continue_straight=true"]])
    return f"/route/v1/car/{';'.join(places)}?{told}{straight}"


def requests(chance, place, count, excludable):
    """Requests of all services at random places, with what depends on a metric asked for."""
    lines = []
    for _ in range(count):
        a, b, c = place(), place(), place()
        line = chance.choice(["overview=false", "overview=full", "overview=simplified"])
        form = chance.choice(["polyline", "polyline6", "geojson"])
        told = chance.choice(["&steps=true", "&steps=true", "&steps=true&annotations=true", "&annotations=nodes,duration", "", "&steps=false"])
        bearing = f"{chance.randrange(361)},{chance.choice([0, 10, 45, 90, 180])}"
        lines.append("GET " + chance.choice([
            f"/route/v1/car/{a};{b}?{line}&geometries={form}{told}",
            route(chance, place, f"{line}&geometries={form}{told}"),
            route(chance, place, f"{line}&geometries={form}{told}"),
            f"/route/v1/car/{a};{b};{a};{c}?{line}&geometries={form}{told}",
            f"/route/v1/car/{a};{a}?{line}&geometries={form}{told}",
            f"/route/v1/car/{a};{b}?{line}{told}&bearings={bearing};&since={chance.randrange(6)}",
            f"/nearest/v1/car/{a}?number=3&bearings={bearing}",
            f"/nearest/v1/car/{a}?radiuses={chance.choice(['0', '5.19', '80', 'unlimited', ''])}&since={chance.randrange(6)}",
            f"/table/v1/car/{a};{b};{c}?annotations=duration,distance",
            trip(chance, place, f"{line}&geometries={form}{told}"),
            trip(chance, place, f"overview=false&skip_waypoints=true&since={chance.randrange(6)}"),
        ]))
        while chance.random() < (0.5 if excludable[1] else 0.05):
            lines[-1] += f"&exclude={excluding(chance, excludable)}"
    return lines


def traffic_lines(chance, opl, rows, folder, named):
    """Lines of TRAFFIC, the files behind them, and of each the reply as far as the drawing knows it, as a pattern."""
    pairs, around = traffic_rows.meetings(opl)
    lines = [(f"TRAFFIC {' '.join(files)}", b'."code":"Ok","data_version":"\\d+","unmatched":\\d+.') for files in named]
    for number in range(12):
        share = chance.choice([0.01, 0.5, 1])
        speeds = traffic_rows.speed_rows(chance, pairs, chance.choice([0, 1, rows, rows]), share) + chance.sample(traffic_rows.SPEED_EDGES, 2)
        turns = traffic_rows.turn_rows(chance, around, chance.choice([0, 1, rows, rows]), share) + chance.sample(traffic_rows.TURN_EDGES, 2)
        wrong = chance.choice(["", "", "speeds", "turns", "both"])
        texts = [traffic_rows.dressed(chance, speeds), traffic_rows.dressed(chance, turns)]
        told = b'."code":"Ok","data_version":"\\d+","unmatched":\\d+.'
        if wrong in ("turns", "both"):
            texts[1], row, kind = traffic_rows.faulty(chance, turns, traffic_rows.TURN_FAULTS)
            told = f'."code":"Refused","file":"turns","row":{row},"kind":"{kind}".'.encode()
        if wrong in ("speeds", "both"):
            texts[0], row, kind = traffic_rows.faulty(chance, speeds, traffic_rows.SPEED_FAULTS)
            told = f'."code":"Refused","file":"speeds","row":{row},"kind":"{kind}".'.encode()
        names = [os.path.join(folder, f"{name}{number}.csv") for name in ("speeds", "turns")]
        for name, text in zip(names, texts):
            with open(name, "wb") as out:
                out.write(text)
        if not wrong and chance.random() < 0.2:
            names[chance.randrange(2)] = "-"
        lines.append((f"TRAFFIC {names[0]} {names[1]}", told))
    lines += [("TRAFFIC - -", b'."code":"Ok","data_version":"\\d+","unmatched":0.')]
    lines += [(line, b'."code":"BadRequest".') for line in ("TRAFFIC -", "TRAFFIC", "TRAFFIC - - -", "TRAFFIC  - -", "TRAFFIC -  -", "TRAFFIC - - ", "TRAFFIC -\t-", "traffic - -", " TRAFFIC - -")]
    chance.shuffle(lines)
    return lines


def on_traffic(name, programs, opl, settings, place, rows, each, seed, named=()):
    """Compares what both reply to requests between lines of TRAFFIC."""
    chance, excludable = random.Random(seed), sets_in(settings)
    runs = [[program, "ask", opl, settings] for program in programs]
    with tempfile.TemporaryDirectory() as folder:
        lines, known = requests(chance, place, each, excludable), {}
        for line, told in traffic_lines(chance, opl, rows, folder, named):
            known[len(lines)] = told
            lines += [line, *requests(chance, place, each, excludable)]
        replies = [asked(words, lines)[1] for words in runs]
        equal, ties, wrong = compare(lines, *replies)
        for at, told in known.items():
            if not re.fullmatch(told.decode(), replies[0][at]):
                wrong = wrong or (replies[0][at], told.decode())
        codes = [reply.split('"')[3] for reply in replies[0]]
        counts = ", ".join(f"{codes.count(code)} {code}" for code in sorted(set(codes)))
        print(f"{name}: {len(known)} lines of traffic and {len(lines) - len(known)} requests ({counts}); {equal} equal, {ties} of another walk at the same cost")
        if wrong:
            at = replies[0].index(wrong[0])
            keep = tempfile.mkdtemp(prefix="replies-differ-")
            subprocess.run(["cp", "-R", folder, opl, settings, keep], check=True)
            with open(os.path.join(keep, "lines.txt"), "w", encoding="utf-8") as out:
                out.write("".join(line + "\n" for line in lines))
            print("DIFFERENT at line", at + 1, lines[at], "program", wrong[0][:1500], "baseline", wrong[1][:1500], f"kept in {keep}", sep="\n")
    return wrong is None


def ring_ways(chance, ring):
    """A ring of nodes as one way or two, of which the second may be none of the roundabout: one-way either way round, or
    two-way."""
    cut = chance.choice([len(ring), len(ring), chance.randint(1, len(ring) - 1)])
    side = chance.choice(["oneway=yes", "", "oneway=-1", "oneway=no"])
    nodes, rest = ring + ring[:1], chance.choice(["junction=roundabout", "", "name=Ring"])
    return [(["junction=roundabout", side], nodes[:cut + 1]), ([rest, side], nodes[cut:])]


def ring_town(seed, opl):
    """Writes a town whose crossings are roundabouts, and gives the locations of its nodes: 3 by 3 rings of 3 to 8 nodes,
    streets from ring to ring, and some that lead from a ring to a dead end or back to it, one-way and two-way ones."""
    chance, points, ways, rings = random.Random(seed), [], [], []
    for number in range(9):
        lon, lat, size = 13 + number // 3 * 0.004, 53.5 + number % 3 * 0.003, chance.randint(3, 8)
        for at in range(size):
            angle = 2 * math.pi * (at + chance.random() * 0.6) / size
            points.append((lon + 0.0006 * math.cos(angle), lat + 0.0004 * math.sin(angle)))
        rings.append(list(range(len(points) - size + 1, len(points) + 1)))
        ways += ring_ways(chance, rings[-1])
    street = lambda nodes: ways.append(([chance.choice(["", "", "oneway=yes", "oneway=-1"]), chance.choice(["name=A", "name=B", ""])], nodes))
    for one, other in [(number, number + 1) for number in range(9) if number % 3 < 2] + [(number, number + 3) for number in range(6)]:
        street([chance.choice(rings[one]), chance.choice(rings[other])])
    for ring in rings:
        lon, lat = points[ring[0] - 1]
        points.append((lon + 0.001, lat + 0.0005))
        street([chance.choice(ring), len(points), *chance.sample(ring, chance.randint(0, 1))])
    with open(opl, "w", encoding="ascii") as out:
        out.writelines(f"n{number} x{lon:.7f} y{lat:.7f}\n" for number, (lon, lat) in enumerate(points, 1))
        for id, (tags, nodes) in enumerate(ways, 1):
            told = ",".join(filter(None, ["highway=residential", *tags]))
            out.write(f"w{id} T{told} N{','.join(f'n{node}' for node in nodes)}\n")
        by_id = {id: nodes for id, (_, nodes) in enumerate(ways, 1)}
        out.writelines(restriction_over_ways(chance, id, by_id) + "\n" for id in range(1, 41))
    return points


def short_town(seed, opl):
    """Writes a town of short ways with many turn restrictions over them, and gives the locations of its nodes: of a grid of 5
    by 5 crossings most streets, each a way from a crossing to the next one or to the one behind it, some of them one-way or
    bent, some lanes to dead ends, a few closed nodes and restrictions at nodes."""
    chance, points, ways, closed = random.Random(seed), [], {}, set()
    for number in range(25):
        points.append((13 + (number % 5 + chance.random() * 0.4) * 0.002, 53.5 + (number // 5 + chance.random() * 0.4) * 0.0015))

    def bend(one, other):
        (a, b), (c, d) = points[one - 1], points[other - 1]
        points.append(((a + c) / 2 + chance.uniform(-1, 1) * 0.0004, (b + d) / 2 + chance.uniform(-1, 1) * 0.0004))
        if chance.random() < 0.05:
            closed.add(len(points))
        return len(points)

    for axis, step in ((0, 1), (1, 5)):
        for line in range(5):
            at = [line * 5 + place + 1 if axis == 0 else place * 5 + line + 1 for place in range(5)]
            place = 0
            while place < 4:
                refs = at[place:place + chance.choice([2, 2, 2, 3])]
                if chance.random() < 0.4:
                    refs.insert(1, bend(*refs[:2]))
                place += len([ref for ref in refs if ref in at]) - 1
                if chance.random() < 0.9:
                    ways[len(ways) + 1] = refs if chance.random() < 0.5 else refs[::-1]
    for crossing in chance.sample(range(1, 26), 6):
        ways[len(ways) + 1] = [crossing, bend(crossing, chance.randint(1, 25))]
    with open(opl, "w", encoding="ascii") as out:
        for number, (lon, lat) in enumerate(points, 1):
            out.write(f"n{number} x{lon:.7f} y{lat:.7f}{' Tbarrier=bollard' if number in closed else ''}\n")
        for id, refs in ways.items():
            side = chance.choice(["", "", "", "", ",oneway=yes", ",oneway=-1"])
            out.write(f"w{id} Thighway=residential{side},name={chance.choice('ABC')} N{','.join(f'n{ref}' for ref in refs)}\n")
        for id in range(1, 5):
            out.write(restriction(chance, id, ways) + "\n")
        for id in range(5, 5 + chance.choice([20, 60, 150])):
            out.write(restriction_over_ways(chance, id, ways) + "\n")
    return points


def near_nodes(chance, points):
    def place():
        lon, lat = chance.choice(points)
        lon, lat = lon + chance.uniform(-1, 1) * 0.0005, lat + chance.uniform(-1, 1) * 0.0005
        return f"{max(-180, min(180, lon)):.6f},{max(-90, min(90, lat)):.6f}"
    return place


def on_small_maps(name, draw, programs, settings, count, folder):
    """Compares replies on so many small maps that this draws."""
    fine, opl = [], os.path.join(folder, "small.opl")
    for seed in range(count):
        points = draw(seed, opl)
        for version, own in both_versions(random.Random(seed), settings, folder):
            place = near_nodes(random.Random(seed), points)
            fine.append(on_traffic(f"{name} {seed}{version}", programs, opl, own, place, 40, 8, seed))
    return fine


def both_versions(chance, settings, folder):
    return [("", settings), (" under version 2", second_version(chance, settings, os.path.join(folder, "second.toml")))]


def main():
    parser = argparse.ArgumentParser(usage=__doc__.split("\n\n")[1])
    parser.add_argument("--traffic", action="append", default=[])
    parser.add_argument("--tangles", type=int, default=20)
    parser.add_argument("--roads", default="1000,2000,5000,10000")
    parser.add_argument("--only-compare", action="store_true")
    parser.add_argument("settings", nargs="?", default=common.CAR)
    parser.add_argument("maps", nargs="*")
    given = parser.parse_args()
    program, settings, fine = common.program(), os.path.abspath(given.settings), []
    named = [[os.path.abspath(name) for name in files.split(",")] for files in given.traffic]
    with tempfile.TemporaryDirectory() as folder:
        programs = [program, common.baseline(folder)]
        for opl in map(os.path.abspath, given.maps):
            print(f"== {os.path.basename(opl)}")
            runs = [[one, "ask", opl, settings] for one in programs]
            if not given.only_compare:
                fine += on_map(runs, opl)
            (west, east), (south, north) = extent(opl)
            chance = random.Random(3)
            place = lambda: f"{chance.uniform(west, east):.6f},{chance.uniform(south, north):.6f}"
            for version, own in both_versions(random.Random(1), settings, folder):
                fine.append(on_traffic(f"traffic{version}", programs, opl, own, place, 2000, 20, 1, named))
        if not given.only_compare:
            print("== roads")
            fine += on_roads(programs, settings, map(int, given.roads.split(",")), folder)
        print("== small maps made to be hard")
        fine += on_small_maps("tangle", tangle, programs, settings, given.tangles, folder)
        fine += on_small_maps("roundabouts", ring_town, programs, settings, given.tangles, folder)
        fine += on_small_maps("restrictions over ways", short_town, programs, settings, given.tangles, folder)
    sys.exit(0 if all(fine) else 1)


if __name__ == "__main__":
    main()
