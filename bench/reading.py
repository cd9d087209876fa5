#!/usr/bin/env python3
"""Measures reading, building and routing against the baseline of this folder, in one run.

usage: bench/reading.py [--towns 50,100,200] [--routes N] [--repeats N] [--tangles N] [SETTINGS [OPL ..]]

For each OPL file, and for each generated town of N by N nodes, it prints what the program and `baseline.rs` take from
the start to the first reply (reading and building), for reading alone (with settings under which no way can be used),
in memory, and for N random routes after that, each with the ratio of the program to the baseline. Times are processor
seconds, the least of the repeats, which alternate between the two: other work on the machine disturbs them less than
time by the clock. What routes take is that of a whole run without its start-up; how much of it is snapping shows in as
many routes that end where they begin.

It also compares the replies of both, byte for byte, on those routes, on lines made to be hard, and on small maps made
to be hard (tangles), and what both print for `check`; it keeps the lines and the map of a difference, and ends with
status 1 where there is one.

SETTINGS are those of car.toml where none are named. It needs rustc for the baseline, and GNU time.
"""
import argparse
from collections import Counter
import math
import os
import random
import re
import shutil
import subprocess
import sys
import tempfile

import common
from common import near

# Settings of the right form under which no way can be used.
UNUSED = 'name = "none"\nvehicle = "none"\n\n[speeds]\nno_such_road = 1\n'

FRONT, BACK = "GET /route/v1/car/", "?overview=false"


# ---- maps ----

NODE_TAGS = ["Tbarrier=bollard", "Tbarrier=wall,highway=traffic_signals", "Thighway=traffic_signals", "Thighway=traffic%5f%signals"]

# What may stand at tags that settings of version 2 read.
READ_BY_SECOND = {
    "maxspeed": ["30", "50", "7", "007", "0", "999", "1000", "30%20%mph", "5%20%%6d%ph", "999%20%mph", "0%20%mph", "30mph", "30%20%%20%mph", "30%20%MPH",
                 "%20%mph", "50.5", "-5", "%ff11%", "none", "walk", ""],
    "surface": ["asphalt", "gravel", "gr%61%vel", "fine_gravel", "ground", "Gravel", "gravel%20%", "cobblestone:flattened", ""],
    "toll": ["yes", "%79%es", "no", "YES", ""],
    "route": ["ferry", "a=b", "a"],
    "tunnel": ["yes", "no"],
}

KINDS = ["no_left_turn", "no_right_turn", "no_straight_on", "no_u_turn", "only_left_turn", "only_right_turn",
         "only_straight_on", "no_entry", "no_exit"]


def restriction(chance, id, ways):
    """A turn restriction, often at a node where two ways meet, sometimes with a fault."""
    meeting = [(a, n, b) for a in ways for n in ways[a] for b in ways if n in ways[b]]
    if chance.random() < 0.8 and meeting:
        first, via, last = chance.choice(meeting)
    else:
        first, via, last = chance.choice(list(ways)), chance.randrange(-50, 200), chance.choice(list(ways))
    members = [f"w{first}@from", f"n{via}@via", f"w{last}@to"]
    if chance.random() < 0.15:
        members.append(chance.choice([f"w{last}@from", f"w{first}@to", f"n{via}@via", f"n{via}@from", f"w{first}@via", "w1@", "n1@location_hint"]))
    if chance.random() < 0.05:
        members.pop(chance.randrange(len(members)))
    chance.shuffle(members)
    kind = chance.choice(KINDS + ["no_parking"] if chance.random() < 0.3 else ["no_u_turn", "only_straight_on", "no_left_turn"])
    tags = ["type=restriction", f"restriction={kind}"]
    if chance.random() < 0.15:
        tags.append("except=" + chance.choice(["motorcar", "bus;motorcar", "psv;%20%motorcar%9%", "bicycle", ""]))
    if chance.random() < 0.05:
        tags[0] = "type=route"
    chance.shuffle(tags)
    fields = ["T" + ",".join(tags), "M" + ",".join(members), chance.choice(["dV", "dV", "dV", "dD"])]
    chance.shuffle(fields)
    return f"r{id} " + " ".join(fields)


def over_ways(chance, ways):
    """One to three ways one behind the other, each from one of its ends to the other one, with a way before and one behind
    them: the first, those between and the last; None where it comes to none."""
    ends = [id for id, refs in ways.items() if len(refs) > 1 and refs[0] != refs[-1]]
    along, node = [], None
    for _ in range(chance.choice([1, 1, 1, 2, 2, 3])):
        on = [id for id in ends if id not in along and (node is None or node in (ways[id][0], ways[id][-1]))]
        if not on:
            break
        along.append(chance.choice(on))
        first, last = ways[along[-1]][0], ways[along[-1]][-1]
        if node is None:
            begin = node = chance.choice([first, last])
        node = last if node == first else first
    before, behind = ([id for id, refs in ways.items() if at in refs and id not in along] for at in (begin, node))
    return (chance.choice(before), along, chance.choice(behind)) if before and behind else None


def restriction_over_ways(chance, id, ways):
    """A turn restriction over one to three ways, mostly along such as are one behind the other, sometimes with a fault."""
    drawn = over_ways(chance, ways) or over_ways(chance, ways)
    any_way = lambda: chance.choice(list(ways))
    first, along, last = drawn if drawn and chance.random() < 0.95 else (any_way(), [any_way(), any_way()], any_way())
    if chance.random() < 0.15:
        along = chance.choice([along[::-1], along + along[:1], [*along, any_way()], [any_way() for _ in range(5)], along + [987654]])
    if chance.random() < 0.1:
        first, last = chance.choice([(last, first), (first, first), (first, along[-1]), (along[0], last)])
    members = [f"w{first}@from", *(f"w{way}@via" for way in along), f"w{last}@to"]
    if chance.random() < 0.1:
        node = chance.choice(ways[along[0]]) if ways.get(along[0]) else 1
        more = chance.choice([f"n{node}@via", f"w{last}@to", f"w{first}@from", f"n{node}@from", "n1@location_hint", f"r{id}@via"])
        members.insert(chance.randint(0, len(members)), more)
    kind = chance.choice(["no_left_turn", "no_right_turn", "no_straight_on", "no_u_turn", "no_u_turn", "only_straight_on", "only_left_turn"])
    if chance.random() < 0.05:
        kind = chance.choice(["no_entry", "no_exit", "no_parking", "only_u_turn"])
    tags = ["type=restriction", f"restriction={kind}"]
    if chance.random() < 0.08:
        tags.append("except=" + chance.choice(["motorcar", "bus;motorcar", "psv", "bicycle"]))
    return f"r{id} T{','.join(tags)} M{','.join(members)}"


def way_line(chance, id, tags, refs):
    """A way of these tags and nodes, with its fields in any order, some of its nodes with a place of their own, sometimes deleted."""
    chance.shuffle(tags)
    seconds = ["name=second", "oneway=yes", "highway=motorway", "access=no", "maxspeed=3", "surface=ground", "toll=yes", "route=ferry", "junction=roundabout"]
    tags = tags + chance.choice([[], seconds])
    entries = ",".join(f"n{ref}" + chance.choice(["", "", "x1.5y2"]) for ref in refs)
    fields = ["T" + ",".join(tags), "N" + entries, "uSomeone", chance.choice(["dV", "dV", "dV", "dD"])]
    chance.shuffle(fields)
    return f"w{id} " + " ".join(fields) + chance.choice(["", " "])


def roundabouts(chance, id, ids):
    """Some roundabouts through these nodes, with one-way and two-way streets that leave them or lead there, as the id of
    each way, from this one on, its tags and its nodes."""
    ways = []
    for _ in range(chance.randint(0, 3)):
        ring = chance.sample(ids, chance.randint(3, 6))
        kind = "junction=" + chance.choice(["roundabout", "roundabout", "roundabout", "roundabou%74%", "circular"])
        ways.append((["highway=residential", kind, chance.choice(["name=Ring", "oneway=no", "oneway=-1", "ref=1"])], ring + ring[:1]))
        for node in ring:
            for _ in range(chance.choice([0, 1, 1, 2])):
                tags = ["highway=" + chance.choice(["residential", "service"]), "oneway=" + chance.choice(["yes", "-1", "no"])]
                ways.append((tags, [node, *chance.sample(ids, chance.randint(1, 2))]))
    return [(id + number, tags, refs) for number, (tags, refs) in enumerate(ways)]


def tangle(seed, target):
    """Writes a small map that is hard to get right, and gives the locations of its nodes: ways by odd ids,
    dead ends, loops, one-way streets of all forms, roundabouts with streets that leave them or lead there, nodes that are
    missing, deleted, repeated or have no location, closed nodes, signals, ways without access, limits of speed, surfaces
    and tags that make classes of ways, restrictions of all kinds, at nodes and over ways, with and without faults,
    names that JSON escapes, escapes of OPL, fields in any order."""
    chance = random.Random(seed)
    middle = chance.choice([(0, 0), (13, 53.5), (-70.5, -33.25), (179.995, 0), (20, 89.99), (0, -89.995)])
    ids = chance.sample(range(-50, 200), 40)
    points, lines = [], ["# a tangle", "", " \t", "c1 k0", "r-1 Ttype=restriction Mn1@via"]
    for id in ids:
        lon = min(180, middle[0] + chance.uniform(-0.01, 0.01))
        lat = max(-90, min(90, middle[1] + chance.uniform(-0.01, 0.01)))
        points.append((lon, lat))
        digits = chance.choice([2, 3, 4, 6, 7, 9])
        fields = [f"x{lon:.{digits}f}", f"y{lat:.{digits}f}", chance.choice(["T", "Tbarrier=gate,ref=7", *NODE_TAGS]), "v3"]
        fields.append("dD" if chance.random() < 0.05 else "dV")
        if chance.random() < 0.1:
            fields[chance.choice([0, 1])] = chance.choice(["x", "y"])
            fields = fields[2:] if fields[0][0] == fields[1][0] else fields
        chance.shuffle(fields)
        lines.append(chance.choice(["", "", " "]) + f"n{id}" + chance.choice([" ", "\t", "  "]) + " ".join(fields))
    names = ["A", "Gr\u00fcne-Gasse", "%20%%4e2d%%6587%%1F6B2%%25%", "%a%%9%x%d%", "%2c%%3d%%40%", 'say-"so"', "back\\slash", "bell\x07\x08\x0c\x1f\x7f", "a=b", "\u4e2d\u6587-\U0001f6b2", "", "c\rr"]
    ways = {}
    for id in chance.sample(range(-30, 90), 30):
        tags = ["highway=" + chance.choice(["residential", "motorway", "service", "primary", "footway", "living_street"])]
        if chance.random() < 0.6:
            tags.append("oneway=" + chance.choice(["yes", "true", "1", "-1", "reverse", "no", "maybe", ""]))
        if chance.random() < 0.15:
            tags.append("junction=roundabout")
        if chance.random() < 0.8:
            tags.append("name=" + chance.choice(names))
        if chance.random() < 0.3:
            tags.append(chance.choice(["access", "vehicle", "motorcar", "%61%ccess"]) + "=" + chance.choice(["no", "yes", "private", ""]))
        tags += [f"{key}={chance.choice(values)}" for key, values in READ_BY_SECOND.items() if chance.random() < 0.3]
        refs = [chance.choice(ids + [777]) for _ in range(chance.choice([0, 1, 2, 2, 3, 4, 6]))]
        refs = [ref for ref in refs for _ in range(1 if chance.random() < 0.9 else 2)]
        ways[id] = refs
        lines.append(way_line(chance, id, tags, refs))
    for id, tags, refs in roundabouts(chance, 90, ids):
        ways[id] = refs
        lines.append(way_line(chance, id, tags, refs))
    lines += [restriction(chance, id, ways) for id in range(30)]
    lines += [restriction_over_ways(chance, id, ways) for id in range(30, 55)]
    chain = chance.sample(ids, 16)
    streets = {id: [one, other] for id, one, other in zip(range(200, 230), chain, chain[1:])}
    streets.update({id: [one, *chance.sample(ids, 2)] for id, one in zip(range(230, 260), chain)})
    lines += [f"w{id} Thighway=residential N{','.join(f'n{ref}' for ref in refs)}" for id, refs in streets.items()]
    lines += [restriction_over_ways(chance, id, streets) for id in range(55, 80)]
    with open(target, "w", encoding="utf-8", newline="\n") as out:
        out.write("".join(line + chance.choice(["\n", "\n", "\r\n"]) for line in lines))
    return points


# ---- requests ----

def random_routes(points, count, seed):
    """Routes between random nodes."""
    return [f"GET {target}" for target in common.random_targets(points, count, seed)]


def long_routes(points, count, seed):
    """Routes through 3 to 12 places, not far from one another, half of them as one walk."""
    chance = random.Random(seed)
    lines = []
    for _ in range(count):
        middle = chance.choice(points)
        places = [near(chance, middle, 0.01) for _ in range(chance.randint(3, 12))]
        lines.append(FRONT + ";".join(places) + BACK + chance.choice(["", "&continue_straight=true"]))
    return lines


def standing_routes(points, count, seed):
    """Routes that end where they begin: most of the work is to find their places."""
    chance = random.Random(seed)
    places = [near(chance, chance.choice(points), 0.002) for _ in range(count)]
    return [f"{FRONT}{place};{place}{BACK}" for place in places]


def hard_lines(points, count, seed):
    """Short routes, routes to where they begin, coordinates on nodes, more and fewer digits, far places,
    and lines that are no request."""
    chance = random.Random(seed)
    lines = []
    for _ in range(count):
        at, other = chance.choice(points), chance.choice(points)
        exact = f"{at[0]:.7f},{at[1]:.7f}"
        lines += [
            f"{FRONT}{near(chance, at, 0.0005)};{near(chance, at, 0.0005)}{BACK}",
            f"{FRONT}{near(chance, at, 0.00005)};{near(chance, at, 0.00005)}{BACK}",
            f"{FRONT}{exact};{exact}{BACK}",
            f"{FRONT}{exact};{other[0]:.7f},{other[1]:.7f}{BACK}",
            f"{FRONT}{near(chance, at, 0.01, 9)};{near(chance, other, 0.01, 2)}{BACK}",
        ]
    lines += [
        f"{FRONT}180,90;-180.0,-90.00{BACK}",
        f"{FRONT}-0.0000005,-0;0.0000004,00.5{BACK}",
        f"{FRONT}180.0000005,0;0,0{BACK}",
        f"{FRONT}0,90.0000004;0,0{BACK}",
        f"{FRONT}0,0;0,0;0,0{BACK}",
        f"{FRONT}0,0{BACK}",
        f"{FRONT}+1,0;0,0{BACK}",
        f"{FRONT}1.,0;0,.0{BACK}",
        f"{FRONT} 1,0;0,0{BACK}",
        "",
        "GET /",
        "\r",
        f"{FRONT}13.0,53.5;13.01,53.51{BACK}\r",
    ]
    return lines + REFUSED


# Targets that are refused, or nearly so.
REFUSED = [f"GET {target}" for target in (
    "", "/", "route/v1/car/0,0;0,0", "/route/v1/car/0,0;0,0/", "/route//car/0,0;0,0", "/route/v1/car", "/%72oute/v1/car/0,0;0,0",
    "/table/v1/car/0,0", "/rou\"te\\/v1/car/0,0", "/route/v2/car/x", "/route/v1/car/0,0;0,0.flatbuffers", "/route/v1/c a r/0,0;x,0",
    "/route/v1/car/0,0;0,0.json?overview=false", "/route/v1/car/polyline(abc)?overview=false", "/route/v1/car/polyline6(a?b;0,0)?overview=false",
    "/route/v1/car/0,0", "/route/v1/car/0,0?overview=false", "/route/v1/car/;0,0", "/route/v1/car/0,0;0,0;?overview=false",
    "/route/v1/car/0,0;0,0", "/route/v1/car/0,0;0,0?", "/route/v1/car/0,0;0,0?&", "/route/v1/car/0,0;0,0?overview=false&",
    "/route/v1/car/0,0;0,0?overview=false&overview=false", "/route/v1/car/0,0;0,0?overview=full", "/route/v1/car/0,0;0,0?overview",
    "/route/v1/car/0,0;0,0?overview=false&b\u00e9=1&c=2", "/route/v1/car/0,0;0,0?=&overview=false", "/route/v1/car/0,0;0,0?overview=false=",
    "/route/v1/car/0,0;0,0?overview=false?overview=false", "/route/v1/c(a/0,0;0,0?overview=false)/0,0;1,1?overview=false",
    "/route/v1/c)r/0,0;0,0?overview=false", "/route/v1/car/200,0;0,0?foo=1", "/route/v1/car/0,0;0,-91;181,0?overview=false",
    "/route/v1/bike/0,0;0,0?overview=false", "/trip/v1/car/0,0", "/trip/v1/car/0,0;0,0?sources=all", "/trip/v1/car/0,0;0,0?source=last",
    "/trip/v1/car/0,0;0,0?destination=first", "/trip/v1/car/0,0;0,0?roundtrip=", "/trip/v1/car/0,0;0,0?alternatives=false",
    "/trip/v1/car/0,0;0,0?source=first&source=any", "/trip/v1/car/" + ";".join(["0,0"] * 9), "/trip/v1/car/" + ";".join(["0,0"] * 10),
    "/trip/v1/car/" + ";".join(["0,0"] * 9) + ";0,91", "/route/v1/car/0,0;0,0?source=any", "/table/v1/car/0,0;0,0?destination=last",
    "/route/v1/car/0,0;0,0?continue_straight=yes", "/route/v1/car/0,0;0,0?continue_straight=", "/trip/v1/car/0,0;0,0?continue_straight=true",
    "/table/v1/car/0,0?continue_straight=default", "/nearest/v1/car/0,0?continue_straight=false", "/route/v1/car/0,0;0,0?continue_straight=true&continue_straight=default",
)] + ["GET\t/route/v1/car/0,0;0,0?overview=false", "get /route", "POST /", "GET /" + "a" * 8187, "GET /" + "a" * 8188]


# ---- runs ----

def least(both, repeats, lines, *words):
    """The least time of each of both commands, in turns, and their last outputs."""
    times, outputs = ([], []), [b"", b""]
    for _ in range(repeats):
        for which, command in enumerate(both):
            seconds, outputs[which] = common.run([command, "ask", *words], lines)
            times[which].append(seconds)
    return [min(all_of) for all_of in times], outputs


def peak(command, lines, *words):
    """The greatest memory of a run in megabytes, by GNU time."""
    with tempfile.NamedTemporaryFile("r") as told:
        text = "".join(line + "\n" for line in lines).encode()
        subprocess.run(["/usr/bin/time", "-f", "%M", "-o", told.name, command, "ask", *words], input=text, stdout=subprocess.DEVNULL, check=True)
        return int(told.read()) / 1024


def differences(lines, outputs, keep):
    """How many replies differ. The first one is shown, and the lines are kept in a file."""
    asked = [line for line in lines if line.strip("\r")]
    replies = [output.split(b"\n")[:-1] for output in outputs]
    wrong = sum(a != b for a, b in zip(*replies)) + abs(len(replies[0]) - len(replies[1]))
    if wrong == 0:
        return 0
    print(f"  {wrong} REPLIES DIFFER; the lines are in {keep}")
    with open(keep, "w", encoding="utf-8", newline="\n") as out:
        out.write("".join(line + "\n" for line in lines))
    for place, (a, b) in enumerate(zip(*replies)):
        if a != b:
            print(f"  line     {asked[place]}\n  program  {a.decode()}\n  baseline {b.decode()}")
            break
    return wrong


def checked(command, path, settings):
    return subprocess.run([command, "check", path, settings], capture_output=True, text=True, check=True).stdout


def check_differs(both, path, settings):
    """Whether both print other counts, as a number."""
    counts = [checked(command, path, settings) for command in both]
    if counts[0] == counts[1]:
        return 0
    print(f"  CHECK DIFFERS for {path}: {counts}")
    return 1


def codes_of(replies):
    """How many replies there are of each code."""
    counts = Counter(re.findall(rb'^\{"code":"(\w+)"', replies, re.M))
    return ", ".join(f"{count} {code.decode()}" for code, count in counts.most_common())


def figure(number):
    """Four digits or more."""
    return f"{number:.{max(0, 3 - int(math.log10(max(number, 1e-9))))}f}" if number >= 1 else f"{number:.4f}"


def row(what, program, baseline, unit, rate=False):
    ratio = program / baseline if baseline > 0 else math.nan
    print(f"  {what:<30} {figure(program):>10} {figure(baseline):>10} {ratio:>7.2f}  {unit}{', more is better' if rate else ''}")


def measure(name, path, both, arguments, scratch):
    """Prints all figures for one map, and gives how many replies differ."""
    unused = os.path.join(scratch, "unused.toml")
    with open(unused, "w", encoding="ascii") as out:
        out.write(UNUSED)
    settings, repeats = arguments.settings, arguments.repeats
    megabytes = os.path.getsize(path) / 1e6
    wrong = check_differs(both, path, settings)
    counts = dict(line.split() for line in checked(both[1], path, settings).splitlines())
    segments = int(counts["segments"])
    print(f"{name}: {megabytes:.2f} MB; " + ", ".join(f"{counts[key]} {key}" for key in ("segments", "turns", "restrictions", "ignored")))
    print(f"  {'':<30} {'program':>10} {'baseline':>10} {'ratio':>7}")
    start, _ = least(both, repeats, [], path, settings)
    reading, _ = least(both, repeats, [], path, unused)
    row("start-up", *start, "s")
    row("  of that reading alone", *reading, "s")
    row("read and built", *[megabytes / t for t in start], "MB/s", True)
    row("read alone", *[megabytes / t for t in reading], "MB/s", True)
    building = [max(a - b, 1e-6) for a, b in zip(start, reading)]
    scale = segments * math.log2(max(segments, 2))
    row("building / (n log2 n)", *[t * 1e9 / scale for t in building], "ns")
    memory = [peak(command, [], path, settings) for command in both]
    row("peak memory at start-up", *memory, "MB")
    row("  for each segment", *[m * 1048576 / segments for m in memory], "bytes")
    points = common.locations(path, settings)
    routes = random_routes(points, arguments.routes, 1)
    times, outputs = least(both, max(1, repeats // 2), routes, path, settings)
    spent = [max(t - s, 1e-6) for t, s in zip(times, start)]
    row(f"{len(routes)} random routes", *spent, "s")
    standing, _ = least(both, max(1, repeats // 2), standing_routes(points, arguments.routes, 3), path, settings)
    snapping = [max(t - s, 1e-6) for t, s in zip(standing, start)]
    row("  of that snapping, about", *snapping, "s")
    row("  and searching, about", *[max(t - s, 1e-6) for t, s in zip(spent, snapping)], "s")
    row("routes a second", *[len(routes) / t for t in spent], "1/s", True)
    row("peak memory with routes", *[peak(command, routes, path, settings) for command in both], "MB")
    hard = hard_lines(points, max(1, arguments.routes // 10), 2) + long_routes(points, max(1, arguments.routes // 10), 4)
    _, hard_outputs = least(both, 1, hard, path, settings)
    keep = os.path.join(tempfile.gettempdir(), "reading-differs-" + re.sub(r"\W+", "-", name))
    wrong += differences(routes, outputs, keep + ".txt") + differences(hard, hard_outputs, keep + "-hard.txt")
    if wrong == 0:
        print("  all replies alike, byte for byte: " + codes_of(outputs[0] + hard_outputs[0]))
    else:
        shutil.copy(path, keep + ".opl")
    sys.stdout.flush()
    return wrong


def compare_tangles(count, both, settings, scratch):
    """Compares the replies on so many small maps that are hard to get right."""
    path, wrong, told = os.path.join(scratch, "tangle.opl"), 0, b""
    for seed in range(count):
        points = tangle(seed, path)
        lines = random_routes(points, 40, seed) + standing_routes(points, 10, seed) + hard_lines(points, 10, seed) + long_routes(points, 10, seed)
        _, outputs = least(both, 1, lines, path, settings)
        keep = os.path.join(tempfile.gettempdir(), f"reading-differs-tangle-{seed}")
        here = differences(lines, outputs, keep + ".txt") + check_differs(both, path, settings)
        if here > 0:
            shutil.copy(path, keep + ".opl")
        wrong += here
        told += outputs[0]
    print(f"{count} small maps made to be hard: {wrong} replies differ; {codes_of(told)}")
    return wrong


def main():
    parser = argparse.ArgumentParser(usage=__doc__.split("usage: ")[1].split("\n\n")[0])
    parser.add_argument("--towns", default="50,100,200")
    parser.add_argument("--routes", type=int, default=200)
    parser.add_argument("--repeats", type=int, default=5)
    parser.add_argument("--tangles", type=int, default=50)
    parser.add_argument("settings", nargs="?", default=common.CAR)
    parser.add_argument("maps", nargs="*")
    arguments = parser.parse_args()
    program, wrong = common.program(), 0
    with tempfile.TemporaryDirectory() as scratch:
        both = [program, common.baseline(scratch)]
        wrong += compare_tangles(arguments.tangles, both, arguments.settings, scratch)
        for source in arguments.maps:
            wrong += measure(os.path.basename(source), source, both, arguments, scratch)
        path = os.path.join(scratch, "map.opl")
        for size in filter(None, arguments.towns.split(",")):
            with open(path, "w", encoding="ascii") as out:
                common.town(int(size), out)
            wrong += measure(f"town {size} by {size}", path, both, arguments, scratch)
    sys.exit(1 if wrong else 0)


if __name__ == "__main__":
    main()
