#!/usr/bin/env python3
"""Draws traffic files for a map: the rows of the speeds and of the turns, good ones and faulty ones.

    bench/traffic_rows.py [--weighed SHARE] OPL SPEED_ROWS TURN_ROWS [SEED]     writes speeds.csv and turns.csv

The same map, numbers and seed give the same bytes. About one speed row in 200 closes a road, one in 5 has fraction
digits, one in 100 matches nothing; of the turns one in 5 is negative. Of the speed rows SHARE have a rate and of the turns
SHARE a weight: 0.01, where it isn't named.
"""
import argparse
import random
import re
import sys


ONE_WAY = {"yes": 1, "true": 1, "1": 1, "-1": -1, "reverse": -1}


def meetings(opl):
    """The pairs of neighbouring nodes on ways with a highway tag in the directions that are driven, and from each node the
    nodes before and behind it."""
    pairs, around = [], {}
    with open(opl, encoding="utf-8") as lines:
        for line in lines:
            if line.startswith("w") and re.search(r"[ \t,]T?highway=", line):
                nodes = re.search(r"[ \t]N(\S+)", line)
                ids = [int(re.match(r"n(-?\d+)", entry)[1]) for entry in nodes[1].split(",")] if nodes else []
                one_way = re.search(r"[T,]oneway=([^,\s]*)", line)
                way = ONE_WAY.get(one_way[1], 0) if one_way else 0
                for a, b in zip(ids, ids[1:]):
                    for tail, head in ([(a, b)] if a != b and way >= 0 else []) + ([(b, a)] if a != b and way <= 0 else []):
                        pairs.append((tail, head))
                        around.setdefault(head, (set(), set()))[0].add(tail)
                        around.setdefault(tail, (set(), set()))[1].add(head)
    return pairs, {node: (sorted(before), sorted(behind)) for node, (before, behind) in around.items() if before and behind}


def weighed(chance, share, least, most):
    """What a row has behind its last column: in this share of the rows a number between these, of up to four digits behind
    the point."""
    number = f"{chance.uniform(least, most):.{chance.randrange(5)}f}"
    return [number] if chance.random() < share else []


def speed_row(chance, pairs, share=0.01):
    a, b = chance.choice(pairs)
    if chance.random() < 0.01:
        a, b = chance.choice([(b, a), (a, a), (-a, b), (a, b + 7), (9223372036854775807, -9223372036854775808)])
    draw = chance.random()
    speed = "0" if draw < 0.005 else str(chance.randrange(3, 130))
    if draw > 0.8:
        speed += "." + str(chance.randrange(1, 100000))
    return [str(a), str(b), speed] + weighed(chance, share, 1, 30)


def turn_row(chance, around, nodes, share=0.01):
    via = chance.choice(nodes)
    a, b = chance.choice(around[via][0]), chance.choice(around[via][1])
    if a == b and chance.random() < 0.9:
        b = chance.choice([node for node in around[via][1] if node != a] or [a])
    if chance.random() < 0.01:
        b += 7
    penalty = str(chance.randrange(0, 90)) + chance.choice(["", "", f".{chance.randrange(10)}", f".{chance.randrange(1000)}"])
    return [str(a), str(via), str(b), chance.choice(["", "", "", "", "-"]) + penalty] + weighed(chance, share, -10, 90)


def speed_rows(chance, pairs, count, share=0.01):
    return [speed_row(chance, pairs, share) for _ in range(count)] if pairs else []


def turn_rows(chance, around, count, share=0.01):
    crossings = [node for node, (_, behind) in around.items() if len(behind) > 2] or list(around)
    return [turn_row(chance, around, crossings, share) for _ in range(count)] if crossings else []


def plain(rows):
    """One row a line."""
    return "".join(",".join(row) + "\n" for row in rows).encode()


def dressed(chance, rows):
    """The same rows in other forms that CSV allows: quotes, blanks, other ends of lines, empty lines, a byte order mark."""
    def field(text):
        text = chance.choice(["", "", "", " ", "  "]) + text + chance.choice(["", "", "", " "])
        return f'"{text}"' if chance.random() < 0.1 else text
    out = chance.choice(["", "", "\ufeff", "\n\r\n"])
    for row in rows:
        out += ",".join(map(field, row)) + chance.choice(["\n", "\n", "\n", "\r\n", "\r", "\n\n"])
    return (out.rstrip("\r\n") if chance.random() < 0.3 else out).encode()


# Faulty rows, and what is wrong with each.
SPEED_FAULTS = [
    ("1,2", "BadCount"), ("1,2,3,4,5", "BadCount"), (" ", "BadCount"), ('""', "BadCount"), ('"1,2,3"', "BadCount"), ('1,2,"3\n4,5,6', "BadNumber"),
    ("x,2,3", "BadId"), ("1,,3", "BadId"), ("9223372036854775808,2,3", "BadId"), ("1,00000000000000000002,3", "BadId"), ("1,+2,3", "BadId"), ("1,\t2,3", "BadId"), ("1,--2,x", "BadId"),
    ("1,2,", "BadNumber"), ("1,2,-3", "BadNumber"), ("1,2,-0", "BadNumber"), ("1,2,3.", "BadNumber"), ("1,2,.5", "BadNumber"), ("1,2,1e3", "BadNumber"), ("1,2,2000,x", "BadNumber"), ("1,2,3,", "BadNumber"),
    ('1,2,"3"x', "BadNumber"), ("1,2,\udcff3", "BadNumber"), ("1,2\0,3", "BadId"), ("1,2,1000.001", "OutOfRange"), ("1,2,99999999999999999999999999,-1", "OutOfRange"),
    ("1,2,3,0", "OutOfRange"), ("1,2,3,-0", "OutOfRange"), ("1,2,3,0.0009", "OutOfRange"), ("1,2,0,-2.5", "OutOfRange"), ("1,2,3,1000.001", "OutOfRange"), ("1,2,2000,+1", "BadNumber"), ("1,2,-3,0", "BadNumber"),
]
TURN_FAULTS = [
    ("1,2,3", "BadCount"), ("1,2,3,4,5,6", "BadCount"), ("1,2,3x,4", "BadId"), ("1, ,3,4", "BadId"), ("1,2,-9223372036854775809,4", "BadId"),
    ("1,2,3,-", "BadNumber"), ("1,2,3,4..5", "BadNumber"), ("1,2,3,200000,1.", "BadNumber"), ("1,2,3,+4", "BadNumber"), ('1,2,3,"4""5"', "BadNumber"), ("1,2,3,4 5", "BadNumber"),
    ("1,2,3,100000.1", "OutOfRange"), ("1,2,3,340282366920938463463374607431768211456", "OutOfRange"),
    ("1,2,3,4,100000.1", "OutOfRange"), ("1,2,3,-4,99999999999999999999", "OutOfRange"), ("1,2,3,4,", "BadNumber"), ("1,2,3,4,1e5", "BadNumber"), ("1,2,3,x,200000", "BadNumber"),
]



def faulty(chance, rows, faults):
    """A file whose first faulty row stands behind these rows, and where and what it is."""
    fault, kind = chance.choice(faults)
    behind = chance.choice(["", "\n1,2", "\n1,2,3,4\n", "\r\n,,,"])
    front = dressed(chance, rows)
    front += b"\n" if front and not front.endswith((b"\n", b"\r")) else b""
    return front + (fault + behind).encode("utf-8", "surrogateescape"), len(rows) + 1, kind


# Rows at the very edge of what is allowed.
SPEED_EDGES = [["1", "2", "1000"], ["1", "2", "1000.0009"], ["1", "2", "0.0009"], ["1", "2", "0.001"], ["0001", "-2", "000000000000000000000000000007.5", "00.001"], ["1", "2", "7", "0.2779"], ["1", "2", "7", "1000.0009"], ["1", "2", "0", "1"], ["9223372036854775807", "-9223372036854775808", "0"]]
TURN_EDGES = [["1", "2", "3", "100000"], ["1", "2", "3", "100000.09"], ["1", "2", "3", "-99999999999999999999"], ["1", "2", "3", "-0.0", "-1"], ["1", "2", "3", "0.09", "0"], ["1", "2", "3", "7", "100000.09"], ["1", "2", "3", "7", "-99999999999999999999"]]


def main():
    parser = argparse.ArgumentParser(usage=__doc__.split("\n\n")[1])
    parser.add_argument("--weighed", type=float, default=0.01)
    parser.add_argument("map")
    parser.add_argument("speeds", type=int)
    parser.add_argument("turns", type=int)
    parser.add_argument("seed", type=int, nargs="?", default=1)
    given = parser.parse_args()
    chance = random.Random(given.seed)
    pairs, around = meetings(given.map)
    files = [("speeds.csv", speed_rows(chance, pairs, given.speeds, given.weighed)), ("turns.csv", turn_rows(chance, around, given.turns, given.weighed))]
    for name, rows in files:
        with open(name, "wb") as out:
            out.write(plain(rows))


if __name__ == "__main__":
    main()
