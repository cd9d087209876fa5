#!/usr/bin/env python3
"""Writes a map like those of real roads, of any size.

    bench/road_map.py SEGMENTS FILE [SEED]      about so many segments; the same number and seed give the same bytes

A lattice of junctions is moved about, so that no two roads cross without one. Streets inside a town are kept with chance
0.86, between towns with 0.25; every 8th line of the lattice is tertiary, every 24th primary, every 96th a trunk road, and the
last two are always kept. Between two junctions lie 1 to 9 points (4 on average), so most nodes join two segments, as in real
data. There are one-way streets, private ways, signals, bollards, names, and turn restrictions of several kinds; one street in
forty of those that hang together with nothing else stays. A million segments take some ten seconds of processor time; what
is kept in memory is the junctions alone."""
import os
import random
import shutil
import sys
import tempfile
from array import array

RESTRICTIONS = ["no_left_turn", "no_right_turn", "no_straight_on", "no_u_turn", "only_straight_on", "only_right_turn"]
# Microdegrees between junctions, and where the first stands.
STEP, WEST, SOUTH = 1500, 9_000_000, 47_000_000
# Junctions on a side of a town, and from one town to the next.
TOWN, PERIOD = 48, 72


def kind_of_line(line):
    """The kind of the roads along a line of the lattice, None where they are streets."""
    return next((kind for every, kind in ((96, "trunk"), (24, "primary"), (8, "tertiary")) if line % every == 0), None)


def degrees(value):
    return f"{value // 1_000_000}.{value % 1_000_000:06}"


class Lattice:
    """The junctions, by number from 0, and which of their streets stay."""

    def __init__(self, segments, seed):
        self.chance = random.Random(seed).random
        self.side = max(4, int((1.135 * segments / 5.3) ** 0.5))
        count = self.side * self.side
        self.lons, self.lats = array("i", bytes(4 * count)), array("i", bytes(4 * count))
        for number in range(count):
            self.lons[number] = WEST + number % self.side * STEP + int((self.chance() - 0.5) * 0.5 * STEP)
            self.lats[number] = SOUTH + number // self.side * STEP + int((self.chance() - 0.5) * 0.5 * STEP)
        # how many streets meet at each
        self.degree = bytearray(count)
        self.parent = array("i", range(count))
        self.kept = [self.kept_along(axis, line) for axis in (0, 1) for line in range(self.side)]
        for number, kept in enumerate(self.kept):
            self.drop_islands(*divmod(number, self.side), kept)
        del self.parent

    def at(self, axis, line, place):
        """The junction at a place of a line: rows are those of axis 0."""
        return line * self.side + place if axis == 0 else place * self.side + line

    def in_town(self, number):
        x, y = number % self.side, number // self.side
        return y % PERIOD < TOWN and (x + y // PERIOD * 17) % PERIOD < TOWN

    def root(self, number):
        while self.parent[number] != number:
            self.parent[number] = self.parent[self.parent[number]]
            number = self.parent[number]
        return number

    def kept_along(self, axis, line):
        """Which streets of a line are kept, each from its place to the next."""
        kind, kept = kind_of_line(line), bytearray(self.side - 1)
        for place in range(self.side - 1):
            here, there = self.at(axis, line, place), self.at(axis, line, place + 1)
            share = 1 if kind in ("trunk", "primary") else 0.86 if self.in_town(here) else 0.25
            if self.chance() < (max(share, 0.7) if kind == "tertiary" else share):
                kept[place] = 1
                self.parent[self.root(here)] = self.root(there)
        return kept

    def drop_islands(self, axis, line, kept):
        """Drops most streets of a line that don't hang together with the first junction."""
        for place in range(self.side - 1):
            if kept[place] and self.root(self.at(axis, line, place)) != self.root(0) and self.chance() >= 0.025:
                kept[place] = 0


class Drawing:
    """A map on its way into three files: points of streets, ways, and what comes of the junctions at the end."""

    def __init__(self, segments, seed, points, ways):
        self.lattice, self.points, self.ways = Lattice(segments, seed), points, ways
        self.chance, self.choice = self.lattice.chance, random.Random(seed).choice
        self.last_node, self.last_way = len(self.lattice.lons), 0
        # the ways through those junctions that may get a restriction
        self.through = {}

    def street(self, a, b):
        """The points between two junctions, in a gentle bow."""
        chance, lons, lats = self.chance, self.lattice.lons, self.lattice.lats
        count = 1 + int(chance() * 3) + (int(chance() * 7) if chance() < 0.67 else 0)
        east, north, bow = lons[b] - lons[a], lats[b] - lats[a], (chance() - 0.5) * 0.3
        for number in range(1, count + 1):
            part = number / (count + 1)
            off = bow * 4 * part * (1 - part)
            lon, lat = lons[a] + int(east * part - north * off), lats[a] + int(north * part + east * off)
            self.last_node += 1
            self.points.write(f"n{self.last_node} x{degrees(lon)} y{degrees(lat)}\n")
        return range(self.last_node - count + 1, self.last_node + 1)

    def tags(self, axis, line):
        draw, big = self.chance(), kind_of_line(line)
        kind = big or ("residential" if draw < 0.68 else "unclassified" if draw < 0.82 else "service" if draw < 0.94 else "living_street")
        tags = f"highway={kind}"
        if kind != "service":
            tags += f",name={'Road' if axis else 'Street'}%20%{line}"
            tags += "%20%" + self.choice(["North", "South", "Upper", "Lower"]) if self.chance() < 0.2 else ""
        draw = self.chance()
        if not big and draw < 0.07:
            return tags + (",oneway=yes" if draw < 0.05 else ",oneway=-1")
        return tags + (",access=private" if kind == "service" and draw < 0.2 else "")

    def way(self, tags, nodes):
        self.last_way += 1
        self.ways.write(f"w{self.last_way} T{tags} N{','.join(f'n{node}' for node in nodes)}\n")
        for node in nodes:
            if node <= len(self.lattice.lons) and node * 2_654_435_761 % 2**32 < 0.02 * 2**32:
                self.through.setdefault(node, []).append(self.last_way)

    def line(self, axis, line):
        """The ways along a line, each of 1 to 6 streets."""
        lattice, nodes, left, tags = self.lattice, [], 0, ""
        for place, kept in enumerate(lattice.kept[axis * lattice.side + line]):
            if nodes and (not kept or left == 0):
                self.way(tags, nodes)
                nodes = []
            if kept:
                here, there = lattice.at(axis, line, place), lattice.at(axis, line, place + 1)
                if not nodes:
                    left, tags, nodes = 1 + int(self.chance() * 6), self.tags(axis, line), [here + 1]
                nodes += [*self.street(here, there), there + 1]
                lattice.degree[here] += 1
                lattice.degree[there] += 1
                left -= 1
        if nodes:
            self.way(tags, nodes)

    def junction(self, number):
        """The line of a junction, if a street meets it."""
        lattice = self.lattice
        kinds, degree = [kind_of_line(number % lattice.side), kind_of_line(number // lattice.side)], lattice.degree[number]
        tag = ""
        if degree >= 3 and kinds[0] in ("primary", "trunk") and kinds[1] and self.chance() < 0.7:
            tag = " Thighway=traffic_signals"
        if degree == 2 and kinds == [None, None] and self.chance() < 0.004:
            tag = " Tbarrier=bollard"
        return f"n{number + 1}{tag} x{degrees(lattice.lons[number])} y{degrees(lattice.lats[number])}\n" if degree else ""

    def restrictions(self):
        for number, (via, ways) in enumerate((at for at in self.through.items() if len(at[1]) > 1), 1):
            a, b = self.choice(ways), self.choice(ways)
            yield f"r{number} Ttype=restriction,restriction={self.choice(RESTRICTIONS)} Mw{a}@from,n{via}@via,w{b}@to\n"


def write(segments, path, seed=1):
    """Writes a map, and gives two of its places far from one another, between which trunk roads lead: the corners in the
    south-east and in the north-west, as `LON,LAT`."""
    folder = os.path.dirname(os.path.abspath(path))
    with tempfile.TemporaryFile("w+", dir=folder) as points, tempfile.TemporaryFile("w+", dir=folder) as ways:
        drawing = Drawing(segments, seed, points, ways)
        lattice = drawing.lattice
        for axis in (0, 1):
            for line in range(lattice.side):
                drawing.line(axis, line)
        with open(path, "w", encoding="ascii") as out:
            out.writelines(map(drawing.junction, range(len(lattice.lons))))
            for part in (points, ways):
                part.seek(0)
                shutil.copyfileobj(part, out, 1 << 20)
            out.writelines(drawing.restrictions())
    corners = (lattice.side - 1, len(lattice.lons) - lattice.side)
    return [f"{degrees(lattice.lons[corner])},{degrees(lattice.lats[corner])}" for corner in corners]


if __name__ == "__main__":
    if len(sys.argv) not in (3, 4):
        sys.exit(__doc__)
    print(*write(int(sys.argv[1]), sys.argv[2], *map(int, sys.argv[3:])), sep=";")
