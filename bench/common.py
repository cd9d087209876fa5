#!/usr/bin/env python3
"""What the scripts of this folder share: what they run, what a run takes, and a town with routes over it.

    bench/common.py program                       prints where the program is
    bench/common.py tests                         prints where the tests of metrics are, built
    bench/common.py baseline FOLDER               prints where the baseline is, compiled into this folder if need be
    bench/common.py overlays FOLDER               the same of the baseline of overlays
    bench/common.py town N                        prints a town of N by N nodes at scattered places
    bench/common.py routes SETTINGS OPL COUNT     prints the targets of so many random routes, one a line

The program is that of the environment variable ROAD_ROUTER, or else crates/road_router/out/road_router below the
repository. Where none is there a script says so and fails: proving it takes some twenty minutes, so none does that. The
baseline is that of BASELINE, or else baseline.rs, compiled by rustc; the baseline of overlays that of OVERLAYS, or else
overlays/main.rs.
"""
import os
import random
import re
import shutil
import subprocess
import sys
import tempfile
import time

HERE = os.path.dirname(os.path.abspath(__file__))
CRATE = os.path.join(os.path.dirname(HERE), "crates", "road_router")
CAR = os.path.join(HERE, "car.toml")


# ---- what is run ----

def executable(path, hint):
    """The path of a program, if it is there."""
    if not os.path.isfile(path) or not os.access(path, os.X_OK):
        sys.exit(f"bench: there is no program {path}: {hint}")
    return os.path.abspath(path)


def program():
    """The built road_router."""
    path = os.environ.get("ROAD_ROUTER") or os.path.join(CRATE, "out", "road_router")
    return executable(path, "./quickstart or rt ci builds it, and ROAD_ROUTER names one that stands elsewhere")


def compiled(source, made, *flags):
    """A Rust program of this folder, compiled into that file."""
    if not shutil.which("rustc"):
        sys.exit(f"bench: there is no rustc, which compiles {source}")
    words = ["rustc", "--edition", "2024", "-C", "opt-level=3", *flags, os.path.join(HERE, source), "-o", made]
    subprocess.run(words, check=True)
    return made


def metrics_tests():
    """The built tests of worked_metrics."""
    path = os.environ.get("METRICS_TESTS") or os.path.join(os.path.dirname(CRATE), "worked_metrics", "out", "worked_metrics_tests")
    return executable(path, "rt ci builds it, or rt test in crates/worked_metrics, and METRICS_TESTS names one that stands elsewhere")


def baseline(folder):
    """The baseline of this folder, compiled."""
    if os.environ.get("BASELINE"):
        return executable(os.environ["BASELINE"], "BASELINE names baseline.rs, compiled")
    return compiled("baseline.rs", os.path.join(folder, "baseline"))


def overlays(folder):
    """The baseline of overlays, compiled."""
    if os.environ.get("OVERLAYS"):
        return executable(os.environ["OVERLAYS"], "OVERLAYS names overlays/main.rs, compiled")
    return compiled("overlays/main.rs", os.path.join(folder, "overlays"), "-C", "codegen-units=1")


# ---- what a run takes ----

def run(words, lines):
    """A run over these lines of input: the processor seconds of all its threads, and what it writes. It must end well."""
    with tempfile.TemporaryFile() as given, tempfile.TemporaryFile() as told:
        given.write("".join(f"{line}\n" for line in lines).encode())
        given.seek(0)
        child = subprocess.Popen(words, stdin=given, stdout=told)
        _, status, usage = os.wait4(child.pid, 0)
        child.returncode = os.waitstatus_to_exitcode(status)
        told.seek(0)
        output = told.read()
    if child.returncode != 0:
        sys.exit(f"bench: {' '.join(words)} ended with status {child.returncode}: {output[-200:]!r}")
    return usage.ru_utime + usage.ru_stime, output


def asked(words, lines):
    """A run that replies to each of these lines: its processor seconds, and the replies."""
    spent, output = run(words, lines)
    replies = output.decode().split("\n")[:-1]
    if len(replies) != len(lines):
        sys.exit(f"bench: {' '.join(words)} has {len(replies)} replies to {len(lines)} lines")
    return spent, replies


def start_of(words, repeats=3):
    """The least processor seconds of a run that is asked nothing."""
    return min(run(words, [])[0] for _ in range(repeats))


class Session:
    """A running `ask`, given one line after the other. The kernel tells its times and its memory (/proc, Linux only)."""

    def __init__(self, words):
        self.child = subprocess.Popen(words, stdin=subprocess.PIPE, stdout=subprocess.PIPE)
        self.folder = f"/proc/{self.child.pid}"
        self.ask("GET /")

    def ask(self, line):
        self.child.stdin.write(line.encode() + b"\n")
        self.child.stdin.flush()
        reply = self.child.stdout.readline().decode().rstrip("\n")
        if not reply:
            sys.exit(f"bench: {self.child.args[0]} has no reply to {line}")
        return reply

    def seconds(self):
        """Processor seconds of the first thread, and of all of them with those that have ended."""
        with open(f"{self.folder}/schedstat", encoding="ascii") as told:
            first = int(told.read().split()[0]) / 1e9
        # the clock of another process, by its number (as `clock_getcpuclockid` makes it)
        return first, time.clock_gettime(~self.child.pid << 3 | 2)

    def megabytes(self):
        """What it holds now, and the peak since `forget`."""
        with open(f"{self.folder}/status", encoding="ascii") as told:
            sizes = dict(line.split(":") for line in told if line.startswith("Vm"))
        return [int(sizes[key].split()[0]) / 1024 for key in ("VmRSS", "VmHWM")]

    def forget(self):
        with open(f"{self.folder}/clear_refs", "w", encoding="ascii") as out:
            out.write("5")

    def line(self, line):
        """The reply, the seconds of the first and of all threads, and memory before, at the peak and after."""
        before, (held, _) = self.seconds(), self.megabytes()
        self.forget()
        reply = self.ask(line)
        after, (left, peak) = self.seconds(), self.megabytes()
        return reply, (after[0] - before[0], after[1] - before[1]), (held, peak, left)

    def end(self):
        self.child.stdin.close()
        self.child.wait()


# ---- a town, and routes ----

def town(size, out):
    """Writes a town: a grid of size by size nodes with scattered locations, a street along each row and an avenue along
    each column; each sixth street is bigger, and of the avenues each fourth is one-way up and each fourth one-way down.
    Some crossings have signals, a few are closed, and at some a turn is forbidden. (The program's own `town` is straight,
    without signals and closed nodes.)"""
    chance = random.Random(size)
    for row in range(size):
        for column in range(size):
            lon = 13.0 + column * 0.0011 + chance.randint(-2000, 2000) * 1e-7
            lat = 53.4 + row * 0.0008 + chance.randint(-2000, 2000) * 1e-7
            kinds = ["highway=crossing", "highway=traffic_signals", "barrier=bollard"]
            tags = chance.choices(["", *kinds], [900, 50, 40, 10])[0]
            out.write(f"n{row * size + column + 1} v1 dV T{tags} x{lon:.7f} y{lat:.7f}\n")
    for row in range(size):
        kind = "secondary" if row % 6 == 0 else "residential"
        ids = ",".join(f"n{row * size + column + 1}" for column in range(size))
        out.write(f"w{row + 1} v1 dV Thighway={kind},name=Street-{row + 1},surface=asphalt N{ids}\n")
    for column in range(size):
        way = {1: ",oneway=yes", 3: ",oneway=-1"}.get(column % 4, "")
        ids = ",".join(f"n{row * size + column + 1}" for row in range(size))
        out.write(f"w{size + column + 1} v1 dV Thighway=residential,name=Avenue%20%{column + 1}{way} N{ids}\n")
    for number in range(size * size // 20):
        row, column = chance.randrange(size), chance.randrange(size)
        kind = chance.choice(["no_left_turn", "no_right_turn", "no_straight_on", "only_straight_on"])
        ways = chance.sample([row + 1, size + column + 1], 2)
        members = f"w{ways[0]}@from,n{row * size + column + 1}@via,w{ways[1]}@to"
        out.write(f"r{number + 1} v1 dV Ttype=restriction,restriction={kind} M{members}\n")


def locations(path, settings):
    """The locations of the nodes of the ways whose kind the settings name."""
    with open(settings, encoding="utf-8") as lines:
        kinds = set(re.findall(r"^(\w+) *=", lines.read().split("[speeds]")[-1], re.M))
    used, nodes = set(), {}
    with open(path, encoding="utf-8") as lines:
        for line in lines:
            if line.startswith("n"):
                found = re.match(r"n(-?\d+) .*\bx(-?[\d.]+) y(-?[\d.]+)", line)
                if found:
                    nodes[found[1]] = (float(found[2]), float(found[3]))
            elif line.startswith("w"):
                kind = re.search(r"[T,]highway=(\w+)", line)
                if kind and kind[1] in kinds:
                    used.update(re.findall(r"[N,]n(-?\d+)", "N" + line.split(" N")[-1]))
    return [nodes[id] for id in sorted(used) if id in nodes]


def near(chance, point, reach, digits=6):
    """A place at most so many degrees away in each coordinate."""
    lon = point[0] + chance.uniform(-reach, reach)
    lat = point[1] + chance.uniform(-reach, reach)
    return f"{lon:.{digits}f},{lat:.{digits}f}"


def random_targets(points, count, seed):
    """The targets of routes between random nodes, each coordinate moved by up to 200 metres."""
    chance = random.Random(seed)
    place = lambda: near(chance, chance.choice(points), 0.002)
    return [f"/route/v1/car/{place()};{place()}?overview=false" for _ in range(count)]


def main():
    match sys.argv[1:]:
        case ["program"]:
            print(program())
        case ["tests"]:
            print(metrics_tests())
        case ["baseline", folder]:
            print(baseline(folder))
        case ["overlays", folder]:
            print(overlays(folder))
        case ["town", size]:
            town(int(size), sys.stdout)
        case ["routes", settings, opl, count]:
            print(*random_targets(locations(opl, settings), int(count), 1), sep="\n")
        case _:
            sys.exit(__doc__)


if __name__ == "__main__":
    main()
