#!/usr/bin/env python3
"""Refuses each request for memory of some runs of the built program in turn, and looks at what becomes of each run.

    bench/refused.py [--step N] [--on] [NAME..]     NAME as in the table below, or all
    bench/refused.py [--step N] --tests             runs of the tests of metrics, as told at the end

    restriction    `ask`: a route over a crossing with a turn restriction
    via-way        `ask`: a traffic file between two routes along a street over which a restriction leads
    refused        `ask`: a traffic file with a faulty row between two routes
    table          `ask`: a table over a one-way street
    ring           `ask`: a route round a one-way ring, from a place to one behind it; 2,100 segments, so 4,200 vertices in
                   32 cells of the first level and two of the second
    street         `ask`: a good traffic file between two routes along a street of as many segments and cells
    ring-alone     the same two, with no thread started: all is done in one, so that requests come in one order
    street-alone
    serve          `serve` over loopback, one worker, a connection each for a route, a traffic file with a faulty row, a
                   good one, the route again, and the stop

A shim in C, loaded in front of the C library (LD_PRELOAD), refuses the k-th request, for k from 1 on, every N-th (1), until
two runs in a row refused nothing. With --on it refuses all behind it too (`serve` is left out then, since it can't be stopped
without memory for the reply). Requests are the program's own calls of `malloc` and `realloc`, by which alone it asks for memory
(`nm -D`), and of `pthread_create`, for a thread's stack; those of the C library itself go through. All runs are on one
processor. Where threads take turns (in `ring`, `street` and `serve`) the k-th request may be another one from run to run.

Each run has to end in its own outcome (the texts below, worked out by hand), or in want of memory. Of `ask`, that is status 4
with `out of memory` and nothing else put, or status 0 with Busy in the place of one line, or of more with --on; of `serve`
status 4, before the doors are open or behind its last lines, or the reply of status 503 to one request. After Busy all is as
before: each other line has its own text under the number of the last publication, which a line of TRAFFIC that was Busy doesn't
raise. `silent` are runs of `serve` that answered no query until they were stopped, since no thread could be started for the
worker; the control port answered as ever.

With --tests what runs is the test program of crates/worked_metrics, as `rt ci` or `rt test` leaves it: each test that makes
metrics and ends in `_or_memory`, which makes each call that wants memory once more, demands its own outcome then, and tells
the lists of the old metric again, so that it has to pass; and, where there is one, the test of the same name without that
end, which passes with its own outcome, or fails with AllocError. Each runs on one processor, where no thread is started, and
on all, where the k-th request may be another one from run to run.

Printed are, by row, how many requests were refused and how the runs ended; the status is 1 where a run ended otherwise.
It needs Linux and a C compiler; where there is none, or the program doesn't load the shim, the status is 2. (There `rt try
--fail-alloc K` in crates/road_router refuses one request, and builds the program each time.)"""
import argparse
import collections
import os
import shutil
import socket
import subprocess
import sys
import tempfile
import threading
from typing import NamedTuple

import common

# Seconds by the clock: after which a run hangs, and after which a request to `serve` has no reply.
LIMIT, SILENCE = 60, 5

SHIM = r"""
#define _GNU_SOURCE
#include <dlfcn.h>
#include <errno.h>
#include <link.h>
#include <pthread.h>
#include <stdatomic.h>
#include <stdint.h>
#include <stdio.h>
#include <stdlib.h>

// Where the program lies, how many of its requests are left up to the one that is refused, where that is told,
// whether all behind it are refused too, and whether no thread is started.
static uintptr_t begin, end;
static atomic_long left;
static int tell, on, alone;

static int note_program(struct dl_phdr_info *object, size_t size, void *unused) {
    for (int i = 0; i < object->dlpi_phnum; i++) {
        const ElfW(Phdr) *part = &object->dlpi_phdr[i];
        if (part->p_type != PT_LOAD) continue;
        if (!begin) begin = object->dlpi_addr + part->p_vaddr;
        end = object->dlpi_addr + part->p_vaddr + part->p_memsz;
    }
    return 1; // the first object is the program
}

__attribute__((constructor)) static void start(void) {
    left = atol(getenv("REFUSED_NUMBER"));
    tell = atoi(getenv("REFUSED_TELL"));
    on = getenv("REFUSED_ON") != NULL;
    alone = getenv("REFUSED_ALONE") != NULL;
    dl_iterate_phdr(note_program, NULL);
}

static int refuses(void *from, const char *what, size_t bytes) {
    if ((uintptr_t)from < begin || (uintptr_t)from >= end) return 0;
    long number = atomic_fetch_sub(&left, 1);
    if (number > 1 || (number < 1 && !on)) return 0;
    if (number == 1) dprintf(tell, "%s of %zu bytes", what, bytes);
    errno = ENOMEM;
    return 1;
}

#define FROM __builtin_return_address(0)

void *malloc(size_t bytes) {
    static void *(*next)(size_t);
    if (!next) next = dlsym(RTLD_NEXT, "malloc");
    return refuses(FROM, "malloc", bytes) ? NULL : next(bytes);
}

void *realloc(void *block, size_t bytes) {
    static void *(*next)(void *, size_t);
    if (!next) next = dlsym(RTLD_NEXT, "realloc");
    return refuses(FROM, "realloc", bytes) ? NULL : next(block, bytes);
}

int pthread_create(pthread_t *thread, const pthread_attr_t *with, void *(*work)(void *), void *input) {
    static int (*next)(pthread_t *, const pthread_attr_t *, void *(*)(void *), void *);
    if (!next) next = dlsym(RTLD_NEXT, "pthread_create");
    return refuses(FROM, "thread", 0) || alone ? EAGAIN : next(thread, with, work, input);
}
"""


class Line(NamedTuple):
    """A line of `ask`, or a request to `serve`: its own text under each number of the last publication."""

    asked: str
    texts: tuple
    publishes: bool = False


class Row(NamedTuple):
    """A map, lines over it, and whether no thread is started."""

    opl: str
    lines: list
    alone: bool = False


class Run(NamedTuple):
    """What was refused in a run, which outcome it had, or None, and what it came to."""

    refused: str
    outcome: str
    told: str


def route(number, distance, duration, *places):
    """The reply to a route of one leg, without a line and without steps."""
    costs = f'"distance":{distance},"duration":{duration},"weight":{duration}'
    leg = f'{{{costs},"summary":"","steps":[]}}'
    ends = ",".join(f'{{"distance":0.0,"name":"{name}","location":[{place}]}}' for name, place in places)
    told = f'"routes":[{{{costs},"weight_name":"duration","legs":[{leg}]}}],"waypoints":[{ends}]'
    return f'{{"code":"Ok","data_version":"{number}",{told}}}'


def ring(side):
    """A one-way ring round a square with so many segments on each side."""
    south = [(it, 0) for it in range(side)]
    east = [(side, it) for it in range(side)]
    north = [(side - it, side) for it in range(side)]
    west = [(0, side - it) for it in range(side)]
    return way(south + east + north + west, ",oneway=yes", ",n1")


def street(segments):
    """A street that goes north."""
    return way([(0, it) for it in range(segments + 1)], "", "")


def way(nodes, tags, behind):
    """A way through nodes at these thousandths of a degree, each 111.1 metres and 9.9 seconds behind the one before."""
    lines = [f"n{number} x{lon / 1000} y{lat / 1000}\n" for number, (lon, lat) in enumerate(nodes, 1)]
    through = ",".join(f"n{number}" for number in range(1, len(nodes) + 1))
    return "".join(lines) + f"w1 Thighway=residential{tags} N{through}{behind}\n"


TOWN = "n1 x0 y0\nn2 x0 y0.001\nn3 x0.001 y0.001\nw10 Thighway=residential Nn1,n2,n3\n"
CROSSING = """n1 x0.001 y0
n2 x0.002 y0.001
n3 x0.001 y0.002
n4 x0 y0.001
n5 x0.001 y0.001
w1 Thighway=residential,name=South Nn1,n5
w2 Thighway=residential Nn5,n2
w3 Thighway=residential Nn5,n3
w4 Thighway=residential,name=West Nn4,n5
r1 Ttype=restriction,restriction=no_left_turn Mw1@from,n5@via,w4@to
"""
FORK = """n1 x0 y0
n2 x0.001 y0
n3 x0.002 y0
n4 x0.003 y0
n5 x0.002 y0.001
w1 Thighway=residential Nn1,n2
w2 Thighway=residential Nn2,n3
w3 Thighway=residential Nn3,n4
w4 Thighway=residential Nn3,n5
r1 Ttype=restriction,restriction=no_straight_on Mw1@from,w2@via,w3@to
"""
ONE_WAY = "n1 x0 y0\nn2 x0.001 y0\nw20 Thighway=residential,oneway=yes Nn1,n2\n"

# The first segment of a way is driven at half its speed, so in 10.0 seconds more.
TRAFFIC = {"slow.csv": "1,2,20\n", "faulty.csv": "1,2,20\n2,3,30\n3,2,abc\n"}

TOWN_ENDS = ("", "0.000000,0.000000"), ("", "0.001000,0.001000")
TOWN_TARGET = "/route/v1/car/0,0;0.001,0.001?overview=false"
TOWN_ROUTES = route(0, 222.2, 19.8, *TOWN_ENDS), route(1, 222.2, 29.8, *TOWN_ENDS)
STREET_ENDS = ("", "0.000000,0.000000"), ("", "0.000000,2.100000")
STREET_ROUTES = route(0, 233310.0, 20790.0, *STREET_ENDS), route(1, 233310.0, 20800.0, *STREET_ENDS)
FAULTY_ROW = '{"code":"Refused","file":"speeds","row":3,"kind":"BadNumber"}'
PUBLISHED = '{"code":"Ok","data_version":"1","unmatched":0}'

# Left is forbidden, so it goes straight on, turns at the street's end and comes back.
SOUTH_TO_WEST = Line(
    "GET /route/v1/car/0.001,0;0,0.001?overview=false",
    (route(0, 444.4, 59.6, ("South", "0.001000,0.000000"), ("West", "0.000000,0.001000")),),
)
# Straight on is forbidden behind the second street, so it turns at the end of the fourth one and comes back.
FORK_ENDS = ("", "0.000000,0.000000"), ("", "0.003000,0.000000")
OVER_VIA_WAY = Line(
    "GET /route/v1/car/0,0;0.003,0?overview=false",
    (route(0, 555.5, 69.5, *FORK_ENDS), route(1, 555.5, 79.5, *FORK_ENDS)),
)
BACKWARDS = Line(
    "GET /table/v1/car/0.00075,0;0.00025,0?annotations=duration,distance&skip_waypoints=true",
    ('{"code":"Ok","data_version":"0","durations":[[0.0,null],[5.0,0.0]],"distances":[[0.0,null],[55.6,0.0]]}',),
)
# The last quarter of the first segment, all others, and its first quarter.
ROUND = Line(
    "GET /route/v1/car/0.00075,0;0.00025,0?overview=false",
    (route(0, 233254.4, 20785.0, ("", "0.000750,0.000000"), ("", "0.000250,0.000000")),),
)
IN_TOWN = Line(f"GET {TOWN_TARGET}", TOWN_ROUTES)
ALONG = Line("GET /route/v1/car/0,0;0,2.1?overview=false", STREET_ROUTES)
FAULTY = Line("TRAFFIC faulty.csv -", (FAULTY_ROW,))
SLOW = Line("TRAFFIC slow.csv -", (PUBLISHED,), publishes=True)

ROWS = {
    "restriction": Row(CROSSING, [SOUTH_TO_WEST]),
    "via-way": Row(FORK, [OVER_VIA_WAY, SLOW, OVER_VIA_WAY]),
    "refused": Row(TOWN, [IN_TOWN, FAULTY, IN_TOWN]),
    "table": Row(ONE_WAY, [BACKWARDS]),
    "ring": Row(ring(525), [ROUND]),
    "street": Row(street(2100), [ALONG, SLOW, ALONG]),
    "ring-alone": Row(ring(525), [ROUND], alone=True),
    "street-alone": Row(street(2100), [ALONG, SLOW, ALONG], alone=True),
}


def reply(status, body, connection="keep-alive"):
    """A whole reply of `serve`."""
    fields = f"Content-Type: application/json; charset=utf-8\r\nContent-Length: {len(body)}\r\nConnection: {connection}"
    return f"HTTP/1.1 {status}\r\n{fields}\r\n\r\n{body}"


def posted(name, body=""):
    """A request to the control port."""
    return f"POST /control/v1/{name} HTTP/1.1\r\nHost: a\r\nContent-Length: {len(body)}\r\n\r\n{body}"


def rows_posted(file, *, publishes, text):
    """A request to publish the rows of a file, and its own reply."""
    rows = TRAFFIC[file]
    return Line(posted(f"metric?speeds={len(rows)}", rows), (text, text), publishes)


ROUTE_GOT = Line(f"GET {TOWN_TARGET} HTTP/1.1\r\nHost: a\r\n\r\n", tuple(reply("200 OK", it) for it in TOWN_ROUTES))
STOP = Line(posted("stop"), (reply("200 OK", '{"code":"Ok","stopping":true}', "close"),) * 2)
VISITS = [
    ROUTE_GOT,
    rows_posted("faulty.csv", publishes=False, text=reply("400 Bad Request", FAULTY_ROW)),
    rows_posted("slow.csv", publishes=True, text=reply("200 OK", PUBLISHED)),
    ROUTE_GOT,
]

BUSY = '{"code":"Busy"}'
BUSY_TEXTS = BUSY, reply("503 Service Unavailable", BUSY), reply("503 Service Unavailable", BUSY, "close")
EXHAUSTED = "out of memory\n"

# How the names of tests end that look at what stands after want of memory; what a test puts that passes, and one that
# fails for want of memory.
MEMORY = "_or_memory"
PASSED = "\ntest result: ok\n"
WANTED = "Error: AllocError\nthe test failed: its result gives status 1\n"


def stop(why):
    """Ends, since nothing can be refused."""
    print(f"bench/refused.py: {why}", file=sys.stderr)
    sys.exit(2)


def compiled(folder):
    """The shim, compiled into this folder."""
    compiler = next(filter(shutil.which, ("cc", "gcc", "clang")), None)
    if not compiler:
        stop("there is no C compiler")
    shim = os.path.join(folder, "shim.so")
    words = [compiler, "-O1", "-shared", "-fPIC", "-o", shim, "-x", "c", "-", "-ldl"]
    if subprocess.run(words, input=SHIM, text=True, check=False).returncode != 0:
        stop("the shim can't be compiled")
    return shim


class Place:
    """A folder with the files of runs, the program that runs, the shim, and whether it refuses all requests behind the first
    that it refuses."""

    def __init__(self, folder, program, shim, on):
        self.folder, self.program, self.shim, self.on = folder, program, shim, on
        shutil.copy(os.path.join(common.CRATE, "data", "settings.toml"), folder)
        for name, rows in TRAFFIC.items():
            self.write(name, rows)

    def write(self, name, text):
        with open(os.path.join(self.folder, name), "w", encoding="ascii") as out:
            out.write(text)

    def begin(self, words, number, alone, told, **how):
        """Begins a run in which this request is refused, which it tells in a file."""
        own = {"LD_PRELOAD": self.shim, "REFUSED_NUMBER": str(number), "REFUSED_TELL": str(told.fileno())}
        flags = {"REFUSED_ON": self.on, "REFUSED_ALONE": alone}
        return subprocess.Popen(
            [self.program, *words],
            cwd=self.folder,
            env={**os.environ, **own, **{name: "" for name, is_set in flags.items() if is_set}},
            pass_fds=[told.fileno()],
            stdin=subprocess.PIPE,
            stdout=subprocess.PIPE,
            **how,
        )


def follow(lines, replies):
    """How many of these replies are Busy, and the number of the last publication; None where another one isn't its
    line's own text under the last publication before it."""
    busy = number = 0
    for line, text in zip(lines, replies):
        if text in BUSY_TEXTS:
            busy += 1
        elif text == line.texts[number]:
            number += line.publishes
        else:
            return None
    return busy, number


def text_of(told):
    """What the shim told."""
    told.seek(0)
    return told.read().decode()


def asked_outcome(row, most_busy, status, output):
    """The outcome of a run of `ask`, if it is one that it may have."""
    if status == 4:
        return "status 4" if output == EXHAUSTED else None
    replies = output.split("\n")
    if status != 0 or replies.pop() != "" or len(replies) != len(row.lines):
        return None
    busy, _ = follow(row.lines, replies) or (None, None)
    if busy is None or busy > most_busy:
        return None
    return "Busy" if busy else "own"


def ask(place, row, number):
    """A run of `ask`."""
    place.write("map.opl", row.opl)
    lines = "".join(f"{line.asked}\n" for line in row.lines)
    with tempfile.TemporaryFile() as told:
        with place.begin(["ask", "map.opl", "settings.toml"], number, row.alone, told) as running, guarded(running):
            output = running.communicate(lines.encode())[0].decode()
        refused = text_of(told)
    outcome = asked_outcome(row, len(row.lines) if place.on else 1, running.returncode, output)
    return Run(refused, outcome, f"status {running.returncode}: {output}")


class guarded:
    """Ends a run that takes longer than it may."""

    def __init__(self, running):
        self.timer = threading.Timer(LIMIT, running.kill)

    def __enter__(self):
        self.timer.start()

    def __exit__(self, *_):
        self.timer.cancel()


def free_ports():
    """Two ports at which nothing listens."""
    with socket.socket() as one, socket.socket() as other:
        for it in (one, other):
            it.bind(("127.0.0.1", 0))
        return one.getsockname()[1], other.getsockname()[1]


def heard(port, asked):
    """The reply to a request over a connection of its own; None where none comes in time."""
    with socket.create_connection(("127.0.0.1", port), SILENCE) as conn:
        conn.sendall(asked.encode())
        conn.shutdown(socket.SHUT_WR)
        try:
            return b"".join(iter(lambda: conn.recv(65536), b"")).decode()
        except socket.timeout:
            return None


def has_one_thread(running):
    """Whether a program has no thread but its first."""
    return len(os.listdir(f"/proc/{running.pid}/task")) == 1


def visit_all(running, queries, control):
    """Makes all visits, and the stop once more where it is Busy. Each with its reply, and whether the server is silent,
    which is to have no worker then; the queries behind are left out."""
    visits, silent = [], False
    for line in [*VISITS, STOP, STOP]:
        is_query = line.asked.startswith("GET")
        if is_query and silent:
            continue
        text = heard(queries if is_query else control, line.asked)
        if text is None and is_query and has_one_thread(running):
            silent = True
            continue
        visits.append((line, text))
        if line is STOP and text not in BUSY_TEXTS:
            break
    return visits, silent


def served_outcome(visits, silent, status, output):
    """The outcome of a run of `serve`, if it is one that it may have."""
    if not visits:
        return "status 4" if (status, output) == (4, EXHAUSTED) else None
    busy, number = follow(*zip(*visits)) or (2, 0)
    last = f"ready\nconnections {len(visits)}\nmetric {number}\n"
    if (status, output) == (4, last + EXHAUSTED) and busy + silent == 0:
        return "status 4"
    if (status, output) != (0, last) or busy + silent > 1:
        return None
    return "silent" if silent else "Busy" if busy else "own"


def serve(place, number):
    """A run of `serve`."""
    place.write("map.opl", TOWN)
    queries, control = free_ports()
    doors = ["--listen", f"127.0.0.1:{queries}", "--control", f"127.0.0.1:{control}", "--workers", "1"]
    words = ["serve", "map.opl", "settings.toml", *doors]
    visits, silent = [], False
    with tempfile.TemporaryFile() as told:
        with place.begin(words, number, False, told) as running, guarded(running):
            output = running.stdout.readline()
            try:
                if output == b"ready\n":
                    visits, silent = visit_all(running, queries, control)
            except OSError as why:
                visits = [(STOP, str(why))]
            output = (output + running.stdout.read()).decode()
        refused = text_of(told)
    outcome = served_outcome(visits, silent, running.returncode, output)
    return Run(refused, outcome, f"status {running.returncode}: {output}; replies {[text for _, text in visits]}")


def tests_of(program):
    """The tests that are run: those that end in MEMORY, and those of the same names without it."""
    listed = subprocess.run([program, "--list"], stdout=subprocess.PIPE, text=True, check=True).stdout
    names = [line.removesuffix(": test") for line in listed.splitlines()]
    plain_name = lambda name: name.split("::")[-1].removesuffix(MEMORY)
    wanted = {plain_name(name) for name in names if name.endswith(MEMORY)}
    return [name for name in names if plain_name(name) in wanted]


def tested_outcome(name, status, output, errors):
    """The outcome of a run of a test, if it is one that it may have."""
    if (status, output, errors) == (0, PASSED, ""):
        return "own"
    return "memory" if (status, errors) == (101, WANTED) and not name.endswith(MEMORY) else None


def tested(place, name, number):
    """A run of a test."""
    with tempfile.TemporaryFile() as told:
        with place.begin([name], number, False, told, stderr=subprocess.PIPE) as running, guarded(running):
            output, errors = (text.decode() for text in running.communicate())
        refused = text_of(told)
    outcome = tested_outcome(name, running.returncode, output, errors)
    return Run(refused, outcome, f"status {running.returncode}: {output}{errors}")


def sweep(name, run, step):
    """Refuses one request after the other. The counts of outcomes; None counts those that may not be."""
    counts = collections.Counter()
    number, unrefused = 1, 0
    while unrefused < 2:
        it = run(number)
        if not it.refused and number == 1:
            stop(f"{name}: no request was refused; the program doesn't load the shim")
        if it.outcome is None or not (it.refused or it.outcome == "own"):
            counts[None] += 1
            print(f"DIFFERENT: {name}, request {number} ({it.refused or 'none'}) refused: {it.told}", flush=True)
        elif it.refused:
            counts[it.outcome] += 1
        number, unrefused = (number + step, 0) if it.refused else (number, unrefused + 1)
    return counts


def words_read():
    """The words of the command line, with the names of all rows where none is given."""
    usage = "bench/refused.py [--step N] [--on] [NAME..], bench/refused.py [--step N] --tests"
    reader = argparse.ArgumentParser(usage=usage)
    reader.add_argument("--step", type=int, default=1)
    reader.add_argument("--on", action="store_true")
    reader.add_argument("--tests", action="store_true")
    reader.add_argument("names", nargs="*")
    words = reader.parse_args()
    if words.tests and (words.on or words.names):
        reader.error("--tests takes neither --on nor names")
    names = [*ROWS] if words.on else [*ROWS, "serve"]
    unknown = [name for name in words.names if name not in names]
    if unknown:
        reader.error(f"there is no row {unknown[0]}")
    words.names = words.names or names
    return words


def row_runs(place, names):
    """What runs by these names."""
    for name in names:
        row = ROWS.get(name)
        yield name, (lambda number: ask(place, row, number)) if row else (lambda number: serve(place, number))


def test_runs(place, processors):
    """What runs of the tests, on one processor and on all."""
    for name in tests_of(place.program):
        for on, those in ("one", {min(processors)}), ("all", processors):
            os.sched_setaffinity(0, those)
            yield f"{name}, {on}", lambda number: tested(place, name, number)


def main():
    words = words_read()
    program = common.metrics_tests() if words.tests else common.program()
    processors = os.sched_getaffinity(0)
    os.sched_setaffinity(0, {min(processors)})
    kinds = ("own", "memory", None) if words.tests else ("own", "Busy", "status 4", "silent", None)
    wide = 72 if words.tests else 14
    print(f"{'':{wide}}{'refused':>10}" + "".join(f"{kind or 'other':>10}" for kind in kinds), flush=True)
    fine = True
    with tempfile.TemporaryDirectory(prefix="refused-") as folder:
        place = Place(folder, program, compiled(folder), words.on)
        for name, run in test_runs(place, processors) if words.tests else row_runs(place, words.names):
            counts = sweep(name, run, words.step)
            print(f"{name:{wide}}{sum(counts.values()):10}" + "".join(f"{counts[kind]:10}" for kind in kinds), flush=True)
            fine = fine and counts[None] == 0
    return not fine


if __name__ == "__main__":
    sys.exit(main())
