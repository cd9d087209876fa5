#!/usr/bin/env python3
"""Runs the built program under faults from outside, and looks at what becomes of each run.

    bench/faults.py [--part N] [KIND..]     KIND as below, or all; with --part N each N-th run of a kind alone

    memory    `ask` and `serve` (4 workers), their memory held down (`ulimit -v`) to 20, 40 .. 200 megabytes, over 2,000 streets
              that meet at one node: a route, a table, a faulty traffic file and a good one, the route and the table again
    output    `ask`, `check`, `town` and `drill` into a full disk (/dev/full), into a file that may have no more than so many
              bytes (a limit of the system, with its signal ignored), and into a pipe that is closed behind so many; the lines
              of `serve` into a full disk, a closed pipe, and one that is closed behind `ready`
    reset     clients of both ports that reset their connection (SO_LINGER 0): before the first byte, behind each byte of a
              request, behind a whole one, and inside the replies to twenty of them, short ones and some of 500 coordinates
    crowd     200 clients at once, of which half break off inside a head, in four ways, and at the control port 100 one after
              the other inside a body
    body      a control body that ends, or is reset, behind each of its bytes
    map       a map that is cut at 200 places, read by `check` and by `ask`

What is due is what the same program gives without a fault (`ask`, in the forms of docs/API.md). A run of `memory` has to end
in that (`own`), with `Busy` in the place of some replies, or with status 4 and `out of memory`; `silent` are runs of `serve`
for whose workers no thread could be started (docs/MEASURED.md, Refused memory). A run of `output` has to end with status 1, and
what it put is a proper front of what is due (`broken off`), or with status 0 and all of it. Clients get whole replies alone;
behind each that breaks off a route is asked, which has to have its very text, and the number that it tells shows that nothing
was published by a broken body; a whole one whose client resets before the reply may be published (`own`) or not. A cut map has
status 0 with the counts of its lines, or status 3 with one of the stated faults at its last line (`refused`), from `check` and
`ask` alike. Nothing may take longer than LIMIT seconds.

Printed are the runs by kind and how they ended; the status is 1 where one ended otherwise. It needs Linux, for /dev/full and
the limits, uses loopback at free ports only, and stops by itself."""
import argparse
import collections
import concurrent.futures
import math
import os
import re
import resource
import signal
import socket
import struct
import subprocess
import sys
import tempfile
import threading

import common
import refused

# Seconds by the clock: after which a run, and after which a request hangs.
LIMIT, SILENCE = 30, 10
MEGABYTE = 1 << 20
KINDS = ("own", "Busy", "status 4", "silent", "broken off", "refused", None)
FAULT = r"opl line {} (NotUtf8|BadKind|BadNumber|BadField|BadEscape|Duplicate)\n"
COUNTS = r"nodes (\d+)\nways (\d+)\nrelations (\d+)\nsegments \d+\nvertices \d+\nturns \d+\nrestrictions \d+\nignored \d+\n"
ROWS = refused.TRAFFIC["slow.csv"]
TARGET = "/route/v1/car/0,0;0.001,0?overview=false"
TABLE = "/table/v1/car/" + ";".join(f"{it / 1000},{it / 1000}" for it in range(8))
LONG = "/route/v1/car/" + ";".join(["0,0", "0.007,0.007"] * 250) + "?overview=full&geometries=geojson&annotations=true"
GET = f"GET {TARGET} HTTP/1.1\r\nHost: a\r\n\r\n".encode()


# ---- runs ----

class Place:
    """A folder with the files of runs, and the program."""

    def __init__(self, folder, program):
        self.folder, self.program = folder, program
        with open(os.path.join(common.CRATE, "data", "settings.toml"), "rb") as it:
            self.write("settings.toml", it.read() + b"primary = 60\n")
        for name, rows in refused.TRAFFIC.items():
            self.write(name, rows.encode())
        self.write("star.opl", star(2000).encode())
        self.write("town.opl", self.run(["town", "8"])[1])

    def write(self, name, content):
        with open(os.path.join(self.folder, name), "wb") as out:
            out.write(content)

    def read(self, name):
        with open(os.path.join(self.folder, name), "rb") as it:
            return it.read()

    def begin(self, words, output=subprocess.PIPE, limit=None):
        """Begins a run, under a limit of the system if one is named."""
        return subprocess.Popen(
            [self.program, *words],
            cwd=self.folder,
            stdin=subprocess.PIPE,
            stdout=output,
            preexec_fn=limit,
        )

    def run(self, words, asked=b"", output=subprocess.PIPE, limit=None):
        """The status and the output of a run."""
        with self.begin(words, output, limit) as running, refused.guarded(running):
            put, _ = running.communicate(asked)
        return running.returncode, put

    def texts(self, opl, targets):
        """What is due to these targets, by `ask`, under the settings alone and under the good traffic file."""
        lines = [f"GET {it}" for it in targets]
        asked = "".join(f"{it}\n" for it in [*lines, "TRAFFIC slow.csv -", *lines])
        status, output = self.run(["ask", opl, "settings.toml"], asked.encode())
        replies = output.decode().split("\n")
        if status != 0 or len(replies) != 2 * len(lines) + 2 or replies[len(lines)] != refused.PUBLISHED:
            sys.exit(f"bench: without a fault the status is {status}: {output[-300:]!r}")
        return list(zip(replies, replies[len(lines) + 1 :]))[: len(lines)]


def star(streets):
    """So many streets that meet at one node."""
    ends = [(math.cos(it * math.tau / streets) / 100, math.sin(it * math.tau / streets) / 100) for it in range(streets)]
    nodes = [f"n{number} x{lon:.6f} y{lat:.6f}\n" for number, (lon, lat) in enumerate([(0, 0), *ends], 1)]
    ways = [f"w{number} Thighway=residential Nn1,n{number + 1}\n" for number in range(1, streets + 1)]
    return "".join(nodes + ways)


def at_most_memory(megabytes):
    return lambda: resource.setrlimit(resource.RLIMIT_AS, (megabytes * MEGABYTE,) * 2)


def at_most_written(size):
    def limit():
        signal.signal(signal.SIGXFSZ, signal.SIG_IGN)
        resource.setrlimit(resource.RLIMIT_FSIZE, (size, size))

    return limit


# ---- a server and its clients ----

class Server:
    """A running `serve` over the town, how its traffic stands, and what a route is due."""

    def __init__(self, place):
        self.texts, self.number = place.texts("town.opl", [TARGET])[0], 0
        self.queries, self.control = refused.free_ports()
        doors = ["--listen", f"127.0.0.1:{self.queries}", "--control", f"127.0.0.1:{self.control}"]
        self.running = place.begin(["serve", "town.opl", "settings.toml", *doors])
        with refused.guarded(self.running):
            if self.running.stdout.readline() != b"ready\n":
                sys.exit("bench: without a fault the server isn't ready")

    def __enter__(self):
        return self

    def __exit__(self, *_):
        if self.running.poll() is None:
            self.running.kill()
            self.running.wait()

    def due(self, number=None):
        """The whole reply to the route under a publication of the good traffic file, the last one if none is named."""
        number = self.number if number is None else number
        text = re.sub('"data_version":"."', f'"data_version":"{number}"', self.texts[number > 0])
        return refused.reply("200 OK", text).encode()

    def answers(self):
        """Whether a route has its very text over a new connection."""
        return heard(self.queries, GET) == self.due()

    def settles(self):
        """Whether the control port, which serves one connection after the other, is through with those before."""
        return heard(self.control, GET) == refused.reply("400 Bad Request", '{"code":"BadRequest"}', "close").encode()

    def publish(self):
        """Publishes the good traffic file; whether it is told under the next number."""
        self.number += 1
        text = f'{{"code":"Ok","data_version":"{self.number}","unmatched":0}}'
        return heard(self.control, posted(ROWS)) == refused.reply("200 OK", text).encode()

    def learn(self):
        """Takes note of one publication whose reply nobody has heard; whether there was one."""
        rose = heard(self.queries, GET) == self.due(self.number + 1)
        self.number += rose
        return rose

    def end(self):
        """Stops it; the run as an outcome and what was told."""
        stopped = heard(self.control, refused.STOP.asked.encode())
        try:
            output = self.running.communicate(timeout=LIMIT)[0].decode()
        except subprocess.TimeoutExpired:
            output = "it doesn't stop"
        own = stopped == refused.STOP.texts[0].encode() and self.running.returncode == 0
        own = own and re.fullmatch(rf"connections \d+\nmetric {self.number}\n", output)
        return "own" if own else None, f"stop: {stopped}, status {self.running.returncode}: {output}"


def posted(body):
    """A request to publish the speeds of this body."""
    return refused.posted(f"metric?speeds={len(body)}", body).encode()


def connected(port):
    return socket.create_connection(("127.0.0.1", port), SILENCE)


def heard(port, asked):
    """What comes over a new connection whose input ends behind these bytes; why none comes to its end."""
    try:
        with connected(port) as conn:
            conn.sendall(asked)
            conn.shutdown(socket.SHUT_WR)
            return b"".join(iter(lambda: conn.recv(65536), b""))
    except OSError as why:
        return str(why)


def reset(port, asked, take=0):
    """Sends these bytes, takes so many of the replies, and resets the connection. What was taken, or why it could not be."""
    taken = b""
    try:
        with connected(port) as conn:
            conn.sendall(asked)
            while len(taken) < take and (more := conn.recv(take - len(taken))):
                taken += more
            conn.setsockopt(socket.SOL_SOCKET, socket.SO_LINGER, struct.pack("ii", 1, 0))
        return taken
    except OSError as why:
        return str(why)


# ---- the kinds; each gives the outcome of a run, or None, and what it came to ----

def memory(place, part):
    """Memory held down."""
    lines = memory_lines(place)
    asked = "".join(f"{line.asked}\n" for line in lines).encode()
    for megabytes in range(20, 201, 20)[::part]:
        limit = at_most_memory(megabytes)
        status, output = place.run(["ask", "star.opl", "settings.toml"], asked, limit=limit)
        yield "ask", asked_outcome(lines, status, output.decode()), f"{megabytes} MB, status {status}: {output[-300:]}"
        yield "serve", *served(place, lines, megabytes)


def memory_lines(place):
    """The lines over the star, with their texts."""
    targets = ["/route/v1/car/0.01,0;0,0.01?overview=false", "/table/v1/car/0.01,0;0,0.01;-0.01,0"]
    quiet = [refused.Line(f"GET {it}", texts) for it, texts in zip(targets, place.texts("star.opl", targets))]
    faulty = refused.Line("TRAFFIC faulty.csv -", (refused.FAULTY_ROW,) * 2)
    return [*quiet, faulty, refused.SLOW, *quiet]


def asked_outcome(lines, status, output):
    """The outcome of a run of `ask` under want of memory."""
    if status == 4:
        return "status 4" if output == refused.EXHAUSTED else None
    replies = output.split("\n")
    if status != 0 or replies.pop() != "" or len(replies) != len(lines):
        return None
    busy, _ = refused.follow(lines, replies) or (None, None)
    return None if busy is None else "Busy" if busy else "own"


def over_http(line):
    """A line of `ask` as a request to `serve`."""
    if line.asked.startswith("GET"):
        texts = tuple(refused.reply("200 OK", it) for it in line.texts)
        return line._replace(asked=f"{line.asked} HTTP/1.1\r\nHost: a\r\n\r\n", texts=texts)
    file, status = ("slow.csv", "200 OK") if line.publishes else ("faulty.csv", "400 Bad Request")
    text = refused.reply(status, line.texts[0])
    return refused.rows_posted(file, publishes=line.publishes, text=text)


def visit_all(running, lines, queries, control):
    """Makes all visits, and the stop until it isn't Busy. Each with its reply, and whether no worker answers."""
    visits, silent = [], False
    for line in [*lines, *[refused.STOP] * 5]:
        is_query = line.asked.startswith("GET")
        if is_query and silent:
            continue
        text = refused.heard(queries if is_query else control, line.asked)
        if text is None and is_query and refused.has_one_thread(running):
            silent = True
            continue
        visits.append((line, text))
        if line is refused.STOP and text not in refused.BUSY_TEXTS:
            break
    return visits, silent


def served(place, lines, megabytes):
    """A run of `serve` under want of memory."""
    queries, control = refused.free_ports()
    doors = ["--listen", f"127.0.0.1:{queries}", "--control", f"127.0.0.1:{control}"]
    visits, silent = [], False
    words = ["serve", "star.opl", "settings.toml", *doors]
    with place.begin(words, limit=at_most_memory(megabytes)) as running, refused.guarded(running):
        output = running.stdout.readline()
        try:
            if output == b"ready\n":
                visits, silent = visit_all(running, map(over_http, lines), queries, control)
        except OSError as why:
            visits = [(refused.STOP, str(why))]
        output = (output + running.stdout.read()).decode()
    told = f"{megabytes} MB, status {running.returncode}: {output}; replies {[text for _, text in visits]}"
    return served_outcome(visits, silent, running.returncode, output), told


def served_outcome(visits, silent, status, output):
    """The outcome of a run of `serve` under want of memory."""
    if not visits:
        return "status 4" if (status, output) == (4, refused.EXHAUSTED) else None
    followed = refused.follow(*zip(*visits))
    if followed is None:
        return None
    busy, number = followed
    last = f"ready\nconnections {len(visits)}\nmetric {number}\n"
    if (status, output) == (4, last + refused.EXHAUSTED):
        return "status 4"
    if (status, output) != (0, last):
        return None
    return "silent" if silent else "Busy" if busy else "own"


def output(place, part):
    """Outputs that fail."""
    lines = f"GET {TARGET}\nGET {TABLE}\n\nGET x\n".encode() * 30
    runs = {"ask": ["ask", "town.opl", "settings.toml"], "check": ["check", "town.opl", "settings.toml"]}
    runs |= {"town": ["town", "60"], "drill": ["drill", "5"]}
    for name, words in runs.items():
        asked = lines if name == "ask" else b""
        status, due = place.run(words, asked)
        if status != 0:
            sys.exit(f"bench: without a fault the status of {name} is {status}")
        sizes = [0, 1, len(due) // 3, len(due) - 1, len(due), *range(7, len(due), max(1, len(due) // 40))][::part]
        yield name, *into_full(place, words, asked, due)
        for size in sizes:
            yield name, *into_file(place, words, asked, due, size)
            yield name, *into_pipe(place, words, asked, due, size)
    for after in range(3):
        yield "serve", *serve_unheard(place, after)


def put_outcome(status, put, due):
    """The outcome of a run that could put only so much."""
    if status == 1 and len(put) < len(due) and due.startswith(put):
        return "broken off"
    return "own" if (status, put) == (0, due) else None


def into_full(place, words, asked, due):
    with open("/dev/full", "wb") as full:
        status, _ = place.run(words, asked, full)
    return "broken off" if status == 1 else None, f"status {status} into a full disk"


def into_file(place, words, asked, due, size):
    """A run whose output may have so many bytes."""
    with tempfile.TemporaryFile() as out:
        status, _ = place.run(words, asked, out, at_most_written(size))
        out.seek(0)
        put = out.read()
    outcome = put_outcome(status, put, due)
    return outcome if len(put) == min(size, len(due)) else None, f"status {status}, {len(put)} bytes into a file of {size}"


def into_pipe(place, words, asked, due, size):
    """A run whose output is closed once so many bytes were taken. Where the rest is in the pipe by then it ends well."""
    taking, out = os.pipe()
    if size == 0:
        os.close(taking)
    with place.begin(words, out) as running, refused.guarded(running):
        os.close(out)
        feed(running.stdin, asked)
        put = b""
        if size:
            with open(taking, "rb") as it:
                put = it.read(size)
        status = running.wait()
    fine = due.startswith(put) and len(put) == size and status in ((1,) if size == 0 else (0, 1))
    return ("own" if status == 0 else "broken off") if fine else None, f"status {status}, {len(put)} of {size} bytes taken"


def feed(stdin, asked):
    try:
        stdin.write(asked)
        stdin.close()
    except BrokenPipeError:
        pass


def serve_unheard(place, after):
    """A run of `serve` whose lines can't be put: into a full disk, into a closed pipe, into one that is closed behind the
    first line."""
    queries, control = refused.free_ports()
    words = ["serve", "town.opl", "settings.toml", "--listen", f"127.0.0.1:{queries}", "--control", f"127.0.0.1:{control}"]
    heard_stop, first = None, b""
    taking, out = os.pipe() if after else (None, os.open("/dev/full", os.O_WRONLY))
    if after == 1:
        os.close(taking)
    with place.begin(words, out) as running, refused.guarded(running):
        os.close(out)
        if after == 2:
            with open(taking, "rb") as it:
                first = it.readline()
            heard_stop = heard(control, refused.STOP.asked.encode())
        status = running.wait()
    fine = status == 1 and (after < 2 or (first, heard_stop) == (b"ready\n", refused.STOP.texts[0].encode()))
    return "broken off" if fine else None, f"status {status}, output {after}: {first}, stop {heard_stop}"


def resets(place, part):
    """Clients that reset their connection."""
    with Server(place) as server:
        for length in [*range(len(GET))[::part], *[len(GET)] * 20]:
            got = reset(server.queries, GET[:length])
            outcome, told = behind(server, f"{length} bytes got {got}")
            yield "query", outcome if got == b"" else None, told
        for take in [1, 100, len(server.due()), 5 * len(server.due()) + 7] * 5:
            taken = reset(server.queries, GET * 20, take)
            outcome, told = behind(server, f"{take} bytes of twenty replies")
            yield "replies", outcome if taken == (server.due() * 20)[:take] else None, f"{told}; taken {taken}"
        long = refused.reply("200 OK", place.texts("town.opl", [LONG])[0][0]).encode()
        for take in [1, 1000, len(long), len(long) + 1, 3 * len(long) + 7][::part]:
            taken = reset(server.queries, f"GET {LONG} HTTP/1.1\r\nHost: a\r\n\r\n".encode() * 20, take)
            outcome, told = behind(server, f"{take} bytes of twenty replies of {len(long)}")
            yield "long replies", outcome if taken == (long * 20)[:take] else None, f"{told}; taken {taken[-300:]}"
        asked = posted(ROWS)
        for length in range(len(asked))[::part]:
            yield "control", *behind_control(server, length, reset(server.control, asked[:length]))
        for _ in range(10):
            reset(server.control, asked)
            fine, published = server.settles(), server.learn()
            outcome, told = behind(server, f"a whole request to the control port, settled {fine}")
            yield "control", ("own" if published else outcome) if outcome and fine else None, told
        yield "server", *server.end()


def behind(server, told):
    """The outcome of an attack: whether a route is answered as before."""
    answer = heard(server.queries, GET)
    return "broken off" if answer == server.due() else None, f"{told}; the route behind it got {answer}"


def behind_control(server, length, got):
    """The same of a broken request to the control port, which is to get no reply."""
    settled = server.settles()
    outcome, told = behind(server, f"{length} bytes to the control port got {got}, settled {settled}")
    return outcome if settled and got == b"" else None, told


def crowd(place, part):
    """Many clients at once."""
    with Server(place) as server:
        clients = range(200)[: 200 // part]
        gate = threading.Barrier(len(clients))
        with concurrent.futures.ThreadPoolExecutor(len(clients)) as pool:
            for it in pool.map(lambda number: visit_or_break(server, gate, number), clients):
                yield "query", *it
        yield "query", "own" if server.answers() else None, "the route behind them isn't answered"
        asked = posted(ROWS)
        for number in range(0, 100, part):
            length = len(asked) - 1 - number % len(ROWS)
            got = heard(server.control, asked[:length])
            yield "control", *behind_control(server, length, got)
        yield "control", "own" if server.publish() else None, "a publication behind them has another number"
        yield "server", *server.end()


def visit_or_break(server, gate, number):
    """One client of a crowd: each second one breaks off inside a head, by an end, by leaving, by a reset, or behind a whole
    request, whose reply it takes."""
    cut = GET[: 1 + number * 7 % (len(GET) - 1)]
    gate.wait(LIMIT)
    try:
        match number % 8:
            case 1:
                return "broken off" if heard(server.queries, cut) == b"" else None, f"a reply to {cut}"
            case 3:
                with connected(server.queries) as conn:
                    conn.sendall(cut)
                return "broken off", ""
            case 5:
                got = reset(server.queries, cut)
                return "broken off" if got == b"" else None, f"a reset behind {cut}: {got}"
            case 7:
                got = heard(server.queries, GET + cut)
                return "broken off" if got == server.due() else None, f"{GET + cut} got {got}"
        got = heard(server.queries, GET)
        return "own" if got == server.due() else None, f"the route got {got}"
    except OSError as why:
        return None, str(why)


def bodies(place, part):
    """Control bodies that break off."""
    with Server(place) as server:
        body = ROWS + "2,3,30\n3,2,30\n"
        asked = posted(body)
        for length in range(len(asked) - len(body), len(asked))[::part]:
            for way in (heard, reset):
                got = way(server.control, asked[:length])
                yield "control", *behind_control(server, length, got)
        yield "control", "own" if server.publish() and server.answers() else None, "a publication behind them differs"
        yield "server", *server.end()


def maps(place, part):
    """Maps that are cut."""
    whole = place.read("town.opl")
    for number in range(0, 200, part):
        cut = whole[: len(whole) * number // 200]
        place.write("cut.opl", cut)
        status, output = place.run(["check", "cut.opl", "settings.toml"])
        checked = check_outcome(cut, status, output.decode()), f"cut at {len(cut)}, status {status}: {output[-300:]}"
        yield "check", *checked
        status, reply = place.run(["ask", "cut.opl", "settings.toml"], f"GET {TARGET}\n".encode())
        if checked[0] == "refused":
            outcome = "refused" if (status, reply) == (3, output) else None
        else:
            codes = rb'\{"code":"(Ok|NoRoute|NoSegment)".*\}\n'
            outcome = "own" if status == 0 and re.fullmatch(codes, reply) else None
        yield "ask", outcome, f"cut at {len(cut)}, status {status}: {reply[-300:]}"


def check_outcome(cut, status, output):
    """The outcome of `check` over a map that ends here."""
    lines = cut.decode().removesuffix("\n").split("\n") if cut else []
    if status == 3:
        return "refused" if re.fullmatch(FAULT.format(len(lines)), output) else None
    counts = re.fullmatch(COUNTS, output) if status == 0 else None
    due = [sum(line.startswith(kind) for line in lines) for kind in "nwr"]
    return "own" if counts and [*map(int, counts.groups())] == due else None


# ---- the table ----

ALL = {"memory": memory, "output": output, "reset": resets, "crowd": crowd, "body": bodies, "map": maps}


def words_read():
    """The words of the command line, with the names of all kinds where none is given."""
    reader = argparse.ArgumentParser(usage="bench/faults.py [--part N] [KIND..]")
    reader.add_argument("--part", type=int, default=1)
    reader.add_argument("names", nargs="*")
    words = reader.parse_args()
    unknown = [name for name in words.names if name not in ALL]
    if unknown or words.part < 1:
        reader.error(f"there is no kind {unknown[0]}" if unknown else "a part is at least 1")
    words.names = words.names or [*ALL]
    return words


def tried(place, name, part):
    """Makes the runs of a kind, and prints a line for each part of it. Whether all ended as they may."""
    counts = collections.defaultdict(collections.Counter)
    for what, outcome, told in ALL[name](place, part):
        counts[what][outcome] += 1
        if outcome is None:
            print(f"DIFFERENT: {name}, {what}: {told}", flush=True)
    for what, of in counts.items():
        print(f"{name + ' ' + what:18}{sum(of.values()):8}" + "".join(f"{of[kind]:12}" for kind in KINDS), flush=True)
    return not any(of[None] for of in counts.values())


def main():
    words, program = words_read(), common.program()
    refused.LIMIT, refused.SILENCE = LIMIT, SILENCE
    print(f"{'':18}{'runs':>8}" + "".join(f"{kind or 'other':>12}" for kind in KINDS), flush=True)
    with tempfile.TemporaryDirectory(prefix="faults-") as folder:
        place = Place(folder, program)
        fine = [tried(place, name, words.part) for name in words.names]
    return not all(fine)


if __name__ == "__main__":
    sys.exit(main())
