#!/usr/bin/env python3
"""Measures how many times faster tables and customization are on several processors than on one.

    bench/processors.py [--processors N] [--places N] [--repeats N] SETTINGS OPL [OPL ..]

A copy of the program that runs on N processors (all) stands beside N copies that are held to one of them each. It is asked by
turns with each of these: for a table of drawn places to one another; and, behind a file with a row for each segment, for a file
without rows, which customizes every cell and reads nothing, and for that once more, which changes nothing. What the first of
these two takes more is the customization by itself. Told are, of the times by the clock, the medians and the least, and how
many times less N processors take by each.

N processors of a shared machine don't do N times the work of one. So the N copies are asked for the table at one time, too: N
times what one table takes alone, by the time in which all have theirs, tells how many times the work of one N processors do
just then.
"""
import argparse
import os
import random
import statistics
import tempfile
import threading
import time

import common
from customization import pairs_of, write_rows

PROCESSORS = sorted(os.sched_getaffinity(0))


def session_on(processors, program, opl, settings):
    """A running program that is held to these processors."""
    os.sched_setaffinity(0, processors)
    session = common.Session([program, "ask", opl, settings])
    os.sched_setaffinity(0, PROCESSORS)
    return session


def clocked(session, line):
    began = time.monotonic()
    session.ask(line)
    return time.monotonic() - began


def customized(session, rows):
    """What a file without rows takes that customizes every cell, and by how much that is more than one that changes nothing."""
    session.ask(f"TRAFFIC {rows} -")
    whole = clocked(session, "TRAFFIC - -")
    return whole, whole - clocked(session, "TRAFFIC - -")


def at_one_time(sessions, line):
    """The seconds until each of these has its reply, all asked at one time."""
    threads = [threading.Thread(target=session.ask, args=(line,)) for session in sessions]
    began = time.monotonic()
    for thread in threads:
        thread.start()
    for thread in threads:
        thread.join()
    return time.monotonic() - began


def told(name, pairs, count):
    """Tells of what one processor took, and of what several took beside it."""
    for which, of in (("medians", statistics.median), ("the least", min)):
        one, several = (of(times) * 1000 for times in zip(*pairs))
        print(f"  {name}, {which}: {one:.2f} ms on one processor, {several:.2f} ms on {count}: {one / several:.2f} times less",
              flush=True)


def measure(given, program, opl, folder):
    places = random.Random(3).sample(common.locations(opl, given.settings), given.places)
    table = "GET /table/v1/car/" + ";".join(f"{lon:.6f},{lat:.6f}" for lon, lat in places)
    rows = write_rows(os.path.join(folder, "all.csv"), pairs_of(opl))
    held = PROCESSORS[:given.processors]
    several = session_on(held, program, opl, given.settings)
    copies = [session_on([processor], program, opl, given.settings) for processor in held]
    for session in (several, *copies):
        session.ask(table)
        customized(session, rows)
    tables, files, alike = [], [], []
    for _ in range(given.repeats):
        for one in copies:
            tables.append((clocked(one, table), clocked(several, table)))
        for one in copies:
            files.append((customized(one, rows), customized(several, rows)))
        alike.append(at_one_time(copies, table))
    print(f"== {os.path.basename(opl)}")
    told(f"a table of {given.places} places", tables, len(held))
    for which, name in enumerate(["all cells customized by a file without rows", "the customization by itself"]):
        told(name, [(one[which], more[which]) for one, more in files], len(held))
    alone = statistics.median(one for one, _ in tables)
    print(f"  as many copies, each on a processor: {len(copies) * alone / statistics.median(alike):.2f} times the work of one")
    for session in (several, *copies):
        session.end()


def main():
    parser = argparse.ArgumentParser(usage=__doc__.split("\n\n")[1])
    parser.add_argument("--processors", type=int, default=len(PROCESSORS))
    parser.add_argument("--places", type=int, default=100)
    parser.add_argument("--repeats", type=int, default=9)
    parser.add_argument("settings")
    parser.add_argument("maps", nargs="+")
    given, program = parser.parse_args(), common.program()
    for opl in given.maps:
        with tempfile.TemporaryDirectory() as folder:
            measure(given, program, opl, folder)


if __name__ == "__main__":
    main()
