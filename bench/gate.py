#!/usr/bin/env python3
"""What the gate costs: runs `rt ci` and prints the processor seconds of each crate's proof, tests and wrong bodies.

    bench/gate.py [--bar] [--anew] [NAME..]     at the top of the repository; NAME as in crates.txt, or all crates

What this machine has kept of earlier runs is not proved again, so only a first run, or one with --anew, shows the whole. Each
process of the toolchain is looked at twice a second, so that of each at most the last half second is missed. Where a crate has
two wrong bodies or more they are tried over a second proof of the crate, the seed. Lines of `rt ci` itself are printed with the
minutes by the clock in front. With --bar it fails where one check took more than its bar. Ends with the status of `rt ci`, or
with 1 where a bar is passed."""
import collections
import os
import subprocess
import sys
import threading
import time

TICK = os.sysconf("SC_CLK_TCK")
KINDS = ("proof", "tests", "seed", "wrong bodies", "other")
# The most processor seconds that one check may take; the seed's has the look at it behind its wrong bodies too. A wrong body
# with no seed is tried from nothing, as long as a proof.
BARS = {"proof": 270, "tests": 500, "seed": 280, "wrong body": 60, "wrong body alone": 180}


def stat_of(pid):
    """The parent of a process, when it began, and its processor seconds."""
    with open(f"/proc/{pid}/stat") as it:
        text = it.read()
    fields = text[text.rindex(")") + 2 :].split()
    return int(fields[1]), fields[19], (int(fields[11]) + int(fields[12])) / TICK


def label_of(pid):
    """The crate that a process is about, which part of the gate it is, and which bar it is held to."""
    with open(f"/proc/{pid}/cmdline") as it:
        words = it.read().split("\0")
    if "--crate-name" not in words:
        return "", "other", ""
    crate = words[words.index("--crate-name") + 1]
    if "rt-edit" in os.readlink(f"/proc/{pid}/cwd"):
        kept = words[words.index("--incremental") + 1] if "--incremental" in words else ""
        if kept.endswith("/seed"):
            return crate, "seed", "seed"
        return crate, "wrong bodies", "wrong body" if kept else "wrong body alone"
    kind = "tests" if "--test" in words else "proof"
    return crate, kind, kind


def look(top, seen):
    """Notes the processor time of each process below `top`."""
    parents, found = {}, {}
    for pid in filter(str.isdigit, os.listdir("/proc")):
        try:
            parents[int(pid)], *found[int(pid)] = stat_of(pid)
        except (OSError, ValueError, IndexError):
            continue
    for pid, (begun, spent) in found.items():
        above = pid
        while above > 1 and above != top:
            above = parents.get(above, 0)
        if above != top or pid == top:
            continue
        try:
            # (a process that was just forked has its words only once it runs)
            label = seen.get((pid, begun), [("", "", "")])[0]
            seen[pid, begun] = [label if label[0] else label_of(pid), spent]
        except OSError:
            continue


def table(checks):
    """The rows of what each crate took."""
    spent, bodies = collections.defaultdict(lambda: dict.fromkeys(KINDS, 0)), collections.Counter()
    for (crate, kind, bar), seconds in checks:
        spent[crate][kind] += seconds
        bodies[crate] += bar.startswith("wrong")
    yield f"{'crate':18}" + "".join(f"{kind:>14}" for kind in KINDS) + f"{'of them tried':>15}"
    for crate, parts in sorted(spent.items()):
        yield f"{crate or '(none)':18}" + "".join(f"{parts[kind]:14.0f}" for kind in KINDS) + f"{bodies[crate]:15}"
    sums = {kind: sum(parts[kind] for parts in spent.values()) for kind in KINDS}
    yield f"{'all, in minutes':18}" + "".join(f"{sums[kind] / 60:14.1f}" for kind in KINDS) + f"{sum(bodies.values()):15}"


def past_bars(checks):
    """A line for each check that took more than its bar. A proof may run in several processes, a wrong body is one."""
    sums = collections.Counter()
    for number, ((crate, _, bar), seconds) in enumerate(checks):
        sums[crate, bar, number if bar.startswith("wrong") else 0] += seconds
    for (crate, bar, _), seconds in sorted(sums.items()):
        if bar and seconds > BARS[bar]:
            yield f"past the bar: {crate}, {bar}: {seconds:.0f} processor seconds, the bar is {BARS[bar]}"


def pass_on(lines, began):
    """Prints what `rt ci` says, and when."""
    for line in lines:
        spent = round(time.time() - began)
        print(f"{spent // 60:3}:{spent % 60:02} {line}" if line.startswith("rt: ") else line, end="", flush=True)


def main():
    words = sys.argv[1:]
    has_bar = "--bar" in words
    gate = subprocess.Popen(
        ["rt", "ci", *[it for it in words if it != "--bar"]], stdout=subprocess.PIPE, text=True, errors="replace", bufsize=1
    )
    began, seen = time.time(), {}
    passing = threading.Thread(target=pass_on, args=(gate.stdout, began))
    passing.start()
    while gate.poll() is None:
        look(gate.pid, seen)
        time.sleep(0.5)
    passing.join()
    checks = [(label, seconds) for label, seconds in seen.values()]
    print(*table(checks), sep="\n")
    print(f"{sum(it for _, it in checks) / 60:.0f} processor minutes, {(time.time() - began) / 60:.0f} by the clock")
    past = list(past_bars(checks)) if has_bar else []
    print(*past, sep="\n", end="\n" if past else "")
    return gate.returncode or len(past) > 0


if __name__ == "__main__":
    sys.exit(main())
