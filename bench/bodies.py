#!/usr/bin/env python3
"""Tries the wrong bodies that the gate doesn't: those of crates/NAME/wrong-bodies, each of which the check must refuse.

    bench/bodies.py [NAME..]     at the top of the repository; NAME as in crates.txt, or each crate that has some

They have the form of the edits in must-fail/, and stood there. The gate tries the one or two of each crate that tell most, since
each further one costs it half a minute; these are for whoever opens the crate. Works on a copy, over what `rt ci` has proved on this
machine, and ends with its status, or with 1 where an edit fits no longer (`BAD EDIT`)."""
import os
import shutil
import subprocess
import sys
import tempfile


def bodies_of(name):
    """The wrong bodies of a crate, by their paths."""
    folder = f"crates/{name}/wrong-bodies"
    return sorted(f"{folder}/{it}" for it in os.listdir(folder)) if os.path.isdir(folder) else []


def copy_to(room, names):
    """Copies the repository's crates, with the wrong bodies of these in the place of all must-fail edits."""
    # (right below a crate alone: the proof of a call named `out` stands in a folder `out` too)
    leave = lambda at, parts: {"out", "must-fail", "wrong-bodies"} & {*parts} if os.path.dirname(at) == "crates" else ()
    shutil.copytree("crates", f"{room}/crates", ignore=leave)
    for it in ("crates.txt", "HANDLES"):
        shutil.copy(it, room)
    for name in names:
        os.mkdir(f"{room}/crates/{name}/must-fail")
        for it in bodies_of(name):
            shutil.copy(it, f"{room}/crates/{name}/must-fail")


def main():
    names = sys.argv[1:] or sorted(it for it in os.listdir("crates") if bodies_of(it))
    lacking = [it for it in names if not bodies_of(it)]
    if lacking:
        sys.exit(f"bench/bodies.py: {lacking[0]} has no wrong bodies")
    bad = 0
    with tempfile.TemporaryDirectory(prefix="bodies-") as room:
        copy_to(room, names)
        gate = subprocess.Popen(["rt", "ci", *names], cwd=room, stdout=subprocess.PIPE, text=True, errors="replace")
        for line in gate.stdout:
            if "must-fail " in line or "passed, " in line or "NOT PROVED" in line:
                print(line, end="", flush=True)
            bad += "BAD EDIT" in line
        status = gate.wait()
    return status or bad > 0


if __name__ == "__main__":
    sys.exit(main())
