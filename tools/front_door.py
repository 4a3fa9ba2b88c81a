#!/usr/bin/env python3
"""Judges the samples as a person would: by tools/judge.sh, and by the example in C.

The real chains are first written anew from their PEM files by tools/pem.py. The status must be the one that is due, and
the line that is due must stand in what is said."""
import os
import shutil
import subprocess
import sys
import tempfile
from typing import NamedTuple

from samples import EXPIRED, TOP, VALID

ACCEPTED, BROKEN, UNJUDGED, REFUSED = range(4)
WARNINGS = ("-Wall", "-Wextra", "-Wpedantic", "-Werror")


class Case(NamedTuple):
    """A bundle file, the status that is due, and the beginning of a line that is due."""

    path: str
    status: int
    line: str


def example():
    """The command of the program in C, which is built with the library."""
    cc = os.environ.get("CC", "cc")
    if shutil.which(cc) is None:
        sys.exit(f"missing tool: {cc}, a C compiler. Install one, or name yours in CC, and run this again.")
    if subprocess.run([TOP / "tools/library.sh"]).returncode != 0:
        sys.exit("the library was not built")
    program = TOP / "target/judge"
    sources = [f"-I{TOP / 'include'}", TOP / "examples/judge.c", TOP / "target/native/libudrasmil.a"]
    subprocess.run([cc, "-std=c99", "-O2", *WARNINGS, *sources, "-o", program], check=True)
    return (program,)


def made_anew(chain, folder):
    """The bundle file of a real chain, from its PEM file."""
    out = f"{folder}/{chain.name}.bundle"
    asked = ["--host", chain.host, "--at", str(chain.now), "--out", out]
    subprocess.run([sys.executable, TOP / "tools/pem.py", TOP / f"samples/{chain.name}.pem", *asked], check=True)
    return out


def cases(folder):
    """The samples, a file that isn't there, and the real chains."""
    shipped = {"broken": (BROKEN, "rule 6, "), "accepted": (ACCEPTED, "accepted"), "short": (BROKEN, "rule 1")}
    shipped |= {"refused": (REFUSED, "refused"), "no such file": (UNJUDGED, "judge: ")}
    for name, (status, line) in shipped.items():
        yield Case(f"{TOP}/samples/{name}.bundle", status, line)
    yield Case(made_anew(VALID, folder), ACCEPTED, "accepted")
    yield Case(made_anew(EXPIRED, folder), BROKEN, "rule 2, certificate 0 (leaf")


def is_wrong(door, case):
    """Whether a command says something else of a file than what is due; if so, it is printed."""
    done = subprocess.run([*door, case.path], stdout=subprocess.PIPE, stderr=subprocess.STDOUT, text=True)
    right = done.returncode == case.status and any(line.startswith(case.line) for line in done.stdout.splitlines())
    if not right:
        print(*door, case.path, f"ends with {done.returncode}; {case.status} and {case.line!r} are due:", done.stdout)
    return not right


def main():
    if sys.argv[1:]:
        sys.exit(__doc__)
    doors = ((TOP / "tools/judge.sh", "openssl"), example())
    with tempfile.TemporaryDirectory() as folder:
        wrong = [case for case in cases(folder) for door in doors if is_wrong(door, case)]
    if wrong:
        sys.exit(1)
    print("the samples and two chains in PEM form are judged as they should be, by the front door and by the example in C")


if __name__ == "__main__":
    main()
