#!/usr/bin/env python3
"""Judges the chains of tests/outside through the C boundary, and compares answers and reports with the table there.

Each chain is judged twice: with room for any report, and with a word too few for its own. The samples are judged too, also
with five words lent and with none, and so are bundles without bytes and without words. Whatever has length 0 is lent as a
null pointer. Words around the report and the answer must stay as they were."""
import ctypes
import os
import shutil
import struct
import subprocess
import sys
from typing import NamedTuple

import bundles
import samples
from bundles import Bundle
from samples import NONE, TOP

CHAINS = TOP / "tests/outside"
LIBRARY = TOP / "target/native/libudrasmil.a"
SHARED = TOP / "target/native/libudrasmil.so"

WHOLE = 3 * 424
GUARDS = 16
UNTOUCHED = 0xA5A5A5A5
ACCEPTED = [0] * 8


def build():
    """The library's function, out of a shared object made of the static library."""
    cc = os.environ.get("CC", "cc")
    if subprocess.run([TOP / "tools/library.sh"]).returncode != 0:
        sys.exit("the library was not built")
    if shutil.which(cc) is None:
        sys.exit(f"missing tool: {cc}, a C compiler. Install one, or name yours in CC, and run this again.")
    whole = ["-Wl,--whole-archive", LIBRARY, "-Wl,--no-whole-archive"]
    subprocess.run([cc, "-shared", "-o", SHARED, *whole], check=True)
    function = ctypes.CDLL(str(SHARED)).udrasmil_judge_openssl
    function.restype = None
    function.argtypes = [ctypes.c_void_p, ctypes.c_size_t] * 3 + [ctypes.c_void_p]
    return function


def lent(kind, values):
    """Memory that holds the values, and its address; no address where there are none."""
    memory = (kind * len(values))(*values)
    return memory, ctypes.addressof(memory) if values else None


def guarded(kind, length):
    """Memory of so many untouched elements between guards, and the address of its inner part; none where that is empty."""
    memory = (kind * (length + 2 * GUARDS))(*[UNTOUCHED] * (length + 2 * GUARDS))
    return memory, ctypes.addressof(memory) + GUARDS * ctypes.sizeof(kind) if length else None


class Outcome(NamedTuple):
    """What stands in the lent answer and report after a judgement, and whether the guards stayed."""

    answer: list
    report: list
    guards_stay: bool = True

    def __str__(self):
        """Without the end of the report that nothing wrote."""
        written = len(self.report)
        while written and self.report[written - 1] == UNTOUCHED:
            written -= 1
        guards = "" if self.guards_stay else ", words beside them changed"
        return f"answer {self.answer}, report {self.report[:written]}{guards}"


def judged(function, bundle, room):
    """The outcome of a judgement with so many words of room."""
    words, words_at = lent(ctypes.c_uint64, bundle.words)
    data, data_at = lent(ctypes.c_uint8, list(bundle.data))
    report, report_at = guarded(ctypes.c_uint32, room)
    answer, answer_at = guarded(ctypes.c_uint64, 8)
    function(words_at, len(words), data_at, len(data), report_at, room, answer_at)
    if list(words) != bundle.words or bytes(data) != bundle.data:
        sys.exit("the judge wrote into a bundle")
    around = [*report[:GUARDS], *report[GUARDS + room :], *answer[:GUARDS], *answer[GUARDS + 8 :]]
    guards_stay = around == [UNTOUCHED] * (4 * GUARDS)
    return Outcome(answer[GUARDS : GUARDS + 8], report[GUARDS : GUARDS + room], guards_stay)


class Sample(NamedTuple):
    """A bundle, the eight words of OpenSSL's answer where the whole report has room, and the words of that report."""

    name: str
    bundle: Bundle
    answer: list
    report: list


def due(sample, room):
    """The outcome as it must be: whole entries only, as many as fit."""
    written = min(len(sample.report) // 3, room // 3)
    entries = sample.report[: 3 * written]
    return Outcome(sample.answer[:7] + [written], entries + [UNTOUCHED] * (room - len(entries)))


def differences(function, sample, rooms):
    """Lines for each of the rooms with which the outcome is not as it must be."""
    for room in rooms:
        wanted, got = due(sample, room), judged(function, sample.bundle, room)
        if wanted != got:
            yield f"{sample.name}, {room} words lent:\n  due {wanted}\n  got {got}"


def answer_of(entries):
    """The answer to a chain with these entries."""
    rule, i, j = entries[0]
    place = [0, 0, 0] if i == NONE else [2, i, 0] if j == NONE else [3, i, j]
    return [1, 0, *place, rule, len(entries), len(entries)]


def expected(said):
    """The answer and the report that a cell of the table's last column stands for."""
    number, *rest = said.split()
    if number == "0":
        return ACCEPTED, []
    if number == "1":
        entries = [[NONE if part == "-" else int(part) for part in entry.split(",")] for entry in rest]
        return answer_of(entries), sum(entries, [])
    return [int(number), 0, 1, int(rest[1]), 0, 0, 0, 0], []


def unpacked(record):
    nwords, nbytes = struct.unpack_from("<2Q", record)
    words = struct.unpack_from(f"<{nwords}Q", record, 16)
    return Bundle(list(words), record[16 + 8 * nwords :][:nbytes])


def chains():
    """The chains of the table, which must be all that the file holds."""
    data, end = (CHAINS / "chains.bin").read_bytes(), 0
    for line in (CHAINS / "chains.tsv").read_text().splitlines()[1:]:
        record, offset, length, suite, name, *_, said = line.split("\t")
        if int(offset) != end:
            sys.exit(f"chains.tsv: chain {record} should begin at {end}. Fetch the file again.")
        end += int(length)
        yield Sample(f"chain {record} ({suite}: {name})", unpacked(data[int(offset) : end]), *expected(said))
    if end != len(data):
        sys.exit(f"chains.tsv ends at {end}, chains.bin at {len(data)}. Fetch both files again.")


def edges():
    """The samples, a chain without certificates and without bytes, and no words at all."""
    for sample in samples.SAMPLES:
        yield Sample(sample.chain, samples.CHAINS[sample.chain], *sample.openssl)
    yield Sample("no certificates", bundles.empty_chain(), [1, 0, 0, 0, 0, 1, 1, 1], [1, NONE, NONE])
    yield Sample("no words", Bundle([], b""), [2, 0, 1, 0, 0, 0, 0, 0], [])


def main():
    if sys.argv[1:]:
        sys.exit(__doc__)
    function = build()
    at_edges = [line for sample in edges() for line in differences(function, sample, (WHOLE, 6, 5, 3, 2, 0))]
    by_chain = [list(differences(function, chain, (WHOLE, max(0, len(chain.report) - 1)))) for chain in chains()]
    for line in at_edges + sum(by_chain, []):
        print(line)
    print(f"{len(by_chain)} chains, {by_chain.count([])} as the table says")
    if at_edges or any(by_chain):
        sys.exit(1)


if __name__ == "__main__":
    main()
