#!/usr/bin/env python3
"""default_lists.py SOURCE | --check: the nine lists of upstream's ChromePolicy::default() as the policy bundle samples/chrome_lists.bundle.

SOURCE is upstream's chrome.rs, from which the lists are read. --check needs no source: it compares the shipped bundle with what was counted when it was
made, and has it judged by the second soundness check of bundles.py. The bundle is test data: it recommends no roots."""
import pathlib
import re
import struct
import sys

import bundles
from bundles import EDITION, L, LISTS, POLICY_HEADER, POLICY_SECTIONS, S, Bundle
from samples import packed

BUNDLE = pathlib.Path(__file__).resolve().parent.parent / "samples" / "chrome_lists.bundle"

# How many entries each list has.
COUNTS = {
    "public_suffix": 243,
    "crl": 192,
    "known_roots": 131,
    "symantec_roots": 61,
    "symantec_exceptions": 11,
    "india_trusted": 3,
    "india_domains": 7,
    "anssi_trusted": 1,
    "anssi_domains": 13,
}


def read_lists(source):
    """The entries of each list, in upstream's order."""
    lists = {}
    for name in LISTS:
        found = re.search(rf"\b{name}: strs_to_strings\(&\[(.*?)\]\)", source, re.DOTALL)
        if not found:
            sys.exit(f"the source has no list {name}: give upstream's chrome.rs")
        lists[name] = [entry.encode() for entry in re.findall(r'"([^"]*)"', found[1])]
    return lists


def policy(lists):
    """The packed bundle of the lists: equal strings stand once, in order of first use."""
    entries = [entry for name in LISTS for entry in lists[name]]
    texts = list(dict.fromkeys(entries))
    numbers = {text: number for number, text in enumerate(texts)}
    header = [EDITION] + [0] * (POLICY_HEADER - 1)
    first = 0
    for name, word in LISTS.items():
        header[word], header[word + 1] = first, len(lists[name])
        first += len(lists[name])
    section_rows = {S: bundles.string_rows(texts), L: [(numbers[entry],) for entry in entries]}
    return bundles.laid_out(header, section_rows, POLICY_SECTIONS, b"".join(texts))


def shipped():
    data = BUNDLE.read_bytes()
    nwords, nbytes = struct.unpack_from("<2Q", data)
    words = list(struct.unpack_from(f"<{nwords}Q", data, 16))
    return Bundle(words, data[16 + 8 * nwords :][:nbytes])


def check():
    bundle = shipped()
    if packed(bundle) != BUNDLE.read_bytes():
        sys.exit(f"{BUNDLE.name}: its counts are not those of the file; make it again from upstream's chrome.rs")
    number, word = bundles.check_policy(bundle.words, bundle.data)
    if number:
        sys.exit(f"{BUNDLE.name} is not sound: refusal {number} at word {word}")
    for name, word in LISTS.items():
        if bundle.words[word + 1] != COUNTS[name]:
            sys.exit(f"{BUNDLE.name}: {name} has {bundle.words[word + 1]} entries, and upstream's {COUNTS[name]}")


def main():
    if len(sys.argv) != 2:
        sys.exit(__doc__)
    if sys.argv[1] == "--check":
        check()
        return
    lists = read_lists(pathlib.Path(sys.argv[1]).read_text(encoding="utf8"))
    BUNDLE.write_bytes(packed(policy(lists)))
    check()


main()
