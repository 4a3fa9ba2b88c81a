#!/usr/bin/env python3
"""Cases for the soundness checks of the two bundles. Run as a script, it prints a line a case.

A case is a small change of one good chain bundle or of one good policy bundle, with the answer that it must get. A
second soundness check stands here too, written from document 01 and not from the crates. It must agree with every case,
or no file is made.

The file holds the cases one after the other: the bundle (`listed`), and then four numbers: which bundle it is (0 chain, 1
policy), the refusal (0 for a sound bundle), the kind of its place (0 nothing, 1 word), that word. Numbers and words have
eight bytes each, the low byte first."""
import struct
from typing import NamedTuple

# The form of the bundles.

MOST_WORDS = 8_192
MOST_BYTES = 65_536
MOST_CERTIFICATES = 16
MOST_TEXT_BYTE = 127
WORD = 2**64
MOST = WORD - 1
EDITION = 1

CHAIN_HEADER = 16
HOST = 13
PURPOSE = 14
POLICY_HEADER = 23

DNS, DIRECTORY, IP, OTHER, UNSUPPORTED = range(5)
MOST_USAGE = 7
MOST_MARK = 3
ANY_EXTENSIONS = 40


class Section(NamedTuple):
    """A section: the header's word for its count of rows, the offset's word behind it, and the words of a row."""

    name: str
    count_word: int
    row_words: int

    @property
    def offset_word(self):
        return self.count_word + 1


S = Section("S", 1, 2)
A = Section("A", 3, 2)
R = Section("R", 5, 2)
G = Section("G", 7, 3)
U = Section("U", 9, 1)
C = Section("C", 11, 41)
CHAIN_SECTIONS = (S, A, R, G, U, C)

L = Section("L", 3, 1)
POLICY_SECTIONS = (S, L)

# The lists of a policy: the header's word for the first entry, before that for the count.
LISTS = {
    "public_suffix": 5,
    "crl": 7,
    "known_roots": 9,
    "symantec_roots": 11,
    "symantec_exceptions": 13,
    "india_trusted": 15,
    "india_domains": 17,
    "anssi_trusted": 19,
    "anssi_domains": 21,
}
DOMAIN_LISTS = ("public_suffix", "india_domains", "anssi_domains")


class Fields(NamedTuple):
    """Which words of a certificate are asked for what."""

    strings: tuple = ()  # a string number
    optional: tuple = ()  # 0 for absent, else a string number plus 1
    ranges: tuple = ()  # (word, section): the first row, and in the next word how many
    codes: tuple = ()  # (word, the highest value)


class Part(NamedTuple):
    """A part of a certificate: the word of its mark, and its fields, which are read unless the mark is 0."""

    name: str
    mark: int
    fields: Fields = Fields()


PARTS = (
    Part("AKI", 15, Fields(optional=(16, 17, 18))),
    Part("SKI", 19, Fields(strings=(20,))),
    Part("EKU", 21, Fields(ranges=((22, U),))),
    Part("BC", 24, Fields(codes=((25, 1), (26, 1)))),
    Part("KU", 28, Fields(codes=((29, 511),))),
    Part("SAN", 30, Fields(ranges=((31, G),))),
    Part("NC", 33, Fields(ranges=((34, G), (36, G)))),
    Part("policies", 38),
    Part("AIA", 39),
)
MARKS = tuple(part.mark for part in PARTS)
ALWAYS = Fields(
    strings=(0, 2, 3, 4),
    optional=(13, 14),
    ranges=((7, R), (9, R)),
    codes=((1, 2**32 - 1), (11, 2), (ANY_EXTENSIONS, 1), *((mark, MOST_MARK) for mark in MARKS)),
)
ALL_FIELDS = (ALWAYS, *(part.fields for part in PARTS))

# The check.


def check_chain(words, data):
    """The refusal of a chain bundle and the word that it names; 0, 0 for a sound one."""
    return lowest(
        {
            2: lambda: one(0, wrong_size(words, data, CHAIN_HEADER) or words[C.count_word] > MOST_CERTIFICATES),
            3: lambda: one(0, words[0] != EDITION),
            4: lambda: misplaced(words, CHAIN_SECTIONS, CHAIN_HEADER),
            5: lambda: past(words, chain_ranges(words, data)) + above(words, chain_numbers(words)),
            6: lambda: above(words, chain_codes(words)) + unsaid_extensions(words),
            7: lambda: with_high_bytes(words, data, chain_texts(words)),
            8: lambda: one(PURPOSE, words[PURPOSE] != 0),
        }
    )


def check_policy(words, data):
    """The refusal of a policy bundle and the word that it names; 0, 0 for a sound one."""
    return lowest(
        {
            2: lambda: one(0, wrong_size(words, data, POLICY_HEADER)),
            3: lambda: one(0, words[0] != EDITION),
            4: lambda: misplaced(words, POLICY_SECTIONS, POLICY_HEADER),
            5: lambda: past(words, policy_ranges(words, data)) + above(words, policy_numbers(words)),
            7: lambda: with_high_bytes(words, data, policy_texts(words)),
        }
    )


def lowest(refusals):
    """The lowest number that fits, with the lowest word that it fits at. Each refusal leans on those before it."""
    for number, places in refusals.items():
        if found := places():
            return number, min(found)
    return 0, 0


def one(word, fits):
    """The places of a refusal that can only name one word."""
    return [word] if fits else []


def rows(words, section):
    """The word at which each row of a section begins."""
    begin = words[section.offset_word]
    return range(begin, begin + words[section.count_word] * section.row_words, section.row_words)


def wrong_size(words, data, header):
    return not header <= len(words) <= MOST_WORDS or len(data) > MOST_BYTES


def misplaced(words, sections, header):
    """The sections that begin in the header or end past the words, each by its count's word."""

    def fits(section):
        begin = words[section.offset_word]
        return header <= begin and begin + words[section.count_word] * section.row_words <= len(words)

    return [section.count_word for section in sections if not fits(section)]


def past(words, ranges):
    """The ranges that end past their limit, each by its first word."""
    return [at for at, limit in ranges if words[at] + words[at + 1] > limit]


def above(words, highest_values):
    """The words that are above their highest value."""
    return [at for at, highest in highest_values if words[at] > highest]


def with_high_bytes(words, data, texts):
    """The words whose text, given by its string number, has a byte over 127."""
    return [at for at, number in texts if max(string(words, data, number), default=0) > MOST_TEXT_BYTE]


def string(words, data, number):
    row = rows(words, S)[number]
    return data[words[row] : words[row] + words[row + 1]]


def read_fields(words):
    """For each certificate's row the fields that are read there."""
    for row in rows(words, C):
        yield row, ALWAYS
        for part in PARTS:
            if words[row + part.mark] != 0:
                yield row, part.fields


def chain_ranges(words, data):
    """Each range of a chain bundle, its strings among them, with its limit."""
    for row in rows(words, S):
        yield row, len(data)
    for row in rows(words, R):
        yield row, words[A.count_word]
    for row in rows(words, G):
        if words[row] == DIRECTORY:
            yield row + 1, words[R.count_word]
    for row, fields in read_fields(words):
        for word, section in fields.ranges:
            yield row + word, words[section.count_word]


def chain_numbers(words):
    """Each word of a chain bundle that names a string, with its highest value."""
    strings = words[S.count_word]
    yield HOST, strings
    for row in rows(words, A):
        yield row, strings - 1
        yield row + 1, strings - 1
    for row in rows(words, G):
        if words[row] in (DNS, IP):
            yield row + 1, strings - 1
    for row, fields in read_fields(words):
        for word in fields.strings:
            yield row + word, strings - 1
        for word in fields.optional:
            yield row + word, strings


def chain_codes(words):
    """Each code of a chain bundle, with its highest value."""
    for row in rows(words, G):
        yield row, UNSUPPORTED
    for row in rows(words, U):
        yield row, MOST_USAGE
    for row, fields in read_fields(words):
        for word, highest in fields.codes:
            yield row + word, highest


def unsaid_extensions(words):
    """The words 40 that are 0 beside a part that is there."""
    unsaid = [row for row in rows(words, C) if words[row + ANY_EXTENSIONS] == 0]
    return [row + ANY_EXTENSIONS for row in unsaid if any(words[row + mark] != 0 for mark in MARKS)]


def chain_texts(words):
    """Each word of a chain bundle that names a text, with the string number."""
    if words[HOST] != 0:
        yield HOST, words[HOST] - 1
    for row in rows(words, A):
        yield row + 1, words[row + 1]
    for row in rows(words, G):
        if words[row] == DNS:
            yield row + 1, words[row + 1]


def policy_ranges(words, data):
    """Each range of a policy bundle, its strings among them, with its limit."""
    for row in rows(words, S):
        yield row, len(data)
    for word in LISTS.values():
        yield word, words[L.count_word]


def policy_numbers(words):
    """Each word of a policy bundle that names a string, with its highest value."""
    for row in rows(words, L):
        yield row, words[S.count_word] - 1


def policy_texts(words):
    """Each word of a policy bundle that names a text, with the string number."""
    for name in DOMAIN_LISTS:
        first, length = words[LISTS[name]], words[LISTS[name] + 1]
        for row in rows(words, L)[first : first + length]:
            yield row, words[row]


# The good bundles.


class Bundle(NamedTuple):
    words: list
    data: bytes


def laid_out(header, section_rows, order, data):
    """A bundle whose sections follow the header in the order given, without gaps."""
    words = list(header)
    for section in order:
        words[section.count_word] = len(section_rows[section])
        words[section.offset_word] = len(words)
        words += [word for row in section_rows[section] for word in row]
    return Bundle(words, data)


def string_rows(texts):
    """The rows of strings that follow each other in the bytes."""
    starts = [sum(map(len, texts[:number])) for number in range(len(texts))]
    return [(start, len(text)) for start, text in zip(starts, texts)]


def certificate(*groups):
    """A certificate's row, given those of its words that aren't 0."""
    given = {word: value for group in groups for word, value in group.items()}
    return [given.get(word, 0) for word in range(C.row_words)]


# The strings that the leaf names come first. The signature and the address have bytes over 127.
CHAIN_TEXTS = {
    "host": b"a.com",
    "leaf fingerprint": b"F0",
    "leaf serial": b"\x05",
    "signature": b"\x2a\x86\x48",
    "common name": b"2.5.4.3",
    "CA": b"CA",
    "Leaf": b"Leaf",
    "CA key": b"\x13\x14",
    "leaf key": b"\x11\x12",
    "address": b"\x80\x0a\x00\x80",
    "pattern": b"*.a.com",
    "CA fingerprint": b"F1",
    "CA serial": b"\x06",
    "organisation": b"2.5.4.10",
    "Org": b"Org",
    "Root": b"Root",
    "root key": b"\x15\x16",
    "root fingerprint": b"F2",
}
NUMBER = {name: number for number, name in enumerate(CHAIN_TEXTS)}
SIGNED = {3: NUMBER["signature"], 4: NUMBER["signature"], 5: 1_600_000_000, 6: 1_630_000_000}
NOW = 1_610_000_000

# All nine parts; then some of them; then a certificate of the first version, without extensions.
LEAF = certificate(
    SIGNED,
    {0: NUMBER["leaf fingerprint"], 1: 2, 2: NUMBER["leaf serial"]},
    {7: 0, 8: 1, 9: 1, 10: 1, 11: 0, 12: 2048, 14: NUMBER["leaf key"] + 1},
    {15: 2, 16: NUMBER["CA key"] + 1, 17: NUMBER["CA"] + 1, 19: 2, 20: NUMBER["leaf key"]},
    {21: 1, 22: 0, 23: 2, 24: 3, 25: 0, 26: 1, 27: 0, 28: 3, 29: 5, 30: 3, 31: 0, 32: 2},
    {33: 3, 34: 1, 35: 1, 36: 0, 37: 1, 38: 1, 39: 2, 40: 1},
)
INTERMEDIATE = certificate(
    SIGNED,
    {0: NUMBER["CA fingerprint"], 1: 2, 2: NUMBER["CA serial"]},
    {7: 2, 8: 1, 9: 0, 10: 1, 11: 2},
    {15: 1, 16: NUMBER["root key"] + 1, 18: NUMBER["leaf serial"] + 1, 19: 2, 20: NUMBER["CA key"]},
    {24: 3, 25: 1, 26: 1, 27: 0, 28: 3, 29: 96, 33: 3, 34: 1, 35: 2, 36: 3, 37: 2, 40: 1},
)
ROOT = certificate(
    SIGNED,
    {0: NUMBER["root fingerprint"], 1: 0, 2: NUMBER["leaf serial"]},
    {7: 2, 8: 1, 9: 2, 10: 1, 11: 0, 12: 4096},
)

CHAIN_ROWS = {
    S: string_rows(list(CHAIN_TEXTS.values())),
    A: [
        (NUMBER["common name"], NUMBER["CA"]),
        (NUMBER["common name"], NUMBER["Leaf"]),
        (NUMBER["organisation"], NUMBER["Org"]),
        (NUMBER["common name"], NUMBER["Root"]),
    ],
    R: [(0, 1), (1, 1), (2, 2)],
    G: [(IP, NUMBER["address"], 0), (DNS, NUMBER["pattern"], 0), (DIRECTORY, 1, 1), (OTHER, 0, 0), (UNSUPPORTED, 0, 0)],
    U: [(0,), (6,)],
    C: [LEAF, INTERMEDIATE, ROOT],
}
LEAF_ROWS = {S: 11, A: 2, R: 2, G: 2, U: 2, C: 1}
NAME_ROWS = LEAF_ROWS | {G: 5, C: 0}
NO_ROWS = dict.fromkeys(CHAIN_SECTIONS, 0)


def chain(kept, order=CHAIN_SECTIONS, host=NUMBER["host"] + 1):
    """The good chain cut to so many rows in each section."""
    header = [EDITION] + [0] * (HOST - 1) + [host, 0, NOW]
    section_rows = {section: CHAIN_ROWS[section][: kept[section]] for section in CHAIN_SECTIONS}
    return laid_out(header, section_rows, order, b"".join(list(CHAIN_TEXTS.values())[: kept[S]]))


def whole_chain():
    return chain({section: len(CHAIN_ROWS[section]) for section in CHAIN_SECTIONS})


def leaf_chain(order=CHAIN_SECTIONS):
    """The good chain cut to its leaf."""
    return chain(LEAF_ROWS, order)


def name_chain():
    """The good chain without certificates: nothing uses its general names and usages."""
    return chain(NAME_ROWS)


def empty_chain():
    """The chain's header alone."""
    return chain(NO_ROWS, host=0)


LIST_TEXTS = {
    "public_suffix": [b"com", b"uk"],
    "crl": [b"F3"],
    "known_roots": [b"F2"],
    "symantec_roots": [b"F4"],
    "symantec_exceptions": [b"F5"],
    "india_trusted": [b"F6"],
    "india_domains": [b"*.gov.in", b"*.nic.in"],
    "anssi_trusted": [b"F7"],
    "anssi_domains": [b"*.fr"],
}


def policy(order=POLICY_SECTIONS, lists=LIST_TEXTS):
    """A policy: each list has its own entries and each entry its own string."""
    header = [EDITION] + [0] * (POLICY_HEADER - 1)
    texts = []
    for name, entries in lists.items():
        header[LISTS[name]], header[LISTS[name] + 1] = len(texts), len(entries)
        texts += entries
    section_rows = {S: string_rows(texts), L: [(number,) for number in range(len(texts))]}
    return laid_out(header, section_rows, order, b"".join(texts))


def empty_policy():
    """The policy's header alone."""
    return laid_out([EDITION] + [0] * (POLICY_HEADER - 1), {S: [], L: []}, POLICY_SECTIONS, b"")


# Changes of a bundle, and the cases that they make.


class Case(NamedTuple):
    """A bundle with the refusal and the word that it must get; 0, 0 for a sound one."""

    name: str
    bundle: Bundle
    number: int = 0
    word: int = 0


def changed(bundle, changes):
    """A bundle with other values in some words."""
    words = list(bundle.words)
    for at, value in changes.items():
        words[at] = value
    return Bundle(words, bundle.data)


def with_byte(bundle, at, value):
    return Bundle(bundle.words, bundle.data[:at] + bytes([value]) + bundle.data[at + 1 :])


def with_high_string(bundle, number):
    """A bundle in which a string begins with a byte over 127."""
    return with_byte(bundle, bundle.words[place(bundle, S, number)], MOST_TEXT_BYTE + 1)


def padded(bundle, words=0, data=0):
    """A bundle with zeros behind it, up to so many words and bytes."""
    more_words = [0] * (words - len(bundle.words))
    return Bundle(bundle.words + more_words, bundle.data.ljust(data, b"\0"))


def with_row(header_alone, section, row):
    """A bundle of one row."""
    return Bundle(changed(header_alone, {section.count_word: 1}).words + row, b"")


def place(bundle, section, row, word=0):
    """Where a word of a row stands."""
    return rows(bundle.words, section)[row] + word


def count(bundle, section):
    return bundle.words[section.count_word]


def shown(value):
    return f"2^64-{WORD - value}" if WORD - value < 100 else str(value)


def limit_cases(name, bundle, at, highest, number):
    """A word at its highest value, just above it and far above it."""
    yield Case(f"{name}: {highest}", changed(bundle, {at: highest}))
    for value in (highest + 1, MOST):
        yield Case(f"{name}: {shown(value)}", changed(bundle, {at: value}), number, at)


def range_cases(kind, bundle, ranges):
    """Ranges that just end inside their limit, then one at a time beyond it, some only because sums don't wrap.

    A range is given by a name, the place of its first word, and its limit."""
    whole = {at: 0 for at, _ in ranges.values()} | {at + 1: limit for at, limit in ranges.values()}
    empty = {at: limit for at, limit in ranges.values()} | {at + 1: 0 for at, _ in ranges.values()}
    yield Case(f"{kind}: from 0 to the limit", changed(bundle, whole))
    yield Case(f"{kind}: empty at the limit", changed(bundle, empty))
    for name, (at, limit) in ranges.items():
        for first, length in ((0, limit + 1), (limit, 1), (limit + 1, 0), (MOST, 1), (1, MOST)):
            bad = changed(bundle, {at: first, at + 1: length})
            yield Case(f"{kind} {name}: first {shown(first)}, count {shown(length)}", bad, 5, at)


def string_limits(bundle, numbers):
    """Strings as ranges of the bytes."""
    return {number: (place(bundle, S, number), len(bundle.data)) for number in numbers}


def byte_cases(name, bundle, number, at):
    """The first and the last byte of a text at 127 and above; `at` is the word that names the text."""
    row = place(bundle, S, number)
    start, length = bundle.words[row : row + 2]
    for where, byte_at in (("first", start), ("last", start + length - 1)):
        yield Case(f"{name}: {where} byte 127", with_byte(bundle, byte_at, 127))
        yield Case(f"{name}: {where} byte 128", with_byte(bundle, byte_at, 128), 7, at)
    yield Case(f"{name}: first byte 255", with_byte(bundle, start, 255), 7, at)


def piled(name, bundle, faults, number):
    """Faults of one refusal, one more each time, from the highest word down: the newest is named."""
    pile = {}
    for at in sorted(faults, reverse=True):
        pile[at] = faults[at]
        yield Case(f"{name}, {len(pile)} of {len(faults)}", changed(bundle, pile), number, at)


def mixed(name, bundle, faults):
    """Faults of different refusals, each a word and its value, one more each time, from the highest number down."""
    pile = {}
    for number in sorted(faults, reverse=True):
        at, value = faults[number]
        pile[at] = value
        yield Case(f"refusals from {number} on, {name}", changed(bundle, pile), number, at)


def edition_cases(bundle):
    for edition in (0, 2, MOST):
        yield Case(f"edition {shown(edition)}", changed(bundle, {0: edition}), 3, 0)


def section_cases(sections, header, build, header_alone):
    """Each section at the limits of where it may stand. `build` lays the good rows out in an order of sections."""
    for section in sections:
        others = [other for other in sections if other is not section]
        yield from filled_section_cases(section, header, build([section, *others]), build([*others, section]))
        yield from empty_section_cases(section, header, header_alone)
        yield from overflow_cases(section, header, padded(header_alone, words=64))
    too_long = {section.count_word: MOST for section in sections if section is not C}
    yield from piled("sections that end past the words", header_alone, too_long, 4)


def filled_section_cases(section, header, standing_first, standing_last):
    name, at = section.name, section.count_word
    yield Case(f"{name} begins behind the header", standing_first)
    yield Case(f"{name} begins in the header", changed(standing_first, {section.offset_word: header - 1}), 4, at)
    yield Case(f"{name} ends with the words", standing_last)
    yield Case(f"{name} ends one word past them", Bundle(standing_last.words[:-1], standing_last.data), 4, at)


def empty_section_cases(section, header, header_alone):
    name, at = section.name, section.count_word
    one_further = changed(header_alone, {section.offset_word: header + 1})
    yield Case(f"empty {name} at {header + 1}, {header + 1} words", padded(one_further, words=header + 1))
    for offset in (0, header - 1, header + 1, MOST):
        bundle = changed(header_alone, {section.offset_word: offset})
        yield Case(f"empty {name} at {shown(offset)}, {header} words", bundle, 4, at)


def overflow_cases(section, header, bundle):
    """Counts and offsets whose section would end inside the words if sums or products wrapped, and the largest ones."""
    sum_wraps = -(-(WORD - header) // section.row_words)
    product_wraps = -(-WORD // section.row_words)
    number, at = (2, 0) if section is C else (4, section.count_word)
    for given in sorted({sum_wraps, product_wraps, MOST} - {WORD}):
        yield Case(f"{section.name} of {shown(given)} rows", changed(bundle, {section.count_word: given}), number, at)
    for offset in sorted({WORD - section.row_words, MOST}):
        bad = changed(bundle, {section.count_word: 1, section.offset_word: offset})
        yield Case(f"{section.name} of 1 row at {shown(offset)}", bad, 4, section.count_word)


# The cases of the chain bundle.


def chain_size_cases():
    empty = empty_chain()
    yield Case("no words", Bundle([], b""), 2)
    yield Case("15 words", Bundle(empty.words[:15], b""), 2)
    yield Case("16 words", empty)
    yield Case("17 words", padded(empty, words=17))
    yield Case("8192 words", padded(empty, words=MOST_WORDS))
    yield Case("8193 words", padded(empty, words=MOST_WORDS + 1), 2)
    yield Case("65536 bytes", padded(empty, data=MOST_BYTES))
    yield Case("65537 bytes", padded(empty, data=MOST_BYTES + 1), 2)
    most = zero_certificates(16)
    yield Case("16 certificates", most)
    yield Case("17 certificates", zero_certificates(17), 2)
    one_word_short = Bundle(most.words[:-1], b"")
    yield Case("16 certificates, one word short", one_word_short, 4, C.count_word)
    yield Case("17 certificates, too few words", changed(one_word_short, {C.count_word: 17}), 2)
    yield Case("17 certificates, edition 2", changed(zero_certificates(17), {0: 2}), 2)
    last_key = place(most, C, 15, 11)
    yield Case("16 certificates, the last with key 3", changed(most, {last_key: 3}), 6, last_key)


def zero_certificates(number):
    """Certificates whose words are all 0, and the empty string that they name."""
    header = with_row(empty_chain(), S, [0, 0])
    begin = len(header.words)
    counted = changed(header, {C.count_word: number, C.offset_word: begin})
    return padded(counted, words=begin + number * C.row_words)


def good_chain_cases():
    good = whole_chain()
    yield Case("the good chain", good)
    yield Case("the good chain with more words and bytes", padded(good, words=300, data=100))
    yield Case("the good chain's leaf", leaf_chain())
    yield Case("the leaf, sections in reversed order", leaf_chain(CHAIN_SECTIONS[::-1]))
    yield Case("names without certificates", name_chain())
    yield Case("a gap between U and C", changed(good, {U.count_word: 1, place(good, C, 0, 23): 1}))
    yield Case("now 2^64-1", changed(good, {15: MOST}))


def empty_section_reference_cases():
    """Rows that speak of a section, or of bytes, without anything in it."""
    empty = empty_chain()
    yield Case("no strings, a host", changed(empty, {HOST: 1}), 5, HOST)
    no_strings = changed(zero_certificates(1), {S.count_word: 0})
    yield Case("no strings, a certificate", no_strings, 5, place(no_strings, C, 0))
    yield Case("no strings, an attribute", with_row(empty, A, [0, 0]), 5, 16)
    yield Case("no strings, a DNS name", with_row(empty, G, [DNS, 0, 0]), 5, 17)
    yield Case("no strings, an IP name", with_row(empty, G, [IP, 0, 0]), 5, 17)
    yield Case("no strings, an unsupported name", with_row(empty, G, [UNSUPPORTED, 0, 0]))
    yield Case("no attributes, an RDN of none", with_row(empty, R, [0, 0]))
    yield Case("no attributes, an RDN of one", with_row(empty, R, [0, 1]), 5, 16)
    yield Case("no bytes, an empty string", with_row(empty, S, [0, 0]))
    yield Case("no bytes, a string of one", with_row(empty, S, [0, 1]), 5, 16)
    yield Case("no bytes, an empty string at 1", with_row(empty, S, [1, 0]), 5, 16)


def row_cases():
    """The rows of S, A, R, G and U, in a bundle without a certificate that uses them."""
    bundle = name_chain()
    strings = count(bundle, S)
    unused = (NUMBER["leaf fingerprint"], NUMBER["leaf key"])
    yield from range_cases("string", bundle, string_limits(bundle, unused))
    yield from range_cases("RDN", bundle, {row: (place(bundle, R, row), count(bundle, A)) for row in (0, 1)})
    yield from limit_cases("attribute OID", bundle, place(bundle, A, 1), strings - 1, 5)
    yield from limit_cases("attribute value", bundle, place(bundle, A, 1, 1), strings - 1, 5)
    yield from limit_cases("usage", bundle, place(bundle, U, 1), MOST_USAGE, 6)
    address, dns, directory, other, unsupported = rows(bundle.words, G)
    yield from limit_cases("IP name x", bundle, address + 1, strings - 1, 5)
    yield from limit_cases("DNS name x", bundle, dns + 1, strings - 1, 5)
    yield from range_cases("name", bundle, {"directory": (directory + 1, count(bundle, R))})
    for name, row in (("IP", address), ("DNS", dns)):
        yield Case(f"{name} name, y garbage", changed(bundle, {row + 2: MOST}))
    yield Case("other name, x and y garbage", changed(bundle, {other + 1: MOST, other + 2: MOST}))
    for name, row in (("first", address), ("last", unsupported)):
        garbage = changed(bundle, {row + 1: MOST, row + 2: MOST})
        yield from limit_cases(f"{name} name, x and y garbage, kind", garbage, row, UNSUPPORTED, 6)


def word_limits(bundle, row):
    """The words of a certificate that may be too high: each with its highest value and the refusal above that."""
    strings = count(bundle, S)
    for fields in ALL_FIELDS:
        for word in fields.strings:
            yield row + word, strings - 1, 5
        for word in fields.optional:
            yield row + word, strings, 5
        for word, highest in fields.codes:
            yield row + word, highest, 6


def certificate_ranges(bundle, row):
    """The ranges of a certificate, by word: the place of the first word, and the limit."""
    ranges = [word_and_section for fields in ALL_FIELDS for word_and_section in fields.ranges]
    return {word: (row + word, count(bundle, section)) for word, section in ranges}


def faulty_words(bundle, row, number):
    """The words of a certificate that can give refusal 5, or 6, each with the first value that does."""
    faults = {at: highest + 1 for at, highest, refusal in word_limits(bundle, row) if refusal == number}
    if number == 5:
        faults |= {at: limit + 1 for at, limit in certificate_ranges(bundle, row).values()}
    return faults


def certificate_cases():
    """Every word of a certificate at its limits, and those that have none."""
    bundle = leaf_chain()
    row = place(bundle, C, 0)
    limits = list(word_limits(bundle, row))
    at_limits = changed(bundle, {at: highest for at, highest, _ in limits})
    yield Case("leaf: each number and code at its highest", at_limits)
    for at, highest, number in limits:
        yield Case(f"leaf word {at - row}: {highest + 1}", changed(at_limits, {at: highest + 1}), number, at)
    yield from range_cases("leaf range", bundle, certificate_ranges(bundle, row))
    yield Case("leaf: each string number 0", changed(bundle, {at: 0 for at, _, number in limits if number == 5}))
    yield Case("leaf words 5, 6, 12, 27: 2^64-1", changed(bundle, {row + word: MOST for word in (5, 6, 12, 27)}))
    yield Case("leaf word 27: 2^63", changed(bundle, {row + 27: 2**63}))
    yield Case("leaf word 26: 0, word 27 garbage", changed(bundle, {row + 26: 0, row + 27: MOST}))
    for key in (1, 2):
        yield Case(f"leaf word 11: {key}, word 12 garbage", changed(bundle, {row + 11: key, row + 12: MOST}))


def presence_cases():
    """Parts that are absent, present or marked with too high a code, and word 40 beside them."""
    bundle = leaf_chain()
    row = place(bundle, C, 0)
    any_extensions = row + ANY_EXTENSIONS
    bare = changed(bundle, {row + word: 0 for word in (*MARKS, ANY_EXTENSIONS)})
    yield Case("no part, word 40 is 0", bare)
    yield Case("no part, word 40 is 1", changed(bare, {any_extensions: 1}))
    outside = faulty_words(bundle, row, 5)
    for part, behind in zip(PARTS, (*MARKS[1:], ANY_EXTENSIONS)):
        name, mark = part.name, row + part.mark
        own_words = range(mark + 1, row + behind)
        garbage = dict.fromkeys(own_words, MOST)
        yield Case(f"{name} absent, its fields garbage", changed(bundle, {mark: 0} | garbage))
        yield Case(f"{name} alone, word 40 is 1", changed(bare, {mark: 1, any_extensions: 1}))
        yield Case(f"{name} alone, word 40 is 0", changed(bare, {mark: 1}), 6, any_extensions)
        for at in own_words:
            if at in outside:
                bad = changed(bundle, {mark: MOST_MARK + 1, at: outside[at]})
                yield Case(f"{name} marked 4, word {at - row} out", bad, 5, at)
    yield Case("AIA marked 4 alone, word 40 is 0", changed(bare, {row + 39: 4}), 6, row + 39)


def later_certificate_cases():
    """The first and the last word of each refusal, in the certificates behind the leaf, with every part there."""
    good = whole_chain()
    for name, row in zip(("intermediate", "root"), rows(good.words, C)[1:]):
        bundle = changed(good, {row + word: 1 for word in (*MARKS, ANY_EXTENSIONS)})
        yield Case(f"{name} with every part", bundle)
        for number in (5, 6):
            faults = faulty_words(bundle, row, number)
            for at in (min(faults), max(faults)):
                yield Case(f"{name} word {at - row}: {faults[at]}", changed(bundle, {at: faults[at]}), number, at)


def host_cases():
    bundle = leaf_chain()
    address = NUMBER["address"]
    yield Case("host absent", changed(bundle, {HOST: 0}))
    yield from limit_cases("host", bundle, HOST, count(bundle, S), 5)
    yield from byte_cases("host", bundle, NUMBER["host"], HOST)
    before_address = changed(bundle, {HOST: address})
    yield Case("host before the address", before_address)
    yield Case("host is the address", changed(bundle, {HOST: address + 1}), 7, HOST)
    length = place(bundle, S, address - 1, 1)
    one_byte_longer = changed(before_address, {length: bundle.words[length] + 1})
    yield Case("host before the address, one byte into it", one_byte_longer, 7, HOST)
    header = changed(with_row(empty_chain(), S, [0, MOST_BYTES]), {HOST: 1})
    longest = padded(header, data=MOST_BYTES)
    yield Case("host of 65536 bytes", longest)
    yield Case("host of 65536 bytes, the first 128", with_byte(longest, 0, 128), 7, HOST)
    yield Case("host of 65537 bytes, one too many", changed(longest, {17: MOST_BYTES + 1}), 5, 16)


def chain_text_cases():
    """Texts with a byte over 127, and strings with one that aren't texts."""
    bundle = leaf_chain()
    row, value, dns = place(bundle, C, 0), place(bundle, A, 0, 1), place(bundle, G, 1, 1)
    address = NUMBER["address"]
    yield from byte_cases("attribute value", bundle, NUMBER["CA"], value)
    yield from byte_cases("DNS name", bundle, NUMBER["pattern"], dns)
    yield Case("attribute value empty", changed(bundle, {place(bundle, S, NUMBER["CA"], 1): 0}))
    start = place(bundle, S, NUMBER["pattern"])
    yield Case("DNS name from one byte earlier on", changed(bundle, {start: bundle.words[start] - 1}), 7, dns)
    for name, kind in (("IP", IP), ("other", OTHER), ("unsupported", UNSUPPORTED)):
        yield Case(f"{name} name, x is the address", changed(bundle, {dns - 1: kind, dns: address}))
    for name in ("common name", "leaf fingerprint", "leaf serial", "signature", "leaf key", "CA key"):
        yield Case(f"{name} with 128", with_high_string(bundle, NUMBER[name]))
    named = {row + word: address for word in (0, 2, 3, 4, 20)}
    named_plus_one = {row + word: address + 1 for word in (13, 14, 16, 17, 18)}
    yield Case("the address wherever the leaf names a string", changed(bundle, named | named_plus_one))
    unused = name_chain()
    for name, at in (("attribute value", place(unused, A, 1, 1)), ("DNS name", place(unused, G, 1, 1))):
        yield Case(f"unused {name} is the address", changed(unused, {at: address}), 7, at)


def purpose_cases():
    for purpose in (1, MOST):
        yield Case(f"purpose {shown(purpose)}", changed(leaf_chain(), {PURPOSE: purpose}), 8, PURPOSE)


def chain_pile_cases(name, order):
    """Faults in several sections at once, which stand in the order given."""
    bundle = leaf_chain(order)
    strings, address = count(bundle, S), NUMBER["address"]
    start, oid, rdn, ip, dns, usage, row = (
        place(bundle, section, number) for section, number in ((S, 0), (A, 0), (R, 0), (G, 0), (G, 1), (U, 0), (C, 0))
    )
    ends = {HOST: MOST, start: MOST, oid: strings, rdn: MOST, ip + 1: strings, row: strings}
    yield from piled(f"refusal 5, {name}", bundle, ends, 5)
    yield from piled(f"refusal 6, {name}", bundle, {ip: 5, usage: 8, row + 1: 2**32}, 6)
    yield from piled(f"refusal 7, {name}", bundle, {HOST: address + 1, oid + 1: address, dns + 1: address}, 7)
    faults = {3: (0, 2), 4: (U.count_word, MOST), 5: (oid, strings), 6: (usage, 8)}
    yield from mixed(name, bundle, faults | {7: (HOST, address + 1), 8: (PURPOSE, 1)})


def certificate_pile_cases():
    """Several faults in one certificate, and in several certificates."""
    leaf = leaf_chain()
    for number in (5, 6):
        faults = dict.fromkeys(faulty_words(leaf, place(leaf, C, 0), number), MOST)
        yield from piled(f"refusal {number} in the leaf", leaf, faults, number)
    good = whole_chain()
    strings = count(good, S)
    first, second, third = rows(good.words, C)
    yield from piled("word 0 of each certificate", good, {first: strings, second: strings, third: strings}, 5)
    yield from piled("words 20, 2, 0 of three", good, {first + 20: strings, second + 2: strings, third: strings}, 5)
    yield from piled("word 40 of 0 before a mark", good, {first + ANY_EXTENSIONS: 0, second + 15: 4}, 6)
    yield Case("refusal 6 in the leaf, 5 in the root", changed(good, {first + 11: 3, third + 4: strings}), 5, third + 4)


def overlap_cases():
    bundle = leaf_chain()
    value = place(bundle, A, 0, 1)
    usages_over_attributes = changed(bundle, {U.offset_word: value})
    yield Case("U over A", usages_over_attributes)
    yield Case("U over A, a word bad as usage", changed(usages_over_attributes, {value: 8}), 6, value)
    yield Case("U over A, a word bad as both", changed(usages_over_attributes, {value: count(bundle, S)}), 5, value)
    yield Case("U over A, a word bad as text", changed(usages_over_attributes, {value: NUMBER["signature"]}), 7, value)
    counts = {S.count_word: 3, A.count_word: 3, R.count_word: 3, G.count_word: 2, U.count_word: 6}
    header = changed(empty_chain(), counts)
    yield Case("five sections over the same words", Bundle(header.words + [0, 1, 0, 1, 0, 0], b"a"))
    yield Case("five sections over the same words, one bad", Bundle(header.words + [0, 1, 0, 1, 0, 3], b"a"), 5, 20)
    room = MOST_WORDS - CHAIN_HEADER
    fullest = {section.count_word: room // section.row_words for section in (S, A, R, G, U)} | {C.count_word: 16}
    all_over = padded(changed(empty_chain(), fullest), words=MOST_WORDS)
    yield Case("all sections over 8176 zeros", all_over)
    yield Case("all sections over 8176 zeros, G one further", changed(all_over, {G.offset_word: 17}))
    yield Case("all sections over 8176 zeros, G two further", changed(all_over, {G.offset_word: 18}), 4, G.count_word)


def chain_cases():
    yield from chain_size_cases()
    yield from good_chain_cases()
    yield from edition_cases(leaf_chain())
    yield from section_cases(CHAIN_SECTIONS, CHAIN_HEADER, leaf_chain, empty_chain())
    yield from empty_section_reference_cases()
    yield from row_cases()
    yield from certificate_cases()
    yield from presence_cases()
    yield from later_certificate_cases()
    yield from host_cases()
    yield from chain_text_cases()
    yield from purpose_cases()
    yield from chain_pile_cases("in order", CHAIN_SECTIONS)
    yield from chain_pile_cases("reversed", CHAIN_SECTIONS[::-1])
    yield from certificate_pile_cases()
    yield from overlap_cases()


# The cases of the policy bundle.


def policy_size_cases():
    empty = empty_policy()
    yield Case("no words", Bundle([], b""), 2)
    yield Case("16 words", Bundle(empty.words[:16], b""), 2)
    yield Case("22 words", Bundle(empty.words[:22], b""), 2)
    yield Case("22 words, edition 2", Bundle([2] + empty.words[1:22], b""), 2)
    yield Case("23 words", empty)
    yield Case("24 words", padded(empty, words=24))
    yield Case("8192 words", padded(empty, words=MOST_WORDS))
    yield Case("8193 words", padded(empty, words=MOST_WORDS + 1), 2)
    yield Case("65536 bytes", padded(empty, data=MOST_BYTES))
    yield Case("65537 bytes", padded(empty, data=MOST_BYTES + 1), 2)
    many = changed(empty, {S.count_word: 1, L.count_word: 17, LISTS["symantec_roots"]: 17})
    yield Case("17 in word 11, no count of certificates here", padded(many, words=POLICY_HEADER + 17))


def good_policy_cases():
    yield Case("the good policy", policy())
    yield Case("the good policy with more words and bytes", padded(policy(), words=100, data=100))


def policy_row_cases():
    bundle = policy()
    strings, entries = count(bundle, S), count(bundle, L)
    yield from range_cases("list", bundle, {name: (word, entries) for name, word in LISTS.items()})
    yield from range_cases("string", bundle, string_limits(bundle, (0, strings - 1)))
    for row in (0, entries - 1):
        yield from limit_cases(f"entry {row}", bundle, place(bundle, L, row), strings - 1, 5)
    no_lists = changed(bundle, {word + 1: 0 for word in LISTS.values()})
    entry, unnamed = place(bundle, L, 4), place(bundle, S, 4)
    yield Case("no entry in a list", no_lists)
    yield Case("no entry in a list, one out", changed(no_lists, {entry: strings}), 5, entry)
    yield Case("a string that no entry names is out", changed(bundle, {entry: 3, unnamed: MOST}), 5, unnamed)
    yield Case("no strings, an entry", with_row(empty_policy(), L, [0]), 5, POLICY_HEADER)


def policy_text_cases():
    """A byte over 127 in each list: refused in the lists of domains, and only there."""
    bundle = policy()
    for name, word in LISTS.items():
        first = bundle.words[word]
        entry = place(bundle, L, first)
        if name in DOMAIN_LISTS:
            yield from byte_cases(name, bundle, first, entry)
        else:
            high = with_high_string(bundle, first)
            yield Case(f"{name}: first byte 128", high)
            in_suffixes_too = changed(high, {LISTS["public_suffix"]: first, LISTS["public_suffix"] + 1: 1})
            yield Case(f"{name}: first byte 128, in public_suffix too", in_suffixes_too, 7, entry)


def list_end_cases():
    """Entries with a byte over 127 just inside and just outside of a list of domains."""
    bundle = policy()
    for name in ("public_suffix", "india_domains"):
        word = LISTS[name]
        first = bundle.words[word]
        without_first, without_last = {word: first + 1, word + 1: 1}, {word + 1: 1}
        for entry, without in ((first, without_first), (first + 1, without_last)):
            high = with_high_string(bundle, entry)
            yield Case(f"{name}: entry {entry} with 128", high, 7, place(bundle, L, entry))
            yield Case(f"{name}: entry {entry} with 128 left out", changed(high, without))
    in_crl_only = changed(with_high_string(bundle, 0), {LISTS["public_suffix"] + 1: 0, LISTS["crl"]: 0})
    yield Case("an entry with 128 in crl only", in_crl_only)
    entry = place(bundle, L, 3)
    named_again = changed(in_crl_only, {entry: 0, LISTS["anssi_domains"]: 3})
    yield Case("the same string in anssi_domains too", named_again, 7, entry)


def policy_pile_cases(name, order):
    """Faults in several places at once, the sections in the order given."""
    bundle = policy(order)
    strings, entries = count(bundle, S), count(bundle, L)
    list_starts = {word: entries + 1 for word in LISTS.values()}
    ends = list_starts | {place(bundle, S, 0): MOST, place(bundle, L, 0): strings}
    yield from piled(f"refusal 5, {name}", bundle, ends, 5)
    revoked = bundle.words[LISTS["crl"]]
    high = with_high_string(bundle, revoked)
    suffix, india, anssi = (place(bundle, L, bundle.words[LISTS[domains]]) for domains in DOMAIN_LISTS)
    yield from piled(f"refusal 7, {name}", high, {suffix: revoked, india: revoked, anssi: revoked}, 7)
    suffix_word, anssi_word = LISTS["public_suffix"], LISTS["anssi_domains"]
    swapped = changed(high, {suffix_word: entries - 1, suffix_word + 1: 1, anssi_word: 0, anssi_word + 1: 2})
    yield from piled(f"refusal 7, two lists swapped, {name}", swapped, {suffix: revoked, anssi: revoked}, 7)
    yield from mixed(name, high, {3: (0, 2), 4: (L.count_word, MOST), 5: (anssi, strings), 7: (suffix, revoked)})


def policy_overlap_cases():
    bundle = policy()
    start = place(bundle, S, 0)
    no_lists = {at: 0 for word in LISTS.values() for at in (word, word + 1)}
    entries_over_strings = changed(bundle, {L.offset_word: start, L.count_word: 4} | no_lists)
    yield Case("L over S", entries_over_strings)
    strings = count(bundle, S)
    yield Case("L over S, a word bad as entry", changed(entries_over_strings, {start + 1: strings}), 5, start + 1)
    yield Case("L over S, a word bad as both", changed(entries_over_strings, {start + 1: MOST}), 5, start)
    room = MOST_WORDS - POLICY_HEADER
    fullest = {S.count_word: room // S.row_words, L.count_word: room} | {word + 1: room for word in LISTS.values()}
    yield Case("L and S over 8169 zeros", padded(changed(empty_policy(), fullest), words=MOST_WORDS))


def policy_cases():
    yield from policy_size_cases()
    yield from good_policy_cases()
    yield from edition_cases(policy())
    yield from section_cases(POLICY_SECTIONS, POLICY_HEADER, policy, empty_policy())
    yield from policy_row_cases()
    yield from policy_text_cases()
    yield from list_end_cases()
    yield from policy_pile_cases("in order", POLICY_SECTIONS)
    yield from policy_pile_cases("reversed", POLICY_SECTIONS[::-1])
    yield from policy_overlap_cases()


# The file.

BUNDLES = (("chain", chain_cases, check_chain), ("policy", policy_cases, check_policy))


def cases():
    """Every case in the order of the file, with the number of its bundle."""
    for bundle, (name, make, check) in enumerate(BUNDLES):
        for case in make():
            found = check(*case.bundle)
            if found != (case.number, case.word):
                raise ValueError(f"{name}, {case.name}: wanted {case.number}, {case.word}; the check says {found}")
            yield bundle, case


def without_zeros(values):
    """Values without the zeros at their end."""
    kept = next((length for length in range(len(values), 0, -1) if values[length - 1] != 0), 0)
    return values[:kept]


def listed(bundle):
    """A bundle as it stands in the data file of a program: the words given, the words with the zeros behind them, the bytes
    given, the bytes with the zeros behind them; then the words and the bytes given."""
    words, data = without_zeros(bundle.words), without_zeros(bundle.data)
    return numbers(len(words), len(bundle.words), len(data), len(bundle.data), *words) + data


def numbers(*values):
    return struct.pack(f"<{len(values)}Q", *values)


def in_file(bundle, case):
    return listed(case.bundle) + numbers(bundle, case.number, 0 if case.number == 0 else 1, case.word)


def files():
    """Each path that this script writes, with what it writes there."""
    return {"crates/bundle_list/data/bundles": b"".join(in_file(bundle, case) for bundle, case in cases())}


def main():
    for index, (bundle, case) in enumerate(cases()):
        answer = "sound" if case.number == 0 else f"refusal {case.number}, word {case.word}"
        print(f"{index} {BUNDLES[bundle][0]}: {case.name}: {answer}")


if __name__ == "__main__":
    main()
