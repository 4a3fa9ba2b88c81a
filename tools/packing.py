"""Writes chain bundles: rows and strings in the order of their first use, and the file form of a bundle."""
import struct

import bundles
from bundles import CHAIN_SECTIONS, EDITION, HOST, S

PURPOSE_SERVER = 0


class Sections:
    """The rows of a chain bundle while it grows. Equal strings stand once. The host's string comes first."""

    def __init__(self, host):
        self.texts = {}
        self.rows = {section: [] for section in CHAIN_SECTIONS}
        self.host = self.optional(host)

    def string(self, text):
        """The number of a string."""
        return self.texts.setdefault(text, len(self.texts))

    def optional(self, text):
        """0 for none, else a string's number plus 1."""
        return 0 if text is None else self.string(text) + 1

    def added(self, section, rows):
        """The range of rows that are put behind those of a section: first, count."""
        first = len(self.rows[section])
        self.rows[section] += rows
        return first, len(rows)

    def bundle(self, now):
        """The whole bundle: the sections follow the header, and the strings each other."""
        header = [EDITION] + [0] * (HOST - 1) + [self.host, PURPOSE_SERVER, now]
        rows = self.rows | {S: bundles.string_rows(list(self.texts))}
        return bundles.laid_out(header, rows, CHAIN_SECTIONS, b"".join(self.texts))


def ranges(given):
    """The two words of each range, given by its first word."""
    return {word + step: value for word, pair in given.items() for step, value in enumerate(pair)}


def packed(bundle):
    """A bundle as it stands in a file: the count of words, the count of bytes, the words, the bytes."""
    numbers = (len(bundle.words), len(bundle.data), *bundle.words)
    return struct.pack(f"<{len(numbers)}Q", *numbers) + bundle.data
