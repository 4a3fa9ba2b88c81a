#!/usr/bin/env python3
"""Writes the chain in PEM files as a bundle file, so that it can be judged. It needs nothing but Python.

The certificates are taken in the order in which they stand: the leaf first, then each one's issuer, the root last. A
server mostly doesn't send the root, so that has to be added. samples/README.md says what the bundle holds."""
import argparse
import base64
import binascii
import datetime
import hashlib
import os
import pathlib
import re
import sys
import time

import bundles
import der
from bundles import A, C, DIRECTORY, DNS, G, IP, OTHER, R, U, UNSUPPORTED
from der import Fields, Malformed, context
from packing import Sections, packed, ranges

BLOCK = re.compile(rb"-----BEGIN CERTIFICATE-----(.*?)-----END CERTIFICATE-----", re.DOTALL)

NO_MARK, NOT_CRITICAL, CRITICAL = 1, 2, 3
RSA, DSA, OTHER_KEY = 0, 1, 2
RSA_ENCRYPTION, DSA_KEY = b"1.2.840.113549.1.1.1", b"1.2.840.10040.4.1"
USAGES = {
    b"1.3.6.1.5.5.7.3.1": 0,
    b"1.3.6.1.5.5.7.3.2": 1,
    b"1.3.6.1.5.5.7.3.3": 2,
    b"1.3.6.1.5.5.7.3.4": 3,
    b"1.3.6.1.5.5.7.3.8": 4,
    b"1.3.6.1.5.5.7.3.9": 5,
    b"2.5.29.37.0": 6,
}
OTHER_USAGE = 7
KEY_USAGE_BITS = 9
WORD = 2**64


class Chain(Sections):
    """The rows of a chain while its certificates are read."""

    def certificate(self, data):
        """Reads a certificate and adds its row. Strings and rows come in the order of the row's words."""
        outer = Fields(der.only(data, der.SEQUENCE))
        inner = Fields(outer.take(der.SEQUENCE).content)
        signed_with = outer.take(der.SEQUENCE).whole
        outer.take(der.BIT_STRING)
        outer.end()
        words = {0: self.string(fingerprint(data))} | self.signed_part(inner, signed_with)
        self.rows[C].append(bundles.certificate(words))

    def signed_part(self, fields, signed_with):
        """The words of the part that is signed. The algorithm of the signature stands outside of it too."""
        version = fields.optional(context(0, True))
        serial = fields.take(der.INTEGER).content
        algorithm = fields.take(der.SEQUENCE).whole
        issuer, validity = fields.take(der.SEQUENCE), Fields(fields.take(der.SEQUENCE).content)
        subject, key = fields.take(der.SEQUENCE), fields.take(der.SEQUENCE)
        uids = [fields.optional(context(number), context(number, True)) for number in (1, 2)]
        extensions = fields.optional(context(3, True))
        fields.end()
        words = {1: word(der.integer(der.only(version.content, der.INTEGER))) if version else 0}
        words |= {2: self.string(serial), 3: self.string(signed_with), 4: self.string(algorithm)}
        words |= {at: der.seconds(validity.take(der.UTC_TIME, der.GENERALIZED_TIME)) for at in (5, 6)}
        words |= ranges({7: self.name(issuer.content)}) | ranges({9: self.name(subject.content)})
        words |= key_words(key.content)
        words |= {13 + at: self.optional(uid and uid.content) for at, uid in enumerate(uids)}
        return words | self.extensions(extensions) | {40: int(extensions is not None)}

    def name(self, content):
        """A distinguished name: its range of RDNs."""
        return self.added(R, [self.rdn(rdn.content) for rdn in sequence_of(content, der.SET)])

    def rdn(self, content):
        return self.added(A, [self.attribute(Fields(one.content)) for one in sequence_of(content, der.SEQUENCE)])

    def attribute(self, fields):
        oid, value = fields.take(der.OBJECT), fields.take()
        fields.end()
        return self.string(der.oid(oid.content)), self.string(der.text(value))

    def general_names(self, names):
        return self.added(G, [self.general_name(name) for name in names])

    def general_name(self, name):
        number = name.tag & der.TAG_NUMBER
        if number == 2:
            return DNS, self.string(name.content), 0
        if number == 4:
            return DIRECTORY, *self.name(der.only(name.content, der.SEQUENCE))
        if number == 7:
            return IP, self.string(name.content), 0
        return OTHER if number == 0 else UNSUPPORTED, 0, 0

    def extensions(self, field):
        """The words of the nine parts. If one stands there twice, the first counts."""
        found = {}
        for one in sequence_of(der.only(field.content, der.SEQUENCE), der.SEQUENCE) if field else []:
            oid, mark, value = extension(Fields(one.content))
            found.setdefault(oid, (mark, value))
        words = {}
        for oid, mark_word, read in PARTS:
            if oid in found:
                mark, value = found[oid]
                words |= {mark_word: mark} | read(self, value)
        return words

    def authority_key(self, value):
        fields = Fields(der.only(value, der.SEQUENCE))
        tags = {16: (context(0),), 17: (context(1, True),), 18: (context(2),)}
        found = {at: fields.optional(*tag) for at, tag in tags.items()}
        fields.end()
        return {at: self.optional(field and field.content) for at, field in found.items()}

    def subject_key(self, value):
        return {20: self.string(der.only(value, der.OCTET_STRING))}

    def extended_usages(self, value):
        oids = [der.oid(one.content) for one in sequence_of(der.only(value, der.SEQUENCE), der.OBJECT)]
        return ranges({22: self.added(U, [(USAGES.get(oid, OTHER_USAGE),) for oid in oids])})

    def basic_constraints(self, value):
        fields = Fields(der.only(value, der.SEQUENCE))
        ca, path = fields.optional(der.BOOLEAN), fields.optional(der.INTEGER)
        fields.end()
        length = word(der.integer(path.content)) if path else 0
        return {25: int(ca is not None and der.boolean(ca.content)), 26: int(path is not None), 27: length}

    def key_usage(self, value):
        """Bit 0 of the word is the first bit of the bit string."""
        bits = der.bit_string(der.only(value, der.BIT_STRING))
        first = int.from_bytes(bits[:2].ljust(2, b"\0"), "big")
        return {29: sum((first >> 15 - bit & 1) << bit for bit in range(KEY_USAGE_BITS))}

    def alternative_names(self, value):
        return ranges({31: self.general_names(der.elements(der.only(value, der.SEQUENCE)))})

    def name_constraints(self, value):
        fields = Fields(der.only(value, der.SEQUENCE))
        lists = {34: fields.optional(context(0, True)), 36: fields.optional(context(1, True))}
        fields.end()
        return ranges({at: self.general_names(bases(field)) for at, field in lists.items()})

    def mark_alone(self, _value):
        return {}


# The nine parts: OID, the word of the mark, and what reads the other words. In the order of the words.
PARTS = (
    (b"2.5.29.35", 15, Chain.authority_key),
    (b"2.5.29.14", 19, Chain.subject_key),
    (b"2.5.29.37", 21, Chain.extended_usages),
    (b"2.5.29.19", 24, Chain.basic_constraints),
    (b"2.5.29.15", 28, Chain.key_usage),
    (b"2.5.29.17", 30, Chain.alternative_names),
    (b"2.5.29.30", 33, Chain.name_constraints),
    (b"2.5.29.32", 38, Chain.mark_alone),
    (b"1.3.6.1.5.5.7.1.1", 39, Chain.mark_alone),
)


def fingerprint(data):
    """The SHA-256 of a certificate, as Chrome's lists spell it."""
    return hashlib.sha256(data).hexdigest().upper().encode()


def word(number):
    """A number as a word in two's complement."""
    if not -WORD // 2 <= number < WORD // 2:
        raise Malformed("a version or a path length needs more than 64 bits")
    return number % WORD


def sequence_of(content, tag):
    """The elements of a content, all of one tag."""
    found = der.elements(content)
    if any(one.tag != tag for one in found):
        raise Malformed(f"elements of tag {tag} are due")
    return found


def extension(fields):
    """An extension's OID, mark and value."""
    oid, critical = der.oid(fields.take(der.OBJECT).content), fields.optional(der.BOOLEAN)
    value = fields.take(der.OCTET_STRING).content
    fields.end()
    mark = NO_MARK if critical is None else CRITICAL if der.boolean(critical.content) else NOT_CRITICAL
    return oid, mark, value


def bases(field):
    """The names of a list of subtrees. Their depths aren't judged."""
    return [Fields(one.content).take() for one in sequence_of(field.content, der.SEQUENCE)] if field else []


def key_words(content):
    fields = Fields(content)
    algorithm = der.oid(Fields(fields.take(der.SEQUENCE).content).take(der.OBJECT).content)
    key = der.bit_string(fields.take(der.BIT_STRING).content)
    if algorithm == RSA_ENCRYPTION:
        modulus = Fields(der.only(key, der.SEQUENCE)).take(der.INTEGER)
        return {11: RSA, 12: der.integer(modulus.content).bit_length()}
    return {11: DSA if algorithm == DSA_KEY else OTHER_KEY}


def blocks(path):
    """The certificates in a PEM file."""
    found = BLOCK.findall(path.read_bytes())
    if not found:
        raise Malformed(f"{path}: there is no certificate in PEM form")
    try:
        return [base64.b64decode(b"".join(block.split()), validate=True) for block in found]
    except binascii.Error as wrong:
        raise Malformed(f"{path}: a certificate is no base64: {wrong}") from None


def bundle(certificates, host, now):
    """The bundle of a chain of certificates in DER, the leaf first."""
    chain = Chain(host)
    for position, certificate in enumerate(certificates):
        try:
            chain.certificate(certificate)
        except Malformed as wrong:
            raise Malformed(f"certificate {position}: {wrong}") from None
    return chain.bundle(now)


def moment(text):
    """Seconds since 1970, given so or as a date with a time; a time without a zone is UTC."""
    if text.isdecimal():
        seconds = int(text)
    else:
        given = datetime.datetime.fromisoformat(text.removesuffix("Z"))
        seconds = int(given.replace(tzinfo=given.tzinfo or datetime.timezone.utc).timestamp())
    if not 0 <= seconds < WORD:
        raise ValueError("a time before 1970 or out of reach")
    return seconds


def arguments():
    parser = argparse.ArgumentParser(description=__doc__, formatter_class=argparse.RawDescriptionHelpFormatter)
    parser.add_argument("pem", nargs="+", type=pathlib.Path, help="a file with certificates in PEM form")
    parser.add_argument("--out", required=True, type=pathlib.Path, help="the bundle file to write")
    parser.add_argument("--host", type=os.fsencode, help="the host that the leaf must name; without it none is asked")
    when = "when the chain is judged: seconds since 1970, or 2025-02-23T10:02:16Z; now unless given"
    parser.add_argument("--at", type=moment, default=int(time.time()), help=when)
    return parser.parse_args()


def main():
    given = arguments()
    try:
        certificates = [certificate for path in given.pem for certificate in blocks(path)]
        given.out.write_bytes(packed(bundle(certificates, given.host, given.at)))
    except (Malformed, OSError) as wrong:
        sys.exit(f"pem.py: {wrong}")


if __name__ == "__main__":
    main()
