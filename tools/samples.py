#!/usr/bin/env python3
"""samples.py [--check]: writes the sample bundles; with --check it only compares.

A sample is a chain bundle, a policy bundle for Chrome's judge, and the answers and reports that document 01 gives them.
Each bundle has a file in samples/, the pairs stand one after the other in the file that the program `witnesses` reads,
and the answers in the one that its output is held to. Two more chain bundles are written from real certificates in PEM
form."""
import pathlib
import sys
from typing import NamedTuple

import bundles
import packing
import pem
from bundles import A, C, DNS, G, L, R, S, U, listed
from packing import packed, ranges

TOP = pathlib.Path(__file__).resolve().parent.parent
NONE = 65_535

COMMON_NAME = b"2.5.4.3"
SIGNATURE = b"\x2a\x86\x48\x86\xf7\x0d\x01\x01\x0b"
SERVER_AUTH = 0
DIGITAL_SIGNATURE, KEY_CERT_SIGN = 1 << 0, 1 << 5
RSA = 0
VERSION_3 = 2
NOT_CRITICAL, CRITICAL = 2, 3
FROM, NOW, UNTIL = 1_600_000_000, 1_610_000_000, 1_630_000_000


class Cert(NamedTuple):
    """What the certificates of the samples differ in. Key id, serial and, if none is given, fingerprint are made from the name."""

    name: bytes
    issuer: bytes
    ca: bool = False
    hosts: tuple = ()
    permitted: tuple = ()
    excluded: tuple = ()
    until: int = UNTIL
    bits: int = 2048
    given_print: bytes = b""

    @property
    def print(self):
        return self.given_print or b"print of " + self.name


class Sections(packing.Sections):
    """The rows of a sample while it grows."""

    def dn(self, common_name):
        """A distinguished name of one RDN with one attribute."""
        attribute = (self.string(COMMON_NAME), self.string(common_name))
        return self.added(R, [self.added(A, [attribute])])

    def dns(self, names):
        return self.added(G, [(DNS, self.string(name), 0) for name in names])

    def add(self, cert):
        always = {0: self.string(cert.print), 1: VERSION_3, 2: self.string(b"serial of " + cert.name)}
        signed = {3: self.string(SIGNATURE), 4: self.string(SIGNATURE), 5: FROM, 6: cert.until}
        names = ranges({7: self.dn(cert.issuer), 9: self.dn(cert.name)})
        key = {11: RSA, 12: cert.bits}
        rows = bundles.certificate(always, signed, names, key, self.parts(cert), {40: 1})
        self.rows[C].append(rows)

    def parts(self, cert):
        """The words of the parts that a certificate has."""
        words = {19: NOT_CRITICAL, 20: self.string(b"key of " + cert.name), 24: CRITICAL, 25: int(cert.ca), 28: CRITICAL}
        if cert.issuer != cert.name:
            words |= {15: NOT_CRITICAL, 16: self.string(b"key of " + cert.issuer) + 1}
        if cert.ca:
            words |= {29: KEY_CERT_SIGN}
        else:
            words |= {21: NOT_CRITICAL, 29: DIGITAL_SIGNATURE} | ranges({22: self.added(U, [(SERVER_AUTH,)])})
        if cert.hosts:
            words |= {30: NOT_CRITICAL} | ranges({31: self.dns(cert.hosts)})
        if cert.permitted or cert.excluded:
            words |= {33: CRITICAL} | ranges({34: self.dns(cert.permitted), 36: self.dns(cert.excluded)})
        return words


def chain(host, certs):
    """The bundle of a chain, the leaf first."""
    sections = Sections(host)
    for cert in certs:
        sections.add(cert)
    return sections.bundle(NOW)


LEAF = Cert(b"Server", b"Middle CA", hosts=(b"a.com", b"*.a.com"))
MIDDLE = Cert(b"Middle CA", b"Root CA", ca=True, permitted=(b"a.com",), excluded=(b"b.a.com",))
ROOT = Cert(b"Root CA", b"Root CA", ca=True)
REVOKED = b"print of an old server"


def good():
    return chain(b"www.a.com", [LEAF, MIDDLE, ROOT])


def out_of_date_and_weak():
    leaf = LEAF._replace(issuer=ROOT.name, until=NOW - 1, given_print=REVOKED)
    return chain(b"a.com", [leaf, ROOT._replace(bits=1000)])


def leaf_alone():
    return chain(b"www.a.com", [LEAF])


def serial_word():
    """Where the second certificate of the good chain names its serial."""
    return bundles.place(good(), C, 1, 2)


def serial_out():
    """The good chain, but the second certificate's serial is a string that isn't there."""
    return bundles.changed(good(), {serial_word(): bundles.count(good(), S)})


class Real(NamedTuple):
    """A real chain: the PEM file of its name has the certificates."""

    name: str
    host: bytes
    now: int

    def certificates(self):
        return pem.blocks(TOP / f"samples/{self.name}.pem")

    def bundle(self):
        return pem.bundle(self.certificates(), self.host, self.now)


FEBRUARY_2025 = 1_740_304_936
VALID = Real("valid", b"valid.rootca1.demo.amazontrust.com", FEBRUARY_2025)
EXPIRED = Real("expired", b"expired.rootca1.demo.amazontrust.com", FEBRUARY_2025)


def policy():
    """Short lists, for the real chains and for the samples.

    Of the real chains the root is known, and the expired leaf revoked. The root of the samples is on four lists: it is
    known, so the leaf's duration is asked; it is one of Symantec's, with the middle CA as the exception; and it is bound
    to the domain of the samples. The leaf of the broken chain is revoked."""
    root, leaf = VALID.certificates()[-1], EXPIRED.certificates()[0]
    lists = {
        "public_suffix": [b"com", b"*.uk"],
        "crl": [pem.fingerprint(leaf), REVOKED],
        "known_roots": [pem.fingerprint(root), ROOT.print],
        "symantec_roots": [ROOT.print],
        "symantec_exceptions": [MIDDLE.print],
        "india_trusted": [],
        "india_domains": [b"*.gov.in"],
        "anssi_trusted": [ROOT.print],
        "anssi_domains": [b"*.fr", b"*.a.com"],
    }
    return bundles.policy(lists=lists)


def last_entry():
    """Which entry of the lists is the last one, a domain; it has a string of its own, of the same number."""
    return bundles.count(policy(), L) - 1


def policy_with_high_byte():
    """The policy, but its last domain begins with a byte over 127."""
    return bundles.with_high_string(policy(), last_entry())


class Judged(NamedTuple):
    """The answer where the whole report has room, and the words of that report.

    An answer is number, bundle, kind of place, its two values, rule, total, entries written."""

    answer: list
    report: list

    def lent(self, room):
        """The answer and the report where so many words are lent, of which the unwritten ones keep their nines."""
        written = min(len(self.report), room) // 3
        report = self.report[: 3 * written]
        return Judged(self.answer[:7] + [written], report + [UNWRITTEN] * (room - len(report)))


UNWRITTEN = 9
ROOMY, TIGHT = 14, 5
ACCEPTED = Judged([0, 0, 0, 0, 0, 0, 0, 0], [])
TOO_SHORT = Judged([1, 0, 0, 0, 0, 1, 1, 1], [1, NONE, NONE])


def refused(number, bundle, word):
    return Judged([number, bundle, 1, word, 0, 0, 0, 0], [])


class Sample(NamedTuple):
    """The bundles of a chain and of a policy by the names of their files, and what each judge has to say."""

    chain: str
    policy: str
    openssl: Judged
    chrome: Judged


CHAINS = {"broken": out_of_date_and_weak(), "accepted": good(), "short": leaf_alone(), "refused": serial_out()}
POLICIES = {"policy": policy(), "refused_policy": policy_with_high_byte()}
SAMPLES = (
    Sample(
        "broken",
        "policy",
        openssl=Judged([1, 0, 2, 0, 0, 2, 2, 2], [2, 0, NONE, 6, 1, NONE]),
        # Its leaf is on the CRL, and no CA stands between it and a root of Symantec's.
        chrome=Judged([1, 0, 2, 0, 0, 2, 4, 4], [2, 0, NONE, 6, 1, NONE, 18, 0, NONE, 20, 1, NONE]),
    ),
    Sample("accepted", "policy", openssl=ACCEPTED, chrome=ACCEPTED),
    Sample("short", "policy", openssl=TOO_SHORT, chrome=TOO_SHORT),
    Sample("refused", "policy", openssl=refused(5, 0, serial_word()), chrome=refused(5, 0, serial_word())),
    # OpenSSL's judge takes no policy bundle.
    Sample(
        "accepted",
        "refused_policy",
        openssl=ACCEPTED,
        chrome=refused(7, 1, bundles.place(policy(), L, last_entry())),
    ),
)


def pairs():
    """The samples as `witnesses` reads them."""
    return b"".join(listed(CHAINS[sample.chain]) + listed(POLICIES[sample.policy]) for sample in SAMPLES)


def shown(judge, judged):
    """A judgement as `witnesses` writes it."""
    answer, report = (" ".join(map(str, numbers)) for numbers in judged)
    return f"{judge} answer {answer}\nreport {report}\n"


def output():
    """What `witnesses` has to write."""
    for sample in SAMPLES:
        for room in (ROOMY, TIGHT):
            yield shown("OpenSSL", sample.openssl.lent(room))
            yield shown("Chrome", sample.chrome.lent(room))


def files():
    """Each path that this script writes, with what it writes there."""
    real = {chain.name: chain.bundle() for chain in (VALID, EXPIRED)}
    each = {f"samples/{name}.bundle": packed(bundle) for name, bundle in (CHAINS | real | POLICIES).items()}
    program = {"crates/witnesses/data/samples": pairs(), "crates/witnesses/stdout": "".join(output()).encode()}
    return each | program


def main():
    check = sys.argv[1:] == ["--check"]
    if sys.argv[1:] and not check:
        sys.exit(__doc__)
    stale = [name for name, data in files().items() if not (TOP / name).exists() or (TOP / name).read_bytes() != data]
    if check and stale:
        sys.exit("not what tools/samples.py writes (run it and commit): " + ", ".join(stale))
    for name in stale:
        (TOP / name).parent.mkdir(parents=True, exist_ok=True)
        (TOP / name).write_bytes(files()[name])


if __name__ == "__main__":
    main()
