"""Reads DER, the form in which certificates are written: elements of a tag, a length and a content."""
import datetime
from typing import NamedTuple

BOOLEAN, INTEGER, BIT_STRING, OCTET_STRING, OBJECT, UTC_TIME, GENERALIZED_TIME = 1, 2, 3, 4, 6, 23, 24
SEQUENCE, SET = 0x30, 0x31
# Texts whose characters have four or two bytes.
WIDE_TEXTS = {28: "utf-32-be", 30: "utf-16-be"}
CONSTRUCTED = 0x20
TAG_NUMBER = 0x1F
EPOCH = datetime.datetime(1970, 1, 1)


class Malformed(Exception):
    """What is read is not the DER that is due there."""


class Element(NamedTuple):
    tag: int
    content: bytes
    whole: bytes


def context(number, constructed=False):
    """The tag of a field that is numbered by its context."""
    return 0x80 | number | (CONSTRUCTED if constructed else 0)


def element(data):
    """The element that data begin with, and the data behind it."""
    if len(data) < 2 or data[0] & TAG_NUMBER == TAG_NUMBER:
        raise Malformed("an element is cut off or has a long tag")
    length, begin = data[1], 2
    if length == 0x80:
        raise Malformed("an element has no definite length")
    if length > 0x80:
        begin += length - 0x80
        length = int.from_bytes(data[2:begin], "big")
    end = begin + length
    if end > len(data):
        raise Malformed("an element ends past what holds it")
    return Element(data[0], data[begin:end], data[:end]), data[end:]


def elements(data):
    """All elements of a content."""
    found = []
    while data:
        one, data = element(data)
        found.append(one)
    return found


def only(data, tag):
    """The content of the one element that data hold."""
    one, rest = element(data)
    if one.tag != tag or rest:
        raise Malformed(f"one element of tag {tag} is due")
    return one.content


class Fields:
    """The fields of a sequence, taken one after the other."""

    def __init__(self, content):
        self.left = elements(content)

    def take(self, *tags):
        """The next field, which must have one of the tags; any tag will do if none is given."""
        if not self.left or (tags and self.left[0].tag not in tags):
            raise Malformed(f"a field of tag {' or '.join(map(str, tags)) or 'any'} is missing")
        return self.left.pop(0)

    def optional(self, *tags):
        """The next field if it has one of the tags."""
        return self.left.pop(0) if self.left and self.left[0].tag in tags else None

    def end(self):
        if self.left:
            raise Malformed(f"a field of tag {self.left[0].tag} stands where none is due")


def integer(content):
    """A number in two's complement."""
    if not content:
        raise Malformed("a number has no bytes")
    return int.from_bytes(content, "big", signed=True)


def boolean(content):
    if len(content) != 1:
        raise Malformed("a truth value has not one byte")
    return content != b"\0"


def bit_string(content):
    """The bits of a bit string as bytes, without the count of unused bits before them."""
    if not content or content[0] > 7:
        raise Malformed("a bit string doesn't say how many bits it has")
    return content[1:]


def text(value):
    """The bytes of a text; one of wide characters is written as UTF-8."""
    if value.tag not in WIDE_TEXTS:
        return value.content
    try:
        return value.content.decode(WIDE_TEXTS[value.tag]).encode()
    except UnicodeError:
        raise Malformed("a text of wide characters can't be read") from None


def oid(content):
    """An object identifier as dotted text. The first number carries two: 40 times the one, and the other."""
    numbers, number = [], 0
    if not content or content[-1] & 0x80:
        raise Malformed("an object identifier is cut off")
    for byte in content:
        number = number << 7 | byte & 0x7F
        if not byte & 0x80:
            numbers.append(number)
            number = 0
    first = min(numbers[0] // 40, 2)
    return ".".join(map(str, [first, numbers[0] - 40 * first, *numbers[1:]])).encode()


def seconds(time):
    """A time in seconds since 1970. What lies before that is 0."""
    digits = time.content.decode("ascii", "replace").removesuffix("Z")
    if time.tag == UTC_TIME:
        digits = ("19" if digits[:2] >= "50" else "20") + digits
    try:
        moment = datetime.datetime.strptime(digits, "%Y%m%d%H%M%S")
    except ValueError:
        raise Malformed(f"{digits!r} is no time") from None
    return max(0, int((moment - EPOCH).total_seconds()))
