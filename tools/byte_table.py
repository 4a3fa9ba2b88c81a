"""The table of 256 entries of crate `ascii`: for each byte 256 times its class, and its lower-case form.

That the entries are right is proved (crates/ascii/proofs/byte_table/whole) and doesn't rest on this script."""

import textwrap

CLASSES = {
    1: "ABCDEFGHIJKLMNOPQRSTUVWXYZabcdefghijklmnopqrstuvwxyz",
    2: "0123456789",
    3: "-_",
    4: ".",
    5: "*",
    6: " ",
}


def class_of(byte):
    if byte > 127:
        return 7
    return next((number for number, characters in CLASSES.items() if chr(byte) in characters), 0)


def lower(byte):
    return byte + 32 if chr(byte) in CLASSES[1][:26] else byte


ENTRIES = [256 * class_of(byte) + lower(byte) for byte in range(256)]

SOURCE = """// The table of bytes. Written by tools/byte_table.py.
ghost use Rattle.std.specs.Prelude.{◌≡◌, get_or};
ghost use Rattle.ascii.specs.Bytes.{whole_table};

// For each byte its class, times 256, and its lower-case form.
const TABLE: [u16; 256] = [
%s
];

// The whole table. A loop fetches it once.
pub fn whole() -> [u16; 256]
    ensures { result ≡ whole_table }
{
    TABLE
}

// What a table holds for a byte.
pub fn entry_in(table: &[u16; 256], x: u8) -> u16
    ensures { result ≡ get_or table.now x 0 }
{
    table[x as usize]
}
"""


def files():
    """Each path that this script writes, with what it writes there."""
    rows = textwrap.fill(", ".join(map(str, ENTRIES)) + ",", 100, initial_indent="    ", subsequent_indent="    ")
    return {"crates/ascii/src/byte_table.rt": SOURCE % rows}
