#!/usr/bin/env python3
"""audit.py [ROOT]: what docs/AUDIT.md promises of every public function, held to the sources. It prints each gap and fails if there is one.

- A public function has a row, an `ensures` and no `requires`, but for those in UNSTATED. Its row quotes each clause, as `quoted` writes it, and names two wrong bodies; the edits that stand
  in bold are in a must-fail folder. A row has its function, and an edit its row or its mention.
- A conversion, a `From` or `TryFrom` of a library, has a row too, which quotes its law.
- A parameter that is a plain number stands in NUMBERS: what names a string, a certificate or a rule has a type of its own.
- No definition in specs/ gives a symbol of the library a meaning of its own.
- No must-fail edit only unfits its proof file: one whose new text names what isn't there, `rt ci` calls a bad edit, and .ci/run lets none pass; one that takes a
  name away which a proof file cites, it calls refused with a remark, and that remark must not stand in the last run's log, which .ci/run keeps in target/."""
import pathlib
import re
import sys

TOP = pathlib.Path(sys.argv[1] if sys.argv[1:] else pathlib.Path(__file__).resolve().parent.parent)
AUDIT = "docs/AUDIT.md"

# Functions that take plain numbers, and what these are: none names a string, a certificate or a rule.
NUMBERS = {
    "ascii::byte_table::entry_in": {"x": "a byte"},
    "ascii::lower": {"x": "a byte"},
    "ascii::class_of": {"x": "a byte"},
    "ascii::has_class": {"class": "a class of bytes"},
    "table::word": {"at": "the place of a word"},
    "table::cut": {"start": "a place in the bytes", "len": "a length"},
    "table::field": {"n": "a row of any section", "j": "the place of a word in a row"},
    "table::two_fields": {"n": "a row of any section", "j": "the place of a word in a row"},
    "table::string_named": {"n": "a row of any section", "j": "the place of a word in a row"},
    "table::clip": {"first": "a row of any section", "n": "a count of rows", "rows": "a count of rows"},
    "model::chain::rows_in": {"first": "a row of any section", "n": "a count of rows"},
    "model::chain::rows_named": {"n": "a row of any section", "j": "the place of a word in a row"},
    "model::chain::optional_string": {"word": "a word of a bundle"},
    "certs::cert_word": {"j": "the place of a word in a row"},
    "certs::cert_string": {"j": "the place of a word in a row"},
    "certs::cert_range": {"j": "the place of a word in a row"},
    "certs::signed": {"word": "a word of a bundle"},
    "fields::key_level::check_cert_key_level": {"least": "a count of bits"},
    "calendar::Calendar::span_valid": {"begin": "a date", "end": "a date"},
    "view::word": {"j": "the place of a word in a row"},
    "view::some_word": {"j": "the place of a word in a row", "x": "a word of a bundle"},
    "sections::is_misplaced": {"header": "a count of words"},
    "row_tests::no_string": {"p": "the place of a word"},
    "row_tests::ends_past": {"first": "a row, or a place in the bytes", "n": "a count or a length", "count": "a count or a length"},
    "row_tests::no_range": {"p": "the place of a word"},
    "row_tests::string_out": {"p": "the place of a word"},
    "row_tests::number_high": {"p": "the place of a word"},
    "row_tests::is_wrong": {"q": "the place of a row's first word", "j": "the place of a word in a row"},
    "data_file::read_words": {"n": "a count of words"},
    "data_file::read_bytes": {"n": "a count of bytes"},
    "data_file::words_to": {"n": "a count of words"},
    "rules::Case::any_breaks": {"to": "a count of certificates"},
    "writers::write_report": {"n": "a count of certificates"},
    "faults::without": {"n": "a count of certificates", "k": "a count of certificates"},
}
# Functions of which no contract can say anything, and why.
UNSTATED = {"data_file::open": "what a file gives, and whether it is there, no contract can say"}

INTEGER = re.compile(r"^(u8|u16|u32|u64|usize|i64)$")

# What the library means by a symbol, no definition may change.
SYMBOLS = set("◌≡◌ ◌≢◌ ◌<◌ ◌≤◌ ◌+◌ ◌-◌ ◌*◌ ◌/◌ ◌%◌ ◌^◌ ◌++◌ ◌∷◌ ◌&&◌ ◌||◌ ◌==◌ ◌⊎◌ ◌↔◌ if◌then◌else◌".split())
SYMBOLS |= set("length take drop get_or map not true false leb ltb eqb".split())

FUNCTION = re.compile(r'^( *)pub (?:extern "C" )?fn (\w+)(?:<[^(]*>)?\((.*?)\)([^\n]*\{$|.*?\n\1\{)', re.DOTALL | re.MULTILINE)
CONVERSION = re.compile(r"^impl (From|TryFrom)<(\w+)> for (\w+) \{\n(.*?)^\}", re.DOTALL | re.MULTILINE)
LAW = re.compile(r"^    ghost (from|try_from)_gives = \{(.*?)\};$", re.MULTILINE)
CLAUSE = re.compile(r"^ *ensures \{(.*?)\}$", re.DOTALL | re.MULTILINE)
DEFINED = re.compile(r"^\s*(?:(?:pub|abbrev|unfoldable|opaque|record|data) )*(\S+)\s*(?:[({].*[)}])?\s*:(?=\s)", re.MULTILINE)
ROW = re.compile(r"^\| `([\w:<> ]+)` \|(.*)\|$", re.MULTILINE)
BOLD = re.compile(r"\*\*(\w+)\*\*")
UNFIT = re.compile(r"^rt: must-fail (\S+): refused, as it must be \(only because a proof file names what the edit took away", re.MULTILINE)


def crates():
    for line in (TOP / "crates.txt").read_text().splitlines():
        if line and not line.startswith("#"):
            yield line.split(":")[0].split()[0]


def path_of(crate, file, text, at):
    """The name of a function, by which a caller names it."""
    inner = [] if file.stem in ("lib", "main") else list(file.relative_to(TOP / "crates" / crate / "src").with_suffix("").parts)
    kind = re.findall(r"^impl (\w+)(?:<'_>)? \{", text[:at], re.MULTILINE)
    return "::".join([crate, *inner, *(kind[-1:] if text[at] == " " else [])])


def functions():
    """Each public function: its name, its parameters, and what stands between them and its body."""
    for crate in crates():
        for file in sorted((TOP / "crates" / crate / "src").rglob("*.rt")):
            text = file.read_text()
            for found in FUNCTION.finditer(text):
                yield f"{path_of(crate, file, text, found.start())}::{found[2]}", found[3], found[4]


def conversions():
    """Each conversion of a library, by the name that a caller could write for it, and its law, or None."""
    for crate in crates():
        for file in sorted((TOP / "crates" / crate / "src").rglob("*.rt")):
            if file.stem != "main":
                for trait, given, made, body in CONVERSION.findall(file.read_text()):
                    law = LAW.search(body)
                    call = "from" if trait == "From" else "try_from"
                    yield f"{crate}::<{made} as {trait}<{given}>>::{call}", law and quoted(law[2])


def parameters(text):
    for part in text.split(","):
        if ":" in part:
            name, kind = part.split(":", 1)
            yield name.strip(), kind.strip()


def quoted(clause):
    """A clause as its row quotes it: what is lent stands for what it holds, with a stroke for what it holds at the end."""
    return re.sub(r"\.(now|old|entry)\b", "", re.sub(r"\.new\b", "'", " ".join(clause.split())))


def edits():
    """Each edit by its name, which no other has."""
    kept = {}
    for edit in sorted([*TOP.glob("crates/*/must-fail/*.edit"), *TOP.glob("crates/*/mixed/*.edit")]):
        if edit.stem in kept:
            sys.exit(f"two edits are called {edit.stem}: rename one")
        kept[edit.stem] = edit
    return kept


def function_gaps(rows, kept):
    seen = set()
    for name, takes, contract in functions():
        if name in UNSTATED:
            continue
        seen.add(name)
        if "ensures" not in contract:
            yield f"{name} has no ensures"
        if "requires" in contract:
            yield f"{name} has a requires"
        for parameter, kind in parameters(takes):
            if INTEGER.match(kind) and parameter not in NUMBERS.get(name, {}):
                yield f"{name}: `{parameter}` is a bare {kind}; give it a type of its own, or say in tools/audit.py what number it is"
        if name not in rows:
            yield f"{name} has no row in {AUDIT}"
        else:
            yield from row_gaps(name, rows[name], kept)
            yield from (f"{name}: its row doesn't quote `{due}`" for due in map(quoted, CLAUSE.findall(contract)) if f"`{due}`" not in rows[name])
    for name, law in conversions():
        seen.add(name)
        if law is None:
            yield f"{name} has no law that says what it gives"
        elif name not in rows:
            yield f"{name} has no row in {AUDIT}"
        else:
            yield from row_gaps(name, rows[name], kept)
            if f"`{law}`" not in rows[name]:
                yield f"{name}: its row doesn't quote `{law}`"
    for name in rows.keys() - seen:
        yield f"{AUDIT} has a row for {name}, and there is no such public function"


def row_gaps(name, row, kept):
    cells = [cell.strip() for cell in row.split("|")]
    if len(cells) != 3 or not all(cells):
        yield f"{name}: its row wants a contract, why there is one answer, and wrong bodies"
        return
    named = BOLD.findall(cells[2])
    if not named:
        yield f"{name}: its row names no edit that is kept"
    for edit in named:
        if edit not in kept:
            yield f"{name}: there is no edit {edit}"
    if len(re.findall(r"[.,](?: |$)", cells[2])) < 2:
        yield f"{name}: its row names fewer than two wrong bodies"


def edit_gaps(text, kept):
    for edit in sorted(kept):
        if f"**{edit}**" not in text:
            yield f"the edit {kept[edit].relative_to(TOP)} is not named in {AUDIT}"


def symbol_gaps():
    for file in sorted(TOP.glob("crates/*/specs/*.antt")):
        for name in DEFINED.findall(file.read_text()):
            if name in SYMBOLS:
                yield f"{file.relative_to(TOP)} gives {name} a meaning of its own"


def log_gaps():
    log = TOP / "target" / "rt_ci.log"
    for edit in UNFIT.findall(log.read_text(errors="replace") if log.exists() else ""):
        yield f"the edit {edit} only unfits its proof file"


def main():
    text = (TOP / AUDIT).read_text()
    kept = edits()
    gaps = [*function_gaps(dict(ROW.findall(text)), kept), *edit_gaps(text, kept), *symbol_gaps(), *log_gaps()]
    for gap in gaps:
        print(gap)
    if gaps:
        sys.exit(f"{len(gaps)} gaps in the audit")


main()
