#!/usr/bin/env python3
"""respell.py: gives the repository's own definitions and lemmas the spelling of today's Rattle: words in snake case, types and modules in camel case.

Run once at the top, after the toolchain's own scripts for an older repository and before any edit by hand:
python3 tools/respell.py
A name is own if a file of specs/ or proofs/ of this repository declares it. Functions of src/, exported names, strings, inputs and
outputs keep theirs. It stops, and writes nothing, where two own names would fall together in one file."""
import collections
import pathlib
import re
import sys

TOP = pathlib.Path(__file__).resolve().parent.parent
NAME = r"[^\s(){}.;,@\"«»\[\]\\:`|]+"
TOKEN = re.compile(r"--[^\n]*|//[^\n]*|\"(?:[^\"\\\n]|\\.)*\"|" + NAME)
DECLARED = re.compile(r"\s*(?:(?:abbrev|unfoldable|opaque|pub) )*(?:(?:data|record|ruleset) )?(" + NAME + r")(?: [({].*?[)}])*\s*:(?:\s|$)")
ALIAS = re.compile(r"[{,] ?[^\s{},]+ as ([^\s{},]+)")
IMPORT = re.compile(r"^\s*(?:pub )?use ([^\s{;]+?)\.?\{([^}]*)\}|^ghost use ([^\s{;]+?)\.?\{([^}]*)\}", re.M)


# Names that the toolchain's own scripts had turned, and that a definition would meet: in which file, and what they are called now.
APART = {
    "crates/decoded/proofs/Codes.antt": {"flag_word": "flag_word_law", "signed_word": "signed_word_law"},
    "crates/decoded/proofs/Same.antt": {"flag_word": "flag_word_law", "signed_word": "signed_word_law"},
    "crates/sound/proofs/Means.antt": {"name_out": "name_out_law"},
    "crates/sound/proofs/ChainLines.antt": {"name_out": "name_out_law"},
    "crates/rules/proofs/Laws.antt": {"asks_nothing": "asks_nothing_law"},
    "crates/writers/proofs/Laws.antt": {"asks_nothing": "asks_nothing_law"},
}


def snake(name):
    """any-index, isDot: any_index, is_dot. A name that begins with a capital is a type's, and stays."""
    if not re.match(r"[a-z]", name):
        return name
    name = re.sub(r"(?<=[a-z0-9])([A-Z]+)(?=[A-Z][a-z])", lambda m: "_" + m.group(1).lower(), name)
    name = re.sub(r"([A-Z]+)", lambda m: "_" + m.group(1).lower(), name)
    return name.replace("-", "_")


def texts(pattern):
    return sorted(p for p in TOP.glob(pattern) if "out" not in p.relative_to(TOP).parts)


def of_proof(path):
    """Whether a file is a walk of one function, whose own names are those that the prover made."""
    return path.name == "Proof.antt"


def declared():
    """Each name that a file of specs/ or proofs/ declares, its fields and cases with it."""
    names = set()
    for path in texts("crates/*/specs/**/*.antt") + texts("crates/*/proofs/**/*.antt"):
        if of_proof(path):
            continue
        text = path.read_text()
        names |= set(ALIAS.findall(text))
        for line in text.splitlines():
            found = DECLARED.match(line.split(" -- ")[0])
            if found and not line.lstrip().startswith("--"):
                names.add(found.group(1))
    return {name for name in names if snake(name) != name}, names


def respelt():
    """Each own name that changes, with its new spelling. A lemma that would fall together with what it speaks of ends in _law."""
    names, all_names = declared()
    new = {name: snake(name) for name in names}
    taken = {new.get(name, name): name for name in sorted(all_names) if "-" not in name}
    return {name: to + "_law" if "-" in name and to in taken else to for name, to in new.items()}


def crates():
    return {p.name for p in (TOP / "crates").iterdir()}


def foreign(text, own_crates):
    """The names that a file takes from elsewhere."""
    names = set()
    for found in IMPORT.finditer(text):
        path, listed = (found.group(1), found.group(2)) if found.group(1) else (found.group(3), found.group(4))
        parts = path.split(".")
        if parts[0] == "Rattle" and parts[1] in own_crates and parts[2] in ("specs", "proofs"):
            continue
        names |= {word.strip() for word in listed.split(",") if " as " not in word}
    return names


def turned(text, names):
    def one(found):
        word = found.group(0)
        if word.startswith("--") or word.startswith("//"):
            return word[:2] + re.sub(NAME, comment, word[2:])
        to = names.get(word, word)
        dotted = found.start() and text[found.start() - 1] == "."
        return word if word.startswith('"') or (dotted and to != snake(word)) else to

    def comment(found):
        word = found.group(0)
        return names[word] if word in names and re.search(r"[a-z][A-Z]", word) else word

    return TOKEN.sub(one, text)


def together(path, text, names):
    """The names of a file that would become one."""
    words = collections.defaultdict(set)
    for found in TOKEN.finditer(text):
        word = found.group(0)
        if not word.startswith(("--", "//", '"')):
            words[names.get(word, word)].add(word)
    groups = [group for group in words.values() if len(group) > 1]
    if path.suffix == ".rt":
        bound = set(re.findall(r"[(,]\s*(?:mut )?(\w+):", text))
        groups = [group for group in groups if bound & {names.get(word, word) for word in group}]
    return [f"{path.relative_to(TOP)}: {', '.join(sorted(group))}" for group in groups]


def main():
    names, own = respelt(), crates()
    written, clashes = {}, []
    for pattern in ("specs/**/*.antt", "proofs/**/*.antt", "src/**/*.rt", "must-fail/*.edit", "mixed/*.edit"):
        for path in texts("crates/*/" + pattern):
            text = path.read_text()
            away = foreign(text, own)
            here = {name: to for name, to in names.items() if name not in away and (path.suffix == ".antt" or "-" not in name)}
            here.update(APART.get(str(path.relative_to(TOP)), {}))
            if not of_proof(path):
                clashes += together(path, text, here)
            new = turned(text, here)
            if new != text:
                written[path] = new
    if clashes:
        sys.exit("names that fall together:\n" + "\n".join(clashes))
    for path, text in written.items():
        path.write_text(text)
    print(f"{len(names)} names, {len(written)} files")


if __name__ == "__main__":
    main()
