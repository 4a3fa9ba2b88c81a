#!/usr/bin/env python3
"""places.py [COMMIT]: lists the places that docs/DESIGN-PASS.md counts, in crates/*/src of the working tree or of a commit.

    1  enums, structs that hold a flag beside other fields, and functions that answer with a number for a kind
    2  functions whose bodies are the same but for names, numbers and types
    3  loops that count by hand: `while` over an index, `for` over the numbers of an index
    4  equality, order, conversion and printing written by hand
    5  functions that take words and bytes apart, or permitted and excluded names, or a policy beside two bundles
    6  buffers with a length or a place beside them
    7  matches whose arms only choose what to call
"""
import collections
import pathlib
import re
import subprocess
import sys

TOP = pathlib.Path(__file__).resolve().parent.parent


def sources(commit):
    """Each source file's path and text."""
    if commit is None:
        for path in sorted(TOP.glob("crates/*/src/**/*.rt")):
            yield str(path.relative_to(TOP)), path.read_text("utf8")
        return
    git = lambda *words: subprocess.run(["git", "-C", str(TOP), *words], check=True, capture_output=True).stdout.decode("utf8")
    for path in git("ls-tree", "-r", "--name-only", commit, "crates").split():
        if "/src/" in path and path.endswith(".rt"):
            yield path, git("show", f"{commit}:{path}")


def past(text, at, opens, closes):
    """Where what is bracketed at a place ends, or the place itself where nothing is."""
    depth = text[at] == opens
    while depth:
        at += 1
        depth += {opens: 1, closes: -1}.get(text[at], 0)
        if not depth:
            return at + 1
    return at


def functions(text):
    """Each function's name, parameters, what it answers with, and body."""
    for found in re.finditer(r"^( *)(?:pub )?(?:extern \"C\" )?fn (\w+)", text, re.M):
        start = past(text.replace("->", "  "), found.end(), "<", ">") + 1
        end = past(text, start - 1, "(", ")")
        close = text.index(f"\n{found[1]}}}\n", end)
        head, _, body = text[end:close].partition(f"\n{found[1]}{{\n")
        if not body:
            head, _, body = text[end:close].partition("{\n")
        yield found[2], text[found.end() : end - 1], head.partition("ensures")[0].partition("requires")[0].strip(), body


def shape(body):
    """A body without its names, numbers and comments."""
    body = re.sub(r"//.*", "", body)
    return re.sub(r"\b[A-Za-z_]\w*\b|\b\d+\b", lambda word: word[0] if word[0] in KEYWORDS else "_", re.sub(r"\s+", "", re.sub(r"\b(\w+)::", "", body.replace(" ", "·"))))


KEYWORDS = {"if", "else", "while", "for", "in", "match", "return", "let", "mut", "true", "false", "loop", "as"}
NUMBERS = re.compile(r"^-> (u8|u32|u64|usize)$")
KIND = re.compile(r"kind|number|class|word_of|_first|_second")
BY_HAND = re.compile(r"^(same|goes_before|earlier|sum|without|number|bundle_number|place_\w+|placed|answer_of|print\w*|wide|lower|agree|starts_with|ends_with)$")


def places(path, text):
    """Each place of a file: its point, and what it is."""
    for found in re.finditer(r"^(?:pub )?enum (\w+) \{\n(.*?)^\}", text, re.M | re.S):
        yield 1, f"enum {found[1]} {{ {' '.join(found[2].split())} }}"
    for found in re.finditer(r"^(?:pub )?struct (\w+)[^;{]*\{\n(.*?)^\}", text, re.M | re.S):
        if ": bool" in found[2]:
            yield 1, f"struct {found[1]} holds a flag"
        if re.search(r"\b(at|len|size|count|end|written)\b: ", found[2]):
            yield 6, f"struct {found[1]} {{ {' '.join(found[2].split())} }}"
    for name, parameters, answers, body in functions(text):
        parameters = " ".join(parameters.split())
        if NUMBERS.match(answers) and KIND.search(name):
            yield 1, f"fn {name} answers with a number"
        for loop in re.finditer(r"^\s*(while (?!let).*|for \w+ in \S*\.\..*) \{", body, re.M):
            yield 3, f"fn {name}: {loop[1].strip()}"
        if BY_HAND.match(name):
            yield 4, f"fn {name}"
        if re.search(r"\bwords: &\[u64\], bytes: &", parameters):
            yield 5, f"fn {name} takes words and bytes"
        if re.search(r"\bpermitted: \w+, excluded: ", parameters):
            yield 5, f"fn {name} takes permitted and excluded"
        if "policy: Policy" in parameters and ("words" in parameters or "chain: Lent" in parameters):
            yield 5, f"fn {name} takes a policy beside its bundles"
        for choice in re.finditer(r"^\s*match (.*?) \{\n(.*?)^\s*\}", body, re.M | re.S):
            arms = [arm for arm in re.split(r",\n", choice[2]) if "=>" in arm]
            if len(arms) > 1 and all("(" in arm.partition("=>")[2] for arm in arms):
                yield 7, f"fn {name}: match {choice[1]}"


def twins(files):
    """Functions whose bodies have one shape, together."""
    alike = collections.defaultdict(list)
    for path, text in files:
        for name, _, _, body in functions(text):
            if len(re.findall(r"\w+", body)) >= 14:
                alike[shape(body)].append(f"{path.split('/')[1]}::{name}")
    return [names for names in alike.values() if len(names) > 1]


def main():
    if len(sys.argv) > 2 or sys.argv[1:2] == ["-h"]:
        sys.exit(__doc__)
    files = list(sources(sys.argv[1] if sys.argv[1:] else None))
    found = collections.defaultdict(list)
    for path, text in files:
        for point, what in places(path, text):
            found[point].append(f"{path.split('/')[1]}: {what}")
    found[2] = [", ".join(names) for names in twins(files)]
    for point in sorted(found):
        print(f"{point}: {len(found[point])} places")
        for line in found[point]:
            print(f"    {line}")


main()
