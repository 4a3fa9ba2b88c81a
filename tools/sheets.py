"""The files of a proof: in proofs/FUNCTION/ the Invariants.antt, which says what loops keep and what gets less, and the Answers.antt,
which answers the goals. Each imports what it names, of the imports that a maker lists for both."""
import re


def says(name, text):
    """Whether a text says a name, an operator's sign for ◌-◌."""
    if name.startswith("◌"):
        return re.search(rf"\s{re.escape(name.strip('◌'))}\s", text)
    return re.search(rf"(?<![\w.'-]){re.escape(name)}(?![\w'-])", text)


def imports(uses, text):
    """Of each import MODULE.{NAMES} the names that a text says, the others and the empty imports left out."""
    for use in uses:
        module, names = use.rstrip("}").split(".{")
        if kept := [name for name in names.split(", ") if says(name, text)]:
            yield f"use {module}.{{{', '.join(kept)}}}"


def page(head, uses, body, *more):
    """A file: what it says of itself, those of the imports that it uses, more imports, and what stands below them."""
    return "\n".join([head, *imports(uses, body), *more]) + "\n" + body


def sheet(head, uses, goals, form, items):
    """The file of some goals, whose items have one form: how they are declared, and their variable. An item has its goal's name, and is
    what stands for it, or a pair with what is unfolded for it; a text that begins with a line break stands below its name."""
    parts = []
    for name, item in items.items():
        opens, item = item if isinstance(item, tuple) else (None, item)
        unfolding = f"unfolding {opens}\n" if opens else ""
        parts.append(f"\n{form[0]} {name} : goal.{name}\n{unfolding}{name} {form[1]} ={'' if item.startswith(chr(10)) else ' '}{item}\n")
    return page(head, uses, "".join(parts), f"use {goals} as goal")


def sheets(crate, function, head, uses, answers, invariants=None):
    """The files of a function by their paths. A function of a module goes by MODULE::FUNCTION."""
    home = f"Rattle.{crate}.proofs.{function.replace('::', '.')}"
    folder = f"crates/{crate}/proofs/{function.replace('::', '/')}"
    made = {f"{folder}/Answers.antt": sheet(head, uses, f"{home}.Goals", ("pub", "c"), answers)}
    if invariants:
        made[f"{folder}/Invariants.antt"] = sheet(head, uses, f"{home}.Given", ("abbrev pub", "l"), invariants)
    return made
