"""The proofs of chains over the rows of a bundle. They differ in names alone: which function, and what is seen through.

    any, all    (r.from..r.to).any(|i| TEST(.., No(i), ..))
    each        if size(x) != size(y) { return false; } (x.from..x.to).zip(y.from..y.to).all(|(i, j)| TEST(.., No(i), No(j)))
    front       if size(y) < size(x) { return false; } the same

A row gives the crate, the function (`module::function` where it stands in one), the kind, and the definition that hides the
list or the test, if there is one. The laws are in crates/laws/proofs/Chains.antt and Pairs.antt."""

from sheets import sheets

GENERALS = "Rattle.model.specs.Decode.{generals_in}"

ROWS = [
    ("names", "same_attrs", "each", "Rattle.names.specs.Names.{same_rdn}"),
    ("names", "same_dn", "each", "Rattle.names.specs.Names.{same_dn}"),
    ("names", "is_subtree_of", "front", "Rattle.names.specs.Names.{is_subtree_of}"),
    ("names", "rdn_has_name", "any", "Rattle.names.specs.Names.{rdn_has_name}"),
    ("names", "has_names", "all", None),
    ("lists", "any_is", "any", "Rattle.lists.specs.Listed.{listed}"),
    ("lists", "any_matches", "any", "Rattle.lists.specs.Listed.{matched}"),
    ("purpose", "any_serves", "any", None),
    ("covering", "any_directory", "any", GENERALS),
    ("covering", "any_ip", "any", GENERALS),
    ("covering_dns", "Rows::any", "any", None),
    ("covering_dns", "any_slow", "any", GENERALS),
    ("constraints", "names_pass", "all", GENERALS),
    ("constrained_o", "attributes_pass", "all", None),
    ("constrained_o", "commons_pass", "all", "Rattle.sans.specs.Sans.{each_common}"),
    ("constrained_c", "rule16::all_valid", "all", GENERALS),
    ("hosts", "any_dns_names", "any", GENERALS),
    ("hosts", "any_common_names", "any", None),
    ("hosts", "any_rdn_names", "any", "Rattle.sans.specs.Sans.{some_common}"),
    ("hosts_c", "any_dns_names", "any", GENERALS),
]
USES = [
    "Rattle.std.proofs.Common.{rules, refl}",
    "Rattle.std.proofs.lemmas.Iterator.{YieldsList-from_range, YieldsList-from_zip}",
    "Rattle.laws.proofs.Chains.{any_over, all_over, each_over, front_over}",
    "Rattle.laws.proofs.Pairs.{each_unequal, front_longer}",
]
# What the closure answers at a row is what the function that it calls ensures.
TELLS = "(λ n b f k. search rules)"
# Which of the two calls of `size` is of x, which of y; the law of sizes that rule the answer out.
SIZES = {"each": ("c.size", "c.size-2", "each_unequal"), "front": ("c.size-2", "c.size", "front_longer")}


def over_one(kind):
    """The answer of a chain over one range."""
    return f"{kind}_over _ _ _ _ _ c.{kind}.ensures.ran (YieldsList-from_range _ _ _ refl refl) {TELLS}"


def over_two(kind, opens):
    """The answers of a chain over two ranges in step."""
    first, second, unlike = SIZES[kind]
    yields = " ".join(f"(YieldsList-from_range _ _ _ c.zip.ensures.{end} refl)" for end in ("first", "second"))
    sizes = f"{first}.ensures {second}.ensures"
    return {
        "returns-then-size": (opens, f"{unlike} _ _ _ _ _ _ _ {sizes} c.if-size.true"),
        "returns": (opens, f"{kind}_over _ _ _ _ _ _ _ _ {sizes} c.if-size.false c.all.ensures.ran (YieldsList-from_zip {yields}) {TELLS}"),
    }


def proof(crate, function, kind, hides):
    opens = hides and hides.rstrip("}").split(".{")[1]
    answers = over_two(kind, opens) if kind in SIZES else {"returns": (opens, over_one(kind))}
    made = sheets(crate, function, "-- Written by tools/chains.py. Assumes nothing.", USES + ([hides] if hides else []), answers)
    if not hides:
        return made
    # `says` sees what is unfolded only where it stands in an answer
    module, name = hides.rstrip("}").split(".{")
    return {path: text.replace("\nuse Rattle." + crate + ".proofs", f"\nuse {module}.{{{name}}}\nuse Rattle.{crate}.proofs", 1) if f"use {hides}" not in text else text for path, text in made.items()}


def files():
    """Each path that this script writes, with what it writes there."""
    return {path: text for row in ROWS for path, text in proof(*row).items()}
