"""The proofs that the tables of crate lines know the refusals that crate sound states: each line of a table by the law that says what its test means, in the order of the table."""

from sheets import page


def plain(case):
    """A case with where (r) and what (h) is wrong: as a pattern, as what the law takes, and made from y, what the law gives."""
    return f"{case} e r h", "(r, h)", f"{case} e y.0 y.1"


def mark(name, word):
    return f"mark_over m ({name} d) e r h", "(rw d at r, h)", f"mark_over {word} ({name} refl) e y.0 y.1"


def listed(k):
    number = "zero"
    for _ in range(k):
        number = f"(suc {number})"
    return f"list_out {number} k e r h", "(r, h)", f"list_out {k} (omega arith) e y.0 y.1"


HOST_HIGH = "host_high e d t h", "(d, (t, h))", "host_high e y.0 y.1.0 y.1.1"
DENIED = "extensions_denied m k e r h", "(m, k, r, h)", "extensions_denied y.0 y.1 e y.2 y.3"
# what both bundles share is tabled apart
STRING = None, None, "shared (string_out e y.0 y.1)"

MARKS = {"aki": 15, "ski": 19, "eku": 21, "bc": 24, "ku": 28, "san": 30, "nc": 33, "policies": 38, "aia": 39}

# Of each line: the law, and the cases that it stands for.
CHAIN = [
    ("host_out_law w b p 13", [plain("host_out")]),
    ("string_out_law w b p strings 0", [STRING]),
    ("number_out w b p attributes 0", [plain("oid_out")]),
    ("number_out w b p attributes 1", [plain("value_out")]),
    ("range_out w b p rdns 0 attributes", [plain("rdn_out")]),
    ("name_out_law w b p", [plain("dns_out"), plain("directory_out"), plain("ip_out")]),
    ("number_out w b p certs 0", [plain("fingerprint_out")]),
    ("number_out w b p certs 2", [plain("serial_out")]),
    ("number_out w b p certs 3", [plain("outer_signature_out")]),
    ("number_out w b p certs 4", [plain("inner_signature_out")]),
    ("optional_out w b p certs 13", [plain("issuer_uid_out")]),
    ("optional_out w b p certs 14", [plain("subject_uid_out")]),
    ("part_optional_out w b p 15 16", [plain("aki_key_id_out")]),
    ("part_optional_out w b p 15 17", [plain("aki_issuer_out")]),
    ("part_optional_out w b p 15 18", [plain("aki_serial_out")]),
    ("part_number_out w b p 19 20", [plain("ski_key_id_out")]),
    ("range_out w b p certs 7 rdns", [plain("issuer_out")]),
    ("range_out w b p certs 9 rdns", [plain("subject_out")]),
    ("part_range_out w b p 21 22 usages", [plain("eku_usages_out")]),
    ("part_range_out w b p 30 31 names", [plain("san_names_out")]),
    ("part_range_out w b p 33 34 names", [plain("permitted_out")]),
    ("part_range_out w b p 33 36 names", [plain("excluded_out")]),
    ("code_over w b p names 0 4", [plain("kind_over")]),
    ("code_over w b p usages 0 7", [plain("usage_over")]),
    ("code_over w b p certs 1 4294967295", [plain("version_over")]),
    ("code_over w b p certs 11 2", [plain("key_over")]),
    ("part_code_over w b p 24 25 1", [plain("ca_over")]),
    ("part_code_over w b p 24 26 1", [plain("has_length_over")]),
    ("part_code_over w b p 28 29 511", [plain("ku_bits_over")]),
    ("extensions_wrong_law w b p", [plain("extensions_over"), DENIED]),
    *[(f"code_over w b p certs {word} 3", [mark(name, word)]) for name, word in MARKS.items()],
    ("host_high_law w b p 13", [HOST_HIGH]),
    ("text_high w b p attributes 1", [plain("value_high")]),
    ("dns_high_law w b p", [plain("dns_high")]),
    ("purpose_other w b p 14", [plain("other_purpose")]),
]
LISTS = 9
POLICY = [
    ("string_out_law w b p strings 0", [STRING]),
    ("number_out w b p entries 0", [plain("entry_out")]),
    *[(f"list_out_law w b p entries {5 + 2 * k}", [listed(k)]) for k in range(LISTS)],
    ("entry_high w b 0 p", [plain("public_suffix_high")]),
    ("entry_high w b 6 p", [plain("india_domain_high")]),
    ("entry_high w b 8 p", [plain("anssi_domain_high")]),
]


def one_of(cases):
    """The case that a law gives, of several by `⊎`."""
    first, *rest = [f"(λ y. {case[2]})" for case in cases]
    return first if not rest else f"(⊎_elim {first} {one_of(cases[1:])})"


def chosen(k, many, value):
    """What a law takes for the k-th of its cases."""
    if many == 1:
        return value
    return f"(inl {value})" if k == 0 else f"(inr {chosen(k - 1, many - 1, value)})"


def stated(lines):
    for law, cases in lines:
        case = f"{one_of(cases)} (({law}).0 x)" if len(cases) > 1 else f"let y = ({law}).0 x in {cases[0][2]}"
        yield f"      each Says (λ n p e x. {case}) ("
    yield "      none Says" + ")" * len(lines)


def tabled(name, lines):
    for k, (law, cases) in enumerate(lines):
        for j, (pattern, value, _) in enumerate(cases):
            if pattern:
                yield f"  {name} n p ({pattern}) = at_line {k} (omega arith) e (({law}).1 {chosen(j, len(cases), value)})"


# what both bundles share goes by a law of its own
SHARED = "  {bundle}_tabled n p (shared f) = shared_tabled ({bundle}_layout w b) w b n p {large} (member nowhere {bundle}_lines {string} (omega arith)) f"


def file(bundle, lines, large, first, last):
    """The two halves: each line of the table is stated, each case that is stated is tabled. `first` and `last` are cases without a line."""
    fault = f"{bundle.capitalize()}Fault"
    string = [law for law, _ in lines].index("string_out_law w b p strings 0")
    body = f"""
module _ (w b : List ℕ) where
  abbrev Says : Line → Type 0
  Says l = (n p : ℕ) → n ≡ l.number → InLine w b l p → {fault} w b n p

  pub {bundle}_lines_law : (l : Line) → Memᴰ l {bundle}_lines → Says l
  {bundle}_lines_law =
{chr(10).join(stated(lines))}

  at_line : {{n p : ℕ}} (k : ℕ) → k < length {bundle}_lines → n ≡ (get_or {bundle}_lines k nowhere).number → InLine w b (get_or {bundle}_lines k nowhere) p → TableFault ({bundle}_layout w b) w b n p
  at_line = line_tabled ({bundle}_layout w b) w b

  pub {bundle}_tabled : (n p : ℕ) → {fault} w b n p → TableFault ({bundle}_layout w b) w b n p
{chr(10).join([SHARED.format(bundle=bundle, large=large, string=string), *first, *tabled(bundle + '_tabled', lines), *last])}
"""
    says = f"-- The lines of the {bundle}'s tables and the cases of `{fault}`, one by one. Written by tools/stated.py. Assumes nothing."
    return page(says, uses(fault, lines), body)


def uses(fault, lines):
    """What either file may import."""
    laws = dict.fromkeys(law.split()[0] for law, _ in lines)
    cases = dict.fromkeys(pattern.split()[0] for _, cases in lines for pattern, _, _ in cases if pattern)
    return [
        "Prim.Native.Nat.{ℕ, zero, suc, ◌<◌}",
        "native.Mathlib.Omega.{arith}",
        "mathlib.Core.Path.{◌≡◌, refl}",
        "mathlib.Core.Logic.{inl, inr, ⊎_elim}",
        "mathlib.Core.List.{List, Memᴰ}",
        "lib.ListN.{length, get_or}",
        "Rattle.table.specs.Table.{strings}",
        "Rattle.model.specs.Sections.{attributes, rdns, names, usages, certs, entries}",
        "Rattle.search.specs.declared.Line.{Line}",
        "Rattle.lines.specs.Tables.{chain_lines, policy_lines}",
        "Rattle.sound.specs.Shared.{string_out}",
        f"Rattle.sound.specs.{fault}.{{{', '.join([fault, 'shared', 'many_certs', *MARKS, *cases])}}}",
        "Rattle.sound.proofs.Tables.{InLine, chain_layout, policy_layout, TableFault, size}",
        f"Rattle.sound.proofs.Means.{{{', '.join(laws)}}}",
        "Rattle.sound.proofs.Shared.{each, none, nowhere, member, line_tabled, shared_tabled, chain_large}",
    ]


MANY = "  chain_tabled n p (many_certs e d k h) = size e d ((chain_large w b).1 (inr h))"
NO_LIST = f"  policy_tabled n p (list_out {'(suc ' * LISTS}k{')' * LISTS} l e r h) = absurd (omega arith)"


def files():
    return {
        "crates/sound/proofs/ChainLines.antt": file("chain", CHAIN, "(λ t. (chain_large w b).1 (inl t))", [MANY], []),
        "crates/sound/proofs/PolicyLines.antt": file("policy", POLICY, "(λ t. t)", [], [NO_LIST]),
    }
