"""The proofs of the functions that write a report: the turns over places and over rules, the writers of one entry, of one rule and of a whole
report, and the tables by a rule's number.

What each crate that has tables lends, and its tables, are a row of TABLES; what differs from one run of turns to another is a row of TURNS."""

from sheets import sheet, sheets

# The crates that have the tables. specs: where their definitions stand. opens: what has to be seen through to see the test's cases, in the crate that has it. arms: for each function that goes by
# a rule's number the definition that it computes, and by the number the function that each arm calls (None: a value). policies: for each function that goes by the policy the
# function that each arm calls; the definition is named where it has to be seen through.
TABLES = {
    "policies": {
        "specs": "Rattle.policies.specs.Tables",
        "arms": {
            "openssl_places": ("open_ssl_places", dict.fromkeys(range(2, 16))),
            "chrome_places": ("chrome_places", dict.fromkeys([*range(2, 7), *range(8, 21)])),
        },
        "policies": {"places_of": ("places_of", ["openssl_places", "chrome_places"])},
    },
    "rules": {
        "opens": "broken",
        "specs": "Rattle.rules.specs.Rules",
        "arms": {
            "Case::holds_at": (
                "holds_at",
                {
                    2: "check_cert_time",
                    3: "outer_inner_sig_match",
                    4: "issuer_subject_uid_version",
                    5: "key_usage_non_empty",
                    6: "key_holds",
                    7: "check_auth_subject_key_id",
                    8: "purpose_holds",
                    9: "check_ca",
                    10: "path_length_holds",
                    11: "check_san",
                    12: "empty_subject_implies_critical_san",
                    15: "host_holds",
                    16: "valid_dns_name_constraints",
                    18: "not_in_crl",
                    19: "valid_root_fingerprint",
                },
            ),
            "Case::holds_between": ("holds_between", {13: "likely_issued", 14: "constraints_hold", 17: "duration_holds"}),
        },
        "policies": {
            "Case::purpose_holds": (None, ["check_purpose", "extended_key_usage_valid"]),
            "Case::constraints_hold": (None, ["check_name_constraints", "check_name_constraints-in-Chrome"]),
            "Case::host_holds": (None, ["host_named", "host_named-in-Chrome"]),
        },
    },
}

# Where a run of turns has nothing to do: the law that nothing is owed then, and how it is told.
EACH_EARLY = ("not-any_breaks", "each_unbroken _ _ _ _ _ c.any_breaks.ensures (ap not c.if-not-any_breaks.true)")
ROW_EARLY = ("asks_nothing", "row_unasked _ _ _ _ _ _ (sym c.asks_nothing.ensures ∙ c.if-asks_nothing.true)")

# The test of a rule at a spot, and the rule, as a turn's closure has them; and the policy's places.
T, R = "(broken_by a.write.0.now)", "a.write.1.now.0"
PLACES = "(places_of a.write.0.now.policy k)"

# What turn k writes, what has to be seen through at the end, and what is asked before the turns.
TURNS = {
    "write_each": {"turn": f"asked {T} {R} (certificate k)", "early": EACH_EARLY},
    "write_neighbours": {"turn": f"asked {T} {R} (pair k (k + 1))"},
    "write_row": {"turn": f"asked {T} {R} (pair a.write.2.now.0 k)", "opens": "row", "early": ROW_EARLY},
    "write_pairs": {"turn": f"row {T} {R} k k"},
    "write_rules": {"turn": f"entries_at {T} {PLACES} k a.write.1.now", "opens": "index"},
}

# The cases of a rule's places: the writer that each calls, and what it takes besides that the writer's entries don't name.
CASES = {
    "Leaf": ("write_one", None),
    "Root": ("write_one-in-Root", "without-last"),
    "LeafAndRoot": ("write_one-in-LeafAndRoot", "without-last"),
    "Each": ("write_each", "without"),
    "Neighbours": ("write_neighbours", "without-last"),
    "Pairs": ("write_pairs", "without-in-Pairs"),
}


def proof(crate, function, says, uses, answers, invariants=None):
    return sheets(crate, function, f"-- {says} Written by tools/reports.py. Assumes nothing.", uses, answers, invariants)


TURN_USES = [
    "Rattle.std.proofs.Common.{rules}",
    "Prim.Native.Nat.{◌+◌}",
    "native.Mathlib.Omega.{arith}",
    "mathlib.Core.Path.{sym, ap, ◌∙◌}",
    "mathlib.Core.Bool.{not}",
    "contract.BorrowLft.{⊑_meet, ⊑_static}",
    "Rattle.faults.specs.Report.{certificate, pair}",
    "Rattle.faults.specs.Index.{asked, row, entries_at, index}",
    "Rattle.policies.specs.Tables.{places_of}",
    "Rattle.rules.specs.Rules.{broken_by}",
    "Rattle.writers.proofs.Laws.{each_unbroken, row_unasked}",
]


def turns(function, kind):
    """A run of turns: what each may be asked, what it writes, and that nothing else is lent for longer."""
    asked, early = kind.get("early", (None, None))
    lent = "search (⊑_meet, ⊑_static, within.0, within.1.0, within.1.1.0) depth 14 fits 20000"
    answers = {
        **({f"returns-then-{asked}": early} if asked else {}),
        "write_turns-requires": f"λ κs within. ({lent}, (λ i s l. search (rules, arith), λ i s t s' e. search rules))",
        **({"returns": (kind["opens"], "search rules")} if "opens" in kind else {}),
    }
    home, head = f"Rattle.writers.proofs.{function}.Given", "-- What each turn writes. Written by tools/reports.py. Assumes nothing."
    pick = sheet(head, TURN_USES, home, ("abbrev pub", "a"), {"ghost-write_turns": f"λ k. {kind['turn']}"})
    return proof("writers", function, "Each turn writes its part.", TURN_USES, answers) | {f"crates/writers/proofs/{function}/Invariants.antt": pick}


def table(crate, row, function, definition, arms):
    """A `match` on a rule's number: each arm is a line of the definition, and `_` is past them all."""
    gives = lambda arm: f" c.{arm}.ensures" if arm else ""
    answers = {f"returns-in-{rule}": (f"{definition} when", f"rw c.in-{rule}.is{gives(arm)}") for rule, arm in arms.items()}
    past = len(arms) * ["other _ _ (λ e. omega arith) ("]
    answers["returns-in_default"] = (definition, "\n    ".join(["", *past, "refl" + len(arms) * ")"]))
    uses = [
        "native.Mathlib.Omega.{arith}",
        "mathlib.Core.Path.{refl}",
        "Rattle.faults.specs.Places.{when}",
        "Rattle.faults.proofs.Laws.{other}",
        f"{row['specs']}.{{{definition}}}",
    ]
    return proof(crate, function, "Each arm is a line of the table.", uses, answers)


def by_policy(crate, row, function, definition, calls):
    """A `match` on the policy: each case calls its own function."""
    answers = {
        f"returns-in-{variant}": (definition, f"rw c.in-{variant}.is c.{call}.ensures")
        for variant, call in zip(["OpenSsl", "Chrome"], calls)
    }
    uses = [f"{row['specs']}.{{{definition}}}"] if definition else []
    return proof(crate, function, "Each policy has its own.", uses, answers)


def write_rule():
    """The writer of one rule: a `match` on its places."""
    places = "← c.places_of.ensures"
    answers = {"returns-in-Nowhere": ("entries_at", f"rw ({places}, c.in-Nowhere.is) (wrote_none _)")}
    for case, (call, taken) in CASES.items():
        steps = [places, f"c.in-{case}.is"] + ([f"← c.{taken}.ensures"] if taken else [])
        answers[f"returns-in-{case}"] = ("entries_at", f"rw ({', '.join(steps)}) c.{call}.ensures")
    uses = ["Rattle.faults.specs.Index.{entries_at}", "Rattle.faults.proofs.Laws.{wrote_none}"]
    return proof("writers", "write_rule", "Each case of the places has its writer.", uses, answers)


def breaks(crate, row):
    """Whether a rule is broken at a spot: nowhere, at one certificate, between two."""
    test = row["opens"]
    answers = {
        "returns-in-Nothing": (test, "rw c.in-Nothing.is"),
        "returns-in-Certificate": (test, "rw c.in-Certificate.is c.breaks_at.ensures"),
        "returns-in-Pair": (test, "rw c.in-Pair.is c.breaks_between.ensures"),
    }
    uses = [f"{row['specs']}.{{{test}}}"]
    return proof(crate, "Case::breaks", "Each kind of spot has its table.", uses, answers)


def write_one():
    """One test, and one entry where it holds."""
    answers = {"returns": ("asked", "rw (← c.breaks.ensures) c.put.ensures")}
    return proof("writers", "write_one", "One test, and one entry where it holds.", ["Rattle.faults.specs.Index.{asked}"], answers)


def files():
    made = write_one() | write_rule()
    for crate, row in TABLES.items():
        if "opens" in row:
            made |= breaks(crate, row)
        for function, (definition, arms) in row["arms"].items():
            made |= table(crate, row, function, definition, arms)
        for function, (definition, calls) in row["policies"].items():
            made |= by_policy(crate, row, function, definition, calls)
    for function, kind in TURNS.items():
        made |= turns(function, kind)
    return made
