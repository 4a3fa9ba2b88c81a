"""What a policy asks, rule by rule: where the entries of each rule stand, and that a chain obeys the rules exactly if no entry is due.

Both say the same line for each rule, so they are written from one table of the rules: the kind of a rule's places, and the test that holds there."""

from sheets import page

# A test of one certificate is of (i), of the pair (i, j), of the leaf (0) or of the root (n - 1).
CERT = "(c.cert i)"
EACH, ABOVE, BELOW, BETWEEN = ("each", 0, 0), ("each", 1, 0), ("each", 0, 1), ("each", 1, 1)

# What both policies ask alike.
BOTH = {
    2: (EACH, f"check_cert_time c.task {CERT}"),
    3: (EACH, f"outer_inner_sig_match {CERT}"),
    4: (EACH, f"issuer_subject_uid_version {CERT}"),
    5: (EACH, f"key_usage_non_empty {CERT}"),
    9: (ABOVE, f"check_ca {CERT}"),
    10: (EACH, f"path_length_holds i {CERT}"),
    11: (EACH, f"check_san {CERT}"),
    12: (("leaf",), "empty_subject_implies_critical_san (c.cert 0)"),
    13: (("neighbours",), "likely_issued (c.cert (i + 1)) (c.cert i)"),
}

# Where each test's definition stands.
HOMES = {
    "check_cert_time": "Rattle.fields.specs.Validity",
    "outer_inner_sig_match": "Rattle.fields.specs.Signatures",
    "issuer_subject_uid_version": "Rattle.fields.specs.Uids",
    "key_usage_non_empty": "Rattle.fields.specs.KeyUsage",
    "check_cert_key_level": "Rattle.fields.specs.KeyLevel",
    "check_auth_subject_key_id": "Rattle.key_ids.specs.KeyIds",
    "check_purpose": "Rattle.purpose.specs.Purpose",
    "extended_key_usage_valid": "Rattle.purpose.specs.Purpose",
    "ServerOrAny": "Rattle.purpose.specs.declared.Serving.TheVariants",
    "check_ca": "Rattle.parts.specs.Ca",
    "path_length_holds": "Rattle.parts.specs.PathLength",
    "check_san": "Rattle.parts.specs.SanNames",
    "empty_subject_implies_critical_san": "Rattle.parts.specs.EmptySubject",
    "likely_issued": "Rattle.issuing.specs.Issuing",
    "valid_dns_name_constraints": "Rattle.constrained_c.specs.Rule16",
    "duration_holds": "Rattle.roots.specs.Duration",
    "not_in_crl": "Rattle.roots.specs.Fingerprints",
    "valid_root_fingerprint": "Rattle.roots.specs.Fingerprints",
    "symantec_holds": "Rattle.roots.specs.Symantec",
}

# variant: the policy's name in the definitions. places: its table. says: how it is called. given: what it takes besides the chain. last: its last rule. without: rules up to that one which it lacks.
POLICIES = {
    "OpenSsl": {
        "says": "OpenSSL",
        "places": "open_ssl_places",
        "obeys": "ObeysOpenSsl c",
        "homes": {"check_name_constraints": "Rattle.constrained_o.specs.Rule14", "host_named": "Rattle.hosts.specs.Hostname"},
        "last": 15,
        "rules": {
            **BOTH,
            6: (EACH, f"check_cert_key_level 1024 true {CERT}"),
            7: (EACH, f"check_auth_subject_key_id (is_root c i) (eqb i 0) {CERT}"),
            8: (EACH, f"check_purpose (eqb i 0) {CERT}"),
            14: (("pairs", 1, 0), "check_name_constraints (eqb j 0) (c.cert i) (c.cert j)"),
            15: (("leaf",), "host_named c.task (c.cert 0)"),
        },
    },
    "Chrome": {
        "says": "Chrome",
        "places": "chrome_places",
        "obeys": "ObeysChrome c l",
        "homes": {"check_name_constraints": "Rattle.constrained_c.specs.Rule14", "host_named": "Rattle.hosts_c.specs.SanHost"},
        "last": 20,
        "rules": {
            **BOTH,
            6: (EACH, f"check_cert_key_level 1024 false {CERT}"),
            8: (BELOW, f"extended_key_usage_valid ServerOrAny {CERT}"),
            14: (("pairs", 1, 1), "check_name_constraints (c.cert i) (c.cert j)"),
            15: (("leaf",), "host_named l c.task (c.cert 0)"),
            16: (BETWEEN, f"valid_dns_name_constraints {CERT}"),
            17: (("ends",), "duration_holds l (c.cert 0) (c.cert (c.count - 1))"),
            18: (EACH, f"not_in_crl l {CERT}"),
            19: (("root",), "valid_root_fingerprint l c.task (c.cert (c.count - 1))"),
            20: (("root",), "symantec_holds l c"),
        },
    },
}

# What has to be seen through to see the test of a rule at its places.
OPENS = "places_of PLACES when broken broken_at broken_between holds_at holds_between"

# By the kind of places: what a spot is there, and how a rule that is obeyed is applied.
SPOTS = {
    "each": "(i : ℕ) × ({1} ≤ i) × (i + {2} < n) × (s ≡ certificate i) × ",
    "leaf": "(s ≡ certificate 0) × ",
    "root": "(s ≡ certificate (n - 1)) × ",
    "ends": "(s ≡ pair 0 (n - 1)) × ",
    "neighbours": "(i : ℕ) × (i + 1 < n) × (s ≡ pair i (i + 1)) × ",
    "pairs": "(i : ℕ) × (j : ℕ) × ({1} ≤ i) × (i + {2} < n) × (j < i) × (s ≡ pair i j) × ",
}


def tests(policy):
    """The imports of all tests, as a policy names them."""
    homes = {}
    for name, home in {**HOMES, **policy["homes"]}.items():
        homes.setdefault(home, []).append(name)
    return [f"{home}.{{{', '.join(names)}}}" for home, names in homes.items()]


def file(says, uses, lines):
    """A file of lemmas, with those imports that it uses."""
    return page(f"-- {says} Written by tools/obeying.py. Assumes nothing.", uses, "\n".join(["", *lines]) + "\n")


def start(variant, policy):
    return f"""module _ (c : Chain) (l : Lists) where
  abbrev n : ℕ
  n = c.count

  abbrev T : ℕ → Spot → Bool
  T = broken {variant} c l

  abbrev P : ℕ → Places
  P = places_of {variant}
"""


def entries_uses(variant, policy):
    return [
        "Prim.Native.Nat.{ℕ, ◌+◌, ◌-◌, ◌≤◌, ◌<◌}",
        "mathlib.Core.Path.{◌≡◌, refl}",
        "mathlib.Core.Logic.{◌⊎◌, ◌↔◌}",
        "mathlib.Core.List.{List}",
        "mathlib.Core.Bool.{Bool, true, false, not}",
        "lib.Dec.{eqb}",
        "Rattle.model.specs.Model.{Chain, Lists}",
        *tests(policy),
        "Rattle.faults.specs.Index.{full_index}",
        "Rattle.faults.specs.Order.{In, Ascending, Due}",
        "Rattle.faults.specs.Places.{fewest, when}",
        "Rattle.faults.specs.Report.{entry, certificate, pair}",
        "Rattle.faults.specs.declared.Entry.{Entry}",
        "Rattle.faults.specs.declared.Spot.{Spot}",
        "Rattle.faults.specs.declared.Places.{Places}",
        "Rattle.faults.proofs.Standing.{" + ", ".join(k + "_entries" for k in ["nowhere", *SPOTS]) + "}",
        "Rattle.faults.proofs.Theorems.{only}",
        f"Rattle.policies.specs.Tables.{{places_of, {policy['places']}, rules, short}}",
        "Rattle.rules.specs.Rules.{broken, broken_at, broken_between, holds_at, holds_between, is_root}",
        f"Rattle.policies.specs.declared.Policy.TheVariants.{{{variant}}}",
        f"Rattle.policies.proofs.Besides.{{not_{variant.lower()}}}",
        "Rattle.policies.proofs.Laws.{no_more}",
    ]


def entries(variant, policy):
    opens = OPENS.replace("PLACES", policy["places"])
    lines = [
        start(variant, policy),
        "  -- the entries of the chain, in order",
        "  abbrev pub entries_of : List Entry",
        "  entries_of = full_index short T P rules n",
        "",
        "  -- It is the only list that ascends and holds exactly what is due, so what is said of it is said of every report.",
        "  pub entries_are : (es : List Entry) → Ascending es → ((e : Entry) → In e es ↔ Due short T P n e) → es ≡ entries_of",
        f"  entries_are es = only short T P rules n (no_more {variant}) es",
        "",
        "  -- ---- rule by rule, of at least two certificates: rule r has an entry at s",
        "  module _ (enough : fewest ≤ n) (s : Spot) where",
        "    abbrev pub Stands : ℕ → Type 0",
        "    Stands r = In (entry r s) entries_of",
        "",
    ]
    for r, (places, test) in sorted(policy["rules"].items()):
        blanks = " _ _" if len(places) == 3 else ""
        lines += [
            f"    pub of_{r} : Stands {r} ↔ ({SPOTS[places[0]].format(*places)}(not ({test}) ≡ true))",
            f"    unfolding {opens}",
            f"    of_{r} = {places[0]}_entries short T P rules n (no_more {variant}) enough {r}{blanks} refl s",
            "",
        ]
    lines += [
        "    -- no rule besides has an entry",
        f"    pub of_others : (r : ℕ) → {besides(variant, policy)} → Stands r → ⊥",
        "    unfolding places_of",
        f"    of_others r h = nowhere_entries short T P rules n (no_more {variant}) enough r (not_{variant.lower()} r h) s",
    ]
    says = f"Where the entries of each of {policy['says']}'s rules stand, and that no rule besides has any."
    return file(says, entries_uses(variant, policy), lines)


def obeys_field(r, places):
    at = f"at_{places[0]} short T P n clear {r}" + (" _ _" if len(places) == 3 else "") + " refl"
    if places[0] == "each":
        low, low_is = ("l ", "l") if places[1] else ("", "(omega arith)")
        return f"λ i {low}u. holds _ ({at} i {low_is} (omega arith))"
    if places[0] == "neighbours":
        return f"λ i u. holds _ ({at} i u)"
    if places[0] == "pairs":
        return f"λ i j l u d. holds _ ({at} i j l (omega arith) d)"
    return f"holds _ ({at})"


def quiet_case(r, places):
    quiet = f"quiet_{places[0]} short T P n {r} s" + (" _ _" if len(places) == 3 else "") + " refl"
    if places[0] == "each":
        low = "l " if places[1] else ""
        return f"{quiet} (λ i l u. fails _ (o.rule_{r} i {low}(omega arith)))"
    if places[0] == "neighbours":
        return f"{quiet} (λ i u. fails _ (o.rule_{r} i u))"
    if places[0] == "pairs":
        return f"{quiet} (λ i j l u d. fails _ (o.rule_{r} i j l (omega arith) d))"
    return f"{quiet} (fails _ o.rule_{r})"


def obeying_uses(variant, policy):
    laws = ["holds", "fails", "by_number", "long", *("at_" + k for k in SPOTS), "Quiet", "quiet_nowhere", *("quiet_" + k for k in SPOTS)]
    return [
        "Prim.Native.Nat.{ℕ}",
        "native.Mathlib.Omega.{arith}",
        "mathlib.Core.Path.{refl, sym, subst}",
        "mathlib.Core.Logic.{⊎_elim}",
        "mathlib.Core.Bool.{Bool}",
        "Rattle.model.specs.Model.{Chain, Lists}",
        "Rattle.faults.specs.Order.{Due, DueShort, DueBroken}",
        "Rattle.faults.specs.Places.{when}",
        "Rattle.faults.specs.declared.Entry.{Entry}",
        "Rattle.faults.specs.declared.Spot.{Spot}",
        "Rattle.faults.specs.declared.Places.{Places}",
        "Rattle.faults.proofs.Laws.{other}",
        f"Rattle.policies.specs.Tables.{{places_of, {policy['places']}, short}}",
        "Rattle.rules.specs.Rules.{broken, broken_at, broken_between, holds_at, holds_between}",
        f"Rattle.policies.specs.declared.Policy.TheVariants.{{{variant}}}",
        f"Rattle.judge.specs.Obeys.{{{policy['obeys'].split()[0]}}}",
        f"Rattle.judge.proofs.Places.{{{', '.join(laws)}}}",
    ]


def obeying(variant, policy):
    opens = OPENS.replace("PLACES", policy["places"])
    rules = sorted(policy["rules"].items())
    lines = [
        start(variant, policy),
        f"  pub obeys : ((e : Entry) → Due short T P n e → ⊥) → {policy['obeys']}",
        f"  unfolding {opens}",
        "  obeys clear = record {",
        "    rule_1 = long short T P n clear;",
        *(f"    rule_{r} = {obeys_field(r, places)};" for r, (places, _) in rules),
        "  }",
        "",
        f"  quiet : {policy['obeys']} → (r : ℕ) (s : Spot) → Quiet short T P n r s",
        f"  unfolding {opens}",
        "  quiet o r s =",
        *(f"      by_number r {r} (λ e. subst (λ (r : ℕ). Quiet short T P n r s) (sym e) ({quiet_case(r, places)})) (λ h{r}." for r, (places, _) in rules),
        "      quiet_nowhere short T P n r s (sym (",
        *(f"      other _ _ h{r} (" for r, _ in rules),
        "      refl" + (2 * len(rules) + 2) * ")",
        "",
        f"  pub obeyed : {policy['obeys']} → (e : Entry) → Due short T P n e → ⊥",
        "  obeyed o e = ⊎_elim (λ (d : DueShort short T P n e). omega (arith, d.few, o.rule_1)) (λ (d : DueBroken short T P n e). quiet o e.rule.0 e.spot d.place d.broken)",
    ]
    says = f"A chain obeys {policy['says']}'s rules exactly if no entry is due: each rule at its places, and no rule besides."
    return file(says, obeying_uses(variant, policy), lines)


def besides(variant, policy):
    """Which rules a policy doesn't have, as a statement about r."""
    gaps = "".join(f" ⊎ (r ≡ {r})" for r in range(2, policy["last"]) if r not in policy["rules"])
    return f"(r < 2) ⊎ ({policy['last']} < r)" if not gaps else f"(r < 2) ⊎ (({policy['last']} < r){gaps})"


def nowhere():
    """That a policy asks no rule besides its own."""
    lines = []
    for variant, policy in POLICIES.items():
        rules = sorted(policy["rules"])
        gaps = [r for r in range(2, policy["last"]) if r not in policy["rules"]]
        last = "(λ b. omega (arith, b, e))"
        for _ in gaps:
            last = f"(⊎_elim (λ b. omega (arith, b, e)) {last})"
        name = f"not_{variant.lower()}"
        lines += [
            *([""] if lines else []),
            f"-- {policy['says']} asks the rules from 2 to {policy['last']}{''.join(f', without {r},' for r in gaps)} and no others.",
            f"pub {name} : (r : ℕ) → {besides(variant, policy)} → {policy['places']} r ≡ Nowhere",
            f"unfolding {policy['places']}",
            f"{name} r h =",
            "    sym (",
            *(f"    other _ _ (λ e. ⊎_elim (λ b. omega (arith, b, e)) {last} h) (" for r in rules),
            "    refl" + (len(rules) + 1) * ")",
        ]
    uses = [
        "Prim.Native.Nat.{ℕ, ◌<◌}",
        "native.Mathlib.Omega.{arith}",
        "mathlib.Core.Path.{◌≡◌, refl, sym}",
        "mathlib.Core.Logic.{◌⊎◌, ⊎_elim}",
        "Rattle.faults.specs.declared.Places.TheVariants.{Nowhere}",
        "Rattle.faults.proofs.Laws.{other}",
        f"Rattle.policies.specs.Tables.{{{', '.join(policy['places'] for policy in POLICIES.values())}}}",
    ]
    return file("Which rules a policy asks nowhere.", uses, lines)


def files():
    made = {"crates/policies/proofs/Besides.antt": nowhere()}
    for variant, policy in POLICIES.items():
        made[f"crates/judge/proofs/Entries{variant}.antt"] = entries(variant, policy)
        made[f"crates/judge/proofs/Obeying{variant}.antt"] = obeying(variant, policy)
    return made
