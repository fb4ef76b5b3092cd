#!/usr/bin/env python3
"""Brings the repository's own definitions and lemmas to snake case.

Run once, at the top, after the kit's port.py: every name that specs/ or proofs/ define with a
capital inside or with a dash is written in snake case there and wherever it is cited (clauses of
src/, must-fail edits). Names of goals (`name : goal.name`), types, variants and functions of src/
keep their spelling. Refuses to run where two names would fall together.
"""

import glob
import re
import sys

TOKEN = re.compile(r"[A-Za-z_][A-Za-z0-9_'\-]*")
CITED = re.compile(r"(?<![A-Za-z0-9_'\-])\.?" + TOKEN.pattern)
DEFINED = re.compile(r"(?:abbrev |unfoldable |pub |data |record )*([A-Za-z_][A-Za-z0-9_'\-]*)\s*(?:[({][^:]*:.*)?:")
FIELD = re.compile(r"  pub ([A-Za-z_][A-Za-z0-9_'\-]*) :")

# Where the rule would split a word or join a number to one.
BY_HAND = {
    "kLBrack": "k_lbrack", "kRBrack": "k_rbrack", "kLCurly": "k_lcurly", "kRCurly": "k_rcurly",
    "kLParen": "k_lparen", "kRParen": "k_rparen", "kLAngle": "k_langle", "kRAngle": "k_rangle",
    "kindOr255": "kind_or_255", "setOr65535": "set_or_65535",
    "Cut-law": "CutLaw", "End-law": "EndLaw", "Size-law": "SizeLaw",
    # A lemma gives way to a definition, and to a function of src/.
    "is-rule": "is_rule_lem", "scene-of": "scene_of_lem", "first-item": "first_item_lem",
    "checks-stand": "checks_stand_lem", "order-stands": "order_stands_lem",
    "past_one": "past-past_one", "same_kind": "same_kind-true",
}

# Constructors, and names that stand in one definition alone.
WITHIN = {
    "takeSemicolons", "takeKeywords", "takePart", "takeMethod", "askIndex",
    "spanTo", "reportOf", "staticKept", "isStatic", "isAbstract",
    "tells-then", "no-rest", "parts-read", "at-comma", "starts-below", "check-from", "outcome-of",
    "after-of", "gains-of", "here-at", "some-offend", "none-offend", "fit-here", "some-none",
    "refused-takes", "judged-takes", "plain-takes", "part-answered", "method-answered",
    "given-forbidden", "among-offenders", "given-none", "not-both",
}


def snake(name):
    if name in BY_HAND:
        return BY_HAND[name]
    name = name.replace("-", "_")
    return re.sub(r"(?<=[a-z0-9])([A-Z])", lambda m: "_" + m.group(1).lower(), name).lower()


def logic_files():
    return sorted(glob.glob("crates/*/specs/**/*.antt", recursive=True)
                  + glob.glob("crates/*/proofs/**/*.antt", recursive=True))


def names_to_respell():
    found, fields = set(WITHIN), set()
    for path in logic_files():
        for line in open(path, encoding="utf-8"):
            match = DEFINED.match(line) or FIELD.match(line)
            if not match or ": goal." in line or line.startswith("--"):
                continue
            name = match.group(1)
            if name in BY_HAND or "-" in name or name[0].islower() and re.search("[A-Z]", name):
                found.add(name)
                if FIELD.match(line):
                    fields.add(name)
    return found, fields


def main():
    files = logic_files() + sorted(glob.glob("crates/*/src/**/*.rt", recursive=True))
    edits = sorted(glob.glob("crates/*/must-fail/*.edit"))
    found, fields = names_to_respell()
    wanted = {name: snake(name) for name in found}
    # Behind a dot only a record's field is ours; the rest are steps of a function's proof.
    dotted = {"." + name: "." + snake(name) for name in fields}
    wanted_at = {**wanted, **dotted}
    taken, functions = set(), set()
    for path in files:
        text = open(path, encoding="utf-8").read()
        taken.update(TOKEN.findall(text))
        if path.endswith(".rt"):
            functions.update(re.findall(r"\bfn (\w+)", text))
    # A definition may have the name of the function that it describes.
    clash = [(old, new) for old, new in sorted(wanted.items())
             if new in taken and old not in WITHIN and new not in wanted and new not in functions]
    if len(set(wanted.values())) != len(wanted):
        seen = {}
        for old, new in sorted(wanted.items()):
            if new in seen:
                clash.append((old, seen[new]))
            seen[new] = old
    if clash:
        for old, new in clash:
            print(f"respell: {old} -> {new}, which stands already")
        sys.exit(1)
    for path in files + edits:
        text = open(path, encoding="utf-8").read()
        turned = CITED.sub(lambda m: wanted_at.get(m.group(0), m.group(0)), text)
        if turned != text:
            open(path, "w", encoding="utf-8").write(turned)
    print(f"respell: {len(wanted)} names")


main()
