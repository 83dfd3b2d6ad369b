#!/usr/bin/env python3
"""Spells the repository's own names as Rattle spells names: definitions, lemmas, fields and variables in snake case.

usage: tools/respell.py        at the top of the checkout, once, after Rattle's port.py

It goes by whole words, in specs/, proofs/, the clauses of src/ and the must-fail edits. A word that begins with a small
letter and holds a capital is a name of the repository's own: `wholeRoot` becomes `whole_root`, `few-queueNew`
`few-queue_new`. Dashes of lemmas stay, since they join two names; those of fields of records in specs/ become
underscores. Types, modules, strings and Rust's names stay. Three things are by hand:

* a lemma that would have its function's name gets `_lem`;
* `Contracts` of crates/epa_polytope, a name that Rattle makes, is `Promises`;
* `at-most`, which is a field in crates/certificate and a lemma elsewhere, turns in that crate alone.
"""

import os
import re
import subprocess

WORD = re.compile(r"(?<![\w.:'/→\-])[a-z][\w'\-→]*|(?<=\.)[a-z][\w'\-→]*")
CAPITALS = re.compile(r"(?<=[a-z0-9₀-₉'])[A-Z]+")
BYTE = re.compile(r"b'.")

# fields of the records of crates/certificate/specs
FIELDS = {
    "crates/certificate/": [
        "three-each",
        "at-most",
        "of-first",
        "of-second",
        "of-direction",
        "not-smaller",
        "same-x",
        "same-y",
        "same-z",
    ],
}

# lemmas whose names would meet their functions'
LEMMAS = {
    "crates/gjk/proofs/Enough.antt": {"first_round": "first_round_lem"},
    "crates/epa_polytope/proofs/Twins.antt": {"first_short": "first_short_lem", "second_short": "second_short_lem"},
    "crates/epa_polytope/proofs/TwinIterations.antt": {"first_short": "first_short_lem", "second_short": "second_short_lem"},
}

MODULE = ("crates/epa_polytope/specs/Contracts.antt", "crates/epa_polytope/specs/Promises.antt")


def whole(word):
    return re.compile(r"(?<![\w'\-→])" + re.escape(word) + r"(?![\w'\-→])")


def in_snake_case(match):
    word = match.group(0)
    if BYTE.match(word):
        return word
    return CAPITALS.sub(lambda capitals: "_" + capitals.group(0).lower(), word)


def respelled(path, text):
    for word, lemma in LEMMAS.get(path, {}).items():
        text = whole(word).sub(lemma, text)
    for crate, words in FIELDS.items():
        if path.startswith(crate):
            for word in words:
                text = whole(word).sub(word.replace("-", "_"), text)
    text = re.sub(r"epa_polytope\.specs\.Contracts\b", "epa_polytope.specs.Promises", text)
    if path == "crates/epa_polytope/specs/Lib.antt":
        text = text.replace("mod Contracts", "mod Promises")
    return WORD.sub(in_snake_case, text)


def main():
    files = subprocess.run(["git", "ls-files", "-co", "--exclude-standard", "crates"], capture_output=True, text=True, check=True).stdout.split("\n")
    for path in files:
        if not path.endswith((".antt", ".rt", ".edit")) or not os.path.exists(path):
            continue
        with open(path, encoding="utf-8") as file:
            text = file.read()
        turned = respelled(path, text)
        if turned != text:
            with open(path, "w", encoding="utf-8") as file:
                file.write(turned)
    if os.path.exists(MODULE[0]):
        os.rename(*MODULE)


if __name__ == "__main__":
    main()
