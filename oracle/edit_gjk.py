#!/usr/bin/env python3
"""Edits a copy of the published gjk.rs so that a cast says by which way it ended.

    edit_gjk.py SOURCE COPY    writes the edited copy
    edit_gjk.py --list         prints the edits

No edit touches arithmetic or a test of the Rust. An edit whose old text is not found exactly
once in `minkowski_ray_cast` stops the script: the published text is then not the one it was made for.
"""

import sys

from editing import Edit, edited, indent, print_edits

NAME = "fn minkowski_ray_cast<G1, G2>(\n"


def note(way: str) -> str:
    return f"crate::query::ways::note(crate::query::ways::Way::{way});\n"


def before(first: str, line: str, way: str, why: str) -> Edit:
    """Before a line, which stands right after `first`."""
    return Edit(why, first + line, first + indent(line) + note(way) + line)


IMPACT = "return Some((ltoi / ray_length, ldir));\n"
MISS = "return None;\n"
PAST = "if ltoi / ray_length > max_time_of_impact {\n"

EDITS = [
    Edit("the cast can be called", NAME, "pub " + NAME),
    before("    if relative_eq!(ray_length, 0.0) {\n", "        " + MISS, "ZeroDirection", "no direction"),
    before(
        "            max_bound = dist;\n        } else {\n",
        "            " + IMPACT,
        "NoDistance",
        "the first acceptance",
    ),
    Edit(
        "the witnesses refine the lower bound",
        "                ltoi = witness_ltoi;\n",
        "                ltoi = witness_ltoi;\n                crate::query::ways::refined();\n",
    ),
    before(
        "\n                " + PAST,
        "                    " + MISS + "                }\n            }\n\n",
        "LastChancePast",
        "the refined bound is past the largest time",
    ),
    before(
        "                }\n            }\n\n",
        "            " + IMPACT,
        "LastChance",
        "the last chance is taken; refined or not",
    ),
    Edit(
        "a new lower bound",
        "                    ltoi += t;\n",
        "                    ltoi += t;\n                    crate::query::ways::lowered();\n",
    ),
    before("                    " + PAST, "                        " + MISS, "Past", "past the largest time"),
    before("", "                    // miss\n", "Away", "the ray leads away"),
    before("        if last_chance {\n", "            " + MISS, "LastChanceMissed", "a last chance and no lower bound"),
    before("            } else {\n", "                return None;\n            }\n        }\n\n        let _", "BoundsMet", "the bounds meet"),
    Edit(
        "whether the point was added",
        "let _ = simplex.add_point(support_point.translate(-curr_ray.origin));",
        "crate::query::ways::added(simplex.add_point(support_point.translate(-curr_ray.origin)));",
    ),
    before(
        "            if min_bound >= _eps_tol * scale.max(1.0) {\n",
        "                " + MISS,
        "InsideMissed",
        "dimension 3, and the bound says that the origin is outside",
    ),
    before("            } else {\n", "                return Some((ltoi / ray_length, ldir)); // ", "Inside", "the second acceptance"),
    before("        if niter == 100 {\n", "            " + MISS, "HundredRounds", "the hundredth round"),
]


def with_cast_edited(text: str) -> str:
    """The cast alone is edited: from its name to the next function."""
    start = text.index(NAME)
    end = text.index("\nfn perturbed_dir", start)
    return text[:start] + edited(text[start:end], EDITS) + text[end:]


def main(arguments: list[str]) -> None:
    if arguments == ["--list"]:
        print_edits("the cast", EDITS)
    elif len(arguments) == 2:
        source, copy = arguments
        with open(source, encoding="utf-8") as file:
            text = with_cast_edited(file.read())
        with open(copy, "w", encoding="utf-8") as file:
            file.write(text)
    else:
        sys.exit(__doc__)


if __name__ == "__main__":
    main(sys.argv[1:])
