"""Edits of a published text, each with its reason: what edit_epa3.py and edit_gjk.py have in common."""

import sys
from typing import NamedTuple


class Edit(NamedTuple):
    why: str
    old: str
    new: str


def indent(line: str) -> str:
    return line[: len(line) - len(line.lstrip())]


def edited(text: str, edits: list[Edit]) -> str:
    """An old text that is not found exactly once stops the script: the published text is then not the one it was made for."""
    for edit in edits:
        found = text.count(edit.old)
        if found != 1:
            sys.exit(f"{sys.argv[0]}: found {found} times, not once: {edit.why}\n{edit.old}")
        text = text.replace(edit.old, edit.new)
    return text


def print_edits(group: str, edits: list[Edit]) -> None:
    for edit in edits:
        print(f"{group}: {edit.why}")
        for sign, part in (("-", edit.old), ("+", edit.new)):
            for line in part.strip("\n").split("\n"):
                print(f"  {sign} {line}")
