"""What a report counts over the lines of a case file."""
import math
import re
from collections import Counter

from reporting.reading import WHOLE, Wrong, cases

REFUSALS = "NXR"
# The places of two counts in a line.
EXPANSIONS, FACES_MADE = cases.COUNTS.index("expansions"), cases.COUNTS.index("faces made")


class Extreme:
    """The greatest, or least, value and the first record that has it."""

    def __init__(self, better):
        self.better = better
        self.value = self.number = None

    def note(self, value, number):
        if self.value is None or self.better(value, self.value):
            self.value, self.number = value, number


class Figures:
    def __init__(self, lines):
        self.letters = Counter()
        self.deepest = Extreme(float.__gt__)
        self.nearest = Extreme(float.__lt__)
        self.measured = {"P": self.deepest, "D": self.nearest}
        self.not_finite = 0
        self.refused = {letter: [] for letter in REFUSALS}
        self.counts = {place: Counter() for place in (EXPANSIONS, FACES_MADE)}
        self.greatest = {place: Extreme(int.__gt__) for place in self.counts}
        for answer in lines:
            self.note(answer)

    def note(self, answer):
        self.letters[answer.letter] += 1
        if answer.letter in REFUSALS:
            self.refused[answer.letter].append(answer.number)
        if answer.letter in self.measured:
            self.note_measured(answer)
        if answer.counts:
            for place, counter in self.counts.items():
                counter[answer.counts[place]] += 1
                self.greatest[place].note(answer.counts[place], answer.number)

    def note_measured(self, answer):
        value = answer.measure()(*answer.vectors())
        if math.isfinite(value):
            self.measured[answer.letter].note(value, answer.number)
        else:
            self.not_finite += 1

    def notable(self):
        """The records that a reader will ask for first."""
        extremes = [self.deepest, self.nearest, *self.greatest.values()]
        return [extreme.number for extreme in extremes if extreme.number is not None]


def reasons_of(text, lines):
    """Why each run of the polytope ended, by record, from the lines of the program of ticket 5."""
    reasons = {}
    for line in text.splitlines():
        number, _, reason = line.partition(" ")
        if number == "bad":
            continue
        if not re.fullmatch(WHOLE, number) or not reason:
            raise Wrong(f"no line with a reason: {line[:80]!r}")
        if not 1 <= int(number) <= len(lines) or lines.answer(int(number)).letter not in "PNXR":
            raise Wrong(f"a reason for record {number}, which reached no polytope: the reasons are of another file")
        reasons[int(number)] = reason
    # X is left out: GJK can panic too, and then no polytope was reached.
    without = next((answer.number for answer in lines if answer.letter in "PNR" and answer.number not in reasons), None)
    if without is not None:
        raise Wrong(f"no reason for record {without}, which reached the polytope: the reasons are of another file")
    return reasons
