"""Case files and lines as the report reads them, by the tables and the decoder of tools/cases."""
import array
import io
import re
import struct
from collections import namedtuple

import modules

ROOT = modules.TOOLS.parent
cases = modules.tool("cases")
Wrong = cases.Wrong


# ---- the case file

# A record's extent as a pattern, which finds the records of a long file soon; only those that are drawn need the decoder, which takes many times as long.
NUMBER = rb"(?:[\x00-\x7F]|[\x80-\xFF]{1,3}[\x01-\x7F]|[\x80-\xFF]{4}[\x01-\x0F])"
SHAPE = rb"(?:%b)" % b"|".join(rb"\x%02d%b{%d}" % (kind, NUMBER, count) for kind, (_, count) in enumerate(cases.KINDS))
REST = rb"%b{%d}[\x00-\x%02d]" % (NUMBER, sum(count for _, count in cases.PARTS), len(cases.FLAGS) - 1)
RECORD = re.compile(SHAPE + SHAPE + REST, re.DOTALL)


class Records:
    """The records of a case file; `flaw` says what is wrong with the bytes after the last, or is None."""

    def __init__(self, data):
        self.data = data
        self.places = array.array("Q")
        at = 0
        while record := RECORD.match(data, at):
            self.places.append(at)
            at = record.end()
        self.flaw = flaw_at(data, at) if at < len(data) else None

    def __len__(self):
        return len(self.places)

    def text(self, number):
        """A record as tools/cases writes it."""
        return text_at(self.data, self.places[number - 1])


def text_at(data, at):
    """The decoder's text of the record at a place."""
    source = io.BytesIO(data)
    source.seek(at)
    return cases.record_text(cases.CaseFile(source, at))


def flaw_at(data, at):
    """What the decoder says of a record that is none."""
    try:
        text_at(data, at)
    except Wrong as wrong:
        return str(wrong)
    raise Wrong(f"the record at byte {at} is read in two ways")


# ---- the lines


# A number of 32 bits, as records are numbered; a count is less.
WHOLE = r"\d{1,10}"


def line_pattern(letter):
    told = cases.LETTERS[letter]
    counts = rf"((?: {WHOLE}){{{len(cases.COUNTS)}}})" if told.has_counts else "()"
    return re.compile(rf"({WHOLE}) {letter}((?: [0-9A-F]{{8}}){{{3 * len(told.groups)}}}){counts}")


PATTERNS = {letter: line_pattern(letter) for letter in cases.LETTERS}


class Answer(namedtuple("Answer", "number letter bits counts")):
    """A line of output: the floats by their bits, and the counts of the run."""

    def vectors(self):
        floats = struct.unpack(f">{len(self.bits) // 4}f", self.bits)
        return [floats[i : i + 3] for i in range(0, len(floats), 3)]

    def measure(self):
        """What is measured of such a line, or None."""
        return cases.LETTERS[self.letter].measure

    def words(self):
        """The floats as decimals."""
        return [cases.text_of(bits) for (bits,) in struct.iter_unpack(">I", self.bits)]


def answer_of(line):
    pattern = PATTERNS.get(line.partition(" ")[2][:1])
    found = pattern and pattern.fullmatch(line)
    if not found:
        raise Wrong(f"no line of the program: {line[:80]!r}")
    number, floats, counts = found.groups()
    return Answer(int(number), line[len(number) + 1], bytes.fromhex(floats), [int(count) for count in counts.split()])


class Lines:
    """The lines of a whole file; `bad` is the offset of a malformed number, or None."""

    def __init__(self, text):
        lines = text.splitlines()
        if lines[:1] != ["separation 1"]:
            raise Wrong("the lines do not begin with 'separation 1'")
        last = re.fullmatch(rf"cases ({WHOLE})", lines[-1])
        if not last:
            raise Wrong("the lines do not end with 'cases N': the program did not finish")
        bad = re.fullmatch(r"bad (\d{1,20})", lines[-2])
        self.bad = int(bad[1]) if bad else None
        self.lines = lines[1 : -2 if bad else -1]
        if len(self.lines) != int(last[1]):
            raise Wrong(f"{len(self.lines)} lines, and 'cases {last[1]}' at their end")

    def __len__(self):
        return len(self.lines)

    def answer(self, number):
        answer = answer_of(self.lines[number - 1])
        if answer.number != number:
            raise Wrong(f"line {number + 1} has number {answer.number} instead of {number}")
        return answer

    def __iter__(self):
        return (self.answer(number) for number in range(1, len(self) + 1))


def must_match(case_file, lines):
    """Says so where lines can't be those of a file."""
    if len(lines) != len(case_file):
        raise Wrong(f"{len(lines)} lines for {len(case_file)} records: the lines are of another file")
    if (lines.bad is None) != (case_file.flaw is None):
        raise Wrong("the lines and the file do not end alike: the lines are of another file")
