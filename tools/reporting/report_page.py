"""The report of one case file."""
import hashlib
import itertools
from collections import Counter

from reporting import drawn
from reporting.figures import EXPANSIONS, FACES_MADE, Figures
from reporting.markup import code, count, escape, histogram, page, paragraph, record_link, section, share, table
from reporting.reading import cases

# At most so many records can be drawn, so that the page of a long file stays small.
MOST_DRAWN = 2000
MOST_REFUSED_DRAWN = MOST_DRAWN // 2
MOST_PLACES = 100
LAST_EXPANSION = 101

CARRIES = {
    "D": "apart: two points and the direction between them",
    "M": "near, and not asked exactly: an approximate direction",
    "S": "farther than the largest distance, or the search did not settle: a direction",
    "P": "two points, the normal and the counts of the run",
    "N": "refusal 1: the polytope's run found no answer",
    "X": "refusal 2: the Rust would panic",
    "R": "refusal 3: a lent store was full",
}
REFUSAL = {"N": "1", "X": "2", "R": "3"}
MEASURED = "The depth is how far point 1 lies beyond point 2 along the normal, the distance the length from point 1 to point 2, in the units of the file."


def head(case_file, lines):
    digest = hashlib.sha256(case_file.data).hexdigest()
    parts = [paragraph(f"{count(len(case_file))} records, {count(len(case_file.data))} bytes, SHA-256 {code(digest)}.", "note")]
    if case_file.flaw is not None:
        told = f"The file is malformed: {escape(case_file.flaw)} ({code(f'bad {lines.bad}')}). What follows is of the records before it."
        parts.append(paragraph(told, "warning"))
    return "\n".join(parts)


def answers(figures, total):
    rows = [
        (code(letter), cases.LETTERS[letter].meaning, CARRIES[letter], count(figures.letters[letter]), share(figures.letters[letter], total))
        for letter in cases.LETTERS
    ]
    return section("Answers", table("Records per letter", ("letter", "answer", "what it carries", "records", "share"), rows, {3, 4}))


def extreme_row(name, extreme, told):
    if extreme.number is None:
        return name, "none", ""
    return name, told(extreme.value), record_link(extreme.number)


def extremes(figures):
    rows = [
        extreme_row("deepest penetration (P)", figures.deepest, cases.nine_digits),
        extreme_row("least distance (D)", figures.nearest, cases.nine_digits),
        extreme_row("most expansions", figures.greatest[EXPANSIONS], count),
        extreme_row("most faces made", figures.greatest[FACES_MADE], count),
    ]
    parts = [
        table("Each with the first record that has it", ("", "value", "record"), rows, {1, 2}),
        paragraph(MEASURED, "note"),
    ]
    if figures.not_finite:
        parts.append(paragraph(f"{count(figures.not_finite)} records whose points or normal are not finite are left out of the first two.", "note"))
    return section("Extremes", *parts)


def places(numbers, on_page):
    told = [record_link(number) if number in on_page else count(number) for number in numbers[:MOST_PLACES]]
    if len(numbers) > MOST_PLACES:
        told.append(f"and {count(len(numbers) - MOST_PLACES)} more")
    return ", ".join(told) or "none"


def refusals(figures, lines, on_page):
    rows = [(code(letter), REFUSAL[letter], count(len(numbers)), places(numbers, on_page)) for letter, numbers in figures.refused.items()]
    rows.append((code("bad"), "4", count(int(lines.bad is not None)), "none" if lines.bad is None else f"byte {count(lines.bad)}"))
    return section("Refusals", table("Records without an answer, and where they stand", ("letter", "refusal", "records", "record numbers"), rows, {1, 2}))


def value_at(counter, part):
    """The least value that this part of the records does not exceed."""
    wanted = part * counter.total()
    sums = itertools.accumulate(counter[value] for value in sorted(counter))
    return next(value for value, so_far in zip(sorted(counter), sums) if so_far >= wanted)


def effort_part(counter, name):
    parts = [f"<h3>{name}</h3>", histogram(counter, name)]
    if counter:
        half, most = (count(value_at(counter, part)) for part in (0.5, 0.99))
        parts.append(paragraph(f"Half of the {count(counter.total())} records with counts have at most {half}, 99 % at most {most}.", "note"))
    return parts


def effort(figures):
    expansions, faces = (figures.counts[place] for place in (EXPANSIONS, FACES_MADE))
    last = f"{count(expansions[LAST_EXPANSION])} runs made all {LAST_EXPANSION} expansions, after which the best face answers."
    return section("Work of the polytope", *effort_part(expansions, "Expansions"), paragraph(last, "note"), *effort_part(faces, "Faces made"))


def why_ended(reasons):
    if reasons is None:
        told = f"The program {code('bin/reasons')}, which prints why each run of the polytope ended, is not there."
        return section("Why runs ended", paragraph(told))
    rows = [(escape(reason), count(runs), share(runs, len(reasons))) for reason, runs in Counter(reasons.values()).most_common()]
    return section("Why runs ended", table("Records that reached the polytope, by the reason for its end", ("reason", "records", "share"), rows, {1, 2}))


def to_draw(total, asked, figures):
    """The records that can be drawn: those asked for, the notable ones, refused ones, and the first ones up to the most."""
    refused = sorted(itertools.chain.from_iterable(figures.refused.values()))
    wanted = dict.fromkeys([*asked, *figures.notable(), *refused[:MOST_REFUSED_DRAWN]])
    for number in range(1, total + 1):
        if len(wanted) >= MOST_DRAWN:
            break
        wanted[number] = None
    return sorted(wanted)


def drawn_data(number, case_file, lines, reasons):
    note = f"The run ended: {reasons[number]}." if reasons and number in reasons else ""
    return {"number": number, "text": case_file.text(number), "answers": [drawn.answer_data(lines.answer(number))], "note": note}


def first_drawn(records, wanted):
    """The first that is wanted and whose numbers are all finite, or the first that is wanted."""
    finite = [number for number in wanted if "0x" not in records[number]["text"] and "inf" not in records[number]["text"]]
    return next(iter([*finite, *wanted]), None)


def drawing(on_page, total):
    if len(on_page) == total:
        told = "Every record of the file is on this page."
    else:
        told = (
            f"{count(len(on_page))} of {count(total)} records are on this page: those named under Extremes, at most {count(MOST_REFUSED_DRAWN)} "
            f"refused ones, those asked for by {code('--record')}, and the first ones of the file."
        )
    return section("A record drawn", paragraph(told), drawn.drawing("normal or direction, from shape 1 towards 2"))


def report(name, case_file, lines, reasons, asked):
    figures = Figures(lines)
    total = len(case_file)
    on_page = to_draw(total, asked, figures)
    body = [
        head(case_file, lines),
        answers(figures, total),
        extremes(figures),
        refusals(figures, lines, set(on_page)),
        effort(figures),
        why_ended(reasons),
        drawing(on_page, total),
    ]
    records = {number: drawn_data(number, case_file, lines, reasons) for number in on_page}
    first = first_drawn(records, [*asked, *figures.notable(), *on_page])
    missing = f"tools/report --record N puts record N of {name} on it."
    return page(f"Report on {name}", "\n".join(body), drawn.page_data([*records.values()], first, missing))
