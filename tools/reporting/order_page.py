"""The map of where the order of equal keys decides, over the sweep of two arms."""
import math
from collections import Counter, namedtuple

from reporting import drawn, sweep
from reporting.markup import beside, code, count, page, paragraph, record_link, section, share, table

# From the mildest to the worst: the class of a pose is the worst of its pairs of links.
APART, SAME, COUNTS, D0, D1, D2, D3, OTHER = range(8)
NAMES = ("apart", "same", "counts", "d0", "d1", "d2", "d3", "other")
TOLD = (
    "no two links meet",
    "links meet, and both orders give the same answer",
    "the same points and normal, other counts of the run",
    "other points or normal, the normals less than 1° apart",
    "normals 1° to 10° apart",
    "normals 10° to 90° apart",
    "normals 90° and more apart",
    "another letter, or an answer that is not finite",
)
ANGLES = ((1, D0), (10, D1), (90, D2), (math.inf, D3))
MOST_NAMED = 10

Difference = namedtuple("Difference", "number kind angle moved")


def angle_between(u, v):
    """Degrees."""
    cross = (u[1] * v[2] - u[2] * v[1], u[2] * v[0] - u[0] * v[2], u[0] * v[1] - u[1] * v[0])
    return math.degrees(math.atan2(math.hypot(*cross), sum(a * b for a, b in zip(u, v))))


def difference(heap, arrival):
    """How two penetrations differ that are not the same in their bits."""
    one, other = heap.vectors(), arrival.vectors()
    angle = angle_between(one[2], other[2])
    moved = max(math.dist(one[i], other[i]) for i in range(2))
    if not (math.isfinite(angle) and math.isfinite(moved)):
        return Difference(heap.number, OTHER, None, None)
    return Difference(heap.number, next(kind for limit, kind in ANGLES if angle < limit), angle, moved)


def compared(heap, arrival, number):
    """A record's difference; most have none, and their lines are not taken apart."""
    if heap.lines[number - 1] == arrival.lines[number - 1]:
        letter = heap.lines[number - 1].partition(" ")[2][0]
        return Difference(number, APART if letter in "DMS" else SAME, None, None)
    one, other = heap.answer(number), arrival.answer(number)
    if (one.letter, one.bits) == (other.letter, other.bits):
        return Difference(number, COUNTS, None, None)
    if one.letter + other.letter != "PP":
        return Difference(number, OTHER, None, None)
    return difference(one, other)


def worst_of_each_pose(differences):
    pairs = len(sweep.PAIRS)
    poses = [differences[i : i + pairs] for i in range(0, len(differences), pairs)]
    return [max(pose, key=lambda entry: (entry.kind, entry.angle or 0)) for pose in poses]


# ---- the map

CELL = 3
LEFT, TOP, BOTTOM = 34, 6, 34
TICK_DEGREES = 30


def degrees(angle):
    return f"{angle:g}°".replace("-", "−")


def shoulders(row, column):
    return degrees(sweep.column_degrees(column)), degrees(sweep.row_degrees(row))


def pair_told(pair):
    one, other = sweep.PAIRS[pair]
    return f"{sweep.NAMES[one]} of the first, {sweep.NAMES[other]} of the second"


def difference_told(entry):
    row, column, pair = sweep.place_of(entry.number)
    how = TOLD[entry.kind] if entry.angle is None else f"normals {entry.angle:.3g}° apart, points up to {1000 * entry.moved:.3g} mm apart"
    return f"Shoulders at {' and '.join(shoulders(row, column))}, {pair_told(pair)}: {how}."


def cell(row, column, width, kind, told):
    place = f'x="{LEFT + CELL * column}" y="{TOP + CELL * row}" width="{CELL * width}" height="{CELL}"'
    return f'<rect class="{NAMES[kind]}" {place}><title>{told}</title></rect>'


def runs(poses, row):
    """The row's poses as runs of one class: first column, width, class. A pose that differs is a run of its own."""
    column = 0
    while column < sweep.COLUMNS:
        kind = poses[row * sweep.COLUMNS + column].kind
        width = 1
        while kind <= COUNTS and column + width < sweep.COLUMNS and poses[row * sweep.COLUMNS + column + width].kind == kind:
            width += 1
        yield column, width, kind
        column += width


def row_drawn(poses, row):
    for column, width, kind in runs(poses, row):
        if kind > COUNTS:
            entry = poses[row * sweep.COLUMNS + column]
            yield f'<a href="#record-{entry.number}" tabindex="-1">{cell(row, column, 1, kind, difference_told(entry))}</a>'
        else:
            across, down = shoulders(row, column)
            until = f" to {degrees(sweep.column_degrees(column + width - 1))}" if width > 1 else ""
            yield cell(row, column, width, kind, f"Shoulders at {across}{until} and {down}: {TOLD[kind]}.")


def axes():
    bottom = TOP + CELL * sweep.ROWS
    every = int(TICK_DEGREES / sweep.STEP)
    for column in range(sweep.COLUMNS // 2 % every, sweep.COLUMNS, every):
        x = LEFT + CELL * (column + 0.5)
        yield f'<text class="tick middle" x="{x}" y="{bottom + 14}">{degrees(sweep.column_degrees(column))}</text>'
    for row in range(sweep.ROWS // 2 % every, sweep.ROWS, every):
        yield f'<text class="tick end" x="{LEFT - 5}" y="{TOP + CELL * (row + 0.5) + 4}">{degrees(sweep.row_degrees(row))}</text>'
    yield f'<text class="tick" x="{LEFT}" y="{bottom + 30}">shoulder of the first arm, across; of the second, down</text>'


def map_drawn(poses, counted):
    differing = sum(counted[kind] for kind in range(D0, OTHER + 1))
    told = f"Map of {count(len(poses))} poses of two arms: in {count(differing)} the two orders of equal keys give other points or another normal"
    width, height = LEFT + CELL * sweep.COLUMNS + 1, TOP + CELL * sweep.ROWS + BOTTOM
    lines = [f'<svg class="map" viewBox="0 0 {width} {height}" role="img" aria-label="{told}">']
    for row in range(sweep.ROWS):
        lines += row_drawn(poses, row)
    return "\n".join([*lines, *axes(), "</svg>"])


def legend(poses, counted):
    meeting = len(poses) - counted[APART]

    def row(kind):
        swatch = f'<svg class="swatch" viewBox="0 0 1 1" aria-hidden="true"><rect class="{NAMES[kind]}" width="1" height="1"/></svg>'
        return swatch + TOLD[kind], count(counted[kind]), share(counted[kind], meeting) if kind != APART else ""

    rows = [row(kind) for kind in range(len(TOLD))]
    return table("Poses, by the worst of their four pairs of links", ("pose", "poses", "of those that meet"), rows, {1, 2})


# ---- the arms from above


def arms_at(number):
    """Where each link's middle is, and how it is turned: two links of the first arm, two of the second."""
    row, column, _ = sweep.place_of(number)
    return [[round(link.middle[0], 4), round(link.middle[1], 4), link.degrees] for arm in sweep.arms(column, row) for link in arm]


def frame(differing):
    """The part of the plane in which all these poses lie, as a view box. On the page y goes down."""
    reach = max(sweep.LENGTHS) / 2 + max(sweep.HALF_WIDTHS)
    places = [link[:2] for entry in differing for link in arms_at(entry.number)]
    (left, right), (low, high) = ((min(numbers) - reach, max(numbers) + reach) for numbers in zip(*places))
    return f"{left:.3f} {-high:.3f} {right - left:.3f} {high - low:.3f}"


def arms_drawn(differing):
    """The links, which the drawing places."""
    if not differing:
        return ""
    told = "The two arms from above at the chosen pose; the links compared are filled"
    lines = [f'<svg class="arms" viewBox="{frame(differing)}" role="img" aria-label="{told}">']
    for number in range(4):
        length, half = sweep.LENGTHS[number % 2], sweep.HALF_WIDTHS[number % 2]
        # the upper arm is a capsule: its ends stand out by the radius
        out = half if number % 2 == 0 else 0
        lines.append(
            f'<rect class="{"one" if number < 2 else "two"}" data-link="{number}" x="{-length / 2 - out:g}" y="{-half:g}" '
            f'width="{length + 2 * out:g}" height="{2 * half:g}" rx="{out:g}"/>'
        )
    lines += [f'<circle cx="{x:g}" cy="{-y:g}" r="0.012"/>' for x, y in ((0, 0), sweep.SECOND_BASE)]
    return "\n".join([*lines, "</svg>"])


# ---- the page


def worst(differences):
    named = [entry for entry in differences if entry.angle is not None]
    return sorted(named, key=lambda entry: (-entry.moved, entry.number))[:MOST_NAMED]


def named_row(entry):
    row, column, pair = sweep.place_of(entry.number)
    links = ", ".join(sweep.NAMES[link] for link in sweep.PAIRS[pair])
    return record_link(entry.number), *shoulders(row, column), links, f"{entry.angle:.3g}°", f"{1000 * entry.moved:.3g} mm"


def record_data(entry, case_file, heap, arrival):
    one, other = sweep.PAIRS[sweep.place_of(entry.number)[2]]
    answers = [drawn.answer_data(heap.answer(entry.number), "heap"), drawn.answer_data(arrival.answer(entry.number), "arrival")]
    drawn_record = {"number": entry.number, "text": case_file.text(entry.number), "answers": answers, "note": difference_told(entry)}
    return {**drawn_record, "arms": arms_at(entry.number), "links": [one, 2 + other]}


INTRO = (
    "The polytope's faces wait in a heap, the nearest first. Which of two equally near faces comes first is left open by the heap's documentation, "
    "and two heaps that are both right can differ in it. Here both answer the same poses of two arms: the heap of the Rust's library, whose order "
    "this project carries over, and one that pops equal keys in the order of their arrival. All else is the same."
)


def setting():
    across = f"{degrees(sweep.column_degrees(0))} to {degrees(sweep.column_degrees(sweep.COLUMNS - 1))}"
    down = f"{degrees(sweep.row_degrees(0))} to {degrees(sweep.row_degrees(sweep.ROWS - 1))}"
    return (
        f"Both arms lie in one plane and face each other, {sweep.SECOND_BASE[0]:g} m apart: an upper arm of {sweep.UPPER_ARM:g} m, a capsule, and "
        f"a forearm of {sweep.FOREARM:g} m, a cuboid, with the elbow bent by {degrees(sweep.ELBOW_STEPS * sweep.STEP)}. The first shoulder turns "
        f"from {across}, the second from {down}, by {degrees(sweep.STEP)}, and a positive angle turns either arm to the same side: "
        f"{sweep.COLUMNS} times {sweep.ROWS} poses, and in each the {len(sweep.PAIRS)} pairs of a link of one arm with a link of the other."
    )


POSE = (
    "The two arms from above, and below them the two links that are compared, in the frame of the first: points 1 and 2 and the normal by the heap's order; "
    "1′ and 2′, broken, by the order of arrival."
)


def the_map(poses):
    counted = Counter(entry.kind for entry in poses)
    hint = "A pose's text shows when the pointer rests on it; one that differs is drawn below when it is chosen."
    return section("The map", map_drawn(poses, counted), legend(poses, counted), paragraph(hint, "note"))


def widest_apart(differing, greatest):
    caption = f"Of {count(len(differing))} records that differ, those whose points are farthest apart"
    head = ("record", "first shoulder", "second shoulder", "their links", "normals", "points")
    return section("The widest apart", table(caption, head, [named_row(entry) for entry in greatest], {0, 1, 2, 4, 5}))


def repeated():
    commands = (
        ("tools/report --sweep > sweep.case", "the poses, as a case file"),
        ("target/oracle/oracle run < sweep.case", "the answers by the heap's order"),
        ("target/oracle/oracle order lines < sweep.case", "and by the order of arrival"),
        ("target/oracle/oracle order < sweep.case", "how many differ"),
    )
    rows = [(code(command), what) for command, what in commands]
    return section("To repeat it", table("From the root of the repository", ("command", "writes"), rows, ()))


def report(case_file, heap, arrival):
    differences = [compared(heap, arrival, number) for number in range(1, len(case_file) + 1)]
    differing = [entry for entry in differences if entry.kind > COUNTS]
    greatest = worst(differing)
    body = [
        paragraph(INTRO),
        paragraph(setting()),
        the_map(worst_of_each_pose(differences)),
        widest_apart(differing, greatest),
        section("A pose drawn", beside(paragraph(POSE), arms_drawn(differing)), drawn.drawing("normal, from shape 1 towards shape 2")),
        repeated(),
    ]
    records = [record_data(entry, case_file, heap, arrival) for entry in differing]
    first = greatest[0].number if greatest else None
    return page("Where the order of equal keys decides", "\n".join(body), drawn.page_data(records, first, "Only records that differ are drawn."))
