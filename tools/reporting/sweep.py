"""A sweep of poses of two arms that stand in one plane and face each other, as a case file.

Each arm has a shoulder, an upper arm (a capsule), an elbow that stays bent, and a forearm (a cuboid); a link lies along its own x. The
columns of the sweep turn the first arm's shoulder, the rows the second's; a pose is a record for each pair of links of the two arms.
"""
import struct
from collections import namedtuple

from reporting.reading import cases

COLUMNS, ROWS = 240, 160
# Degrees.
STEP = 0.75
ELBOW_STEPS = 60
# Metres.
UPPER_ARM, FOREARM = 0.45, 0.40
SECOND_BASE = (0.9, 0.0)
NAMES = ("upper arm", "forearm")
HALF_WIDTHS = (0.06, 0.05)
SHAPES = (("capsule", (-UPPER_ARM / 2, 0, 0, UPPER_ARM / 2, 0, 0, HALF_WIDTHS[0])), ("cuboid", (FOREARM / 2, HALF_WIDTHS[1], HALF_WIDTHS[1])))
LENGTHS = (UPPER_ARM, FOREARM)
# The links of the first arm and of the second, in the order of a pose's records.
PAIRS = ((0, 0), (0, 1), (1, 0), (1, 1))
DIRECTION = (1, 0, 0)
LARGEST_DISTANCE = 10

# A turn in the plane is cosine and sine of half its angle, as in a quaternion. These two are of half a step; all others are products of them,
# one rounding each, so that the file is the same on every machine.
HALF_STEP = (0.9999785816641292, 0.006544937967351859)
NO_TURN, HALF_TURN = (1.0, 0.0), (0.0, 1.0)

Link = namedtuple("Link", "middle turn degrees")


def joined(one, other):
    """One turn after the other."""
    return one[0] * other[0] - one[1] * other[1], one[0] * other[1] + one[1] * other[0]


def back(turn):
    return turn[0], -turn[1]


def turned(turn, vector):
    cosine, sine = joined(turn, turn)
    return cosine * vector[0] - sine * vector[1], sine * vector[0] + cosine * vector[1]


def plus(one, other):
    return one[0] + other[0], one[1] + other[1]


def turns(most):
    """The turns by 0 to `most` steps."""
    made = [NO_TURN]
    while len(made) <= most:
        made.append(joined(made[-1], HALF_STEP))
    return made


TURNS = turns(max(COLUMNS, ROWS) // 2)


def steps(number):
    """The turn by a number of steps, of either sign."""
    return TURNS[number] if number >= 0 else back(TURNS[-number])


def column_degrees(column):
    return (column - COLUMNS // 2) * STEP


def row_degrees(row):
    return (row - ROWS // 2) * STEP


def arm(base, facing, facing_degrees, shoulder, elbow):
    """The links of an arm, from joints in steps."""
    links = []
    place, turn, degrees = base, facing, facing_degrees
    for joint, length in zip((shoulder, elbow), LENGTHS):
        turn = joined(turn, steps(joint))
        degrees += joint * STEP
        links.append(Link(plus(place, turned(turn, (length / 2, 0.0))), turn, degrees))
        place = plus(place, turned(turn, (length, 0.0)))
    return links


def arms(column, row):
    """The links of both arms at a pose. The second arm faces the first, and turns the other way."""
    first = arm((0.0, 0.0), NO_TURN, 0, column - COLUMNS // 2, ELBOW_STEPS)
    second = arm(SECOND_BASE, HALF_TURN, 180, ROWS // 2 - row, -ELBOW_STEPS)
    return first, second


def floats(numbers):
    return b"".join(cases.encoded(bits) for (bits,) in struct.iter_unpack("<I", struct.pack(f"<{len(numbers)}f", *numbers)))


def shape_bytes(kind, numbers):
    return cases.encoded([name for name, _ in cases.KINDS].index(kind)) + floats(numbers)


def pose_of(one, two):
    """The second link in the frame of the first: quaternion and translation."""
    away = back(one.turn)
    cosine, sine = joined(away, two.turn)
    x, y = turned(away, (two.middle[0] - one.middle[0], two.middle[1] - one.middle[1]))
    return 0, 0, sine, cosine, x, y, 0


def case_file():
    """Row by row, column by column, pair by pair."""
    shapes = [shape_bytes(*shape) for shape in SHAPES]
    rest = floats((*DIRECTION, LARGEST_DISTANCE)) + cases.encoded(cases.FLAGS.index("yes"))
    made = []
    for row in range(ROWS):
        for column in range(COLUMNS):
            first, second = arms(column, row)
            for i, j in PAIRS:
                made += (shapes[i], shapes[j], floats(pose_of(first[i], second[j])), rest)
    return b"".join(made)


def place_of(number):
    """Row, column and pair of a record."""
    pose, pair = divmod(number - 1, len(PAIRS))
    return *divmod(pose, COLUMNS), pair
