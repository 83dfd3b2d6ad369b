#!/usr/bin/env python3
"""Edits a copy of the published epa3.rs so that a run can be bounded and read afterwards.

    edit_epa3.py SOURCE COPY [ORDER [WALK]]    writes the edited copy
    edit_epa3.py --list                        prints the edits

ORDER says which of equal keys is popped first:
    heap    as the toolchain's heap has it: FaceId::cmp is left alone (the default)
    first   the face made first (arrival order)
    last    the face made last

WALK says how the silhouette is walked:
    recursive   as published: compute_silhouette calls itself (the default)
    plain       a loop over a store of pending questions, last in, first out

No edit touches arithmetic or, but for the ties of ORDER, a test of the Rust. An edit whose old text is not found exactly
once stops the script: the published text is then not the one it was made for.
"""

import sys

from editing import Edit, edited, indent, print_edits

EDITS = [
    Edit(
        "the lists get a lent length; the name stays, so every push is tested where it stands",
        "use alloc::vec::Vec;\n",
        "use crate::lent::Vec;\n",
    ),
    Edit(
        "the heap gets a lent length; inside is still the toolchain's own BinaryHeap",
        "use alloc::collections::BinaryHeap;\n",
        "use crate::lent::BinaryHeap;\n",
    ),
    Edit(
        "a child module sees the private stores: our own file that reads them",
        "use num::Bounded;\n",
        'use num::Bounded;\n\n#[path = "record.rs"]\nmod record;\n',
    ),
    Edit(
        "a store of pending questions, a face and a corner each, which the plain walk alone fills; "
        "a place for the number of expansions completed, of lookups that missed, and for the way out",
        "    heap: BinaryHeap<FaceId>,\n}",
        "    heap: BinaryHeap<FaceId>,\n"
        "    pending: Vec<(usize, usize)>,\n"
        "    expansions: usize,\n"
        "    missed: usize,\n"
        "    way_out: crate::query::epa::WayOut,\n"
        "}",
    ),
    Edit(
        "a new run forgets the counts of the last one",
        "        self.vertices.clear();\n"
        "        self.faces.clear();\n"
        "        self.heap.clear();\n"
        "        self.silhouette.clear();\n",
        "        self.vertices.restart();\n"
        "        self.faces.restart();\n"
        "        self.heap.restart();\n"
        "        self.silhouette.restart();\n"
        "        self.pending.restart();\n"
        "        self.expansions = 0;\n"
        "        self.missed = 0;\n"
        "        self.way_out = Default::default();\n",
    ),
    Edit(
        "an expansion completed is counted where the Rust counts it",
        "            niter += 1;\n",
        "            niter += 1;\n            self.expansions += 1;\n",
    ),
]


def missed(face: str, vertex: str) -> str:
    return f"self.missed += usize::from(!self.faces[{face}].contains_point({vertex}));\n"


# A lookup has missed where the face has not got the vertex: counted after the lookups and before the
# first neighbour is asked, or its question put in.
LOOKUPS = [
    Edit(
        "the three lookups before a pass that missed are counted",
        "            self.compute_silhouette(support_point_id, face.adj[0], adj_opp_pt_id1);\n",
        "".join(f"            {missed(f'face.adj[{k}]', f'face.pts[{k}]')}" for k in range(3))
        + "            self.compute_silhouette(support_point_id, face.adj[0], adj_opp_pt_id1);\n",
    ),
    Edit(
        "the two lookups of a seen face that missed are counted",
        "                self.compute_silhouette(point, adj1, adj_opp_pt_id1);\n",
        "".join(
            f"                {missed(f'adj{k}', f'self.faces[id].pts[adj_pt_id{k}]')}" for k in (1, 2)
        )
        + "                self.compute_silhouette(point, adj1, adj_opp_pt_id1);\n",
    ),
]


def assignment(way: str) -> str:
    return f"self.way_out = crate::query::epa::WayOut::{way};\n"


def before(line: str, way: str, why: str) -> Edit:
    return Edit(f"way out: {why}", line, indent(line) + assignment(way) + line)


def after(line: str, way: str, why: str) -> Edit:
    return Edit(f"way out: {why}", line, line + indent(line) + assignment(way))


def inside(line: str, way: str, why: str) -> Edit:
    """As the first statement of the block that the line opens."""
    return Edit(f"way out: {why}", line, line + indent(line) + "    " + assignment(way))


# The way out is noted in the branch that leaves. A `?` and the loop's end have no branch of
# their own: their name is noted beforehand and written over once they are passed.
QUEUE_NEW_FACE = (
    "                        self.heap.push(FaceId::new(new_face_id, -dist, dist_tol)?);\n"
)
WAYS_OUT = [
    before(
        "                    let v = self.vertices[0];\n",
        "DegenerateStart",
        "all support points are one point",
    ),
    before(
        "        if simplex.dimension() == 3 {\n            let dp1",
        "KeyRefusedAtStart",
        "a `?` on a starting face's key, until the start is over",
    ),
    inside(
        "            if !(proj_inside1 || proj_inside2 || proj_inside3 || proj_inside4) {\n",
        "NoStartingFace",
        "no starting face holds the projection",
    ),
    after(
        "        let mut old_dist = 0.0;\n",
        "HeapEmpty",
        "the loop's own end, until another way is taken",
    ),
    before(
        "                let best_face = &self.faces[best_face_id.id];\n",
        "Converged",
        "converged; the test's other half can't hold, as its bound has just been lowered",
    ),
    inside(
        "            if self.silhouette.is_empty() {\n",
        "EmptySilhouette",
        "empty silhouette",
    ),
    inside(
        "                        if dist < curr_dist {\n",
        "NearerFace",
        "a new face nearer than the current one",
    ),
    Edit(
        "way out: a `?` on a new face's key, until that key is queued",
        QUEUE_NEW_FACE,
        indent(QUEUE_NEW_FACE)
        + assignment("KeyRefusedLater")
        + QUEUE_NEW_FACE
        + indent(QUEUE_NEW_FACE)
        + assignment("HeapEmpty"),
    ),
    inside(
        "            if first_new_face_id == self.faces.len() {\n",
        "NoNewFace",
        "every edge of the silhouette had its face deleted",
    ),
    inside(
        "            if niter > 100 {\n",
        "LastExpansion",
        "the 101st expansion",
    ),
]

EQUAL = "        } else {\n            Ordering::Equal\n        }\n"

ORDERS = {
    "heap": [],
    "first": [
        Edit(
            "of equal keys the face made first is the greater, so it pops first",
            EQUAL,
            "        } else {\n            other.id.cmp(&self.id)\n        }\n",
        )
    ],
    "last": [
        Edit(
            "of equal keys the face made last is the greater, so it pops first",
            EQUAL,
            "        } else {\n            self.id.cmp(&other.id)\n        }\n",
        )
    ],
}


def puts(*questions: tuple[str, str]) -> str:
    return "".join(f"self.pending.push(({face}, {corner}));\n" for face, corner in questions)


def indented(depth: int, text: str) -> str:
    return "".join(" " * depth + line for line in text.splitlines(keepends=True))


# Each question that the published text asks by a call is put in instead, those of one place the last first, so
# that the first of them is taken out first; its put tests for room, as each push does. After the edits of LOOKUPS,
# which stand before the first call.
WALKS = {
    "recursive": [],
    "plain": [
        Edit(
            "a pass puts in its three questions, and the walk answers until none is pending",
            "            self.compute_silhouette(support_point_id, face.adj[0], adj_opp_pt_id1);\n"
            "            self.compute_silhouette(support_point_id, face.adj[1], adj_opp_pt_id2);\n"
            "            self.compute_silhouette(support_point_id, face.adj[2], adj_opp_pt_id3);\n",
            indented(
                12,
                puts(
                    ("face.adj[2]", "adj_opp_pt_id3"),
                    ("face.adj[1]", "adj_opp_pt_id2"),
                    ("face.adj[0]", "adj_opp_pt_id1"),
                )
                + "self.compute_silhouette(support_point_id);\n",
            ),
        ),
        Edit(
            "the walk is a loop: the last question comes out, and of a deleted face nothing is done",
            "    fn compute_silhouette(&mut self, point: usize, id: usize, opp_pt_id: usize) {\n"
            "        if !self.faces[id].deleted {\n",
            "    fn compute_silhouette(&mut self, point: usize) {\n"
            "        while let Some((id, opp_pt_id)) = self.pending.pop() {\n"
            "            if self.faces[id].deleted {\n"
            "                continue;\n"
            "            }\n",
        ),
        Edit(
            "of a seen face the second neighbour's question is put in, and then the first's",
            "                self.compute_silhouette(point, adj1, adj_opp_pt_id1);\n"
            "                self.compute_silhouette(point, adj2, adj_opp_pt_id2);\n",
            indented(16, puts(("adj2", "adj_opp_pt_id2"), ("adj1", "adj_opp_pt_id1"))),
        ),
    ],
}


EVERY_COPY = EDITS + LOOKUPS + WAYS_OUT


def print_all() -> None:
    print_edits("every copy", EVERY_COPY)
    for name, edits in ORDERS.items():
        print_edits(f"order {name}", edits)
    for name, edits in WALKS.items():
        print_edits(f"walk {name}", edits)


def main(arguments: list[str]) -> None:
    if arguments == ["--list"]:
        print_all()
        return
    if len(arguments) not in (2, 3, 4):
        sys.exit(__doc__)
    source, copy, order, walk = arguments + ["heap", "recursive"][len(arguments) - 2 :]
    if order not in ORDERS or walk not in WALKS:
        sys.exit(__doc__)
    with open(source, encoding="utf-8") as file:
        text = edited(file.read(), EVERY_COPY + ORDERS[order] + WALKS[walk])
    with open(copy, "w", encoding="utf-8") as file:
        file.write(text)


if __name__ == "__main__":
    main(sys.argv[1:])
