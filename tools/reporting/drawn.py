"""The drawing of a page, and what the page carries of the records that it can draw."""
from reporting.reading import cases

DRAWING = """<form id="choose">
<button type="button" id="previous" title="the record before it that is on this page">‹</button>
<label>Record <input id="number" type="number" min="1" inputmode="numeric"></label>
<button type="button" id="next" title="the record after it that is on this page">›</button>
<span class="views">
<button type="button" data-view="oblique">oblique</button>
<button type="button" data-view="x">along x</button>
<button type="button" data-view="y">along y</button>
<button type="button" data-view="z">along z</button>
<button type="button" data-zoom="1.25" title="nearer">+</button>
<button type="button" data-zoom="0.8" title="farther">−</button>
</span>
</form>
<p id="said" role="status"></p>
<svg id="drawing" class="drawing" viewBox="0 0 720 440" role="img" tabindex="0" aria-labelledby="said"></svg>
<p class="note key"><span class="one">shape 1 and its point</span> <span class="two">shape 2 and its point</span> <span class="normal">NORMAL</span></p>
<p class="note">Drag to turn, or use the arrow keys, + and −. Everything is in the frame of shape 1; lines on the far side of a shape are faint.</p>
<noscript><p class="warning">The drawings need scripting, which is off.</p></noscript>
<div class="numbers"><div><h3>The record</h3><pre id="record"></pre></div><div><h3>The answer</h3><pre id="answer"></pre></div></div>"""


def drawing(normal):
    """`normal` says what the arrow is."""
    return DRAWING.replace("NORMAL", normal)


def answer_data(answer, name=None):
    measured = answer.measure() and cases.measure_text(answer.measure(), answer.vectors())
    return {"letter": answer.letter, "words": answer.words(), "counts": answer.counts, "measured": measured, "name": name}


def page_data(records, first, missing):
    """`first` is the record that is drawn first, `missing` says how one that is not on the page gets there."""
    letters = {letter: [told.meaning, told.groups] for letter, told in cases.LETTERS.items()}
    return {"letters": letters, "counts": cases.COUNTS, "records": records, "first": first, "missing": missing}
