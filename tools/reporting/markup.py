"""Parts of a page: tables, histograms, and the page around them."""
import html
import json
import math
import pathlib

HERE = pathlib.Path(__file__).resolve().parent
escape = html.escape


def count(number):
    return f"{number:,}"


def share(part, whole):
    if not whole:
        return ""
    percent = 100 * part / whole
    return "&lt; 0.1 %" if 0 < percent < 0.1 else f"{percent:.1f} %"


def code(text):
    return f"<code>{escape(text)}</code>"


def record_link(number):
    """A record's number; the drawing follows the link."""
    return f'<a href="#record-{number}">{count(number)}</a>'


def paragraph(text, kind=None):
    return f'<p class="{kind}">{text}</p>' if kind else f"<p>{text}</p>"


def section(title, *parts):
    return "\n".join([f"<section>\n<h2>{title}</h2>", *parts, "</section>"])


def beside(*parts):
    return "\n".join(['<div class="beside">', *parts, "</div>"])


def table(caption, head, rows, numbers):
    """`numbers` are the columns that are set to the right."""

    def cells(tag, row):
        for column, cell in enumerate(row):
            scope = ' scope="col"' if tag == "th" else ""
            kind = ' class="number"' if column in numbers else ""
            yield f"<{tag}{scope}{kind}>{cell}</{tag}>"

    lines = ['<div class="wide"><table>', f"<caption>{caption}</caption>", f"<thead><tr>{''.join(cells('th', head))}</tr></thead>", "<tbody>"]
    lines += [f"<tr>{''.join(cells('td', row))}</tr>" for row in rows]
    return "\n".join(lines + ["</tbody>", "</table></div>"])


# ---- histograms

WIDTH, HEIGHT = 720, 210
LEFT, RIGHT, TOP, BOTTOM = 48, 18, 12, 40
MOST_BARS = 110
WIDEST_BAR = 24
# The height of a bar of one record, in powers of ten: the scale is logarithmic, and one record has to be seen.
FOOT = 0.3


def bins(counter):
    """The width of a bar in values, and the records of each bar from value 0 on."""
    greatest = max(counter)
    width = next(step * 10**power for power in range(9) for step in (1, 2, 5) if greatest // (step * 10**power) < MOST_BARS)
    bars = [0] * (greatest // width + 1)
    for value, records in counter.items():
        bars[value // width] += records
    return width, bars


def values_told(first, width):
    return count(first) if width == 1 else f"{count(first)} to {count(first + width - 1)}"


def histogram(counter, name):
    """Records per value, on a logarithmic scale, with the same numbers as a table for who can't see it."""
    if not counter:
        return paragraph("No record carries counts.")
    width, bars = bins(counter)
    decades = max(1, math.ceil(math.log10(max(bars))))
    step = min((WIDTH - LEFT - RIGHT) / len(bars), WIDEST_BAR)

    def across(bar):
        return LEFT + bar * step

    def up(records):
        return HEIGHT - BOTTOM - (HEIGHT - TOP - BOTTOM) * (math.log10(records) + FOOT) / (decades + FOOT)

    bottom = HEIGHT - BOTTOM
    end = across(len(bars))
    title = f"{name}: records per value, logarithmic; the greatest value is {count(max(counter))}"
    parts = [f'<svg class="chart" viewBox="0 0 {WIDTH} {HEIGHT}" role="img" aria-label="{escape(title)}">']
    for power in range(decades + 1):
        y = up(10**power)
        parts.append(f'<path class="rule" d="M{LEFT} {y:.1f}H{WIDTH - RIGHT}"/>')
        parts.append(f'<text class="tick end" x="{LEFT - 6}" y="{y + 4:.1f}">{count(10**power)}</text>')
    for bar, records in enumerate(bars):
        if records:
            y = up(records)
            parts.append(
                f'<rect class="bar" x="{across(bar):.2f}" y="{y:.1f}" width="{max(step - 1, 1):.2f}" height="{bottom - y:.1f}">'
                f"<title>{name} {values_told(bar * width, width)}: {count(records)} records</title></rect>"
            )
    every = 10 if len(bars) > 30 else 5 if len(bars) > 12 else 1
    for bar in range(0, len(bars), every):
        parts.append(f'<text class="tick middle" x="{across(bar) + step / 2:.1f}" y="{bottom + 15}">{count(bar * width)}</text>')
    parts.append(f'<path class="axis" d="M{LEFT} {bottom}H{end:.1f}"/>')
    parts.append(f'<text class="tick" x="{LEFT}" y="{HEIGHT - 6}">{name}, across; records, up, logarithmic</text>')
    rows = [(values_told(bar * width, width), count(records)) for bar, records in enumerate(bars) if records]
    numbers = table(f"Records by {name.lower()}", (name, "records"), rows, {0, 1})
    return "\n".join(parts + ["</svg>", f"<details><summary>The same as a table</summary>\n{numbers}\n</details>"])


# ---- the page


def page(title, body, data):
    """A page that needs nothing else. `data` is what the drawing shows."""
    carried = json.dumps(data, separators=(",", ":")).replace("<", "\\u003c")
    return f"""<!DOCTYPE html>
<html lang="en">
<head>
<meta charset="utf-8">
<meta name="viewport" content="width=device-width, initial-scale=1">
<title>{escape(title)}</title>
<style>
{(HERE / "page.css").read_text()}</style>
</head>
<body>
<main>
<h1>{escape(title)}</h1>
{body}
</main>
<script type="application/json" id="data">{carried}</script>
<script>
{(HERE / "drawing.js").read_text()}</script>
</body>
</html>
"""
