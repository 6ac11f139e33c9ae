#!/usr/bin/env python3
"""Draws two pictures of what the repository says: docs/speed.svg of the first table in SPEED.md, and docs/crates.svg of
crates.txt. Each is for light and dark. Needs Python 3.8 and nothing else; tests/documents makes them again.

  docs/draw.py    writes both
"""
import pathlib
import re
from xml.sax.saxutils import escape

HERE = pathlib.Path(__file__).resolve().parent
STYLE = """<style>
  text { font: 13px system-ui, sans-serif; fill: #1f2328; }
  .small { font-size: 11px; fill: #59636e; paint-order: stroke; stroke: #ffffff; stroke-width: 3px; }
  .line { stroke: #818b98; fill: none; }
  .ground { fill: #ffffff; }
  .first { fill: #0969da; } .second { fill: #9ec7f5; }
  .box, .test { fill: #f6f8fa; stroke: #818b98; } .test { stroke-dasharray: 3 3; }
  .matter { fill: #ddf4ff; stroke: #0969da; stroke-width: 2; }
  @media (prefers-color-scheme: dark) {
    text { fill: #f0f6fc; } .small { fill: #9198a1; stroke: #0d1117; } .line { stroke: #656c76; } .ground { fill: #0d1117; }
    .first { fill: #4493f8; } .second { fill: #1f4b82; }
    .box, .test { fill: #151b23; stroke: #656c76; } .matter { fill: #0c2d4d; stroke: #4493f8; }
  }
</style>"""


def read(path):
    return (HERE.parent / path).read_text(encoding="utf-8")


def svg(width, height, title, parts):
    """A picture with a title, which a screen reader says."""
    head = f'<svg xmlns="http://www.w3.org/2000/svg" width="{width}" height="{height}" viewBox="0 0 {width} {height}" role="img">'
    ground = f'<rect class="ground" width="{width}" height="{height}"/>'
    return "\n".join([head, f"<title>{escape(title)}</title>", STYLE, ground, *parts, "</svg>"]) + "\n"


def text(x, y, words, anchor="start", kind=""):
    kind = f' class="{kind}"' if kind else ""
    return f'<text x="{x}" y="{y}" text-anchor="{anchor}"{kind}>{escape(words)}</text>'


# ---- speed


def calls():
    """Each call of the first table, with its ratios on x86-64 and on aarch64."""
    rows = [[cell.strip() for cell in line.split("|")[1:-1]]
            for line in re.search(r"(?:^\|.*\n)+", read("docs/SPEED.md"), re.M)[0].splitlines()]
    ratios = [index for index, head in enumerate(rows[0]) if head == "ratio"]
    return [(row[0], *(float(row[index]) for index in ratios)) for row in rows[2:]]


def speed():
    """Two bars for each call, from 0 on, and a line at 1: as many instructions as plain C."""
    left, top, step, scale = 265, 56, 32, 150
    rows = calls()
    bottom = top + step * len(rows)
    parts = [text(12, 22, "Instructions of the calls for C, beside plain C that does the same (1.00)")]
    for x, kind, words in ((left, "first", "x86-64"), (left + 90, "second", "aarch64")):
        parts += [f'<rect class="{kind}" x="{x}" y="34" width="12" height="10"/>', text(x + 18, 43, words, kind="small")]
    for index, (name, *ratios) in enumerate(rows):
        y = top + step * index
        parts.append(text(left - 10, y + 17, name, "end"))
        for at, kind, ratio in zip((y + 2, y + 15), ("first", "second"), ratios):
            parts.append(f'<rect class="{kind}" x="{left}" y="{at}" width="{round(ratio * scale)}" height="11"/>')
            parts.append(text(left + round(ratio * scale) + 5, at + 9, f"{ratio:.2f}", kind="small"))
    one = left + scale
    parts.insert(1, f'<path class="line" stroke-dasharray="4 3" d="M{one} {top - 4}V{bottom}"/>')
    parts.append(text(one, bottom + 16, "1.00: plain C", "middle", "small"))
    return svg(720, bottom + 28, "Instructions of the calls for C, beside plain C", parts)


# ---- what stands on what

# Folders that are made of a crate, or of one another.
FOLDERS = {"dist": ["sec1_c"], "bindings": ["dist"], "web": ["dist"]}
MATTER = {"sec1_der", "sec1", "sec1_inspect"}


def uses():
    """Each crate and folder, and those of them that it uses and reaches by no other that it uses."""
    listed = re.findall(r"^(\w+)(?: staticlib)?: (.*)$", read("crates.txt"), re.M)
    names = {name for name, _ in listed}
    every = {name: [other for other in others.split() if other in names] for name, others in listed}
    every.update(FOLDERS)

    def below(name):
        return {other for used in every[name] for other in below(used) | {used}}
    return {name: [used for used in others if not any(used in below(other) for other in others)]
            for name, others in every.items()}


def levels(edges):
    """The names by how many stand below them, from none on: each level from left to right."""
    def height(name):
        return 1 + max(map(height, edges[name])) if edges[name] else 0
    rows = [[name for name in edges if height(name) == level] for level in range(max(map(height, edges)) + 1)]
    places = {}
    for row in rows:
        middle = {name: sum(places[used] for used in edges[name]) / max(1, len(edges[name])) for name in row}
        row.sort(key=lambda name: (middle[name], name not in MATTER))
        places.update({name: (index + 1) / (len(row) + 1) for index, name in enumerate(row)})
    return rows


def crates():
    """A box for each crate and folder, above those that it uses."""
    edges = uses()
    rows = levels(edges)
    wide, high, gap, rise, width = 132, 28, 16, 74, 780
    spots = {}
    for level, row in enumerate(rows):
        left = (width - len(row) * (wide + gap) + gap) / 2
        for index, name in enumerate(row):
            spots[name] = (round(left + index * (wide + gap)), 44 + rise * (len(rows) - 1 - level))
    tests = set(re.findall(r"^(\w+)", read("crates.txt").split("# what proves and measures them\n")[1], re.M))
    parts = [text(12, 22, "What stands on what: the three crates that are the matter, and dashed what proves and measures")]
    for name, others in edges.items():
        x, y = spots[name][0] + wide // 2, spots[name][1] + high
        for other in others:
            to_x, to_y = spots[other][0] + wide // 2, spots[other][1]
            parts.append(f'<path class="line" d="M{x} {y}C{x} {y + 24} {to_x} {to_y - 24} {to_x} {to_y}"/>')
    for name, (x, y) in spots.items():
        kind = "matter" if name in MATTER else "test" if name in tests else "box"
        parts.append(f'<rect class="{kind}" x="{x}" y="{y}" width="{wide}" height="{high}" rx="5"/>')
        parts.append(text(x + wide // 2, y + 19, name, "middle"))
    return svg(width, 44 + rise * (len(rows) - 1) + high + 16, "What stands on what", parts)


def drawings():
    """Each picture, by its path."""
    return {"docs/speed.svg": speed(), "docs/crates.svg": crates()}


if __name__ == "__main__":
    for path, drawn in drawings().items():
        (HERE.parent / path).write_text(drawn, encoding="utf-8")
