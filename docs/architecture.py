#!/usr/bin/env python3
"""The architecture as a picture: the groups of crates.txt with their crates, and the ways of a matrix and of a file.

  docs/architecture.py > docs/architecture.svg
  docs/architecture.py --check     status 1 if docs/architecture.svg is not what this prints, or a way names no crate
"""
import re
import sys
from html import escape
from pathlib import Path

ROOT = Path(__file__).resolve().parent.parent
# station: a crate, and what it does to what arrives
MATRIX = [("suontarvi", "the C call: lengths, then the call behind it"), ("sparse", "the matrix is tested"),
          ("mc64_symmetric", "its cost graph"), ("hungarian_match", "the match of the graph"),
          ("mc64", "factors of the match")]
FILE = [("text_program", "the bytes are read"), ("text_matrix_market", "lines and entries"),
        ("text_graph", "the cost graph"), ("hungarian_match", "the match of the graph"),
        ("text_report", "the text of the match")]
LEFT, TOP, WIDTH, LINE, CHARS, STATION = 20, 60, 640, 19, 76, 360
FILL = 'fill="#f6f6f3" stroke="#999"'
COLOURS = {"matrix": "#1f5fa8", "file": "#b3541e"}


def groups():
    """[(group, [crate])] in the order of crates.txt, leaves first"""
    found = []
    for line in (ROOT / "crates.txt").read_text().splitlines():
        if m := re.match(r"# (.+)$", line):
            found.append((m[1], []))
        elif (m := re.match(r"(\w+)[^:#]*:", line)) and found:
            found[-1][1].append(m[1])
    return [(group, crates) for group, crates in found if crates]


def wrapped(words):
    lines = [""]
    for word in words:
        if len(lines[-1]) + len(word) + 2 > CHARS:
            lines.append("")
        lines[-1] += ("  " if lines[-1] else "") + word
    return lines


def text(x, y, words, style=""):
    return f'<text x="{x}" y="{y}" {style}>{escape(words)}</text>'


def boxes():
    """the groups' boxes, and at which height each crate's group stands"""
    drawn, at, y = [], {}, TOP
    for group, crates in groups():
        lines = wrapped(crates)
        height = LINE * (len(lines) + 1) + 12
        drawn.append(f'<rect x="{LEFT}" y="{y}" width="{WIDTH}" height="{height}" rx="6" {FILL}/>')
        drawn.append(text(LEFT + 12, y + LINE, group, 'font-weight="bold"'))
        drawn += [text(LEFT + 12, y + LINE * (k + 2), line, 'class="mono"') for k, line in enumerate(lines)]
        at.update({crate: (group, y + height / 2) for crate in crates})
        y += height + 12
    return drawn, at, y


def way(name, stations, at, x, y):
    """one way: a station a line, from top to bottom, each with its group"""
    colour = COLOURS[name]
    drawn = [text(x, y, f"the way of a {name}", f'font-weight="bold" fill="{colour}"')]
    for k, (crate, what) in enumerate(stations):
        here = y + 26 + 62 * k
        drawn.append(f'<rect x="{x}" y="{here}" width="{STATION}" height="44" rx="5" fill="white" stroke="{colour}"/>')
        drawn.append(text(x + 10, here + 18, crate, f'class="mono" fill="{colour}"'))
        drawn.append(text(x + 10, here + 36, f"{what} ({at[crate][0]})", 'class="small"'))
        if k:
            line = f"M{x + STATION / 2:.0f} {here - 18} V{here - 2}"
            drawn.append(f'<path d="{line}" stroke="{colour}" marker-end="url(#{name})"/>')
    return drawn, y + 26 + 62 * len(stations)


def picture():
    drawn, at, low = boxes()
    x = LEFT + WIDTH + 30
    first, y = way("matrix", MATRIX, at, x, TOP + 14)
    second, y = way("file", FILE, at, x, y + 30)
    heads = "".join(f'<marker id="{name}" markerWidth="8" markerHeight="8" refX="5" refY="3" orient="auto">'
                    f'<path d="M0 0 L6 3 L0 6 Z" fill="{colour}"/></marker>' for name, colour in COLOURS.items())
    style = "text{font:14px sans-serif}.mono{font:13px monospace}.small{font:12px sans-serif}"
    size = f'width="{x + STATION + 20}" height="{max(low, y) + 20}"'
    title = text(LEFT, 34, "Suontarvi by groups of crates: each uses those above it", 'font-weight="bold"')
    head = [f'<svg xmlns="http://www.w3.org/2000/svg" {size}>', f"<style>{style}</style>", f"<defs>{heads}</defs>"]
    return "\n".join([*head, title, *drawn, *first, *second, "</svg>", ""])


if __name__ == "__main__":
    svg = picture()
    if sys.argv[1:] == ["--check"]:
        kept = (ROOT / "docs/architecture.svg").read_text()
        sys.exit(0 if kept == svg else "docs/architecture.svg is of another state")
    sys.stdout.write(svg)
