#!/usr/bin/env python3
"""Draws rates of the server beside nginx's, from the table 'Rates' of the README beside this file.

    bench/serve/picture.py > docs/rates.svg
"""

import os
import re

HERE = os.path.dirname(os.path.abspath(__file__))
PANELS = [
    ("HEADs a second, thousands", r"HEADs a second, (\d+) connections", 1000),
    ("PATCHes of 64 KiB, MB a second", r"PATCHes of 64 KiB, (\d+) connections", 1),
]
CONNECTIONS = (1, 4, 16, 64)
SERVE, NGINX, INK, FAINT = "#2f6fb7", "#b9b3a6", "#3d3d3a", "#8a877e"
WIDTH, BAR, GAP, TOP = 360, 13, 12, 46


def rows_of(pattern, unit):
    """Returns for each number of connections the rates of the server and of nginx."""
    found = {}
    with open(f"{HERE}/README.md", encoding="utf-8") as lines:
        for line in lines:
            cells = [it.strip() for it in line.strip().strip("|").split("|")]
            at = re.fullmatch(pattern, cells[0])
            if at and int(at[1]) in CONNECTIONS and int(at[1]) not in found:
                found[int(at[1])] = [float(re.sub(r"[^\d.]", "", it)) / unit for it in cells[1:3]]
    return found


def text(x, y, said, colour=INK, anchor="start", size=12):
    return f'<text x="{x}" y="{y}" fill="{colour}" font-size="{size}" text-anchor="{anchor}">{said}</text>'


def panel(left, title, pattern, unit):
    """Draws a panel: a pair of bars for each number of connections."""
    rows, parts = rows_of(pattern, unit), [text(left, 20, title, size=13)]
    scale = (WIDTH - 130) / max(max(pair) for pair in rows.values())
    for place, connections in enumerate(CONNECTIONS):
        y = TOP + place * (2 * BAR + GAP)
        parts.append(text(left + 30, y + BAR + 4, connections, FAINT, "end"))
        for offset, (rate, colour) in enumerate(zip(rows[connections], (SERVE, NGINX))):
            length = rate * scale
            parts.append(f'<rect x="{left + 38}" y="{y + offset * BAR}" width="{length:.1f}" height="{BAR - 2}" rx="2" fill="{colour}"/>')
            parts.append(text(f"{left + 44 + length:.1f}", y + offset * BAR + 10, f"{rate:,.0f}", FAINT, size=11))
    return parts


def main():
    height = TOP + len(CONNECTIONS) * (2 * BAR + GAP) + 34
    parts = [f'<svg xmlns="http://www.w3.org/2000/svg" viewBox="0 0 {2 * WIDTH + 20} {height}" font-family="sans-serif">']
    parts.append(f'<rect width="{2 * WIDTH + 20}" height="{height}" fill="#ffffff"/>')
    for place, (title, pattern, unit) in enumerate(PANELS):
        parts += panel(16 + place * (WIDTH + 10), title, pattern, unit)
    y = height - 16
    parts += [f'<rect x="54" y="{y - 10}" width="11" height="11" rx="2" fill="{SERVE}"/>', text(70, y, "Cadrusmo")]
    parts += [f'<rect x="150" y="{y - 10}" width="11" height="11" rx="2" fill="{NGINX}"/>', text(166, y, "nginx")]
    parts.append(text(250, y, "rows: connections at once", FAINT))
    print("\n".join([*parts, "</svg>"]))


if __name__ == "__main__":
    main()
