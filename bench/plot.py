#!/usr/bin/env python3
"""Draws the time of a lookup against the number of entries: reads lines `ENTRIES RUST THIS` (nanoseconds) from standard
input, writes an SVG to standard output. The number of entries is on a logarithmic axis, so a logarithm is a straight line."""
import math
import sys

WIDTH, HEIGHT, LEFT, BOTTOM, TOP, RIGHT = 640, 400, 60, 50, 20, 20


def main():
    rows = [tuple(float(x) for x in line.split()) for line in sys.stdin if line.strip()]
    most = max(max(r[1], r[2]) for r in rows)
    step = 10 ** math.floor(math.log10(most))
    top = math.ceil(most / step) * step
    low, high = math.log2(rows[0][0]), math.log2(rows[-1][0])

    def x(entries):
        return LEFT + (math.log2(entries) - low) / (high - low) * (WIDTH - LEFT - RIGHT)

    def y(ns):
        return HEIGHT - BOTTOM - ns / top * (HEIGHT - BOTTOM - TOP)

    out = [
        f'<svg xmlns="http://www.w3.org/2000/svg" width="{WIDTH}" height="{HEIGHT}" font-family="sans-serif" font-size="12">',
        f'<rect width="{WIDTH}" height="{HEIGHT}" fill="white"/>',
    ]
    ticks = 5
    for k in range(ticks + 1):
        ns = top * k / ticks
        out.append(f'<line x1="{LEFT}" x2="{WIDTH - RIGHT}" y1="{y(ns):.1f}" y2="{y(ns):.1f}" stroke="#ddd"/>')
        out.append(f'<text x="{LEFT - 8}" y="{y(ns) + 4:.1f}" text-anchor="end">{ns:g}</text>')
    for bits in range(int(low), int(high) + 1, 2):
        out.append(f'<text x="{x(2**bits):.1f}" y="{HEIGHT - BOTTOM + 18}" text-anchor="middle">{2**bits:,}</text>')
    for column, colour, name in ((1, "#b04a2f", "the Rust"), (2, "#2f5fb0", "this reader")):
        points = " ".join(f"{x(r[0]):.1f},{y(r[column]):.1f}" for r in rows)
        out.append(f'<polyline points="{points}" fill="none" stroke="{colour}" stroke-width="2"/>')
        at = TOP + 16 * column
        out.append(f'<line x1="{LEFT + 16}" x2="{LEFT + 40}" y1="{at}" y2="{at}" stroke="{colour}" stroke-width="2"/>')
        out.append(f'<text x="{LEFT + 46}" y="{at + 4}">{name}</text>')
    out.append(f'<text x="{WIDTH / 2}" y="{HEIGHT - 12}" text-anchor="middle">entries of the file</text>')
    out.append(f'<text x="14" y="{HEIGHT / 2}" transform="rotate(-90 14 {HEIGHT / 2})" text-anchor="middle">ns a lookup by name</text>')
    out.append("</svg>")
    print("\n".join(out))


main()
