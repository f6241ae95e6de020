#!/usr/bin/env python3
"""Draws the pictures of a stream and their references: `./mv_cli show < STREAM | tools/draw_references.py > DRAWING.svg`.

A row is a layer, a column an access unit, from left to right in decoding order. A box is a picture with its picture order count:
filled where its layer starts with it, white where it is decoded, dashed where it is skipped; a thin border where it is not put out
(pic_output_flag 0). An arrow leads from a picture to each picture that one of its reference picture lists names: a curve within a
layer, a straight line between views. `--from N --count M` draws M access units from number N on; references from before are dots.
"""

import argparse
import re
import sys

UNIT = re.compile(r"unit \d+ at \d+: layer (\d+) tid \d+ (\S+)( stray)?$")
COLUMN, ROW, WIDTH, HEIGHT, LEFT, TOP = 64, 92, 44, 30, 70, 60
COLOURS = {"start": "#2f6f8f", "decoded": "#ffffff", "skipped": "#f0f0f0"}


class Picture:
    def __init__(self, column, layer, kind, count, state, shown):
        self.column, self.layer, self.kind = column, layer, kind
        self.count, self.state, self.shown = count, state, shown
        self.references = []


def pictures_of(lines):
    """The pictures of the text of `show`, with their references, and how many access units it has."""
    pictures, latest, column = [], {}, -1
    layer, kind, shown, picture = 0, "", True, None
    for line in lines:
        line = line.rstrip("\n")
        if unit := UNIT.match(line):
            layer, kind, shown = int(unit[1]), unit[2], True
        elif line == "  pic_output_flag=0":
            shown = False
        elif found := re.match(r"  picture count=(\S+) state=(\S+)$", line):
            column += layer == 0
            picture = Picture(column, layer, kind, found[1], found[2], shown)
            pictures.append(picture)
            if picture.state != "skipped":
                latest[layer, picture.count] = picture
        elif found := re.match(r"  list[01]=(.*)$", line):
            for entry in found[1].split(",") if found[1] else []:
                number, count = entry.split(":")
                referred = latest.get((int(number), count))
                if referred and referred not in picture.references:
                    picture.references.append(referred)
    return pictures, column + 1


class Drawing:
    def __init__(self, pictures, first, count):
        self.first, self.count = first, count
        self.pictures = [it for it in pictures if first <= it.column < first + count]
        self.layers = sorted({it.layer for it in self.pictures})
        self.parts = []

    def x(self, picture):
        return LEFT + (picture.column - self.first) * COLUMN + WIDTH // 2

    def y(self, picture):
        return TOP + (len(self.layers) - 1 - self.layers.index(picture.layer)) * ROW + HEIGHT // 2

    def add(self, part):
        self.parts.append(part)

    def box(self, picture):
        x, y = self.x(picture) - WIDTH // 2, self.y(picture) - HEIGHT // 2
        dashes = ' stroke-dasharray="4 3"' if picture.state == "skipped" else ""
        width = 1.8 if picture.shown else 0.6
        ink = "#ffffff" if picture.state == "start" else "#1b1b1b"
        self.add(
            f'<rect x="{x}" y="{y}" width="{WIDTH}" height="{HEIGHT}" rx="5" fill="{COLOURS[picture.state]}"'
            f' stroke="#1b1b1b" stroke-width="{width}"{dashes}><title>{picture.kind} of layer {picture.layer},'
            f" count {picture.count}, {picture.state}</title></rect>"
        )
        label = "–" if picture.count == "none" else picture.count
        self.add(f'<text x="{self.x(picture)}" y="{self.y(picture) + 4}" fill="{ink}">{label}</text>')

    def arrow(self, picture, referred):
        x, y = self.x(picture), self.y(picture)
        if referred.column < self.first:
            self.add(f'<circle cx="{LEFT - 14}" cy="{y}" r="2.5" fill="#b5532a"/>')
            return
        to_x, to_y = self.x(referred), self.y(referred)
        if referred.layer == picture.layer:
            rise = HEIGHT / 2 + min(28, 6 + abs(x - to_x) / 9)
            top = y - HEIGHT // 2
            path = f"M{x} {top} C{x} {top - rise} {to_x} {top - rise} {to_x} {top}"
            colour = "#b5532a"
        else:
            below = HEIGHT // 2 if to_y > y else -HEIGHT // 2
            path = f"M{x} {y + below} L{to_x} {to_y - below}"
            colour = "#3d7a3a"
        self.add(f'<path d="{path}" fill="none" stroke="{colour}" stroke-width="1.2" marker-end="url(#tip)"/>')

    def text(self):
        width = LEFT + self.count * COLUMN + 10
        height = TOP + len(self.layers) * ROW - ROW + HEIGHT + 34
        for layer in self.layers:
            y = TOP + (len(self.layers) - 1 - self.layers.index(layer)) * ROW + HEIGHT // 2
            self.add(f'<text x="30" y="{y + 4}" fill="#1b1b1b">layer {layer}</text>')
        for number in range(self.first, self.first + self.count):
            x = LEFT + (number - self.first) * COLUMN + WIDTH // 2
            self.add(f'<text x="{x}" y="{height - 12}" fill="#777777">{number}</text>')
        for picture in self.pictures:
            for referred in picture.references:
                self.arrow(picture, referred)
        for picture in self.pictures:
            self.box(picture)
        return (
            f'<svg xmlns="http://www.w3.org/2000/svg" width="{width}" height="{height}" font-family="sans-serif"'
            ' font-size="12" text-anchor="middle"><defs><marker id="tip" viewBox="0 0 8 8" refX="7" refY="4"'
            ' markerWidth="6" markerHeight="6" orient="auto"><path d="M0 0L8 4L0 8z" fill="#555555"/></marker></defs>'
            f'<rect width="{width}" height="{height}" fill="#ffffff"/>\n' + "\n".join(self.parts) + "\n</svg>\n"
        )


def main():
    words = argparse.ArgumentParser(description=__doc__.split("\n")[0])
    words.add_argument("--from", dest="first", type=int, default=0, help="the first access unit drawn")
    words.add_argument("--count", type=int, help="how many access units are drawn")
    given = words.parse_args()
    pictures, units = pictures_of(sys.stdin)
    count = units - given.first if given.count is None else min(given.count, units - given.first)
    if count < 1:
        sys.exit("draw_references: no picture stands there")
    sys.stdout.write(Drawing(pictures, given.first, count).text())


if __name__ == "__main__":
    main()
