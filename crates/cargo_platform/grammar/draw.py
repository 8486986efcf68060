#!/usr/bin/env python3
"""Draws the railroad diagrams of GRAMMAR.md as SVG files beside this script. Usage: draw.py

Each part of a diagram is a tuple of its width, its height above the rail, its height below it, and a function that
gives the SVG of the part with its left end at a point of the rail.
"""
import os
from xml.sax.saxutils import escape

RAIL, BOX, EDGE, INK, NOTE = "#717a85", "#eef3fb", "#5b7fb4", "#10233f", "#717a85"
LETTER, HALF, GAP, TURN = 8.5, 15, 14, 9


def path(d):
    return f'<path d="{d}" fill="none" stroke="{RAIL}" stroke-width="2"/>'


def box(text, round_ends):
    """A box with a text: with round ends for what stands in the text as it is, and with corners for a name."""
    width = len(text) * LETTER + 22

    def draw(x, y):
        return (
            f'<rect x="{x}" y="{y - HALF}" width="{width}" height="{2 * HALF}" rx="{HALF if round_ends else 3}" '
            f'fill="{BOX}" stroke="{EDGE}" stroke-width="1.5"/>'
            f'<text x="{x + width / 2}" y="{y + 5}" fill="{INK}" text-anchor="middle">{escape(text)}</text>'
        )

    return width, HALF, HALF, draw


def token(text):
    return box(text, True)


def name(text):
    return box(text, False)


def rail(width=0):
    return width, 0, 0, lambda x, y: path(f"M{x} {y}h{width}")


def note(text):
    """Words above the rail."""
    width = len(text) * 7.3 + 16

    def draw(x, y):
        where = f'x="{x + width / 2}" y="{y - 8}"'
        words = f'<text {where} fill="{NOTE}" font-size="12" text-anchor="middle">{escape(text)}</text>'
        return path(f"M{x} {y}h{width}") + words

    return width, 20, 0, draw


def row(*parts):
    """Parts one after another."""
    width = sum(part[0] for part in parts) + GAP * (len(parts) - 1)

    def draw(x, y):
        out = ""
        for index, part in enumerate(parts):
            if index:
                out += path(f"M{x} {y}h{GAP}")
                x += GAP
            out += part[3](x, y)
            x += part[0]
        return out

    return width, max(part[1] for part in parts), max(part[2] for part in parts), draw


def choice(*parts):
    """One of the parts, the first on the rail and the others below it."""
    inner = max(part[0] for part in parts)
    width = inner + 4 * TURN
    places = [0]
    for above, part in zip(parts, parts[1:]):
        places.append(places[-1] + max(above[2], TURN) + 10 + max(part[1], TURN))

    def draw(x, y):
        out = ""
        for place, part in zip(places, parts):
            start, end = x + 2 * TURN, x + 2 * TURN + part[0]
            if place:
                down = place - 2 * TURN
                out += path(f"M{x} {y}q{TURN} 0 {TURN} {TURN}v{down}q0 {TURN} {TURN} {TURN}")
                out += path(f"M{x + width - 2 * TURN} {y + place}"
                            f"q{TURN} 0 {TURN} -{TURN}v-{down}q0 -{TURN} {TURN} -{TURN}")
            else:
                out += path(f"M{x} {y}h{2 * TURN}M{x + width - 2 * TURN} {y}h{2 * TURN}")
            out += part[3](start, y + place) + path(f"M{end} {y + place}H{x + width - 2 * TURN}")
        return out

    return width, parts[0][1], places[-1] + parts[-1][2], draw


def optional(part):
    return choice(rail(part[0]), part)


def again(part, between):
    """The part once or more, with something between two of them, which is gone through from right to left."""
    inner = max(part[0], between[0])
    width = inner + 4 * TURN
    depth = part[2] + 12 + between[1]

    def draw(x, y):
        left, right, start = x + 2 * TURN, x + width - 2 * TURN, x + (width - between[0]) / 2
        out = path(f"M{x} {y}H{left}") + part[3](left, y) + path(f"M{left + part[0]} {y}H{x + width}")
        out += path(f"M{left} {y}q-{TURN} 0 -{TURN} {TURN}v{depth - 2 * TURN}q0 {TURN} {TURN} {TURN}H{start}")
        out += path(f"M{right} {y}"
                    f"q{TURN} 0 {TURN} {TURN}v{depth - 2 * TURN}q0 {TURN} -{TURN} {TURN}H{start + between[0]}")
        return out + between[3](start, y + depth)

    return width, part[1], depth + between[2], draw


def save(file, part):
    """The part between two ends, as a file. The colours are readable on white and on black."""
    width, up, down, draw = part
    x, y = 30, up + 12
    ends = f'<circle cx="12" cy="{y}" r="5" fill="{RAIL}"/><circle cx="{x + width + 18}" cy="{y}" r="5" fill="{RAIL}"/>'
    body = ends + path(f"M12 {y}H{x}M{x + width} {y}h18") + draw(x, y)
    size = (x + width + 30, y + down + 12)
    with open(os.path.join(os.path.dirname(os.path.abspath(__file__)), file), "w", encoding="utf-8") as out:
        out.write(
            f'<svg xmlns="http://www.w3.org/2000/svg" width="{size[0]:g}" height="{size[1]:g}" '
            f'viewBox="0 0 {size[0]:g} {size[1]:g}" font-family="monospace" font-size="14">{body}</svg>\n'
        )


save("condition.svg", choice(
    row(token("cfg("), name("expression"), token(")")),
    row(note("every other text"), name("target name"))))
save("expression.svg", choice(
    row(choice(token("all"), token("any")), token("("), name("members"), token(")")),
    row(token("not"), token("("), name("expression"), token(")")),
    choice(token("true"), token("false")),
    row(note("none of these five words without its mark"), name("identifier"),
        optional(row(token("="), name("string"))))))
save("members.svg", optional(row(again(name("expression"), token(",")), optional(token(",")))))
save("fact.svg", row(name("identifier"), optional(row(token("="), name("string")))))
save("identifier.svg", row(optional(token("r#")), choice(token("_"), name("letter")),
                           optional(again(choice(token("_"), name("letter"), name("digit")), rail(20)))))
save("string.svg", row(token('"'), optional(again(name('any character but "'), rail(20))), token('"')))
