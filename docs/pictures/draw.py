#!/usr/bin/env python3
"""Draws the two pictures of ARCHITECTURE.md: `draw.py` writes processes.svg and daemon.svg beside itself."""
import os

HERE = os.path.dirname(os.path.abspath(__file__))
HEAD = (
    '<svg xmlns="http://www.w3.org/2000/svg" viewBox="0 0 {w} {h}" role="img" font-family="sans-serif" font-size="15">\n'
    "<title>{title}</title>\n"
    '<defs><marker id="tip" viewBox="0 0 10 10" refX="9" refY="5" markerWidth="8" markerHeight="8" orient="auto-start-reverse">'
    '<path d="M0 0L10 5L0 10z" fill="#222"/></marker></defs>\n'
    '<rect width="{w}" height="{h}" fill="#fff"/>\n'
)


def lines_at(x, y, lines, anchor="middle", step=18, weight=""):
    """The lines of a text, one under the other, the first with its base at y."""
    return "".join(
        f'<text x="{x}" y="{y + step * i}" text-anchor="{anchor}"{weight if i == 0 else ""} fill="#222">{line}</text>\n'
        for i, line in enumerate(lines)
    )


def box(x, y, w, h, lines, thick=False):
    """A box with a heading and the lines under it."""
    top = y + h / 2 - 9 * (len(lines) - 1) + 5
    return (
        f'<rect x="{x}" y="{y}" width="{w}" height="{h}" rx="6" fill="{"#eef3fa" if thick else "#fafafa"}" '
        f'stroke="#222" stroke-width="{3 if thick else 1.5}"/>\n'
        + lines_at(x + w / 2, top, lines, weight=' font-weight="bold"')
    )


def arrow(x1, y1, x2, y2, lines=(), at=None, anchor="middle", both=False, dashed=False):
    """An arrow from who asks to who is asked, with what it asks for."""
    at = at or ((x1 + x2) / 2, (y1 + y2) / 2 - 6)
    return (
        f'<line x1="{x1}" y1="{y1}" x2="{x2}" y2="{y2}" stroke="#222" stroke-width="1.6" marker-end="url(#tip)"'
        + (' marker-start="url(#tip)"' if both else "")
        + (' stroke-dasharray="6 4"' if dashed else "")
        + "/>\n"
        + lines_at(at[0], at[1], lines, anchor, 17)
    )


def path(points, lines=(), at=(0, 0), anchor="middle"):
    """An arrow with corners."""
    corners = " ".join(f"{x},{y}" for x, y in points)
    return (
        f'<polyline points="{corners}" fill="none" stroke="#222" stroke-width="1.6" marker-end="url(#tip)"/>\n'
        + lines_at(at[0], at[1], lines, anchor, 17)
    )


def processes():
    """Who asks whom, for what."""
    parts = [
        box(20, 20, 230, 76, ["measuring tor", "measures the relays"]),
        box(20, 186, 230, 96, ["renew.py", "writes the station's input:", "roster, schedule, rules,", "what was measured"]),
        box(20, 382, 230, 76, ["relays"]),
        box(390, 20, 240, 76, ["key service", "holds the private keys"]),
        box(390, 186, 240, 96, ["dirauth serve", "votes, computes, signs,", "publishes"], thick=True),
        box(390, 382, 240, 96, ["front", "nginx and front.py:", "compression, many clients"]),
        box(790, 20, 220, 76, ["dirmirror", "holds what a majority signed"], thick=True),
        box(790, 186, 170, 96, ["authorities", "the others of the roster"]),
        box(790, 382, 220, 76, ["clients and caches"]),
        arrow(135, 186, 135, 98, ["asks"], (145, 146), "start"),
        arrow(250, 234, 388, 234, ["given once,", "at the start"], (319, 208)),
        arrow(510, 186, 510, 98, ["verify this, sign this", "(Unix socket)"], (520, 138), "start"),
        arrow(790, 58, 632, 58, ["verify this"], (711, 50)),
        arrow(875, 96, 875, 184, ["GET consensus,", "certificates,", "microdescriptors"], (866, 126), "end"),
        arrow(632, 234, 788, 234, ["POST vote, signatures;", "GET what is missing"], (710, 206)),
        arrow(250, 420, 388, 420, ["POST descriptors"], (319, 412)),
        arrow(510, 382, 510, 284, ["uploads, requests", "for documents"], (500, 330), "end"),
        arrow(830, 282, 632, 396, ["POST vote, signatures;", "GET what is missing"], (772, 338), "start"),
        arrow(790, 440, 632, 440, ["GET documents"], (711, 432)),
        path([(985, 382), (985, 98)], ["GET"], (978, 160), "end"),
    ]
    title = "The processes of an authority: an arrow goes from who asks to who is asked"
    return HEAD.format(w=1030, h=500, title=title) + "".join(parts) + "</svg>\n"


def daemon():
    """What stands inside of `dirauth serve`, and who holds what."""
    parts = []
    for i, x in enumerate((40, 290, 540, 790)):
        says, gives = ("accepts, gathers a request", "a connection") if i else ("only tells that time passed", "Idle, each second")
        parts.append(box(x, 20, 200, 58, [f"gate {i + 1}", says]))
        parts.append(arrow(x + 100, 80, x + 100, 128, [gives], (x + 108, 108), "start"))
    parts += [
        box(40, 130, 200, 112, ["worker 1: the keeper", "a pass, a clock,", "a verifier; besides a", "round, a signer, a link"], thick=True),
        *[box(x, 130, 200, 112, [f"worker {i}", "a pass, a clock,", "a verifier"]) for i, x in ((2, 290), (3, 540), (4, 790))],
        box(40, 420, 200, 60, ["peers", "over the link"]),
        '<rect x="290" y="330" width="700" height="170" rx="6" fill="none" stroke="#222" stroke-dasharray="8 4"/>\n',
        lines_at(640, 489, ["board: what all workers share"], weight=' font-weight="bold"'),
        box(310, 350, 320, 112, ["lock of the state", "stage, held votes, signatures,", "the documents that stand;", "each change is one entry"]),
        box(650, 350, 320, 112, ["lock of the pool", "the newest checked descriptor of", "each relay, its microdescriptors"]),
        arrow(390, 244, 430, 348, ["offer, sign_in, ask"], (424, 290), "start"),
        arrow(620, 244, 560, 348),
        arrow(690, 244, 770, 348, ["keep, look"], (742, 290), "start"),
        arrow(890, 244, 860, 348),
        arrow(200, 244, 350, 348, ["advance"], (286, 296), "start"),
        arrow(90, 244, 90, 418, ["POST, GET"], (100, 336), "start"),
    ]
    return HEAD.format(w=1030, h=520, title="Inside of dirauth serve: gates, workers, the board with its two locks") + "".join(parts) + "</svg>\n"


for name, picture in (("processes", processes()), ("daemon", daemon())):
    with open(os.path.join(HERE, name + ".svg"), "w", encoding="utf-8") as page:
        page.write(picture)
