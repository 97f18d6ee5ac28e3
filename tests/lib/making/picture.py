"""The picture docs/layers.svg, drawn from crates.txt: the layers of crates, and which uses which. A
line leads from a layer to each one that it uses, except to those that other lines reach. The same
picture comes each time."""
import sys

from sources import TOP, crates, lines

PICTURE = TOP / "docs" / "layers.svg"
MARGIN = 10  # around all, in pixels
APART = "tests"  # the layer that the picture leaves out
# Each layer of crates.txt: its column and row in the picture, what it does, and what it knows.
LAYERS = {
    "program": (1, 0, "words, files, a port", "all layers"),
    "wire": (1, 1, "requests (1, 2), answers (4, 6)", "machine, no rows"),
    "texts": (0, 2, "CSV, lists, pictures, pages", "plans and replies"),
    "desk": (1, 2, "reads, decides, gives changes (3)", "machine and tables"),
    "tables": (1, 3, "eight tables: memory or SQL (5)", "rows and records"),
    "machine": (1, 4, "what each command means", "no storage"),
    "transaction": (0, 5, "draft, owner, commit", "rules"),
    "register": (2, 5, "inspections, orders, parts", "its records"),
    "rules": (0, 6, "V1 to V14, reasons, street", "a plan"),
    "records": (1, 7, "rows of a plan, numbers, texts", "nothing else"),
}
ACROSS, BOX, DEEP, DOWN = 300, 280, 50, 78  # of the layers' picture: columns, boxes, rows

STYLE = """
  rect { fill: #eef2f7; stroke: #5b6b7f }
  rect.paper { fill: #ffffff; stroke: none }
  rect.tables { fill: #e3f2e1 } rect.desk { fill: #f8edd3 }
  rect.http { fill: #dfecfb } rect.program { fill: #efe3f8 }
  text { fill: #16202c; font: 12px ui-monospace, Menlo, Consolas, monospace; text-anchor: middle }
  path { fill: none; stroke: #74849a; stroke-width: 1.3 }
  marker path { fill: #74849a; stroke: none }
  @media (prefers-color-scheme: dark) {
    rect { fill: #263243; stroke: #93a4b8 }
    rect.paper { fill: #12171d }
    rect.tables { fill: #213a29 } rect.desk { fill: #43381d }
    rect.http { fill: #1b3654 } rect.program { fill: #3c2a4b }
    text { fill: #eef3f8 } path { stroke: #8c9db0 } marker path { fill: #8c9db0 }
  }
"""


def below(named):
    """All that each crate stands on."""
    found = {}

    def visit(name):
        if name not in found:
            found[name] = set().union(*({it} | visit(it) for it in named[name]))
        return found[name]

    for name in named:
        visit(name)
    return found


def arrows_of(named):
    """What each crate stands on and reaches by no other one."""
    reached = below(named)
    return {name: [it for it in others if not any(it in reached[x] for x in others)]
            for name, others in named.items()}


def layer_arrows():
    """The layers that each layer uses and reaches by no other one."""
    layers = {name: layer for name, layer, _, _ in lines() if layer != APART}
    if unknown := {*layers.values()} - LAYERS.keys():
        sys.exit(f"picture.py: LAYERS has no layer {', '.join(sorted(unknown))}")
    uses = {layer: [] for layer in LAYERS}
    for name, others in crates()[0].items():
        if (high := layers.get(name)):
            found = {layers[it] for it in others} - {high}
            uses[high] += sorted(found - {*uses[high]})
    return arrows_of(uses)


def picture():
    high = DOWN * max(row for _, row, *_ in LAYERS.values()) + DEEP + 2 * MARGIN
    wide = 2 * ACROSS + BOX + 2 * MARGIN
    yield f'<svg xmlns="http://www.w3.org/2000/svg" viewBox="0 0 {wide} {high}" role="img">'
    yield "<title>The layers, and which uses which</title>"
    yield f"<style>{STYLE} text.name {{ font-weight: bold }} text {{ font-size: 11px }}</style>"
    yield ('<marker id="end" viewBox="0 0 8 8" refX="7" refY="4" markerWidth="7" markerHeight="7" '
           'orient="auto"><path d="M0 0L8 4L0 8z"/></marker>')
    yield f'<rect class="paper" width="{wide}" height="{high}"/>'
    middle = {it: MARGIN + ACROSS * column + BOX // 2 for it, (column, *_) in LAYERS.items()}
    top = {it: MARGIN + DOWN * row for it, (_, row, *_) in LAYERS.items()}
    for upper, lowers in layer_arrows().items():
        for lower in lowers:
            begin, end = top[upper] + DEEP, top[lower]
            half = (begin + end) // 2
            x, to = middle[upper], middle[lower]
            yield (f'<path marker-end="url(#end)" d="M{x} {begin}C{x} {half} {to} {half} '
                   f'{to} {end}"/>')
    kinds = {"program": "program", "wire": "http", "desk": "desk", "tables": "tables"}
    for name, (_, _, does, knows) in LAYERS.items():
        yield (f'<rect class="{kinds.get(name, "rules")}" x="{middle[name] - BOX // 2}" '
               f'y="{top[name]}" width="{BOX}" height="{DEEP}" rx="5"/>')
        said = ((name, 15, ' class="name"'), (does, 30, ""), (f"knows {knows}", 43, ""))
        for text, down, kind in said:
            yield f'<text{kind} x="{middle[name]}" y="{top[name] + down}">{text}</text>'
    yield "</svg>"


def drawn():
    return "\n".join(picture()) + "\n"


def is_drawn():
    return PICTURE.exists() and PICTURE.read_text() == drawn()
