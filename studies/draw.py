#!/usr/bin/env python3
"""A picture of a machine: its tree of crossbars, each a grid of taps (down) by lines (across), as SVG.

Each cause of a defect has a colour, and a shape or a pattern of dashes; black is a fault that a list misses, yellow a sound part that it
throws away. The nets of an image are pale, and with --design have names: of a pin, or of the table that drives them.
"""

import argparse
import colorsys
import math
import sys
from xml.sax.saxutils import escape

import teramac_texts as texts
from program import add_program, checked_design

CELL, GAP, LABEL, MARGIN, TABLE_ON = 7, 26, 62, 16, "#8fb1dd"
MOST_CROSSES = 4_194_304  # of a picture
MISSED, THROWN, LISTED = "missed", "thrown", "listed"
WIRES = ("stuck0", "stuck1", "short")
# For each cause its colour, its words, and the dashes of a wire or the path of a crosspoint in a square of 6 by 6 around its middle.
MARKS = {
    "stuck0": ("#0072b2", "stuck at 0", ""),
    "stuck1": ("#e07b00", "stuck at 1", "6 3"),
    "short": ("#00855f", "joined to another wire", "2 2"),
    "open": ("#c4421a", "never conducts", "M-3 -3L3 3M3 -3L-3 3"),
    "closed": ("#7a2f8f", "always conducts", "M-3 -3L3 -3L3 3L-3 3Z"),
    "cell": ("#8c4a3c", "wrong cell", ""),
    "register": ("#5a3b33", "stuck register", ""),
    MISSED: ("#000000", "faulty, not on the list", "M-3.5 0L3.5 0M0 -3.5L0 3.5"),
    THROWN: ("#d8ae00", "sound, and on the list", "M-3 3L3 3L0 -3Z"),
    LISTED: ("#b5294f", "on the list", "M-3 0L0 -3L3 0L0 3Z"),
}


class Picture:
    """What is to be seen: for each wire, crosspoint and table a cause, or none; and the shapes that show it, with their extent."""

    def __init__(self, machine, faults, defects, image, compared):
        self.machine = machine
        self.wires, self.crosses, self.tables = marks(machine, faults, defects, compared)
        self.net_of, self.names = image.net_of(machine), {}
        self.closed, self.used = set(image.crosses), {table for table, *_ in image.tables}
        self.shapes, self.width, self.height = [], 0, 0

    def colour(self, net, lightness=0.7):
        """Pale, as a defect never is; darker for names and crosspoints."""
        red, green, blue = colorsys.hls_to_rgb(net * 0.381966 % 1, lightness, 0.5)
        return f"#{int(red * 255):02x}{int(green * 255):02x}{int(blue * 255):02x}"

    def rect(self, x, y, width, height, fill, end="/>"):
        self.shapes.append(f'<rect x="{x}" y="{y}" width="{width}" height="{height}" fill="{fill}"{end}')
        self.width, self.height = max(self.width, x + width), max(self.height, y + height)

    def text(self, x, y, text, more=""):
        self.shapes.append(f'<text x="{x}" y="{y}"{more}>{escape(text)}</text>')
        self.width, self.height = max(self.width, x + 6 * len(text)), max(self.height, y + 4)

    def wire(self, wire, *ends):
        """The line of a wire in the colour of its net, and its mark."""
        path = '<path d="M{} {}L{} {}"'.format(*ends)
        if wire in self.net_of:
            self.shapes.append(f'{path} stroke="{self.colour(self.net_of[wire])}" stroke-width="1.6"/>')
        if wire in self.wires:
            colour, _, dashes = MARKS[self.wires[wire]]
            self.shapes.append(f'{path} stroke="{colour}" stroke-width="2" stroke-dasharray="{dashes if "M" not in dashes else "1 3"}"/>')

    def cross(self, x, y, cause):
        colour, _, path = MARKS[cause]
        fill = colour if cause == "closed" else "none"
        self.shapes.append(f'<path transform="translate({x} {y})" d="{path}" fill="{fill}" stroke="{colour}" stroke-width="1.2"/>')


def causes(machine, faults, defects):
    """For each kind of parts what is wrong with those that are faulty."""
    stuck = {wire: kind for kind in ("stuck0", "stuck1") for wire in faults[kind]}
    wires = dict(stuck)
    for group in map(set, texts.short_groups(machine, faults)):
        # The one wire that a list may leave free, where nothing in the group is stuck, does no harm.
        free = group - defects["wire"]
        kept = free if len(free) == 1 and stuck.keys().isdisjoint(group) else set()
        wires |= dict.fromkeys(group - kept - stuck.keys(), "short")
    yield wires
    yield {cross: kind for kind in ("open", "closed") for cross in faults[kind]}
    yield dict.fromkeys(faults["register"], "register") | {table: "cell" for table, _ in faults["cell"]}


def marks(machine, faults, defects, compared):
    """The cause of each part that is faulty or listed. A crosspoint with a listed wire, and a table with a listed pin, count as listed."""
    for kind, bad in zip(texts.PARTS, causes(machine, faults, defects)):
        found = dict.fromkeys(defects[kind], THROWN if compared else LISTED)
        yield found | {at: MISSED if compared and defects.is_free(machine, kind, at) else cause for at, cause in bad.items()}


def net_names(machine, image, design):
    """A name for each net: of its pin of the design, or of the table that drives it."""
    net_of = image.net_of(machine)
    names = {net_of.get(machine.table_pins[table][6]): machine.table_names[table] for table, *_ in image.tables}
    pins = zip(image.outputs + image.inputs, design.outputs + design.inputs)
    return names | {net_of[pin]: "".join(signal) for pin, signal in pins if pin in net_of}


def node_size(node):
    return LABEL + CELL * len(node.lines), GAP + CELL * len(node.taps)


def layout(nodes, top):
    """A place for each crossbar, in rows from the root down; a level that doesn't fit into the rest of a row begins a new one."""
    places, x, y, height, level = {}, MARGIN, top, 0, 0
    limit = max(1080, 1.3 * math.sqrt(sum((width + GAP) * (height + GAP) for width, height in map(node_size, nodes))))
    for node in sorted(nodes, key=lambda node: node.level):
        width = node_size(node)[0] + GAP
        rest = width * (sum(other.level == node.level for other in nodes) if node.level != level else 1)
        if x > MARGIN and x + rest > limit + MARGIN:
            x, y, height = MARGIN, y + height + GAP, 0
        places[node.name] = (x, y)
        x, height, level = x + width, max(height, node_size(node)[1]), node.level
    return places


def draw_node(picture, node, x, y):
    """A crossbar: rows of taps with the names of their nets, columns of lines, marks, and the closed crosspoints of the nets."""
    machine, left, top = picture.machine, x + LABEL, y + GAP
    picture.text(x, y + 10, node.name, ' font-size="11" font-weight="bold"')
    width, height = CELL * len(node.lines), CELL * len(node.taps)
    picture.rect(left, top, width, height, "#f3f4f6", ' stroke="#c9ccd1" stroke-width="0.5"/>')
    for k, wire in enumerate(node.taps):
        middle = top + CELL * k + CELL / 2
        picture.wire(wire, left, middle, left + width, middle)
        net = picture.net_of.get(wire)
        named, colour = picture.names.get(net), "#8a8f98" if net is None else picture.colour(net, 0.35)
        short = " ".join(machine.names[wire].rsplit(".", 2 if ".t" in machine.names[wire] else 1)[1:])
        words = (named if len(named) < 13 else named[:5] + ".." + named[-5:]) if named else short
        picture.text(left - 3, middle + 2.5, words, f' text-anchor="end" font-size="6.5" fill="{colour}"')
    for k, wire in enumerate(node.lines):
        middle = left + CELL * k + CELL / 2
        picture.wire(wire, middle, top - 3, middle, top + height)
    for cross in range(node.first, node.first + len(node.taps) * len(node.lines)):
        a, b = divmod(cross - node.first, len(node.lines))
        across, down = left + CELL * b + CELL / 2, top + CELL * a + CELL / 2
        if cross in picture.crosses:
            picture.cross(across, down, picture.crosses[cross])
        if cross in picture.closed:
            net = picture.net_of[node.taps[a]]
            title = escape(f"{machine.name('cross', cross)} {picture.names.get(net, '')}".strip())
            fill = picture.colour(net, 0.45)
            picture.shapes.append(f'<circle cx="{across}" cy="{down}" r="2.4" fill="{fill}"><title>{title}</title></circle>')
    for k, table in enumerate(node.tables):
        first = top + CELL * (len(node.taps) - 7 * (len(node.tables) - k))
        colour = MARKS[picture.tables[table]][0] if table in picture.tables else TABLE_ON if table in picture.used else "#dfe3ea"
        picture.rect(left + width + 3, first + 1, 5, 7 * CELL - 2, colour, f"><title>{machine.table_names[table]}</title></rect>")


def chosen(picture, part, level, used):
    """The nodes that are to be drawn: of a part or of the whole machine, of a level or of all, or those that the image uses."""
    busy = {picture.machine.node_of_cross(cross).name for cross in picture.closed}
    nodes = [node for node in picture.machine.nodes if level in (None, texts.LEVELS[node.level]) and (node.name in busy or not used)]
    nodes = [node for node in nodes if part in (None, "r", node.name) or node.name.startswith(f"{part}.")]
    if not nodes:
        sys.exit("--node, --level, --used: no crossbar of this machine is all that; or there is no image here")
    if sum(len(node.taps) * len(node.lines) for node in nodes) > MOST_CROSSES:
        sys.exit(f"these crossbars have more than {MOST_CROSSES:,} crosspoints: choose some by --node, --level or --used")
    return nodes


def svg_text(picture, nodes):
    """The picture of these nodes, below what the colours say."""
    x, nets = MARGIN, len(set(picture.net_of.values()))
    seen = {*picture.wires.values(), *picture.crosses.values(), *picture.tables.values()}
    for cause, (colour, words, shape) in MARKS.items():
        if cause in seen:
            if "M" in shape:
                picture.cross(x + 5, MARGIN - 3, cause)
            elif cause in WIRES:
                dashed = f'stroke="{colour}" stroke-width="2" stroke-dasharray="{shape}"'
                picture.shapes.append(f'<path d="M{x} {MARGIN - 3}h11" {dashed}/>')
            else:
                picture.rect(x, MARGIN - 7, 9, 9, colour)
            picture.text(x + 15, MARGIN, words)
            x += 28 + 5 * len(words)
    if nets:
        picture.text(x, MARGIN, f"{nets} nets, pale; dots are closed crosspoints, blue bars switched-on tables")
    places = layout(nodes, MARGIN + 14)
    for node in nodes:
        draw_node(picture, node, *places[node.name])
    width, height = picture.width + MARGIN, picture.height + MARGIN
    head = f'<svg xmlns="http://www.w3.org/2000/svg" width="{width}" height="{height}" font-family="sans-serif" font-size="8">'
    return "\n".join([head, '<rect width="100%" height="100%" fill="white"/><g fill="#222222">', *picture.shapes, "</g></svg>", ""])


def main():
    parser = argparse.ArgumentParser(description=__doc__, formatter_class=argparse.RawDescriptionHelpFormatter)
    parser.add_argument("machine", help="the machine's file")
    parser.add_argument("--faults", help="the file of its faults")
    parser.add_argument("--defects", help="a list of defects")
    parser.add_argument("--image", help="an image")
    parser.add_argument("--design", help="the BLIF file of the image's design, for the names of nets")
    parser.add_argument("--node", metavar="NAME", help="only the crossbar of a node and those below it, as m0.c1")
    parser.add_argument("--level", choices=texts.LEVELS, help="only the crossbars of one level")
    parser.add_argument("--used", action="store_true", help="only the crossbars that the image uses")
    parser.add_argument("-o", "--output", default="-", help="a new file (default: standard output)")
    add_program(parser)
    args = parser.parse_args()
    machine = texts.read_text(texts.read_machine, args.machine)
    faults = texts.read_text(texts.read_faults, args.faults, machine) if args.faults else texts.Faults()
    defects = texts.read_text(texts.read_defects, args.defects, machine) if args.defects else texts.Defects()
    image = texts.read_text(texts.read_image, args.image, machine) if args.image else texts.Image(1, [], [], [], [])
    picture = Picture(machine, faults, defects, image, args.faults is not None and args.defects is not None)
    if args.design and args.image:
        design = checked_design(args.program, args.design)
        if (len(design.inputs), len(design.outputs)) != (len(image.inputs), len(image.outputs)):
            sys.exit(f"{args.image}: its inputs and outputs aren't as many as the design's")
        picture.names = net_names(machine, image, design)
    texts.write_new(args.output, svg_text(picture, chosen(picture, args.node, args.level, args.used)))


if __name__ == "__main__":
    main()
