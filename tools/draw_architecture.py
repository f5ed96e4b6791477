#!/usr/bin/env python3
"""Draws docs/architecture.svg from crates.txt: the layers, their crates, and three ways through them.

    tools/draw_architecture.py            writes the file
    tools/draw_architecture.py --check    writes nothing; ends with 1 if the file is not current

The layers and their descriptions are the comment lines `# layer: ...` of crates.txt, from the lowest to the highest.
The ways are in WAYS below. The script uses no library but Python's own, and its output depends on crates.txt alone."""
import os
import re
import sys

TOP = os.path.dirname(os.path.dirname(os.path.abspath(__file__)))
PICTURE = "docs/architecture.svg"

# The ways: a colour, what travels, and the crates that it comes through, in order.
WAYS = [
    ("#1b66b5", "a byte of a value, on its way to yes or no",
     "base_io session check_stream marshal_read check_heap check_fault"),
    ("#23833a", "a declaration, on its way to the table of types",
     "base_io types_lex types_parse types_resolve types_wellformed types_build types_table"),
    ("#c2510f", "an argument, on its way to a status",
     "omarshal cli_args session run_loop cli_errors"),
]

# Sizes in pixels. A line of boxes has at most SIX of them, and all lines share one grid of columns.
WIDTH, LABEL, MARGIN = 1200, 212, 8
SIX = 6
GAP, BOX, TALL, PITCH = 32, 127, 30, 62
TRACK = 6           # the distance between two lines of ways that run side by side
TITLE, LEGEND = 62, 22
MONO = "font-family='DejaVu Sans Mono, Menlo, Consolas, monospace'"
SANS = "font-family='DejaVu Sans, Helvetica, Arial, sans-serif'"


class Layer:
    def __init__(self, line, name, text):
        self.line, self.name, self.text, self.crates = line, name, text, []


class Crate:
    def __init__(self, line, name, uses, layer):
        self.line, self.name, self.uses, self.layer = line, name, uses, layer


def read_crates(top=TOP):
    """The layers of crates.txt, from the lowest to the highest, and its crates by name, each with the number of its line."""
    layers, crates = [], {}
    with open(os.path.join(top, "crates.txt"), encoding="utf-8") as file:
        for number, line in enumerate(file, 1):
            layer, row = re.match(r"# ([a-z]+): (.*)$", line), re.match(r"(\w+):(.*)$", line)
            if layer:
                layers.append(Layer(number, layer[1], layer[2].strip()))
            elif row:
                crate = Crate(number, row[1], row[2].split(), layers[-1] if layers else None)
                crates[crate.name] = crate
                if layers:
                    layers[-1].crates.append(crate)
    return layers, crates


def direct_layers(layers, crates):
    """For each layer the layers that it uses, without those that one of these uses in turn."""
    uses = {layer.name: {crates[used].layer.name for crate in layer.crates for used in crate.uses
                         if used in crates and crates[used].layer is not layer} for layer in layers}
    below = {}
    for layer in layers:
        below[layer.name] = uses[layer.name].union(*(below.get(used, set()) for used in uses[layer.name]))
    return {name: [layer.name for layer in layers if layer.name in used
                   and not any(layer.name in below[other] for other in used)] for name, used in uses.items()}


def lines_of_boxes(layers):
    """The lines of boxes from the lowest to the highest: (layer, names). The crates on a way come last, in its order."""
    order = [name for _, _, way in WAYS for name in way.split()]
    for layer in layers:
        names = [crate.name for crate in layer.crates]
        names = [name for name in names if name not in order] + sorted(set(names) & set(order), key=order.index)
        first = len(names) % SIX or SIX
        for begin in range(0, len(names), SIX):
            yield layer, names[0 if begin == 0 else first + begin - SIX:first + begin]


def wrapped(text, width):
    """The words of a text in lines of at most `width` characters."""
    lines = [""]
    for word in text.split():
        if lines[-1] and len(lines[-1]) + 1 + len(word) > width:
            lines.append("")
        lines[-1] += (" " if lines[-1] else "") + word
    return lines


def escaped(text):
    return text.replace("&", "&amp;").replace("<", "&lt;").replace(">", "&gt;")


def text_at(x, y, text, size, more="", font=SANS):
    return f"<text x='{x:g}' y='{y:g}' font-size='{size}' {font} {more}>{escaped(text)}</text>"


def free_track(taken, low, high):
    """The first track on which nothing runs between `low` and `high`; the stretch is noted there."""
    track = 0
    while any(begin <= high and low <= end for begin, end in taken.get(track, [])):
        track += 1
    taken.setdefault(track, []).append((low, high))
    return track


class Drawing:
    def __init__(self, layers, crates):
        self.layers, self.crates = layers, crates
        self.lines = list(lines_of_boxes(layers))
        self.top = TITLE + LEGEND * len(WAYS) + 14
        self.height = self.top + PITCH * len(self.lines) + MARGIN
        self.at = {name: (number, column) for number, (_, names) in enumerate(self.lines) for column, name in enumerate(names)}

    def box_x(self, column):
        return LABEL + GAP + column * (BOX + GAP)

    def box_y(self, line):
        """The upper edge of the boxes of a line. Line 0 is the lowest."""
        return self.top + PITCH * (len(self.lines) - 1 - line) + (PITCH - TALL) / 2

    def edges(self):
        """(colour, from, to) for each step of each way."""
        for colour, _, way in WAYS:
            names = way.split()
            for one, other in zip(names, names[1:]):
                yield colour, one, other

    def route(self):
        """A path of points for each step. A step between lines leaves a box into the gutter between two lines, runs along it
        to a lane between two columns, along the lane to the gutter at the other box, and into that box."""
        ports, steps = {}, []
        for colour, one, other in self.edges():
            (line, column), (to_line, to_column) = self.at[one], self.at[other]
            if line == to_line and to_column == column + 1:
                steps.append((colour, one, other, None))
                continue
            up = to_line > line
            gutters = (line + 1, to_line) if up else (line, to_line + 1)   # gutter n lies below line n
            lane = None
            if gutters[0] != gutters[1]:
                middle = [(gap, abs(2 * gap - 1 - 2 * column) + abs(2 * gap - 1 - 2 * to_column)) for gap in range(SIX + 1)]
                lane = min(middle, key=lambda pair: (pair[1], pair[0]))[0]
            steps.append((colour, one, other, (up, gutters, lane)))
            for name, side, target in (one, up, lane), (other, not up, lane):
                ports.setdefault((name, side), []).append((len(steps) - 1, target))
        return steps, ports

    def port_x(self, ports, name, side, step):
        """Where a step leaves or enters a box: steps to lanes on the left stand left, those to the right stand right."""
        here = ports[name, side]
        column = self.at[name][1]
        order = sorted(here, key=lambda pair: (pair[1] is not None and pair[1] > column, pair[0]))
        index = [pair[0] for pair in order].index(step)
        left, right = self.box_x(column) + 40, self.box_x(column) + BOX - 8
        return left + (right - left) * (index + 1) / (len(order) + 1)

    def paths(self):
        steps, ports = self.route()
        lanes, gutters, found = {}, {}, []
        for number, (colour, one, other, way) in enumerate(steps):
            (line, column), (to_line, to_column) = self.at[one], self.at[other]
            if way is None:
                y = self.box_y(line) + TALL / 2
                found.append((colour, [(self.box_x(column) + BOX, y), (self.box_x(to_column), y)]))
                continue
            up, (near, far), lane = way
            x, to_x = self.port_x(ports, one, up, number), self.port_x(ports, other, not up, number)
            y = self.box_y(line) + (0 if up else TALL)
            to_y = self.box_y(to_line) + (TALL if up else 0)
            if lane is None:
                bends = [x, to_x]
            else:
                track = free_track(lanes.setdefault(lane, {}), min(line, to_line), max(line, to_line))
                lane_x = self.box_x(lane) - GAP + 8 + track * TRACK
                bends = [x, lane_x, to_x]
            points = [(x, y)]
            for gutter, begin, end in zip((near, far), bends, bends[1:]):
                if abs(begin - end) > 1:
                    track = free_track(gutters.setdefault(gutter, {}), min(begin, end) - 2, max(begin, end) + 2)
                    gutter_y = self.box_y(gutter) + TALL + 11 + track * TRACK
                    points += [(begin, gutter_y), (end, gutter_y)]
            found.append((colour, points + [(to_x, to_y)]))
        return found

    def svg(self):
        out = [f"<svg xmlns='http://www.w3.org/2000/svg' width='{WIDTH}' height='{self.height:g}' viewBox='0 0 {WIDTH} {self.height:g}'>",
               "<!-- Drawn by tools/draw_architecture.py from crates.txt. -->",
               f"<rect width='{WIDTH}' height='{self.height:g}' fill='#ffffff'/>"]
        out += self.heading() + self.bands() + self.ways() + self.boxes()
        return "\n".join(out + ["</svg>", ""])

    def heading(self):
        out = [text_at(16, 28, f"The {len(self.crates)} crates of omarshal in {len(self.layers)} layers", 18, "font-weight='bold'"),
               text_at(16, 49, "A crate uses crates of its own layer and of lower layers only. After the name of a layer stand the layers that it uses; "
                               "layers below those are left out.", 12, "fill='#444444'")]
        for number, (colour, text, way) in enumerate(WAYS):
            y = TITLE + LEGEND * number + 10
            steps = " → ".join(f"{step} {name}" for step, name in enumerate(way.split(), 1))
            out.append(f"<path d='M 16 {y} H 48' stroke='{colour}' stroke-width='3'/>")
            out.append(text_at(58, y + 4, text, 12, f"fill='{colour}' font-weight='bold'"))
            out.append(text_at(388, y + 4, steps, 11, "fill='#333333'", MONO))
        return out

    def badge(self, x, y, colour, text):
        return (f"<circle cx='{x:g}' cy='{y:g}' r='7.5' fill='{colour}'/>"
                + text_at(x, y + 3.5, text, 10, "fill='#ffffff' font-weight='bold' text-anchor='middle'"))

    def bands(self):
        out, direct = [], direct_layers(self.layers, self.crates)
        for number, layer in enumerate(self.layers):
            lines = [line for line, (owner, _) in enumerate(self.lines) if owner is layer]
            y = self.box_y(lines[-1]) - (PITCH - TALL) / 2
            out.append(f"<rect x='{MARGIN}' y='{y:g}' width='{WIDTH - 2 * MARGIN}' height='{PITCH * len(lines)}' "
                       f"fill='{'#f3f4f6' if number % 2 else '#e8ebef'}'/>")
            used = f"  uses {', '.join(direct[layer.name])}" if direct[layer.name] else ""
            y += PITCH * (len(lines) - 1) / 2
            out.append(f"<text x='16' y='{y + 19:g}' {SANS} font-size='14'><tspan font-weight='bold'>{layer.name}</tspan>"
                       f"<tspan font-size='10' fill='#666666' xml:space='preserve'>{used}</tspan></text>")
            for row, text in enumerate(wrapped(layer.text, 30)):
                out.append(text_at(16, y + 34 + 13 * row, text, 11, "fill='#333333'"))
        return out

    def ways(self):
        out = []
        for number, (colour, _, _) in enumerate(WAYS):
            out.append(f"<marker id='end{number}' viewBox='0 0 8 8' refX='7' refY='4' markerWidth='8' markerHeight='8' "
                       f"markerUnits='userSpaceOnUse' orient='auto'><path d='M 0 0 L 8 4 L 0 8 Z' fill='{colour}'/></marker>")
        out = ["<defs>", *out, "</defs>"]
        ends = {colour: number for number, (colour, _, _) in enumerate(WAYS)}
        for colour, points in self.paths():
            way = "M " + " L ".join(f"{x:.1f} {y:.1f}" for x, y in points)
            out.append(f"<path d='{way}' fill='none' stroke='{colour}' stroke-width='2' stroke-linejoin='round' "
                       f"marker-end='url(#end{ends[colour]})'/>")
        return out

    def boxes(self):
        out = []
        for name, (line, column) in self.at.items():
            x, y = self.box_x(column), self.box_y(line)
            on = [(colour, way.split().index(name) + 1) for colour, _, way in WAYS if name in way.split()]
            border = on[0][0] if len(on) == 1 else "#333333" if on else "#9aa3ad"
            out.append(f"<rect x='{x:g}' y='{y:g}' width='{BOX}' height='{TALL}' rx='5' fill='#ffffff' stroke='{border}' "
                       f"stroke-width='{1.5 if on else 1}'/>")
            out.append(text_at(x + BOX / 2, y + TALL / 2 + 4, name, 12, "fill='#111111' text-anchor='middle'", MONO))
            for number, (colour, step) in enumerate(on):
                out.append(self.badge(x + 8 + 18 * number, y, colour, str(step)))
        return out


def drawn():
    return Drawing(*read_crates()).svg()


def is_current():
    try:
        with open(os.path.join(TOP, PICTURE), encoding="utf-8") as file:
            return file.read() == drawn()
    except FileNotFoundError:
        return False


def main():
    if sys.argv[1:] == ["--check"]:
        if is_current():
            return 0
        print(f"{PICTURE}: is not what tools/draw_architecture.py draws from crates.txt")
        return 1
    if sys.argv[1:]:
        print(__doc__, file=sys.stderr)
        return 2
    with open(os.path.join(TOP, PICTURE), "w", encoding="utf-8") as file:
        file.write(drawn())
    return 0


if __name__ == "__main__":
    sys.exit(main())
