#!/usr/bin/env python3
"""make.py [--check]: draws the pictures of the pages, as SVG beside this script. object.svg is the bytes of the first example under "Objects" of
docs/FORMAT.md that has a choice, field by field, with the names of that page's tables. groups.svg is the groups of docs/ARCHITECTURE.md, their crates,
and which group stands on which by crates.txt. A text that doesn't fit its place, or two texts on one another, end it. With --check nothing is
written, and the status is 1 where a file isn't what would be drawn."""

import itertools
import pathlib
import re
import sys
from xml.sax.saxutils import escape

HERE = pathlib.Path(__file__).resolve().parent
ROOT = HERE.parents[1]
WIDTH = 800
# Of each class the properties in a light and in a dark page. The background is drawn, so both are legible where a viewer knows of neither.
FILLS = {
    "paper": ("#ffffff", "#161b22"),
    "blue": ("#ddf4ff", "#0f3a66"),
    "green": ("#d3f5da", "#12461f"),
    "violet": ("#f4e7ff", "#40246b"),
    "orange": ("#ffe9d6", "#5e3208"),
    "yellow": ("#fff8c5", "#4d3b05"),
    "rose": ("#ffe3eb", "#5c2036"),
    "grey": ("#eceff2", "#2f363d"),
    "ink": ("#1f2328", "#e6edf3"),
    "dim": ("#59636e", "#a5afba"),
}
EDGES = {"blue": ("#218bff", "#58a6ff"), "green": ("#2da44e", "#3fb950"), "violet": ("#a475f9", "#bc8cff"), "orange": ("#e16f24", "#f0883e")}
EDGES |= {"yellow": ("#bf8700", "#d29922"), "rose": ("#d6336c", "#f06595")}
EDGES |= {"grey": ("#afb8c1", "#6e7681"), "paper": ("#d0d7de", "#444c56"), "ink": FILLS["ink"]}
# The size of texts, and how wide a letter is of it, on average of such texts, in the widest of the fonts that are asked for.
SIZES = {"mono": 12, "sans": 13, "bold": 13}
EM = {"mono": 0.605, "sans": 0.6, "bold": 0.64}


def fail(what):
    sys.exit(f"make.py: {what}")


def width_of(text, face):
    return len(text) * SIZES[face] * EM[face]


class Picture:
    """What is drawn, and where texts are."""

    def __init__(self, name, title):
        self.name, self.title, self.lines, self.texts = name, title, [], []

    def box(self, x, y, width, height, fill, edge=None, round_=3):
        edges = f" e-{edge}" if edge else ""
        self.lines.append(f'<rect class="{fill}{edges}" x="{x:g}" y="{y:g}" width="{width:g}" height="{height:g}" rx="{round_}"/>')

    def text(self, x, y, text, face="sans", fill="ink", anchor="start", within=None):
        """A text whose line begins, ends or has its middle at a place; `within` is how far left and right it may reach."""
        width, size = width_of(text, face), SIZES[face]
        left = x - width * {"start": 0, "middle": 0.5, "end": 1}[anchor]
        least, most = within or (0, WIDTH)
        if left < least or left + width > most:
            fail(f"{self.name}: {text!r} reaches from {left:.0f} to {left + width:.0f}, and has {least:.0f} to {most:.0f}")
        place = (left, y - size * 0.8, left + width, y + size * 0.25)
        for other, (a, b, c, d) in self.texts:
            if place[0] < c and a < place[2] and place[1] < d and b < place[3]:
                fail(f"{self.name}: {text!r} stands on {other!r}")
        self.texts.append((text, place))
        anchored = "" if anchor == "start" else f' text-anchor="{anchor}"'
        self.lines.append(f'<text class="{face} {fill}" x="{x:g}" y="{y:g}"{anchored}>{escape(text)}</text>')

    def path(self, points, edge, is_arrow=False):
        way = "M" + " L".join(f"{x:g} {y:g}" for x, y in points)
        self.lines.append(f'<path class="line e-{edge}" d="{way}"{" marker-end=" + chr(34) + "url(#tip)" + chr(34) if is_arrow else ""}/>')

    def svg(self, height):
        def style(which):
            fills = [f".{name}{{fill:{it[which]}}}" for name, it in FILLS.items()]
            return "".join([*fills, *(f".e-{name}{{stroke:{it[which]}}}" for name, it in EDGES.items())])

        faces = "ui-monospace,SFMono-Regular,Menlo,Consolas,'DejaVu Sans Mono',monospace", "'Segoe UI',Helvetica,Arial,'DejaVu Sans',sans-serif"
        fonts = f".mono{{font-family:{faces[0]};font-size:{SIZES['mono']}px}}.sans,.bold{{font-family:{faces[1]};font-size:{SIZES['sans']}px}}"
        fonts += ".bold{font-weight:bold}"
        return "\n".join([
            f'<svg xmlns="http://www.w3.org/2000/svg" width="{WIDTH}" height="{height:g}" viewBox="0 0 {WIDTH} {height:g}" role="img">',
            "<!-- Drawn by docs/pictures/make.py -->",
            f"<title>{escape(self.title)}</title>",
            f"<style>{fonts}.line{{fill:none;stroke-width:1.5}}{style(0)}@media(prefers-color-scheme:dark){{{style(1)}}}</style>",
            '<defs><marker id="tip" viewBox="0 0 8 8" refX="7" refY="4" markerWidth="7" markerHeight="7" orient="auto">'
            '<path class="ink" d="M0 0 L8 4 L0 8 Z"/></marker></defs>',
            f'<rect class="paper e-paper" x="0.5" y="0.5" width="{WIDTH - 1}" height="{height - 1:g}" rx="6"/>',
            *self.lines,
            "</svg>",
            "",
        ])


def section(page, heading):
    """What stands under a heading, up to the next."""
    found = re.search(rf"^#+ {heading}\n(.*?)(?=^#|\Z)", page, re.MULTILINE | re.DOTALL)
    return found[1] if found else fail(f"there is no heading {heading!r}")


class Fields:
    """The fields of an object, as rows of a word: what it is, and its colour; and the parts of it that span several."""

    def __init__(self, words, page):
        self.words, self.rows, self.spans = words, [], []
        values, _, shapes = section(page, "Values").partition("\nNumber | Shape |")
        types = re.findall(r"^(\d+) \| (\w+) \|", section(page, "Kinds of fixed size") + values, re.MULTILINE)
        self.types = {int(number): name for number, name in types}
        shapes = re.findall(r"^(\d) \| (\w+) \| \d \| (.*)$", shapes, re.MULTILINE)
        self.shapes = {int(number): (name, behind) for number, name, behind in shapes}
        self.object()

    def take(self, what, colour):
        self.rows.append((what, colour))
        return self.words[len(self.rows) - 1]

    def header(self, of, colour):
        """The size and the type at the front of a pod, and a span of these."""
        begun = len(self.rows)
        size = self.take(f"size of the {of}'s body", colour)
        type_ = self.words[len(self.rows)]
        self.take(f"type: {self.types[type_]}", colour)
        self.spans.append((of, begun, ["header", "8 bytes"], colour))
        self.spans.append((of, begun + 2, ["body", f"{size} bytes"], colour))
        return size, type_

    def ends(self, number):
        """Ends the span of this number here."""
        self.spans[number] = (*self.spans[number], len(self.rows))

    def object(self):
        size, _type = self.header("object", "blue")
        self.spans[0] = (*self.spans[0], 2)
        self.take("object type", "blue")
        self.take("object id", "blue")
        while len(self.rows) * 4 < 8 + size:
            self.spans.append(("property", len(self.rows), ["key, flags,", "one pod"], "violet"))
            number = len(self.spans) - 1
            self.take("key", "violet")
            self.take("flags", "violet")
            self.choice()
            self.ends(number)
        self.ends(1)
        if len(self.rows) != len(self.words):
            fail("the object doesn't end with its words")

    def choice(self):
        number = len(self.spans)
        size, type_ = self.header("choice", "green")
        self.ends(number)
        begun = len(self.rows)
        shape, behind = self.shapes[self.take("shape", "green")]
        self.rows[-1] = (f"shape: {shape}", "green")
        self.take("flags", "green")
        child = self.take("child size", "green")
        self.take(f"child type: {self.types[self.words[len(self.rows)]]}", "green")
        if self.types[type_] != "Choice" or child != 4 or size % 4:
            fail("the property has no choice of words")
        for it in ["default", *behind.split(", ")]:
            self.take(it, "orange")
        if len(self.rows) - begun != size // 4:
            fail("the choice doesn't end with its values")
        self.ends(number + 1)
        if size % 8:
            self.take("padding", "grey")


def draw_object():
    """The bytes of an object with a choice, field by field."""
    page = (ROOT / "docs/FORMAT.md").read_text(encoding="utf-8")
    listed = re.search(r"^```text\n(.*?)^```", section(page, "Objects"), re.MULTILINE | re.DOTALL)[1].splitlines()
    examples = [[int(it) for it in line.split("   ")[0].split(", ")] for line in listed if "no pod" not in line]
    of_choice = [it for it in examples if it[7:8] == [19]] or fail('no example under "Objects" has a choice')
    fields = Fields(of_choice[0], page)
    picture = Picture("object.svg", "The bytes of an object whose property has a choice, field by field")
    top, pitch = 58, 26
    cells, number, what = 64, 258, 276
    columns = {"choice": (500, 596), "property": (600, 700), "object": (704, 792)}
    for x, text, anchor in ((52, "byte", "end"), (cells, "bytes", "start"), (number, "number", "end"), (what, "what it is", "start")):
        picture.text(x, 34, text, "bold", anchor=anchor)
    for name, (x, most) in columns.items():
        picture.text(x, 34, name, "bold", within=(x, most))
    for i, ((text, colour), word) in enumerate(zip(fields.rows, fields.words)):
        y = top + i * pitch
        picture.text(52, y, str(4 * i), "mono", "dim", "end")
        for j, byte in enumerate(word.to_bytes(4, "little")):
            picture.box(cells + 36 * j, y - 17, 34, 23, colour, colour)
            picture.text(cells + 36 * j + 17, y, f"{byte:02x}", "mono", anchor="middle", within=(cells + 36 * j, cells + 36 * j + 34))
        picture.text(number, y, str(word), "mono", anchor="end", within=(cells + 146, number))
        picture.text(what, y, text, within=(what, columns["choice"][0] - 8))
    for name, first, lines, colour, last in fields.spans:
        x, most = columns[name]
        above, below = top + first * pitch - 17, top + last * pitch - pitch + 6
        picture.path([(x + 8, above), (x, above), (x, below), (x + 8, below)], colour)
        for i, line in enumerate(lines):
            picture.text(x + 12, (above + below) / 2 + 17 * i - 3, line, within=(x, most))
    return picture.name, picture.svg(top + len(fields.rows) * pitch + 4)


def read_groups():
    """The groups of docs/ARCHITECTURE.md with their crates, and of each of these those on which it stands, by crates.txt."""
    page = (ROOT / "docs/ARCHITECTURE.md").read_text(encoding="utf-8").partition("\n## Apart")[0]
    blocks = re.findall(r"^## ([^\n]*)\n\n```text\n(.*?)^```", page, re.MULTILINE | re.DOTALL)
    groups = {name: [line.split()[0] for line in block.splitlines()] for name, block in blocks}
    lines = [it.partition(":") for it in (ROOT / "crates.txt").read_text(encoding="utf-8").splitlines() if it and not it.startswith("#")]
    below = {name.split()[0]: set(names.split()) for name, _, names in lines}
    lacking = [it for crates in groups.values() for it in crates if it not in below]
    return (groups, below) if groups and not lacking else fail(f"crates.txt has none of the crates {lacking} of docs/ARCHITECTURE.md")


def closure(pairs):
    """The pairs, and those that follow from them one after another."""
    found = set(pairs)
    while True:
        more = {(a, d) for a, b in found for c, d in found if b == c} - found
        if not more:
            return found
        found |= more


def floors_of(items, stands_on):
    """How many others each stands on one after another, at most."""
    floors = {}

    def floor(it):
        if it not in floors:
            floors[it] = max((floor(other) + 1 for other in items if other != it and stands_on(it, other)), default=0)
        return floors[it]

    return {it: floor(it) for it in items}


class Block:
    """A group: its crates in rows of at most so many. Each stands on crates of rows below it, or of other groups."""

    PITCH, HEAD, BETWEEN = 26, 30, 6

    def __init__(self, name, crates, below, most):
        self.name, self.rows = name, []
        floors = floors_of(crates, lambda a, b: b in below[a])
        for floor in range(max(floors.values()), -1, -1):
            left = [it for it in crates if floors[it] == floor]
            self.rows += [left[i : i + most] for i in range(0, len(left), most)]
        self.width = max(width_of(name, "bold"), *map(self.width_of_row, self.rows)) + 16
        self.height = self.HEAD + self.PITCH * len(self.rows) + 6

    def width_of_row(self, crates):
        return sum(width_of(it, "mono") + 8 for it in crates) + self.BETWEEN * (len(crates) - 1)

    def draw(self, picture, x, y, height, colour):
        picture.box(x, y, self.width, height, colour, colour, 5)
        picture.text(x + 8, y + 20, self.name, "bold", within=(x, x + self.width))
        for i, crates in enumerate(self.rows):
            left, down = x + (self.width - self.width_of_row(crates)) / 2, y + height - 6 - self.PITCH * (len(self.rows) - i)
            for it in crates:
                cell = width_of(it, "mono") + 8
                picture.box(left, down, cell, 21, "paper", colour)
                picture.text(left + cell / 2, down + 15, it, "mono", anchor="middle", within=(left, left + cell))
                left += cell + self.BETWEEN


def draw_groups():
    """The groups of crates, and which stands on which."""
    groups, below = read_groups()
    stand = {(a, b) for a, b in itertools.permutations(groups, 2) if any(below[it] & set(groups[b]) for it in groups[a])}
    far = closure(stand)
    # Groups that stand on each other are drawn in one frame.
    frames = []
    for it in groups:
        if not any(it in frame for frame in frames):
            frames.append([it, *(other for other in groups if (it, other) in far and (other, it) in far and other != it)])
    over = {(i, j) for i, j in itertools.permutations(range(len(frames)), 2) if (frames[i][0], frames[j][0]) in far}
    arrows = {(i, j) for i, j in over if not any((i, k) in over and (k, j) in over for k in range(len(frames)))}
    floors = floors_of(range(len(frames)), lambda i, j: (i, j) in over)
    beside = [(a, b) for frame in frames for a, b in zip(frame, frame[1:])]
    drawn = {(a, b) for pair in beside for a, b in (pair, pair[::-1]) if (a, b) in stand}
    drawn |= {(a, b) for i, j in arrows for a in frames[i] for b in frames[j]}
    if not far <= closure(drawn):
        fail(f"no way of arrows would say {sorted(far - closure(drawn))}")
    picture = Picture("groups.svg", "The groups of crates, and which stands on which")
    colours = dict(zip(groups, itertools.cycle(("grey", "blue", "green", "violet", "orange", "rose", "yellow"))))
    gap, pad, y, places = 30, 8, 16, {}
    for floor in range(max(floors.values()), -1, -1):
        row = [i for i in range(len(frames)) if floors[i] == floor]
        # As many crates in a row of a group as leave room for all groups beside each other.
        for most in range(8, 0, -1):
            blocks = {it: Block(it, groups[it], below, most) for i in row for it in frames[i]}
            pads = {i: pad if len(frames[i]) > 1 else 0 for i in row}
            widths = {i: sum(blocks[it].width for it in frames[i]) + gap * (len(frames[i]) - 1) + 2 * pads[i] for i in row}
            room = (WIDTH - sum(widths.values())) / (len(row) + 1)
            if room >= 8:
                break
        else:
            fail(f"groups.svg: {frames[row[0]][0]} and what stands beside it are {sum(widths.values()):.0f} wide")
        height = max(blocks[it].height + 2 * pads[i] for i in row for it in frames[i])
        x = room
        for i in row:
            inner = pads[i]
            places[i] = (x, y, widths[i], height)
            if inner:
                picture.box(x, y, widths[i], height, "paper", "ink", 8)
            at = x + inner
            for k, it in enumerate(frames[i]):
                block = blocks[it]
                block.draw(picture, at, y + inner, height - 2 * inner, colours[it])
                if k + 1 < len(frames[i]):
                    right = frames[i][k + 1]
                    for shift, pair, ends in ((-9, (it, right), (5, gap - 5)), (9, (right, it), (gap - 5, 5))):
                        if pair in stand:
                            picture.path([(at + block.width + end, y + height / 2 + shift) for end in ends], "ink", True)
                at += block.width + gap
            x += widths[i] + room
        y += height + gap
    # Each arrow begins at the middle of the upper one, or as near to it as the lower one reaches.
    for i, j in sorted(arrows):
        (x, top, width, height), (to, bottom, to_width, _) = places[i], places[j]
        least, most = max(x, to) + 14, min(x + width, to + to_width) - 14
        middle = min(max(x + width / 2 if width <= to_width else to + to_width / 2, least), most)
        if least > most or floors[i] != floors[j] + 1:
            fail(f"groups.svg: no straight arrow goes from {frames[i][0]} to {frames[j][0]}")
        picture.path([(middle, top + height + 4), (middle, bottom - 4)], "ink", True)
    return picture.name, picture.svg(y - gap + 16)


def main():
    if sys.argv[1:] not in ([], ["--check"]):
        sys.exit(__doc__)
    stale = 0
    for name, text in (draw_object(), draw_groups()):
        file = HERE / name
        if not sys.argv[1:]:
            file.write_text(text, encoding="utf-8")
        elif not file.is_file() or file.read_text(encoding="utf-8") != text:
            stale = 1
            print(f"make.py: docs/pictures/{name} isn't what its page and crates.txt say: docs/pictures/make.py draws it again", file=sys.stderr)
    return stale


sys.exit(main())
