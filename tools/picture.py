"""The picture of ladders as SVG. tools/chart writes it."""
import math
import textwrap
from dataclasses import dataclass
from functools import cache
from xml.sax.saxutils import escape

from ladders import Answer, Arrow, Words, end_of
from transcript import other

# Sizes in pixels. An end sends TURN below what made it send, and a packet takes SLOPE at least.
CHARACTER, MARGIN, BETWEEN, TITLE, HEADER, LINE = 6.65, 14, 30, 16, 25, 12
TURN, SLOPE, ANSWER = 14, 22, 26
OPEN_END, WIDEST = 40, 1240
# How many characters a line beside an end has.
NARROW = 14
COLOURS = {"ended success": "#1a7f37", "ended failure": "#cf222e", "ignored": "#6e7781", "with equal keys": "#1a7f37",
           "differ": "#cf222e", ": failure": "#cf222e"}
DESCRIPTION = "Each ladder shows the messages of one session between peer, server and centre. Time goes down."
STYLE = """
    text { font: 11px 'DejaVu Sans Mono', Menlo, Consolas, monospace; fill: #1f2328; }
    .title { font-weight: bold; font-size: 12px; }
    .label { stroke: #ffffff; stroke-width: 4px; stroke-linejoin: round; paint-order: stroke; }
    .life { stroke: #8c959f; }
    .box { fill: #f6f8fa; stroke: #8c959f; }
    .way { stroke: #1f2328; stroke-width: 1.2; }
    .head { fill: #1f2328; }
    .answer { stroke: #0969da; stroke-width: 1.2; }
    .answer-head { fill: #0969da; }
    .lost { stroke: #cf222e; stroke-width: 1.2; stroke-dasharray: 5 4; }
    .cross { stroke: #cf222e; stroke-width: 1.2; fill: none; }
    .open { fill: #ffffff; stroke: #1f2328; }
"""


@dataclass
class Places:
    """Where a ladder's left edge and its three columns stand, and how wide it is."""
    left: float
    peer: float
    server: float
    centre: float
    wide: float

    def moved(self, left):
        return Places(left, self.peer + left, self.server + left, self.centre + left, self.wide)


def number(value):
    return f"{value:.1f}".removesuffix(".0")


def colour_of(words):
    return next((colour for part, colour in COLOURS.items() if part in words), "")


@cache
def lines_of(words):
    """What an end does, in short lines, each with its colour."""
    items = words.split(", ") if words else []
    return [(line, colour_of(item)) for item in items for line in textwrap.wrap(item, NARROW, break_long_words=False)]


def text(x, y, words, anchor="start", kind="", colour="", more=""):
    """A text, or several lines of which the last one stands at that height."""
    kind, style = f' class="{kind}"' if kind else "", f' style="fill: {colour}"' if colour else ""
    return f'<text x="{number(x)}" y="{number(y)}" text-anchor="{anchor}"{kind}{more}{style}>{inner(x, y, words)}</text>'


def inner(x, y, words):
    if isinstance(words, str) or len(words) == 1:
        return escape("".join(words))
    heights = [y - LINE * place for place in reversed(range(len(words)))]
    return "".join(f'<tspan x="{number(x)}" y="{number(at)}">{escape(line)}</tspan>' for line, at in zip(words, heights))


def way(kind, tail, tip):
    (x, y), (to_x, to_y) = tail, tip
    return f'<line class="{kind}" x1="{number(x)}" y1="{number(y)}" x2="{number(to_x)}" y2="{number(to_y)}"/>'


def head(kind, tail, tip):
    """The head of an arrow, turned as the arrow is."""
    length = math.dist(tail, tip)
    x, y = (tip[0] - tail[0]) / length, (tip[1] - tail[1]) / length
    corners = [tip, *((tip[0] - 9 * x - side * y, tip[1] - 9 * y + side * x) for side in (4, -4))]
    path = " L ".join(f"{number(to_x)} {number(to_y)}" for to_x, to_y in corners)
    return f'<path class="{kind}" d="M {path} Z"/>'


def cross(place):
    return f'<path class="cross" d="M {number(place[0] - 5)} {number(place[1] - 5)} l 10 10 m -10 0 l 10 -10"/>'


def circle(place):
    return f'<circle class="open" cx="{number(place[0])}" cy="{number(place[1])}" r="3"/>'


class Labels:
    """The labels of a ladder's arrows. Each stands along its arrow, where it covers least."""

    def __init__(self, arrows):
        # Of the cells of a grid: how many labels stand in each, and which arrows go through it. And where each label stands.
        self.taken, self.crossed, self.placed = {}, {}, {}
        for key, ((x, y), tip) in arrows.items():
            length = math.dist((x, y), tip)
            right, down = 5 * (tip[0] - x) / length, 5 * (tip[1] - y) / length
            # What is beyond that many steps is left out, so that the work grows with the arrows and not with their lengths.
            for step in range(min(200, int(length / 5))):
                self.crossed.setdefault((int((x + step * right) // 10), int((y + step * down) // 7)), set()).add(key)

    def cells(self, middle, turn, size):
        """The cells under a label's letters."""
        steps = range(int(-size / 2), int(size / 2) + 1, 8)
        points = ((middle[0] + step * math.cos(turn), middle[1] + step * math.sin(turn)) for step in steps)
        return [(int(x // 10), int(y // 7)) for x, y in points]

    def cost(self, cells, key):
        """How much of other labels and of other arrows a label covers in these cells."""
        letters = sum(self.taken.get((x, y + off), 0) > 0 for x, y in cells for off in (-1, 0, 1))
        arrows = (self.crossed.get(cell, ()) for cell in cells)
        return 8 * letters + sum(len(keys) > (key in keys) for keys in arrows)

    def spots(self, words, ends, lift):
        """Where a label can stand: in one line or in two, in the middle of its arrow or beside it."""
        left, right = sorted(ends)
        turn, length = math.atan2(right[1] - left[1], right[0] - left[0]), math.dist(left, right)
        down = math.sin(turn), math.cos(turn)
        for lines in [words], words.replace(" (", " \n(").split("\n") if len(words) > 24 else [words]:
            size = CHARACTER * max(map(len, lines))
            for shift in (0, -0.25, 0.25, -0.5, 0.5, -0.75, 0.75, -1, 1):
                along = length / 2 + shift * spare(size, length)
                x, y = left[0] + along * math.cos(turn), left[1] + along * math.sin(turn)
                cells = []
                for place, line in enumerate(reversed(lines)):
                    off = lift + 4 + LINE * place
                    cells += self.cells((x + off * down[0], y - off * down[1]), turn, CHARACTER * len(line))
                yield cells, lines, (x + lift * down[0], y - lift * down[1]), turn

    def place(self, key, words, ends, lift):
        """Finds a place for a label, or a better one than it had."""
        self.take(key, -1)
        best = None
        for spot in self.spots(words, ends, lift):
            cost = self.cost(spot[0], key)
            if best is None or cost < best[0]:
                best = cost, spot
            if cost == 0:
                break
        self.placed[key] = best[1]
        self.take(key, 1)

    def keep(self, middle, size):
        """Keeps a level place free of labels."""
        for cell in self.cells(middle, 0, size):
            self.taken[cell] = self.taken.get(cell, 0) + 1

    def take(self, key, count):
        for cell in self.placed[key][0] if key in self.placed else ():
            self.taken[cell] = self.taken.get(cell, 0) + count

    def parts(self):
        for _, lines, (x, y), turn in self.placed.values():
            turned = f' transform="rotate({number(math.degrees(turn))} {number(x)} {number(y)})"'
            yield text(x, y, lines, "middle", "label", more=turned)


def spare(size, length):
    """How far a label of a size can be moved from the middle of its arrow."""
    return max(0, (length - size) / 2 - 12)


def ends_of(row, places, y, left):
    """Where an arrow begins and ends. `y` is where it arrives; `left` says where each packet was sent."""
    tail, tip = (places.peer, places.server) if row.to == "server" else (places.server, places.peer)
    inward = 1 if row.to == "server" else -1
    if is_short(row):
        return (tail, y - SLOPE), (tip - inward * OPEN_END, y)
    if row.foreign:
        return (tail + inward * OPEN_END, y - SLOPE), (tip, y)
    return (tail, left[row.packet]), (tip, y)


def room_of(words, arrow, places):
    """The line along which a label stands, and how far above. If it is longer than its arrow, that one is open at an end: the label
    stands above the open end too."""
    if CHARACTER * len(words) + 16 < math.dist(*arrow):
        return arrow, 5
    (x, y), (to_x, to_y) = arrow
    rise = (to_y - y) / (to_x - x)
    return [(at, y + (at - x) * rise) for at in (places.peer, places.server)], 8


def arrow(row, tail, tip):
    if row.lost:
        return [way("lost", tail, tip), cross(tip)]
    ends = [circle(tip)] if row.away else [circle(tail)] if row.foreign else []
    return [way("way", tail, tip), head("head", tail, tip), *ends]


def heights_of(rows, first):
    """Where each row stands, and where each packet is sent."""
    heights, left, y, before = [], {}, first + LINE + (SLOPE if is_foreign(rows[0]) else 0), None
    for place, row in enumerate(rows):
        if is_short(row):
            heights.append(left[row.packet] + SLOPE)
            continue
        if before:
            y += step(before, row, place > 0 and is_short(rows[place - 1]))
        heights.append(y)
        before = row
        if row.sends:
            left[row.sends] = y if isinstance(row, Words) else y + TURN
    return heights, left


def is_short(row):
    """Whether a row is an arrow that doesn't arrive. It stands where it is sent."""
    return isinstance(row, Arrow) and (row.lost or row.away)


def is_foreign(row):
    return isinstance(row, Arrow) and row.foreign


def is_network(row):
    return isinstance(row, Words) and row.end == "network"


def tall_of(row):
    """How many lines the words of a row have."""
    return 0 if isinstance(row, Answer) else 1 if is_network(row) else len(lines_of(row.words))


def step(before, row, after_short):
    """How far below the row before it a row stands."""
    tall = tall_of(before)
    if isinstance(row, Answer) or isinstance(before, Words) and not after_short:
        return ANSWER + LINE * max(0, tall - 1)
    apart = 0
    if is_foreign(row) and (after_short or before.sends):
        # It begins below the one that was sent last, so that the two don't cross here, or not near their ends.
        apart = TURN + SLOPE + (8 if after_short else 24)
    elif is_network(row) or is_network(before):
        # What the network does stands between the ends, where the labels of arrows are.
        apart = 2 * LINE
    elif isinstance(row, Words) and after_short:
        # What an end does by itself stands below the cross of what was lost before.
        apart = LINE
    return TURN + SLOPE + apart + LINE * max(0, tall - 2)


def beside(row, places, y):
    """What an end does, beside it, or what the network does, between the ends."""
    if is_network(row):
        # Right below it begins the arrow of the copy, with its own label.
        return [text((places.peer + places.server) / 2, y - 10, row.words, "middle", "label")]
    at_peer = end_of(row) == "peer"
    x, anchor = (places.peer - 10, "end") if at_peer else (places.server + 10, "start")
    return [text(x, y + 4 + LINE * place, line, anchor, colour=colour) for place, (line, colour) in enumerate(lines_of(row.words))]


def labels_of(rows, heights, arrows, places):
    """The labels of arrows. The longest come first, since they can be moved least; then each makes room for those after it."""
    labels, keys = Labels(arrows), sorted(arrows, key=lambda place: -len(rows[place].short))
    for row, y in zip(rows, heights):
        if is_network(row):
            labels.keep(((places.peer + places.server) / 2, y - 10), CHARACTER * len(row.words))
    for key in keys * 2:
        labels.place(key, rows[key].short, *room_of(rows[key].short, arrows[key], places))
    return labels.parts()


def drawn_rows(rows, places, first):
    """The parts of a ladder's rows, and where the last one ends."""
    heights, left = heights_of(rows, first)
    arrows = {place: ends_of(row, places, y, left) for place, (row, y) in enumerate(zip(rows, heights)) if isinstance(row, Arrow)}
    ways, words, lowest = [], [], 0
    for place, (row, y) in enumerate(zip(rows, heights)):
        if isinstance(row, Answer):
            tail, tip = (places.centre, y), (places.server, y)
            ways += [way("answer", tail, tip), head("answer-head", tail, tip)]
            words.append(text((tail[0] + tip[0]) / 2, y - 6, row.label, "middle"))
            continue
        if isinstance(row, Arrow):
            ways += arrow(row, *arrows[place])
        lines = beside(row, places, y)
        words += lines
        lowest = max(lowest, y + LINE * len(lines))
    return [*ways, *labels_of(rows, heights, arrows, places), *words], max(lowest, max(heights) + LINE)


def told(row):
    """A row in words."""
    if isinstance(row, Answer):
        return f"centre to server: {row.label}"
    if isinstance(row, Words):
        return f"{row.end}: {row.words}"
    lost, words = ", lost" if row.lost else "", f"; {row.to}: {row.words}" if row.words else ""
    return f"{'network' if row.changed else other(row.to)} to {row.to}: {row.label}{lost}{words}"


def drawn_ladder(ladder, places, top):
    """The parts of a ladder's picture, and where it ends."""
    first = top + 3 * TITLE + HEADER
    rows, bottom = drawn_rows(ladder.rows, places, first)
    named, story = f"{ladder.title}: {ladder.facts}; {ladder.outcome}", "\n".join(map(told, ladder.rows))
    parts = ['<g role="img">', f"<title>{escape(named)}</title>", f"<desc>{escape(story)}</desc>"]
    parts += [text(places.left, top + 12, ladder.title, kind="title"), text(places.left, top + 12 + TITLE, ladder.facts),
              text(places.left, top + 12 + 2 * TITLE, ladder.outcome, colour=colour_of(ladder.outcome))]
    for name, x in ("peer", places.peer), ("server", places.server), ("centre", places.centre):
        size = CHARACTER * len(name) + 16
        box = f'x="{number(x - size / 2)}" y="{number(first - HEADER)}" width="{number(size)}" height="{HEADER - 4}" rx="3"'
        parts += [way("life", (x, first - 4), (x, bottom)), f'<rect class="box" {box}/>', text(x, first - 11, name, "middle")]
    return [*parts, *rows, "</g>"], bottom


def places_of(ladders):
    """Where the columns stand in each of these ladders, if its left edge is at 0."""
    rows = [row for ladder in ladders for row in ladder.rows]
    lines = [(end_of(row), len(line)) for row in rows if not isinstance(row, Answer) for line, _ in lines_of(row.words)]
    arrows = [len(row.short) + 5 for row in rows if isinstance(row, Arrow)] + [len(row.words) + 3 for row in rows if is_network(row)]
    answers = [len(row.label) + 4 for row in rows if isinstance(row, Answer)]
    margin = max([4, *(size for end, size in lines if end == "peer")])
    centre = max([12, *answers, *(size + 3 for end, size in lines if end == "server")])
    peer = CHARACTER * margin + 10
    server = peer + CHARACTER * max([20, *arrows])
    titles = [CHARACTER * max(len(ladder.title) * 12 / 11, len(ladder.facts), len(ladder.outcome)) for ladder in ladders]
    return Places(0, peer, server, server + CHARACTER * centre, max(server + CHARACTER * (centre + 4), *titles))


def columns_in(wide, count):
    """How many ladders stand side by side if nothing else is asked for."""
    return max(1, min(count, int((WIDEST - 2 * MARGIN + BETWEEN) / (wide + BETWEEN))))


def picture(ladders, columns=None):
    """The ladders, so many of them side by side."""
    places = places_of(ladders)
    columns = min(len(ladders), columns or columns_in(places.wide, len(ladders)))
    parts, top = [], MARGIN
    for begin in range(0, len(ladders), columns):
        bottoms = []
        for place, ladder in enumerate(ladders[begin:begin + columns]):
            drawn, bottom = drawn_ladder(ladder, places.moved(MARGIN + place * (places.wide + BETWEEN)), top)
            parts += drawn
            bottoms.append(bottom)
        top = max(bottoms) + 2 * MARGIN
    wide = 2 * MARGIN + columns * (places.wide + BETWEEN) - BETWEEN
    size = f'width="{wide:.0f}" height="{top:.0f}" viewBox="0 0 {wide:.0f} {top:.0f}"'
    shown = ladders[0].title if len(ladders) == 1 else f"{len(ladders)} sessions"
    return "\n".join([f'<svg xmlns="http://www.w3.org/2000/svg" role="group" {size}>', f"<title>{escape(shown)}</title>",
                      f"<desc>{DESCRIPTION}</desc>", f"<style>{STYLE}</style>",
                      '<rect width="100%" height="100%" fill="#ffffff"/>', *parts, "</svg>\n"])
