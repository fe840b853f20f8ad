#!/usr/bin/env python3
"""Random texts and tables within widths, and what becomes of them by a model of its own.

    oracles/fitting.py texts 10000 > cases      texts
    oracles/fitting.py tables 1000 > cases      tables
    oracles/fitting.py spans 1000 > cases       tables with cells that span others

`(cd crates/pg_bench && rt try < ../../cases)` then makes each of them by the library, and reports what differs. A
third argument is the seed. Characters as a reader counts them are those of the package `regex`, widths are worked out
here, from the Unicode data of Python. A table has the places of docs/rules/DEFINITIONS.md: row lines, column lines, and
the rectangles of cells, which are put over them. tables.py makes others.
"""
import random
import sys
import unicodedata
from collections import defaultdict
from functools import lru_cache

import regex

NO_LIMIT = 10**9
MISFIT = "! a span is 0, leaves the table, or shares a place with another"
LAM, ALEF = "\u0644", "\u0627"
EMOJI = "\u231a\U0001f469\U0001f52c\U0001f44d\U0001f600"
PIECES = (
    list("abcdefgh") + ["word", "two", "longer", "xy"]
    + [" "] * 6 + ["  ", "   "]
    + ["茶", "日本", "ア", "한", "é", "e\u0301", "o\u0308\u0323"]
    + ["\u1100\u1161\u11a8", "\u1112\u1161"]
    + ["🇩🇪", "🇫🇷", "🇮🇹", "1\ufe0f\u20e3", "#\ufe0f\u20e3"]
    + ["\U0001f469\u200d\U0001f52c", "\U0001f44d\U0001f3fd", "\U0001f600", "\u231a", "\u231a\ufe0e"]
    + ["\u00a0", "\t", "\r", "\x1b", "\x07", "\x7f", "\x9b", "\u200b", "\u202e", "\u2066", "\ufeff"]
    + [LAM, ALEF, LAM + ALEF]
    + ["\n"] * 2
)


def character_width(c):
    """The width of a character by itself."""
    if unicodedata.category(c) == "Cc":
        return 1
    if unicodedata.category(c) in ("Mn", "Me", "Cf") or "\u1160" <= c <= "\u11ff":
        return 0
    return 2 if unicodedata.east_asian_width(c) in "WF" else 1


def cluster_width(cluster):
    """The width of what a reader counts as one character."""
    first = cluster[0]
    if "\u20e3" in cluster and "\ufe0f" in cluster:
        return 2
    if "\U0001f1e6" <= first <= "\U0001f1ff":
        return 2 if "\U0001f1e6" <= cluster[1:2] <= "\U0001f1ff" else 1
    if first in EMOJI:
        return 1 if cluster[1:2] == "\ufe0e" else 2
    return sum(character_width(c) for c in cluster)


def clusters(line):
    return regex.findall(r"\X", line)


@lru_cache(maxsize=100_000)
def width(line):
    """The width of a line: lam and alef take one column together."""
    return sum(cluster_width(c) for c in clusters(line)) - line.count(LAM + ALEF)


def words(line):
    """The words of a line, each with the spaces before it; those before the first one are part of it."""
    found = [(m.group(1), m.group(2)) for m in regex.finditer(r"( *)([^ ]+)", line)]
    if found:
        found[0] = ("", found[0][0] + found[0][1])
    return found


def wrap_line(line, columns, between_words):
    if width(line) <= columns:
        return [line]
    pieces = []
    if not between_words:
        pieces = [("", c) for c in clusters(line)]
    else:
        for gap, word in words(line):
            if width(word) <= columns:
                pieces.append((gap, word))
            else:
                for n, c in enumerate(clusters(word)):
                    pieces.append((gap if n == 0 else "", c))
    lines = [""]
    for gap, text in pieces:
        longer = lines[-1] + gap + text
        if lines[-1] + gap == "" or width(longer) <= columns:
            lines[-1] = longer
        else:
            lines.append(text)
    return lines


def wrap(text, columns, between_words):
    return [part for line in text.split("\n") for part in wrap_line(line, columns, between_words)]


def beginning(line, columns):
    front = ""
    for c in clusters(line):
        if width(front + c) > columns:
            break
        front += c
    return front


def cut_line(line, columns, tail):
    if width(line) <= columns:
        return line
    if width(tail) <= columns:
        return beginning(line, columns - width(tail)) + tail
    return beginning(tail, columns)


def cut(text, columns, tail):
    return [cut_line(line, columns, tail) for line in text.split("\n")]


def is_hidden(c):
    """Whether a character isn't shown, and hides or turns what is beside it: a format character that gives no
    letter or emoji its form, or a separator of lines."""
    kept = "\u200c\u200d" + "".join(map(chr, [*range(0x600, 0x606), 0x6DD, 0x70F, 0x890, 0x891, 0x8E2]))
    if unicodedata.category(c) in ("Zl", "Zp") or "\u2060" <= c <= "\u206f" or "\U000e0000" <= c <= "\U000e007f":
        return True
    return unicodedata.category(c) == "Cf" and c not in kept and c < "\U00010000"


def visible(text):
    def seen(c):
        if is_hidden(c):
            return "\ufffd"
        if c == "\n" or unicodedata.category(c) != "Cc":
            return c
        if c == "\x7f":
            return "\u2421"
        return chr(0x2400 + ord(c)) if c < " " else "\ufffd"

    return "".join(seen(c) for c in text).split("\n")


def least(text, between_words):
    parts = [part for line in text.split("\n") for part in ([w for _, w in words(line)] if between_words else [line])]
    return max([cluster_width(c) for part in parts for c in clusters(part)], default=0)


def written(text):
    """A text as the programs read it."""
    return "".join(
        c if c.isascii() and c.isalnum() else "␣" if c == " " else "␊" if c == "\n" else f"⟨{ord(c):x}⟩"
        for c in text
    )


# What joins with a neighbour, or is a control character, is tried by texts alone.
PIECES_OF_CELLS = [p for p in PIECES if not any(unicodedata.category(c) == "Cc" and c != "\n" or c in LAM + ALEF for c in p)]


def random_text(most, pieces=PIECES):
    return "".join(random.choice(pieces) for _ in range(random.randrange(most)))


def random_rows(rows, columns, most):
    return [[random_text(most, PIECES_OF_CELLS) for _ in range(columns)] for _ in range(rows)]


# ---- widths


def narrowed(room, ranges):
    """Widths within a room: the greatest level at which they fit, and what is left to the first narrowed ones."""
    def share(level, r):
        return max(r[0], min(r[1], level))

    level = max((r[1] for r in ranges), default=0)
    while level > 0 and sum(share(level, r) for r in ranges) > room:
        level -= 1
    widths = [share(level, r) for r in ranges]
    left = max(0, room - sum(widths))
    for k, r in enumerate(ranges):
        if left > 0 and widths[k] < r[1] and share(level + 1, r) > widths[k]:
            widths[k] += 1
            left -= 1
    return widths


class Way:
    """What becomes of a text that is too wide: it is wrapped, anywhere or between words, or cut with a tail."""

    def __init__(self, words):
        self.words, self.tail = words, words[4:] if words.startswith("cut") else None

    @staticmethod
    def random():
        return Way(random.choice(["anywhere", "words", "cut …", "cut ..."]))

    def least(self, text):
        return least(text, self.words == "words") if self.tail is None else width(self.tail)

    def overflowed(self, text, room):
        return "\n".join(wrap(text, room, self.words == "words") if self.tail is None else cut(text, room, self.tail))


def divided(lacking, count):
    """What can't be divided goes to the first ones, one each."""
    return [lacking // count + (1 if j < lacking % count else 0) for j in range(count)]


def widened(sizes, needs):
    """Sizes with room for (first, count, size): layer by layer, and in each the greatest share."""
    for count in sorted({n[1] for n in needs}):
        wider = list(sizes)
        for first, _, size in (n for n in needs if n[1] == count):
            lacking = max(0, size - sum(sizes[first:first + count]))
            for j, share in enumerate(divided(lacking, count)):
                wider[first + j] = max(wider[first + j], sizes[first + j] + share)
        sizes = wider
    return sizes


def random_spans(rows, columns):
    """Rectangles that share no place, as (row, column, rows, columns)."""
    found = []
    for _ in range(random.randrange(1, 4)):
        r, c = random.randrange(rows), random.randrange(columns)
        h, w = random.randrange(1, rows - r + 1), random.randrange(1, columns - c + 1)
        apart = all(r + h <= s[0] or s[0] + s[2] <= r or c + w <= s[1] or s[1] + s[3] <= c for s in found)
        if apart and (h, w) != (1, 1):
            found.append((r, c, h, w))
    return found


# ---- glyphs

# The places of borders: the row lines above, between and below rows, each at its left end, in a column, between two
# columns and at its right end; and the column lines.
TOP_LINE = ("top_left", "top", "top_intersection", "top_right")
INNER_LINE = ("left_intersection", "horizontal", "intersection", "right_intersection")
LAST_LINE = ("bottom_left", "bottom", "bottom_intersection", "bottom_right")
COLUMN_LINES = ("left", "vertical", "right")
FRAME = ("top", "bottom", "left", "right", "top_left", "top_right", "bottom_left", "bottom_right")


def drawn(top, cells, inner, last):
    """The borders of a drawing."""
    lines = zip(TOP_LINE + INNER_LINE + LAST_LINE, (top or [None] * 4) + (inner or [None] * 4) + (last or [None] * 4))
    return {place: glyph for place, glyph in [*lines, *zip(COLUMN_LINES, cells)] if glyph}


LOOKS = {
    "ascii": drawn([*"+-++"], "|||", [*"+-++"], [*"+-++"]),
    "modern": drawn([*"┌─┬┐"], "│││", [*"├─┼┤"], [*"└─┴┘"]),
    "sharp": drawn([*"┌─┬┐"], "│││", [], [*"└─┴┘"]),
    "rounded": drawn([*"╭─┬╮"], "│││", [], [*"╰─┴╯"]),
    "extended": drawn([*"╔═╦╗"], "║║║", [*"╠═╬╣"], [*"╚═╩╝"]),
    "dots": drawn([*"...."], ":::", [*":.::"], [*":.::"]),
    "psql": {"vertical": "|"},
    "blank": {"vertical": " "},
    "markdown": drawn([], "|||", [], []),
    "empty": {},
}


def ends(values, place, last):
    """That of the first place, of one between, or of the last."""
    return values[0] if place == 0 else values[-1] if place == last else values[1]


def has_any(borders, places):
    return any(place in borders for place in places)


# ---- settings

DEFAULTS = {
    "padding": [(0, " ")] * 4,
    "padding_color": [None] * 4,
    "justification": " ",
    "justification_color": None,
    "alignment_horizontal": "left",
    "alignment_vertical": "top",
    "trim_horizontal": "off",
    "trim_vertical": "off",
    "line_alignment": "off",
}


def holds(entity, r, c):
    kind, *place = entity.split()
    return [int(number) for number in place] == {"all": [], "row": [r], "col": [c], "cell": [r, c]}[kind]


def shares(side, taken, room):
    """What is before a text in a room, and what is behind it."""
    free = max(0, room - taken)
    before = {"left": 0, "top": 0, "center": free // 2, "right": free, "bottom": free}[side]
    return before, free - before


# What is put beside the glyph of a coloured crossing.
BESIDE = "\uf8ff"


def colored(text, color):
    return text if color is None else color[0] + text + color[1]


def fill(glyph, size, color):
    return colored(glyph * size, color) if size > 0 else ""


# ---- tables


class Sheet:
    """A table as its calls make it, the lines that write them, and the text that is expected."""

    def __init__(self, rows, begun=None):
        self.rows = rows
        self.lines = [begun] if begun else []
        self.lines += ["row " + "".join("␟" + text for text in row) for row in rows]
        self.reset("ascii")

    def reset(self, look):
        """The settings of a new table."""
        self.borders, self.settings, self.margin = LOOKS[look], defaultdict(list), [(0, " ")] * 4
        self.horizontals, self.verticals, self.crossings, self.titles = {}, {}, {}, {}
        self.spans, self.colors, self.line_colors = {}, {}, {}

    def say(self, *words):
        self.lines.append(" ".join(map(str, words)))

    def count(self):
        return len(self.rows), len(self.rows[0]) if self.rows else 0

    def places(self):
        rows, columns = self.count()
        return [(r, c) for r in range(rows) for c in range(columns)]

    # settings of cells: of those that hold a place the latest counts

    def at(self, kind, r, c):
        return next((value for entity, value in reversed(self.settings[kind]) if holds(entity, r, c)), DEFAULTS[kind])

    # lines: a glyph that is set at a place makes its line exist

    def has_row(self, r):
        rows, _ = self.count()
        named = r == 0 and has_any(self.borders, TOP_LINE) or r == rows and has_any(self.borders, LAST_LINE)
        named = named or 0 < r < rows and has_any(self.borders, INNER_LINE)
        return named or any(r == place[0] for place in [*self.horizontals, *self.crossings])

    def has_column(self, c):
        _, columns = self.count()
        lines = list(zip(TOP_LINE, INNER_LINE, LAST_LINE))
        named = c == 0 and has_any(self.borders, lines[0] + ("left",)) or c == columns and has_any(self.borders, lines[3] + ("right",))
        named = named or 0 < c < columns and has_any(self.borders, lines[2] + ("vertical",))
        return named or any(c == place[1] for place in [*self.verticals, *self.crossings])

    def columns_between(self, first, last):
        return sum(self.has_column(c) for c in range(first, last))

    def horizontal(self, r, c):
        named = self.borders.get(ends(("top", "horizontal", "bottom"), r, self.count()[0]))
        return self.horizontals.get((r, c)) or named or (" " if self.has_row(r) else None)

    def vertical(self, r, c):
        named = self.borders.get(ends(COLUMN_LINES, c, self.count()[1]))
        return self.verticals.get((r, c)) or named or (" " if self.has_column(c) else None)

    def crossing(self, r, c):
        rows, columns = self.count()
        left, _, between, right = ends((TOP_LINE, INNER_LINE, LAST_LINE), r, rows)
        named = self.borders.get(ends((left, between, right), c, columns))
        glyph = self.crossings.get((r, c)) or named or " "
        return glyph if self.has_column(c) else ""

    # rectangles

    def is_covered(self, r, c):
        """Whether another cell takes this place, too."""
        return any((r, c) != (y, x) and y <= r < y + h and x <= c < x + w for (y, x), (h, w) in self.spans.items())

    def cells(self):
        """The cells that are shown: places, rows and columns."""
        return [(r, c, *self.spans.get((r, c), (1, 1))) for r, c in self.places() if not self.is_covered(r, c)]

    def spans_fit(self):
        rows, columns = self.count()
        taken = [(r + i, c + k) for (r, c), (h, w) in self.spans.items() for i in range(h) for k in range(w)]
        is_inside = all(r + h <= rows and c + w <= columns and h * w > 0 for (r, c), (h, w) in self.spans.items())
        return is_inside and len(taken) == len(set(taken))

    def is_single(self, r, c):
        return (r, c) not in self.spans and not self.is_covered(r, c)

    def across(self, size, told=None):
        """The widths of columns for cells of a size, those of several columns shared out."""
        rows, columns = self.count()
        told = told or [0] * columns
        alone = [max([size(r, c) for r in range(rows) if self.is_single(r, c)], default=0) for c in range(columns)]
        needs = [(c, w, max(0, size(r, c) - self.columns_between(c + 1, c + w))) for (r, c), (_, w) in self.spans.items()]
        return widened([max(pair) for pair in zip(told, alone)], needs)

    def down(self, size):
        rows, columns = self.count()
        alone = [max([size(r, c) for c in range(columns) if self.is_single(r, c)], default=0) for r in range(rows)]
        needs = [(r, h, max(0, size(r, c) - sum(map(self.has_row, range(r + 1, r + h))))) for (r, c), (h, _) in self.spans.items()]
        return widened(alone, needs)

    # texts in cells

    def shown(self, r, c, text):
        lines = text.split("\n")
        if self.at("trim_vertical", r, c) == "on":
            kept = [k for k, line in enumerate(lines) if line.strip()]
            lines = lines[kept[0] : kept[-1] + 1] if kept else []
        return [self.trimmed(r, c, line) for line in lines]

    def trimmed(self, r, c, line):
        return line.strip() if self.at("trim_horizontal", r, c) == "on" else line

    def widest(self, r, c, text):
        return max(width(self.trimmed(r, c, line)) for line in text.split("\n"))

    def beside(self, r, c):
        left, right, _, _ = self.at("padding", r, c)
        return left[0] + right[0]

    def width(self, texts):
        return lambda r, c: self.beside(r, c) + self.widest(r, c, texts[r][c])

    def height(self, texts):
        def size(r, c):
            _, _, above, below = self.at("padding", r, c)
            return above[0] + len(self.shown(r, c, texts[r][c])) + below[0]

        return size

    def block(self, r, c, text, wide, high):
        """The lines of a cell that is so wide and high."""
        padding, colors = self.at("padding", r, c), self.at("padding_color", r, c)
        above = padding[2][0]
        shown = self.shown(r, c, text)[: max(0, high - above)]
        first = above + shares(self.at("alignment_vertical", r, c), len(shown), max(0, high - above))[0]
        lines = [fill(padding[2][1], wide, colors[2])] * first
        lines += [self.text_line(r, c, line, wide, self.widest(r, c, text)) for line in shown]
        return lines + [fill(padding[3][1], wide, colors[3])] * (high - len(lines))

    def text_line(self, r, c, line, wide, widest):
        padding, colors = self.at("padding", r, c), self.at("padding_color", r, c)
        glyph, color = self.at("justification", r, c), self.at("justification_color", r, c)
        room, own = max(0, wide - self.beside(r, c)), width(line)
        taken = own if self.at("line_alignment", r, c) == "on" else widest
        before, _ = shares(self.at("alignment_horizontal", r, c), taken, room)
        line = fill(glyph, before, color) + colored(line, self.colors.get((r, c))) + fill(glyph, room - before - own, color)
        return fill(*padding[0][::-1], colors[0]) + line + fill(*padding[1][::-1], colors[1])

    # pictures

    def row_line(self, r, widths):
        """The pieces of a row line: those of column lines, and between them those of columns."""
        pieces = []
        for c, width in enumerate(widths):
            glyph = self.horizontal(r, c)
            places = [(r, c, k) for k in range(width)]
            glyphs = [colored(self.titles.get(place, glyph), self.line_colors.get(place)) for place in places]
            pieces += [self.colored_crossing(r, c), "".join(glyphs)]
        return [*pieces, self.colored_crossing(r, len(widths))]

    def colored_crossing(self, r, c):
        color = self.line_colors.get((r, c))
        glyph = self.crossing(r, c)
        return BESIDE + colored(glyph, color) + BESIDE if glyph and color else glyph

    def joined(self, pieces):
        """A line: a colour goes on from one crossing to the next where nothing is between them."""
        line = "".join(pieces)
        for begin, end in set(self.line_colors.values()):
            line = line.replace(end + BESIDE + BESIDE + begin, "")
        return line.replace(BESIDE, "")

    def picture(self, texts, widths, heights):
        rows, columns = self.count()
        if not rows or not columns:
            return ""
        lines = {}
        for r in range(rows + 1):
            if self.has_row(r):
                lines[r, -1] = self.row_line(r, widths)
            for k in range(heights[r] if r < rows else 0):
                lines[r, k] = [piece for c in range(columns + 1) for piece in (self.vertical(r, c) or "", "")][:-1]
        for r, c, h, w in self.cells():
            marks = [mark for mark in lines if r <= mark[0] < r + h and mark != (r, -1)]
            wide = sum(widths[c : c + w]) + self.columns_between(c + 1, c + w)
            for mark, line in zip(marks, self.block(r, c, texts[r][c], wide, len(marks))):
                lines[mark][2 * c + 1 : 2 * (c + w)] = [line] + [""] * (2 * w - 2)
        return "\n".join(self.with_margins([self.joined(line) for line in lines.values()], self.full_width(widths)))

    def full_width(self, widths):
        return sum(widths) + self.taken_beside(len(widths))

    def taken_beside(self, columns):
        return self.columns_between(0, columns + 1) + self.margin[0][0] + self.margin[1][0]

    def with_margins(self, lines, width):
        (left, right, above, below) = [glyph * size for size, glyph in self.margin]
        lines = [left + line + right for line in lines]
        return [*[glyph * width for glyph in above], *lines, *[glyph * width for glyph in below]]

    def natural_widths(self):
        return self.across(self.width(self.rows))

    def natural(self):
        """The picture at natural sizes."""
        if not self.spans_fit() and all(self.count()):
            return MISFIT
        return self.picture(self.rows, self.natural_widths(), self.down(self.height(self.rows)))

    def print(self):
        self.expected = self.natural()
        return self

    # within a width

    def least_widths(self, how):
        return self.across(lambda r, c: self.beside(r, c) + min(self.widest(r, c, self.rows[r][c]), how.least(self.rows[r][c])))

    def ranged(self, total, ranges, how):
        """The widths of columns within a total, where the first ones have a least and a greatest width."""
        found = []
        for k, (natural, low) in enumerate(zip(self.natural_widths(), self.least_widths(how))):
            least, most = ranges[k] if k < len(ranges) else (0, NO_LIMIT)
            least = max(low, min(least, natural))
            found.append((least, max(least, min(natural, most))))
        return narrowed(max(0, total - self.taken_beside(len(found))), found)

    def narrowed(self, total, limits, how):
        """The natural widths of columns, if they are within the total and the limits of the first ones, else narrowed ones."""
        natural = self.natural_widths()
        if self.full_width(natural) <= total and all(map(int.__le__, natural, limits)):
            return natural
        return self.ranged(total, [(0, limit) for limit in limits], how)

    def fitted(self, total, limits, how):
        """The texts and the sizes of the table within a width."""
        widths, texts = self.narrowed(total, limits, how), [list(row) for row in self.rows]
        for r, c, _, w in self.cells():
            room = max(0, sum(widths[c : c + w]) + self.columns_between(c + 1, c + w) - self.beside(r, c))
            if self.widest(r, c, texts[r][c]) > room:
                texts[r][c] = how.overflowed(texts[r][c], room)
        return texts, self.across(self.width(texts), self.spans and widths), self.down(self.height(texts))

    def within(self, total, how, limits=(), column=None):
        """The picture within a width, with a column that fills it if one is given."""
        if not all(self.count()):
            return ""
        if not self.spans_fit():
            return MISFIT
        texts, widths, heights = self.fitted(total, limits, how)
        if column is not None and column < len(widths):
            widths[column] += max(0, total - self.full_width(widths))
        return self.picture(texts, widths, heights)


# ---- cases


def tell(lines):
    for line in lines:
        print("= " + written(line))


def texts(count):
    for n in range(count):
        text = random_text(14)
        columns = random.randrange(13)
        print(f": text {n}\n|{written(text)}|")
        for breaking in ("anywhere", "words"):
            print(f"wrap {columns} {breaking}")
            tell(wrap(text, columns, breaking == "words"))
            print(f"least {breaking} {least(text, breaking == 'words')}")
        tail = random.choice(["…", "...", "", "茶", "…"])
        print(f"cut {columns} {written(tail)}")
        tell(cut(text, columns, tail))
        print("visible")
        tell(visible(text))


def print_case(name, rows, sides, total, way, limits, spans=()):
    """A section of a table with ASCII borders, all of whose cells have so many spaces at both sides."""
    sheet = Sheet(rows)
    sheet.settings["padding"] = [("all", [(sides, " "), (sides, " "), (0, " "), (0, " ")])]
    sheet.spans = {(r, c): (h, w) for r, c, h, w in spans}
    made, widths, heights = sheet.fitted(total, limits, way)
    print(f": {name}\nnatural {widths} {heights}")
    for row in rows:
        print("|" + "|".join(written_cell(text) for text in row) + "|")
    for line in sheet.picture(made, widths, heights).split("\n"):
        print("= " + line.replace(" ", "␣"))
    print(f"borders ascii\npadding all {sides} {sides} 0 0")
    for r, c, h, w in spans:
        if w > 1:
            print(f"column_span {r} {c} {w}")
        if h > 1:
            print(f"row_span {r} {c} {h}")
    if limits:
        print("limits " + " ".join(map(str, limits)))
    print(f"within {total} {way.words}")
    print(f"least {sheet.full_width(sheet.least_widths(way))}")


def written_cell(text):
    return text.replace("\n", "␊").replace(" ", "␣")


def tables(count):
    for n in range(count):
        columns, sides = random.randrange(1, 4), random.randrange(3)
        rows = random_rows(random.randrange(1, 4), columns, 10)
        total, way = random.randrange(30), Way.random()
        limits = [random.randrange(1, 20) for _ in range(random.randrange(columns + 1))]
        print_case(f"table {n}", rows, sides, total, way, limits)


def spanned(count):
    made = 0
    while made < count:
        height, columns, sides = random.randrange(1, 5), random.randrange(1, 5), random.randrange(2)
        spans = random_spans(height, columns)
        if not spans:
            continue
        rows = random_rows(height, columns, 9)
        total, way = random.choice([random.randrange(40), 10 ** 6]), Way.random()
        limits = [random.randrange(1, 20) for _ in range(random.choice([0, 0, random.randrange(columns + 1)]))]
        print_case(f"table {made} with spans", rows, sides, total, way, limits, spans)
        made += 1


if __name__ == "__main__":
    random.seed(int(sys.argv[3]) if len(sys.argv) > 3 else 1)
    subject = sys.argv[1]
    print("== texts" if subject == "texts" else "== tables")
    {"texts": texts, "tables": tables, "spans": spanned}[subject](int(sys.argv[2]))
