#!/usr/bin/env python3
"""Random tables by the calls of `Table`, and what each shows by a model of its own.

    oracles/tables.py                              10,000 tables of each subject
    oracles/tables.py frames titles                of these
    oracles/tables.py --count 500 --seed 7 lines   so many, and others

The model of a table is that of fitting.py; here is what each call means for it. A program that makes the calls,
table_calls.txt, is put in a temporary folder with the crates that ./take-into puts there, and `rt try` runs it unproved,
500 tables at a time: all subjects take an hour or so. Each table that differs is printed with its calls and both texts.
The exit status is 1 if one does.
"""
import argparse
import random
import re
import subprocess
import sys
import tempfile
import time
from pathlib import Path

import fitting
from fitting import COLUMN_LINES, FRAME, INNER_LINE, LAST_LINE, LOOKS, NO_LIMIT, TOP_LINE, Sheet, ends, has_any, holds, shares

TOP = Path(__file__).resolve().parent.parent
BATCH = 500

# ---- random glyphs, settings and texts


def glyphs_of(places):
    """Random glyphs at some of these places, and how they are written."""
    found = {place: random.choice("─│┼+*#%@x") for place in places if random.random() < 0.7}
    return found, " ".join(f"{place}={glyph}" for place, glyph in found.items()) or "empty"


def random_borders():
    name = random.choice(list(LOOKS))
    if random.random() < 0.8:
        return LOOKS[name], name
    return glyphs_of(TOP_LINE + INNER_LINE + LAST_LINE + COLUMN_LINES)


def indents():
    return [(random.choice([0, 0, 1, 2]), random.choice("  .*")) for _ in range(4)]


SIDES = ["left", "center", "right"]
SETTINGS = {
    "padding": indents,
    "margin": indents,
    "justification": lambda: random.choice("_~."),
    "alignment_horizontal": lambda: random.choice(SIDES),
    "alignment_vertical": lambda: random.choice(["top", "center", "bottom"]),
    "trim_horizontal": lambda: random.choice(["on", "off"]),
    "trim_vertical": lambda: random.choice(["on", "off"]),
    "line_alignment": lambda: random.choice(["on", "off"]),
}


class Calls(Sheet):
    """A table by random calls, each with its line and what it means."""

    def style(self):
        """Random borders and settings of cells, and perhaps a margin."""
        if random.random() < 0.8:
            self.borders, words = random_borders()
            self.say("config borders", words)
        for kind in random.choices(list(SETTINGS), k=random.choice([0, 0, 1, 2, 4])):
            value, entity = SETTINGS[kind](), self.entity()
            words = value if isinstance(value, str) else " ".join(f"{size}:{'space' if glyph == ' ' else glyph}" for size, glyph in value)
            if kind == "margin":
                self.margin = value
                self.say("config margin", words)
            else:
                self.settings[kind].append((entity, value))
                self.say("config", kind, entity, words)

    def entity(self):
        rows, columns = self.count()
        r, c = random.randrange(rows + 1), random.randrange(columns + 1)
        return random.choice(["all", f"row {r}", f"col {c}", f"cell {r} {c}"])

    def rule(self, call, r, *words):
        """A line above a row that isn't the first one."""
        glyphs, line = glyphs_of(INNER_LINE)
        rows, columns = self.count()
        self.say(call, *words, line)
        if 0 < r < rows and columns:
            for c in range(columns):
                put(self.horizontals, (r, c), glyphs.get("horizontal"))
            for c in range(columns + 1):
                left, _, between, right = INNER_LINE
                put(self.crossings, (r, c), glyphs.get(ends((left, between, right), c, columns)))

    def rules(self):
        rows, _ = self.count()
        r = random.randrange(rows + 2)
        call, r, words = random.choice([("header_line", 1, ()), ("foot_line", rows - 1, ()), ("row_line", r, (r,)), ("row_line", r, (r,))])
        self.rule(call, r, *words)

    def column_rule(self):
        """A line left of a column that isn't the first one, with crossings where it meets row lines."""
        rows, columns = self.count()
        c, (glyphs, words) = random.randrange(columns + 1), random_borders()
        self.say("column_line", c, words)
        if 0 < c < columns:
            crossed = [r for r in range(rows + 1) if self.has_row(r)]
            for r in range(rows):
                put(self.verticals, (r, c), glyphs.get("vertical"))
            for r in crossed:
                put(self.crossings, (r, c), glyphs.get(ends(("top_intersection", "intersection", "bottom_intersection"), r, rows)))

    def frame(self):
        """A frame round cells: over the lines that it meets, which go on through a new line beyond its corners."""
        rows, columns = self.count()
        (r, c), (b, words) = (random.randrange(rows + 1), random.randrange(columns + 1)), glyphs_of(FRAME)
        to = random.randrange(rows + 1), random.randrange(columns + 1)
        self.say("frame", r, c, *to, words)
        y, x = min(rows, to[0] + 1), min(columns, to[1] + 1)
        if r >= y or c >= x:
            return
        crossings = {(p, q): b.get(f"{v}_{h}") for p, v in ((r, "top"), (y, "bottom")) for q, h in ((c, "left"), (x, "right"))}
        for line, side in ((r, "top"), (y, "bottom")):
            is_new = 0 < line < rows and not self.has_row(line) and has_any(b, (side, f"{side}_left", f"{side}_right"))
            for q in (q for q in range(columns + 1) if q not in (c, x) and self.has_column(q)):
                crossings[line, q] = b.get(side) if c < q < x else self.vertical(line, q) if is_new else None
        for line, side in ((c, "left"), (x, "right")):
            is_new = 0 < line < columns and not self.has_column(line) and has_any(b, (side, f"top_{side}", f"bottom_{side}"))
            for p in (p for p in range(rows + 1) if p not in (r, y) and self.has_row(p)):
                crossings[p, line] = b.get(side) if r < p < y else self.horizontal(p, line) if is_new else None
        for q in range(c, x):
            put(self.horizontals, (r, q), b.get("top"))
            put(self.horizontals, (y, q), b.get("bottom"))
        for p in range(r, y):
            put(self.verticals, (p, c), b.get("left"))
            put(self.verticals, (p, x), b.get("right"))
        for place, glyph in crossings.items():
            put(self.crossings, place, glyph)

    def span(self, r, c, height=None, width=None):
        """A cell over so many rows, or over so many columns."""
        h, w = self.spans.get((r, c), (1, 1))
        self.spans[r, c] = (height or h, width or w)
        if self.spans[r, c] == (1, 1):
            del self.spans[r, c]

    def spread(self):
        """Cells over several rows and columns, which share no place; now and then one that doesn't fit."""
        rows, columns = self.count()
        for r, c, h, w in fitting.random_spans(rows, columns):
            self.span(r, c, h, w)
            self.say("row_span", r, c, h)
            self.say("column_span", r, c, w)
        if random.random() < 0.03:
            r, c, w = random.randrange(rows), random.randrange(columns), random.randrange(2, columns + 2)
            self.span(r, c, width=w)
            self.say("column_span", r, c, w)

    def panel(self):
        """A row as a panel, or a further one."""
        rows, columns = self.count()
        r, text = random.randrange(rows + 1), random_text(8)
        if random.random() < 0.5:
            self.say("panel", r)
        else:
            self.say("panel_row", text)
            r, columns = rows, columns or 1
            self.rows.append([text] * columns)
        if r < self.count()[0]:
            self.span(r, 0, width=columns)

    def merge(self):
        """Runs of equal texts of a column as one cell each."""
        rows, columns = self.count()
        c = random.randrange(columns + 1)
        self.say("merged", c)
        column = [row[c] for row in self.rows] if c < columns else []
        for r, text in enumerate(column):
            last = next((k for k in range(r, rows) if column[k] != text), rows)
            if text and last - r > 1 and (r == 0 or column[r - 1] != text):
                self.span(r, c, height=last - r)

    def cross(self):
        """The crossings between two corners of a merged cell by the lines that meet there."""
        (b, words), (rows, columns) = random_borders(), self.count()
        self.say("crossings", words)
        found = {}
        for r, c in ((r, c) for r in range(rows + 1) for c in range(columns + 1)):
            on = {side for span in self.spans.items() for side in self.sides_at(r, c, *span)}
            if on and self.has_row(r) and self.has_column(c):
                up, down = 0 < r and "bottom" not in on, r < rows and "top" not in on
                left, right = 0 < c and "right" not in on, c < columns and "left" not in on
                meeting = {
                    (True, False, True, True): "bottom_intersection",
                    (False, True, True, True): "top_intersection",
                    (True, True, True, False): "right_intersection",
                    (True, True, False, True): "left_intersection",
                    (False, False, True, True): ends(("top", "horizontal", "bottom"), r, rows),
                    (True, True, False, False): ends(COLUMN_LINES, c, columns),
                }
                found[r, c] = b.get(meeting.get((up, down, left, right)))
        for place, glyph in found.items():
            put(self.crossings, place, glyph)

    def sides_at(self, r, c, corner, size):
        """The sides of a merged cell on which a crossing is."""
        (y, x), (h, w), (rows, columns) = corner, size, self.count()
        is_within_columns, is_within_rows = x < c < min(x + w, columns), y < r < min(y + h, rows)
        sides = {"top": is_within_columns and r == y, "bottom": is_within_columns and r == y + h}
        sides |= {"left": is_within_rows and c == x, "right": is_within_rows and c == x + w}
        return [side for side, is_on in sides.items() if is_on]

    def put_title(self, r, side, title, widths, color=None):
        """Characters over a row line, each at a crossing or at a glyph of a column, and a colour of these."""
        if not self.has_row(r):
            return
        room = [place for c, width in enumerate(widths) for place in self.line_places(r, c, width)]
        first, _ = shares(side, min(len(title), len(room)), len(room))
        for place, glyph in zip(room[first:], title):
            glyph = glyph if glyph != "\n" and fitting.width(glyph) == 1 else "\ufffd"
            put(self.titles if len(place) == 3 else self.crossings, place, glyph)
            put(self.line_colors, place, color)

    def line_places(self, r, c, width):
        crossing = [(r, c)] if 0 < c and self.has_column(c) else []
        return crossing + [(r, c, k) for k in range(width)]

    def title(self):
        rows, _ = self.count()
        r, side, title = random.randrange(rows + 2), random.choice(SIDES), random_text(12)
        r = random.choice([0, rows, r])
        color, words = random_color() if random.random() < 0.4 else (None, "")
        if color:
            self.say("colored", r, side, words, title)
        else:
            self.say(*(("caption",) if r == rows and random.random() < 0.5 else ("title", r)), side, title)
        if self.spans_fit():
            self.put_title(r, side, title, self.natural_widths(), color)

    def color(self):
        """A colour of texts, or a ground, of an entity or of every so manieth row."""
        (color, words), call = random_color(), random.choice(["color", "ground", "stripes"])
        rows, entity = self.count()[0], self.entity()
        first, step = random.randrange(rows + 1), random.randrange(4)
        self.say(*((call, first, step) if call == "stripes" else (call, entity)), words)
        striped = [f"row {r}" for r in range(first, rows, max(1, step))]
        for entity in striped if call == "stripes" else [entity]:
            self.colors |= {place: color for place in self.places() if holds(entity, *place)}
            if call != "color":
                self.settings["padding_color"].append((entity, [color] * 4))
                self.settings["justification_color"].append((entity, color))

    def set_text(self):
        rows, columns = self.count()
        r, c, text = random.randrange(rows + 1), random.randrange(columns + 1), random_text(9)
        self.say("set", r, c, text)
        if r < rows and c < columns:
            self.rows[r][c] = text

    def points(self):
        """A column of numbers whose points are below one another, from a row on: shorter rests get room at their right."""
        rows, columns = self.count()
        first, c = random.randrange(rows + 1), random.randrange(columns + 1)
        self.say("points", first, c)
        if c < columns:
            numbers = {r: row[c] for r, row in enumerate(self.rows) if first <= r and row[c].strip(" ") and NUMBER.fullmatch(row[c])}
            rests = {r: re.search(r"([.eE%].*)?$", number)[0] for r, number in numbers.items()}
            for r, rest in rests.items():
                left, (size, glyph), *others = self.at("padding", r, c)
                size += max(map(len, rests.values())) - len(rest)
                self.settings["padding"].append((f"cell {r} {c}", [left, (size, glyph), *others]))
            self.settings["alignment_horizontal"].append((f"col {c}", "right"))

    def numbers(self):
        self.say("numbers")
        for c in range(self.count()[1]):
            if all(NUMBER.fullmatch(row[c]) for row in self.rows[1:]):
                self.settings["alignment_horizontal"].append((f"col {c}", "right"))


def put(glyphs, place, glyph):
    """A glyph that isn't given changes nothing."""
    if glyph:
        glyphs[place] = glyph


# A number, or blank: digits, with commas behind the first one, and a point; a sign, a power of ten, a percent sign.
NUMBER = re.compile(r" *|[+\-−]?(\d[\d,]*|(\d[\d,]*)?\.\d+)([eE][+\-−]?\d+)?%?", re.A)


def random_color():
    """What begins and what ends a colour, and how it is written."""
    styles = "".join(style for style in "biu" if random.random() < 0.3)
    (text, text_words), (ground, ground_words) = random_hue(30), random_hue(40)
    codes = [(1, 22)] * ("b" in styles) + [(3, 23)] * ("i" in styles) + [(4, 24)] * ("u" in styles)
    codes += [(text, 39)] * (text is not None) + [(ground, 49)] * (ground is not None)
    begin = "".join(f"\x1b[{code}m" for code, _ in codes)
    end = "".join(f"\x1b[{code}m" for _, code in reversed(codes))
    return (begin, end), f"{styles or '-'} {text_words} {ground_words}"


def random_hue(first):
    number, parts = random.randrange(8), [random.randrange(256) for _ in range(3)]
    hues = {
        "-": None,
        f"normal {number}": first + number,
        f"bright {number}": first + 60 + number,
        f"palette {parts[0]}": f"{first + 8};5;{parts[0]}",
        "parts " + " ".join(map(str, parts)): f"{first + 8};2;" + ";".join(map(str, parts)),
    }
    words = random.choice(list(hues))
    return hues[words], words


def random_text(most):
    return fitting.random_text(most, fitting.PIECES_OF_CELLS)


def random_rows(most=9):
    return fitting.random_rows(random.randrange(1, 5), random.randrange(1, 5), most)


def random_how():
    return fitting.Way(random.choice(["anywhere", "words", "words", "cut …", "cut ..", "cut ", "cut 茶"]))


def random_sheet(*calls):
    """A table of random rows, of a random look, after some of these calls."""
    sheet = Calls(random_rows())
    sheet.style()
    for call in calls:
        if random.random() < 0.7:
            call(sheet)
    return sheet


# ---- subjects: each makes a table, and what is expected of it


def within():
    """Tables within a width, or within limits of columns; or how narrow they can be."""
    sheet, how, total = random_sheet(Calls.rules, Calls.color), random_how(), random.randrange(40)
    if random.random() < 0.3:
        sheet.spread()
    if random.random() < 0.2 and sheet.spans_fit():
        sheet.say("least", how.words)
        sheet.expected = str(sheet.full_width(sheet.least_widths(how)))
        return sheet
    limits = [random.randrange(1, 20) for _ in range(random.randrange(sheet.count()[1] + 1))]
    sheet.say(*(("limits", total, ",".join(map(str, limits))) if limits else ("within", total)), how.words)
    sheet.expected = sheet.within(total, how, limits)
    return sheet


def filled():
    """Tables within a width that a column fills."""
    sheet, how, total = random_sheet(Calls.rules), random_how(), random.randrange(60)
    if random.random() < 0.3:
        sheet.spread()
    column = random.randrange(sheet.count()[1] + 1)
    sheet.say("filled", total, column, how.words)
    sheet.expected = sheet.within(total, how, column=column)
    return sheet


def merged():
    """Runs of equal texts as one cell."""
    sheet = Calls([[random.choice(["", "a", "a", "茶", "b\nb"]) for _ in range(3)] for _ in range(random.randrange(1, 7))])
    sheet.style()
    for call in (Calls.merge, Calls.merge, Calls.rules, Calls.cross):
        call(sheet)
    return sheet.print()


def titles():
    """Titles over row lines of tables, some of which are within a width, and some titles coloured."""
    sheet = random_sheet(Calls.rules, Calls.column_rule)
    if random.random() < 0.3:
        sheet.spread()
    if random.random() < 0.6:
        for _ in range(random.randrange(1, 3)):
            sheet.title()
        return sheet.print()
    how, total, r = random_how(), random.randrange(40), random.randrange(sheet.count()[0] + 1)
    side, title = random.choice(SIDES), random_text(12)
    color, words = random_color() if random.random() < 0.5 else (None, "")
    sheet.say("titled_in" if color else "titled", total, r, side, *[words] * bool(color), f"{how.words}␟{title}")
    if sheet.spans_fit():
        sheet.put_title(r, side, title, sheet.fitted(total, (), how)[1], color)
    sheet.expected = sheet.within(total, how)
    return sheet


def colors():
    """Colours of texts, grounds and stripes, one over another."""
    sheet = random_sheet(Calls.color, Calls.color, Calls.color)
    if random.random() < 0.3:
        sheet.spread()
    return sheet.print()


def columns():
    """Columns with ranges of widths, some of which are never narrowed."""
    sheet, how, total = random_sheet(Calls.rules), random_how(), random.randrange(40)
    if random.random() < 0.3:
        sheet.spread()
    whole = (NO_LIMIT, NO_LIMIT)
    ranges = [random.choice([whole, (random.randrange(12), random.randrange(15))]) for _ in range(random.randrange(sheet.count()[1] + 2))]
    sheet.say("columns", total, ",".join(f"{least}-{most}" for least, most in ranges) or "none", how.words)
    fits = all(sheet.count()) and sheet.spans_fit()
    sheet.expected = sheet.within(NO_LIMIT, how, sheet.ranged(total, ranges, how) if fits else ())
    return sheet


FIGURES = ["", " ", "1", "-2.50", "1,000", "+.5", "3e8", "1.e2", "−7%", "12.125%", ",1", "1.2.3", "e5", "٣", "x", "5.", "1e", "%", "1,,2e+3%"]


def numbers(call):
    """A table of numbers and of texts that nearly are some, after a call."""
    figures = FIGURES[: random.choice([10, 10, len(FIGURES)])]
    sheet = Calls([[random.choice(figures) for _ in range(3)] for _ in range(random.randrange(1, 6))])
    sheet.style()
    call(sheet)
    return sheet.print()


# An escape sequence: one of control, a command, or a short one. What ends it early is no part of it.
ESCAPE = re.compile(r"\x1b(?:\[[ -?]*[@-~]?|[\]PX^_][^\x07\x9c\x1b\n]*[\x07\x9c]?|[ -/]*[0-~]?)")


def escapes():
    """Texts without escape sequences, whole ones and parts of some."""
    whole = ["\x1b[31m", "\x1b[0m", "\x1b]8;;x\x07", "\x1bPq\x9c", "\x1b(B", "\x1b\\", "\x1b7"]
    parts = ["\x1b", "\x1b[", "\x1b]", "\x1b_", "\x1b(", "\x1b[3", "\x07", "\x9c", ";1", "m", "~", "(", "[", "]", "P", "\x7f", "\x9b"]
    pieces = [*whole, *parts, *parts, *fitting.PIECES_OF_CELLS[:30]]
    texts = [["".join(random.choices(pieces, k=random.randrange(9))) for _ in range(2)] for _ in range(2)]
    sheet = Calls([[ESCAPE.sub("", text) for text in row] for row in texts])
    sheet.lines = [line for row in texts for line in ["row ", *("bare " + text for text in row)]]
    sheet.style()
    return sheet.print()


def cut_away(text, columns, tail, is_middle):
    """A text whose lines are cut in front or in the middle, with a tail in place of what is left out."""
    lines = text.split("\n")
    for k, line in enumerate(lines):
        if fitting.width(line) > columns:
            front = fitting.beginning(line, (columns - fitting.width(tail) + 1) // 2) if is_middle else ""
            end = ""
            for c in reversed(fitting.clusters(line[len(front):])):
                if fitting.width(front + tail + c + end) > columns:
                    break
                end = c + end
            is_wide = fitting.width(tail) > columns
            lines[k] = fitting.beginning(tail, columns) if is_wide else front + tail + end
    return "\n".join(lines)


def ends_kept():
    """Texts that are cut in front or in the middle."""
    texts, written = random_rows(12), []
    for row in texts:
        written.append("row ")
        for c, text in enumerate(row):
            call, columns, tail = random.choice(["front", "middle"]), random.randrange(9), random.choice(["…", "..", "", "茶"])
            written.append(f"{call} {columns} {tail}␟{text}")
            row[c] = cut_away(text, columns, tail, call == "middle")
    sheet = Calls(texts)
    sheet.lines = written
    sheet.style()
    return sheet.print()


def transposed():
    """Columns as rows, in a table with settings of its own."""
    sheet = random_sheet(Calls.rules, Calls.color)
    sheet.say("transposed")
    sheet.rows = [list(column) for column in zip(*sheet.rows)]
    sheet.reset("ascii")
    sheet.style()
    return sheet.print()


def padded():
    """Rows of several lengths, perhaps none."""
    filler, rows = random_text(4), [random_text(6).split() for _ in range(random.randrange(6))]
    sheet = Calls(rows, f"padded {filler}")
    longest = max(map(len, rows), default=0)
    sheet.rows = [row + [filler] * (longest - len(row)) for row in rows]
    sheet.style()
    return sheet.print()


def beside():
    """Texts beside each other."""
    gap = random.randrange(4)
    sheet = Calls([[random_text(20) for _ in range(random.randrange(1, 4))]], f"beside {gap}")
    sheet.reset("empty")
    sheet.settings["padding"] = [("all", [(gap, " "), *[(0, " ")] * 3]), ("col 0", [(0, " ")] * 4)]
    return sheet.print()


def rows():
    """Rows that are pushed, perhaps one of another length, and other texts for cells."""
    sheet = random_sheet()
    for _ in range(random.randrange(3)):
        row = [random_text(6) for _ in range(sheet.count()[1] + (random.random() < 0.1))]
        sheet.say("push", "".join("␟" + text for text in row))
        sheet.rows.append(row)
        if len(row) != sheet.count()[1]:
            sheet.expected = f"! row {len(sheet.rows) - 1} has another length than row 0"
            return sheet
        sheet.set_text()
    return sheet.print()


def marked(escapes):
    """A table with texts that have marks of a language, and what becomes of each text."""
    pieces = [*"|\\<>&\"'`#", "\n", "<br>", "a b", "茶"]
    rows = [["".join(random.choice(pieces) for _ in range(random.randrange(5))) for _ in range(3)] for _ in range(random.randrange(1, 4))]
    sheet = Calls(rows)
    sheet.style()
    sheet.spread()
    return sheet, [["".join(escapes.get(c, c) for c in text) for text in row] for row in sheet.rows]


def markdown():
    sheet, texts = marked({"|": "\\|", "\\": "\\\\", "\n": "<br>"})
    shown = [["" if sheet.is_covered(r, c) else text for c, text in enumerate(row)] for r, row in enumerate(texts)]
    lines = ["|" + "".join(f" {text} |" for text in row) for row in shown]
    marks = {"left": " --- |", "center": " :---: |", "right": " ---: |"}
    lines.insert(1, "|" + "".join(marks[sheet.at("alignment_horizontal", 1, c)] for c in range(sheet.count()[1])))
    sheet.say("markdown")
    sheet.expected = "".join(line + "\n" for line in lines)
    return sheet


def html():
    sheet, texts = marked({"&": "&amp;", "<": "&lt;", ">": "&gt;", '"': "&quot;"})
    cells = {}
    for r, c, h, w in sheet.cells():
        side = sheet.at("alignment_horizontal", r, c)
        tag = "<td" + f' class="{side}"' * (side != "left") + f' rowspan="{h}"' * (h != 1) + f' colspan="{w}"' * (w != 1)
        cells[r, c] = f"{tag}>{texts[r][c]}</td>"
    lines = ["<tr>" + "".join(cells.get((r, c), "") for c in range(len(row))) + "</tr>\n" for r, row in enumerate(texts)]
    sheet.say("html")
    sheet.expected = "<table>\n" + "".join(lines) + "</table>"
    return sheet


SUBJECTS = {
    "within": within,
    "filled": filled,
    "columns": columns,
    "panels": lambda: random_sheet(Calls.spread, Calls.panel, Calls.rules, Calls.panel, Calls.cross).print(),
    "lines": lambda: random_sheet(Calls.rules, Calls.column_rule, Calls.rules, Calls.column_rule).print(),
    "frames": lambda: random_sheet(Calls.rules, Calls.frame, Calls.frame, Calls.column_rule, Calls.frame).print(),
    "merged": merged,
    "titles": titles,
    "colors": colors,
    "numbers": lambda: numbers(Calls.numbers),
    "points": lambda: numbers(Calls.points),
    "escapes": escapes,
    "ends": ends_kept,
    "transposed": transposed,
    "padded": padded,
    "beside": beside,
    "rows": rows,
    "markdown": markdown,
    "html": html,
}

# ---- the program


def section(number, sheet):
    """What the program reads of a table: its number, its calls, and what it shows; `␊` is a line feed."""
    return "\n".join(line.replace("\n", "␊") for line in [str(number), *sheet.lines, "= " + sheet.expected])


def build(folder):
    """A repository of a program that makes the calls, with the crates that it takes."""
    (folder / "crates.txt").write_text("")
    subprocess.run([TOP / "take-into", folder, "pg_table", "pg_testing"], check=True, stdout=subprocess.DEVNULL)
    with open(folder / "crates.txt", "a", encoding="utf-8") as lines:
        lines.write("table_calls: pg_layout pg_fit pg_table pg_testing\n")
    program = folder / "crates" / "table_calls" / "src" / "main.rt"
    program.parent.mkdir(parents=True)
    program.write_text((TOP / "oracles" / "table_calls.txt").read_text())
    (folder / "cases").mkdir()


def run(folder, sections):
    """Runs the program on the sections of each subject; yields those that differ, with what their tables show."""
    firsts = [(name, first) for name, listed in sections.items() for first in range(0, len(listed), BATCH)]
    batches = {f"{name}.{first}": sections[name][first : first + BATCH] for name, first in firsts}
    for name, batch in batches.items():
        (folder / "cases" / name).write_text("\n\n".join(batch))
    words = ["rt", "try", "--steps", "1000", "--seconds", "300", "--cases", folder / "cases"]
    ended = subprocess.run(words, cwd=folder / "crates" / "table_calls", capture_output=True, text=True)
    outputs = dict(re.findall(r"^== (\S+)\n(.*?)(?=^== |\Z)", ended.stdout, re.M | re.S))
    for name, batch in batches.items():
        if f"{len(batch)} tables\n" not in outputs.get(name, ""):
            sys.exit(f"{ended.stderr[-3000:]}tables: the program didn't follow {name}")
        for number, text in re.findall(r"^(\d+) (?!tables$)(.*)$", outputs[name], re.M):
            yield name.split(".")[0], sections[name.split(".")[0]][int(number)], text


def main():
    words = argparse.ArgumentParser(description="Compares random tables with those of a model.")
    words.add_argument("subjects", nargs="*", metavar="SUBJECT", help=", ".join(SUBJECTS))
    words.add_argument("--count", type=int, default=10000, help="how many tables each subject has")
    words.add_argument("--seed", default="1", help="other tables")
    given = words.parse_args()
    if not set(given.subjects) <= set(SUBJECTS):
        words.error(f"the subjects are {', '.join(SUBJECTS)}")
    sections, begun = {}, time.time()
    for name in given.subjects or SUBJECTS:
        random.seed(f"{name} {given.seed}")
        sections[name] = [section(number, SUBJECTS[name]()) for number in range(given.count)]
    with tempfile.TemporaryDirectory(prefix="tables-") as folder:
        build(Path(folder))
        differing = list(run(Path(folder), sections))
    for name, wanted, text in differing:
        print(f"{name} {wanted}\n! {text}\n".replace("␊", "\n"))
    for name, listed in sections.items():
        print(f"{name}: {len(listed)} tables, {sum(name == it[0] for it in differing)} differ")
    print(f"{time.time() - begun:.0f} seconds")
    return bool(differing)


if __name__ == "__main__":
    sys.exit(main())
