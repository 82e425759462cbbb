"""A second writing of why the ended reading stopped, and of what the H line tells.

Written from the rules as they stand in docs/DECISIONS.md and not from the definition: a cursor that
walks a line from left to right and raises a halt, with its reason and place, at the first thing
that does not stand where it is due. The reasons: 1 no digit, 2 over 32 bits, 3 over 255, 4 else.
"""

import re

BLANKS = b" \t"
DIGITS = {16: b"0123456789ABCDEFabcdef", 10: b"0123456789", 8: b"01234567"}
RADIX = {0x58: 16, 0x44: 10, 0x51: 8}


class Halt(Exception):
    def __init__(self, reason, place):
        self.reason, self.place = reason, place


class Form:
    def __init__(self, radix, big, length):
        self.radix, self.big, self.length = radix, big, length


class Cursor:
    """A place in one line."""

    def __init__(self, line, form):
        self.line, self.form, self.at = line, form, 0

    def done(self):
        return self.at == len(self.line)

    def on_blank(self):
        return not self.done() and self.line[self.at] in BLANKS

    def skip(self):
        while self.on_blank():
            self.at += 1

    def blanks(self):
        """One or more blanks have to stand here."""
        if not self.on_blank():
            raise Halt(4, self.at)
        self.skip()

    def word(self, word):
        """A fixed word, refused at its first byte."""
        if not self.line.startswith(word, self.at):
            raise Halt(4, self.at)
        self.at += len(word)

    def name(self):
        first = self.at
        while not self.done() and not self.on_blank():
            self.at += 1
        if self.at == first:
            raise Halt(4, first)

    def number(self):
        first = self.at
        digits = DIGITS[self.form.radix]
        while not self.done() and self.line[self.at] in digits:
            self.at += 1
        if self.at == first:
            raise Halt(1, first)
        value = int(self.line[first:self.at], self.form.radix)
        if value >> 32:
            raise Halt(2, first)
        return value

    def byte(self):
        first = self.at
        value = self.number()
        if value > 255:
            raise Halt(3, first)
        return value

    def joined(self, count):
        values = [self.byte()]
        while len(values) < count:
            self.blanks()
            values.append(self.byte())
        if not self.form.big:
            values.reverse()
        value = 0
        for v in values:
            value = value * 256 + v
        return value

    def end(self):
        """Blanks may trail; anything else is refused where it stands."""
        self.skip()
        if not self.done():
            raise Halt(4, self.at)


def field(c, word):
    c.blanks()
    c.word(word)
    c.blanks()
    c.number()


def area_line(c):
    c.word(b"A")
    c.blanks()
    c.name()
    field(c, b"size")
    field(c, b"flags")
    # behind the flags: nothing, blanks, or ` addr N`
    if not c.line[c.at:].strip(BLANKS):
        c.end()
        return
    field(c, b"addr")
    c.end()


def symbol_line(c):
    c.word(b"S")
    c.blanks()
    c.name()
    c.blanks()
    if c.line.startswith(b"Def", c.at):
        c.at += 3
    else:
        c.word(b"Ref")
    c.number()
    c.end()


def any_line(c):
    """A letter and at least one more byte."""
    if len(c.line) < 2:
        raise Halt(4, 1)
    c.at = len(c.line)


def entry_line(c):
    """A line of group one; raises where it does not read to its end."""
    letter = c.line[:1]
    if letter == b"A":
        area_line(c)
    elif letter == b"S":
        symbol_line(c)
    elif letter in (b"O", b"H", b"M"):
        any_line(c)
    else:
        raise Halt(4, 0)


def content_line(c):
    c.word(b"T")
    c.blanks()
    c.joined(c.form.length)
    while not c.done():
        c.blanks()
        c.byte()


def mode(c):
    first = c.at
    value = c.byte()
    if value >= 0xF0:
        c.blanks()
        value = (value * 256 + c.byte()) % 4096
    if value >= 2048:
        raise Halt(4, first)


def relocation_line(c, ended):
    """Trailing blanks are fine where a line end stands behind them; else a number was due."""
    c.word(b"R")
    c.blanks()
    first = c.at
    if c.joined(2) != 0:
        raise Halt(4, first)
    c.blanks()
    c.joined(2)
    while not c.done():
        if ended and not c.line[c.at:].strip(BLANKS):
            return
        c.blanks()
        mode(c)
        c.blanks()
        c.byte()
        c.blanks()
        c.joined(2)


def header(text):
    """The form and the place behind the header's blanks, or nothing."""
    found = re.match(rb"[ \t\r\n]*([XDQ])([HL])([234])[ \t]*", text)
    if not found:
        return None
    radix, order, length = (g[0] for g in found.groups())
    return Form(RADIX[radix], order == 0x48, length - 0x30), found.end()


def line_end(text, at):
    if text[at:at + 1] == b"\n":
        return 1
    return 2 if text[at:at + 2] == b"\r\n" else 0


def line_at(text, at):
    """A line's bytes, the length of its line end, and where the next one begins."""
    end = at
    while end < len(text) and text[end] not in b"\r\n":
        end += 1
    ends = line_end(text, end)
    return text[at:end], ends, end + ends


def takes_entry(text, at, form):
    line, ends, next_at = line_at(text, at)
    if not ends:
        return None
    try:
        entry_line(Cursor(line, form))
    except Halt:
        return None
    return next_at


def takes_pair(text, at, form):
    line, ends, second = line_at(text, at)
    if not ends:
        return None
    other, other_ends, next_at = line_at(text, second)
    if not other_ends:
        return None
    if line[:1] == b"T" and len(line) > 1 and other[:1] == b"P" and len(other) > 1:
        return next_at
    try:
        content_line(Cursor(line, form))
        relocation_line(Cursor(other, form), True)
    except Halt:
        return None
    return next_at


class Reading:
    """The ended reading: where its records end and it stopped, whether a pair was taken, and its lines of group one."""

    def __init__(self, text):
        self.text, self.whole = text, False
        found = header(text)
        if not found:
            return
        self.form, at = found
        ends = line_end(text, at)
        if not ends:
            return
        self.whole, at = True, at + ends
        self.head, self.entries, self.paired = at, [], False
        self.ends = [at]
        while (after := takes_entry(text, at, self.form)) is not None:
            self.entries.append(line_at(text, at)[0])
            at = after
            self.ends.append(at)
        while (after := takes_pair(text, at, self.form)) is not None:
            self.paired, at = True, after
            self.ends.append(at)
        self.stop = at

    def pair_halt(self, line, ends, second):
        try:
            content_line(Cursor(line, self.form))
        except Halt as halt:
            return halt.reason, self.stop + halt.place
        if not ends:
            return 4, self.stop + len(line)
        other, other_ends, _ = line_at(self.text, second)
        try:
            relocation_line(Cursor(other, self.form), other_ends > 0)
        except Halt as halt:
            return halt.reason, second + halt.place
        return 4, second + len(other)

    def halt(self):
        """The reason and the place of the halt, or nothing where the reading is finished."""
        if not self.whole or self.stop == len(self.text):
            return None
        line, ends, second = line_at(self.text, self.stop)
        if self.paired or line[:1] == b"T":
            return self.pair_halt(line, ends, second)
        try:
            entry_line(Cursor(line, self.form))
        except Halt as halt:
            return halt.reason, self.stop + halt.place
        return 4, self.stop + len(line)

    def counts(self):
        """1 equal, 2 not equal, 3 not told."""
        return self.counts_of(self.entries) if self.whole else 3

    def counts_of(self, entries):
        digits = DIGITS[self.form.radix].replace(b"-", b"")
        told = re.compile(rb"H[ \t]+([" + digits + rb"]+)[ \t]+areas[ \t]+([" + digits + rb"]+)[ \t]+global[ \t]+symbols[ \t]*")
        for line in entries:
            found = told.fullmatch(line)
            if not found:
                continue
            areas, symbols = (int(g, self.form.radix) for g in found.groups())
            if areas >> 32 or symbols >> 32:
                continue
            counted = [line[:1] for line in entries]
            return 1 if (areas, symbols) == (counted.count(b"A"), counted.count(b"S")) else 2
        return 3
