"""Which pixels that differ a driver may have as it likes: those that are zeros since they were never written, or lie outside of what is read.

A judgement tells the first of them. Whether all are zeros the judge tells when it is asked again, with zeros in the place of what the driver read.
"""
from dataclasses import dataclass, replace

from configs import Configs, number_of
from differences import Difference
from logs import read, variables_of
from pixels import ZEROS
from shadow import CREATING, Pixels, Shadow

# A handle stands for its line, since a driver may give a number again.
MADE = 1 << 64
CURRENT = {"eglGetCurrentContext": "context", "eglGetCurrentSurface": "surface"}


@dataclass
class Zeros:
    """Pixels that differ, the first of which is to be zero; what is read, and from where."""

    difference: Difference
    theirs: bytes
    source: Pixels
    left: int
    bottom: int
    width: int
    height: int

    def zero(self):
        return bytes.fromhex(self.difference.expected)

    def places(self):
        """Where each pixel begins; what a row is filled up with stands behind its last."""
        size, row = len(self.zero()), len(self.theirs) // self.height
        return ((x, y, y * row + x * size) for y in range(self.height) for x in range(self.width))

    def is_outside(self, x, y):
        return not (0 <= self.left + x < self.source.width and 0 <= self.bottom + y < self.source.height)

    def asked(self):
        """The bytes with which the judge is asked: zeros for all, or where all else was written for those outside."""
        found, zero = bytearray(self.theirs), self.zero()
        for x, y, at in self.places():
            if self.source.is_unwritten or self.is_outside(x, y):
                found[at:at + len(zero)] = zero
        return bytes(found)

    def are_all(self, left):
        """Whether all are zeros, by what differs from what was asked with. Each that differs is zero where as many aren't zero for either as for the driver alone."""
        if not self.source.is_unwritten:
            return left is None
        if left and left.kind != "pixels":
            return False
        zero, count = self.zero(), int(self.difference.text.split()[0])
        written = sum(self.theirs[at:at + len(zero)] != zero for _, _, at in self.places())
        return count + (int(left.text.split()[0]) if left else 0) == written


class Walk:
    """Follows a log by what the driver answered, where the specification did the same."""

    def __init__(self, log, found):
        self.log, self.configs, self.shadow = log, Configs(log), Shadow()
        self.values, self.listed, self.made = {}, {}, {}
        self.unplayed = {line for line, _ in found.after + found.unjudged} | {difference.line for difference in found.differences if difference.kind == "outcome"}
        self.windows = {int(words[1]): words for words in (text.split() for text in log.head.values()) if words[0] == "window"}

    def argument(self, word):
        if word.startswith("["):
            return [self.argument(item) for item in word[1:-1].split(",")] if word != "[]" else []
        if not word.startswith("$"):
            return number_of(word)
        (variable, place), = variables_of([word])
        items = self.listed.get(variable, [])
        if place:
            return items[int(place)] if int(place) < len(items) else 0
        return self.values.get(variable, 0)

    def value(self, line):
        """What a line's variable stands for."""
        theirs = number_of(line.answer.value)
        if line.name in CREATING:
            self.made[CREATING[line.name], theirs] = MADE + line.number
            return MADE + line.number
        return self.made.get((CURRENT.get(line.name), theirs), theirs)

    def follow(self, line):
        value, listed = self.value(line), [number_of(item) for item in line.answer.list]
        if line.variable:
            self.values[line.variable], self.listed[line.variable] = value, listed
        if line.name != "front" and line.answer.outcome == "ok" and line.number not in self.unplayed:
            self.shadow.follow(line.thread, line.name, [self.argument(word) for word in self.configs.words(line)], value, listed)

    def read_by(self, line):
        """What a line reads, from where, and its sides."""
        if line.name == "front":
            window, words = int(line.words[0]), self.windows.get(int(line.words[0]))
            bits = self.shadow.windows[window].bits if window in self.shadow.windows else (8, 8, 8, 8)
            return (self.shadow.fronts.get(window) or Pixels(bits), 0, 0, int(words[2]), int(words[3])) if words else None
        if line.name != "glReadPixels" or not self.shadow.context(line.thread):
            return None
        return self.shadow.read_from(line.thread), *map(self.argument, line.words[:4])


def may_be_zeros(text, found):
    """What a log reads whose pixels differ, the first of which is to be zero."""
    wanted = {difference.line: difference for difference in found.differences if difference.kind == "pixels" and bytes.fromhex(difference.expected) in ZEROS}
    if not wanted:
        return []
    log, asked = read(text), []
    walk = Walk(log, found)
    for line in log.lines:
        if line.answer is None:
            continue
        if line.number in wanted:
            source = walk.read_by(line)
            if source:
                asked.append(Zeros(wanted[line.number], line.answer.bytes, replace(source[0]), *source[1:]))
        walk.follow(line)
    return asked


def with_zeros(text, asked):
    """The log with the bytes with which the judge is asked."""
    lines = text.split("\n")
    for zeros in asked:
        at = zeros.difference.line - 1
        front, _, _ = lines[at].rstrip("\r ").rpartition(" ")
        lines[at] = f"{front} {zeros.asked().hex()}"
    return "\n".join(lines)
