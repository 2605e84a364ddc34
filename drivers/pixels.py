"""Pixels beside pixels: how many differ, by how much, and where."""
from dataclasses import dataclass, field

PACKED = (5, 6, 5, 0)
# In four bytes with alpha and without, and in two.
ZEROS = (bytes(4), bytes([0, 0, 0, 255]), bytes(2))


def widened(number, bits):
    """A component of so many bits at 8 bits, to the nearest, halves upward."""
    most = (1 << bits) - 1
    return (2 * number * 255 + most) // (2 * most)


def narrowed(number, bits):
    most = (1 << bits) - 1
    return (2 * number * most + 255) // 510


def steps(ours, theirs, bits):
    """How many steps of a component of so many bits lie between two of 8 bits; 255 where it has none."""
    if ours == theirs:
        return 0
    if bits == 0:
        return 255
    at, most = narrowed(ours, bits), (1 << bits) - 1
    for step in range(1, most + 1):
        if widened(max(at - step, 0), bits) <= theirs <= widened(min(at + step, most), bits):
            return step
    return most


@dataclass
class Told:
    """The pixels that differ by more than is allowed."""

    count: int
    of: int
    largest: int
    columns: list = field(default_factory=list)
    rows: list = field(default_factory=list)
    first: tuple = None
    # Whether each of them is to be zero, as those that were never written are.
    is_zero: bool = True

    def text(self):
        x, y, ours, theirs = self.first
        return f"{self.count} {self.of} {self.largest} {min(self.columns)} {min(self.rows)} {max(self.columns)} {max(self.rows)} {x} {y} {ours.hex()} {theirs.hex()}"


@dataclass
class Pixels:
    ours: bytes
    theirs: bytes
    width: int
    height: int
    bits: tuple
    # Whether two bytes have a pixel, the lower first, and to a multiple of what a row is filled up.
    packed: bool
    alignment: int

    def components(self, pixel):
        if not self.packed:
            return list(pixel)
        number = int.from_bytes(pixel, "little")
        return [widened(number >> 11, 5), widened(number >> 5 & 63, 6), widened(number & 31, 5)]

    def step(self, ours, theirs):
        """The largest step between two pixels."""
        bits = [min(own, of) or own for own, of in zip(self.bits, PACKED)] if self.packed else self.bits
        return max(steps(a, b, size) for a, b, size in zip(self.components(ours), self.components(theirs), bits))

    def told(self, delta):
        """What differs by more than so many steps; nothing where none does."""
        size = 2 if self.packed else 4
        row = -(-size * self.width // self.alignment) * self.alignment
        told, known = Told(0, self.width * self.height, 0), {}
        for y in range(self.height):
            if self.ours[y * row:y * row + size * self.width] == self.theirs[y * row:y * row + size * self.width]:
                continue
            for x in range(self.width):
                at = y * row + x * size
                pair = self.ours[at:at + size], self.theirs[at:at + size]
                step = known[pair] if pair in known else known.setdefault(pair, self.step(*pair))
                if step > delta:
                    told.count, told.largest = told.count + 1, max(told.largest, step)
                    told.first = told.first or (x, y, *pair)
                    told.is_zero = told.is_zero and pair[0] in ZEROS
                    told.columns.append(x)
                    told.rows.append(y)
        return told if told.count else None


def pixels_of(ours, theirs, width, height, bits, packed, alignment):
    return Pixels(ours, theirs, width, height, bits, packed, alignment)
