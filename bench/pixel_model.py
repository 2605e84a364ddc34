"""Pixels as the model keeps them: what forms of data they have, how components are narrowed and widened, which texels a draw shows, and storages.

It shares nothing with the driver either.
"""
from dataclasses import dataclass

# How pixels that are drawn to are kept: a format and a type.
RGB565, RGB888, RGBA8888, RGBA4444, RGBA5551 = ("GL_RGB", "GL_UNSIGNED_SHORT_5_6_5"), ("GL_RGB", "GL_UNSIGNED_BYTE"), ("GL_RGBA", "GL_UNSIGNED_BYTE"), ("GL_RGBA", "GL_UNSIGNED_SHORT_4_4_4_4"), ("GL_RGBA", "GL_UNSIGNED_SHORT_5_5_5_1")
ONE = 0x10000
# By a format and a type that go together: the bytes of a pixel.
FORMS = {("GL_ALPHA", "GL_UNSIGNED_BYTE"): 1, ("GL_RGB", "GL_UNSIGNED_BYTE"): 3, ("GL_RGBA", "GL_UNSIGNED_BYTE"): 4, ("GL_LUMINANCE", "GL_UNSIGNED_BYTE"): 1, ("GL_LUMINANCE_ALPHA", "GL_UNSIGNED_BYTE"): 2, ("GL_RGB", "GL_UNSIGNED_SHORT_5_6_5"): 2, ("GL_RGBA", "GL_UNSIGNED_SHORT_4_4_4_4"): 2, ("GL_RGBA", "GL_UNSIGNED_SHORT_5_5_5_1"): 2}
# By a format: which of red, green, blue and alpha its data has, in order; a luminance is all three colours.
COMPONENTS = {"GL_ALPHA": ["a"], "GL_RGB": ["r", "g", "b"], "GL_RGBA": ["r", "g", "b", "a"], "GL_LUMINANCE": ["rgb"], "GL_LUMINANCE_ALPHA": ["rgb", "a"]}
# By a type whose components share two bytes: their bits, the highest first.
SHORTS = {"GL_UNSIGNED_SHORT_5_6_5": (5, 6, 5), "GL_UNSIGNED_SHORT_4_4_4_4": (4, 4, 4, 4), "GL_UNSIGNED_SHORT_5_5_5_1": (5, 5, 5, 1)}


def clamped(number):
    return min(max(number, 0), ONE)


def stored(colour, form, kind):
    """A colour in fixed point as pixels of this form keep it, read at 8 bits a component: halves go upward."""
    read = []
    for place, (number, bits) in enumerate(zip(colour, [*SHORTS.get(kind, [8] * len(COMPONENTS[form])), 0])):
        most = (1 << bits) - 1
        kept = (2 * number * most + ONE) // (2 * ONE)
        read.append((2 * kept * 255 + most) // (2 * most) if bits else 255 * (place == 3))
    return bytes(read)


def widened(number, bits):
    """A component of so many bits at 8 bits, to the nearest, halves upward."""
    most = (1 << bits) - 1
    return (2 * number * 255 + most) // (2 * most)


def narrowed(number, bits):
    """A component of 8 bits as one of so many keeps it, at 8 bits again."""
    most = (1 << bits) - 1
    return widened((2 * number * most + 255) // 510, bits)


def of_components(form, values):
    """A pixel of 8 bits a component: what a format hasn't is 0, and alpha 255."""
    pixel = {"r": 0, "g": 0, "b": 0, "a": 255}
    for name, value in zip(COMPONENTS[form], values):
        pixel |= dict.fromkeys(name, value)
    return bytes(pixel[name] for name in "rgba")


def unpacked(data, form, kind):
    """A pixel of data at 8 bits a component."""
    if kind not in SHORTS:
        return of_components(form, data)
    number, values = int.from_bytes(data, "little"), []
    for bits in reversed(SHORTS[kind]):
        values.insert(0, widened(number & (1 << bits) - 1, bits))
        number >>= bits
    return of_components(form, values)


def kept(pixel, form, kind):
    """A pixel of 8 bits a component as a storage of this form keeps it, at 8 bits again; a luminance is red."""
    values = [pixel["rgba".index(name[0])] for name in COMPONENTS[form]]
    if kind in SHORTS:
        values = [narrowed(value, bits) for value, bits in zip(values, SHORTS[kind])]
    return of_components(form, values)


def spelled_out(payload, wanted):
    """The bytes of a payload, and zeros past its end."""
    data = b""
    if payload.startswith("#"):
        data = bytes.fromhex(payload[1:])
    elif payload.startswith("*"):
        count, repeated = payload[1:].split(":")
        data = bytes.fromhex(repeated) * int(count)
    return data[:wanted] + bytes(max(wanted - len(data), 0))


def transferred(payload, width, height, form, kind, alignment):
    """The pixels of a payload, row by row; each row is aligned."""
    size = FORMS[form, kind]
    row = -(-size * width // alignment) * alignment
    data = spelled_out(payload, row * height)
    return [unpacked(data[y * row + size * x:][:size], form, kind) for y in range(height) for x in range(width)]


def packed(pixel):
    """A pixel of 8 bits a component in two bytes of 5, 6 and 5 bits, the lower byte first."""
    red, green, blue = ((2 * c * most + 255) // 510 for c, most in zip(pixel, (31, 63, 31)))
    return (red << 11 | green << 5 | blue).to_bytes(2, "little")


def is_covered(first, size, place):
    """Whether a draw in fixed point covers the centre of a column or a row."""
    return 2 * first <= (2 * place + 1) * ONE < 2 * (first + size)


def along(place, first, size, crop, extent, side, base, wrap):
    """The column, or the row, of the texel that the pixel in a column or row shows."""
    k = (2 * size * crop + ((2 * place + 1) * ONE - 2 * first) * extent) * side // (2 * size * base)
    return k % side if wrap == "GL_REPEAT" else min(max(k, 0), side - 1)


def texel(texture, level, corner, sides, x, y):
    """The texel of a level that a pixel of a draw shows."""
    base, (u, v, wide, high) = texture.levels[0], texture.crop
    column = along(x, corner[0], sides[0], u, wide, level.width, base.width, texture.values["GL_TEXTURE_WRAP_S"])
    row = along(y, corner[1], sides[1], v, high, level.height, base.height, texture.values["GL_TEXTURE_WRAP_T"])
    return level.pixels[row * level.width + column]


def product(a, b):
    return (2 * a * b + 255) // 510


def combined(context, level, shown):
    """What the texture environment makes of the colour of a context and a texel."""
    colour, replaces = context.fragment(), context.environment == "GL_REPLACE"
    joined = [t if replaces else product(f, t) for f, t in zip(colour, shown)]
    if level.base == "GL_ALPHA":
        joined[:3] = colour[:3]
    if level.base in ("GL_RGB", "GL_LUMINANCE"):
        joined[3] = colour[3]
    return joined


@dataclass(eq=False)
class Storage:
    """Pixels of 8 bits a component, row by row from below, as a format and a type keep them; zeros at first."""

    width: int
    height: int
    base: str
    kind: str
    pixels: list = None

    def bytes(self):
        return self.width * self.height * FORMS[self.base, self.kind]

    def blank(self):
        """Each pixel becomes zeros."""
        self.pixels = [stored((0, 0, 0, 0), self.base, self.kind)] * (self.width * self.height)

    def fill(self, colour, covers, mask):
        """Each pixel that is covered takes the components of the colour that the mask has; a component without bits stays."""
        written, width = stored(colour, self.base, self.kind), self.width
        self.pixels = [bytes(new if on else old for new, old, on in zip(written, pixel, mask)) if covers(k % width, k // width) else pixel for k, pixel in enumerate(self.pixels)]

    def write(self, k, pixel, mask):
        """Writes the components of a pixel that a mask has, as this form keeps them."""
        self.pixels[k] = bytes(new if on else old for new, old, on in zip(kept(pixel, self.base, self.kind), self.pixels[k], mask))

    def pixel(self, x, y):
        """A pixel of 8 bits a component; zeros outside."""
        return self.pixels[y * self.width + x] if 0 <= x < self.width and 0 <= y < self.height else bytes(4)

    def has_alpha(self):
        return "a" in COMPONENTS[self.base]
