"""A small model of the driver, for one thread: what each call answers, and which objects exist.

It is written from the pages of EGL 1.5 and of OpenGL ES 1.1, and from docs/MODEL.md, and shares nothing with the driver. An argument is a number, a name as a trace spells it, or a list of numbers; the attributes of a pbuffer are its two sides.
"""
from dataclasses import dataclass, field

from pixel_model import COMPONENTS, FORMS, ONE, RGB565, RGB888, RGBA4444, RGBA5551, RGBA8888, Storage, clamped, combined, is_covered, kept, packed, spelled_out, texel, transferred

# By a config's id: how its surfaces keep their pixels, and depth and stencil.
CONFIGS = {1: (RGB565, (0, 0)), 2: (RGB565, (16, 0)), 3: (RGB888, (0, 0)), 4: (RGBA8888, (0, 0)), 5: (RGBA8888, (24, 8)), 6: (RGBA4444, (0, 0)), 7: (RGBA5551, (0, 0)), 8: (RGBA8888, (0, 0))}
WITHOUT_WINDOWS = 8
VIDEO = 67_108_864
BEHAVIORS = ["EGL_BUFFER_PRESERVED", "EGL_BUFFER_DESTROYED"]
RENDER_BUFFERS = {"[]": "EGL_BACK_BUFFER", "[EGL_RENDER_BUFFER,EGL_BACK_BUFFER]": "EGL_BACK_BUFFER", "[EGL_RENDER_BUFFER,EGL_SINGLE_BUFFER]": "EGL_SINGLE_BUFFER"}
ATTRIBUTES = ["EGL_CONFIG_ID", "EGL_WIDTH", "EGL_HEIGHT", "EGL_SWAP_BEHAVIOR", "EGL_RENDER_BUFFER", "EGL_LARGEST_PBUFFER"]
# By the attributes of a context that are allowed: the error of the version that they ask for.
VERSIONS = {"[]": None, "[EGL_CONTEXT_CLIENT_VERSION,1,EGL_CONTEXT_MINOR_VERSION,1]": None, "[EGL_CONTEXT_CLIENT_VERSION,2]": "EGL_BAD_CONFIG", "[EGL_CONTEXT_CLIENT_VERSION,4]": "EGL_BAD_MATCH"}
CLEARED = ["GL_COLOR_BUFFER_BIT", "GL_DEPTH_BUFFER_BIT", "GL_COLOR_BUFFER_BIT|GL_STENCIL_BUFFER_BIT"]
FORMATS = {form for form, _ in FORMS}
# The formats of pixels that are drawn to and read from.
RENDERABLE = ["GL_RGB", "GL_RGBA"]
TYPES = {kind for _, kind in FORMS}
LEVELS = 11
LONGEST = 1_024
LONGEST_READ = 2_048
MOST_NAMES = 256
ALIGNMENTS = [1, 2, 4, 8]
FILTERS = ["GL_NEAREST", "GL_LINEAR"]
MIPMAP_FILTERS = ["GL_NEAREST_MIPMAP_NEAREST", "GL_LINEAR_MIPMAP_NEAREST", "GL_NEAREST_MIPMAP_LINEAR", "GL_LINEAR_MIPMAP_LINEAR"]
WRAPS = ["GL_REPEAT", "GL_CLAMP_TO_EDGE"]
PARAMETERS = {"GL_TEXTURE_MIN_FILTER": FILTERS + MIPMAP_FILTERS, "GL_TEXTURE_MAG_FILTER": FILTERS, "GL_TEXTURE_WRAP_S": WRAPS, "GL_TEXTURE_WRAP_T": WRAPS}
BOXES = ["GL_VIEWPORT", "GL_SCISSOR_BOX"]
SWITCHES = ["GL_TEXTURE_2D", "GL_SCISSOR_TEST", "GL_DITHER"]
# What is off for good.
NEVER_ON = ["GL_BLEND", "GL_DEPTH_TEST", "GL_ALPHA_TEST", "GL_STENCIL_TEST", "GL_CULL_FACE", "GL_LIGHTING", "GL_FOG"]
ENVIRONMENTS = ["GL_MODULATE", "GL_REPLACE"]
# By a target of buffers the name of its binding.
BUFFER_BINDINGS = {"GL_ARRAY_BUFFER": "GL_ARRAY_BUFFER_BINDING", "GL_ELEMENT_ARRAY_BUFFER": "GL_ELEMENT_ARRAY_BUFFER_BINDING"}
USAGES = ["GL_STATIC_DRAW", "GL_DYNAMIC_DRAW"]
# The points of a framebuffer, and by an internal format of renderbuffers the point and how pixels are kept; depth and stencil have none.
COLOR, DEPTH, STENCIL = POINTS = ["GL_COLOR_ATTACHMENT0_OES", "GL_DEPTH_ATTACHMENT_OES", "GL_STENCIL_ATTACHMENT_OES"]
INTERNAL_FORMATS = {"GL_RGB565_OES": (COLOR, RGB565), "GL_RGBA4_OES": (COLOR, RGBA4444), "GL_RGB5_A1_OES": (COLOR, RGBA5551), "GL_RGBA8_OES": (COLOR, RGBA8888), "GL_DEPTH_COMPONENT16_OES": (DEPTH, None), "GL_STENCIL_INDEX8_OES": (STENCIL, None)}
RENDERBUFFER, FRAMEBUFFERS, LONGEST_STORED = "GL_RENDERBUFFER_OES", "GL_FRAMEBUFFER_OES", 2_048
SIDES = {"GL_RENDERBUFFER_WIDTH_OES": 0, "GL_RENDERBUFFER_HEIGHT_OES": 1}
OBJECT_TYPE, OBJECT_NAME = "GL_FRAMEBUFFER_ATTACHMENT_OBJECT_TYPE_OES", "GL_FRAMEBUFFER_ATTACHMENT_OBJECT_NAME_OES"
COMPLETE, UNDEFINED, UNATTACHABLE, MISSING, DIFFERENT, UNSUPPORTED = (f"GL_FRAMEBUFFER_{word}_OES" for word in ("COMPLETE", "UNDEFINED", "INCOMPLETE_ATTACHMENT", "INCOMPLETE_MISSING_ATTACHMENT", "INCOMPLETE_DIMENSIONS", "UNSUPPORTED"))
# By what an image may be of: which names of a group mean those.
IMAGE_SOURCES = {"EGL_GL_TEXTURE_2D": "names", "EGL_GL_RENDERBUFFER": "renderbuffers"}
# By an attribute of an image its values, or None for any number.
IMAGE_ATTRIBUTES = {"EGL_IMAGE_PRESERVED": [0, 1], "EGL_GL_TEXTURE_LEVEL": None}
ENUM, VALUE, OPERATION, MEMORY, FRAMEBUFFER = "GL_INVALID_ENUM", "GL_INVALID_VALUE", "GL_INVALID_OPERATION", "GL_OUT_OF_MEMORY", "GL_INVALID_FRAMEBUFFER_OPERATION_OES"


class Refused(Exception):
    """A call's error."""


def refuse(*rows):
    """Refuses with the error of the first row whose condition holds."""
    for holds, error in rows:
        if holds:
            raise Refused(error)


def is_no_side(side, level):
    """Whether no level of this number has such a side: it is negative, too long, or neither 0 nor a power of two."""
    return side < 0 or side > LONGEST >> min(max(level, 0), LEVELS - 1) or side & (side - 1) != 0


def is_outside(first, size, side):
    return first < 0 or size < 0 or first + size > side


@dataclass(eq=False)
class Window:
    id: int
    width: int
    height: int
    front: list


@dataclass(eq=False)
class Surface:
    config: int
    storage: Storage
    window: Window = None
    render_buffer: str = "EGL_BACK_BUFFER"
    behavior: str = BEHAVIORS[0]


@dataclass(eq=False)
class Texture:
    crop: list = field(default_factory=lambda: [0] * 4)
    values: dict = field(default_factory=lambda: {"GL_TEXTURE_MIN_FILTER": "GL_NEAREST_MIPMAP_LINEAR", "GL_TEXTURE_MAG_FILTER": "GL_LINEAR", "GL_TEXTURE_WRAP_S": "GL_REPEAT", "GL_TEXTURE_WRAP_T": "GL_REPEAT"})
    levels: list = field(default_factory=lambda: [None] * LEVELS)


    def is_complete(self):
        """Whether level 0 has pixels, and where the filter uses mipmaps each further one those of half the sides."""
        base = self.levels[0]
        if not base or self.values["GL_TEXTURE_MIN_FILTER"] not in MIPMAP_FILTERS:
            return bool(base)
        for level in range(1, max(base.width, base.height).bit_length()):
            below = self.levels[level]
            if not below or (below.width, below.height, below.base, below.kind) != (max(base.width >> level, 1), max(base.height >> level, 1), base.base, base.kind):
                return False
        return True

    def sampled(self, width, height):
        """The level that a draw of these sides samples, in fixed point: one for all four mipmap filters."""
        base = self.levels[0]
        if self.values["GL_TEXTURE_MIN_FILTER"] not in MIPMAP_FILTERS:
            return base
        last = max(base.width, base.height).bit_length() - 1
        enough = [level for level in range(1, last + 1) if width << level <= abs(self.crop[2]) * ONE or height << level <= abs(self.crop[3]) * ONE]
        return self.levels[max(enough, default=0)]


@dataclass(eq=False)
class Buffer:
    data: bytes = b""
    usage: str = USAGES[0]

    def bytes(self):
        return len(self.data)


@dataclass(eq=False)
class Renderbuffer:
    """Where it may be attached once it has storage, and its sides; pixels only where that is the colour."""

    point: str = None
    sides: tuple = (0, 0)
    pixels: Storage = None


def levels_of(thing):
    """The storages of a texture's levels, or that of a renderbuffer; None where there is none."""
    return thing.levels if isinstance(thing, Texture) else [thing.pixels] if thing else []


def sides_at(point, thing):
    """The sides of a texture or a renderbuffer that is attached at a point; None where it may not be."""
    sides = (0, 0)
    if point == COLOR:
        pixels = levels_of(thing)[0]
        sides = (pixels.width, pixels.height) if pixels and pixels.base in RENDERABLE else sides
    elif isinstance(thing, Renderbuffer) and thing.point == point:
        sides = thing.sides
    return sides if all(sides) else None


@dataclass(eq=False)
class Framebuffer:
    """By each point at which something is attached its name, and the texture or the renderbuffer."""

    attached: dict = field(default_factory=dict)

    def status(self):
        parts = [sides_at(point, thing) for point, (_, thing) in self.attached.items()]
        if None in parts:
            return UNATTACHABLE
        if not parts:
            return MISSING
        if len(set(parts)) > 1:
            return DIFFERENT
        return COMPLETE if COLOR in self.attached else UNSUPPORTED

    def pixels(self):
        """What is drawn to and read from, where it is complete."""
        return levels_of(self.attached[COLOR][1])[0]

    def detach(self, thing):
        self.attached = {point: named for point, named in self.attached.items() if named[1] is not thing}


@dataclass(eq=False)
class Image:
    """It shares the pixels of what it was made of."""

    storage: Storage


@dataclass(eq=False)
class Group:
    """By each used name its texture, or None; and the same of buffers, of renderbuffers and of framebuffers."""

    names: dict = field(default_factory=dict)
    buffers: dict = field(default_factory=dict)
    renderbuffers: dict = field(default_factory=dict)
    framebuffers: dict = field(default_factory=dict)


@dataclass(eq=False)
class Context:
    config: int
    group: Group
    display: int
    texture: Texture = field(default_factory=Texture)
    # The name and the texture that are bound; its own texture is bound where that is None.
    name: int = 0
    bound: Texture = None
    # By each target of buffers the name and the buffer that are bound to it, where one is.
    buffers: dict = field(default_factory=dict)
    # The name and the renderbuffer that are bound, and those of the framebuffer.
    renderbuffer: tuple = (0, None)
    framebuffer: tuple = (0, None)
    colour: tuple = (0, 0, 0, 0)
    error: str = "GL_NO_ERROR"
    pack: int = 4
    unpack: int = 4
    # The viewport and the scissor box, once it was current.
    boxes: dict = field(default_factory=dict)
    mask: list = field(default_factory=lambda: [True] * 4)
    on: set = field(default_factory=set)
    color: tuple = (ONE,) * 4
    environment: str = "GL_MODULATE"

    def fragment(self):
        """The colour of draws at 8 bits a component."""
        return [(number * 255 + ONE // 2) // ONE for number in self.color]

    def covers(self, x, y):
        """Whether the scissor test lets a pixel through."""
        left, bottom, width, height = self.boxes["GL_SCISSOR_BOX"]
        return "GL_SCISSOR_TEST" not in self.on or left <= x < left + width and bottom <= y < bottom + height

    def target(self):
        """The texture on which calls work."""
        return self.bound or self.texture

    def detach(self, thing):
        """Detaches a texture or a renderbuffer that is deleted from the framebuffer that is bound."""
        if self.framebuffer[1]:
            self.framebuffer[1].detach(thing)


def referred(thing):
    """What an object refers to."""
    if isinstance(thing, Context):
        found = [thing.group, thing.texture, thing.bound, *(buffer for _, buffer in thing.buffers.values()), thing.renderbuffer[1], thing.framebuffer[1]]
    elif isinstance(thing, Group):
        found = [*thing.names.values(), *thing.buffers.values(), *thing.renderbuffers.values(), *thing.framebuffers.values()]
    elif isinstance(thing, Framebuffer):
        found = [attached for _, attached in thing.attached.values()]
    elif isinstance(thing, (Texture, Renderbuffer)):
        found = levels_of(thing)
    else:
        found = [thing.storage] if isinstance(thing, (Surface, Image)) else []
    return [other for other in found if other]


class Objects:
    """The displays, handles and objects, and what is current."""

    def __init__(self, windows, video):
        self.windows, self.video = windows, video
        self.initialized, self.error = set(), "EGL_SUCCESS"
        # By its number each valid handle: its display and its object.
        self.handles, self.next = {}, 3
        # The context, and the surfaces that are drawn to and read from or None, each with the number of its handle.
        self.current = None

    def context(self):
        return self.current[0][0] if self.current else None

    def status(self):
        """The status of the framebuffer that the current context has bound; its surfaces are one where it has none."""
        framebuffer = self.context().framebuffer[1]
        return framebuffer.status() if framebuffer else COMPLETE if self.current[1][0] else UNDEFINED

    def is_incomplete(self):
        return self.status() != COMPLETE

    def pixels(self, which):
        """What is drawn to, or with 2 what is read from, where the status is that it is complete."""
        framebuffer = self.context().framebuffer[1]
        return framebuffer.pixels() if framebuffer else self.current[which][0].storage

    def drawn_to(self):
        return self.pixels(1)

    def read_from(self):
        return self.pixels(2)

    def alive(self, kind):
        """The objects of a kind that are reached from handles and from what is current."""
        reached, ahead = set(), [thing for _, thing in self.handles.values()] + [thing for thing, _ in self.current or [] if thing]
        while ahead:
            thing = ahead.pop()
            if thing not in reached:
                reached.add(thing)
                ahead += referred(thing)
        return {thing for thing in reached if isinstance(thing, kind)}

    def live(self):
        return sum(thing.bytes() for thing in self.alive((Storage, Buffer)))

    def wants(self, thing):
        """Whether there are no bytes left for new pixels or new contents; those that they replace still count."""
        return self.live() + thing.bytes() > self.video

    def census(self):
        kinds = Context, Group, Texture, Buffer, Renderbuffer, Framebuffer, Surface, Storage, Image
        return [*(len(self.alive(kind)) for kind in kinds), 0, self.live()]

    def references(self, storage):
        """How many objects have a storage."""
        return sum(other is storage for thing in self.alive(object) for other in referred(thing))

    def of(self, display, number, kind):
        home, thing = self.handles.get(number, (None, None))
        return thing if home == display and isinstance(thing, kind) else None

    def of_any(self, number, kind):
        return self.of(1, number, kind) or self.of(2, number, kind)

    def window(self, number):
        return next((window for window in self.windows if window.id == number), None)

    def display(self, display):
        refuse((display not in (1, 2), "EGL_BAD_DISPLAY"), (display not in self.initialized, "EGL_NOT_INITIALIZED"))

    def named(self, display, thing):
        self.handles[self.next] = display, thing
        self.next += 1
        return self.next - 1


class EglCalls(Objects):
    """Each call is a method that answers a value, a list and bytes, or refuses."""

    def create_surface(self, display, surface):
        refuse((self.wants(surface.storage), "EGL_BAD_ALLOC"))
        surface.storage.blank()
        return self.named(display, surface)

    def eglCreateWindowSurface(self, display, config, number, attributes):
        self.display(display)
        window = self.window(number)
        refuse((config not in CONFIGS, "EGL_BAD_CONFIG"), (attributes not in RENDER_BUFFERS, "EGL_BAD_ATTRIBUTE"), (config == WITHOUT_WINDOWS, "EGL_BAD_MATCH"), (not window, "EGL_BAD_NATIVE_WINDOW"), (any(surface.window is window for surface in self.alive(Surface)), "EGL_BAD_ALLOC"))
        return self.create_surface(display, Surface(config, Storage(window.width, window.height, *CONFIGS[config][0]), window, RENDER_BUFFERS[attributes]))

    def eglCreatePbufferSurface(self, display, config, sides):
        self.display(display)
        refuse((config not in CONFIGS, "EGL_BAD_CONFIG"))
        return self.create_surface(display, Surface(config, Storage(*sides, *CONFIGS[config][0])))

    def eglCreateContext(self, display, config, share, attributes):
        self.display(display)
        shared = self.of_any(share, Context)
        refuse((config not in CONFIGS, "EGL_BAD_CONFIG"), (attributes not in VERSIONS, "EGL_BAD_ATTRIBUTE"), (share != 0 and not shared, "EGL_BAD_CONTEXT"), (share != 0 and not self.of(display, share, Context), "EGL_BAD_MATCH"))
        refuse((VERSIONS[attributes], VERSIONS[attributes]))
        return self.named(display, Context(config, shared.group if shared else Group(), display))

    def eglDestroySurface(self, display, number):
        self.display(display)
        refuse((not self.of(display, number, Surface), "EGL_BAD_SURFACE"))
        del self.handles[number]
        return 1

    def eglDestroyContext(self, display, number):
        self.display(display)
        refuse((not self.of(display, number, Context), "EGL_BAD_CONTEXT"))
        del self.handles[number]
        return 1

    def eglMakeCurrent(self, display, draw, read, context):
        if draw == read == context == 0:
            refuse((display not in (1, 2), "EGL_BAD_DISPLAY"))
            self.current = None
            return 1
        self.display(display)
        surfaces = [self.of(display, draw, Surface), self.of(display, read, Surface)]
        drawer = self.of(display, context, Context)
        refuse((any(number and not surface for number, surface in zip((draw, read), surfaces)), "EGL_BAD_SURFACE"), (context and not drawer, "EGL_BAD_CONTEXT"), (context == 0 or (draw == 0) != (read == 0), "EGL_BAD_MATCH"))
        refuse((any(surface and CONFIGS[surface.config] != CONFIGS[drawer.config] for surface in surfaces), "EGL_BAD_MATCH"))
        self.current = [(drawer, context), (surfaces[0], draw), (surfaces[1], read)]
        if not drawer.boxes:
            sides = [surfaces[0].storage.width, surfaces[0].storage.height] if surfaces[0] else [0, 0]
            drawer.boxes = {box: [0, 0, *sides] for box in BOXES}
        return 1

    def eglSurfaceAttrib(self, display, number, attribute, value):
        self.display(display)
        surface = self.of(display, number, Surface)
        refuse((not surface, "EGL_BAD_SURFACE"), (attribute != "EGL_SWAP_BEHAVIOR", "EGL_BAD_ATTRIBUTE"), (value not in BEHAVIORS, "EGL_BAD_PARAMETER"))
        surface.behavior = value
        return 1

    def eglQuerySurface(self, display, number, attribute):
        self.display(display)
        surface = self.of(display, number, Surface)
        refuse((not surface, "EGL_BAD_SURFACE"), (attribute not in ATTRIBUTES, "EGL_BAD_ATTRIBUTE"))
        return [surface.config, surface.storage.width, surface.storage.height, surface.behavior, surface.render_buffer, 0][ATTRIBUTES.index(attribute)]

    def eglSwapBuffers(self, display, number):
        self.display(display)
        surface = self.of(display, number, Surface)
        refuse((not surface or not self.current or self.current[1][0] is not surface, "EGL_BAD_SURFACE"))
        if surface.window:
            surface.window.front = list(surface.storage.pixels)
            if surface.behavior != BEHAVIORS[0]:
                surface.storage.blank()
        return 1

    def eglInitialize(self, display):
        refuse((display not in (1, 2), "EGL_BAD_DISPLAY"))
        self.initialized.add(display)
        return 1

    def eglTerminate(self, display):
        refuse((display not in (1, 2), "EGL_BAD_DISPLAY"))
        self.initialized.discard(display)
        self.handles = {number: (home, thing) for number, (home, thing) in self.handles.items() if home != display}
        return 1

    def eglCreateImage(self, display, number, source, name, attributes):
        self.display(display)
        context = self.of(display, number, Context)
        asked = attributes[1:-1].split(",") if attributes != "[]" else []
        pairs = [(which, int(value)) for which, value in zip(asked[::2], asked[1::2])]
        is_allowed = all(which in IMAGE_ATTRIBUTES and (IMAGE_ATTRIBUTES[which] is None or value in IMAGE_ATTRIBUTES[which]) for which, value in pairs)
        refuse((not context, "EGL_BAD_CONTEXT"), (source not in IMAGE_SOURCES, "EGL_BAD_PARAMETER"), (not is_allowed, "EGL_BAD_PARAMETER"))
        thing, level = getattr(context.group, IMAGE_SOURCES[source]).get(name), dict(pairs).get("EGL_GL_TEXTURE_LEVEL", 0)
        levels = {k: storage for k, storage in enumerate(levels_of(thing)) if storage and storage.width and storage.height}
        refuse((not levels, "EGL_BAD_PARAMETER"), (any(levels.get(k) for k in range(1, LEVELS)) and not thing.is_complete(), "EGL_BAD_PARAMETER"), (level not in levels, "EGL_BAD_MATCH"))
        refuse((self.references(levels[level]) > 1, "EGL_BAD_ACCESS"))
        return self.named(display, Image(levels[level]))

    def eglDestroyImage(self, display, number):
        self.display(display)
        refuse((not self.of(display, number, Image), "EGL_BAD_PARAMETER"))
        del self.handles[number]
        return 1

    def eglReleaseThread(self):
        self.current = None
        return 1

    def eglGetCurrentContext(self):
        return self.current[0][1] if self.current else 0

    def eglGetCurrentSurface(self, which):
        refuse((which not in ("EGL_DRAW", "EGL_READ"), "EGL_BAD_PARAMETER"))
        return self.current[1 if which == "EGL_DRAW" else 2][1] if self.current else 0

    def eglGetError(self):
        return self.error


class GlCalls(Objects):
    """Each call is a method of the current context's."""

    def glGetError(self, context):
        error, context.error = context.error, "GL_NO_ERROR"
        return error

    def glClearColorx(self, context, *colour):
        context.colour = tuple(clamped(number) for number in colour)
        return 0

    def glEnable(self, context, switch):
        refuse((switch not in SWITCHES, ENUM))
        context.on.add(switch)
        return 0

    def glDisable(self, context, switch):
        refuse((switch not in SWITCHES + NEVER_ON, ENUM))
        context.on.discard(switch)
        return 0

    def glScissor(self, context, *box):
        refuse((box[2] < 0 or box[3] < 0, VALUE))
        context.boxes["GL_SCISSOR_BOX"] = list(box)
        return 0

    def glViewport(self, context, *box):
        refuse((box[2] < 0 or box[3] < 0, VALUE))
        context.boxes["GL_VIEWPORT"] = list(box)
        return 0

    def glColorMask(self, context, *components):
        context.mask = [component != 0 for component in components]
        return 0

    def glColor4x(self, context, *colour):
        context.color = tuple(clamped(number) for number in colour)
        return 0

    def glClearDepthx(self, context, depth):
        return 0

    def glClearStencil(self, context, stencil):
        return 0

    def glTexEnvx(self, context, target, which, value):
        refuse(((target, which) != ("GL_TEXTURE_ENV", "GL_TEXTURE_ENV_MODE") or value not in ENVIRONMENTS, ENUM))
        context.environment = value
        return 0

    def glClear(self, context, mask):
        refuse((mask not in CLEARED, VALUE), (self.is_incomplete(), FRAMEBUFFER))
        if "COLOR" in mask:
            self.drawn_to().fill(context.colour, context.covers, context.mask)
        return 0

    def glReadPixels(self, context, left, bottom, width, height, form, kind):
        is_known = form in ("GL_RGBA", "GL_RGB") and kind in ("GL_UNSIGNED_BYTE", "GL_UNSIGNED_SHORT_5_6_5")
        refuse((any(not 0 <= side <= LONGEST_READ for side in (width, height)), VALUE), (not is_known, ENUM), ((form == "GL_RGBA") != (kind == "GL_UNSIGNED_BYTE"), OPERATION), (self.is_incomplete(), FRAMEBUFFER))
        spelled = bytes if form == "GL_RGBA" else packed
        rows = [b"".join(spelled(self.read_from().pixel(x, y)) for x in range(left, left + width)) for y in range(bottom, bottom + height)]
        return 0, [], b"".join(row + bytes(-len(row) % context.pack) for row in rows)

    def glPixelStorei(self, context, which, number):
        refuse((which not in ("GL_PACK_ALIGNMENT", "GL_UNPACK_ALIGNMENT"), ENUM), (number not in ALIGNMENTS, VALUE))
        if which == "GL_PACK_ALIGNMENT":
            context.pack = number
        else:
            context.unpack = number
        return 0

    def glGetIntegerv(self, context, which, index):
        values = dict(context.boxes)
        values |= {"GL_PACK_ALIGNMENT": [context.pack], "GL_UNPACK_ALIGNMENT": [context.unpack], "GL_MAX_TEXTURE_SIZE": [LONGEST], "GL_TEXTURE_BINDING_2D": [context.name]}
        values |= {binding: [context.buffers.get(target, (0, None))[0]] for target, binding in BUFFER_BINDINGS.items()}
        values |= {"GL_RENDERBUFFER_BINDING_OES": [context.renderbuffer[0]], "GL_FRAMEBUFFER_BINDING_OES": [context.framebuffer[0]]}
        refuse((which not in values, ENUM))
        refuse((not 0 <= index < len(values[which]), VALUE))
        return values[which][index]


def generated(names, count):
    """The smallest unused names, which are used from then on."""
    refuse((not 0 <= count <= MOST_NAMES, VALUE))
    given, name = [], 1
    while len(given) < count:
        if name not in names:
            given.append(name)
        name += 1
    names.update(dict.fromkeys(given))
    return 0, given, b""


class TextureCalls(Objects):
    """The calls on names of textures and on textures."""

    def glGenTextures(self, context, count):
        return generated(context.group.names, count)

    def glDeleteTextures(self, context, names):
        for name in names:
            texture = context.group.names.pop(name, None)
            if texture:
                context.detach(texture)
            if texture and texture is context.bound:
                context.name, context.bound = 0, None
        return 0

    def glIsTexture(self, context, name):
        return 1 if context.group.names.get(name) else 0

    def glBindTexture(self, context, target, name):
        refuse((target != "GL_TEXTURE_2D", ENUM), (name < 0, VALUE))
        names = context.group.names
        if name and not names.get(name):
            names[name] = Texture()
        context.name, context.bound = name, names[name] if name else None
        return 0

    def glTexParameterx(self, context, target, which, value):
        refuse((target != "GL_TEXTURE_2D", ENUM), (value not in PARAMETERS.get(which, []), ENUM))
        context.target().values[which] = value
        return 0

    def glTexParameteriv(self, context, target, which, numbers):
        refuse((target != "GL_TEXTURE_2D", ENUM), (which != "GL_TEXTURE_CROP_RECT_OES", ENUM), (len(numbers) != 4, VALUE))
        context.target().crop = list(numbers)
        return 0

    def glTexImage2D(self, context, target, level, internal, width, height, border, form, kind, payload):
        refuse((target != "GL_TEXTURE_2D", ENUM), (form not in FORMATS or kind not in TYPES, ENUM), (internal not in FORMATS, VALUE), (not 0 <= level < LEVELS, VALUE), (is_no_side(width, level) or is_no_side(height, level), VALUE), (border != 0, VALUE), (internal != form, OPERATION), ((form, kind) not in FORMS, OPERATION))
        storage = Storage(width, height, form, kind)
        refuse((self.wants(storage), MEMORY))
        storage.pixels = transferred(payload, width, height, form, kind, context.unpack)
        context.target().levels[level] = storage if width and height else None
        return 0

    def glTexSubImage2D(self, context, target, level, left, bottom, width, height, form, kind, payload):
        refuse((target != "GL_TEXTURE_2D", ENUM), (form not in FORMATS or kind not in TYPES, ENUM), (not 0 <= level < LEVELS, VALUE))
        storage = context.target().levels[level]
        refuse((not storage, OPERATION))
        refuse((is_outside(left, width, storage.width) or is_outside(bottom, height, storage.height), VALUE), (form != storage.base, OPERATION), ((form, kind) not in FORMS, OPERATION))
        given = iter(transferred(payload, width, height, form, kind, context.unpack))
        for y in range(bottom, bottom + height):
            for x in range(left, left + width):
                storage.pixels[y * storage.width + x] = kept(next(given), storage.base, storage.kind)
        return 0

    def copied(self, left, bottom, width, height, base, kind):
        """The pixels of a rectangle of what is read from as a storage of this form keeps them, row by row; zeros outside."""
        source = self.read_from()
        return [kept(source.pixel(x, y), base, kind) for y in range(bottom, bottom + height) for x in range(left, left + width)]

    def glCopyTexImage2D(self, context, target, level, internal, left, bottom, width, height, border):
        refuse((target != "GL_TEXTURE_2D", ENUM), (internal not in FORMATS, VALUE), (not 0 <= level < LEVELS, VALUE), (is_no_side(width, level) or is_no_side(height, level), VALUE), (border != 0, VALUE), (self.is_incomplete(), FRAMEBUFFER))
        refuse(("a" in COMPONENTS[internal] and not self.read_from().has_alpha(), OPERATION))
        storage = Storage(width, height, internal, "GL_UNSIGNED_BYTE")
        refuse((self.wants(storage), MEMORY))
        storage.pixels = self.copied(left, bottom, width, height, internal, "GL_UNSIGNED_BYTE")
        context.target().levels[level] = storage if width and height else None
        return 0

    def glCopyTexSubImage2D(self, context, target, level, left, bottom, from_left, from_bottom, width, height):
        refuse((target != "GL_TEXTURE_2D", ENUM), (not 0 <= level < LEVELS, VALUE))
        storage = context.target().levels[level]
        refuse((not storage, OPERATION))
        refuse((is_outside(left, width, storage.width) or is_outside(bottom, height, storage.height), VALUE), (self.is_incomplete(), FRAMEBUFFER))
        refuse(("a" in COMPONENTS[storage.base] and not self.read_from().has_alpha(), OPERATION))
        copied = iter(self.copied(from_left, from_bottom, width, height, storage.base, storage.kind))
        for y in range(bottom, bottom + height):
            for x in range(left, left + width):
                storage.pixels[y * storage.width + x] = next(copied)
        return 0

    def glDrawTexiOES(self, context, left, bottom, depth, width, height):
        return self.draw(context, *(ONE * number for number in (left, bottom, width, height)))

    def glDrawTexxOES(self, context, left, bottom, depth, width, height):
        return self.draw(context, left, bottom, width, height)

    def draw(self, context, left, bottom, width, height):
        """Draws a rectangle in fixed point: each pixel whose centre it covers shows the colour, or what the environment makes of that and a texel from before the draw."""
        refuse((width < 1 or height < 1, VALUE), (self.is_incomplete(), FRAMEBUFFER))
        target, texture = self.drawn_to(), context.target()
        level = texture.sampled(width, height) if "GL_TEXTURE_2D" in context.on and texture.is_complete() else None
        drawn = {}
        for k in range(target.width * target.height):
            y, x = divmod(k, target.width)
            if is_covered(left, width, x) and is_covered(bottom, height, y) and context.covers(x, y):
                drawn[k] = combined(context, level, texel(texture, level, (left, bottom), (width, height), x, y)) if level else context.fragment()
        for k, fragment in drawn.items():
            target.write(k, fragment, context.mask)
        return 0


class BufferCalls(Objects):
    """The calls on names of buffers and on buffers."""

    def glGenBuffers(self, context, count):
        return generated(context.group.buffers, count)

    def glDeleteBuffers(self, context, names):
        for name in names:
            buffer = context.group.buffers.pop(name, None)
            if buffer:
                context.buffers = {target: bound for target, bound in context.buffers.items() if bound[1] is not buffer}
        return 0

    def glIsBuffer(self, context, name):
        return 1 if context.group.buffers.get(name) else 0

    def glBindBuffer(self, context, target, name):
        refuse((target not in BUFFER_BINDINGS, ENUM), (name < 0, VALUE))
        context.buffers.pop(target, None)
        if name:
            names = context.group.buffers
            if not names.get(name):
                names[name] = Buffer()
            context.buffers[target] = name, names[name]
        return 0

    def glBufferData(self, context, target, size, usage, payload):
        refuse((target not in BUFFER_BINDINGS, ENUM), (usage not in USAGES, ENUM), (size < 0, VALUE), (target not in context.buffers, OPERATION))
        refuse((self.live() + size > self.video, MEMORY))
        buffer = context.buffers[target][1]
        buffer.data, buffer.usage = spelled_out(payload, size), usage
        return 0

    def part(self, context, target, offset, size):
        """The buffer of which a part is named."""
        refuse((target not in BUFFER_BINDINGS, ENUM), (offset < 0 or size < 0, VALUE), (target not in context.buffers, OPERATION))
        buffer = context.buffers[target][1]
        refuse((offset + size > len(buffer.data), VALUE))
        return buffer

    def glBufferSubData(self, context, target, offset, size, payload):
        buffer = self.part(context, target, offset, size)
        buffer.data = buffer.data[:offset] + spelled_out(payload, size) + buffer.data[offset + size:]
        return 0

    def glGetBufferParameteriv(self, context, target, which):
        refuse((target not in BUFFER_BINDINGS, ENUM), (which not in ("GL_BUFFER_SIZE", "GL_BUFFER_USAGE"), ENUM), (target not in context.buffers, OPERATION))
        buffer = context.buffers[target][1]
        return len(buffer.data) if which == "GL_BUFFER_SIZE" else buffer.usage

    def readBuffer(self, context, target, offset, size):
        return 0, [], self.part(context, target, offset, size).data[offset:offset + size]


class RenderbufferCalls(Objects):
    """The calls on names of renderbuffers and on renderbuffers."""

    def glGenRenderbuffersOES(self, context, count):
        return generated(context.group.renderbuffers, count)

    def glDeleteRenderbuffersOES(self, context, names):
        for name in names:
            renderbuffer = context.group.renderbuffers.pop(name, None)
            if renderbuffer:
                context.detach(renderbuffer)
            if renderbuffer and context.renderbuffer[1] is renderbuffer:
                context.renderbuffer = 0, None
        return 0

    def glIsRenderbufferOES(self, context, name):
        return 1 if context.group.renderbuffers.get(name) else 0

    def glBindRenderbufferOES(self, context, target, name):
        refuse((target != RENDERBUFFER, ENUM), (name < 0, VALUE))
        names = context.group.renderbuffers
        if name and not names.get(name):
            names[name] = Renderbuffer()
        context.renderbuffer = name, names[name] if name else None
        return 0

    def glRenderbufferStorageOES(self, context, target, internal, width, height):
        refuse((target != RENDERBUFFER, ENUM), (internal not in INTERNAL_FORMATS, ENUM), (not (0 <= width <= LONGEST_STORED and 0 <= height <= LONGEST_STORED), VALUE), (not context.renderbuffer[0], OPERATION))
        point, form = INTERNAL_FORMATS[internal]
        pixels = Storage(width, height, *form) if form else None
        refuse((pixels and self.wants(pixels), MEMORY))
        if pixels:
            pixels.blank()
        context.renderbuffer[1].point, context.renderbuffer[1].sides, context.renderbuffer[1].pixels = point, (width, height), pixels
        return 0

    def glGetRenderbufferParameterivOES(self, context, target, which):
        refuse((target != RENDERBUFFER, ENUM), (which not in SIDES, ENUM), (not context.renderbuffer[0], OPERATION))
        return context.renderbuffer[1].sides[SIDES[which]]


class FramebufferCalls(Objects):
    """The calls on names of framebuffers and on framebuffers."""

    def glGenFramebuffersOES(self, context, count):
        return generated(context.group.framebuffers, count)

    def glDeleteFramebuffersOES(self, context, names):
        for name in names:
            framebuffer = context.group.framebuffers.pop(name, None)
            if framebuffer and context.framebuffer[1] is framebuffer:
                context.framebuffer = 0, None
        return 0

    def glIsFramebufferOES(self, context, name):
        return 1 if context.group.framebuffers.get(name) else 0

    def glBindFramebufferOES(self, context, target, name):
        refuse((target != FRAMEBUFFERS, ENUM), (name < 0, VALUE))
        names = context.group.framebuffers
        if name and not names.get(name):
            names[name] = Framebuffer()
        context.framebuffer = name, names[name] if name else None
        return 0

    def attach(self, context, point, name, thing):
        """Attaches what has a name, or with 0 nothing."""
        attached = context.framebuffer[1].attached
        attached.pop(point, None)
        if name:
            attached[point] = name, thing
        return 0

    def glFramebufferTexture2DOES(self, context, target, point, of, name, level):
        texture = context.group.names.get(name)
        refuse((target != FRAMEBUFFERS, ENUM), (point not in POINTS, ENUM), (not context.framebuffer[0], OPERATION))
        if name:
            refuse((of != "GL_TEXTURE_2D", ENUM), (not texture, OPERATION), (level != 0, VALUE))
        return self.attach(context, point, name, texture)

    def glFramebufferRenderbufferOES(self, context, target, point, of, name):
        renderbuffer = context.group.renderbuffers.get(name)
        refuse((target != FRAMEBUFFERS, ENUM), (point not in POINTS, ENUM), (of != RENDERBUFFER, ENUM), (not context.framebuffer[0], OPERATION), (name != 0 and not renderbuffer, OPERATION))
        return self.attach(context, point, name, renderbuffer)

    def glCheckFramebufferStatusOES(self, context, target):
        refuse((target != FRAMEBUFFERS, ENUM))
        return self.status()

    def glGetFramebufferAttachmentParameterivOES(self, context, target, point, which):
        refuse((target != FRAMEBUFFERS, ENUM), (point not in POINTS, ENUM), (not context.framebuffer[0], OPERATION), (which not in (OBJECT_TYPE, OBJECT_NAME), ENUM))
        name, thing = context.framebuffer[1].attached.get(point, (0, None))
        refuse((which == OBJECT_NAME and not thing, ENUM))
        if which == OBJECT_NAME:
            return name
        return "GL_NONE_OES" if not thing else "GL_TEXTURE" if isinstance(thing, Texture) else RENDERBUFFER


class ImageTargetCalls(Objects):
    """The calls by which a texture or a renderbuffer takes an image's pixels."""

    def glEGLImageTargetTexture2DOES(self, context, target, number):
        image = self.of(context.display, number, Image)
        refuse((target != "GL_TEXTURE_2D", ENUM), (not image, VALUE))
        context.target().levels = [image.storage] + [None] * (LEVELS - 1)
        return 0

    def glEGLImageTargetRenderbufferStorageOES(self, context, target, number):
        image, renderbuffer = self.of(context.display, number, Image), context.renderbuffer[1]
        refuse((target != RENDERBUFFER, ENUM), (not image, VALUE), (not renderbuffer, OPERATION))
        refuse((image.storage.base not in RENDERABLE, OPERATION))
        renderbuffer.point, renderbuffer.sides, renderbuffer.pixels = COLOR, (image.storage.width, image.storage.height), image.storage
        return 0


class Model(EglCalls, GlCalls, TextureCalls, BufferCalls, RenderbufferCalls, FramebufferCalls, ImageTargetCalls):
    """What a driver answers, call by call."""

    def readFront(self, number):
        window = self.window(number)
        return 0, [], b"".join(window.front) if window else b""

    def answer(self, name, arguments):
        """A value, a list and bytes."""
        if name == "census":
            return 0, self.census(), b""
        if name.startswith("gl") or name == "readBuffer":
            # Without a current context nothing is done.
            answer = getattr(self, name)(self.context(), *arguments) if self.current else 0
        else:
            answer = getattr(self, name)(*arguments)
        return answer if isinstance(answer, tuple) else (answer, [], b"")

    def keep(self, name, error):
        """The thread keeps the error of each call of EGL, and the context the first of those of OpenGL ES."""
        if name.startswith("egl"):
            self.error = error or "EGL_SUCCESS"
        elif error and self.context().error == "GL_NO_ERROR":
            self.context().error = error

    def play(self, name, arguments):
        """The outcome, the value, the list and the bytes of a call."""
        try:
            value, numbers, read = self.answer(name, arguments)
        except Refused as refused:
            self.keep(name, str(refused))
            return str(refused), 0, [], b""
        self.keep(name, None)
        return "ok", value, numbers, read
