"""What a judge keeps beside the program's state: handles, names, configs, errors, and in which formats pixels are kept.

It follows the program's answers and decides nothing itself.
"""
from dataclasses import dataclass, field

# By the id of each of our configs: red, green, blue and alpha bits, depth and stencil.
CONFIGS = {1: (5, 6, 5, 0, 0, 0), 2: (5, 6, 5, 0, 16, 0), 3: (8, 8, 8, 0, 0, 0), 4: (8, 8, 8, 8, 0, 0), 5: (8, 8, 8, 8, 24, 8), 6: (4, 4, 4, 4, 0, 0), 7: (5, 5, 5, 1, 0, 0), 8: (8, 8, 8, 8, 0, 0)}
# The bits of red, green, blue and alpha: by a format of a renderbuffer, by a packed type, by a format of bytes.
FORMS = {"GL_RGB565_OES": (5, 6, 5, 0), "GL_RGBA4_OES": (4, 4, 4, 4), "GL_RGB5_A1_OES": (5, 5, 5, 1), "GL_RGBA8_OES": (8, 8, 8, 8), "GL_UNSIGNED_SHORT_5_6_5": (5, 6, 5, 0), "GL_UNSIGNED_SHORT_4_4_4_4": (4, 4, 4, 4), "GL_UNSIGNED_SHORT_5_5_5_1": (5, 5, 5, 1), "GL_RGB": (8, 8, 8, 0)}
# By a call that creates: the kind of its handle.
CREATING = {"eglCreateWindowSurface": "surface", "eglCreatePbufferSurface": "surface", "eglCreateContext": "context", "eglCreateSync": "sync", "eglCreateImage": "image"}
DESTROYING = ("eglDestroySurface", "eglDestroyContext", "eglDestroySync", "eglDestroyImage")
NAMED = {"Textures": "texture", "Texture": "texture", "Buffers": "buffer", "Buffer": "buffer", "RenderbuffersOES": "renderbuffer", "RenderbufferOES": "renderbuffer", "FramebuffersOES": "framebuffer", "FramebufferOES": "framebuffer"}
BINDINGS = {"GL_TEXTURE_BINDING_2D": "texture", "GL_ARRAY_BUFFER_BINDING": "buffer", "GL_ELEMENT_ARRAY_BUFFER_BINDING": "buffer", "GL_FRAMEBUFFER_BINDING_OES": "framebuffer", "GL_RENDERBUFFER_BINDING_OES": "renderbuffer"}
COLOR, PLAIN = "GL_COLOR_ATTACHMENT0_OES", (8, 8, 8, 8)


@dataclass(eq=False)
class Pixels:
    """The bits of a component, the sides, and whether some may never have been written, or come from such ones."""

    bits: tuple = PLAIN
    width: int = 0
    height: int = 0
    is_unwritten: bool = True


class Thing:
    """A texture, a renderbuffer or a framebuffer: by a level its pixels, or by a point what is attached."""

    def __init__(self):
        self.parts = {}


@dataclass(eq=False)
class Group:
    # By a kind and a name of ours the object, and the driver's name.
    objects: dict = field(default_factory=dict)
    theirs: dict = field(default_factory=dict)


@dataclass(eq=False)
class Context:
    display: int
    group: Group
    error: str = None
    pack: int = 4
    own: Thing = field(default_factory=Thing)
    # What is enabled, and whether each component is written.
    on: set = field(default_factory=set)
    is_masked: bool = False
    # By a kind the object that is bound.
    bound: dict = field(default_factory=dict)


class Shadow:
    def __init__(self):
        # By a thread its error, and the handles of its context and of the surfaces it draws to and reads from.
        self.errors, self.current = {}, {}
        # By a handle of ours its kind and its display, while it is valid; the driver's number; and what it stands for.
        self.valid, self.theirs, self.contexts, self.surfaces, self.images = {}, {}, {}, {}, {}
        # By a window the pixels of its surface, and what it shows.
        self.displays, self.windows, self.fronts = {}, {}, {}

    def context(self, thread):
        return self.contexts.get(self.current.get(thread, (0, 0, 0))[2])

    def error(self, thread):
        return self.errors.get(thread, "EGL_SUCCESS")

    def note(self, thread, name, error):
        """Keeps an error, or with None that there was none."""
        if name.startswith("egl"):
            if name != "eglGetError":
                self.errors[thread] = error or "EGL_SUCCESS"
        elif error and self.context(thread) and not self.context(thread).error:
            self.context(thread).error = error

    def is_taken(self, kind, display, theirs):
        """Whether the driver's number stands for a valid handle of ours already."""
        return any(home == (kind, display) and self.theirs.get(ours) == theirs for ours, home in self.valid.items())

    def follow(self, thread, name, args, value, listed):
        """Takes a call that was done: its arguments as the specification has them, and its answer."""
        act = getattr(self, name, None)
        if name in CREATING:
            self.valid[value] = CREATING[name], args[0]
        if name in DESTROYING:
            self.valid.pop(args[1], None)
        if act and (name.startswith("egl") or self.context(thread)):
            act(thread, args, value, listed)
        elif name.startswith("gl") and self.context(thread):
            self.follow_names(self.context(thread), name, args, listed)

    def eglTerminate(self, thread, args, value, listed):
        self.valid = {handle: home for handle, home in self.valid.items() if home[1] != args[0]}

    def eglCreateContext(self, thread, args, value, listed):
        shared = self.contexts.get(args[2])
        self.contexts[value] = Context(args[0], shared.group if shared else Group())

    def eglCreateWindowSurface(self, thread, args, value, listed):
        self.surfaces[value] = self.windows[args[2]] = Pixels(CONFIGS[args[1]][:4], 1 << 30, 1 << 30)

    def eglCreatePbufferSurface(self, thread, args, value, listed):
        sides = dict(zip(args[2][::2], args[2][1::2]))
        self.surfaces[value] = Pixels(CONFIGS[args[1]][:4], sides.get("EGL_WIDTH", 0), sides.get("EGL_HEIGHT", 0))

    def eglSwapBuffers(self, thread, args, value, listed):
        surface = self.surfaces.get(args[1])
        for window, pixels in self.windows.items():
            if pixels is surface:
                self.fronts[window] = Pixels(pixels.bits, pixels.width, pixels.height, pixels.is_unwritten)
                # What a swap leaves is a driver's own.
                pixels.is_unwritten = True

    def eglMakeCurrent(self, thread, args, value, listed):
        self.current[thread] = args[1:4]

    def eglReleaseThread(self, thread, args, value, listed):
        self.current.pop(thread, None)
        self.errors.pop(thread, None)

    def eglCreateImage(self, thread, args, value, listed):
        kind = "texture" if args[2] == "EGL_GL_TEXTURE_2D" else "renderbuffer"
        thing, level = self.contexts[args[1]].group.objects.get((kind, args[3])), 0
        for which, given in zip(args[4][::2], args[4][1::2]):
            level = given if which == "EGL_GL_TEXTURE_LEVEL" else level
        self.images[value] = thing.parts.get(level, Pixels()) if thing else Pixels()

    def target(self, thread, kind):
        context = self.context(thread)
        return context.bound.get(kind) or context.own

    def glTexImage2D(self, thread, args, value, listed):
        form, kind = args[6:8]
        self.target(thread, "texture").parts[args[1]] = Pixels(FORMS.get(kind) or FORMS.get(form, PLAIN), args[3], args[4], args[8] == "-")

    def glCopyTexImage2D(self, thread, args, value, listed):
        self.target(thread, "texture").parts[args[1]] = Pixels(FORMS.get(args[2], PLAIN), args[5], args[6], self.takes_unwritten(thread, *args[3:7]))

    def glCopyTexSubImage2D(self, thread, args, value, listed):
        pixels = self.target(thread, "texture").parts.get(args[1])
        if pixels and self.takes_unwritten(thread, *args[4:8]):
            pixels.is_unwritten = True

    def takes_unwritten(self, thread, left, bottom, width, height):
        """Whether a rectangle of what is read from may have pixels that were never written, or lies outside."""
        source = self.read_from(thread)
        return source.is_unwritten or left < 0 or bottom < 0 or left + width > source.width or bottom + height > source.height

    def glEnable(self, thread, args, value, listed):
        self.context(thread).on.add(args[0])

    def glDisable(self, thread, args, value, listed):
        self.context(thread).on.discard(args[0])

    def glColorMask(self, thread, args, value, listed):
        self.context(thread).is_masked = 0 in args

    def glClear(self, thread, args, value, listed):
        context = self.context(thread)
        is_colour = args[0] & 1 if isinstance(args[0], int) else "COLOR" in args[0]
        if is_colour and "GL_SCISSOR_TEST" not in context.on and not context.is_masked:
            self.drawn_to(thread).is_unwritten = False

    def glDrawTexiOES(self, thread, args, value, listed):
        context = self.context(thread)
        if "GL_TEXTURE_2D" in context.on and any(pixels.is_unwritten for pixels in self.target(thread, "texture").parts.values()):
            self.drawn_to(thread).is_unwritten = True

    glDrawTexxOES = glDrawTexiOES

    def glRenderbufferStorageOES(self, thread, args, value, listed):
        self.target(thread, "renderbuffer").parts[0] = Pixels(FORMS.get(args[1], PLAIN), args[2], args[3])

    def glEGLImageTargetTexture2DOES(self, thread, args, value, listed):
        self.target(thread, "texture").parts = {0: self.images.get(args[1], Pixels())}

    def glEGLImageTargetRenderbufferStorageOES(self, thread, args, value, listed):
        self.target(thread, "renderbuffer").parts = {0: self.images.get(args[1], Pixels())}

    def attach(self, thread, point, kind, name):
        self.target(thread, "framebuffer").parts[point] = self.context(thread).group.objects.get((kind, name))

    def glFramebufferTexture2DOES(self, thread, args, value, listed):
        self.attach(thread, args[1], "texture", args[3])

    def glFramebufferRenderbufferOES(self, thread, args, value, listed):
        self.attach(thread, args[1], "renderbuffer", args[3])

    def attached_kinds(self, thread, point, name):
        """Of which kind what is attached at a point may be, whose name this is."""
        thing, names = self.target(thread, "framebuffer").parts.get(point), self.context(thread).group.objects
        kinds = ["texture", "renderbuffer"]
        return [kind for kind in kinds if thing and names.get((kind, name)) is thing] or kinds

    def glPixelStorei(self, thread, args, value, listed):
        if args[0] == "GL_PACK_ALIGNMENT":
            self.context(thread).pack = args[1]

    def follow_names(self, context, name, args, listed):
        """What a call binds, generates or deletes."""
        for word in ("glBind", "glDelete"):
            kind = NAMED.get(name.removeprefix(word))
            if kind and word == "glBind":
                names = context.group.objects
                context.bound[kind] = names.setdefault((kind, args[1]), Thing()) if args[1] else None
            elif kind:
                for ours in args[0]:
                    self.delete(context, kind, ours)

    def delete(self, context, kind, ours):
        thing = context.group.objects.pop((kind, ours), None)
        context.group.theirs.pop((kind, ours), None)
        if thing and context.bound.get(kind) is thing:
            context.bound[kind] = None
        framebuffer = context.bound.get("framebuffer")
        if thing and framebuffer:
            framebuffer.parts = {point: other for point, other in framebuffer.parts.items() if other is not thing}

    def pixels(self, thread, place):
        """The pixels of what a thread has bound as its framebuffer, or those of a surface of its own."""
        framebuffer = self.context(thread).bound.get("framebuffer")
        if framebuffer:
            attached = framebuffer.parts.get(COLOR)
            return attached.parts.get(0) or Pixels() if attached else Pixels()
        return self.surfaces.get(self.current[thread][place]) or Pixels()

    def drawn_to(self, thread):
        return self.pixels(thread, 0)

    def read_from(self, thread):
        return self.pixels(thread, 1)
